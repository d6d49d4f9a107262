
    def test_sites_end_with_one_document(self) -> None:
        for seed in range(5):
            draw = random.Random(seed)
            shared = SharedText("x\u00e9\U0001d538")
            sites = [<<module>>.Site(number, shared) for number in (1, 2, 3)]
            messages: list[str] = []
            for _ in range(60):
                site = draw.choice(sites)
                if draw.random() < 0.4 or not messages:
                    made = drawn_operation(draw, site.shared, site.site)
                    if made is not None:
                        messages.append(json.dumps(site.make(made)))
                else:
                    # Early, late or twice, as it happens.
                    site.take(json.loads(draw.choice(messages)))
            for site in sites:
                for message in draw.sample(messages, len(messages)):
                    site.take(json.loads(message))
                self.assertEqual(site.held, [])
                self.assertEqual(site.shared, sites[0].shared, (seed, site.site))


if __name__ == "__main__":
    unittest.main()
