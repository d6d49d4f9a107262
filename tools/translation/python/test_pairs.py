
    def test_two_operations_end_with_one_document(self) -> None:
        draw = random.Random(1)
        for _ in range(1000):
            shared = SharedText("".join(draw.choices("xyz", k=draw.randint(1, 8))))
            a, b = (drawn_operation(draw, shared, site) for site in (1, 2))
            assert a is not None and b is not None
            ends = []
            for first, second in ((a, b), (b, a)):
                form = <<module>>.transform(second, first)
                assert form is not None
                behind = <<module>>.apply(shared, first)
                assert behind is not None
                ends.append(<<module>>.apply(behind, form))
            self.assertEqual(ends[0], ends[1], (shared, a, b))


if __name__ == "__main__":
    unittest.main()
