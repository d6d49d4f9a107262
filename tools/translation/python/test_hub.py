
    def test_clients_and_server_end_with_one_document(self) -> None:
        for seed in range(10):
            draw = random.Random(seed)
            server = <<module>>.Server(SharedText("x\u00e9\U0001d538"))
            clients: dict[int, <<module>>.Client] = {}
            up: dict[int, list[Any]] = {}
            down: dict[int, list[Any]] = {}
            for _ in range(3):
                client = <<module>>.Client(through_json(server.join()))
                clients[client.site], up[client.site], down[client.site] = client, [], []

            def send(site: int) -> None:
                for to, entry in server.receive(up[site].pop(0)):
                    down[to].append(through_json(entry))

            for _ in range(200):
                site = draw.choice(list(clients))
                if draw.random() < 0.5:
                    made = drawn_operation(draw, clients[site].shared, site)
                    if made is not None:
                        up[site].append(through_json(clients[site].edit(made)))
                elif draw.random() < 0.5 and up[site]:
                    send(site)
                elif down[site]:
                    clients[site].receive(down[site].pop(0))
            for site in clients:
                while up[site]:
                    send(site)
            for site, client in clients.items():
                for entry in down[site]:
                    client.receive(entry)
                self.assertEqual(client.shared, server.shared, (seed, site))
                self.assertEqual(client.pending, [])
                self.assertEqual(client.received, len(server.log))


if __name__ == "__main__":
    unittest.main()
