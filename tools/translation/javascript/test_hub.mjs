
test("clients and server end with one document", () => {
  for (let seed = 0; seed < 10; seed += 1) {
    const draw = drawing(seed);
    const server = new it.Server(new it.SharedText("x\u00e9\u{1d538}"));
    const clients = [1, 2, 3].map(() => ({
      it: new it.Client(throughJson(server.join())),
      up: [],
      down: [],
    }));
    const send = (client) => {
      for (const { to, entry } of server.receive(client.up.shift())) {
        clients[to - 1].down.push(throughJson(entry));
      }
    };
    for (let round = 0; round < 200; round += 1) {
      const client = clients[draw(3)];
      if (draw(2) === 0) {
        const made = drawnOperation(draw, client.it.shared, client.it.site);
        if (made !== null) client.up.push(throughJson(client.it.edit(made)));
      } else if (draw(2) === 0 && client.up.length > 0) {
        send(client);
      } else if (client.down.length > 0) {
        client.it.receive(client.down.shift());
      }
    }
    for (const client of clients) {
      while (client.up.length > 0) send(client);
    }
    for (const client of clients) {
      for (const entry of client.down) client.it.receive(entry);
      assert.deepEqual(client.it.shared, server.shared);
      assert.equal(client.it.pending.length, 0);
      assert.equal(client.it.received, server.log.length);
    }
  }
});
