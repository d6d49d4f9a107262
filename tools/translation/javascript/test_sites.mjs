
test("sites end with one document", () => {
  for (let seed = 0; seed < 5; seed += 1) {
    const draw = drawing(seed);
    const begin = new it.SharedText("x\u00e9\u{1d538}");
    const sites = [1, 2, 3].map((number) => new it.Site(number, begin));
    const messages = [];
    for (let round = 0; round < 60; round += 1) {
      const site = sites[draw(3)];
      if (draw(5) < 2 || messages.length === 0) {
        const made = drawnOperation(draw, site.shared, site.site);
        if (made !== null) messages.push(JSON.stringify(site.make(made)));
      } else {
        // Early, late or twice, as it happens.
        site.take(JSON.parse(messages[draw(messages.length)]));
      }
    }
    for (const site of sites) {
      const left = [...messages];
      while (left.length > 0) {
        site.take(JSON.parse(left.splice(draw(left.length), 1)[0]));
      }
      assert.equal(site.held.length, 0);
      assert.deepEqual(site.shared, sites[0].shared);
    }
  }
});
