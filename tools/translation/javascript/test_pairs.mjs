
test("two operations end with one document", () => {
  const draw = drawing(1);
  for (let round = 0; round < 1000; round += 1) {
    const shared = new it.SharedText("xyzxyzxy".slice(0, 1 + draw(8)));
    const [a, b] = [1, 2].map((site) => drawnOperation(draw, shared, site));
    const ends = [[a, b], [b, a]].map(([first, second]) =>
      it.apply(it.apply(shared, first), it.transform(second, first)),
    );
    assert.notEqual(ends[0], null);
    assert.deepEqual(ends[0], ends[1]);
  }
});
