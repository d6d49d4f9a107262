// Random operations on <<module>>.mjs: node --test <<module>>.test.mjs
import assert from "node:assert/strict";
import test from "node:test";

import * as it from "./<<module>>.mjs";

/** Draws numbers below a bound, the same ones for a seed. */
function drawing(seed) {
  let state = seed + 1;
  return (bound) => {
    state = (Math.imul(state, 1664525) + 1013904223) >>> 0;
    return Math.floor((state / 2 ** 32) * bound);
  };
}

/** An operation that has its place in the document, or null where none has. */
function drawnOperation(draw, shared, site) {
  const cells = shared.cells.length;
  const kinds = it.KINDS.filter((kind) => cells > 0 || kind === "ins");
  if (kinds.length === 0) {
    return null;
  }
  const kind = kinds[draw(kinds.length)];
  const position = draw(kind === "ins" ? cells + 1 : cells);
  return { kind, position, character: kind === "del" ? "" : "ab\u{1d538}".match(/./gu)[draw(3)], site };
}

const throughJson = (value) => JSON.parse(JSON.stringify(value));

test("a wrong argument is told", () => {
  assert.throws(() => it.apply("text", it.NOP), /SharedText/);
  assert.throws(() => it.transform("text", it.NOP), /an operation is wanted/);
  assert.throws(() => it.apply(new it.SharedText("x"), { kind: "cut" }), /kind/);
<<differ>>
});

test("an offset counts as a browser does", () => {
  const shared = new it.SharedText("x\u{1d538}y");
  assert.deepEqual([0, 1, 3, 4].map((offset) => shared.positionAt(offset)), [0, 1, 2, 3]);
  assert.deepEqual([0, 1, 2, 3].map((position) => shared.offsetAt(position)), [0, 1, 3, 4]);
  assert.throws(() => shared.positionAt(2), /offset 2/);
});
