
/**
 * What was done to a document; a deletion has no character, and "nop" nothing.
 * A position counts all cells from 0, a character is one code point, and a site
 * is the number of who made it.
 *
 * @typedef {object} Operation
 * @property {"ins" | "del" | "upd" | "nop"} kind one of KINDS, or "nop"
 * @property {number} position
 * @property {string} character
 * @property {number} site
 */
/** @typedef {<<celltype>>} Cell */
/** @typedef {<<plaintype>>} PlainCell a cell as JSON has it */
/** @typedef {any[]} PlainOperation as JSON has it, ["del", position, site] say */

/** @type {readonly string[]} */
export const KINDS = Object.freeze([<<kinds>>]);

/** @type {Readonly<Operation>} */
export const NOP = Object.freeze({ kind: "nop", position: 0, character: "", site: 0 });
<<makers>>

/**
 * A document, which is never changed. <<documents>>
 * Offsets count as browsers do, in halves of pairs where a character has two.
 */
export class SharedText {
  /** @param {string} [text] */
  constructor(text = "") {
    if (typeof text !== "string") {
      throw new TypeError(`a SharedText is made of a string, not of ${named(text)}`);
    }
    if (/\p{Surrogate}/u.test(text)) {
      throw new RangeError("the text has half of a surrogate pair");
    }
    /** @type {readonly Cell[]} */
    this.cells = <<made>>;
  }

  /**
   * @param {readonly Cell[]} cells
   * @returns {SharedText}
   */
  static ofCells(cells) {
    const shared = new SharedText();
    shared.cells = cells;
    return shared;
  }

  /**
   * The document that `plain` gave.
   * @param {PlainCell[]} value
   * @returns {SharedText}
   */
  static ofPlain(value) {
    return SharedText.ofCells(<<read>>);
  }

  /**
   * The cells as JSON has them<<paired>>.
   * @returns {PlainCell[]}
   */
  plain() {
    return <<written>>;
  }

  /** The text that a user sees. */
  toString() {
    return <<shown>>.join("");
  }

  /**
   * The position of the character that begins at an offset of the text.
   * @param {number} offset
   * @returns {number}
   */
  positionAt(offset) {
    let seen = 0;
    for (const [position, cell] of this.cells.entries()) {
      if (<<live>>seen === offset) {
        return position;
      }
      seen += <<width>>;
    }
    if (seen === offset) {
      return this.cells.length;
    }
    throw new RangeError(`no character of the text begins at the offset ${offset}`);
  }

  /**
   * The offset in the text that a position has.
   * @param {number} position
   * @returns {number}
   */
  offsetAt(position) {
    if (!Number.isInteger(position) || position < 0 || position > this.cells.length) {
      throw new RangeError(`no cell has the position ${position}`);
    }
    let seen = 0;
    for (const cell of this.cells.slice(0, position)) {
      seen += <<width>>;
    }
    return seen;
  }
}

/**
 * The operation as JSON has it.
 * @param {Operation} operation
 * @returns {PlainOperation}
 */
export function plainOf(operation) {
  const { kind, position, character, site } = wanted(operation);
  if (kind === "nop") {
    return [kind];
  }
  return kind === "del" ? [kind, position, site] : [kind, position, character, site];
}

/**
 * The operation that `plainOf` gave.
 * @param {PlainOperation} value
 * @returns {Operation}
 */
export function operationOf(value) {
  const [kind, position = 0, ...rest] = value;
  const [character, site = 0] = kind === "del" ? ["", ...rest] : rest;
  return wanted({ kind, position, character: character ?? "", site });
}

/** @param {unknown} value */
function named(value) {
  return value === null ? "null" : typeof value === "object" ? "an object" : `a ${typeof value}`;
}

/**
 * The operation, where it is one.
 * @param {Operation} operation
 */
function wanted(operation) {
  if (typeof operation !== "object" || operation === null || !("kind" in operation)) {
    throw new TypeError(`an operation is wanted, and not ${named(operation)}`);
  }
  const { kind, position, character, site } = operation;
  if (kind === "nop") {
    return operation;
  }
  if (!KINDS.includes(kind)) {
    throw new RangeError(`${kind} is no kind of this function: ${KINDS.join(", ")}`);
  }
  if (!Number.isSafeInteger(position) || !Number.isSafeInteger(site)) {
    throw new TypeError("a position and a site are whole numbers");
  }
  if (kind !== "del" && (typeof character !== "string" || !/^\P{Surrogate}$/su.test(character))) {
    throw new RangeError(`the character has to be a string of one, and is ${character}`);
  }
  return operation;
}

/**
 * What `a` becomes after `b`; null where no case fits.
 * @param {Operation} a
 * @param {Operation} b
 * @returns {Operation | null}
 */
export function transform(a, b) {
  if (wanted(a).kind === "nop" || wanted(b).kind === "nop") {
    return a;
  }
<<differ>>
  return BLOCKS[`${a.kind} ${b.kind}`](a, b);
}
<<blocks>>

/** @type {Record<string, (a: Operation, b: Operation) => Operation | null>} */
const BLOCKS = {
<<rows>>
};

/**
 * The document after an operation; null where that has no place in it.
 * @param {SharedText} shared
 * @param {Operation} operation
 * @returns {SharedText | null}
 */
export function apply(shared, operation) {
  if (!(shared instanceof SharedText)) {
    throw new TypeError(`apply wants a SharedText, and not ${named(shared)}`);
  }
  if (wanted(operation).kind === "nop") {
    return shared;
  }
  const last = shared.cells.length<<last>>;
  if (operation.position < 0 || operation.position > last) {
    return null;
  }
  const before = shared.cells.slice(0, operation.position);
  const behind = shared.cells.slice(operation.position);
<<ends>>
}
