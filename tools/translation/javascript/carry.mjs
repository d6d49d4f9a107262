
/** Two operations have no case, or one has no place in the document. */
export class Stuck extends Error {}

/**
 * @param {Operation} a
 * @param {Operation} b
 * @returns {Operation}
 */
function after(a, b) {
  const form = transform(a, b);
  if (form === null) {
    throw new Stuck(`no case of the function fits ${plainOf(a)} after ${plainOf(b)}`);
  }
  return form;
}

/**
 * @param {SharedText} shared
 * @param {Operation} operation
 * @returns {SharedText}
 */
function executed(shared, operation) {
  const behind = apply(shared, operation);
  if (behind === null) {
    throw new Stuck(`${plainOf(operation)} has no place in ${shared.cells.length} cells`);
  }
  return behind;
}

/**
 * The document after an operation that a user of the site makes.
 * @param {number} site
 * @param {SharedText} shared
 * @param {Operation} operation
 * @returns {SharedText}
 */
function madeAt(site, shared, operation) {
  if (wanted(operation).site !== site || operation.kind === "nop") {
    throw new RangeError(`${plainOf(operation)} is no operation of site ${site}`);
  }
  const behind = apply(shared, operation);
  if (behind === null) {
    throw new RangeError(`${plainOf(operation)} has no place in ${shared.cells.length} cells`);
  }
  return behind;
}
