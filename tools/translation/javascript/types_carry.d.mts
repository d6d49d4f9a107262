
/** Two operations have no case, or one has no place in the document. */
export class Stuck extends Error {}
