export type Kind = <<union>>;

/** What was done to a document. */
export interface Operation {
  readonly kind: Kind | "nop";
  /** Counted from 0 over all cells. */
  readonly position: number;
  /** One code point; a deletion has none. */
  readonly character: string;
  /** The number of who made it. */
  readonly site: number;
}

export type Cell = <<celltype>>;
/** A cell as JSON has it. */
export type PlainCell = <<plaintype>>;
/** An operation as JSON has it, `["del", position, site]` for example. */
export type PlainOperation = any[];

export const KINDS: readonly [<<kinds>>];
export const NOP: Readonly<Operation>;
<<makers>>

/** A document, which is never changed. Offsets count as browsers do, in UTF-16. */
export class SharedText {
  constructor(text?: string);
  static ofCells(cells: readonly Cell[]): SharedText;
  static ofPlain(value: PlainCell[]): SharedText;
  readonly cells: readonly Cell[];
  plain(): PlainCell[];
  toString(): string;
  positionAt(offset: number): number;
  offsetAt(position: number): number;
}

export function plainOf(operation: Operation): PlainOperation;
export function operationOf(value: PlainOperation): Operation;

/** What `a` becomes after `b`; null where no case fits. */
export function transform(a: Operation, b: Operation): Operation | null;

/** The document after an operation; null where that has no place in it. */
export function apply(shared: SharedText, operation: Operation): SharedText | null;
