
/** What a site sends. */
export interface Message {
  site: number;
  number: number;
  before: [number, number][];
  operation: PlainOperation;
}

/** A message that was read. */
export interface Made {
  site: number;
  number: number;
  before: Map<number, number>;
  operation: Operation;
}

export class Site {
  constructor(site: number, shared: SharedText);
  readonly site: number;
  readonly shared: SharedText;
  readonly seen: readonly Made[];
  readonly held: readonly Made[];
  /** Executes an operation of its user. Gives the message for the other sites. */
  make(operation: Operation): Message;
  /** Takes a message. Gives what was executed, in turn; nothing for one that waits. */
  take(message: Message): Operation[];
}
