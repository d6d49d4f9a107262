
/** What a client begins with. */
export interface Start {
  client: number;
  received: number;
  cells: PlainCell[];
}

/** What a client sends. */
export interface Message {
  client: number;
  number: number;
  received: number;
  operation: PlainOperation;
}

/** What a server sends. */
export interface Entry {
  place: number;
  client: number;
  operation: PlainOperation;
}

export class Client {
  constructor(start: Start);
  readonly site: number;
  readonly received: number;
  readonly shared: SharedText;
  readonly pending: readonly Operation[];
  /** Executes an operation of its user. Gives the message for the server. */
  edit(operation: Operation): Message;
  /** Takes the next entry of the log. Gives what was executed: NOP for its own. */
  receive(entry: Entry): Operation;
}

export class Server {
  constructor(shared: SharedText);
  readonly shared: SharedText;
  readonly log: readonly Entry[];
  /** What one more client begins with. */
  join(): Start;
  /** Takes a message. Gives what to send, each with the client that it is for. */
  receive(message: Message): { to: number; entry: Entry }[];
}
