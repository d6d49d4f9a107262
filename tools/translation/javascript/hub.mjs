
/**
 * What a client begins with.
 * @typedef {{ client: number, received: number, cells: PlainCell[] }} Start
 */
/**
 * What a client sends: its operation, the number that it has there, and how many
 * entries of the log the client had taken then.
 * @typedef {{ client: number, number: number, received: number, operation: PlainOperation }} Message
 */
/**
 * What a server sends: an operation, who made it, and its place in the log.
 * @typedef {{ place: number, client: number, operation: PlainOperation }} Entry
 */

/**
 * What an operation becomes after a list, and what the list becomes after it.
 * @param {Operation} operation
 * @param {readonly Operation[]} others
 * @returns {[Operation, Operation[]]}
 */
function carried(operation, others) {
  const crossed = [];
  for (const other of others) {
    crossed.push(after(other, operation));
    operation = after(operation, other);
  }
  return [operation, crossed];
}

/**
 * A client of a server. Its document is `shared`, `received` is how many entries of
 * the log it has taken, and `pending` has what it made that did not come back yet.
 */
export class Client {
  /** @param {Start} start what `Server.join` gave */
  constructor(start) {
    this.site = start.client;
    this.received = start.received;
    this.shared = SharedText.ofPlain(start.cells);
    /** @type {Operation[]} */
    this.pending = [];
    this.made = 0;
  }

  /**
   * Executes an operation of its user. Gives the message for the server.
   * @param {Operation} operation
   * @returns {Message}
   */
  edit(operation) {
    this.shared = madeAt(this.site, this.shared, operation);
    this.pending.push(operation);
    this.made += 1;
    return {
      client: this.site,
      number: this.made - 1,
      received: this.received,
      operation: plainOf(operation),
    };
  }

  /**
   * Takes the next entry of the log. Gives what was executed: NOP for its own. An
   * entry that it has is passed over; before one that it lacks it takes no later.
   * @param {Entry} entry
   * @returns {Operation}
   */
  receive(entry) {
    if (entry.place < this.received) {
      return NOP;
    }
    if (entry.place > this.received) {
      throw new RangeError(`entry ${this.received} of the log has to come first`);
    }
    if (entry.client === this.site) {
      this.pending.shift();
      this.received += 1;
      return NOP;
    }
    const [form, pending] = carried(operationOf(entry.operation), this.pending);
    this.shared = executed(this.shared, form);
    this.pending = pending;
    this.received += 1;
    return form;
  }
}

/** Fixes one order of what all clients make: its log, whose places count from 0. */
export class Server {
  /** @param {SharedText} shared */
  constructor(shared) {
    if (!(shared instanceof SharedText)) {
      throw new TypeError(`a Server wants a SharedText, and not ${named(shared)}`);
    }
    this.shared = shared;
    /** @type {Entry[]} */
    this.log = [];
    /**
     * Of each client, how many messages were taken, how many entries it had by the
     * last one, and the entries of others as they are after its messages, each with
     * its place in the log.
     * @type {Map<number, {
     *   taken: number, received: number, ahead: { place: number, operation: Operation }[]
     * }>}
     */
    this.clients = new Map();
  }

  /**
   * What one more client begins with. Clients are numbered from 1.
   * @returns {Start}
   */
  join() {
    const client = this.clients.size + 1;
    const received = this.log.length;
    this.clients.set(client, { taken: 0, received, ahead: [] });
    return { client, received, cells: this.shared.plain() };
  }

  /**
   * Takes a message. Gives what to send, each with the client that it is for. A
   * message that was taken is passed over; before one that is missing no later one
   * of that client is taken.
   * @param {Message} message
   * @returns {{ to: number, entry: Entry }[]}
   */
  receive(message) {
    const { client, number, received } = message;
    const crossing = this.clients.get(client);
    if (crossing === undefined) {
      throw new RangeError(`there is no client ${client}`);
    }
    if (number < crossing.taken) {
      return [];
    }
    if (number > crossing.taken) {
      throw new RangeError(`message ${crossing.taken} of client ${client} comes first`);
    }
    if (!(crossing.received <= received && received <= this.log.length)) {
      throw new RangeError(`client ${client} can't have ${received} entries of the log`);
    }
    const operation = operationOf(message.operation);
    if (operation.site !== client || operation.kind === "nop") {
      throw new RangeError(`${plainOf(operation)} is no operation of site ${client}`);
    }
    const ahead = crossing.ahead.filter(({ place }) => place >= received);
    const [form, others] = carried(
      operation,
      ahead.map((other) => other.operation),
    );
    this.shared = executed(this.shared, form);
    crossing.taken += 1;
    crossing.received = received;
    crossing.ahead = ahead.map(({ place }, at) => ({ place, operation: others[at] }));
    const place = this.log.length;
    for (const [other, { ahead }] of this.clients) {
      if (other !== client) {
        ahead.push({ place, operation: form });
      }
    }
    const entry = { place, client, operation: plainOf(form) };
    this.log.push(entry);
    return [...this.clients.keys()].map((to) => ({ to, entry }));
  }
}
