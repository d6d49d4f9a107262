// Transforms operations as step5.ot says.
// Written by tools/translate.
//
// `otp check` answers `accepted tp1`: it has TP1.
// Asked for TP2 too, `otp prove` answers `no tp2 operations`.
// What is proved is the function, and not this module.
//
// Assumed: two operations come from different sites.
//
// otfn 1
// text plain
// kinds ins del
// assume sites differ
// block ins ins
// case p1 < p2 : ins p1
// case p1 = p2 and s1 < s2 : ins p1
// case true : ins p1 + 1
// block ins del
// case p1 <= p2 : ins p1
// case true : ins p1 - 1
// block del ins
// case p1 < p2 : del p1
// case true : del p1 + 1
// block del del
// case p1 < p2 : del p1
// case p2 < p1 : del p1 - 1
// case true : nop
// end

const shared = (() => {
  /**
   * What was done to a document; a deletion has no character, and "nop" nothing.
   * A position counts all cells from 0, a character is one code point, and a site
   * is the number of who made it.
   *
   * @typedef {object} Operation
   * @property {"ins" | "del" | "upd" | "nop"} kind one of KINDS, or "nop"
   * @property {number} position
   * @property {string} character
   * @property {number} site
   */
  /** @typedef {string} Cell */
  /** @typedef {string} PlainCell a cell as JSON has it */
  /** @typedef {any[]} PlainOperation as JSON has it, ["del", position, site] say */

  /** @type {readonly string[]} */
  const KINDS = Object.freeze(["ins", "del"]);

  /** @type {Readonly<Operation>} */
  const NOP = Object.freeze({ kind: "nop", position: 0, character: "", site: 0 });

  /**
   * @param {number} position
   * @param {string} character
   * @param {number} site
   * @returns {Operation}
   */
  function insertion(position, character, site) {
    return wanted({ kind: "ins", position, character, site });
  }

  /**
   * @param {number} position
   * @param {number} site
   * @returns {Operation}
   */
  function deletion(position, site) {
    return wanted({ kind: "del", position, character: "", site });
  }

  /**
   * A document, which is never changed. Its cells are characters.
   * Offsets count as browsers do, in halves of pairs where a character has two.
   */
  class SharedText {
    /** @param {string} [text] */
    constructor(text = "") {
      if (typeof text !== "string") {
        throw new TypeError(`a SharedText is made of a string, not of ${named(text)}`);
      }
      if (/\p{Surrogate}/u.test(text)) {
        throw new RangeError("the text has half of a surrogate pair");
      }
      /** @type {readonly Cell[]} */
      this.cells = Array.from(text);
    }

    /**
     * @param {readonly Cell[]} cells
     * @returns {SharedText}
     */
    static ofCells(cells) {
      const shared = new SharedText();
      shared.cells = cells;
      return shared;
    }

    /**
     * The document that `plain` gave.
     * @param {PlainCell[]} value
     * @returns {SharedText}
     */
    static ofPlain(value) {
      return SharedText.ofCells([...value]);
    }

    /**
     * The cells as JSON has them.
     * @returns {PlainCell[]}
     */
    plain() {
      return [...this.cells];
    }

    /** The text that a user sees. */
    toString() {
      return this.cells.join("");
    }

    /**
     * The position of the character that begins at an offset of the text.
     * @param {number} offset
     * @returns {number}
     */
    positionAt(offset) {
      let seen = 0;
      for (const [position, cell] of this.cells.entries()) {
        if (seen === offset) {
          return position;
        }
        seen += cell.length;
      }
      if (seen === offset) {
        return this.cells.length;
      }
      throw new RangeError(`no character of the text begins at the offset ${offset}`);
    }

    /**
     * The offset in the text that a position has.
     * @param {number} position
     * @returns {number}
     */
    offsetAt(position) {
      if (!Number.isInteger(position) || position < 0 || position > this.cells.length) {
        throw new RangeError(`no cell has the position ${position}`);
      }
      let seen = 0;
      for (const cell of this.cells.slice(0, position)) {
        seen += cell.length;
      }
      return seen;
    }
  }

  /**
   * The operation as JSON has it.
   * @param {Operation} operation
   * @returns {PlainOperation}
   */
  function plainOf(operation) {
    const { kind, position, character, site } = wanted(operation);
    if (kind === "nop") {
      return [kind];
    }
    return kind === "del" ? [kind, position, site] : [kind, position, character, site];
  }

  /**
   * The operation that `plainOf` gave.
   * @param {PlainOperation} value
   * @returns {Operation}
   */
  function operationOf(value) {
    const [kind, position = 0, ...rest] = value;
    const [character, site = 0] = kind === "del" ? ["", ...rest] : rest;
    return wanted({ kind, position, character: character ?? "", site });
  }

  /** @param {unknown} value */
  function named(value) {
    return value === null ? "null" : typeof value === "object" ? "an object" : `a ${typeof value}`;
  }

  /**
   * The operation, where it is one.
   * @param {Operation} operation
   */
  function wanted(operation) {
    if (typeof operation !== "object" || operation === null || !("kind" in operation)) {
      throw new TypeError(`an operation is wanted, and not ${named(operation)}`);
    }
    const { kind, position, character, site } = operation;
    if (kind === "nop") {
      return operation;
    }
    if (!KINDS.includes(kind)) {
      throw new RangeError(`${kind} is no kind of this function: ${KINDS.join(", ")}`);
    }
    if (!Number.isSafeInteger(position) || !Number.isSafeInteger(site)) {
      throw new TypeError("a position and a site are whole numbers");
    }
    if (kind !== "del" && (typeof character !== "string" || !/^\P{Surrogate}$/su.test(character))) {
      throw new RangeError(`the character has to be a string of one, and is ${character}`);
    }
    return operation;
  }

  /**
   * What `a` becomes after `b`; null where no case fits.
   * @param {Operation} a
   * @param {Operation} b
   * @returns {Operation | null}
   */
  function transform(a, b) {
    if (wanted(a).kind === "nop" || wanted(b).kind === "nop") {
      return a;
    }
    if (a.site === b.site) {
      throw new RangeError(`the sites have to differ, and both are ${a.site}`);
    }
    return BLOCKS[`${a.kind} ${b.kind}`](a, b);
  }

  /**
   * @param {Operation} a
   * @param {Operation} b
   * @returns {Operation | null}
   */
  function insOverIns(a, b) {
    if (a.position < b.position) {
      return a;
    }
    if (a.position === b.position && a.site < b.site) {
      return a;
    }
    return { ...a, position: a.position + 1 };
  }

  /**
   * @param {Operation} a
   * @param {Operation} b
   * @returns {Operation | null}
   */
  function insOverDel(a, b) {
    if (a.position <= b.position) {
      return a;
    }
    return { ...a, position: a.position - 1 };
  }

  /**
   * @param {Operation} a
   * @param {Operation} b
   * @returns {Operation | null}
   */
  function delOverIns(a, b) {
    if (a.position < b.position) {
      return a;
    }
    return { ...a, position: a.position + 1 };
  }

  /**
   * @param {Operation} a
   * @param {Operation} b
   * @returns {Operation | null}
   */
  function delOverDel(a, b) {
    if (a.position < b.position) {
      return a;
    }
    if (b.position < a.position) {
      return { ...a, position: a.position - 1 };
    }
    return NOP;
  }

  /** @type {Record<string, (a: Operation, b: Operation) => Operation | null>} */
  const BLOCKS = {
    "ins ins": insOverIns,
    "ins del": insOverDel,
    "del ins": delOverIns,
    "del del": delOverDel,
  };

  /**
   * The document after an operation; null where that has no place in it.
   * @param {SharedText} shared
   * @param {Operation} operation
   * @returns {SharedText | null}
   */
  function apply(shared, operation) {
    if (!(shared instanceof SharedText)) {
      throw new TypeError(`apply wants a SharedText, and not ${named(shared)}`);
    }
    if (wanted(operation).kind === "nop") {
      return shared;
    }
    const last = shared.cells.length - (operation.kind === "ins" ? 0 : 1);
    if (operation.position < 0 || operation.position > last) {
      return null;
    }
    const before = shared.cells.slice(0, operation.position);
    const behind = shared.cells.slice(operation.position);
    if (operation.kind === "ins") {
      return SharedText.ofCells([...before, operation.character, ...behind]);
    }
    return SharedText.ofCells([...before, ...behind.slice(1)]);
  }

  /** Two operations have no case, or one has no place in the document. */
  class Stuck extends Error {}

  /**
   * @param {Operation} a
   * @param {Operation} b
   * @returns {Operation}
   */
  function after(a, b) {
    const form = transform(a, b);
    if (form === null) {
      throw new Stuck(`no case of the function fits ${plainOf(a)} after ${plainOf(b)}`);
    }
    return form;
  }

  /**
   * @param {SharedText} shared
   * @param {Operation} operation
   * @returns {SharedText}
   */
  function executed(shared, operation) {
    const behind = apply(shared, operation);
    if (behind === null) {
      throw new Stuck(`${plainOf(operation)} has no place in ${shared.cells.length} cells`);
    }
    return behind;
  }

  /**
   * The document after an operation that a user of the site makes.
   * @param {number} site
   * @param {SharedText} shared
   * @param {Operation} operation
   * @returns {SharedText}
   */
  function madeAt(site, shared, operation) {
    if (wanted(operation).site !== site || operation.kind === "nop") {
      throw new RangeError(`${plainOf(operation)} is no operation of site ${site}`);
    }
    const behind = apply(shared, operation);
    if (behind === null) {
      throw new RangeError(`${plainOf(operation)} has no place in ${shared.cells.length} cells`);
    }
    return behind;
  }

  /**
   * What a client begins with.
   * @typedef {{ client: number, received: number, cells: PlainCell[] }} Start
   */
  /**
   * What a client sends: its operation, the number that it has there, and how many
   * entries of the log the client had taken then.
   * @typedef {{ client: number, number: number, received: number, operation: PlainOperation }} Message
   */
  /**
   * What a server sends: an operation, who made it, and its place in the log.
   * @typedef {{ place: number, client: number, operation: PlainOperation }} Entry
   */

  /**
   * What an operation becomes after a list, and what the list becomes after it.
   * @param {Operation} operation
   * @param {readonly Operation[]} others
   * @returns {[Operation, Operation[]]}
   */
  function carried(operation, others) {
    const crossed = [];
    for (const other of others) {
      crossed.push(after(other, operation));
      operation = after(operation, other);
    }
    return [operation, crossed];
  }

  /**
   * A client of a server. Its document is `shared`, `received` is how many entries of
   * the log it has taken, and `pending` has what it made that did not come back yet.
   */
  class Client {
    /** @param {Start} start what `Server.join` gave */
    constructor(start) {
      this.site = start.client;
      this.received = start.received;
      this.shared = SharedText.ofPlain(start.cells);
      /** @type {Operation[]} */
      this.pending = [];
      this.made = 0;
    }

    /**
     * Executes an operation of its user. Gives the message for the server.
     * @param {Operation} operation
     * @returns {Message}
     */
    edit(operation) {
      this.shared = madeAt(this.site, this.shared, operation);
      this.pending.push(operation);
      this.made += 1;
      return {
        client: this.site,
        number: this.made - 1,
        received: this.received,
        operation: plainOf(operation),
      };
    }

    /**
     * Takes the next entry of the log. Gives what was executed: NOP for its own. An
     * entry that it has is passed over; before one that it lacks it takes no later.
     * @param {Entry} entry
     * @returns {Operation}
     */
    receive(entry) {
      if (entry.place < this.received) {
        return NOP;
      }
      if (entry.place > this.received) {
        throw new RangeError(`entry ${this.received} of the log has to come first`);
      }
      if (entry.client === this.site) {
        this.pending.shift();
        this.received += 1;
        return NOP;
      }
      const [form, pending] = carried(operationOf(entry.operation), this.pending);
      this.shared = executed(this.shared, form);
      this.pending = pending;
      this.received += 1;
      return form;
    }
  }

  /** Fixes one order of what all clients make: its log, whose places count from 0. */
  class Server {
    /** @param {SharedText} shared */
    constructor(shared) {
      if (!(shared instanceof SharedText)) {
        throw new TypeError(`a Server wants a SharedText, and not ${named(shared)}`);
      }
      this.shared = shared;
      /** @type {Entry[]} */
      this.log = [];
      /**
       * Of each client, how many messages were taken, how many entries it had by the
       * last one, and the entries of others as they are after its messages, each with
       * its place in the log.
       * @type {Map<number, {
       *   taken: number, received: number, ahead: { place: number, operation: Operation }[]
       * }>}
       */
      this.clients = new Map();
    }

    /**
     * What one more client begins with. Clients are numbered from 1.
     * @returns {Start}
     */
    join() {
      const client = this.clients.size + 1;
      const received = this.log.length;
      this.clients.set(client, { taken: 0, received, ahead: [] });
      return { client, received, cells: this.shared.plain() };
    }

    /**
     * Takes a message. Gives what to send, each with the client that it is for. A
     * message that was taken is passed over; before one that is missing no later one
     * of that client is taken.
     * @param {Message} message
     * @returns {{ to: number, entry: Entry }[]}
     */
    receive(message) {
      const { client, number, received } = message;
      const crossing = this.clients.get(client);
      if (crossing === undefined) {
        throw new RangeError(`there is no client ${client}`);
      }
      if (number < crossing.taken) {
        return [];
      }
      if (number > crossing.taken) {
        throw new RangeError(`message ${crossing.taken} of client ${client} comes first`);
      }
      if (!(crossing.received <= received && received <= this.log.length)) {
        throw new RangeError(`client ${client} can't have ${received} entries of the log`);
      }
      const operation = operationOf(message.operation);
      if (operation.site !== client || operation.kind === "nop") {
        throw new RangeError(`${plainOf(operation)} is no operation of site ${client}`);
      }
      const ahead = crossing.ahead.filter(({ place }) => place >= received);
      const [form, others] = carried(
        operation,
        ahead.map((other) => other.operation),
      );
      this.shared = executed(this.shared, form);
      crossing.taken += 1;
      crossing.received = received;
      crossing.ahead = ahead.map(({ place }, at) => ({ place, operation: others[at] }));
      const place = this.log.length;
      for (const [other, { ahead }] of this.clients) {
        if (other !== client) {
          ahead.push({ place, operation: form });
        }
      }
      const entry = { place, client, operation: plainOf(form) };
      this.log.push(entry);
      return [...this.clients.keys()].map((to) => ({ to, entry }));
    }
  }

  return { KINDS, NOP, insertion, deletion, SharedText, plainOf, operationOf, transform, apply, Stuck, Client, Server };
})();
