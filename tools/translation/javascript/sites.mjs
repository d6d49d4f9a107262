
/**
 * Of each site, how many of its operations.
 * @typedef {Map<number, number>} Counts
 */
/**
 * What a site sends: its operation, the number that it has there, and how many
 * operations of each site were integrated before it, as pairs.
 * @typedef {{ site: number, number: number, before: [number, number][], operation: PlainOperation }} Message
 */
/**
 * A message that was read.
 * @typedef {{ site: number, number: number, before: Counts, operation: Operation }} Made
 */

/**
 * @param {Message} message
 * @returns {Made}
 */
function madeOf({ site, number, before, operation }) {
  const made = { site, number, before: new Map(before), operation: operationOf(operation) };
  if (made.operation.site !== site || (made.before.get(site) ?? 0) !== number) {
    throw new RangeError(`${plainOf(made.operation)} is no message of site ${site}`);
  }
  return made;
}

/**
 * @param {Made} made
 * @param {Counts} counts
 */
function keyOf(made, counts) {
  const pairs = [...counts].filter(([, count]) => count > 0).sort(([a], [b]) => a - b);
  return `${made.site} ${made.number} ${pairs.join(" ")}`;
}

/**
 * How many operations are before it.
 * @param {Made} made
 */
function depthOf(made) {
  return [...made.before.values()].reduce((sum, count) => sum + count, 0);
}

/**
 * A site that makes operations and takes those of others, with no server. Its
 * document is `shared`, `seen` has what it has integrated, in that order, and
 * `held` what waits for an operation that is before it. It keeps what operations
 * became, in `forms`.
 */
export class Site {
  /**
   * @param {number} site
   * @param {SharedText} shared
   */
  constructor(site, shared) {
    if (!(shared instanceof SharedText)) {
      throw new TypeError(`a Site wants a SharedText, and not ${named(shared)}`);
    }
    this.site = site;
    this.shared = shared;
    /** @type {Made[]} */
    this.seen = [];
    /** @type {Counts} */
    this.counts = new Map();
    /** @type {Made[]} */
    this.held = [];
    /** @type {Map<string, Operation>} */
    this.forms = new Map();
  }

  /**
   * Executes an operation of its user. Gives the message for the other sites.
   * @param {Operation} operation
   * @returns {Message}
   */
  make(operation) {
    this.shared = madeAt(this.site, this.shared, operation);
    const before = new Map(this.counts);
    const made = { site: this.site, number: before.get(this.site) ?? 0, before, operation };
    this.note(made);
    const pairs = [...before].sort(([a], [b]) => a - b);
    return { ...made, before: pairs, operation: plainOf(operation) };
  }

  /**
   * Takes a message. Gives what was executed, in turn: nothing for one that it has,
   * or that is held; and after it what was held for it.
   * @param {Message} message
   * @returns {Operation[]}
   */
  take(message) {
    const made = madeOf(message);
    const isHeld = this.held.some(({ site, number }) => site === made.site && number === made.number);
    if (made.number < (this.counts.get(made.site) ?? 0) || isHeld) {
      return [];
    }
    if (!this.isReady(made)) {
      this.held.push(made);
      return [];
    }
    const forms = [this.integrate(made)];
    for (;;) {
      const ready = this.held.filter((held) => this.isReady(held));
      if (ready.length === 0) {
        return forms;
      }
      const [first] = ready.sort((a, b) => depthOf(a) - depthOf(b) || a.site - b.site);
      forms.push(this.integrate(first));
      this.held = this.held.filter((held) => held !== first);
    }
  }

  /**
   * Whether all that are before it are integrated.
   * @param {Made} made
   */
  isReady(made) {
    return [...made.before].every(([site, count]) => count <= (this.counts.get(site) ?? 0));
  }

  /**
   * @param {Made} made
   * @returns {Operation}
   */
  integrate(made) {
    const form = this.form(made, this.counts);
    this.shared = executed(this.shared, form);
    this.note(made);
    return form;
  }

  /** @param {Made} made */
  note(made) {
    this.seen.push(made);
    this.counts = new Map(this.counts).set(made.site, made.number + 1);
  }

  /**
   * What an operation becomes after those integrated ones that are counted.
   * @param {Made} made
   * @param {Counts} counts
   * @returns {Operation}
   */
  form(made, counts) {
    /** @type {{ other: Made, key: string, fewer: Counts }[]} */
    const further = [];
    let place = this.seen.length;
    let key = keyOf(made, counts);
    let form = this.forms.get(key);
    while (form === undefined) {
      place = this.lastBeside(made, counts, place);
      if (place < 0) {
        form = made.operation;
        break;
      }
      const other = this.seen[place];
      const fewer = new Map(counts).set(other.site, other.number);
      further.push({ other, key, fewer });
      counts = fewer;
      key = keyOf(made, counts);
      form = this.forms.get(key);
    }
    for (const { other, key, fewer } of further.reverse()) {
      form = after(form, this.form(other, fewer));
      this.forms.set(key, form);
    }
    return form;
  }

  /**
   * The last place before `place` of a counted one that is not before it, or -1.
   * @param {Made} made
   * @param {Counts} counts
   * @param {number} place
   */
  lastBeside(made, counts, place) {
    for (let at = place - 1; at >= 0; at -= 1) {
      const { site, number } = this.seen[at];
      if (number < (counts.get(site) ?? 0) && number >= (made.before.get(site) ?? 0)) {
        return at;
      }
    }
    return -1;
  }
}
