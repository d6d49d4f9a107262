// Asks a module: node ask.mjs SOURCE plain|tomb case|hub|sites, and a line on standard input for each answer.
import assert from "node:assert/strict";
import { readFileSync } from "node:fs";

const [, , source, cells, mode] = process.argv;
const it = await import(source);
const isTomb = cells === "tomb";

// What a message is at the other end; the last one is told behind an answer.
let last = "";
function throughJson(value) {
  last = JSON.stringify(value);
  return JSON.parse(last);
}

const parts = (text, sign) => text.split(sign).filter((part) => part !== "");

function readShared(text) {
  const plain = parts(text, ",").map((cell) => [String.fromCodePoint(Number(cell.slice(0, -1))), cell.endsWith("+")]);
  return it.SharedText.ofPlain(isTomb ? plain : plain.map(([character]) => character));
}

function readOperation([kind, at, code, site]) {
  return { kind, position: Number(at), character: String.fromCodePoint(Number(code)), site: Number(site) };
}

function cellsText(shared) {
  const plain = isTomb ? shared.plain() : shared.plain().map((character) => [character, true]);
  return plain.map(([character, live]) => `${character.codePointAt(0)}${live ? "+" : "-"}`).join(",");
}

// The first event that is stuck or refused, or nothing.
function runAll(events, run) {
  last = "";
  for (const [at, event] of events.split(";").entries()) {
    const [word, number, ...what] = event.split(" ");
    try {
      run(word, Number(number), what);
    } catch (error) {
      if (error instanceof it.Stuck) return `stuck ${at}`;
      if (error instanceof TypeError || error instanceof RangeError) return `refused ${at}`;
      throw error;
    }
  }
  return null;
}

const answers = {
  // A document, operations and an order in which they are integrated.
  case(line) {
    const [cells, ops, order] = line.split("|");
    let shared = readShared(cells);
    const operations = parts(ops, ";").map((op) => readOperation(op.split(" ")));
    const executed = [];
    for (const [place, number] of parts(order, ",").entries()) {
      let form = operations[Number(number)];
      for (const before of executed) form = form && it.transform(form, before);
      shared = form && it.apply(shared, form);
      if (shared === null) return `stuck ${place}`;
      executed.push(form);
    }
    return cellsText(shared);
  },

  // A document, a number of clients, and events. Each message goes through JSON, and comes twice.
  hub(line) {
    const [cells, count, events] = line.split("|");
    const server = new it.Server(readShared(cells));
    const clients = Array.from({ length: Number(count) }, () => new it.Client(throughJson(server.join())));
    const up = clients.map(() => []);
    const down = clients.map(() => []);
    const ended = runAll(events, (word, number, op) => {
      const at = number - 1;
      if (word === "edit") {
        up[at].push(throughJson(clients[at].edit(readOperation(op))));
      } else if (word === "up" && up[at].length > 0) {
        for (const { to, entry } of server.receive(up[at][0])) down[to - 1].push(throughJson(entry));
        assert.deepEqual(server.receive(up[at].shift()), []);
      } else if (word === "down" && down[at].length > 0) {
        clients[at].receive(down[at][0]);
        assert.equal(clients[at].receive(down[at].shift()), it.NOP);
      }
    });
    const told = clients.map(({ received, pending, shared }) => `${received} ${pending.length} ${cellsText(shared)}`);
    return ended ?? [`${server.log.length} ${cellsText(server.shared)}`, ...told].join(";");
  },

  // A document, a number of sites, and events. Each message goes through JSON.
  sites(line) {
    const [cells, count, events] = line.split("|");
    const sites = Array.from({ length: Number(count) }, (_, at) => new it.Site(at + 1, readShared(cells)));
    const messages = [];
    const ended = runAll(events, (word, number, what) => {
      const site = sites[number - 1];
      if (word === "make") {
        messages.push(throughJson(site.make(readOperation(what))));
      } else {
        site.take(messages[Number(what[0])]);
      }
    });
    return ended ?? sites.map(({ seen, shared }) => `${seen.length} ${cellsText(shared)}`).join(";");
  },
};

const lines = readFileSync(0, "utf8").split("\n").slice(0, -1);
process.stdout.write(lines.map((line) => `${answers[mode](line)}#${last}\n`).join(""));
