#!/usr/bin/env python3
"""Runs the events of a hub as docs/HUB.md defines them, and writes what `otp hub` has to write.

usage: hubs.py FN HUB      the text, with the exit status of `otp hub`

It follows the definitions on plain lists, and uses nothing of the program. Operations, documents and files are those of
sessions.py.
"""
import sys

from certificate import read_function
from sessions import MAX_MADE, MAX_NUMBER, Ended, NoForm, doc_text, executed, is_enabled, is_operation, is_whole, parts_of, site_of, transform


class Client:
    def __init__(self, doc):
        self.doc, self.received = doc, 0
        self.pending = []   # what it made that did not come back
        self.messages = []  # what it made that the server has not taken, each with how many entries it had received then
        self.ahead = []     # the server's: entries of others, each with its place in the log


def carried(f, op, others):
    """The operation transformed by each of the others in turn, and each of these by the operation as it then was."""
    crossed = []
    for other in others:
        crossed.append(transform(f, other, op))
        op = transform(f, op, other)
    return op, crossed


class Hub:
    def __init__(self, f, doc, clients):
        self.f, self.doc, self.log, self.made = f, doc, [], 0
        self.clients = {number: Client(doc) for number in range(1, clients + 1)}

    def edit(self, number, op):
        if number not in self.clients:
            return "site"
        if site_of(op) != number:
            return "owner"
        if op[0] not in self.f.kinds:
            return "kind"
        client = self.clients[number]
        if not is_enabled(op, len(client.doc)):
            return "enabled"
        if self.made == MAX_MADE:
            raise Ended(9, "limit ops")
        self.made += 1
        client.doc = executed(self.f, op, client.doc)
        client.pending.append(op)
        client.messages.append((op, client.received))
        return None

    def up(self, number):
        if number not in self.clients:
            return "site"
        client = self.clients[number]
        if client.messages:
            op, received = client.messages[0]
            crossed = [(place, other) for place, other in client.ahead if place >= received]
            form, others = carried(self.f, op, [other for _, other in crossed])
            if not is_enabled(form, len(self.doc)):
                raise NoForm
            self.doc = executed(self.f, form, self.doc)
            client.messages.pop(0)
            client.ahead = [(place, other) for (place, _), other in zip(crossed, others)]
            for other in self.clients.values():
                if other is not client:
                    other.ahead.append((len(self.log), form))
            self.log.append((number, form))
        return None

    def down(self, number):
        if number not in self.clients:
            return "site"
        client = self.clients[number]
        if client.received < len(self.log):
            maker, op = self.log[client.received]
            if maker == number:
                client.pending.pop(0)
            else:
                form, others = carried(self.f, op, client.pending)
                if not is_enabled(form, len(client.doc)):
                    raise NoForm
                client.doc, client.pending = executed(self.f, form, client.doc), others
            client.received += 1
        return None


def is_event(value):
    if not isinstance(value, list) or len(value) not in (2, 3) or not is_whole(value[1], MAX_NUMBER):
        return False
    return value[0] in ("up", "down") if len(value) == 2 else value[0] == "edit" and is_operation(value[2])


def run_event(hub, word, number, *op):
    """Why an event is refused, or None."""
    return hub.edit(number, tuple(op[0])) if word == "edit" else hub.up(number) if word == "up" else hub.down(number)


def hub_after(f, script):
    doc, clients, events = script
    hub = Hub(f, doc, clients)
    for number, event in enumerate(events):
        try:
            refused = run_event(hub, *event)
        except NoForm:
            raise Ended(1, f"stuck event {number}") from None
        if refused is not None:
            raise Ended(4, f"case event {number} {refused}")
    return hub


def told(hub):
    lines = [f"server {len(hub.log)} [{doc_text(hub.doc)}]"]
    for number, client in hub.clients.items():
        lines.append(f"client {number} {client.received} {len(client.pending)} [{doc_text(client.doc)}]")
    for number, client in hub.clients.items():
        if client.received == len(hub.log) and not client.pending and client.doc != hub.doc:
            return 1, "\n".join(lines + [f"differ {number}\n"])
    return 0, "\n".join(lines + ["same\n"])


def answer(function_text, content):
    """The status and the text of `otp hub` for a function that is one, and the bytes of a hub file."""
    f = read_function(function_text)
    try:
        return told(hub_after(f, parts_of(content, is_event)))
    except Ended as end:
        return end.status, end.text


def main():
    function, hub = sys.argv[1:]
    with open(function, encoding="utf-8") as file:
        text = file.read()
    with open(hub, "rb") as file:
        content = file.read()
    status, written = answer(text, content)
    sys.stdout.write(written)
    sys.exit(status)


if __name__ == "__main__":
    main()
