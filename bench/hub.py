#!/usr/bin/env python3
"""Measures `otp hub` on great hubs: time and peak memory.

usage: hub.py

The function is examples/functions/sites.ot, which has TP1 alone. Sixteen clients make 64 operations each on a document
of 1,024 cells, a third of them deletions. In the first hub all of them are made, then all go up, and then each client
takes the whole log: the server carries a message over up to 960 entries, and a client an entry over up to 64 pending
operations. In the second one they are made, sent and taken in a drawn order, and then what is left. The last one has as
many events as one can have.
"""
import os
import random

from measure import report_events

from program import PROGRAM, make_ready

HERE = os.path.dirname(os.path.abspath(__file__))
TOP = os.path.dirname(HERE)
FUNCTION = os.path.join(TOP, "examples/functions/sites.ot")
DOCUMENT = "y" * 1_024


def edit(client, op, at=0, char=()):
    return ["edit", client, [op, at, *char, client]]


def clients_of(count):
    return range(1, count + 1)


def edits_of(clients, each):
    """Those of each turn, a client each, at places that every client has."""
    return [edit(client, "del", at=turn) if turn % 3 == 2 else edit(client, "ins", at=turn, char="abc"[client % 3])
            for turn in range(each) for client in clients_of(clients)]


def ups_of(clients, each):
    return [["up", client] for _ in range(each) for client in clients_of(clients)]


def downs_of(clients, each):
    return [["down", client] for client in clients_of(clients) for _ in range(clients * each)]


def up_then_down(clients, each):
    return {"doc": DOCUMENT, "sites": clients, "events": edits_of(clients, each) + ups_of(clients, each) + downs_of(clients, each)}


def interleaved(clients, each):
    events = edits_of(clients, each) + ups_of(clients, each) + downs_of(clients, each)
    random.Random(1).shuffle(events)
    return {"doc": DOCUMENT, "sites": clients, "events": events + ups_of(clients, each) + downs_of(clients, each)}


def longest():
    return {"doc": "", "sites": 1, "events": [edit(1, "ins", char="a")] + [["up", 1]] * 65_535}


def report(name, hub):
    report_events(name, [PROGRAM, "hub", FUNCTION], hub)


def main():
    make_ready()
    report("all up, then all down", up_then_down(16, 64))
    report("interleaved", interleaved(16, 64))
    report("as many events as there can be", longest())


if __name__ == "__main__":
    main()
