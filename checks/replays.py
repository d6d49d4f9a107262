"""Hubs and sessions for checks/translate: draws them, writes them as modules are asked, and reads what `otp` prints."""
import json
import os
import re
import sys

TOP = os.path.dirname(os.path.dirname(os.path.abspath(__file__)))
sys.path.insert(0, os.path.join(TOP, "reference"))

import certificate  # noqa: E402
import drill  # noqa: E402
import hubs  # noqa: E402
import sessions  # noqa: E402

# Beside the letters two characters whose order by their codes is not that of their halves in UTF-16.
CHARACTERS = "abcxyz\\\"\ufb01\U0001d538"


def drawn_document(draw, f):
    cells = ((draw.choice(CHARACTERS), not f.tomb or draw.random() < 0.7) for _ in range(draw.randint(0, 4)))
    return sessions.doc_text(list(cells))


def drawn_operation(draw, f, site, length):
    """An operation of the site; now and then one that is not enabled, or another site's."""
    kind = draw.choice(f.kinds)
    at = draw.randint(0, length if draw.random() < 0.01 else max(length - (kind != "ins"), 0))
    site += draw.random() < 0.005
    return [kind, at, site] if kind == "del" else [kind, at, draw.choice(CHARACTERS), site]


def drawn_hub(draw, f):
    """Events that are run while they are drawn, so that most are not refused. Many hubs end with all received."""
    clients, doc = draw.randint(1, 5), drawn_document(draw, f)
    hub, events, edits_often = hubs.Hub(f, sessions.doc_of(doc), clients), [], draw.uniform(0.1, 0.6)

    def does(event):
        events.append(event)
        try:
            return hubs.run_event(hub, *event) is None
        except sessions.NoForm:
            return False

    def drawn_event():
        client = draw.randint(1, clients)
        if draw.random() < edits_often:
            return ["edit", client, drawn_operation(draw, f, client, len(hub.clients[client].doc))]
        return [draw.choice(["up", "down", "down"]), client]

    goes_on = all(does(drawn_event()) for _ in range(draw.randint(1, 80)))
    if goes_on and draw.random() < 0.7:
        left = [["up", number] for number, client in hub.clients.items() for _ in client.messages]
        goes_on = all(does(event) for event in left)
        left = [["down", number] for number, client in hub.clients.items() for _ in hub.log[client.received :]]
        goes_on and all(does(event) for event in left)
    return {"doc": doc, "sites": clients, "events": events}


class OneReady(sessions.Session):
    """A session that knows whether two held operations were ever ready at once: which of them is integrated first is
    settled by their numbers, which no site knows of the other ones."""

    are_two_ready = False

    def integrate(self, site, o):
        super().integrate(site, o)
        ready = [x for x in site.held if x != o and self.is_ready(site, x)]
        self.are_two_ready = self.are_two_ready or len(ready) > 1


def drawn_session(draw, f, is_steady):
    """A session; where orders are not all one to the function, one with no two held operations ready at once."""
    while True:
        session, script = drawn_run(draw, f)
        if is_steady or not session.are_two_ready:
            return script


def drawn_run(draw, f):
    sites, doc = draw.randint(1, 5), drawn_document(draw, f)
    session, events, makes_often = OneReady(f, sessions.doc_of(doc), sites), [], draw.uniform(0.1, 0.6)
    for _ in range(draw.randint(1, 60)):
        site = draw.randint(1, sites)
        try:
            if draw.random() < makes_often or not session.made:
                op = drawn_operation(draw, f, site, len(session.sites[site].doc))
                events.append(["make", site, op])
                refused = session.make(site, tuple(op)) is not None
            else:
                events.append(["take", site, draw.randrange(len(session.made))])
                refused = session.take(*events[-1][1:]) not in (None, "held", "repeat")
        except sessions.NoForm:
            refused = True
        if refused:
            break
    return session, {"doc": doc, "sites": sites, "events": events}


# How the modules are asked, and what they answer.

def cells_text(cells):
    return ",".join(f"{ord(ch)}{'+' if live else '-'}" for ch, live in cells)


def operation_text(op):
    kind, at, *ch, site = op
    return f"{kind} {at} {ord(ch[0]) if ch else 97} {site}"


def line_of(script):
    """A file in one line."""
    events = []
    for word, number, *what in script["events"]:
        told = [operation_text(it) if isinstance(it, list) else str(it) for it in what]
        events.append(" ".join([word, str(number), *told]))
    return f"{cells_text(sessions.doc_of(script['doc']))}|{script['sites']}|{';'.join(events)}"


def answer_of(text):
    """What `otp hub` or `otp replay` printed, as the modules answer."""
    if found := re.fullmatch(r"(stuck|case) event (\d+).*\n", text):
        return f"{'stuck' if found[1] == 'stuck' else 'refused'} {found[2]}"
    parts = []
    for line in text.split("\n")[:-2]:
        _, *numbers, doc = re.fullmatch(r"(server|client|site) ([\d ]+) \[(.*)\]", line, re.S).groups()
        numbers = numbers[0].split(" ")
        numbers = numbers if line.startswith("server") else numbers[1:]
        parts.append(" ".join([*numbers, cells_text(sessions.doc_of(doc))]))
    return ";".join(parts)


def drills():
    """The drills: of each number the function's text and the session."""
    for number in range(1, drill.MOST + 1):
        yield number, drill.function_of(number), drill.session_of(number)


def read_function(text):
    return certificate.read_function(text)


def written(script, place):
    with open(place, "w", encoding="utf-8") as file:
        json.dump(script, file)
