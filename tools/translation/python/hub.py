

def carried(
    operation: Operation, others: list[Operation]
) -> tuple[Operation, list[Operation]]:
    """What an operation becomes after a list, and what the list becomes after it."""
    crossed = []
    for other in others:
        crossed.append(after(other, operation))
        operation = after(operation, other)
    return operation, crossed


class Client:
    """A client of a server. It begins with what `Server.join` gave.

    Its document is `shared`, `received` is how many entries of the server's log it has
    taken, and `pending` has what it made that did not come back yet.
    """

    def __init__(self, start: dict[str, Any]) -> None:
        self.site: int = start["client"]
        self.received: int = start["received"]
        self.shared = SharedText.of_plain(start["cells"])
        self.pending: list[Operation] = []
        self.made = 0

    def edit(self, operation: Operation) -> dict[str, Any]:
        """Executes an operation of its user. Gives the message for the server."""
        self.shared = made_at(self.site, self.shared, operation)
        self.pending.append(operation)
        self.made += 1
        return {
            "client": self.site,
            "number": self.made - 1,
            "received": self.received,
            "operation": operation.plain(),
        }

    def receive(self, entry: dict[str, Any]) -> Operation:
        """Takes the next entry of the log. Gives what was executed: NOP for its own.

        An entry that it has is passed over. Before one that it lacks it takes no later.
        """
        if entry["place"] < self.received:
            return NOP
        if entry["place"] > self.received:
            raise ValueError(f"entry {self.received} of the log has to come first")
        if entry["client"] == self.site:
            self.pending.pop(0)
            self.received += 1
            return NOP
        operation = Operation.of_plain(entry["operation"])
        form, pending = carried(operation, self.pending)
        self.shared = executed(self.shared, form)
        self.pending = pending
        self.received += 1
        return form


class Crossing:
    """What a server keeps for a client: how many messages of it were taken, how many
    entries it had received by the last one, and the entries of others as they are
    after its messages, each with its place in the log."""

    def __init__(self, received: int) -> None:
        self.taken, self.received = 0, received
        self.ahead: list[tuple[int, Operation]] = []


class Server:
    """Fixes one order of what all clients make: its log, whose places count from 0."""

    def __init__(self, shared: SharedText) -> None:
        if not isinstance(shared, SharedText):
            raise TypeError(f"a Server wants a SharedText, and not {named(shared)}")
        self.shared = shared
        self.log: list[dict[str, Any]] = []
        self.clients: dict[int, Crossing] = {}

    def join(self) -> dict[str, Any]:
        """What one more client begins with. Clients are numbered from 1."""
        client = len(self.clients) + 1
        self.clients[client] = Crossing(len(self.log))
        cells = self.shared.plain()
        return {"client": client, "received": len(self.log), "cells": cells}

    def receive(self, message: dict[str, Any]) -> list[tuple[int, dict[str, Any]]]:
        """Takes a message. Gives what to send, each with the client that it is for.

        A message that was taken is passed over. Before one that is missing no later one
        of that client is taken.
        """
        client, number = message["client"], message["number"]
        received = message["received"]
        if client not in self.clients:
            raise ValueError(f"there is no client {client}")
        crossing = self.clients[client]
        if number < crossing.taken:
            return []
        if number > crossing.taken:
            raise ValueError(f"message {crossing.taken} of client {client} comes first")
        if not crossing.received <= received <= len(self.log):
            raise ValueError(f"client {client} can't have {received} entries of the log")
        operation = Operation.of_plain(message["operation"])
        if operation.site != client or operation.kind == "nop":
            raise ValueError(f"{operation.plain()} is no operation of site {client}")
        ahead = [(at, it) for at, it in crossing.ahead if at >= received]
        form, others = carried(operation, [other for _, other in ahead])
        self.shared = executed(self.shared, form)
        crossing.taken, crossing.received = crossing.taken + 1, received
        crossing.ahead = [(at, it) for (at, _), it in zip(ahead, others)]
        place = len(self.log)
        for number, other in self.clients.items():
            if number != client:
                other.ahead.append((place, form))
        entry = {"place": place, "client": client, "operation": form.plain()}
        self.log.append(entry)
        return [(number, entry) for number in self.clients]
