"""Asks modules in Python, as ask.mjs and module.rs ask those in their languages: a line for each answer."""
import importlib.util
import json


def loaded(source):
    spec = importlib.util.spec_from_file_location("translated", source)
    module = importlib.util.module_from_spec(spec)
    spec.loader.exec_module(module)
    return module


class Asked:
    def __init__(self, source, is_tomb):
        self.it, self.is_tomb, self.last = loaded(source), is_tomb, ""

    def through_json(self, value):
        """What a message is at the other end; the last one is told behind an answer."""
        self.last = json.dumps(value, separators=(",", ":"), ensure_ascii=False)
        return json.loads(self.last)

    def shared(self, text):
        cells = [[chr(int(cell[:-1])), cell[-1] == "+"] for cell in text.split(",") if cell]
        return self.it.SharedText.of_plain(cells if self.is_tomb else [ch for ch, _ in cells])

    def operation(self, kind, at, code, site):
        return self.it.Operation(kind, int(at), chr(int(code)), int(site))

    def cells(self, shared):
        cells = shared.plain() if self.is_tomb else [(ch, True) for ch in shared.plain()]
        return ",".join(f"{ord(ch)}{'+' if live else '-'}" for ch, live in cells)

    def case(self, line):
        """A document, operations and an order in which they are integrated."""
        cells, ops, order = line.split("|")
        shared = self.shared(cells)
        ops = [self.operation(*op.split()) for op in ops.split(";") if op]
        executed = []
        for place, number in enumerate(int(number) for number in order.split(",") if number):
            form = ops[number]
            for before in executed:
                form = form and self.it.transform(form, before)
            shared = form and self.it.apply(shared, form)
            if shared is None:
                return f"stuck {place}"
            executed.append(form)
        return self.cells(shared)

    def hub(self, line):
        """A document, a number of clients, and events. Each message goes through JSON, and comes twice."""
        cells, count, events = line.split("|")
        server = self.it.Server(self.shared(cells))
        clients = [self.it.Client(self.through_json(server.join())) for _ in range(int(count))]
        up, down = [[] for _ in clients], [[] for _ in clients]

        def run(word, number, *op):
            at = number - 1
            if word == "edit":
                up[at].append(self.through_json(clients[at].edit(self.operation(*op))))
            elif word == "up" and up[at]:
                for to, entry in server.receive(up[at][0]):
                    down[to - 1].append(self.through_json(entry))
                assert server.receive(up[at].pop(0)) == []
            elif word == "down" and down[at]:
                clients[at].receive(down[at][0])
                assert clients[at].receive(down[at].pop(0)) == self.it.NOP

        return self.run_all(events, run) or ";".join(
            [f"{len(server.log)} {self.cells(server.shared)}"]
            + [f"{it.received} {len(it.pending)} {self.cells(it.shared)}" for it in clients]
        )

    def sites(self, line):
        """A document, a number of sites, and events. Each message goes through JSON."""
        cells, count, events = line.split("|")
        sites = [self.it.Site(number, self.shared(cells)) for number in range(1, int(count) + 1)]
        messages = []

        def run(word, number, *what):
            site = sites[number - 1]
            if word == "make":
                messages.append(self.through_json(site.make(self.operation(*what))))
            else:
                site.take(messages[int(what[0])])

        return self.run_all(events, run) or ";".join(f"{len(it.seen)} {self.cells(it.shared)}" for it in sites)

    def run_all(self, events, run):
        """The first event that is stuck or refused, or nothing."""
        self.last = ""
        for at, event in enumerate(events.split(";")):
            word, number, *what = event.split(" ")
            try:
                run(word, int(number), *what)
            except self.it.Stuck:
                return f"stuck {at}"
            except (TypeError, ValueError):
                return f"refused {at}"
        return None


def answers(source, is_tomb, mode, lines):
    asked = Asked(source, is_tomb)
    return [getattr(asked, mode)(line) + "#" + asked.last for line in lines]
