

Counts = dict[int, int]  # of each site, how many of its operations


class Made(NamedTuple):
    """An operation, its number at its site, and what was integrated there before it."""

    site: int
    number: int
    before: Counts
    operation: Operation

    def is_after(self, other: Made) -> bool:
        return other.number < self.before.get(other.site, 0)

    def plain(self) -> dict[str, Any]:
        return {
            "site": self.site,
            "number": self.number,
            "before": [list(pair) for pair in sorted(self.before.items())],
            "operation": self.operation.plain(),
        }

    @staticmethod
    def of_plain(value: dict[str, Any]) -> Made:
        operation = Operation.of_plain(value["operation"])
        before = {site: count for site, count in value["before"]}
        made = Made(value["site"], value["number"], before, operation)
        if operation.site != made.site or before.get(made.site, 0) != made.number:
            raise ValueError(f"{value} is no message of site {made.site}")
        return made


Key = tuple[int, int, tuple[tuple[int, int], ...]]


def key_of(made: Made, counts: Counts) -> Key:
    return made.site, made.number, tuple(sorted(counts.items()))


class Site:
    """A site that makes operations and takes those of others, with no server.

    Its document is `shared`, `seen` has what it has integrated, in that order, and
    `held` what waits for an operation that is before it. It keeps what operations
    became, in `forms`.
    """

    def __init__(self, site: int, shared: SharedText) -> None:
        if not isinstance(shared, SharedText):
            raise TypeError(f"a Site wants a SharedText, and not {named(shared)}")
        self.site, self.shared = site, shared
        self.seen: list[Made] = []
        self.counts: Counts = {}
        self.held: list[Made] = []
        self.forms: dict[Key, Operation] = {}

    def make(self, operation: Operation) -> dict[str, Any]:
        """Executes an operation of its user. Gives the message for the other sites."""
        shared = made_at(self.site, self.shared, operation)
        number = self.counts.get(self.site, 0)
        made = Made(self.site, number, dict(self.counts), operation)
        self.shared = shared
        self.note(made)
        return made.plain()

    def take(self, message: dict[str, Any]) -> list[Operation]:
        """Takes a message. Gives what was executed, in turn: nothing for one that it
        has, or that is held; and after it what was held for it."""
        made = Made.of_plain(message)
        if made.number < self.counts.get(made.site, 0) or made in self.held:
            return []
        if not self.is_ready(made):
            self.held.append(made)
            return []
        forms = [self.integrate(made)]
        while ready := [held for held in self.held if self.is_ready(held)]:
            first = min(ready, key=lambda held: (sum(held.before.values()), held.site))
            forms.append(self.integrate(first))
            self.held.remove(first)
        return forms

    def is_ready(self, made: Made) -> bool:
        """Whether all that are before it are integrated."""
        counts = self.counts
        return all(count <= counts.get(site, 0) for site, count in made.before.items())

    def integrate(self, made: Made) -> Operation:
        form = self.form(made, self.counts)
        self.shared = executed(self.shared, form)
        self.note(made)
        return form

    def note(self, made: Made) -> None:
        self.seen.append(made)
        self.counts = {**self.counts, made.site: made.number + 1}

    def form(self, made: Made, counts: Counts) -> Operation:
        """What an operation becomes after those integrated ones that are counted."""
        further: list[tuple[Made, Counts, Counts]] = []
        place = len(self.seen)
        while (form := self.forms.get(key_of(made, counts))) is None:
            place = self.last_beside(made, counts, place)
            if place < 0:
                form = made.operation
                break
            other = self.seen[place]
            fewer = {**counts, other.site: other.number}
            if other.number == 0:
                del fewer[other.site]
            further.append((other, counts, fewer))
            counts = fewer
        for other, counts, fewer in reversed(further):
            form = after(form, self.form(other, fewer))
            self.forms[key_of(made, counts)] = form
        return form

    def last_beside(self, made: Made, counts: Counts, place: int) -> int:
        """The last place before `place` of a counted one that is not before it, or -1."""
        while place > 0:
            place -= 1
            other = self.seen[place]
            if other.number < counts.get(other.site, 0) and not made.is_after(other):
                return place
        return -1
