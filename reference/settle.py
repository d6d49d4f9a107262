#!/usr/bin/env python3
"""Writes a proof with lemmas of a function at a level, or says where an obligation fails.

usage: settle.py [--tp1] [--questions] FN > PROOF

It searches an obligation depth first. Where a transformation begins it tries to show what follows under no literals at
all, as a lemma; each end that fails there, and cannot be reached from around the lemma, adds a literal to it that shuts
the end out, and so does each lemma that was shown and would serve by what is known around. Where a result is told by
another position than its own, since a guard pins the two, it first shows what follows far from there, where the result
is told by its own position: that serves at each such place then. A second walk writes the proof. It ends with status 1
where an obligation fails at answers that some integers meet, and tells these. With --questions it writes how many
questions the search asked to the standard error.
Nothing of the program is used, and nothing of the program rests on it.
"""
import sys
from collections import namedtuple

from certificate import Ask, Fails, closed, obligations, read_function
from least import values_of
from proof import READ, conditions, marked_plan, negated, reached

NEWEST, MOST_LITERALS, MOST_OFFSET = 64, 24, 1000
# How far from one another two positions are where a scout goes, and how many literals it begins with at most.
FAR, MOST_KNOWN = 250, 23
BUDGET = 30_000_000


class Spent(Exception):
    pass


# Tables of distances, as those of certificate.py: what literals give, each with its number.

def empty_table(names):
    return [[(0, ()) if x == y else None for y in range(names)] for x in range(names)]


def table_of(names, literals):
    """The closed table of literals; or None where no integers meet them."""
    table = empty_table(names)
    for number, lit in enumerate(literals):
        table = with_literal(table, lit, number)[0]
        if table is None:
            return None
    return table


def implies(table, lit):
    x, y, k = lit
    return table[x][y] is not None and table[x][y][0] <= k


def with_literal(table, lit, number):
    """The table with a literal, or None and the numbers of a negative cycle."""
    return (table, None) if implies(table, lit) else closed(table, *lit, number)


def all_of(table):
    """What a table gives of each two names, but for what is too far."""
    found = [(x, y, entry[0]) for x, row in enumerate(table) for y, entry in enumerate(row) if entry and x != y]
    return [lit for lit in found if abs(lit[2]) <= MOST_OFFSET + 1]


def distance(table, x, y):
    """The constant k for which x = y + k follows; or None."""
    there, back = table[x][y], table[y][x]
    return there[0] if there and back and there[0] + back[0] == 0 else None


def with_possible(table, literals):
    """The table with those literals that some integers meet, one after another."""
    for lit in literals:
        table = with_literal(table, lit, None)[0] or table
    return table


def why(table, lit, number):
    """The negative cycle that shows a literal which the table implies, by its negation under this number. It begins at
    its least number."""
    cycle = closed(table, *negated(lit), number)[1]
    least = cycle.index(min(cycle))
    return cycle[least:] + cycle[:least]


# Starts. Lemmas are kept by their start: how many results there are, and where those stand that are still read.

def key_of(count, results):
    return len(results), tuple(op and op.at for op in (results[number] for number in READ[count][len(results)]))


def alike(results, table):
    """The results, each told by its own operation's position where the table has the two equal up to a constant."""

    def moved(op):
        own = op.site - 1
        apart = distance(table, op.at[0], own)
        return op if apart is None else op._replace(at=(own, op.at[1] + apart))

    return tuple(op and moved(op) for op in results)


Lemma = namedtuple("Lemma", "results literals")


class Lemmas:
    def __init__(self, count):
        self.count, self.kept, self.scouts = count, {}, {}

    def add(self, lemma):
        self.kept.setdefault(key_of(self.count, lemma.results), []).append(lemma)

    def add_scout(self, lemma):
        """A lemma that serves nowhere, and is written for those that are shown within it."""
        self.scouts.setdefault(key_of(self.count, lemma.results), []).append(lemma)

    def scouts_of(self, results):
        """The first lemmas of scouts of a start."""
        return self.scouts.get(key_of(self.count, results), [])[:NEWEST]

    def of(self, results):
        """The newest lemmas of a start, newest first, but for those of too many literals."""
        newest = self.kept.get(key_of(self.count, results), [])[: -NEWEST - 1 : -1]
        return [lemma for lemma in newest if len(lemma.literals) <= MOST_LITERALS]

    def wanted(self, lemma, results):
        """What has to follow where a lemma serves at a start."""
        return [*lemma.literals, *conditions(self.count, lemma.results, results)]

    def serving(self, results, table, follows):
        """Those lemmas of a start, and of the start alike by a table, whose literals and conditions follow."""
        told = alike(results, table)
        is_other = key_of(self.count, told) != key_of(self.count, results)
        for lemma in self.of(results) + (self.of(told) if is_other else []):
            if all(map(follows, self.wanted(lemma, results))):
                yield lemma

    def serving_by(self, results, table):
        return self.serving(results, table, lambda lit: implies(table, lit))


# The search.

class Level:
    """A lemma that is being shown at a place: its literals so far, how much waited and was answered when it began, and
    what followed there, with what is assumed around it since; whether it is a scout; and which scouts were sent there."""

    def __init__(self, go, results, waiting, answers, outer, sent=()):
        self.go, self.results, self.waiting, self.answers, self.outer, self.sent = go, results, waiting, answers, outer, sent
        self.assumed, self.is_scout = [], False

    def literals(self):
        return list(self.assumed)

    def assume(self, lit):
        """One more literal. The first one on the same names is made as strong, if there is one."""
        for number, (x, y, k) in enumerate(self.assumed):
            if (x, y) == lit[:2]:
                self.assumed[number] = (x, y, min(k, lit[2]))
                return
        self.assumed.append(lit)


def shutting(inner, outer):
    """A literal that follows from the outer table and that no integers meet with the inner one; or None. Where it is
    below 0, it is weakened as far as 0 or as it may be. Of several it is the one that is nearest to 0 then."""
    best = None
    for x, row in enumerate(inner):
        for y, there in enumerate(row):
            back = outer[y][x]
            if there is None or back is None or there[0] + back[0] >= 0 or abs(back[0]) > MOST_OFFSET:
                continue
            room = -1 - there[0] - back[0]
            offset = min(back[0] + room, 0) if back[0] < 0 else back[0]
            if best is None or abs(offset) < abs(best[2]):
                best = (y, x, offset)
    return best


# A place that is open, whether its lemma was just begun, and which scouts were sent from there.
Open = namedtuple("Open", "go begun sent", defaults=(False, ()))


class Search:
    def __init__(self, plan, count, budget):
        self.plan, self.count, self.names, self.left = plan, count, 3 + 3 * count, budget
        # what the innermost level's literals and the answers since it began give
        self.table = empty_table(self.names)
        self.levels = [Level(plan, None, 0, 0, self.table)]
        self.lemmas, self.waiting, self.answers = Lemmas(count), [], []

    def run(self):
        """Whether the plan holds. Where it does not, `answers` lead to an end that fails."""
        at = Open(self.plan)
        while at:
            results, plan = reached(at.go)
            results = None if at.begun else results
            if results is not None and self.is_shown(results):
                at = self.close()
                continue
            if results is not None and (sent := self.scout(results)):
                at = sent
                continue
            if isinstance(plan, Ask):
                at = self.begin(at, results, plan)
            elif isinstance(plan, Fails) and not self.blame():
                at = self.without_scout()
                if not at:
                    return False
            else:
                at = self.close()
        return True

    def begin(self, at, results, plan):
        if results is not None:
            self.levels.append(Level(at.go, results, len(self.waiting), len(self.answers), self.table, at.sent))
            self.table = empty_table(self.names)
        return Open(self.ask(plan))

    def ask(self, plan):
        if self.left == 0:
            raise Spent
        self.left -= 1
        if implies(self.table, plan.lit):
            return plan.yes
        if implies(self.table, negated(plan.lit)):
            return plan.no
        self.waiting.append((plan.no, len(self.answers), negated(plan.lit)))
        self.answers.append(plan.lit)
        self.table = with_literal(self.table, plan.lit, None)[0]
        return plan.yes

    def close(self):
        """The next part that waits and that some integers lead to. A level in which none waits has shown its lemma."""
        while True:
            level = self.levels[-1]
            if len(self.waiting) > level.waiting:
                go, answers, lit = self.waiting.pop()
                self.answers[answers:] = [lit]
                self.table = table_of(self.names, level.literals() + self.answers[level.answers:])
                if self.table:
                    return Open(go)
            elif len(self.levels) == 1:
                return None
            else:
                self.levels.pop()
                del self.answers[level.answers:]
                if level.is_scout:
                    return self.come_back(level)
                self.lemmas.add(Lemma(level.results, level.literals()))

    # Lemmas that serve.

    def is_shown(self, results):
        """Whether a lemma serves at a start: by what the innermost level assumes and the answers since it began, or
        else by what is known around it too, which is assumed then."""
        if any(self.lemmas.serving_by(results, self.table)):
            return True
        for lemma in self.lemmas.serving(results, self.pinned(), self.follows_around):
            self.take(self.lemmas.wanted(lemma, results))
            return True
        return False

    def pinned(self):
        """The table of the open place, with each two names that are equal up to a constant somewhere around."""
        table = self.table
        for level in self.levels[:0:-1]:
            apart = [(x, y, distance(level.outer, x, y)) for x in range(self.names) for y in range(self.names) if x != y]
            table = with_possible(table, [lit for lit in apart if lit[2] is not None])
        return table

    def follows_around(self, lit):
        """Whether a literal follows from the innermost one of what is known around that says something of it."""
        for table in [self.table, *(level.outer for level in self.levels[:0:-1])]:
            if implies(table, lit):
                return True
            if implies(table, negated(lit)):
                return False
        return False

    def take(self, literals):
        """Has the levels assume what follows around them, up to one that no integers lead to then, which is dropped."""
        for lit in literals:
            if implies(self.table, lit):
                continue
            number = len(self.levels) - 1
            while not implies(self.levels[number].outer, lit):
                number -= 1
            self.levels[number].assume(lit)
            for inner in range(number + 1, len(self.levels)):
                if not self.add_around(inner, [lit]):
                    self.drop(inner)
                    return
                self.levels[inner].assume(lit)
            self.table = with_literal(self.table, lit, None)[0]
            if self.table is None:
                return

    # Scouts: lemmas of the start around a place, that are shown under literals which lead far from there.

    def scout(self, results):
        """Sends a scout, where the last result is told by another position than its own, which a guard pins to it. The
        level around is begun anew after it. The place that is open then; or None."""
        level, last = self.levels[-1], results[-1] if results else None
        if len(self.levels) == 1 or level.is_scout or last is None:
            return None
        own, other = last.site - 1, last.at[0]
        apart = None if own == other else distance(self.table, own, other)
        if apart is None or (apart < 0) in level.sent:
            return None
        level.sent = (*level.sent, apart < 0)
        literals = self.far_from(level, (own, other, -FAR) if apart < 0 else (other, own, -FAR))
        if literals is None:
            return None
        del self.waiting[level.waiting:], self.answers[level.answers:]
        level.is_scout, level.assumed = True, literals
        self.table = table_of(self.names, literals)
        return Open(level.go, True)

    def far_from(self, level, far):
        """The literals that a scout begins with: one that leads far away, and what is known around; or None where no
        integers meet it with that."""
        known = empty_table(self.names)
        for outer in self.levels[1:]:
            known = with_possible(known, all_of(outer.outer))
        table, literals = with_literal(empty_table(self.names), far, None)[0], [far]
        if with_literal(known, far, None)[0] is None:
            return None
        for lit in all_of(known):
            if len(literals) < MOST_KNOWN and not implies(table, lit):
                literals.append(lit)
                table = with_literal(table, lit, None)[0]
        return literals

    def come_back(self, scout):
        """The place of a scout that has shown its lemma."""
        literals = scout.literals()
        if len(literals) <= MOST_LITERALS and table_of(self.names, literals):
            self.lemmas.add_scout(Lemma(scout.results, literals))
        self.table = scout.outer
        return Open(scout.go, False, scout.sent)

    def without_scout(self):
        """Gives the outermost scout up, and goes back to its place; or None where there is none."""
        for number, level in enumerate(self.levels):
            if level.is_scout:
                self.drop(number)
                self.table = level.outer
                return Open(level.go, False, level.sent)
        return None

    # Ends that fail.

    def around(self, number):
        """What is known where a level begins."""
        before, level = self.levels[number - 1 : number + 1]
        return before.literals() + self.answers[before.answers:level.answers]

    def add_around(self, number, literals):
        """Adds what is assumed around a level to what followed there. Whether some integers still lead to it."""
        level = self.levels[number]
        for lit in literals:
            outer = with_literal(level.outer, lit, None)[0]
            if outer is None:
                return False
            level.outer = outer
        return True

    def drop(self, number):
        """Drops a level and those within it."""
        level = self.levels[number]
        del self.levels[number:], self.waiting[level.waiting:], self.answers[level.answers:]

    def excluded(self, table, number):
        """The first literal around a level that no integers meet with a table and those before it, or None; and else
        the table with all of them."""
        for lit in self.around(number):
            more = with_literal(table, lit, None)[0]
            if more is None:
                return lit, None
            table = more
        return None, table

    def shut_out(self, number, inner):
        """Has a level assume what shuts out the end that was reached, by what followed within it. What it assumes."""
        assumed = []
        while True:
            lit = shutting(inner, self.levels[number].outer)
            last = lit is not None
            if not last:
                lit, _ = self.excluded(inner, number)
                inner = with_literal(inner, lit, None)[0]
            assumed.append(lit)
            self.levels[number].assume(lit)
            if last:
                return assumed

    def blame(self):
        """Shuts the end that was reached out of the levels, from the innermost one on that can. Whether one can."""
        first, inner = len(self.levels) - 1, {}
        table = self.table
        while first > 0:
            inner[first] = table
            lit, table = self.excluded(table, first)
            if lit:
                break
            first -= 1
        if first == 0:
            return False
        assumed = []
        for number in range(first, len(self.levels)):
            if not self.add_around(number, assumed):
                self.drop(number)
                return True
            assumed = self.shut_out(number, inner[number])
        return True

    def failing_end(self):
        """The least integers that meet the answers, walked: the answers to the end that fails, and its cause."""
        values, answers, plan = values_of(self.answers, self.names), [], reached(self.plan)[1]
        while isinstance(plan, Ask):
            x, y, k = plan.lit
            met = values[x] <= values[y] + k
            answers.append(plan.lit if met else negated(plan.lit))
            plan = reached(plan.yes if met else plan.no)[1]
        if not isinstance(plan, Fails):
            raise Spent
        return answers, plan.why


# The writer. A place that waits has a list of literals with its table, and the literal that is answered there.

Place = namedtuple("Place", "go table length lit opened")


def cycle_text(cycle):
    return "x" + ",".join(map(str, cycle)) + ";"


class Writer:
    def __init__(self, search):
        self.search, self.tokens, self.written, self.begun = search, [], {}, set()
        self.left = BUDGET

    def write(self):
        waiting = [Place(self.search.plan, empty_table(self.search.names), 0, None, False)]
        while waiting:
            place = waiting.pop()
            if isinstance(place, Lemma):
                self.written[id(place)] = len(self.written)
                continue
            if place.lit:
                if implies(place.table, negated(place.lit)):
                    self.tokens.append(cycle_text(why(place.table, negated(place.lit), place.length)))
                    continue
                table = with_literal(place.table, place.lit, place.length)[0]
                place = place._replace(table=table, length=place.length + 1, lit=None)
            waiting += self.parts(place)
        return "".join(self.tokens)

    def parts(self, place):
        """Writes what stands at a place, and gives the places that it leaves, the next one last."""
        results, plan = reached(place.go)
        if results is not None and not place.opened:
            lemmas = self.search.lemmas
            serving = list(lemmas.serving_by(results, place.table))
            for lemma in serving:
                if id(lemma) in self.written:
                    self.cite(lemma, results, place)
                    return []
            own = {id(lemma) for lemma in lemmas.of(results)}
            for lemma in lemmas.scouts_of(results) + [lemma for lemma in serving if id(lemma) in own]:
                if id(lemma) not in self.begun:
                    return self.begin(lemma, place)
        if not isinstance(plan, Ask):
            self.end(plan)
            return []
        if self.left == 0:
            raise Spent
        self.left -= 1
        self.tokens.append("?")
        place = place._replace(opened=False)
        return [place._replace(go=plan.no, lit=negated(plan.lit)), place._replace(go=plan.yes, lit=plan.lit)]

    def end(self, plan):
        if isinstance(plan, Fails):
            raise Spent
        self.tokens.append(".")

    def cite(self, lemma, results, place):
        self.tokens.append(f"c{self.written[id(lemma)]};")
        for lit in lemma.literals + conditions(self.search.count, lemma.results, results):
            self.tokens.append(cycle_text(why(place.table, lit, place.length)))

    def begin(self, lemma, place):
        self.begun.add(id(lemma))
        self.tokens.append("l" + "/".join(f"{x},{y},{k}" for x, y, k in lemma.literals) + ";")
        table = table_of(self.search.names, lemma.literals)
        return [place, lemma, Place(place.go, table, len(lemma.literals), None, True)]


def settle(f, tp2, budget=BUDGET):
    """The text of a proof and the number of questions; or None for it, and the obligation that fails, its cause and the
    answers that lead there."""
    parts, left = [f"otproof 1 {'tp2' if tp2 else 'tp1'}\n"], budget
    for kinds in obligations(f, tp2):
        search = Search(lambda: marked_plan(f, kinds), len(kinds), left)
        holds = search.run()
        left = search.left
        if not holds:
            answers, cause = search.failing_end()
            return None, budget - left, (kinds, cause, answers)
        parts.append("ob " + " ".join(kinds) + "\n" + Writer(search).write() + "\n")
    return "".join(parts) + "end\n", budget - left, None


def main():
    sys.setrecursionlimit(100_000)
    words = sys.argv[1:]
    with open([word for word in words if not word.startswith("--")][0], encoding="utf-8") as file:
        f = read_function(file.read())
    text, questions, failure = settle(f, "--tp1" not in words)
    if "--questions" in words:
        print(f"{questions} questions", file=sys.stderr)
    if failure:
        kinds, cause, answers = failure
        print(f"no {'tp1' if len(kinds) == 2 else 'tp2'} {cause}: {' '.join(kinds)}", file=sys.stderr)
        print("".join(f"{x} <= {y} {'-' if k < 0 else '+'} {abs(k)}\n" for x, y, k in answers), end="", file=sys.stderr)
        sys.exit(1)
    sys.stdout.write(text)


if __name__ == "__main__":
    main()
