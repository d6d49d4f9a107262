
from __future__ import annotations

from collections.abc import Callable
from typing import <<typing>>

KINDS = (<<kinds>>)


class Operation(NamedTuple):
    """What was done to a document; a deletion has no character, and "nop" nothing."""

    kind: str  # one of KINDS, or "nop"
    position: int = 0  # counted from 0 over all cells
    character: str = ""
    site: int = 0

    def plain(self) -> list[Any]:
        """The operation as JSON has it, ["del", position, site] for example."""
        if self.kind == "nop":
            return ["nop"]
        if self.kind == "del":
            return ["del", self.position, self.site]
        return [self.kind, self.position, self.character, self.site]

    @staticmethod
    def of_plain(value: list[Any]) -> Operation:
        kind, *rest = value
        if kind == "del" and len(rest) == 2:
            return wanted(Operation(kind, rest[0], "", rest[1]))
        return wanted(Operation(kind, *rest))


NOP = Operation("nop")
<<cell>>


class SharedText:
    """A document, which is never changed.

<<documents>>
    """

    def __init__(self, text: str = "") -> None:
        if not isinstance(text, str):
            raise TypeError(f"a SharedText is made of a str, not of {named(text)}")
        self.cells: tuple[<<type>>, ...] = <<made>>

    @staticmethod
    def of_cells(cells: tuple[<<type>>, ...]) -> SharedText:
        shared = SharedText()
        shared.cells = cells
        return shared

    @staticmethod
    def of_plain(value: list[Any]) -> SharedText:
        """The document that `plain` gave."""
        return SharedText.of_cells(tuple(<<read>> for cell in value))

    def plain(self) -> list[Any]:
        """The cells as JSON has them<<paired>>."""
        return [<<written>> for cell in self.cells]

    def __str__(self) -> str:
        """The text that a user sees."""
        return "".join(<<shown>>)

    def __len__(self) -> int:
        """How many cells there are."""
        return len(self.cells)

    def __eq__(self, other: object) -> bool:
        return isinstance(other, SharedText) and self.cells == other.cells

    def __repr__(self) -> str:
        return f"SharedText.of_plain({self.plain()!r})"

    def position_at(self, offset: int) -> int:
        """The position of the character before which a user sees `offset` others."""
<<position>>
        raise IndexError(f"a user sees fewer than {offset} characters")

    def offset_at(self, position: int) -> int:
        """How many characters a user sees before a position."""
        if not 0 <= position <= len(self.cells):
            raise IndexError(f"no cell has the position {position}")
        return <<before>>


def named(value: object) -> str:
    return f"a value of the type {type(value).__name__}"


def wanted(operation: Operation) -> Operation:
    """The operation, where it is one."""
    if not isinstance(operation, Operation):
        raise TypeError(f"an Operation is wanted, and not {named(operation)}")
    kind, position, character, site = operation
    if kind == "nop":
        return operation
    if kind not in KINDS:
        raise ValueError(f"{kind!r} is no kind of this function: {', '.join(KINDS)}")
    if type(position) is not int or type(site) is not int:
        raise TypeError("a position and a site are whole numbers")
    if kind != "del" and (not isinstance(character, str) or len(character) != 1):
        raise ValueError(f"the character has to be a str of one, and is {character!r}")
    return operation


def transform(a: Operation, b: Operation) -> Operation | None:
    """What `a` becomes after `b`; None where no case fits."""
    if wanted(a).kind == "nop" or wanted(b).kind == "nop":
        return a
<<differ>>
    return BLOCKS[a.kind, b.kind](a, b)
<<blocks>>


BLOCKS: dict[tuple[str, str], Callable[[Operation, Operation], Operation | None]] = {
<<rows>>
}


def apply(shared: SharedText, operation: Operation) -> SharedText | None:
    """The document after an operation; None where that has no place in it."""
    if not isinstance(shared, SharedText):
        raise TypeError(f"apply wants a SharedText, and not {named(shared)}")
    if wanted(operation).kind == "nop":
        return shared
    beyond = len(shared.cells)<<beyond>>
    if not 0 <= operation.position < beyond:
        return None
    before = shared.cells[: operation.position]
    behind = shared.cells[operation.position :]
<<ends>>
