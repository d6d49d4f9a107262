"""Random operations on <<module>>.py: python3 -m unittest <<module>>_test"""
from __future__ import annotations

import json
import random
import unittest
from typing import Any

import <<module>>
from <<module>> import KINDS, Operation, SharedText


def drawn_operation(
    draw: random.Random, shared: SharedText, site: int
) -> Operation | None:
    """An operation that has its place in the document, if one has."""
    cells = len(shared)
    kinds = [kind for kind in KINDS if cells or kind == "ins"]
    if not kinds:
        return None
    kind = draw.choice(kinds)
    position = draw.randint(0, cells if kind == "ins" else cells - 1)
    return Operation(kind, position, "" if kind == "del" else draw.choice(<<letters>>), site)


def through_json(value: Any) -> Any:
    return json.loads(json.dumps(value))


class Test(unittest.TestCase):
    def test_a_wrong_argument_is_told(self) -> None:
        with self.assertRaisesRegex(TypeError, "SharedText"):
            <<module>>.apply("text", <<module>>.NOP)  # type: ignore[arg-type]
        with self.assertRaisesRegex(TypeError, "Operation"):
            <<module>>.transform("text", <<module>>.NOP)  # type: ignore[arg-type]
        with self.assertRaisesRegex(ValueError, "kind"):
            <<module>>.apply(SharedText("xy"), Operation("cut", 0, "a", 1))
<<differ>>
