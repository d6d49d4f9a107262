"""Modules in Rust."""
import re

from . import common
from .common import joined

AT = """
impl Operation {
    fn at(self, position: i64) -> Operation {
        Operation { position, ..self }
    }
}"""

CELL = """
/// A character, and whether it is live: a deleted one stays in its place and is dead.
#[derive(Clone, Copy, Debug, PartialEq, Eq)]
pub struct Cell {
    pub character: char,
    pub live: bool,
}"""

PLAIN_ARMS = {
    "ins": """\
        Kind::Ins if at <= cells.len() => cells.insert(at, operation.character),""",
    "del": """\
        Kind::Del if at < cells.len() => {
            cells.remove(at);
        }""",
    "upd": """\
        Kind::Upd if at < cells.len() => cells[at] = operation.character,""",
}

TOMB_ARMS = {
    "ins": """\
        Kind::Ins if at <= cells.len() => cells.insert(
            at,
            Cell {
                character: operation.character,
                live: true,
            },
        ),""",
    "del": """\
        Kind::Del if at < cells.len() => cells[at].live = false,""",
    "upd": """\
        Kind::Upd if at < cells.len() => cells[at].character = operation.character,""",
}

PLAIN_JSON = """
fn cell_plain(cell: &char) -> Plain {
    Plain::Text(cell.to_string())
}

fn cell_of(value: &Plain) -> Option<char> {
    value.character()
}"""

TOMB_JSON = """
fn cell_plain(cell: &Cell) -> Plain {
    Plain::List(vec![
        Plain::Text(cell.character.to_string()),
        Plain::Truth(cell.live),
    ])
}

fn cell_of(value: &Plain) -> Option<Cell> {
    let [character, Plain::Truth(live)] = value.list()? else {
        return None;
    };
    Some(Cell {
        character: character.character()?,
        live: *live,
    })
}"""

DIFFER = """
#[test]
#[should_panic(expected = "the sites have to differ")]
fn one_site_is_told() {
    let one = Draw(1).operation(&SharedText::new("x"), 1).unwrap();
    let _ = transform(one, one);
}"""


CHARACTER = "        let character = Plain::Text(self.character.to_string());"


class Rust(common.Language):
    comment, true, equal, no, nop, nothing = "//!", "true", "==", "!", "Some(NOP)", "None"
    words = {"and": "&&", "or": "||"}
    folder, ending = "rust", ".rs"

    def found(self, text):
        return f"Some({text})"

    def moved(self, place):
        return f"a.at({place})"

    def returned(self, text):
        return f"    {text}"

    def when(self, guard, text):
        line = f"    if {self.condition(guard)} {{"
        body = [f"        return {text};", "    }"]
        if len(line) <= 100:
            return [line, *body]
        return [*self.laid(guard, "    ", "if ", ""), "    {", *body]

    def laid(self, guard, indent, before, behind):
        """A guard without parentheses of its own, broken at its operators where it is too long for a line."""
        line = indent + before + self.condition(guard) + behind
        if len(line) <= 100 or guard[0] not in ("and", "or"):
            return [line] if len(line) <= 100 else self.operand(guard, indent, before, behind)
        first, *middle, last = joined(guard, guard[0])
        inner, sign = indent + "    ", self.words[guard[0]] + " "
        lines = self.operand(first, indent, before, "")
        lines += [line for part in middle for line in self.operand(part, inner, sign, "")]
        return lines + self.operand(last, inner, sign, behind)

    def operand(self, guard, indent, before, behind):
        line = indent + before + self.operand_text(guard) + behind
        inner = self.stripped(guard)
        if len(line) <= 100 or inner[0] not in ("and", "or"):
            return [line]
        return self.laid(inner, indent, before + "!" * (guard[0] == "not") + "(", ")" + behind)

    def routine(self, kinds, lines):
        used = set(re.findall(r"\b[ab]\b", "\n".join(lines)))
        a, b = ("a" if "a" in used else "_a"), ("b" if "b" in used else "_b")
        name = f"{kinds[0]}_over_{kinds[1]}"
        return ["", f"fn {name}({a}: Operation, {b}: Operation) -> Option<Operation> {{", *lines, "}"]

    def module(self, f, extra):
        blocks, arms = self.blocks(f), TOMB_ARMS if f.tomb else PLAIN_ARMS
        pairs = [(f"Kind::{one.title()}, Kind::{two.title()}", f"{one}_over_{two}(a, b)") for one, two in f.blocks]
        text = common.filled(
            common.part("rust", "module.rs"),
            kinds=[f"    {kind.title()}," for kind in (*f.kinds, "nop")],
            count=str(len(f.kinds)),
            listed=", ".join(f"Kind::{kind.title()}" for kind in f.kinds),
            at=AT.split("\n") if any(".at(" in line for line in blocks) else [],
            cell=CELL.split("\n") if f.tomb else [],
            rows=[f"        ({pair}) => {call}," for pair, call in pairs],
            blocks=blocks,
            arms=[arms[kind] for kind in f.kinds],
            panics=["///", "/// # Panics", "///", "/// The sites have to differ."] if f.sites else [],
            differ=self.differ() if f.sites else [],
            **(self.tombstones() if f.tomb else self.plain_cells()),
        )
        if extra:
            carry = common.filled(common.part("rust", "carry.rs"), **self.json(f))
            text += carry + common.part("rust", extra + ".rs")
        return text

    def differ(self):
        return [
            "    assert!(",
            "        a.site != b.site || a.kind == Kind::Nop || b.kind == Kind::Nop,",
            '        "the sites have to differ, and both are {}",',
            "        a.site",
            "    );",
        ]

    def tombstones(self):
        return {
            "documents": ["/// A deleted cell stays in its place and is dead."],
            "type": "Cell",
            "all_live": ", all of them live",
            "made": [
                "        let live = true;",
                "        let cells = text.chars().map(|character| Cell { character, live });",
                "        SharedText::of_cells(cells.collect())",
            ],
            "shown": [
                "        let live = self.cells.iter().filter(|cell| cell.live);",
                "        live.map(|cell| cell.character).collect()",
            ],
            "position": [
                "        let mut live = (0..self.cells.len()).filter(|at| self.cells[*at].live);",
                "        let count = live.clone().count();",
                "        live.nth(offset)",
                "            .or_else(|| (offset == count).then_some(self.cells.len()))",
            ],
            "before": [
                "        let before = self.cells.get(..position)?;",
                "        Some(before.iter().filter(|cell| cell.live).count())",
            ],
        }

    def plain_cells(self):
        return {
            "documents": ["/// Its cells are characters."],
            "type": "char",
            "all_live": "",
            "made": ["        SharedText::of_cells(text.chars().collect())"],
            "shown": ["        self.cells.iter().collect()"],
            "position": ["        (offset <= self.cells.len()).then_some(offset)"],
            "before": ["        (position <= self.cells.len()).then_some(position)"],
        }

    def json(self, f):
        written = {
            "ins": '            Kind::Ins => Plain::List(vec![word("ins"), position, character, site]),',
            "del": '            Kind::Del => Plain::List(vec![word("del"), position, site]),',
            "upd": '            Kind::Upd => Plain::List(vec![word("upd"), position, character, site]),',
        }
        read = {
            kind: f'            ("{kind}", 4) => (Kind::{kind.title()}, values[2].character()?),' for kind in f.kinds
        }
        read["del"] = "            (\"del\", 3) => (Kind::Del, ' '),"
        return {
            "written": [written[kind] for kind in f.kinds],
            "read": [read[kind] for kind in f.kinds],
            "character": [CHARACTER] if f.kinds != ("del",) else [],
            "cells": (TOMB_JSON if f.tomb else PLAIN_JSON).split("\n"),
        }

    def test(self, f, name, extra):
        text = common.part("rust", "test.rs") + common.part("rust", f"test_{extra or 'pairs'}.rs")
        return common.filled(text, module=name, differ=DIFFER.split("\n") if f.sites else [])

    def files(self, f, name, extra):
        """What stands beside the module, by name."""
        return {f"{name}_test.rs": self.test(f, name, extra)}
