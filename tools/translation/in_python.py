"""Modules in Python."""
from . import common
from .common import joined


class Python(common.Language):
    comment, true, equal, no, nothing = "#", "True", "==", "not ", "None"
    words = {"and": "and", "or": "or"}
    folder, ending = "python", ".py"
    cell = ["", "", "class Cell(NamedTuple):", "    character: str", "    live: bool = True"]

    def moved(self, place):
        return f"a._replace(position={place})"

    def returned(self, text):
        return f"    return {text}"

    def when(self, guard, text):
        line = f"    if {self.condition(guard)}:"
        if len(line) <= 88:
            return [line, f"        return {text}"]
        return ["    if (", *self.content(guard, " " * 8), "    ):", f"        return {text}"]

    def content(self, guard, indent):
        """What stands between two parentheses: in one line, or an operand a line."""
        if guard[0] == "not" or len(indent + self.condition(guard)) <= 88:
            return self.operand(guard, indent, "")
        first, *others = joined(guard, guard[0])
        lines = self.operand(first, indent, "")
        return lines + [line for part in others for line in self.operand(part, indent, self.words[guard[0]] + " ")]

    def operand(self, guard, indent, before):
        line = indent + before + self.operand_text(guard)
        inner = self.stripped(guard)
        if len(line) <= 88 or inner[0] not in ("and", "or"):
            return [line]
        opening = indent + before + "not " * (guard[0] == "not") + "("
        return [opening, *self.content(inner, indent + " " * 4), indent + ")"]

    def routine(self, kinds, lines):
        return ["", "", f"def {kinds[0]}_over_{kinds[1]}(a: Operation, b: Operation) -> Operation | None:", *lines]

    def module(self, f, extra):
        beyond = {(True,): " + 1", (False,): "", (False, True): ' + (operation.kind == "ins")'}
        text = common.filled(
            common.part("python", "module.py"),
            typing="Any, NamedTuple",
            kinds=", ".join(f'"{kind}"' for kind in f.kinds) + "," * (len(f.kinds) == 1),
            cell=self.cell if f.tomb else [],
            differ=self.differ() if f.sites else [],
            blocks=self.blocks(f),
            rows=[f'    ("{one}", "{two}"): {one}_over_{two},' for one, two in f.blocks],
            beyond=beyond[tuple(sorted({kind == "ins" for kind in f.kinds}))],
            ends=self.ends(f),
            **(self.tombstones() if f.tomb else self.plain_cells()),
        )
        if extra:
            text += common.part("python", "carry.py") + common.part("python", extra + ".py")
        return text

    def differ(self):
        return [
            "    if a.site == b.site:",
            '        raise ValueError(f"the sites have to differ, and both are {a.site}")',
        ]

    def tombstones(self):
        return {
            "documents": ["    Its cells are characters. A deleted one stays in its place and is dead."],
            "type": "Cell",
            "made": "tuple(map(Cell, text))",
            "read": "Cell(cell[0], cell[1])",
            "written": "list(cell)",
            "paired": ", each with whether it is live",
            "shown": "cell.character for cell in self.cells if cell.live",
            "position": [
                "        live = [at for at, cell in enumerate(self.cells) if cell.live]",
                "        if 0 <= offset <= len(live):",
                "            return [*live, len(self.cells)][offset]",
            ],
            "before": "sum(cell.live for cell in self.cells[:position])",
        }

    def plain_cells(self):
        return {
            "documents": ["    Its cells are characters."],
            "type": "str",
            "made": "tuple(text)",
            "read": "str(cell)",
            "written": "cell",
            "paired": "",
            "shown": "self.cells",
            "position": ["        if 0 <= offset <= len(self.cells):", "            return offset"],
            "before": "position",
        }

    def ends(self, f):
        plain = {
            "ins": "(operation.character,) + behind",
            "del": "behind[1:]",
            "upd": "(operation.character,) + behind[1:]",
        }
        tomb = {
            "ins": "(Cell(operation.character),) + behind",
            "del": "(Cell(behind[0].character, False),) + behind[1:]",
            "upd": "(Cell(operation.character, behind[0].live),) + behind[1:]",
        }
        ends = {kind: f"SharedText.of_cells(before + {end})" for kind, end in (tomb if f.tomb else plain).items()}
        *others, last = f.kinds
        lines = [
            line
            for kind in others
            for line in (f'    if operation.kind == "{kind}":', f"        return {ends[kind]}")
        ]
        return lines + [f"    return {ends[last]}"]

    def test(self, f, name, extra):
        differ = [
            '        with self.assertRaisesRegex(ValueError, "differ"):',
            f'            one = Operation("{f.kinds[0]}", 0, "a", 1)',
            f"            {name}.transform(one, one)",
        ]
        text = common.part("python", "test.py") + common.part("python", f"test_{extra or 'pairs'}.py")
        return common.filled(text, module=name, differ=differ if f.sites else [], letters='"abc"')

    def files(self, f, name, extra):
        """What stands beside the module, by name."""
        return {f"{name}_test.py": self.test(f, name, extra)}
