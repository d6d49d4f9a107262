"""Modules in JavaScript."""
import re

from . import common
from .common import joined

MAKER = """
/**
 * @param {number} position<<character_note>>
 * @param {number} site
 * @returns {Operation}
 */
export function <<name>>(position, <<character>>site) {
  return wanted({ kind: "<<kind>>", position, <<field>>, site });
}"""

NAMES = {"ins": "insertion", "del": "deletion", "upd": "update"}

CODE = """
/**
 * The code of its character: strings are compared by the halves of pairs.
 * @param {Operation} operation
 */
function codeOf({ character }) {
  return character.codePointAt(0) ?? 0;
}"""


class JavaScript(common.Language):
    comment, true, equal, no, nothing = "//", "true", "===", "!", "null"
    words = {"and": "&&", "or": "||"}
    folder, ending = "javascript", ".mjs"

    def thing(self, word):
        # Characters are compared by their codes, and strings would be by those of their halves.
        return f"codeOf({'a' if word[1] == '1' else 'b'})" if word[0] == "c" else super().thing(word)

    def moved(self, place):
        return f"{{ ...a, position: {place} }}"

    def returned(self, text):
        return f"  return {text};"

    def when(self, guard, text):
        line = f"  if ({self.condition(guard)}) {{"
        if len(line) <= 80:
            return [line, f"    return {text};", "  }"]
        return ["  if (", *self.content(guard, " " * 4), "  ) {", f"    return {text};", "  }"]

    def content(self, guard, indent):
        """What stands between two parentheses: an operand a line."""
        if guard[0] not in ("and", "or"):
            return self.operand(guard, indent, "", "")
        *others, last = joined(guard, guard[0])
        sign = " " + self.words[guard[0]]
        lines = [line for part in others for line in self.operand(part, indent, "", sign)]
        return lines + self.operand(last, indent, "", "")

    def operand(self, guard, indent, before, behind):
        line = indent + before + self.operand_text(guard) + behind
        inner = self.stripped(guard)
        if len(line) <= 80 or inner[0] not in ("and", "or"):
            return [line]
        if guard[0] == "not":
            return [indent + before + "!(", *self.content(inner, indent + "  "), indent + ")" + behind]
        first, *middle, last = joined(guard, guard[0])
        sign = " " + self.words[guard[0]]
        lines = self.operand(first, indent, before + "(", sign)
        lines += [line for part in middle for line in self.operand(part, indent + "  ", "", sign)]
        return lines + self.operand(last, indent + "  ", "", ")" + behind)

    def routine(self, kinds, lines):
        types = ["/**", " * @param {Operation} a", " * @param {Operation} b", " * @returns {Operation | null}", " */"]
        return ["", *types, f"function {kinds[0]}Over{kinds[1].title()}(a, b) {{", *lines, "}"]

    def module(self, f, extra):
        last = {(True,): "", (False,): " - 1", (False, True): ' - (operation.kind === "ins" ? 0 : 1)'}
        blocks = self.blocks(f)
        code = CODE.split("\n") if any("codeOf(" in line for line in blocks) else []
        text = common.filled(
            common.part("javascript", "module.mjs"),
            makers=[line for kind in f.kinds for line in self.maker(kind).split("\n")],
            differ=self.differ() if f.sites else [],
            blocks=code + blocks,
            rows=[f'  "{one} {two}": {one}Over{two.title()},' for one, two in f.blocks],
            last=last[tuple(sorted({kind == "ins" for kind in f.kinds}))],
            ends=self.ends(f),
            **self.names(f),
            **(self.tombstones() if f.tomb else self.plain_cells()),
        )
        if extra:
            text += common.part("javascript", "carry.mjs") + common.part("javascript", extra + ".mjs")
        return text

    def maker(self, kind):
        has_character = kind != "del"
        return common.filled(
            MAKER,
            name=NAMES[kind],
            kind=kind,
            character_note="\n * @param {string} character" * has_character,
            character="character, " * has_character,
            field="character" if has_character else 'character: ""',
        )

    def names(self, f):
        return {
            "kinds": ", ".join(f'"{kind}"' for kind in f.kinds),
            "union": " | ".join(f'"{kind}"' for kind in f.kinds),
            "celltype": "{ character: string, live: boolean }" if f.tomb else "string",
            "plaintype": "[string, boolean]" if f.tomb else "string",
        }

    def differ(self):
        return [
            "  if (a.site === b.site) {",
            "    throw new RangeError(`the sites have to differ, and both are ${a.site}`);",
            "  }",
        ]

    def tombstones(self):
        return {
            "documents": "A deleted cell stays in its place and is dead.",
            "made": "Array.from(text, (character) => ({ character, live: true }))",
            "read": "value.map(([character, live]) => ({ character, live }))",
            "written": "this.cells.map(({ character, live }) => [character, live])",
            "paired": ", each with whether it is live",
            "shown": "this.cells.map(({ character, live }) => (live ? character : \"\"))",
            "live": "cell.live && ",
            "width": "cell.live ? cell.character.length : 0",
        }

    def plain_cells(self):
        return {
            "documents": "Its cells are characters.",
            "made": "Array.from(text)",
            "read": "[...value]",
            "written": "[...this.cells]",
            "paired": "",
            "shown": "this.cells",
            "live": "",
            "width": "cell.length",
        }

    def ends(self, f):
        put = "{ character: operation.character, live: true }" if f.tomb else "operation.character"
        new = "{ ...behind[0], character: operation.character }" if f.tomb else "operation.character"
        left = "{ ...behind[0], live: false }, " if f.tomb else ""
        ends = {
            "ins": f"[...before, {put}, ...behind]",
            "del": f"[...before, {left}...behind.slice(1)]",
            "upd": f"[...before, {new}, ...behind.slice(1)]",
        }
        lines = []
        for kind in f.kinds[:-1]:
            lines += [f'  if (operation.kind === "{kind}") {{', *self.listed("    ", ends[kind]), "  }"]
        return lines + self.listed("  ", ends[f.kinds[-1]])

    def listed(self, indent, text):
        """The document of some cells, an element a line where they are too long for one."""
        if len(f"{indent}return SharedText.ofCells({text});") <= 80:
            return [f"{indent}return SharedText.ofCells({text});"]
        parts = re.findall(r"\{[^}]*\}|[^,{}\s][^,{}]*", text[1:-1])
        return [f"{indent}return SharedText.ofCells([", *(f"{indent}  {part}," for part in parts), f"{indent}]);"]

    def script(self, text, name):
        """A module as a script that gives a page one constant, for pages that can load no modules."""
        exported = re.findall(r"^export (?:const|class|function) (\w+)", text, re.M)
        head, blank, body = text.partition("\n\n")
        body = re.sub(r"^export ", "", body, flags=re.M)
        body = re.sub(r"^(?=.)", "  ", body, flags=re.M)
        return f"{head}\n\nconst {name} = (() => {{\n{body}\n  return {{ {', '.join(exported)} }};\n}})();\n"

    def test(self, f, name, extra):
        differ = [
            f'  const one = {{ kind: "{f.kinds[0]}", position: 0, character: "a", site: 1 }};',
            "  assert.throws(() => it.transform(one, one), /sites have to differ/);",
        ]
        text = common.part("javascript", "test.mjs") + common.part("javascript", f"test_{extra or 'pairs'}.mjs")
        return common.filled(text, module=name, differ=differ if f.sites else [])

    def types(self, f, extra):
        made = {kind: f"position: number, {'character: string, ' * (kind != 'del')}site: number" for kind in f.kinds}
        text = common.filled(
            common.part("javascript", "types.d.mts"),
            makers=[f"export function {NAMES[kind]}({made[kind]}): Operation;" for kind in f.kinds],
            **self.names(f),
        )
        if extra:
            text += common.part("javascript", "types_carry.d.mts")
            text += common.part("javascript", f"types_{extra}.d.mts")
        return text

    def files(self, f, name, extra):
        """What stands beside the module, by name."""
        return {f"{name}.d.mts": self.types(f, extra), f"{name}.test.mjs": self.test(f, name, extra)}
