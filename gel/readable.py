"""Programs on the way back: as statements where the same blocks come of them again, and as raw blocks elsewhere."""
from .bodies import OPERANDS
from .code import blocks_of
from .faults import Fault
from .kinds import Kinds
from .names import variable_names
from .normal import normal_program
from .statements import Statements, Unstructured
from .syntax import Syntax
from .words import constant, kind_word, word

# How a program is written: with values inside of values, with the kinds of constants left out, and with plain assignments.
STYLES = ((True, True, True), (True, False, True), (True, False, False), (False, False, True), (False, False, False))


class Readable:
    """Writes a program."""

    def __init__(self, model, program):
        self.model, self.program = model, program

    def lines(self):
        """The lines of the program. A style counts only if the same blocks come of it."""
        wanted = normal_program(self.program)
        for style in STYLES:
            try:
                lines = self.statement_lines(style)
                if self.again(lines) == wanted:
                    return lines
            except Fault:
                continue
            except Unstructured:
                break
        return self.raw_lines()

    def again(self, lines):
        """The normal form of what comes of the lines."""
        made = Syntax("\n".join(lines)).whole()["programs"][0]
        kinds = Kinds(self.model)
        made["names"] = [it["name"] for it in made["params"]]
        made["params"] = [str(kinds.kind(it["kind"], "register")) for it in made["params"]]
        if "result" in made:
            made["result"] = kinds.kind(made["result"], "result")
        made["blocks"], _ = blocks_of(kinds, made, made)
        return normal_program(made) if made["registers"] == self.program["registers"] else None

    def head(self, params, more):
        """The first line of the program."""
        result = self.program.get("result", "none")
        return (f"program {word(self.program['name'])}({', '.join(params)})" + (f" -> {kind_word(result)}" if result != "none" else "")
                + more + " {")

    def statement_lines(self, style):
        """The program in statements. Fails as Unstructured where its blocks are not those of statements."""
        names = variable_names(self.model, self.program)
        params = [f"{names[number]}: {kind_word(kind)}" for number, kind in enumerate(self.program.get("params", []))]
        more = f" registers {self.program['registers']}" if self.program["registers"] > len(names) else ""
        return [self.head(params, more), *Statements(self.model, self.program, names, style).whole(), "}"]

    def raw_lines(self):
        """The program in raw blocks."""
        program = self.program
        lines = [self.head(list(map(kind_word, program.get("params", []))), f" registers {program['registers']} blocks")]
        for number, block in enumerate(program["blocks"]):
            head = f"block {number}"
            if block.get("in"):
                head += f" ({', '.join(map(kind_word, block['in']))})"
            if "repeat" in block:
                head += f" repeat {block['repeat']}"
            lines += [head + " {", *[raw_instruction(it) + ";" for it in block["code"]], "}"]
        return [*lines, "}"]


def raw_instruction(instruction):
    """An instruction of a raw block."""
    parts = [instruction[0]]
    for sort, value in zip(OPERANDS[instruction[0]], instruction[1:]):
        parts.append(raw_operand(sort, value, instruction))
    return " ".join(parts)


def raw_operand(sort, value, instruction):
    """An operand of a raw instruction."""
    if value is None and sort in "zD":
        return "none"
    if sort in "rz":
        return f"%{value}"
    if sort == "a":
        return f"({', '.join(f'%{it}' for it in value)})"
    if sort == "c":
        return f"({', '.join(value)})"
    if sort == "k":
        return kind_word(value)
    if sort == "v":
        return constant(value, instruction[2])
    if sort in "sD":
        return f"'{value}'" if value == "none" else word(value)
    return str(value)
