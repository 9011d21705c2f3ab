"""Statements for the blocks of a program."""
from .registers import kinds_before, read, result_kind, targets, tested, written
from .words import constant, kind_word, word

SIGNS = {"add": "+", "sub": "-", "mul": "*", "join": "+", "and": "and", "or": "or"}
LEVELS = {"or": 1, "and": 2, "not": 3, "cmp": 4, "same": 4, "add": 5, "sub": 5, "join": 5, "mul": 6, "convert": 7}
LEAF = 9


class Unstructured(Exception):
    """The blocks are not those of statements."""


class Statements:
    """Writes the statements of one program."""

    def __init__(self, model, program, names, style):
        self.model, self.program, self.names = model, program, names
        self.is_folded, self.is_bare, self.is_assigned = style
        self.blocks, self.before = program["blocks"], kinds_before(model, program)
        self.reach, self.seen, self.declared = self.reaches(), set(), {}
        self.once = self.read_once() if self.is_folded else set()
        self.live_in = self.live()
        self.keeps = [self.kept(number) for number in range(len(self.blocks))]

    def whole(self):
        """All statements. Fails as Unstructured where the blocks are not those of statements."""
        self.declared = dict(enumerate(self.program.get("params", [])))
        lines = self.walk(0, None)
        if len(self.seen) != len(self.blocks):
            raise Unstructured
        if lines and lines[-1] == "return;":
            lines.pop()
        return lines

    # what is known of blocks

    def reaches(self):
        """For each block all blocks to which it leads, with itself."""
        found = [set() for _ in self.blocks]
        for number in range(len(self.blocks) - 1, -1, -1):
            found[number] = {number}.union(*[found[it] for it in targets(self.blocks[number]["code"][-1])])
        return found

    def read_once(self):
        """The registers that are written once and read once, behind that in the same block, and that no block names."""
        writes, reads = {}, {}
        for number, block in enumerate(self.blocks):
            for instruction in block["code"]:
                for it in read(instruction):
                    reads.setdefault(it, []).append(number)
                if written(instruction) is not None:
                    writes.setdefault(written(instruction), []).append(number)
        params = len(self.program.get("params", []))
        named = {at for block in self.blocks for at, kind in enumerate(block.get("in", [])) if kind != "unset"}
        return {it for it, where in writes.items() if it >= params and it not in named and len(where) == 1 and reads.get(it) == where}

    def live(self):
        """The registers that are read in each block or later, before they are written."""
        found = [set() for _ in self.blocks]
        for number in range(len(self.blocks) - 1, -1, -1):
            block = self.blocks[number]
            after = set().union(*[found[it] for it in targets(block["code"][-1])], set())
            for _ in range(2 if "repeat" in block else 1):
                now = set(after) | (found[number] if "repeat" in block else set())
                for instruction in reversed(block["code"]):
                    now.discard(written(instruction))
                    now.update(read(instruction))
                found[number] = now
        return found

    def kept(self, number):
        """The statement `keep` that a block needs, or nothing: what its `in` says beyond what is seen without it."""
        if number == 0:
            return []
        live, ways, entries = self.live_in[number], self.ways(number), []
        for register, kind in enumerate(self.blocks[number].get("in", [])):
            if kind == "unset" or register not in self.names:
                if kind != "unset":
                    raise Unstructured
                continue
            met = self.met([way[register] for way in ways])
            if met != kind:
                entries.append(f"{self.names[register]}: {kind_word(kind)}")
            elif register not in live:
                entries.append(self.names[register])
        return [f"keep {', '.join(entries)};"] if entries else []

    def ways(self, number):
        """The kinds of all registers on each way to a block."""
        found = []
        for block, rows in zip(self.blocks, self.before):
            last = block["code"][-1]
            for at, target in enumerate(targets(last)):
                if target == number:
                    found.append(tested(last, rows[-1]) if last[0] == "ifnull" and at == 1 else rows[-1])
        return found

    def met(self, kinds):
        """The kind that all these fit, if one of them is that."""
        for kind in kinds:
            if all(self.model.fits(it, kind) and kind != "unset" for it in kinds):
                return kind
        return "unset"

    # statements

    def walk(self, number, stop):
        """The statements from a block up to another one."""
        lines = []
        while number != stop:
            if number in self.seen:
                raise Unstructured
            self.seen.add(number)
            made, number = self.block(number, stop)
            lines += made
        return lines

    def block(self, number, stop):
        """The statements of a block, and the block after them."""
        block = self.blocks[number]
        if "repeat" in block:
            body = self.straight(number, block["code"][:-1])[0]
            return [f"repeat {block['repeat']} {{", *self.keeps[number], *body, "}"], block["code"][-1][1]
        last = block["code"][-1]
        lines, pending = self.straight(number, block["code"][:-1], last)
        lines = [*self.keeps[number], *lines]
        if last[0] == "return":
            text = "return;" if last[1] is None else f"return {self.operand(pending, last[1], number)};"
            return [*lines, text], stop
        if last[0] == "jump":
            if last[1] != stop and "repeat" not in self.blocks[last[1]]:
                lines.append("next;")
            return lines, last[1]
        made, after = self.branch(number, last, pending, lines, stop)
        return made, after

    def branch(self, number, last, pending, lines, stop):
        """The statement of a branch, and the block in which its ways meet."""
        one, two = last[2], last[3]
        if one == two:
            raise Unstructured
        both = self.reach[one] & self.reach[two]
        join = min(both) if both else None
        test = self.operand(pending, last[1], number)
        heads = (f"if {test} {{", f"unless {test} {{") if last[0] == "if" else (f"if {test} is null {{", f"if {test} is not null {{")
        if join is None:
            return self.guard(heads, last, lines, stop)
        declared = dict(self.declared)
        first = self.walk(one, join)
        self.declared = dict(declared)
        second = self.walk(two, join)
        self.declared = declared
        if one == join:
            return [*lines, heads[1], *second, "}"], join
        if two == join:
            return [*lines, heads[0], *first, "}"], join
        return [*lines, heads[0], *first, "} else {", *second, "}"], join

    def guard(self, heads, last, lines, stop):
        """A branch of which the one way ends the program; the other goes on."""
        one, two = last[2], last[3]
        is_one = stop not in self.reach[one] if stop is not None else len(self.reach[one]) <= len(self.reach[two])
        short, rest = (one, two) if is_one else (two, one)
        declared = dict(self.declared)
        body = self.walk(short, None)
        self.declared = declared
        if is_one and last[0] == "ifnull" and lines and self.is_let(lines[-1], last[1]):
            made = [*lines[:-1], *otherwise(lines[-1], body)]
        else:
            made = [*lines, heads[0 if is_one else 1], *body, "}"]
        return made, rest

    def is_let(self, line, register):
        """Whether a statement makes the variable of a register, which is then tested."""
        return line.startswith(f"let {self.names[register]} = ")

    def straight(self, number, code, last=None):
        """The statements of instructions in a row, and the values that the last instruction of the block takes in."""
        lines, pending = [], []
        for at, instruction in enumerate(code):
            self.step(number, at, instruction, lines, pending)
        self.flush(lines, pending, read(last) if last else [])
        return lines, dict((register, (text, level)) for register, text, level, _ in pending)

    def flush(self, lines, pending, operands):
        """Makes variables of pending values, but for the last ones, if these are the operands in order."""
        wanted = [it for it in operands if it in [row[0] for row in pending]]
        count = len(wanted)
        if count and [row[0] for row in pending[-count:]] != wanted:
            count = 0
        done = pending[:len(pending) - count]
        del pending[:len(done)]
        for register, text, _, kind in done:
            lines.append(self.stored(register, text, kind))

    def step(self, number, at, instruction, lines, pending):
        """Takes one instruction: it becomes a statement, or a value that is still to be read."""
        operands, register = read(instruction), written(instruction)
        is_value = register is not None and register in self.once
        wanted = [it for it in operands if it in [row[0] for row in pending]]
        if wanted and [row[0] for row in pending[-len(wanted):]] != wanted or not is_value:
            self.flush(lines, pending, operands)
        known = {row[0]: (row[1], row[2]) for row in pending}
        text, level = self.text(known, instruction, number, at)
        pending[:] = [row for row in pending if row[0] not in operands]
        kind = None if register is None or instruction[0] == "clear" else result_kind(self.model, instruction, self.before[number][at])
        if is_value:
            pending.append((register, text, level, kind))
        elif kind is None:
            lines.append(text + ";")
        else:
            lines.append(self.stored(register, text, kind))

    def stored(self, register, text, kind):
        """The statement that puts a value into the variable of a register."""
        is_known = self.is_assigned and self.declared.get(register) == kind
        self.declared.setdefault(register, kind)
        if not is_known:
            self.declared[register] = kind
        return f"{'' if is_known else 'let '}{self.names[register]} = {text};"

    # values

    def operand(self, known, register, number, level=0):
        """The text of a register that is read: a value that is still to be written, or its variable."""
        text, own = known.get(register, (self.names[register], LEAF))
        return f"({text})" if own < level else text

    def text(self, known, it, number, at):
        """The text of an instruction, and how strongly it binds."""
        name, kinds = it[0], self.before[number][at]

        def operand(register, level=0):
            return self.operand(known, register, number, level)

        def several(registers):
            return ", ".join(operand(one) for one in registers)

        if name in SIGNS:
            level = LEVELS[name]
            return f"{operand(it[2], level)} {SIGNS[name]} {operand(it[3], level + 1)}", level
        maker = getattr(self, "text_" + name, None)
        if maker:
            return maker(it, kinds, operand, several)
        if name in ("disconnect", "block", "unblock"):
            return f"{name} {operand(it[1])} -> {word(it[2])}", LEAF
        if name in ("unbind", "remove"):
            return f"{name} {word(it[1])}", LEAF
        return (name if name == "stop" else f"{name} {operand(it[1])}"), LEAF

    def text_const(self, it, kinds, operand, several):
        """The value or statement of `const`."""
        kind, value = it[2], constant(it[3], it[2])
        if kind in ("int", "bool") or kind == "text" and value != "null" or self.is_bare:
            return value, LEAF
        return f"{kind_word(kind)}({value})", LEAF

    def text_move(self, it, kinds, operand, several):
        """The value or statement of `move`."""
        return operand(it[2]), LEAF

    def text_cmp(self, it, kinds, operand, several):
        """The value or statement of `cmp`."""
        return f"{operand(it[3], 5)} {({'eq': '==', 'lt': '<', 'le': '<='})[it[2]]} {operand(it[4], 5)}", 4

    def text_same(self, it, kinds, operand, several):
        """The value or statement of `same`."""
        if kinds[it[2]] in ("int", "uint", "int64", "uint64"):
            return f"same({operand(it[2])}, {operand(it[3])})", LEAF
        return f"{operand(it[2], 5)} == {operand(it[3], 5)}", 4

    def text_not(self, it, kinds, operand, several):
        """The value or statement of `not`."""
        return f"not {operand(it[2], 3)}", 3

    def text_convert(self, it, kinds, operand, several):
        """The value or statement of `convert`."""
        return f"{operand(it[2], 7)} as {kind_word(it[3])}", 7

    def text_get(self, it, kinds, operand, several):
        """The value or statement of `get`."""
        return f"{operand(it[2], LEAF)}.{word(it[3])}", LEAF

    def text_set(self, it, kinds, operand, several):
        """The value or statement of `set`."""
        return f"{operand(it[1], LEAF)}.{word(it[2])} = {operand(it[3])}", LEAF

    def text_notify(self, it, kinds, operand, several):
        """The value or statement of `notify`."""
        return f"notify {operand(it[1], LEAF)}.{word(it[2])}", LEAF

    def text_object(self, it, kinds, operand, several):
        """The value or statement of `object`."""
        return f"#{word(it[2])}", LEAF

    def text_new(self, it, kinds, operand, several):
        """The value or statement of `new`."""
        return f"new {word(it[2])}", LEAF

    def text_adopt(self, it, kinds, operand, several):
        """The value or statement of `adopt`."""
        return f"adopt({several(it[2:])})", LEAF

    def text_emit(self, it, kinds, operand, several):
        """The value or statement of `emit`."""
        detail = "" if it[4] is None else f"::{word(it[4])}"
        return f"emit {operand(it[2], LEAF)}.{word(it[3])}{detail}({several(it[5])})", LEAF

    def text_call(self, it, kinds, operand, several):
        """The value or statement of `call`."""
        return f"{operand(it[2], LEAF)}.{word(it[3])}({several(it[4])})", LEAF

    def text_connect(self, it, kinds, operand, several):
        """The value or statement of `connect`."""
        detail = "" if it[4] is None else f"::{word(it[4])}"
        text = f"connect {operand(it[2], LEAF)}.{word(it[3])}{detail} -> {word(it[5])}"
        if it[7] is not None:
            text += f"({operand(it[7])}, ..)" if "swapped" in it[6] else f"(.., {operand(it[7])})"
        elif "swapped" in it[6]:
            text += " swapped"
        return text + (" after" if "after" in it[6] else ""), 0

    def text_idle(self, it, kinds, operand, several):
        """The value or statement of `idle`."""
        return f"idle {word(it[2])}{self.data(it[4], operand)}" + (f" priority {it[3]}" if it[3] != 200 else ""), 0

    def text_timeout(self, it, kinds, operand, several):
        """The value or statement of `timeout`."""
        return f"timeout {word(it[2])}{self.data(it[5], operand)} every {it[4]}" + (f" priority {it[3]}" if it[3] else ""), 0

    @staticmethod
    def data(register, operand):
        """The data of a source, in parentheses."""
        return "" if register is None else f"({operand(register)})"


def otherwise(line, body):
    """A statement that makes a variable, with what is done where it would be null."""
    if len(body) == 1:
        return [f"{line[:-1]} else {body[0]}"]
    return [f"{line[:-1]} else {{", *body, "}"]
