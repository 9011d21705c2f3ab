"""Which registers an instruction reads and writes, and what they hold after it."""
from .bodies import OPERANDS
from .model import canonical, not_null

WRITES = ("const", "move", "clear", "add", "sub", "mul", "cmp", "same", "not", "and", "or", "join", "convert", "get", "object", "new", "adopt",
          "connect", "idle", "timeout", "call", "emit")
ENDS = ("jump", "if", "ifnull", "return")
TO_BOOL = ("cmp", "same", "not", "and", "or", "adopt", "connect", "idle", "timeout")


def written(instruction):
    """The register that an instruction writes, or None."""
    return instruction[1] if instruction[0] in WRITES else None


def places(instruction):
    """Where registers are in an instruction: (place, place in a list or None)."""
    for at, sort in enumerate(OPERANDS[instruction[0]], 1):
        if sort == "r" or sort == "z" and instruction[at] is not None:
            yield at, None
        elif sort == "a":
            yield from ((at, inner) for inner in range(len(instruction[at])))


def read(instruction):
    """The registers that an instruction reads, in order."""
    skipped = 1 if instruction[0] in WRITES else 0
    return [instruction[at] if inner is None else instruction[at][inner] for at, inner in places(instruction) if at != skipped]


def targets(instruction):
    """The blocks that an instruction may lead to."""
    return [instruction[at] for at, sort in enumerate(OPERANDS[instruction[0]], 1) if sort == "b"]


def renamed(instruction, registers):
    """The instruction with other registers."""
    made = [list(it) if isinstance(it, list) else it for it in instruction]
    for at, inner in places(instruction):
        if inner is None:
            made[at] = registers[instruction[at]]
        else:
            made[at][inner] = registers[instruction[at][inner]]
    return made


def result_kind(model, instruction, kinds):
    """The kind of what an instruction that is typed writes."""
    word = instruction[0]
    if word in TO_BOOL:
        return "bool"
    if word in ("const", "convert"):
        return instruction[2 if word == "const" else 3]
    if word in ("move", "add", "sub", "mul"):
        return kinds[instruction[2]]
    if word in ("object", "new"):
        return "at?:" + instruction[2]
    if word in ("get", "emit", "call"):
        of = model.class_of(kinds[instruction[2]])
        if word == "get":
            return model.properties(of)[canonical(instruction[3])]["kind"]
        return model.signal(of, instruction[3])["result"] if word == "emit" else model.methods(of)[instruction[3]]["result"]
    return "text" if word == "join" else "unset"


def kinds_before(model, program):
    """For each block, the kinds of all registers before each instruction. The program is typed."""
    count, found = program["registers"], []
    for number, block in enumerate(program["blocks"]):
        entry = program.get("params", []) if number == 0 else block.get("in", [])
        kinds = [*entry, *["unset"] * (count - len(entry))]
        rows = []
        for instruction in block["code"]:
            rows.append(list(kinds))
            if written(instruction) is not None:
                kinds[written(instruction)] = result_kind(model, instruction, kinds)
        found.append(rows)
    return found


def tested(instruction, kinds):
    """The kinds of all registers at the second block of an `ifnull`."""
    kinds = list(kinds)
    kinds[instruction[1]] = not_null(kinds[instruction[1]])
    return kinds
