"""The normal form of a definition: two definitions are the same, but for the numbers of registers and blocks, if their normal forms are."""
from .model import Model, canonical
from .registers import places, renamed, targets

DEFAULTS = {"abstract": False, "final": False, "after": False, "weak": False, "result": "none"}


def normal(definition):
    """The normal form. What is written out although it goes without saying is left out; the order of flags does not count."""
    made = trimmed(definition)
    for program in made.get("programs", []):
        program.update(normal_program(program))
    for entry in made.get("objects", []):
        normal_handlers(entry)
    model = Model(made)
    for entry in model.places.values():
        for it in entry.get("properties", []):
            if isinstance(it.get("value"), str) and model.properties(entry["class"])[canonical(it["name"])]["kind"].startswith("flags:"):
                it["value"] = without_blanks(it["value"])
    return made


def without_blanks(words):
    """Words of flags without what does not count between them."""
    return "|".join(part.strip() for part in words.split("|") if part.strip())


def trimmed(value):
    """The value without members that say what holds without them."""
    if isinstance(value, list):
        return [trimmed(it) for it in value]
    if not isinstance(value, dict):
        return value
    found = {name: trimmed(it) for name, it in value.items() if not is_implied(name, it, value)}
    if "flags" in found and isinstance(found["flags"], list) and all(isinstance(it, str) for it in found["flags"]):
        trim_flags(found)
    if isinstance(found.get("default"), str) and str(found.get("kind")).startswith("flags:"):
        found["default"] = without_blanks(found["default"])
    return found


def is_implied(name, it, holder):
    """Whether a member may be left out. The flags of a signal may be none, which is something else."""
    if name in DEFAULTS:
        return type(it) is type(DEFAULTS[name]) and it == DEFAULTS[name]
    if name == "flags" and is_signal(holder):
        return False
    return it in ([], {})


def is_signal(value):
    """Whether an object of the format with flags is a signal, whose flags may be none."""
    return "source" not in value and "kind" not in value and "format" not in value


def trim_flags(found):
    """Sorts flags, and leaves those out that a property or a signal has without saying so."""
    flags = sorted(set(found["flags"]))
    found["flags"] = flags
    if "kind" in found and flags == ["readable", "writable"] or is_signal(found) and flags == ["run-last"]:
        del found["flags"]


def normal_handlers(entry):
    """Says whether a handler is swapped only where it is not as it goes without saying."""
    for it in entry.get("signals", []):
        if it.get("swapped") == ("object" in it):
            del it["swapped"]
    for child in entry.get("children", []):
        normal_handlers(child)


def block_order(blocks):
    """The numbers of the blocks in the order in which they are come to, and then those that nothing leads to."""
    order, left = [], [0]
    while left:
        number = left.pop()
        if number not in order:
            order.append(number)
            left += reversed(targets(blocks[number]["code"][-1]))
    return order + [it for it in range(len(blocks)) if it not in order]


def normal_program(program):
    """The registers and blocks of a program, numbered in the order in which they are come to."""
    blocks = program["blocks"]
    order = block_order(blocks)
    number_of = {old: new for new, old in enumerate(order)}
    registers = register_order(program, order)
    made = []
    for old in order:
        block = dict(blocks[old])
        entry = [(registers[at], kind) for at, kind in enumerate(block.pop("in", [])) if kind != "unset"]
        if entry:
            block["in"] = sorted(entry)
        block["code"] = [jumps_renamed(renamed(it, registers), number_of) for it in block["code"]]
        made.append(block)
    return {"blocks": made}


def register_order(program, order):
    """A new number for each register: those of the parameters stay, others follow as they are come to."""
    registers = {it: it for it in range(len(program.get("params", [])))}
    for old in order:
        for instruction in program["blocks"][old]["code"]:
            for at, inner in places(instruction):
                number = instruction[at] if inner is None else instruction[at][inner]
                registers.setdefault(number, len(registers))
    for number in range(program["registers"]):
        registers.setdefault(number, len(registers))
    return registers


def jumps_renamed(instruction, numbers):
    """The instruction with other numbers of blocks; the options of `connect` in one order, and flags without blanks."""
    if instruction[0] in ("jump", "if", "ifnull"):
        first = 1 if instruction[0] == "jump" else 2
        return [*instruction[:first], *[numbers[it] for it in instruction[first:]]]
    if instruction[0] == "connect":
        instruction[6] = sorted(set(instruction[6]))
    if instruction[0] == "const" and isinstance(instruction[3], str) and instruction[2].startswith("flags:"):
        instruction[3] = without_blanks(instruction[3])
    return instruction
