"""Names for the registers of a program."""
import re

from .reader import WHOLE
from .registers import places, written
from .tokens import BARE

# Words that begin a statement or a value, or that come between values.
WORDS = {"let", "if", "else", "unless", "repeat", "keep", "next", "return", "stop", "clear", "notify", "sink", "orphan", "dispose", "freeze", "thaw", "disconnect",
         "block", "unblock", "unbind", "remove", "new", "emit", "adopt", "same", "connect", "idle", "timeout", "not", "and", "or", "as", "is", "true",
         "false", "null", "every", "priority", "after", "swapped", "bool", "int", "uint", "int64", "uint64", "text", "none", "unset", "blocks", "registers"}


def used(program):
    """The registers that the instructions of a program name, in order."""
    found = []
    for block in program["blocks"]:
        for instruction in block["code"]:
            for at, inner in places(instruction):
                number = instruction[at] if inner is None else instruction[at][inner]
                if number not in found:
                    found.append(number)
    return found


def variable_names(model, program):
    """A name for each parameter and each register that an instruction names."""
    made, writes = {}, {}
    for block in program["blocks"]:
        for instruction in block["code"]:
            if written(instruction) is not None:
                writes.setdefault(written(instruction), []).append(instruction)
    for number, kind in enumerate(program.get("params", [])):
        add(made, number, param_word(kind))
    for number in used(program):
        if number not in made:
            add(made, number, value_word(writes.get(number, [])))
    return made


def add(made, number, wish):
    """Gives a register the name that is wished, with a number behind it where that is taken."""
    name = wish if wish not in WORDS and BARE.fullmatch(wish) else "it"
    tried, count = name, 1
    while tried in made.values():
        count += 1
        tried = f"{name}{count}"
    made[number] = tried


def param_word(kind):
    """A name for what is given: the class, in small letters with `_` between, or the id."""
    sort, _, name = kind.partition(":")
    if sort in ("at", "at?"):
        return name
    return re.sub(r"(?<=[a-z0-9])(?=[A-Z])", "_", name or "value").lower() if name else "value"


def value_word(writes):
    """A name for a value, by what makes it: a property, an object or a constant."""
    words = {it[3] if it[0] in ("get", "call", "emit") else it[2] for it in writes if it[0] in ("get", "call", "emit", "object", "new")}
    if len(words) == 1:
        return words.pop().replace("-", "_")
    makers = {it[0] for it in writes}
    consts = {it[2] for it in writes if it[0] == "const"}
    if "bool" in consts or makers & {"cmp", "same", "not", "and", "or", "adopt", "connect", "idle", "timeout"}:
        return "yes"
    return "words" if "join" in makers or "text" in consts else "number" if makers & {"add", "sub", "mul"} or consts & {*WHOLE} else "it"
