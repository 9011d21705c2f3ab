"""Names, kinds and constants as a source writes them."""
import json

from .reader import PLAIN
from .tokens import BARE

KIND_WORDS = (*PLAIN, "none", "unset", "weak", "new", "emit", "adopt", "same", "connect", "idle", "timeout", "not", "true", "false", "null")


def word(name):
    """A name, in quotes where it is not one that can be written bare."""
    return name if BARE.fullmatch(name) else f"'{name}'"


def type_word(name):
    """The name of a type, in quotes where it would be read as something else."""
    return f"'{name}'" if name in KIND_WORDS else word(name)


def kind_word(kind):
    """A kind of the format, as the language writes it."""
    sort, _, name = kind.partition(":")
    if not name:
        return sort
    if sort in ("at", "at?"):
        return f"#{word(name)}" + ("?" if sort == "at?" else "")
    return type_word(name) + ("?" if sort == "object" else "")


def constant(value, kind):
    """A value of a kind."""
    if value is None or isinstance(value, bool):
        return {None: "null", True: "true", False: "false"}[value]
    if isinstance(value, int):
        return str(value)
    sort = kind.partition(":")[0]
    if sort == "text":
        return json.dumps(value, ensure_ascii=False).replace("\x7f", "\\u007f")
    if sort == "flags":
        parts = [it.strip() for it in value.split("|")]
        return " | ".join(map(value_word, parts)) if all(parts) else json.dumps(value)
    return value_word(value)


def value_word(name):
    """The name of a member or an id, in quotes where it would be read as a value."""
    return f"'{name}'" if name in ("true", "false", "null") else word(name)
