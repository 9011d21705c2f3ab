"""What the registers of a program hold before each of its instructions."""
from names import members_of, methods_of, signal_of, type_of

TO_BOOL = ("cmp", "same", "not", "and", "or", "adopt", "connect", "idle", "timeout")
# The registers that an instruction reads, by their places in it: objects that may not be null, and others.
READ = {"move": ([], [2]), "add": ([], [2, 3]), "sub": ([], [2, 3]), "mul": ([], [2, 3]), "cmp": ([], [3, 4]), "same": ([], [2, 3]),
        "not": ([], [2]), "and": ([], [2, 3]), "or": ([], [2, 3]), "join": ([], [2, 3]), "convert": ([], [2]), "get": ([2], []),
        "set": ([1], [3]), "sink": ([1], []), "orphan": ([1], []), "dispose": ([1], []), "adopt": ([2, 3], []), "freeze": ([1], []),
        "thaw": ([1], []), "emit": ([2], []), "notify": ([1], []), "connect": ([2, 7], []), "disconnect": ([1], []), "block": ([1], []),
        "unblock": ([1], []), "idle": ([4], []), "timeout": ([5], []), "call": ([2], []), "if": ([], [1]), "ifnull": ([], [1]),
        "return": ([], [1])}
WRITES = ("const", "move", "clear", "add", "sub", "mul", "cmp", "same", "not", "and", "or", "join", "convert", "get", "object", "new", "adopt",
          "emit", "connect", "idle", "timeout", "call")


def kind_written(tree, kinds, code):
    """The kind that an instruction leaves in the register that it writes, or None where it writes none."""
    word = code[0]
    if word in TO_BOOL:
        return "bool"
    if word in ("move", "add", "sub", "mul"):
        return kinds[code[2]]
    if word in ("object", "new"):
        return f"at?:{code[2]}"
    if word == "get":
        return members_of(tree, type_of(tree, kinds[code[2]]), "properties").get(code[3].replace("_", "-"), {}).get("kind", "?")
    if word == "emit":
        return None if code[1] is None else (signal_of(tree, type_of(tree, kinds[code[2]]), code[3]) or {}).get("result", "?")
    if word == "call":
        return (methods_of(tree, type_of(tree, kinds[code[2]])) or {}).get(code[3], {}).get("result", "?")
    return {"clear": "unset", "join": "text", "const": code[2:3], "convert": code[3:4]}.get(word)


def kinds_before(tree, program, block, at):
    """What each register holds before an instruction."""
    entry = program.get("params", []) if block == 0 else program["blocks"][block].get("in", [])
    kinds = [*entry, *["unset"] * (program["registers"] - len(entry))]
    for code in program["blocks"][block]["code"][:at]:
        kind = kind_written(tree, kinds, code)
        if kind is not None:
            kinds[code[1]] = kind[0] if isinstance(kind, list) else kind
    return kinds


def held(kinds, registers):
    """A text of what registers hold."""
    return " and ".join(f"register {it} holds {'nothing' if kinds[it] == 'unset' else f'`{kinds[it]}`'}" for it in sorted(set(registers)))


def not_null(kind):
    """The kind of the same object where it is known not to be null."""
    return kind.replace("at?:", "at:").replace("object:", "some:")
