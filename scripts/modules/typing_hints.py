"""Why an instruction of a program is not typed, and why a program does not fit where it runs."""
from names import bindings_in, ids_in, members_of, methods_of, named, names_in, objects_of, signal_of, type_of
from registers import READ, held, kinds_before, not_null
from values import CONVERSIONS
from wording import counted, listed, nearest

OBJECTS = ("object", "some", "at", "at?")


def typing_hint(tree, program, block, at, rule):
    """Why an instruction is not typed."""
    code = program["blocks"][block]["code"][at]
    kinds = kinds_before(tree, program, block, at)
    objects, others = ([code[it] for it in places if code[it] is not None] for places in READ.get(code[0], ([], [])))
    read = [*objects, *others, *(code[5] if code[0] == "emit" else code[4] if code[0] == "call" else [])]
    if rule == "unset":
        empty = [it for it in read if kinds[it] == "unset"]
        return f"{held(kinds, empty)} here; a block begins with what its `in` names, and the first block with `params`"
    if rule == "null":
        return null_hint(program, kinds, block, next(it for it in objects if not kinds[it].startswith(("some:", "at:"))))
    if rule == "block":
        return block_hint(program, kinds, code, block)
    if rule == "result" and code[0] == "return":
        return return_hint(program, kinds, code)
    if rule in ("kind", "result"):
        wrong = next((it for it in objects if kinds[it].partition(":")[0] not in OBJECTS), None)
        if wrong is not None:
            return f"{held(kinds, [wrong])} here, and `{code[0]}` takes an object there"
        return (held(kinds, read) or "nothing is given") + f" here{wanted_hint(tree, kinds, code)}"
    return name_hint(tree, program, kinds, code, rule)


def null_hint(program, kinds, block, register):
    """How an object that may be null is tested, or taken as one that is not."""
    kind = not_null(kinds[register])
    is_given = block == 0 and register < len(program.get("params", [])) and program["params"][register] == kinds[register]
    other = f"; or take it as `{kind}` in `params`" if is_given and kind.startswith("some:") else ""
    return (f"register {register} is `{kinds[register]}` here, which may be null: test it with `ifnull`, and name it `{kind}` in the `in` of the "
            f"second block{other}")


def return_hint(program, kinds, code):
    """Why a `return` does not give what the program's `result` says."""
    wanted = program.get("result", "none")
    if wanted == "none":
        return f"{held(kinds, code[1:])} here, and the program has no `result`: write [\"return\", null], or give the program a `result`"
    given = "this returns nothing" if code[1] is None else f"{held(kinds, code[1:])} here"
    return f"{given}, and the program's `result` is `{wanted}`: return a register of this kind"


def wanted_hint(tree, kinds, code):
    """What an instruction asks for, if a register or the number of arguments does not fit."""
    word = code[0]
    if word == "set":
        of = members_of(tree, type_of(tree, kinds[code[1]]), "properties").get(code[2].replace("_", "-"))
        return f", and the property `{code[2]}` is of the kind `{of['kind']}`{convert_hint(kinds[code[3]], of['kind'])}" if of else ""
    if word in ("emit", "call"):
        return arguments_hint(tree, kinds, code)
    if word == "convert":
        return f", and nothing makes `{code[3]}` of it: {CONVERSIONS}"
    if word in ("add", "sub", "mul", "cmp"):
        return f", and `{word}` takes two whole numbers of one kind: `convert` makes a number of another kind"
    if word in ("not", "and", "or", "if"):
        return f", and `{word}` takes a bool: `cmp` and `same` make one"
    if word == "ifnull":
        return ", and `ifnull` takes an object or a text"
    if word == "same":
        return ", and `same` takes two values of one kind, or two objects"
    if word == "join":
        return ", and `join` takes two texts: `convert` makes a text of a whole number or a bool"
    return ""


def convert_hint(kind, wanted):
    """That `convert` helps, where a whole number is of another kind than is wanted."""
    whole = ("int", "uint", "int64", "uint64")
    return f": `convert` makes a `{wanted}` of a `{kind}`" if kind in whole and wanted in whole else ""


def arguments_hint(tree, kinds, code):
    """What a signal or a method takes, and how many arguments are given."""
    of_emit = code[0] == "emit"
    name, given = type_of(tree, kinds[code[2]]), code[5] if of_emit else code[4]
    of = signal_of(tree, name, code[3]) if of_emit else (methods_of(tree, name) or {}).get(code[3])
    if not of:
        return ""
    params = of.get("params", [])
    count = f"; the code gives {counted(len(given), 'argument')}, and it takes {len(params)}" if len(given) != len(params) else ""
    result = f" and gives `{of.get('result', 'none')}`" if of_emit else ""
    return f", and the {'signal' if of_emit else 'method'} takes {listed(params) or 'nothing'}{result}{count}"


def block_hint(program, kinds, code, own):
    """Which register does not fit the block that an instruction leads to, or its own block, where that is repeated."""
    for block in [*([own] if "repeat" in program["blocks"][own] else []), *code[1 if code[0] == "jump" else 2:]]:
        second = code[0] == "ifnull" and block == code[3]
        for number, wanted in enumerate(program["blocks"][block].get("in", [])):
            is_tested = second and number == code[1] and not_null(kinds[number]) == wanted
            if wanted not in ("unset", kinds[number]) and not is_tested:
                return f"the `in` of block {block} names register {number} as `{wanted}`, and {held(kinds, [number])} here"
    return "a register does not fit the `in` of a block that this leads to"


def name_hint(tree, program, kinds, code, rule):
    """What is wrong with a name in an instruction."""
    word = code[0]
    of = type_of(tree, kinds[code[READ[word][0][0]]]) if READ.get(word, ([], []))[0] and word not in ("idle", "timeout") else None
    if rule == "signature":
        return signature_hint(tree, program, kinds, code, of)
    if rule in ("flags", "construct-only"):
        why = "set when its object is made, and never after that" if rule != "flags" else "not readable" if word == "get" else "not writable"
        return f"the property `{code[3] if word == 'get' else code[2]}` is {why}"
    if rule == "detail":
        return detail_hint(tree, of, code[3], code[4])
    if word in ("get", "set", "notify"):
        name, words = code[3] if word == "get" else code[2], members_of(tree, of, "properties")
        return f"there is no property `{name}` of {of}{nearest(name, words)}"
    if word == "emit" and code[3] == "notify":
        return "`notify` cannot be emitted: use the instruction `notify`"
    if word == "emit" or word == "connect" and signal_of(tree, of, code[3]) is None:
        return f"there is no signal `{code[3]}` of {of}{nearest(code[3], members_of(tree, of, 'signals'))}"
    if word == "call":
        methods = methods_of(tree, of)
        return f"{of} has no shape" if methods is None else f"there is no method `{code[3]}` of {of}{nearest(code[3], methods)}"
    return place_hint(tree, code)


def place_hint(tree, code):
    """Which object, prototype, binding or program an instruction names that is not there."""
    sorts = {"object": ("object", ids_in(tree), 2), "new": ("prototype", names_in(tree, "prototypes", "id"), 2),
             "unbind": ("binding", bindings_in(tree), 1), "remove": ("program", names_in(tree, "programs"), 1),
             "connect": ("program", names_in(tree, "programs"), 5)}
    what, words, at = sorts.get(code[0], ("program", names_in(tree, "programs"), 2))
    return f"there is no {what} `{code[at]}`{nearest(code[at], words)}"


def detail_hint(tree, of, signal, detail):
    """Why a signal does not take a detail."""
    if signal == "notify":
        return f"there is no property `{detail}` of {of}{nearest(detail, members_of(tree, of, 'properties'))}"
    return f"the signal `{signal}` takes no detail: only a signal with the flag `detailed` does"


def signature_hint(tree, program, kinds, code, of):
    """What a program that is connected or attached is given."""
    if code[0] == "connect":
        signal, is_swapped = signal_of(tree, of, code[3]), "swapped" in code[6]
        data = [] if code[7] is None else [kinds[code[7]]]
        return fit_hint(tree, code[5], given([kinds[code[2]]], signal.get("params", []), data, is_swapped), signal.get("result", "none"))
    data = code[5] if code[0] == "timeout" else code[4]
    return fit_hint(tree, code[2], [] if data is None else [kinds[data]], "bool")


def given(instance, args, data, is_swapped):
    """The kinds that a handler is given, in order."""
    return [*data, *args, *instance] if is_swapped else [*instance, *args, *data]


def fit_hint(tree, name, kinds, result):
    """What a program is given and has to give, beside what it takes and gives."""
    program = named(objects_of(tree, "programs"), name)[1]
    takes, gives = program.get("params", []), program.get("result", "none")
    return (f"`{name}` is given {listed(kinds) or 'nothing'} and has to give `{result}`; its `params` are {listed(takes) or 'none'}, "
            f"and its `result` is `{gives}`")
