"""Why a definition that was read is not accepted."""
import re

from costs import dearest
from json_places import at_path
from names import all_objects, members_of, named, objects_of, place_paths, shape_of, signal_of
from registers import WRITES
from typing_hints import detail_hint, fit_hint, given, typing_hint
from values import CONVERSIONS
from wording import nearest, sentence

RULES = {
    "same": "a property would be bound to itself",
    "readable": "the property that the binding reads is not readable",
    "writable": "the property that the binding sets is not writable",
    "construct-only": "the property that the binding sets is set when its object is made, and never after that",
    "kinds": "a value of the one kind cannot become a value of the other",
    "invert": "`invert-boolean` needs two properties of the kind `bool`",
}


def rule_hint(tree, schema, said):
    """The path and the hint of a refusal of a definition that was read; None for a refusal of reading."""
    name, *fields = said.split(" ")[1:]
    hints = {"IllTyped": lambda: instruction_fault(tree, schema, fields), "Unbalanced": lambda: unbalanced_fault(tree, fields),
             "HandlerSignature": lambda: (fields[0], handler_hint(tree, fields[0])),
             "BindingRule": lambda: (fields[0], binding_hint(tree, *fields)),
             "SecondPair": lambda: (fields[0], "one of the two properties is already in a bidirectional binding, and a property may be in only one"),
             "Cycle": lambda: cycle_hint(tree, said), "BoundTooLarge": lambda: bound_hint(tree, fields),
             "PeerMissing": lambda: peer_hint(tree, name, fields[0]), "PeerShape": lambda: peer_hint(tree, name, fields[0])}
    return hints[name]() if name in hints else None


def instruction_fault(tree, schema, fields):
    """The instruction that is not typed, and why."""
    number, program = named(objects_of(tree, "programs"), fields[0])
    block, at = int(fields[1]), int(fields[2])
    code = program["blocks"][block]["code"][at]
    row = next(it for it in schema["$defs"]["instruction"]["oneOf"] if it["prefixItems"][0]["const"] == code[0])
    hint = typing_hint(tree, program, block, at, fields[3])
    return f"/programs/{number}/blocks/{block}/code/{at}", f"{sentence(hint)} `{code[0]}`: {row['description']}"


def unbalanced_fault(tree, fields):
    """The first instruction of a block at which `freeze` and `thaw` do not fit."""
    number, program = named(objects_of(tree, "programs"), fields[0])
    path, open_at = f"/programs/{number}/blocks/{fields[1]}", {}
    for at, code in enumerate(program["blocks"][int(fields[1])]["code"]):
        if code[0] == "freeze":
            open_at.setdefault(code[1], []).append(at)
        elif code[0] == "thaw":
            if not open_at.get(code[1]):
                return f"{path}/code/{at}", f"no `freeze` of register {code[1]} comes before this `thaw` in the same block"
            open_at[code[1]].pop()
        elif len(code) > 1 and code[0] in WRITES and open_at.get(code[1]):
            return f"{path}/code/{at}", f"this writes register {code[1]} between its `freeze` and its `thaw`"
    register, left = next(((it, places[-1]) for it, places in open_at.items() if places), (0, 0))
    return f"{path}/code/{left}", f"this block has no `thaw` of register {register} after this `freeze`"


def handler_hint(tree, path):
    """Why a handler of a class or an object, or a `constructed` program, does not fit."""
    holder = at_path(tree, re.match(r"/classes/\d+|/objects/\d+(/children/\d+)*", path)[0])
    if path.endswith("/constructed"):
        return fit_hint(tree, holder["constructed"], [f"some:{holder['name']}"], "none")
    entry = at_path(tree, path)
    if isinstance(entry, list):
        of, instance, signal, program, entry = holder["name"], f"some:{holder['name']}", *entry, {}
    else:
        of, instance, signal, program = holder["class"], f"at:{holder['id']}", entry["name"], entry["handler"]
    it, detail = signal_of(tree, of, signal), entry.get("detail")
    if it is None:
        parts = signal.partition("::")
        more = f"; the detail is a member of its own: \"name\": \"{parts[0]}\", \"detail\": \"{parts[2]}\"" if parts[1] else ""
        return f"there is no signal `{signal}` of {of}{more or nearest(signal, [*members_of(tree, of, 'signals'), 'notify'])}"
    if detail is not None:
        is_taken = signal != "notify" or detail.replace("_", "-") in members_of(tree, of, "properties")
        if not is_taken or "detailed" not in it.get("flags", []):
            return detail_hint(tree, of, signal, detail)
    data = [f"at:{entry['object']}"] if "object" in entry else []
    return fit_hint(tree, program, given([instance], it.get("params", []), data, entry.get("swapped", bool(data))), it.get("result", "none"))


def binding_hint(tree, path, rule):
    """Which rule a binding breaks."""
    bind, entry = at_path(tree, path), path.rpartition("/")[0]
    both = " (a bidirectional binding is checked both ways)" if "bidirectional" in bind.get("flags", []) else ""
    if rule not in ("kinds", "invert"):
        return RULES[rule] + both
    name, holder = at_path(tree, entry)["name"], at_path(tree, entry.rpartition("/properties/")[0])
    source = next(it for it in all_objects(tree) if it.get("id") == bind["source"])
    ends = (source, bind.get("property", name)), (holder, name)
    kinds = [members_of(tree, of["class"], "properties")[prop.replace("_", "-")]["kind"] for of, prop in ends]
    why = CONVERSIONS if rule == "kinds" else RULES[rule]
    return f"the source is of the kind `{kinds[0]}` and the target of the kind `{kinds[1]}`: {why}{both}"


def cycle_hint(tree, said):
    """Where one link of a cycle is, and the cycle in words."""
    links = [link.split(" by ") for link in said[len("refused: Cycle "):].split(", ")]
    number, program = named(objects_of(tree, "programs"), links[0][1])
    path = f"/programs/{number}"
    if program is None:
        owner, _, name = links[1 % len(links)][0].partition(" ")[2].partition(".")
        entries = [{**it, "name": it["name"].replace("_", "-")} for it in objects_of(at_path(tree, place_paths(tree)[owner]), "properties")]
        path = f"{place_paths(tree)[owner]}/properties/{named(entries, name)[0]}"
    ways = [f"`{channel}` {'has a binding' if what == 'binding' else f'runs `{what}`'}" for channel, what in links]
    again = "the first" if ways[1:] else "it"
    return path, f"this may raise itself: {', which may raise the next: '.join(ways)}, which may raise {again} again. It makes no difference whether " \
                 "a program tests something first: one of these links has to go, or the two properties become a `bidirectional` binding"


def bound_hint(tree, fields):
    """Where too many steps begin, and the path on which most of them are counted."""
    entry = " ".join(fields)
    owner = fields[-1].partition(".")[0]
    programs, places = objects_of(tree, "programs"), place_paths(tree)
    try:
        links, first = dearest(tree, entry)
    except RecursionError:
        links, first = [], None
    path = f"/programs/{named(programs, first)[0]}" if first else places.get(owner, "")
    most = f"most of them on this path: {'; '.join(links)}. " if links else ""
    return path, f"more than 1,000,000,000,000 counted steps may follow, {most}The steps of handlers that raise each other multiply, and so do " \
                 "those of repeated blocks"


def peer_hint(tree, cause, name):
    """Where a peer is named that a run has to get from its host."""
    path, holder = next((path, it) for path, it, peers in peers_in(tree) if name in peers)
    accepted = f"the definition is accepted, and needs the peer `{name}` of its host to run"
    if cause == "PeerMissing":
        return path, f"{accepted}: `ui run` has only peers of the shapes `Screen` and `Tally`; `ui verify` needs no peer"
    shape = next(it for it in ("Screen", "Tally") if shape_of(tree, holder["class"]) == it)
    methods = {"Screen": "`show(text) -> uint` and `line(uint) -> text`", "Tally": "`add(int64) -> int64` and `read() -> int64`"}[shape]
    return path, f"{accepted}: the `{shape}` of `ui run` has the methods {methods}, in this order"


def peers_in(tree):
    """Each path at which peers are named, with its object or prototype and the names. Prototypes come first."""
    for number, it in enumerate(objects_of(tree, "prototypes")):
        for at, peer in enumerate(it.get("peers", [])):
            yield f"/prototypes/{number}/peers/{at}", it, [peer]
    for path in place_paths(tree).values():
        it = at_path(tree, path)
        if "peer" in it:
            yield f"{path}/peer", it, [it["peer"]]


def peers_told(tree):
    """Which peers an accepted definition needs that `ui run` does not have, as a text, or nothing."""
    strange = [f"`{peer}` of the shape `{shape_of(tree, it['class'])}`" for _, it, peers in peers_in(tree) for peer in peers
               if shape_of(tree, it["class"]) not in ("Screen", "Tally")]
    return f"; it needs peers of a host, which `ui run` does not have: {', '.join(strange)}" if strange else ""
