"""What is wrong with a part of a definition that was refused while it was read."""
import json
from urllib.parse import unquote

from common import TOP
from json_places import at_path, parts_of
from names import class_of, ids_in, members_of, methods_of, named, names_in, objects_of
from program_hints import LIMITS, program_hint
from values import RANGES, value_fault
from wording import listed, nearest, sentence

SCHEMA = json.loads((TOP / "schema" / "definition.schema.json").read_text(encoding="utf-8"))
TYPE_NAME = "the name of a type has three characters or more: first an ASCII letter or _, then letters, digits, -, _ and +"
MEMBER_NAME = "the name of a property or signal begins with an ASCII letter, and has letters and digits with single - or _ between them"
CAUSES = {
    "UnknownParent": "it has to be declared earlier in the document",
    "FinalParent": "the parent is final, so no class can be derived from it",
    "Prerequisite": "the class has to be this first, as a child of it or by implementing it",
    "Abstract": "the class is abstract, so it has no objects: name a class that is derived from it",
    "FlagsClash": "`construct` and `construct-only` do not go together, each of them needs `writable`, and `readable` or `writable` has to be there",
    "RangeEmpty": "`min` is above `max`",
    "DefaultInvalid": "the default has bits that no member has",
    "NotWritable": "the property is not writable, so no value can be given to it",
    "OverrideMissing": "the class needs this property of its interface, as its own or inherited",
    "WrongJson": "this is not a value of the kind",
    "OutOfRange": "the kind does not have this number",
    "UnknownMember": "no member of the type has this name, nick or number",
    "TextTooLong": "a text has at most 4,096 bytes",
    "AccumulatorKind": "`true-handled` needs the result `bool`, and `first-wins` needs a result",
    "Duplicate": "a type, property or signal with this name is declared already",
}


def schema_at(path):
    """What the schema says of a path, or None where it knows nothing there."""
    of = SCHEMA
    for part in parts_of(path):
        of = resolved(of)
        if part.isdigit() and of.get("type") == "array":
            front = of.get("prefixItems", [])
            of = front[int(part)] if int(part) < len(front) else of.get("items")
        else:
            of = of.get("properties", {}).get(part)
        if not isinstance(of, dict):
            return None
    return resolved(of)


def resolved(of):
    """A part of the schema, with what it refers to."""
    while "$ref" in of:
        of = {**SCHEMA["$defs"][of["$ref"].rpartition("/")[2]], **{k: v for k, v in of.items() if k != "$ref"}}
    return of


def shape_hint(tree, path):
    """Why a part of a definition does not have the right form."""
    above, _, last = path.rpartition("/")
    last = parts_of("/" + last)[0]
    holder, of = at_path(tree, above), resolved(schema_at(above) or {})
    if path and isinstance(holder, dict):
        hint = member_hint(tree, holder, of, last)
        if hint:
            return hint
    if last == "in" and above.endswith("/blocks/0"):
        return "the first block has no `in`: it begins with the program's `params`"
    value, of = at_path(tree, path), schema_at(path) or {}
    if last == "value" and isinstance(value, str):
        return f"{json.dumps(value)} cannot be the id of an object: an id has 1 to 64 ASCII letters, digits, - and _"
    if last in ("peer", "peers") and methods_of(tree, holder.get("class")) is None:
        return f"the class `{holder.get('class')}` has no shape, so its objects have no peer"
    program = at_path(tree, "/".join(path.split("/")[:3]))
    if last in ("params", "in") and isinstance(value, list) and len(value) > program.get("registers", 32):
        return f"`{last}` names {len(value)} registers, and the program has {program['registers']}"
    return value_hint(value, of, last)


def member_hint(tree, holder, of, last):
    """Why a member of a JSON object is unknown, absent or not allowed; None where its value is wrong."""
    known = of.get("properties", {})
    if last not in known:
        absent = [name for name in of.get("required", []) if name not in holder]
        more = f" The member `{absent[0]}` is absent." if absent else ""
        return f"{sentence(f'the format has no member `{last}` here{nearest(last, known)}')}{more} The members are {listed(known)}"
    if last not in holder:
        if last == "value" and "bind" in known:
            return "there is neither `value` nor `bind`"
        if last == "peer":
            return f"the class `{holder.get('class')}` has a shape, so this object needs a `peer`: a name that no other object has"
        near = stranger(holder, known)
        return f"the member `{last}` is absent" + (f"; is `{near}` meant for it?" if near else "")
    if last == "bind" and "value" in holder:
        return "`value` and `bind` do not go together"
    if last == "repeat" and tree.get("format") == 1:
        return "only format 2 has repeated blocks: this needs `\"format\": 2`"
    return None


def stranger(holder, known):
    """The first member of a JSON object that the format does not have, or None."""
    return next((name for name in holder if name not in known), None)


def shape_place(tree, path):
    """Where the wrong form is to be seen: an absent member at the one that may be meant for it, and any other part at its own path."""
    above, _, last = path.rpartition("/")
    holder, known = at_path(tree, above), resolved(schema_at(above) or {}).get("properties", {})
    is_absent = path and isinstance(holder, dict) and last in known and last not in holder
    near = stranger(holder, known) if is_absent and last != "value" else None
    return f"{above}/{near.replace('~', '~0').replace('/', '~1')}" if near else path


def value_hint(value, of, name):
    """What is wrong with a value that its place in the schema does not allow."""
    if "enum" in of:
        return f"{json.dumps(value)} is not one of {listed(of['enum'])}{nearest(value, of['enum'])}"
    if "const" in of:
        return f"this has to be {json.dumps(of['const'])}"
    if all("const" in it for it in of.get("anyOf", [{}])):
        return "this has to be " + " or ".join(json.dumps(it["const"]) for it in of["anyOf"])
    pattern, sorts = of.get("pattern", ""), of.get("type")
    if pattern.startswith("^(") and isinstance(value, str):
        words = [word.rstrip(".*") for word in pattern[2:-2].replace("\\", "").split("|")]
        kinds = [f"{word}T" if word.endswith(":") else word for word in words]
        return f"{sentence(f'`{value}` is not a kind{nearest(value, words)}')} The kinds are {listed(kinds)}"
    name = "this entry" if name.isdigit() else f"`{name}`" if name else "the text"
    if sorts == "integer" and isinstance(value, int) and "minimum" in of:
        return f"{name} has to be from {of['minimum']} to {of.get('maximum', 'the limit')}"
    if sorts and not (isinstance(value, str) and sorts == "string"):
        return sort_hint(of, name)
    if pattern and isinstance(value, str):
        form = SCHEMA["$defs"]["name"] if pattern == SCHEMA["$defs"]["name"]["pattern"] else of
        return f"{json.dumps(value)} is not a name: {form.get('description', '')}"
    if name in ("`min`", "`max`"):
        return f"only a property whose kind is a kind of whole numbers may have {name}"
    if name == "`weak`":
        return "`weak` is true or false, and only a property of an object kind may have it"
    return of.get("description") or f"{name} does not have the right form"


def sort_hint(of, name):
    """Which sort of JSON value is expected."""
    sorts = {"array": "a list", "object": "a JSON object", "string": "a string", "integer": "a whole number", "boolean": "true or false",
             "null": "null"}
    wanted = " or ".join(sorts[it] for it in ([of["type"]] if isinstance(of["type"], str) else of["type"]))
    size = ", with at least one entry" if of.get("minItems") == 1 else ""
    return f"{name} has to be {wanted}{size}: {of.get('description', '')}".rstrip(": ")


def unknown_hint(tree, path, name):
    """Which name is not declared, and the nearest that is."""
    what, words = declared(tree, path)
    what, of, holder = what.partition(" of ")
    return f"there is no {what} `{name}`{of}{holder}{nearest(name, words)}"


def declared(tree, path):
    """What is named at a path, and the names that are declared."""
    last, entry, written = path.rpartition("/")[2], path.rpartition("/properties/")[0], at_path(tree, path)
    types = [*names_in(tree, "classes"), *names_in(tree, "interfaces"), "GObject", "GInitiallyUnowned"]
    if isinstance(written, str) and written.startswith(("at:", "at?:")):
        return "object or prototype", [*ids_in(tree), *names_in(tree, "prototypes", "id")]
    if last in ("kind", "result") or "/params/" in path or "/in/" in path:
        sort = str(written).partition(":")[0]
        of = {"enum": ("enum", names_in(tree, "enums")), "flags": ("flags type", names_in(tree, "flags"))}
        return of.get(sort, ("class or interface", types))
    if last in ("class", "parent"):
        return "class", [*names_in(tree, "classes"), "GObject", "GInitiallyUnowned"]
    if "/implements/" in path:
        return "interface", names_in(tree, "interfaces")
    if "/requires/" in path:
        return "class or interface", types
    if last == "shape":
        return "shape", names_in(tree, "shapes")
    if last in ("handler", "constructed") or "/class-handlers/" in path:
        return "program", names_in(tree, "programs")
    of = None
    if path.endswith("/bind/property"):
        of = class_of(tree, (at_path(tree, path.rpartition("/")[0]) or {}).get("source"))
    elif last == "name" and entry:
        of = (at_path(tree, entry) or {}).get("class")
    return (f"property of the class {of}", list(members_of(tree, of, "properties"))) if of else ("object", ids_in(tree))


def first_entry(tree, path):
    """Where the entry is that a duplicate repeats, if that is a name of one section."""
    above, _, last = path.rpartition("/")
    section, _, number = above.rpartition("/")
    entries, value = at_path(tree, section), at_path(tree, path)
    if isinstance(entries, list) and number.isdigit():
        for at, entry in enumerate(entries[:int(number)]):
            if isinstance(entry, dict) and entry.get(last) == value:
                return f"{section}/{at}/{last}"
    return None


def reading_hint(said, tree, reader):
    """The path and the hint of a refusal of reading."""
    name, *fields = [unquote(word) for word in said.split(" ")[1:]]
    path = fields[0] if fields else ""
    if name == "Shape":
        return shape_place(tree, path), shape_hint(tree, path)
    if name == "Unknown":
        return path, unknown_hint(tree, path, fields[1])
    if name == "Duplicate":
        first = first_entry(tree, path)
        line = reader.text.count("\n", 0, reader.values[first]) + 1 if first in reader.values else None
        return path, "this was declared before" + (f", in line {line}" if line else "")
    if name == "Limit":
        return "", f"the limit is {LIMITS[path]}"
    if name == "ForwardConstructOnly":
        return path, "a construct-only property is set when its object is made, so it takes only an object that is declared earlier: move that object up"
    if name == "BadProgram":
        return program_hint(tree, SCHEMA, path, fields[1], fields[2:])
    return path, cause_hint(tree, path, name, fields)


def cause_hint(tree, path, name, fields):
    """The hint of a type, a property, a signal or a value that is at fault for a cause."""
    cause = fields[1]
    if cause == "BadName":
        return MEMBER_NAME if name == "BadSpec" else TYPE_NAME
    if cause == "OverrideDiffers":
        return differs_hint(tree, path, fields[2])
    if cause == "DefaultInvalid":
        return default_hint(tree, path)
    if name == "ValueFault":
        return given_hint(tree, path) or CAUSES[cause]
    return CAUSES[cause] + (f": `{fields[2]}`" if len(fields) > 2 else "")


def differs_hint(tree, path, name):
    """Which member of a class's property differs from that of its interface."""
    of = at_path(tree, path.partition("/implements/")[0])
    interface = named(objects_of(tree, "interfaces"), at_path(tree, path))[1] or {}
    wanted = members_of({"interfaces": [interface]}, interface.get("name"), "properties").get(name)
    has = members_of(tree, of["name"], "properties").get(name)
    for member in ("kind", "flags", "default", "min", "max", "weak"):
        ours, theirs = meant(tree, has, member), meant(tree, wanted, member)
        if ours != theirs:
            return (f"the property `{name}` has the {member} {json.dumps(ours)} in the class, and {json.dumps(theirs)} in the interface "
                    f"`{interface['name']}`: they have to be the same")
    return f"the property `{name}` of the class differs from that of its interface"


def meant(tree, of, member):
    """A member of a property, or what its absence means."""
    sort, _, name = of["kind"].partition(":")
    if member == "flags":
        return sorted(set(of.get("flags", ["readable", "writable"])))
    if member == "default" and sort == "enum":
        members = (named(objects_of(tree, "enums"), name)[1] or {}).get("members", [[None]])
        return next((it[2] for it in members if of.get("default", members[0][0]) in it), None)
    zero = 0 if sort in RANGES or sort == "flags" else False if sort == "bool" else None
    absent = {"default": zero, "min": RANGES.get(sort, [None])[0], "max": RANGES.get(sort, [None])[-1], "weak": False}
    return of.get(member, absent.get(member))


def given_hint(tree, path):
    """Why a value of a definition is not of its kind, or None."""
    above = path.rpartition("/")[0]
    entry, value = at_path(tree, above), at_path(tree, path)
    kind = entry.get("kind") if isinstance(entry, dict) else None
    holder = at_path(tree, above.rpartition("/properties/")[0])
    if kind is None and isinstance(entry, dict) and isinstance(holder, dict) and "class" in holder:
        kind = members_of(tree, holder["class"], "properties").get(str(entry.get("name")).replace("_", "-"), {}).get("kind")
    if not isinstance(kind, str):
        return None
    if kind.startswith("object:") and path.startswith("/prototypes"):
        return "a value of a prototype names no object, so this has to be null"
    if kind.startswith("object:") and "/properties/" in path and path.startswith(("/classes", "/interfaces")):
        return "the default of a property of an object kind is null, and no other default can be given"
    return value_fault(tree, value, kind)


def default_hint(tree, path):
    """Why a default is not valid."""
    of = at_path(tree, path.rpartition("/")[0])
    if not isinstance(of, dict) or of.get("kind") not in RANGES:
        return CAUSES["DefaultInvalid"]
    least, most = (of.get(member, end) for member, end in zip(("min", "max"), RANGES[of["kind"]]))
    if "default" in of:
        return f"the default {of['default']} is outside the range from {least} to {most}"
    return f"there is no `default`, so it is 0, which is outside the range from {least} to {most}: add a `default`"
