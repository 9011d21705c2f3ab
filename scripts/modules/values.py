"""What values of a kind look like, why a value is none of its kind, and which kinds become which."""
import json

from names import class_of, ids_in, is_a, named, objects_of
from wording import listed, nearest, shortened

RANGES = {"int": (-2**31, 2**31 - 1), "uint": (0, 2**32 - 1), "int64": (-2**63, 2**63 - 1), "uint64": (0, 2**64 - 1)}
BITS = (0, 2**32 - 1)
LONGEST = 4096
FORMS = {"bool": "true or false", "text": "a string or null", "object": "the id of an object, or null",
         "enum": "the name, the nick or the number of a member", "flags": "a number, or names of members with | between them"}
CONVERSIONS = ("a whole number becomes any kind of whole number, a bool, a text, an enum or flags; a bool becomes a whole number or a "
               "text; an enum or flags become a whole number; a text becomes nothing else")


def form_of(kind):
    """What a value of a kind looks like in JSON."""
    return FORMS.get(kind.partition(":")[0], "a whole number without a fraction, and not in quotes")


def is_whole(value):
    """Whether a JSON value is a whole number."""
    return isinstance(value, int) and not isinstance(value, bool)


def value_fault(tree, value, kind):
    """Why a JSON value is no value of a kind; None where nothing is wrong with it."""
    sort, _, name = kind.partition(":")
    if sort in RANGES:
        return number_fault(value, kind, RANGES[sort])
    if sort in ("enum", "flags") and (is_whole(value) or isinstance(value, str)):
        return word_fault(tree, value, sort, name)
    if sort == "text" and isinstance(value, str) and len(value.encode("utf-8", "replace")) > LONGEST:
        return f"a text has at most 4,096 bytes, and this one has {len(value.encode('utf-8', 'replace'))}"
    if sort == "object" and isinstance(value, str):
        return object_fault(tree, value, name)
    fits = isinstance(value, bool) if sort == "bool" else value is None and sort in ("text", "object") or isinstance(value, str) and sort == "text"
    return None if fits else not_of(value, kind)


def not_of(value, kind):
    """That a JSON value has another form than values of a kind."""
    return f"{shortened(json.dumps(value, ensure_ascii=False))} is not a value of the kind `{kind}`, which is {form_of(kind)}"


def number_fault(value, kind, ends):
    """Why a JSON value is no number of a kind."""
    if not is_whole(value):
        return not_of(value, kind)
    if not ends[0] <= value <= ends[1]:
        return f"{value} is outside the kind `{kind}`, which goes from {ends[0]} to {ends[1]}"
    return None


def word_fault(tree, value, sort, name):
    """Why a word or a number is none of an enum, or of a flags type."""
    of = named(objects_of(tree, "enums" if sort == "enum" else "flags"), name)[1] or {}
    members = [it for it in of.get("members", []) if isinstance(it, list) and len(it) == 3]
    words = [word for it in members for word in it[:2]]
    if sort == "flags" and is_whole(value):
        return number_fault(value, f"flags:{name}", BITS)
    wanted = [value] if sort == "enum" else [it.strip() for it in value.split("|") if it.strip()]
    for it in wanted:
        if it not in words and it not in [member[2] for member in members if sort == "enum"]:
            return f"{json.dumps(it)} is not a member of `{name}`{nearest(it, words) or '.'} The members are {listed(member[1] for member in members)}"
    return None


def object_fault(tree, value, name):
    """Why an id names no object of a type."""
    if value not in ids_in(tree):
        return f"there is no object `{value}`{nearest(value, ids_in(tree))}"
    of = class_of(tree, value)
    return None if is_a(tree, of, name) else f"the object `{value}` is of the class `{of}`, which is not a `{name}`"
