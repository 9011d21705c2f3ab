"""What the words of a definition lead to: the definitions that they name, and what those name in turn.

Where a word may name several definitions that are in scope, all of them count.
"""
import re
from functools import lru_cache

from code_items import code_items, code_uses, ghost_uses
from common import TOP
from spec_items import spec_items, spec_uses

CRATES = TOP / "crates"
WORD = re.compile(r"(?<!\.)\b[^\W\d]\w*(?:\.\w+)*|[^\w\s(){}\[\],;.\"]+")
CODE_PATH = re.compile(r"\b[^\W\d]\w*(?:::[^\W\d]\w*)+")
# A field that a `record` gives a value to: the record's type leads to it, and this word to nothing.
GIVEN = re.compile(r"(?<=[{;])\s*\w+(?=\s*=\s)")
# What a word stands for that names no definition itself.
MEANT = {"do": ">>="}
# What no contract can name by its name.
UNNAMED = ("fn", "public fn", "impl", "module")
TYPES = ("struct", "enum", "value")


class NotFound(Exception):
    """A name that a file uses, and that is nowhere."""


# ** files

@lru_cache(maxsize=None)
def crates():
    """The crates, lowest first."""
    return re.findall(r"(?m)^(\w+):", (TOP / "crates.txt").read_text(encoding="utf-8"))


@lru_cache(maxsize=None)
def read(path):
    return (CRATES / path).read_text(encoding="utf-8")


@lru_cache(maxsize=None)
def exists(path):
    return (CRATES / path).is_file()


@lru_cache(maxsize=None)
def code_files(crate):
    return sorted(str(file.relative_to(CRATES)) for file in (CRATES / crate / "src").rglob("*.rt"))


def is_spec(path):
    return path.endswith(".antt")


@lru_cache(maxsize=None)
def items(path):
    return list((spec_items if is_spec(path) else code_items)(path, read(path)))


@lru_cache(maxsize=None)
def named_items(path):
    """The definitions of a file by each name that leads to them. A type of which contracts see a `Value` is seen as that alone."""
    out, seen = {}, {item.name for item in items(path) if item.kind == "value"}
    for item in items(path):
        if item.kind not in UNNAMED and (item.kind == "value" or item.name not in seen):
            for name in (item.name, *item.cases):
                out.setdefault(name, []).append(item)
    return out


@lru_cache(maxsize=None)
def uses(path):
    return list((spec_uses if is_spec(path) else ghost_uses)(read(path)))


@lru_cache(maxsize=None)
def used_names(path):
    """What a file uses of specs, by the names here: paths with the names there."""
    out = {}
    for used, listed, _, _ in uses(path):
        for there, here in listed or ():
            out.setdefault(here, []).append((used, there))
    return out


@lru_cache(maxsize=None)
def used_paths(path):
    """The whole paths of specs that a file uses, by their names here."""
    out = {}
    for used, listed, alias, _ in uses(path):
        if listed is None:
            out.setdefault(alias or used[-1], []).append(used)
    return out


@lru_cache(maxsize=None)
def code_names(path):
    """What a file of code uses of code, by the names here: paths."""
    out = {}
    for words, here in code_uses(read(path)):
        out.setdefault(here, []).append(words)
    return out


# ** paths of specs

@lru_cache(maxsize=None)
def place_of(path):
    """The file at a path of specs, and the words that lead on in it; None for what is not the project's."""
    if path[0] != "Rattle" or path[1] not in crates():
        return None
    crate, words = path[1], path[3:]
    if words[:1] == ("declared",):
        tried = [("/".join((crate, "src", *words[1:n])) + ".rt", words[n:]) for n in range(len(words), 1, -1)]
        tried += [(f"{crate}/src/{root}.rt", words[1:]) for root in ("lib", "main")]
    else:
        tried = [("/".join((crate, "specs", *words[:n])) + ".antt", words[n:]) for n in range(len(words), 0, -1)]
        tried += [(f"{crate}/specs/Lib.antt", words)]
    file, rest = next(((file, rest) for file, rest in tried if exists(file)), (None, ()))
    if file and (not rest or not is_spec(file)):
        return file, rest
    given = next((used for used, listed, _, is_shared in uses(file) if is_shared and listed is None and used[-1] == rest[0]), None) if file else None
    if given is None:
        raise NotFound(".".join(path))
    return place_of((*given, *rest[1:]))


def in_path(path, name):
    """The definitions with a name at a path, some at least; None where the path is not the project's."""
    place = place_of(path)
    if place is None:
        return None
    file, rest = place
    found = list(named_items(file).get(rest[0] if rest else name, ()))
    for used, listed, _, is_shared in uses(file):
        for there, here in listed or ():
            found += in_path(used, there) or () if is_shared and here == name else ()
    if not found:
        raise NotFound(".".join((*path, name)))
    return found


# ** paths of code

@lru_cache(maxsize=None)
def in_code(file, words):
    """The types, traits and constants at a path of code: of the path's file, or else all of that name in its crate, or given out there.

    Some at least where the name is a type's, and its crate the project's.
    """
    own = file.split("/")[0]
    crate = own if words[0] in ("crate", "super", "self") else words[0]
    if crate not in crates():
        return []
    name, exact = words[-1], "/".join((crate, "src", *words[1:-1])) + ".rt"
    if words[0] != "super" and exists(exact) and name in named_items(exact):
        return named_items(exact)[name]
    found = [item for other in code_files(crate) for item in named_items(other).get(name, ())]
    found = [item for item in found if item.name == name] or found
    others = ((other, path) for other in code_files(crate) for path in code_names(other).get(name, ()) if path[0] not in ("crate", crate))
    found = found or [item for other, path in others if path[0] in crates() for item in in_code(other, path)]
    if not found and name[0].isupper():
        raise NotFound(f"{crate}::{name}")
    return found


# ** words

def resolved(file, word):
    """The definitions that a word in a file may name."""
    head, *rest = MEANT.get(word, word).split(".")
    yield from named_items(file).get(head, ())
    for path, there in used_names(file).get(head, ()):
        yield from in_path(path, there) or ()
    for path in used_paths(file).get(head, ()) if rest else ():
        yield from in_path(path, rest[0]) or ()
    for path in () if is_spec(file) else code_names(file).get(head, ()):
        yield from in_code(file, path)


def resolved_path(file, path):
    """The definitions that a path in code, such as `faults::SpecFault`, may name."""
    head, *rest = path.split("::")
    for before in code_names(file).get(head, [(head,)]):
        yield from in_code(file, (*before, *rest))


@lru_cache(maxsize=None)
def led_to(item):
    """The definitions that a definition leads to."""
    text = GIVEN.sub(" ", item.text)
    found = {other for word in set(WORD.findall(text)) for other in resolved(item.path, word)}
    if not item.is_spec():
        found |= {other for path in set(CODE_PATH.findall(text)) for other in resolved_path(item.path, path)}
    if item.within:
        found |= {other for other in items(item.path) if other.name == item.within and other.kind in (*TYPES, "module")}
    return found


@lru_cache(maxsize=None)
def implementations():
    """What `impl` blocks say in ghost lines, with the names of their traits and types."""
    every = [item for crate in crates() for file in code_files(crate) for item in items(file) if item.kind == "impl"]
    return [(*item.name.split(" for "), item) for item in every]


def implemented(item, names):
    """The `impl` blocks of a trait and a type that both are reached, the one or the other by this definition."""
    if item.kind in (*TYPES, "trait"):
        for trait, of, block in implementations():
            if item.name in (trait, of) and {trait, of} <= names:
                yield block


def behind(item):
    """The fields, the view and the invariant of a type of which contracts see a `Value`."""
    if item.kind == "value":
        for other in items(item.path):
            if other.name in (item.name, f"Model for {item.name}") and other.kind in ("struct", "enum", "impl"):
                yield other


def closure(roots, views=False):
    """The roots, and all definitions that they lead to; if asked for, also by what is behind the types that contracts see a `Value` of."""
    out, names, ahead = set(), set(), list(roots)
    while ahead:
        item = ahead.pop()
        if item not in out:
            out.add(item)
            names |= {item.name} if item.kind in (*TYPES, "trait") else set()
            ahead += [*led_to(item), *implemented(item, names), *(behind(item) if views else ())]
    return out
