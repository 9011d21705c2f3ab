"""The types, traits, constants and functions of a file of code, as contracts see them, and what the file uses."""
import re

from items import Item, without_comments
from spec_items import named

GENERICS = r"<(?:[^<>]|<[^<>]*>)*>"
SHARED = r"(?P<shared>pub(?:\([^)]*\))? )?(?:const |unsafe |extern \S+ )*"
HEAD = re.compile(SHARED + r"(?P<kind>struct|enum|trait|type|const|static|fn|impl)\b(?:" + GENERICS + r")?\s*(?P<rest>.*)")
NAME = re.compile(r"\w+")
CASE = re.compile(r"(?m)^    (\w+)\s*[,({=]")
MEMBER = re.compile(r"(?m)^    ghost (?=\w+ =)")
GHOST_USE = re.compile(r"(?m)^\s*(?:pub )?ghost use (\w+(?:\.\w+)*)(?:\.\{([^}]*)\}| as (\w+))?;")
USE = re.compile(r"(?m)^\s*(?:pub(?:\([^)]*\))? )?use ([^;]+);")


def code_items(path, text):
    """The definitions of a file. Of a function there is its head with its clauses, and of an `impl` its ghost lines and its functions."""
    lines = text.split("\n")
    for head, at, end in blocks(lines, 0, len(lines), ""):
        if head["kind"] == "impl":
            yield from impl_items(path, lines, at, end, head["rest"])
        else:
            yield code_item(path, lines, at, end, head)


def blocks(lines, at, end, indent):
    """What begins between two lines with this indent: its head, its line, and the line after it."""
    while at < end:
        head = HEAD.match(lines[at], len(indent)) if lines[at].startswith(indent) else None
        after = end_of(lines, at, indent, head["kind"]) if head else at + 1
        if head:
            yield head, at, after
        at = after


def end_of(lines, at, indent, kind):
    """The line after what begins at a line: after its closing brace, or after the semicolon that ends it."""
    if lines[at].endswith(("}", ";")):
        return at + 1
    ends = (indent + "}", indent + ");", indent + "];") if kind in ("struct", "type", "const", "static") else (indent + "}",)
    return next((n + 1 for n in range(at + 1, len(lines)) if lines[n].startswith((*ends, indent + "{}"))), len(lines))


def code_item(path, lines, at, end, head, within=""):
    end = end_of_clauses(lines, at, end) if head["kind"] == "fn" else end
    text = without_comments("\n".join(lines[at:end]), "//")
    cases = tuple(CASE.findall(text)) if head["kind"] == "enum" else ()
    kind = "public fn" if head["kind"] == "fn" and head["shared"] == "pub " else head["kind"]
    return Item(path, NAME.match(head["rest"])[0], kind, first_line(lines, at) + 1, end, text, cases, within)


def end_of_clauses(lines, at, end):
    """The line where a function's body begins, which is on the line of its head where it has no clauses."""
    indent = re.match(" *", lines[at])[0]
    body = next((n for n in range(at, end) if lines[n].startswith(indent + "{")), end)
    plain = next((n + 1 for n in range(at, end) if lines[n].endswith(" {") and lines[n][len(indent)] in "pcuf)"), end)
    return max(at + 1, min(body, plain))


def first_line(lines, at):
    """The first line of the comment and the attributes above a line."""
    while at > 0 and re.match(r"\s*(?://(?!!)|#\[)", lines[at - 1]):
        at -= 1
    return at


def impl_items(path, lines, at, end, head):
    """What an `impl` says: the functions of a type, or the ghost lines for a trait. A `Model` says as what contracts see a type."""
    trait, _, of = head.rpartition(" for ")
    within = NAME.search(of.replace("&mut ", "").replace("&", ""))[0]
    if not trait:
        inner = [block for block in blocks(lines, at + 1, end, "    ") if block[0]["kind"] in ("fn", "const")]
        yield from (code_item(path, lines, n, last, inner_head, within) for inner_head, n, last in inner)
        return
    members = dict(ghost_members(lines, at, end))
    if "Value" in members and NAME.match(trait)[0] == "Model":
        first, last = members.pop("Value")
        yield Item(path, within, "value", first + 1, last, without_comments("\n".join(lines[first:last]), "//"))
    if members:
        spans = [lines[first:last] for first, last in members.values()]
        text = without_comments("\n".join([lines[at], *sum(spans, [])]), "//")
        yield Item(path, f"{NAME.match(trait)[0]} for {within}", "impl", at + 1, max(last for _, last in members.values()), text, (), within)


def ghost_members(lines, at, end):
    """The ghost members of an `impl`, each with its first line and the line after it."""
    for n in range(at, end):
        if MEMBER.match(lines[n]):
            last = next(k + 1 for k in range(n, end) if lines[k].endswith("};"))
            yield NAME.search(lines[n], len("    ghost "))[0], (n, last)


def ghost_uses(text):
    """What a file uses of specs: a path, the names out of it (None for the whole), the path's name here, and that it gives out none."""
    for path, names, alias in GHOST_USE.findall(text):
        yield tuple(path.split(".")), named(names or None), alias or None, False


def code_uses(text):
    """What a file uses of code: a path of words, and the last one's name here."""
    for m in USE.finditer(without_comments(text, "//")):
        yield from flattened((), re.sub(r"\s+", " ", m[1]))


def flattened(before, text):
    """The paths of a tree of uses."""
    for part in parts(text):
        tree = re.fullmatch(r"((?:\w+::)*)\{(.*)\}", part)
        if tree:
            yield from flattened((*before, *tree[1].split("::")[:-1]), tree[2])
            continue
        path, _, alias = part.partition(" as ")
        words = (*before, *path.split("::"))
        words = words[:-1] if words[-1] == "self" and len(words) > 1 else words
        yield words, alias or words[-1]


def parts(text):
    """What lies between the commas that are in no braces."""
    depth, part = 0, ""
    for letter in text + ",":
        depth += {"{": 1, "}": -1}.get(letter, 0)
        if letter != "," or depth:
            part += letter
        elif part.strip():
            yield part.strip()
            part = ""
