"""The definitions of a file of specs, and what the file uses."""
import re

from items import Item, without_comments

TYPED = r"(?:abbrev|unfoldable|opaque)\s+(?:pub\s+)?(?P<word>\S+)\s+:"
HEAD = re.compile(TYPED + r"|(?:pub\s+)?(?P<shape>record|data)\s+(?P<type>\w+)|(?P<module>module)\b")
OTHER_HEAD = re.compile(r"(?:pub )?(?:use|mod)\b")
FIXITY = re.compile(r"infix[lr]?\b")
USE = re.compile(r"(?m)^(?P<shared>pub )?use (?P<path>\w+(?:\.\w+)*)(?:\.\{(?P<names>[^}]*)\}| as (?P<alias>\w+))?")
CASE = re.compile(r"(?m)^\s+(\w+)(?: \w+)* :")


def spec_items(path, text):
    """The definitions of a file. A `module _` is one, and those in it lie within it."""
    lines = text.split("\n")
    for head, first, at, end in definitions(lines, ""):
        if not head["module"]:
            yield spec_item(path, lines, head, first, end)
            continue
        name = f"module _ of line {at + 1}"
        yield Item(path, name, "module", first + 1, at + 1, without_comments(lines[at], "--"))
        inside = [line if at < n < end else "" for n, line in enumerate(lines)]
        for inner, inner_first, _, inner_end in definitions(inside, "  "):
            yield spec_item(path, inside, inner, inner_first, inner_end, name)


def definitions(lines, indent):
    """Each definition's head, the line where its comment begins, that of its head, and the line after it."""
    found = list(heads(lines, indent))
    for (head, first, at), (_, end, _) in zip(found, [*found[1:], (None, len(lines), None)]):
        if head:
            yield head, first, at, end


def heads(lines, indent):
    """Where definitions and uses begin: what the head says (None for a use), the line of its comment, and its own."""
    first = 0
    for at, line in enumerate(lines):
        word = line[len(indent):] if line.startswith(indent) else ""
        if word.startswith("--") or FIXITY.match(word):
            continue
        head = HEAD.match(word)
        if head or OTHER_HEAD.match(word):
            yield head, first, at
        first = at + 1


def spec_item(path, lines, head, first, end, within=""):
    """The definition of these lines, but for the empty ones and the headings at its end."""
    while not lines[end - 1].strip() or lines[end - 1].startswith("--"):
        end -= 1
    text = without_comments("\n".join(lines[first:end]), "--")
    cases = tuple(CASE.findall(text)) if head["shape"] == "data" else ()
    return Item(path, (head["word"] or head["type"]).strip("◌"), head["shape"] or "definition", first + 1, end, text, cases, within)


def spec_uses(text):
    """What a file uses: a path, the names out of it (None for the whole), the path's name here, and whether it gives them out."""
    for m in USE.finditer(text):
        yield tuple(m["path"].split(".")), named(m["names"]), m["alias"], bool(m["shared"])


def named(words):
    """The names of a list in braces, each with its name here."""
    if words is None:
        return None
    pairs = [re.split(r"\s+as\s+", word.strip()) for word in words.split(",") if word.strip()]
    return [(pair[0].strip("◌"), pair[-1].strip("◌")) for pair in pairs]
