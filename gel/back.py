"""The way back: the source of a definition that the program accepts."""
from .layout import laid_out
from .model import Model
from .readable import Readable
from .words import constant, kind_word, word

PROPERTY_WORDS = ("construct", "construct-only", "lax-validation", "explicit-notify")


def source_of(definition):
    """The source of a definition, laid out."""
    return laid_out("\n".join(Back(definition).whole()) + "\n")


def group(head, members):
    """A declaration with members in braces, or with `;` where it has none."""
    return [head + ";"] if not members else [head + " {", *members, "}"]


class Back:
    """Writes the lines of a source."""

    def __init__(self, definition):
        self.definition, self.model = definition, Model(definition)

    def whole(self):
        """All lines of the source, not laid out."""
        lines = self.head()
        for section, write in (("enums", self.members), ("flags", self.members), ("shapes", self.shape), ("interfaces", self.type),
                               ("classes", self.type), ("programs", self.program), ("prototypes", self.prototype), ("objects", self.object)):
            entries = self.definition.get(section, [])
            for number, entry in enumerate(entries):
                made = write(entry, section)
                lines += ([""] if number == 0 or section in ("classes", "programs") else []) + made
        return lines

    def head(self):
        """The format, where it does not follow, and the limits."""
        lines, repeated = [], any("repeat" in block for it in self.definition.get("programs", []) for block in it["blocks"])
        if self.definition["format"] == 2 and not repeated:
            lines.append("format 2;")
        limits = self.definition.get("limits", {})
        if limits:
            lines.append("limits " + ", ".join(f"{name} {number}" for name, number in limits.items()) + ";")
        return lines

    def members(self, entry, section):
        """An enum or a flags type."""
        rows = [f"{word(name)}{'' if nick == name else ' ' + word(nick)} = {number}" for name, nick, number in entry["members"]]
        return [f"{'enum' if section == 'enums' else 'flags'} {word(entry['name'])} {{ {', '.join(rows)} }}"]

    def signature(self, entry, is_method=False):
        """The parameters and the result of a signal or a method."""
        params = entry.get("params", [])
        result = entry.get("result", "none")
        text = f"({', '.join(map(kind_word, params))})" if params or is_method else ""
        return text + (f" -> {kind_word(result)}" if result != "none" else "")

    def shape(self, entry, section):
        """A shape with its methods."""
        rows = [f"{word(it['name'])}{self.signature(it, True)};" for it in entry["methods"]]
        return [f"shape {word(entry['name'])} {{", *rows, "}"]

    def type(self, entry, section):
        """An interface or a class."""
        head = f"{'class' if section == 'classes' else 'interface'} {word(entry['name'])}"
        if "parent" in entry:
            head += f": {word(entry['parent'])}"
        head += "".join(f" {it}" for it in ("abstract", "final") if entry.get(it))
        for member in ("requires", "implements"):
            if entry.get(member):
                head += f" {member} {', '.join(map(word, entry[member]))}"
        head += "".join(f" {it} {word(entry[it])}" for it in ("shape", "constructed") if it in entry)
        rows = [self.property(it) for it in entry.get("properties", [])]
        rows += [self.signal(it) for it in entry.get("signals", [])]
        rows += [f"on {word(signal)} -> {word(program)};" for signal, program in entry.get("class-handlers", [])]
        return group(head, rows)

    def property(self, it):
        """A property of a type."""
        text = f"{word(it['name'])}: {'weak ' if it.get('weak') else ''}{kind_word(it['kind'])}"
        if "min" in it or "max" in it:
            text += f" in {it.get('min', '')}..{it.get('max', '')}"
        if "default" in it:
            text += f" = {constant(it['default'], it['kind'])}"
        flags = it.get("flags", ["readable", "writable"])
        text += "".join(f" {name}" for name, other in (("readonly", "writable"), ("writeonly", "readable")) if other not in flags)
        return text + "".join(f" {name}" for name in PROPERTY_WORDS if name in flags) + ";"

    def signal(self, it):
        """A signal of a type."""
        text = f"signal {word(it['name'])}{self.signature(it)}"
        flags = it.get("flags", ["run-last"])
        if set(flags) != {"run-last"}:
            text += "".join(f" {name}" for name in dict.fromkeys(flags)) or " no-stage"
        return text + (f" {it['accumulator']}" if "accumulator" in it else "") + ";"

    def program(self, entry, section):
        """A program, in statements if they give the same blocks."""
        return Readable(self.model, entry).lines()

    def prototype(self, entry, section):
        """A prototype with its given values."""
        head = f"prototype {word(entry['id'])}: {word(entry['class'])}"
        if entry.get("peers"):
            head += f" peers {', '.join(map(word, entry['peers']))}"
        return group(head, [self.given(entry, it) for it in entry.get("properties", [])])

    def given(self, entry, it):
        """A given value or a binding."""
        if "bind" in it:
            return self.bound(it)
        kind = self.model.properties(entry["class"])[it["name"].replace("_", "-")]["kind"]
        return f"{word(it['name'])} = {constant(it['value'], kind)};"

    def bound(self, it):
        """A property that is bound."""
        bind = it["bind"]
        text = f"{word(it['name'])} <- {word(bind['source'])}"
        text += f".{word(bind['property'])}" if "property" in bind else ""
        text += "".join(f" {flag}" for flag in dict.fromkeys(bind.get("flags", [])))
        return text + (f" named {word(bind['name'])}" if "name" in bind else "") + ";"

    def object(self, entry, section):
        """An object with its values, handlers and children."""
        head = f"object {word(entry['id'])}: {word(entry['class'])}"
        head += f" peer {word(entry['peer'])}" if "peer" in entry else ""
        rows = [self.given(entry, it) for it in entry.get("properties", [])]
        rows += [self.handler(it) for it in entry.get("signals", [])]
        rows += [line for it in entry.get("children", []) for line in self.object(it, section)]
        return group(head, rows)

    def handler(self, it):
        """A handler of an object."""
        text = f"on {word(it['name'])}" + (f"::{word(it['detail'])}" if "detail" in it else "") + f" -> {word(it['handler'])}"
        is_swapped = it.get("swapped", "object" in it)
        if "object" in it:
            text += f"({word(it['object'])}, ..)" if is_swapped else f"(.., {word(it['object'])})"
        elif is_swapped:
            text += " swapped"
        return text + (" after" if it.get("after") else "") + ";"
