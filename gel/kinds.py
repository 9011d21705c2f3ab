"""Kinds and values: from what is written to what the format has, and how kinds are told."""
import re

from .faults import Fault, listed, nearest
from .reader import PLAIN, WHOLE
from .tokens import placed

RANGES = {"int": (-(1 << 31), (1 << 31) - 1), "uint": (0, (1 << 32) - 1), "int64": (-(1 << 63), (1 << 63) - 1),
          "uint64": (0, (1 << 64) - 1)}
NAME = re.compile(r"[A-Za-z0-9_-]{1,64}")


def shown(kind):
    """A kind as the language writes it."""
    sort, _, name = kind.partition(":")
    return {"": sort, "object": f"{name}?", "at": f"#{name}", "at?": f"#{name}?"}.get(sort if name else "", name)


def check_name(word, what):
    """Fails where a name is not 1 to 64 letters, digits, `-` and `_`."""
    if not NAME.fullmatch(word):
        raise Fault(word.at, f"{what} has 1 to 64 ASCII letters, digits, `-` and `_`")


class Kinds:
    """Turns written kinds and values into those of the format, by the types and places that are declared."""

    def __init__(self, model):
        self.model = model

    def kind(self, written, place):
        """The kind as the format writes it. The place is `property`, `result`, `register`, `entry` or `peer`."""
        at, sort, name = written.at, written["sort"], written["name"]
        if sort == "plain":
            return placed(self.plain(name, at, place), at)
        if place == "peer":
            raise Fault(at, f"peers take and return {listed(PLAIN)} alone")
        if sort == "at":
            return placed(self.at_kind(written, place), at)
        return placed(self.type_kind(written, place), at)

    def plain(self, name, at, place):
        """A kind without a type. Fails where it may not be."""
        if name in ("none", "unset") and place != {"none": "result", "unset": "entry"}[name]:
            raise Fault(at, f"`{name}` is no kind here" + ("; what a register holds is one of " + listed(PLAIN) + " or a type's name"))
        return name

    def at_kind(self, written, place):
        """The kind of one object. Fails where there is none of the id."""
        name = written["name"]
        if place not in ("register", "entry"):
            raise Fault(written.at, "`#ID` is a kind of what programs hold; here write the class, as in `Box?`")
        if name not in self.model.places:
            raise Fault(name.at, f"there is no object and no prototype `{name}`{nearest(name, self.model.places)}")
        return ("at?:" if written["is_null"] else "at:") + name

    def type_kind(self, written, place):
        """The kind of a type. Fails where there is no such type, or where `?` is wanted or not."""
        at, name = written.at, written["name"]
        sort = self.model.sort(name)
        if sort is None:
            others = {"string": "text", "boolean": "bool", "integer": "int", "str": "text", "number": "int"}
            near = f"; did you mean `{others[name]}`?" if name in others else nearest(name, [*PLAIN, *self.model.types])
            raise Fault(at, f"there is no kind and no type `{name}`{near}")
        if sort in ("enum", "flags"):
            if written["is_null"]:
                raise Fault(at, f"a value of `{name}` is never null: write `{name}`")
            return f"{sort}:{name}"
        if written["is_null"]:
            return f"object:{name}"
        if place in ("register", "entry"):
            return f"some:{name}"
        raise Fault(at, f"an object may be null here: write `{name}?`")

    def value(self, written, kind, is_given=False):
        """The JSON of a value of the kind. Fails where it is none. An object is named only where a value is given."""
        sort = kind.partition(":")[0]
        if sort in WHOLE:
            return self.whole(written, kind)
        return getattr(self, "value_of_" + sort)(written, kind, is_given)

    def whole(self, written, kind):
        """A whole number of a kind."""
        least, most = RANGES[kind]
        if written["sort"] != "number":
            raise Fault(written.at, f"a whole number is wanted here, of the kind `{kind}`")
        if not least <= written["value"] <= most:
            raise Fault(written.at, f"`{kind}` has the numbers from {least} to {most}")
        return written["value"]

    def value_of_bool(self, written, kind, is_given):
        """A truth value."""
        if written["sort"] not in ("true", "false"):
            raise Fault(written.at, "`true` or `false` is wanted here")
        return written["value"]

    def value_of_text(self, written, kind, is_given):
        """A text, or null."""
        if written["sort"] not in ("text", "null"):
            raise Fault(written.at, "a text in `\"` or `null` is wanted here")
        if written["sort"] == "text" and len(written["value"].encode("utf-8")) > 4096:
            raise Fault(written.at, "a text has at most 4,096 bytes")
        return written["value"]

    def value_of_enum(self, written, kind, is_given):
        """A member of an enum, by its name, nick or number."""
        members = self.model.types[kind.partition(":")[2]][1]["members"]
        if written["sort"] == "number":
            if written["value"] not in [it[2] for it in members]:
                raise Fault(written.at, f"no member of `{shown(kind)}` has this number; there is {listed(it[2] for it in members)}")
            return written["value"]
        words = written["value"] if written["sort"] == "words" else []
        if len(words) != 1:
            raise Fault(written.at, f"a member of `{shown(kind)}` is wanted here: {listed(it[1] for it in members)}")
        self.member(words[0], members, kind)
        return words[0]

    def member(self, word, members, kind):
        """Fails where no member has the name or the nick."""
        if word not in [name for it in members for name in it[:2]]:
            raise Fault(getattr(word, "at", 0), f"`{shown(kind)}` has no member `{word}`{nearest(word, [it[1] for it in members])}; "
                        f"there is {listed(it[1] for it in members)}")

    def value_of_flags(self, written, kind, is_given):
        """Members of a flags type, or a number."""
        members = self.model.types[kind.partition(":")[2]][1]["members"]
        if written["sort"] == "number":
            if not 0 <= written["value"] < 1 << 32:
                raise Fault(written.at, "flags are a number from 0 to 4294967295, or members with `|` between")
            return written["value"]
        if written["sort"] == "text":
            for part in written["value"].split("|"):
                if part.strip():
                    self.member(placed(part.strip(), written.at), members, kind)
            return written["value"]
        if written["sort"] != "words":
            raise Fault(written.at, f"members of `{shown(kind)}` are wanted here: {listed(it[1] for it in members)}")
        for word in written["value"]:
            self.member(word, members, kind)
        return placed("|".join(written["value"]), written.at)

    def value_of_object(self, written, kind, is_given):
        """The id of an object, or null."""
        if written["sort"] == "null":
            return None
        if not is_given:
            raise Fault(written.at, "`null` is wanted here: an object is no constant")
        words = written["value"] if written["sort"] == "words" else []
        if len(words) != 1:
            raise Fault(written.at, "the id of an object, or `null`, is wanted here")
        if words[0] not in self.model.object_ids:
            near = nearest(words[0], self.model.object_ids)
            why = "is a prototype, and a value names an object" if words[0] in self.model.places else f"is no object{near}"
            raise Fault(written.at, f"`{words[0]}` {why}")
        return words[0]
