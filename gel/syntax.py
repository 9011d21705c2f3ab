"""Reads declarations: a source becomes the JSON form of a definition, in which kinds, values and bodies are still as they are written."""
from .bodies import Bodies
from .faults import Fault, nearest
from .tokens import node

SECTIONS = ("enums", "flags", "interfaces", "shapes", "classes", "programs", "prototypes", "objects")
BEGINS = {"format": "format", "limits": "limits", "enum": "enums", "flags": "flags", "interface": "interfaces", "shape": "shapes",
          "class": "classes", "program": "programs", "prototype": "prototypes", "object": "objects"}
PROPERTY_WORDS = ("readonly", "writeonly", "construct", "construct-only", "lax-validation", "explicit-notify")
SIGNAL_FLAGS = ("run-first", "run-last", "run-cleanup", "detailed")
ACCUMULATORS = ("true-handled", "first-wins")
BIND_WORDS = ("sync-create", "bidirectional", "invert-boolean")


class Syntax(Bodies):
    """Reads a whole source."""

    def __init__(self, source):
        super().__init__(source)
        self.tree = node(0, **{section: [] for section in SECTIONS})

    def whole(self):
        """The tree of the source."""
        while self.token.sort != "end":
            word = self.take(*BEGINS)
            if word is None:
                if self.is_at(";"):
                    raise Fault(self.at, "no `;` comes behind a `}`")
                near = nearest(self.token.text, BEGINS) or "; " + ", ".join(f"`{it}`" for it in BEGINS) + " do"
                raise Fault(self.at, f"{self.shown()} begins no declaration{near}")
            getattr(self, "read_" + word)(self.last.at)
        return self.tree

    def read_format(self, at):
        """format NUMBER;"""
        self.tree["format"] = self.count("the number of the format", 1, 2)
        self.want(";")

    def read_limits(self, at):
        """limits objects NUMBER, handlers NUMBER;"""
        limits = self.tree.setdefault("limits", node(at))
        while True:
            word, word_at = self.take("objects", "handlers"), self.at
            if word is None:
                raise Fault(word_at, f"`objects` or `handlers` is wanted here, not {self.shown()}")
            limits[word] = self.count(f"the limit of {word}", *((1, 4096) if word == "objects" else (0, 16)))
            if not self.take(","):
                break
        self.want(";")

    def read_enum(self, at):
        """enum NAME { MEMBERS }"""
        self.read_members("enums", at, -(1 << 31), (1 << 31) - 1)

    def read_flags(self, at):
        """flags NAME { MEMBERS }"""
        self.read_members("flags", at, 1, (1 << 32) - 1)

    def read_members(self, section, at, least, most):
        """The name and the members of an enum or a flags type."""
        made = node(at, name=self.name("the name of the type"))
        self.want("{")
        made["members"] = self.listed(lambda: self.member(least, most), "}")
        if not made["members"]:
            raise Fault(self.last.at, "a type of this sort has one member at least: `NAME = NUMBER`")
        self.tree[section].append(made)

    def member(self, least, most):
        """NAME = NUMBER, or NAME NICK = NUMBER."""
        name = self.name("a member's name")
        nick = self.name("a nick") if self.is_name() else name
        self.want("=", ", and then the member's number")
        return [name, nick, self.count("the member's number", least, most)]

    def read_shape(self, at):
        """shape NAME { METHODS }"""
        made = node(at, name=self.name("the name of the shape"), methods=[])
        self.want("{")
        while not self.take("}"):
            made["methods"].append(self.method())
            self.want(";")
        self.tree["shapes"].append(made)

    def method(self):
        """NAME(KINDS) -> KIND."""
        made = node(self.at, name=self.name("a method"))
        self.signature(made)
        if "result" not in made:
            raise Fault(self.last.at, "a method of a peer has a result: write `-> KIND` behind its parameters")
        return made

    def signature(self, made):
        """(KINDS) and -> KIND, if that is there. Either part may be left out."""
        if self.take("("):
            params = self.listed(self.kind)
            if params:
                made["params"] = params
        if self.take("->"):
            made["result"] = self.kind()

    def read_interface(self, at):
        """interface NAME requires NAMES { .. }"""
        made = node(at, name=self.name("the name of the interface"))
        if self.take("requires"):
            made["requires"] = self.names("the name of a type")
        self.type_body(made)
        self.tree["interfaces"].append(made)

    def read_class(self, at):
        """class NAME: PARENT WORDS { .. }"""
        made = node(at, name=self.name("the name of the class"))
        if self.take(":"):
            made["parent"] = self.name("the name of the parent")
        while True:
            word = self.take("abstract", "final", "implements", "shape", "constructed")
            if word is None:
                break
            if word in ("abstract", "final"):
                made[word] = True
            else:
                made[word] = self.names("an interface") if word == "implements" else self.name("a name")
        self.type_body(made, True)
        self.tree["classes"].append(made)

    def type_body(self, made, is_class=False):
        """The properties and signals of a type in braces; `;` where it has none."""
        if self.take(";"):
            return
        self.want("{", " or `;`")
        while not self.take("}"):
            if self.is_at("signal") and not self.is_at(":", ahead=1):
                self.next += 1
                made.setdefault("signals", []).append(self.signal())
            elif is_class and self.is_at("on") and not self.is_at(":", ahead=1):
                self.next += 1
                made.setdefault("class-handlers", []).append(self.class_handler())
            else:
                made.setdefault("properties", []).append(self.property())
            self.want(";")

    def class_handler(self):
        """SIGNAL -> PROGRAM."""
        signal = self.name("a signal")
        self.want("->", ", and then the program")
        return [signal, self.name("a program")]

    def signal(self):
        """NAME(KINDS) -> KIND WORDS."""
        made = node(self.at, name=self.name("a signal"))
        self.signature(made)
        if self.take("no-stage"):
            made["flags"] = []
        while not self.is_at(";"):
            word = self.take(*SIGNAL_FLAGS, *ACCUMULATORS)
            if word in ACCUMULATORS:
                made["accumulator"] = word
            elif word:
                made.setdefault("flags", []).append(word)
            else:
                self.want(";", ", or one of " + ", ".join(f"`{it}`" for it in (*SIGNAL_FLAGS, "no-stage", *ACCUMULATORS)))
        return made

    def property(self):
        """NAME: KIND in LEAST..MOST = DEFAULT WORDS."""
        made = node(self.at, name=self.name("a property, `signal` or `}`"))
        self.want(":", ", and then the kind of the property")
        if self.is_at("weak") and not self.is_at(";", "?", ahead=1):
            self.next += 1
            made["weak"] = True
        made["kind"] = self.kind()
        if self.take("in"):
            self.range(made)
        if self.take("="):
            made["default"] = self.constant()
        words = []
        while not self.is_at(";"):
            word = self.take(*PROPERTY_WORDS)
            if word is None:
                near = nearest(self.token.text, PROPERTY_WORDS)
                raise Fault(self.gap, f"`;` is wanted here, not {self.shown()}{near}; a property is written "
                                     "`NAME: KIND in LEAST..MOST = DEFAULT WORDS;`")
            words.append(word)
        if words:
            made["flags"] = property_flags(words)
        return made

    def range(self, made):
        """LEAST..MOST, of which either may be left out."""
        at = self.at
        if not self.is_at(".."):
            made["min"] = self.number()
        self.want("..", ", between the least and the greatest number")
        if self.token.sort == "number" or self.is_at("-"):
            made["max"] = self.number()
        if "min" not in made and "max" not in made:
            raise Fault(at, "a range has a least or a greatest number: `in 0..9`, `in 0..` or `in ..9`")

    def read_prototype(self, at):
        """prototype ID: CLASS peers NAMES { VALUES }"""
        made = self.place(at)
        if self.take("peers"):
            made["peers"] = self.names("a peer")
        if not self.take(";"):
            self.want("{", " or `;`")
            while not self.take("}"):
                name = self.name("a property")
                self.want("=")
                made.setdefault("properties", []).append(node(name.at, name=name, value=self.constant()))
                self.want(";")
        self.tree["prototypes"].append(made)

    def place(self, at):
        """ID: CLASS."""
        made = node(at, id=self.name("an id"))
        self.want(":", ", and then the class")
        made["class"] = self.name("a class")
        return made

    def read_object(self, at):
        """object ID: CLASS peer NAME { .. }"""
        self.tree["objects"].append(self.object(at, 1))

    def object(self, at, depth):
        """An object with all that it holds. Fails where objects nest too deep."""
        if depth > 63:
            raise Fault(at, "objects nest at most 63 deep")
        made = self.place(at)
        if self.take("peer"):
            made["peer"] = self.name("a peer")
        if self.take(";"):
            return made
        self.want("{", " or `;`")
        while not self.take("}"):
            is_given = self.is_at("=", "<-", ahead=1)
            if not is_given and self.take("object"):
                made.setdefault("children", []).append(self.object(self.last.at, depth + 1))
                continue
            if not is_given and self.take("on"):
                made.setdefault("signals", []).append(self.handler(self.last.at))
            else:
                made.setdefault("properties", []).append(self.given())
            self.want(";")
        return made

    def given(self):
        """NAME = VALUE, or NAME <- SOURCE.PROPERTY WORDS."""
        name = self.name("a property, `on`, `object` or `}`")
        if self.take("="):
            return node(name.at, name=name, value=self.constant())
        self.want("<-", " or `=`")
        bind = node(name.at, source=self.name("the id of the source"))
        if self.take("."):
            bind["property"] = self.name("a property of the source")
        while not self.is_at(";"):
            word = self.take(*BIND_WORDS)
            if word:
                bind.setdefault("flags", []).append(word)
            elif self.take("named"):
                bind["name"] = self.name("the name of the binding")
            else:
                self.want(";", ", or one of " + ", ".join(f"`{it}`" for it in (*BIND_WORDS, "named NAME")))
        return node(name.at, name=name, bind=bind)

    def handler(self, at):
        """SIGNAL::DETAIL -> PROGRAM(DATA) WORDS."""
        made = node(at, name=self.name("a signal"))
        if self.take("::"):
            made["detail"] = self.name("a detail")
        self.want("->", ", and then the program")
        made["handler"] = self.name("a program")
        data = self.data()
        if data["name"] is not None:
            made["object"] = data["name"]
        made.update({word: True for word in ("after",) if word in data["words"]})
        if data["is_first"] != (data["name"] is not None):
            made["swapped"] = data["is_first"]
        return made


def property_flags(words):
    """The flags of a property of which not both `readable` and `writable` go without saying."""
    flags = [word for word, other in (("readable", "writeonly"), ("writable", "readonly")) if other not in words]
    return flags + [word for word in dict.fromkeys(words) if word not in ("readonly", "writeonly")]
