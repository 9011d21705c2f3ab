"""What a definition declares: types, properties, signals, places, and which kind fits which."""
from .reader import WHOLE

NOTIFY = {"name": "notify", "params": [], "flags": []}
OBJECTS = ("object", "some", "at", "at?")
PREDECLARED = {"GObject": {"name": "GObject", "parent": None}, "GInitiallyUnowned": {"name": "GInitiallyUnowned"}}


def canonical(name):
    """A property's or signal's name in the spelling with `-`."""
    return name.replace("_", "-")


def is_object(kind):
    """Whether a kind is one of objects."""
    return kind.partition(":")[0] in OBJECTS


def may_be_null(kind):
    """Whether an object of the kind may be null."""
    return kind.partition(":")[0] in ("object", "at?")


def not_null(kind):
    """The kind once null is ruled out."""
    return kind.replace("at?:", "at:", 1) if kind.startswith("at?:") else kind.replace("object:", "some:", 1)


def may_transform(kind, to):
    """Whether a value of the one kind can be converted to the other."""
    sort, goal = kind.partition(":")[0], to.partition(":")[0]
    if kind == to:
        return True
    if sort in WHOLE:
        return goal in (*WHOLE, "bool", "text", "enum", "flags")
    if sort == "bool":
        return goal in (*WHOLE, "text")
    return sort in ("enum", "flags") and goal in WHOLE


class Model:
    """Answers questions about a definition in its JSON form."""

    def __init__(self, definition):
        self.definition = definition
        self.types = {name: ("class", entry) for name, entry in PREDECLARED.items()}
        for section, sort in (("enums", "enum"), ("flags", "flags"), ("interfaces", "interface"), ("classes", "class")):
            for entry in definition.get(section, []):
                self.types.setdefault(entry["name"], (sort, entry))
        self.shapes = {entry["name"]: entry for entry in definition.get("shapes", [])}
        self.programs = {entry["name"]: entry for entry in definition.get("programs", [])}
        self.objects = list(all_objects(definition.get("objects", [])))
        self.prototypes = definition.get("prototypes", [])
        self.places = {entry["id"]: entry for entry in (*self.objects, *self.prototypes)}
        self.object_ids = {entry["id"] for entry in self.objects}
        self.memo = {}

    def sort(self, name):
        """The sort of a type: class, interface, enum or flags; None where there is no such type."""
        return self.types.get(name, (None, None))[0]

    def chain(self, name):
        """The classes from the root down to a class."""
        found = []
        while self.sort(name) == "class" and name not in [it["name"] for it in found]:
            entry = self.types[name][1]
            found.append(entry)
            name = entry.get("parent", "GObject")
        return found[::-1]

    def is_a(self, name, other):
        """Whether a type is another one, by its parents or interfaces."""
        if name == other:
            return True
        return any(other == it["name"] or other in it.get("implements", []) for it in self.chain(name))

    def owners(self, name):
        """The entries whose signals a type has, in order."""
        if self.sort(name) == "interface":
            return [self.types[name][1]]
        found, seen = [], set()
        for entry in self.chain(name):
            found.append(entry)
            for each in entry.get("implements", []):
                if each not in seen and each in self.types:
                    seen.add(each)
                    found.append(self.types[each][1])
        return found

    def properties(self, name):
        """The properties of a type by name, inherited ones first."""
        if ("properties", name) not in self.memo:
            entries = [self.types[name][1]] if self.sort(name) == "interface" else self.chain(name)
            self.memo["properties", name] = {canonical(it["name"]): it for entry in entries for it in entry.get("properties", [])}
        return self.memo["properties", name]

    def signals(self, name):
        """The signals of a type by name, without `notify`."""
        if ("signals", name) not in self.memo:
            self.memo["signals", name] = {canonical(it["name"]): it for entry in self.owners(name) for it in entry.get("signals", [])}
        return self.memo["signals", name]

    def signal(self, name, signal):
        """A signal of a type, own or inherited, or `notify`; None where there is none."""
        return NOTIFY if signal == "notify" else self.signals(name).get(canonical(signal))

    def shape(self, name):
        """The name of the shape of a class, own or inherited, or None."""
        return next((it["shape"] for it in self.chain(name) if "shape" in it), None)

    def methods(self, name):
        """The methods of a class's shape by name; None where it has no shape."""
        shape = self.shapes.get(self.shape(name))
        return None if shape is None else {it["name"]: it for it in shape.get("methods", [])}

    def class_of(self, kind):
        """The type of an object kind."""
        sort, _, name = kind.partition(":")
        if sort in ("at", "at?"):
            return self.places[name]["class"] if name in self.places else None
        return name

    def fits(self, kind, want):
        """Whether a register of the one kind may be where the other is wanted."""
        if kind == want or want == "unset":
            return True
        sort, goal = kind.partition(":")[0], want.partition(":")[0]
        if sort == "at" and goal == "at?":
            return kind[3:] == want[4:]
        if sort in ("at", "some") and goal == "some" or sort in OBJECTS and goal == "object":
            return self.is_a(self.class_of(kind), want.partition(":")[2])
        return False

    def bindings(self):
        """Each binding: its object, its property and the entry `bind`."""
        return [(it, given["name"], given["bind"]) for it in self.objects for given in it.get("properties", []) if "bind" in given]


def all_objects(entries):
    """Objects in the order of the document, children behind their parents."""
    for entry in entries:
        yield entry
        yield from all_objects(entry.get("children", []))
