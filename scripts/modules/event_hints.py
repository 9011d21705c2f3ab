"""Why an event line is refused, and where in the line."""
from json_places import Fault, Reader, place
from names import all_objects, ids_in, members_of, names_in
from values import value_fault
from wording import counted, listed, nearest

FORMS = {"set": "[ID, PROPERTY, VALUE]", "get": "[ID, PROPERTY]", "emit": "[ID, SIGNAL, [VALUES]] or [ID, SIGNAL, [VALUES], DETAIL]",
         "release": "ID", "turn": "MOMENT"}
SIZES = {"set": (3, 3), "get": (2, 2), "emit": (3, 4)}
FIXED = {"TooLong": "a line has at most 65,536 bytes; nothing after it is read", "TooMany": "a file has at most 65,536 lines; nothing after them is read",
         "OutOfMemory": "memory ran out"}
RULES = {"NotReadable": "not readable", "NotWritable": "not writable", "ConstructOnly": "set when its object is made, and never after that"}
LAST_MOMENT = 9007199254740992


def line_hint(tree, raw, name, released):
    """The column and the hint of a line that was refused with a name. `released` has the ids that were let go before."""
    if name in FIXED:
        return 1, FIXED[name]
    try:
        text = raw.decode("utf-8")
    except UnicodeDecodeError as error:
        return len(raw[:error.start].decode("utf-8")) + 1, "from this byte on the line is not UTF-8"
    reader = Reader(text)
    try:
        event = reader.whole()
    except Fault as fault:
        return place(text, min(fault.at, len(text)))[1], fault.hint
    if name == "NotJson":
        return 1, "JSON readers do not hold a number or an escape of this line"
    path, hint = Line(tree, event, released).fault(name)
    while path and path not in reader.values:
        path = path.rpartition("/")[0]
    at = reader.names.get(path, reader.values.get(path, 0)) if path.count("/") == 1 else reader.values.get(path, 0)
    return place(text, at)[1], hint


class Line:
    """An event that was read from its line, and the definition that it is for."""

    def __init__(self, tree, event, released):
        self.tree, self.event, self.released = tree, event, released
        self.classes = {it.get("id"): it.get("class") for it in all_objects(tree)}
        self.word, self.of = next(iter(event.items())) if isinstance(event, dict) and len(event) == 1 else (None, None)

    def fault(self, name):
        """The path and the hint of what is wrong."""
        if name == "ClockBack":
            return "/turn", "this moment is before the moment of an earlier turn"
        if name == "Shape":
            return self.form_fault()
        if self.word == "turn":
            return "/turn", f"a moment is a whole number of milliseconds from 0 to {LAST_MOMENT}"
        if name == "Released":
            return self.released_fault()
        if name in RULES:
            return f"/{self.word}/1", f"the property `{self.of[1]}` of {self.classes[self.of[0]]} is {RULES[name]}"
        found = self.unknown_fault() if name == "Unknown" else self.value_fault()
        return found or (f"/{self.word}", "a name or a value of this event is wrong")

    def form_fault(self):
        """Why the line does not have the form of an event."""
        if self.word is None:
            return "", f"an event is a JSON object with exactly one member. The events are {listed(FORMS)}"
        if self.word not in FORMS:
            return f"/{self.word}", f"`{self.word}` is not an event{nearest(self.word, FORMS) or '.'} The events are {listed(FORMS)}"
        form = f"this has the form {{\"{self.word}\": {FORMS[self.word]}}}"
        if self.word in ("release", "turn") or not isinstance(self.of, list):
            return f"/{self.word}", form
        least, most = SIZES[self.word]
        if not least <= len(self.of) <= most:
            return f"/{self.word}", f"{form}, and the list has {len(self.of)}"
        wrong = next((at for at, it in enumerate(self.of[:2]) if not isinstance(it, str)), None)
        if wrong is not None:
            return f"/{self.word}/{wrong}", f"{form}, so this has to be a string"
        if self.word == "emit":
            return self.arguments_fault(form)
        return f"/{self.word}", form

    def arguments_fault(self, form):
        """Why the arguments or the detail of an emission do not have the right form."""
        arguments = self.of[2]
        if not isinstance(arguments, list):
            return "/emit/2", f"{form}: the arguments are a list, even if there is only one"
        signal = self.signal()
        params = signal.get("params", []) if signal else None
        if params is not None and len(params) != len(arguments):
            given = f"{len(arguments)} {'is' if len(arguments) == 1 else 'are'} given"
            return "/emit/2", f"the signal `{self.of[1]}` takes {counted(len(params), 'argument')} ({listed(params) or 'none'}), and {given}"
        return "/emit/3", "a detail has 1 to 64 ASCII letters, digits, - and _"

    def signal(self):
        """The signal that is emitted, or None."""
        return members_of(self.tree, self.classes.get(self.of[0]), "signals").get(str(self.of[1]).replace("_", "-"))

    def target(self):
        """The path of the id of the object, and the id."""
        return ("/release", self.of) if self.word == "release" else (f"/{self.word}/0", self.of[0])

    def unknown_fault(self):
        """Which name is not known: of the object, the property, the signal, the detail, or an object that a value names."""
        path, name = self.target()
        if name not in self.classes:
            return path, self.no_object(name)
        if self.word in ("set", "get"):
            properties = members_of(self.tree, self.classes[name], "properties")
            if self.of[1].replace("_", "-") not in properties:
                return f"/{self.word}/1", f"there is no property `{self.of[1]}` of {self.classes[name]}{nearest(self.of[1], properties)}"
        if self.word == "emit" and self.signal() is None:
            return "/emit/1", self.no_signal(self.of[1])
        for path, value, kind in self.values():
            if kind.startswith("object:") and isinstance(value, str) and value not in self.classes:
                return path, self.no_object(value)
        if self.word == "emit" and len(self.of) == 4:
            return "/emit/3", f"the signal `{self.of[1]}` takes no detail: only a signal with the flag `detailed` does"
        return None

    def no_object(self, name):
        """That an event names no object."""
        if name in names_in(self.tree, "prototypes", "id"):
            return f"`{name}` is a prototype, and an event names only objects"
        return f"there is no object `{name}`{nearest(name, ids_in(self.tree))}"

    def no_signal(self, name):
        """That an event emits no signal of its object."""
        if name == "notify":
            return "an event cannot emit `notify`: set the property instead"
        of = self.classes[self.of[0]]
        if "::" in name:
            return f"there is no signal `{name}` of {of}: a detail is the fourth entry of the list"
        return f"there is no signal `{name}` of {of}{nearest(name, members_of(self.tree, of, 'signals'))}"

    def values(self):
        """Each value of the event, with its path and its kind."""
        if self.word == "set":
            of = members_of(self.tree, self.classes[self.of[0]], "properties").get(self.of[1].replace("_", "-"))
            return [("/set/2", self.of[2], of["kind"])] if of else []
        if self.word == "emit" and self.signal():
            return [(f"/emit/2/{at}", value, kind) for at, (value, kind) in enumerate(zip(self.of[2], self.signal().get("params", [])))]
        return []

    def value_fault(self):
        """Which value is not of its kind."""
        for path, value, kind in self.values():
            hint = value_fault(self.tree, value, kind)
            if hint:
                return path, hint
        return None

    def released_fault(self):
        """Which object was released before."""
        named = [self.target(), *((path, value) for path, value, kind in self.values() if kind.startswith("object:"))]
        path, name = next(((path, name) for path, name in named if name in self.released), named[0])
        return path, f"the object `{name}` was released before this line, so no event may name it"
