"""Checks declarations, so that no Shape and no Unknown is left, and turns their kinds and values into those of the format."""
from .faults import Fault, listed, nearest
from .kinds import check_name, shown
from .model import canonical
from .reader import WHOLE
from .tokens import node


class Checks:
    """Goes once over the tree of a source, in place."""

    def __init__(self, tree, kinds):
        self.tree, self.kinds, self.model = tree, kinds, kinds.model

    def whole(self):
        """Checks all. Fails with a Fault at the first mistake."""
        self.resolve_kinds()
        for section in ("enums", "flags"):
            for entry in self.tree[section]:
                for member in entry["members"]:
                    check_name(member[0], "the name of a member")
                    check_name(member[1], "the nick of a member")
        for entry in self.tree["shapes"]:
            check_name(entry["name"], "the name of a shape")
            for method in entry["methods"]:
                check_name(method["name"], "the name of a method")
        for entry in self.tree["interfaces"]:
            self.type_entry(entry)
        for entry in self.tree["classes"]:
            self.class_entry(entry)
        for entry in self.tree["programs"]:
            check_name(entry["name"], "the name of a program")
        for entry in self.tree["prototypes"]:
            self.prototype(entry)
        for entry in self.model.objects:
            self.object(entry)

    def resolve_kinds(self):
        """All kinds outside of bodies first, since the values below need them."""
        for shape in self.tree["shapes"]:
            for method in shape["methods"]:
                self.resolve_signature(method, "peer", "peer")
        for entry in (*self.tree["interfaces"], *self.tree["classes"]):
            for property in entry.get("properties", []):
                property["kind"] = self.kinds.kind(property["kind"], "property")
            for signal in entry.get("signals", []):
                self.resolve_signature(signal, "property", "result")
        for program in self.tree["programs"]:
            program["names"] = self.parameter_names(program["params"])
            program["params"] = [self.kinds.kind(it["kind"], "register") for it in program["params"]]
            if "result" in program:
                program["result"] = self.kinds.kind(program["result"], "result")

    def parameter_names(self, params):
        """The names of parameters. Fails where one comes twice."""
        names = [it["name"] for it in params]
        for number, name in enumerate(names):
            if name is not None and name in names[:number]:
                raise Fault(name.at, f"there is a parameter `{name}` already")
        return names

    def resolve_signature(self, entry, param, result):
        """Resolves the kinds of parameters and of a result."""
        if "params" in entry:
            entry["params"] = [self.kinds.kind(it, param) for it in entry["params"]]
        if "result" in entry:
            entry["result"] = self.kinds.kind(entry["result"], result)

    def known(self, word, words, what):
        """Fails where a name is none of those that there are."""
        if word not in words:
            raise Fault(word.at, f"there is no {what} `{word}`{nearest(word, words)}")

    def types_of(self, *sorts):
        """The names of all types of some sorts."""
        return [name for name, (sort, _) in self.model.types.items() if sort in sorts]

    def type_entry(self, entry):
        """Checks what interfaces and classes have in common."""
        for name in entry.get("requires", []):
            self.known(name, self.types_of("class", "interface"), "interface or class")
        for property in entry.get("properties", []):
            self.property(property)

    def property(self, it):
        """Checks the range, the default and `weak` of a property."""
        kind = it["kind"]
        for end in ("min", "max"):
            if end in it:
                if kind not in WHOLE:
                    raise Fault(it[end].at, f"a range goes with whole numbers alone, and `{it['name']}` is `{shown(kind)}`")
                it[end] = self.kinds.whole(node(it[end].at, sort="number", value=it[end]), kind)
        if it.get("weak") and not kind.startswith("object:"):
            raise Fault(kind.at, f"`weak` goes with objects alone, and this is `{shown(kind)}`")
        if "default" in it:
            it["default"] = self.kinds.value(it["default"], kind)

    def class_entry(self, entry):
        """Checks a class."""
        self.type_entry(entry)
        if "parent" in entry:
            self.known(entry["parent"], self.types_of("class"), "class")
        for name in entry.get("implements", []):
            self.known(name, self.types_of("interface"), "interface")
        for _, program in entry.get("class-handlers", []):
            self.known(program, self.model.programs, "program")
        if "constructed" in entry:
            self.known(entry["constructed"], self.model.programs, "program")
        if "shape" in entry:
            self.known(entry["shape"], self.model.shapes, "shape")

    def place(self, entry, what):
        """Checks the id and the class of an object or a prototype."""
        check_name(entry["id"], f"the id of {what}")
        self.known(entry["class"], self.types_of("class"), "class")

    def given(self, entry, it):
        """The property that a value is given to, or that is bound."""
        found = self.model.properties(entry["class"]).get(canonical(it["name"]))
        if found is None:
            names = self.model.properties(entry["class"])
            raise Fault(it["name"].at, f"`{entry['class']}` has no property `{it['name']}`{nearest(it['name'], names)}; "
                                       f"it has {listed(names, 'none')}")
        return found

    def prototype(self, entry):
        """Checks a prototype, and turns its values into JSON."""
        self.place(entry, "a prototype")
        for it in entry.get("properties", []):
            found = self.given(entry, it)
            it["value"] = self.kinds.value(it["value"], found["kind"])
        if "peers" in entry and self.model.shape(entry["class"]) is None:
            raise Fault(entry["peers"][0].at, f"`{entry['class']}` has no shape, so its objects have no peers")
        for name in entry.get("peers", []):
            check_name(name, "the name of a peer")

    def object(self, entry):
        """Checks an object, and turns its values into JSON."""
        self.place(entry, "an object")
        shape = self.model.shape(entry["class"])
        if "peer" in entry:
            check_name(entry["peer"], "the name of a peer")
            if shape is None:
                raise Fault(entry["peer"].at, f"`{entry['class']}` has no shape, so its objects have no peer")
        elif shape is not None:
            raise Fault(entry["class"].at, f"`{entry['class']}` has the shape `{shape}`, so this object needs a peer: "
                                           f"`object {entry['id']}: {entry['class']} peer NAME`")
        for it in entry.get("properties", []):
            found = self.given(entry, it)
            if "bind" in it:
                self.bind(it)
            else:
                it["value"] = self.kinds.value(it["value"], found["kind"], True)
        for it in entry.get("signals", []):
            self.handler(it)

    def bind(self, it):
        """Checks a binding."""
        bind = it["bind"]
        self.known(bind["source"], self.model.object_ids, "object")
        source = self.model.places[bind["source"]]["class"]
        name = bind.get("property", it["name"])
        if canonical(name) not in self.model.properties(source):
            names = self.model.properties(source)
            raise Fault(name.at, f"`{source}` has no property `{name}`{nearest(name, names)}; it has {listed(names, 'none')}")
        if "name" in bind:
            check_name(bind["name"], "the name of a binding")

    def handler(self, it):
        """Checks a handler of an object."""
        if "detail" in it:
            check_name(it["detail"], "a detail")
        self.known(it["handler"], self.model.programs, "program")
        if "object" in it:
            self.known(it["object"], self.model.object_ids, "object")
