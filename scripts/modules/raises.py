"""What may raise what in a definition: the channels of its objects, the programs that run there, and what these programs raise."""
from names import all_objects, members_of, objects_of, place_paths
from registers import kinds_before


def plain(name):
    """A name of a property or a signal as the output has it."""
    return name.replace("_", "-")


class Definition:
    """A definition that was read, by its names."""

    def __init__(self, tree):
        self.tree = tree
        self.classes = {it["name"]: it for it in objects_of(tree, "classes")}
        objects = all_objects(tree)
        paths = place_paths(tree)
        order = sorted(objects, key=lambda it: [int(part) for part in paths[it["id"]].split("/") if part.isdigit()])
        self.places = {it["id"]: it for it in [*order, *objects_of(tree, "prototypes")]}
        self.earlier = {it["id"]: number for number, it in enumerate(order)}
        self.programs = {it["name"]: it for it in objects_of(tree, "programs")}
        self.connects = [] if not tree.get("limits", {}).get("handlers", 0) else list(self.connections())

    def chain(self, name):
        """A class and its ancestors in the document, the nearest first."""
        while name in self.classes:
            yield self.classes[name]
            name = self.classes[name].get("parent")

    def is_a(self, name, of):
        """Whether a class is a type, as `names.is_a` says, for many classes."""
        return of == "GObject" or any(of in (it["name"], it.get("parent"), *it.get("implements", [])) for it in self.chain(name)) or name == of

    def places_of(self, kind):
        """The places of the objects that a register of a kind may hold."""
        sort, _, name = kind.partition(":")
        return [name] if sort in ("at", "at?") else [it for it, place in self.places.items() if self.is_a(place["class"], name)]

    def properties(self, place):
        """The properties of the class of a place, by their names."""
        return members_of(self.tree, self.places[place]["class"], "properties")

    def signals(self, place):
        """The signals of the class of a place, by their names."""
        return members_of(self.tree, self.places[place]["class"], "signals")

    def instructions(self, program):
        """Each instruction of a program, with what the registers hold before it, and how often it is carried out."""
        for number, block in enumerate(program["blocks"]):
            for at, code in enumerate(block["code"]):
                passes = block.get("repeat", 1) if at < len(block["code"]) - 1 else 1
                yield code, kinds_before(self.tree, program, number, at), passes

    def connections(self):
        """Each `connect` of a program: the places that it may be for, the signal, the detail and the program."""
        for program in self.programs.values():
            for code, kinds, _ in self.instructions(program):
                if code[0] == "connect":
                    yield set(self.places_of(kinds[code[2]])), plain(code[3]), code[4], code[5]


def is_readable(of):
    """Whether a property can be read."""
    return "readable" in of.get("flags", ["readable", "writable"])


def channels(of):
    """What programs may run at, as `ui verify` lists it."""
    for place, it in of.places.items():
        if any("constructed" in a_class for a_class in of.chain(it["class"])):
            yield f"constructed {place}"
        yield from (f"property {place}.{name}" for name, it in of.properties(place).items() if is_readable(it))
        yield from (f"signal {place}.{name}" for name in of.signals(place))


def runs_at(of, channel):
    """The programs that may run at a channel."""
    sort, _, rest = channel.partition(" ")
    place, _, name = rest.partition(".")
    chain = list(of.chain(of.places[place]["class"]))
    if sort == "constructed":
        return [it["constructed"] for it in chain if "constructed" in it]
    signal, detail = ("notify", name) if sort == "property" else (name, None)
    own = [program for it in chain for named, program in it.get("class-handlers", []) if plain(named) == signal][:1]
    handlers = [(it["name"], it.get("detail"), it["handler"]) for it in of.places[place].get("signals", [])]
    connected = [it[1:] for it in of.connects if place in it[0]]
    return own + [program for named, at, program in [*handlers, *connected]
                  if plain(named) == signal and (detail is None or at is None or plain(at) == detail)]


def built(of, place):
    """The properties that the making of an object sets and notifies."""
    given = {plain(it["name"]): it for it in of.places[place].get("properties", []) if "value" in it}
    for name, it in of.properties(place).items():
        flags = it.get("flags", ["readable", "writable"])
        value = given.get(name, {}).get("value")
        is_forward = it["kind"].startswith("object:") and of.earlier.get(value, -1) >= of.earlier.get(place, 0)
        if is_readable(it) and ({"construct", "construct-only"} & set(flags) or name in given and not is_forward):
            yield f"property {place}.{name}"


def raised(of, code, kinds, paired):
    """The channels that one instruction may raise. What is thawed may have been set by the other property of a pair."""
    if code[0] in ("set", "notify"):
        yield from (f"property {place}.{plain(code[2])}" for place in of.places_of(kinds[code[1]]))
    elif code[0] == "emit":
        yield from (f"signal {place}.{plain(code[3])}" for place in of.places_of(kinds[code[2]]))
    elif code[0] == "thaw":
        held = set(of.places_of(kinds[code[1]]))
        yield from (it for it in paired if it.partition(" ")[2].partition(".")[0] in held)
    elif code[0] == "new":
        yield f"constructed {code[2]}"
        yield from built(of, code[2])


def starts(of, program, paired):
    """The channels that a program may raise."""
    for code, kinds, _ in of.instructions(program):
        yield from raised(of, code, kinds, paired)


def bindings(of):
    """Each binding: its source, its target, and whether the two are a pair."""
    for place, it in of.places.items():
        for entry in it.get("properties", []):
            bind = entry.get("bind")
            if bind:
                source = f"property {bind['source']}.{plain(bind.get('property', entry['name']))}"
                yield source, f"property {place}.{plain(entry['name'])}", "bidirectional" in bind.get("flags", [])


def graph(of):
    """The node of each channel, and the edges: two nodes, and what makes the edge."""
    order = list(channels(of))
    node = {it: it for it in order}
    paired = [ends for *ends, is_pair in bindings(of) if is_pair]
    for source, target in paired:
        node[source] = node[target] = min(source, target, key=order.index)
    starting = {name: list(starts(of, program, sum(paired, []))) for name, program in of.programs.items()}
    edges = {(node[at], node[to], program): None for at in order for program in runs_at(of, at) for to in starting[program] if to in node}
    edges.update({(node[at], node[to], "binding"): None for at, to, is_pair in bindings(of) if not is_pair and to in node})
    return node, list(edges)
