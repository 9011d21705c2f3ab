"""How many counted steps may follow each way in, and which path costs most. The definition is accepted but for its bounds."""
from .model import Model, canonical
from .registers import kinds_before

TOO_LARGE = 10 ** 12


class Costs:
    """Works out the bounds that `ui verify` writes."""

    def __init__(self, definition):
        self.model, self.definition = Model(definition), definition
        limits = definition.get("limits", {})
        self.objects, self.handlers = limits.get("objects", 64), limits.get("handlers", 0)
        self.before = {name: kinds_before(self.model, it) for name, it in self.model.programs.items()}
        self.memo, self.of_type = {}, {}
        self.partners, self.one_way = {}, {}
        for place, name, bind in self.model.bindings():
            ends = (bind["source"], canonical(bind.get("property", name))), (place["id"], canonical(name))
            if "bidirectional" in bind.get("flags", []):
                self.partners.update({ends[0]: ends[1], ends[1]: ends[0]})
            else:
                self.one_way.setdefault(ends[0], []).append(ends[1])
        self.connected = self.connections()
        self.later = {it["id"]: number for number, it in enumerate(self.model.objects)}

    # what there is

    def places_of(self, kind):
        """The ids of the objects that a register of the kind may hold."""
        sort, _, name = kind.partition(":")
        if sort in ("at", "at?"):
            return [name]
        if name not in self.of_type:
            self.of_type[name] = [key for key, it in self.model.places.items() if self.model.is_a(it["class"], name)]
        return self.of_type[name]

    def property(self, place, name):
        """The entry of a property of an object or a prototype."""
        return self.model.properties(self.model.places[place]["class"])[name]

    def is_channel(self, channel):
        """Whether a way in is one: a property that is not readable is none."""
        return channel[0] != "property" or "readable" in self.property(*channel[1:]).get("flags", ["readable", "writable"])

    def constructed(self, place):
        """The programs that run as an object is made, of the root first."""
        return [it["constructed"] for it in self.model.chain(self.model.places[place]["class"]) if "constructed" in it]

    def channels(self):
        """All ways in at objects and prototypes, in the order of the report."""
        for entry in (*self.model.objects, *self.model.prototypes):
            place = entry["id"]
            if self.constructed(place):
                yield "constructed", place, None
            for name in self.model.properties(entry["class"]):
                if self.is_channel(("property", place, name)):
                    yield "property", place, name
            for name in self.model.signals(entry["class"]):
                yield "signal", place, name

    def connections(self):
        """What programs may connect: the places, the signal, the detail and the program."""
        found = []
        for name, program in self.model.programs.items():
            for block, rows in zip(program["blocks"], self.before[name]):
                for it, kinds in zip(block["code"], rows):
                    if it[0] == "connect":
                        detail = canonical(it[4]) if it[4] is not None and it[3] == "notify" else it[4]
                        found.append((set(self.places_of(kinds[it[2]])), canonical(it[3]), detail, it[5]))
        return found

    def class_handler(self, place, signal):
        """The program of the nearest class that handles a signal, or None."""
        for entry in reversed(self.model.chain(self.model.places[place]["class"])):
            for name, program in entry.get("class-handlers", []):
                if canonical(name) == signal:
                    return program
        return None

    def object_handlers(self, channel):
        """The numbers and programs of an object's own handlers that run at a way in."""
        sort, place, name = channel
        signal = "notify" if sort == "property" else name
        for number, it in enumerate(self.model.places[place].get("signals", [])):
            is_other = sort == "property" and "detail" in it and canonical(it["detail"]) != name
            if canonical(it["name"]) == signal and not is_other:
                yield number, it["handler"]

    def connectable(self, channel):
        """The programs that other programs may connect to a way in."""
        sort, place, name = channel
        signal = "notify" if sort == "property" else name
        return [program for places, of, detail, program in self.connected if self.handlers and place in places and of == signal
                and not (sort == "property" and detail is not None and detail != name)]

    # costs: each is a list of parts (steps, how often, what it is)

    def total(self, key, parts):
        """The sum of the parts, worked out once."""
        if key not in self.memo:
            self.memo[key] = sum(steps * times for steps, times, _ in parts())
        return self.memo[key]

    def node(self, channel):
        """The steps of a way in, with those of its pair."""
        if not self.is_channel(channel):
            return 0
        own = self.channel(channel)
        other = self.partners.get(channel[1:]) if channel[0] == "property" else None
        return own if other is None else own + self.channel(("property", *other)) + 1

    def channel(self, channel):
        """The steps of a way in, without those of its pair."""
        return self.total(channel, lambda: self.parts(channel)) if self.is_channel(channel) else 0

    def parts(self, channel):
        """What a way in costs: its handlers and bindings."""
        sort, place, name = channel
        if sort == "constructed":
            return [(self.program(it), 1, ("program", it, None)) for it in self.constructed(place)]
        found, handler = [(1, 1, ("step", None, None))], self.class_handler(place, "notify" if sort == "property" else name)
        if handler is not None:
            found.append((self.program(handler), self.stages(channel), ("program", handler, None)))
        found += [(self.program(it), 1, ("program", it, f"{place}/{number}")) for number, it in self.object_handlers(channel)]
        dearest = max(self.connectable(channel), key=self.program, default=None)
        if dearest is not None:
            found.append((self.program(dearest), self.handlers, ("program", dearest, None)))
        if sort == "property":
            found += [(1 + self.node(("property", *it)), 1, ("channel", ("property", *it), None)) for it in self.one_way.get((place, name), [])]
        return found

    def stages(self, channel):
        """How often the class handler runs in one emission."""
        if channel[0] == "property":
            return 1
        flags = self.model.signal(self.model.places[channel[1]]["class"], channel[2]).get("flags", ["run-last"])
        return len({"run-first", "run-last", "run-cleanup"} & set(flags))

    def program(self, name):
        """The steps of a run of a program."""
        return self.total(("program", name), lambda: self.way(name))

    def way(self, name):
        """The dearest way through a program: its instructions with their steps."""
        program = self.model.programs[name]
        best = [None] * len(program["blocks"])
        for number in reversed(range(len(best))):
            block = program["blocks"][number]
            rows = [(self.instruction(it, kinds), block.get("repeat", 1), ("instruction", name, (number, at)))
                    for at, (it, kinds) in enumerate(zip(block["code"], self.before[name][number]))]
            rows[-1] = (rows[-1][0], 1, rows[-1][2])
            ends = {"jump": slice(1, 2), "return": slice(9, 9)}.get(block["code"][-1][0], slice(2, 4))
            after = max((best[it] for it in block["code"][-1][ends]), key=lambda it: it[0], default=(0, []))
            best[number] = (sum(steps * times for steps, times, _ in rows) + after[0], [*rows, *after[1]])
        return best[0][1]

    def instruction(self, it, kinds):
        """The steps of an instruction, with all that it starts."""
        found = self.dearest(it, kinds)
        return 1 + (found[0] if found else 0)

    def dearest(self, it, kinds):
        """The steps that an instruction starts at most, and the way in where they are."""
        if it[0] in ("set", "notify"):
            ways = [("property", place, canonical(it[2])) for place in self.places_of(kinds[it[1]])]
        elif it[0] == "emit":
            ways = [("signal", place, canonical(it[3])) for place in self.places_of(kinds[it[2]])]
        elif it[0] == "new":
            return 1 + self.construction(it[2]), ("constructed", it[2], None)
        elif it[0] == "thaw":
            return max(((self.paired(place), ("paired", place, None)) for place in self.places_of(kinds[it[1]])), default=None, key=lambda one: one[0])
        else:
            return None
        return max(((self.node(way), way) for way in ways), default=None, key=lambda one: one[0])

    def paired(self, place):
        """The steps of all properties of an object that are in pairs."""
        return sum(self.node(("property", *it)) for it in self.partners if it[0] == place)

    def built(self, place):
        """The properties of a place that its construction sets."""
        entry = self.model.places[place]
        given = {canonical(it["name"]) for it in entry.get("properties", []) if "value" in it and not self.is_forward(place, it)}
        for name, it in self.model.properties(entry["class"]).items():
            if name in given or {"construct", "construct-only"} & set(it.get("flags", [])):
                yield "property", place, name

    def is_forward(self, place, it):
        """Whether a given value names an object that is built later."""
        kind = self.property(place, canonical(it["name"]))["kind"]
        return kind.startswith("object:") and it["value"] is not None and self.later[it["value"]] >= self.later[place]

    def construction(self, place):
        """The steps of a construction."""
        own = self.node(("constructed", place, None)) if self.constructed(place) else 0
        return own + sum(self.node(it) for it in self.built(place))

    def build_parts(self):
        """What the build costs."""
        found = []
        for it in self.model.objects:
            found.append((self.construction(it["id"]), 1, ("made", it["id"], None)))
            for given in it.get("properties", []):
                way = ("property", it["id"], canonical(given["name"]))
                if "value" in given and self.is_forward(it["id"], given):
                    found.append((self.node(way), 1, ("channel", way, None)))
                elif "sync-create" in given.get("bind", {}).get("flags", []):
                    found.append((1 + self.node(way), 1, ("channel", way, None)))
        return found

    # the report

    def bounds(self):
        """Each line of the report that has a bound: what it is about, its parts, and its bound."""
        found = [("build", None, self.objects + sum(steps for steps, _, _ in self.build_parts()))]
        for channel in self.channels():
            text = f"constructed {channel[1]}" if channel[0] == "constructed" else f"{channel[0]} {channel[1]}.{channel[2]}"
            found.append((text, channel, self.objects + self.node(channel)))
        attached = {it[2] for program in self.model.programs.values() for block in program["blocks"] for it in block["code"]
                    if it[0] in ("idle", "timeout")}
        found += [(f"source {name}", ("source", name, None), self.objects + self.program(name))
                  for name in self.model.programs if name in attached]
        return found

    def path(self, channel):
        """The path that costs most from a way in: rows of (depth, steps, times, what)."""
        rows, parts, depth = [], self.first_parts(channel), 0
        while parts and len(rows) < 60:
            steps, times, what = max(parts, key=lambda it: it[0] * it[1])
            if what[0] == "step" or steps * times <= 1:
                break
            rows.append((depth, steps, times, what))
            parts, depth = self.inner(what), depth + 1
        return rows

    def first_parts(self, channel):
        """What the way in at the head of a path costs."""
        if channel is None:
            return self.build_parts()
        return self.way(channel[1]) if channel[0] == "source" else self.node_parts(channel)

    def node_parts(self, channel):
        """The parts of a way in and of its pair."""
        if not self.is_channel(channel):
            return []
        other = self.partners.get(channel[1:]) if channel[0] == "property" else None
        return self.parts(channel) + ([] if other is None else self.parts(("property", *other)))

    def inner(self, what):
        """The parts of a part."""
        sort, one, two = what
        if sort == "program":
            return self.way(one)
        if sort == "channel":
            return self.node_parts(one)
        if sort == "made":
            return self.construction_parts(one)
        number, at = two
        found = self.dearest(self.model.programs[one]["blocks"][number]["code"][at], self.before[one][number][at])
        if not found:
            return []
        if found[1][0] == "constructed":
            return self.construction_parts(found[1][1])
        if found[1][0] == "paired":
            return [(self.node(("property", *it)), 1, ("channel", ("property", *it), None)) for it in self.partners if it[0] == found[1][1]]
        return [(self.node(found[1]), 1, ("channel", found[1], None))]

    def construction_parts(self, place):
        """What a construction costs."""
        found = [(self.node(it), 1, ("channel", it, None)) for it in self.built(place)]
        if self.constructed(place):
            found.append((self.node(("constructed", place, None)), 1, ("channel", ("constructed", place, None), None)))
        return found
