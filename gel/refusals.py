"""Tells a refusal of the verifier at the place of the source that it comes from."""
from urllib.parse import unquote

from .costs import Costs
from .faults import Fault, nearest, place
from .kinds import shown
from .model import Model, canonical

CAUSES = {
    "BadName": "a type's name has three characters or more, a letter or `_` first; a property's or signal's name is letters and digits, "
               "a letter first, with single `-` or `_` between",
    "UnknownParent": "this has to be declared earlier",
    "FinalParent": "the parent is final, so no class is derived from it",
    "Abstract": "the class is abstract, so no object is made of it",
    "FlagsClash": "`construct` does not go with `construct-only`, each of them needs a property that can be written, and `readonly` does not go with "
                  "`writeonly`",
    "RangeEmpty": "the least number of the range is above the greatest",
    "DefaultInvalid": "the default is outside of the range, or has bits that no member has; without `=` the default is 0",
    "NotWritable": "the property is `readonly`, so it is given no value",
    "Duplicate": "there is a type, property or signal of this name already",
    "AccumulatorKind": "`true-handled` needs the result `bool`, and `first-wins` needs a result",
    "WrongJson": "this is no value of the kind",
    "OutOfRange": "the kind does not have this number",
    "UnknownMember": "no member has this name, nick or number",
    "TextTooLong": "a text has at most 4,096 bytes",
}
RULES = {
    "unset": "a register that this reads holds nothing here",
    "kind": "a register that this reads is of another kind, or there are more or fewer arguments",
    "null": "an object that this needs may be null: test it first with `ifnull`",
    "unknown": "there is no property, signal, method, program, object, prototype or binding of this name",
    "flags": "the property is not readable, or not writable",
    "construct-only": "the property is set as its object is made, and never after that",
    "detail": "the signal does not take this detail",
    "signature": "the program does not take what it would be given, or returns something else",
    "result": "what is returned is not what the program says, or the signal has no result",
    "block": "a register does not hold what the block says to which this leads",
}
BIND_RULES = {
    "same": "a property is not bound to itself",
    "readable": "what the binding reads is `writeonly`",
    "writable": "what the binding sets is `readonly`",
    "construct-only": "what the binding sets is `construct-only`",
    "kinds": "no value of the one kind becomes a value of the other",
    "invert": "`invert-boolean` needs two properties of the kind `bool`",
}
LIMITS = {"types": "256 types are the most, with the two that are always there", "depth": "16 classes below each other are the most",
          "properties": "64 properties of a type are the most, with inherited ones", "signals": "64 signals of a type are the most, with inherited ones",
          "programs": "256 programs are the most", "places": "512 objects and prototypes are the most",
          "objects": "there are more objects than `limits objects` allows, which is 64 where it says nothing", "handlers": "16 handlers are the most"}


class Told:
    """Knows a compiled source, and tells refusals of its definition."""

    def __init__(self, compiled):
        self.compiled, self.definition = compiled, compiled.definition
        self.model = Model(self.definition)

    def at(self, path):
        """Where a path of the definition is in the source, or the nearest part that holds it."""
        while path and path not in self.compiled.places:
            path = path.rpartition("/")[0]
        return self.compiled.places.get(path, 0)

    def line(self, at):
        """The line of a place."""
        return place(self.compiled.source, at)[0]

    def fault(self, said):
        """The Fault of a refused line."""
        name, *fields = said.strip().split(" ")[1:]
        tell = getattr(self, "of_" + name, None)
        at, text = tell(*fields) if tell else self.of_path(name, *map(unquote, fields))
        first, _, more = text.partition("\n")
        return Fault(at, f"{first} ({said.strip()})" + (f"\n{more}" if more else ""))

    def of_path(self, name, path="", cause="", about=""):
        """Tells a refusal that has a path."""
        if name == "Duplicate":
            return self.at(path), "the same name is there before" + self.first(path)
        if name == "ForwardConstructOnly":
            return self.at(path), "a `construct-only` property takes an object that is declared earlier: put that object first"
        if name == "BadSpec" and cause.startswith("Override"):
            return self.at(path), f"the class needs the property `{about}` of its interface" + \
                ("" if cause == "OverrideMissing" else ", with the same kind, range, default and words")
        if cause == "Prerequisite":
            return self.at(path), f"the class has to be `{about}` first, by its parent or by `implements`"
        if name == "TooLong":
            return 0, "a definition has at most 4,194,304 bytes, and this source becomes a longer one"
        return self.at(path if path.startswith("/") else ""), CAUSES.get(cause, "the definition is not accepted")

    def of_Limit(self, what):
        """Tells a limit, at the first entry beyond it."""
        return self.at(next(self.beyond(what), "")), LIMITS.get(what, "there is too much of something")

    def beyond(self, what):
        """The paths of what is beyond a limit."""
        def all_of(*sections):
            return [(f"/{section}/{number}", it) for section in sections for number, it in enumerate(self.definition.get(section, []))]

        types = all_of("enums", "flags", "interfaces", "classes")
        counts = {"types": (types, 254), "programs": (all_of("programs"), 256), "places": ([*all_of("prototypes"), *self.object_paths()], 512),
                  "objects": (list(self.object_paths()), self.definition.get("limits", {}).get("objects", 64))}
        if what in counts:
            entries, most = counts[what]
            return (path for path, _ in entries[most:])
        sizes = {"properties": (self.model.properties, 64), "depth": (self.model.chain, 16),
                 "signals": (lambda name: [it for entry in self.model.chain(name) or [self.model.types[name][1]] for it in entry.get("signals", [])], 64)}
        size, most = sizes.get(what, (lambda name: [], 0))
        return (path for path, it in types if path.startswith(("/interfaces", "/classes")) and len(size(it["name"])) > most)

    def first(self, path):
        """Where the same name is first."""
        parts = path.rsplit("/", 2)
        if len(parts) == 3 and parts[1].isdigit():
            holder = self.definition
            for part in [it for it in parts[0].split("/") if it]:
                holder = holder[int(part) if isinstance(holder, list) else part]
            key = parts[2]
            for number, it in enumerate(holder[:int(parts[1])] if isinstance(holder, list) else []):
                if isinstance(it, dict) and canonical(str(it.get(key))) == canonical(str(holder[int(parts[1])].get(key))):
                    return f", in line {self.line(self.at(f'{parts[0]}/{number}/{key}'))}"
        return ""

    def program_path(self, name):
        """The path of a program."""
        return f"/programs/{[it['name'] for it in self.definition.get('programs', [])].index(name)}"

    def of_IllTyped(self, program, block, at, rule):
        """Tells an instruction that is not typed."""
        return self.at(f"{self.program_path(program)}/blocks/{block}/code/{at}"), RULES.get(rule, rule)

    def of_Unbalanced(self, program, block):
        """Tells a block in which `freeze` and `thaw` are no pairs."""
        path = f"{self.program_path(program)}/blocks/{block}"
        code = self.model.programs[program]["blocks"][int(block)]["code"]
        at = next((number for number, it in enumerate(code) if it[0] in ("freeze", "thaw")), 0)
        return self.at(f"{path}/code/{at}"), ("`freeze` and `thaw` come in pairs on one way, with no branch and no repeat between; both name the same "
                                              "variable, which is not written between")

    def of_FreezePaired(self, program, block, at):
        """Tells a `freeze` of an object that is in a pair."""
        return self.at(f"{self.program_path(program)}/blocks/{block}/code/{at}"), "an object whose property is in a pair is not frozen"

    def of_BindingRule(self, path, rule):
        """Tells a binding that breaks a rule."""
        return self.at(path), BIND_RULES.get(rule, rule)

    def of_SecondPair(self, path):
        """Tells a second pair of a property."""
        return self.at(path), "one of the two properties is in a `bidirectional` binding already, and one is the most"

    def of_HandlerSignature(self, path):
        """Tells a handler that does not fit its signal."""
        holder, entry = self.holder(path)
        if path.endswith("/constructed"):
            return self.at(path), self.fit(holder["constructed"], [f"some:{holder['name']}"], "none")
        if isinstance(entry, list):
            signal, program, of, own, entry = *entry, holder["name"], f"some:{holder['name']}", {}
        else:
            signal, program, of, own = entry["name"], entry["handler"], holder["class"], f"at:{holder['id']}"
        found = self.model.signal(of, signal)
        if found is None:
            return self.at(path), f"`{of}` has no signal `{signal}`{nearest(signal, self.model.signals(of))}"
        detail = entry.get("detail")
        if detail is not None and signal == "notify" and canonical(detail) not in self.model.properties(of):
            return self.at(path), f"`{of}` has no property `{detail}`{nearest(detail, self.model.properties(of))}"
        if detail is not None and signal != "notify" and "detailed" not in found.get("flags", []):
            return self.at(path), f"the signal `{signal}` takes no detail: it is not `detailed`"
        data = [f"at:{entry['object']}"] if "object" in entry else []
        args = found.get("params", [])
        given = [*data, *args, own] if entry.get("swapped", bool(data)) else [own, *args, *data]
        return self.at(path), self.fit(program, given, found.get("result", "none"))

    def holder(self, path):
        """The class or object at a path, and what the whole path leads to."""
        holder, value = None, self.definition
        for part in path.split("/")[1:]:
            if isinstance(value, dict) and ("class" in value or "name" in value):
                holder = value
            value = value[int(part) if isinstance(value, list) else part]
        return holder, value

    def fit(self, name, given, result):
        """What a program would be given, beside what it takes."""
        program = self.model.programs[name]
        return (f"`{name}` would be given ({', '.join(map(shown, given))}) and asked for `{shown(result)}`; it takes "
                f"({', '.join(map(shown, program.get('params', [])))}) and returns `{shown(program.get('result', 'none'))}`")

    def of_Cycle(self, *words):
        """Tells what may raise itself, at the first link."""
        links = [it.rpartition(" by ") for it in " ".join(words).split(", ")]
        costs, places = Costs(self.definition), []
        for number, (channel, _, what) in enumerate(links):
            places.append(self.link(costs, channel, what, links[(number + 1) % len(links)][0]))
        steps = [f"`{channel}` {'has a binding' if what == 'binding' else f'runs `{what}`'} (line {self.line(at)})"
                 for (channel, _, what), at in zip(links, places)]
        return places[0], (f"this may raise itself: {', which leads to '.join(steps)}, and so on without end. Whether a program tests something "
                           "first does not count. Take one of these away; two properties that follow each other are bound with `bidirectional`")

    def link(self, costs, channel, what, next_one):
        """Where a channel leads to the next one: an instruction or a binding."""
        if what == "binding":
            return self.binding(channel, next_one)
        sort, _, name = next_one.partition(" ")
        target = (sort, *name.split(".", 1)) if sort != "constructed" else (sort, name, None)
        for number, block in enumerate(self.model.programs[what]["blocks"]):
            for at, it in enumerate(block["code"]):
                if target in started(costs, it, costs.before[what][number][at]):
                    return self.at(f"{self.program_path(what)}/blocks/{number}/code/{at}")
        return self.at(self.program_path(what))

    def binding(self, channel, next_one):
        """Where the binding between two properties is."""
        ends = {channel.partition(" ")[2], next_one.partition(" ")[2]}
        for path, entry in self.object_paths():
            for number, it in enumerate(entry.get("properties", [])):
                own = f"{entry['id']}.{canonical(it['name'])}"
                if "bind" in it and own in ends and f"{it['bind']['source']}." in " ".join(ends):
                    return self.at(f"{path}/properties/{number}")
        return 0

    def object_paths(self):
        """The paths and entries of all objects."""
        left = [(f"/objects/{number}", it) for number, it in enumerate(self.definition.get("objects", []))]
        while left:
            path, entry = left.pop(0)
            yield path, entry
            left += [(f"{path}/children/{number}", it) for number, it in enumerate(entry.get("children", []))]

    def of_BoundTooLarge(self, *words):
        """Tells a bound that is too large, with its dearest path."""
        way = " ".join(words)
        costs = Costs(self.definition)
        channel, bound = next((channel, bound) for text, channel, bound in costs.bounds() if text == way)
        return self.way_at(channel), f"{bound:,} steps may follow `{way}`, and 1,000,000,000,000 are the most{self.path_text(costs, channel)}"

    def way_at(self, channel):
        """Where a way in is in the source."""
        if channel is None:
            return self.at("/objects/0")
        if channel[0] == "source":
            return self.at(self.program_path(channel[1]))
        for path, entry in self.object_paths():
            if entry["id"] == channel[1]:
                return self.at(path)
        ids = [it["id"] for it in self.model.prototypes]
        return self.at(f"/prototypes/{ids.index(channel[1])}")

    def path_text(self, costs, channel):
        """The path that costs most, a line for each part of it."""
        rows = costs.path(channel)
        return "; the path that costs most:" + "".join(f"\n  {'  ' * depth}line {self.line(self.part_at(what))}: {self.part_text(what)}: {steps:,} steps"
                                                       + (f", {times:,} times" if times != 1 else "") for depth, steps, times, what in rows)

    def part_at(self, what):
        """Where a part of a path is in the source."""
        sort, one, two = what
        if sort == "instruction":
            return self.at(f"{self.program_path(one)}/blocks/{two[0]}/code/{two[1]}")
        if sort == "program":
            return self.at(self.program_path(one))
        return self.way_at(one if sort == "channel" else ("made", one, None))

    def part_text(self, what):
        """A part of a path, in words."""
        sort, one, two = what
        if sort == "program":
            return f"program {one}"
        if sort == "made":
            return f"{one} is made"
        if sort == "channel":
            return f"constructed {one[1]}" if one[0] == "constructed" else f"{one[0]} {one[1]}.{one[2]}"
        at = self.part_at(what)
        return "`" + self.compiled.source[at:].split("\n")[0].split(";")[0].strip() + "`"


def started(costs, it, kinds):
    """The ways in that an instruction may start."""
    if it[0] in ("set", "notify"):
        return [("property", place, canonical(it[2])) for place in costs.places_of(kinds[it[1]])]
    if it[0] == "emit":
        return [("signal", place, canonical(it[3])) for place in costs.places_of(kinds[it[2]])]
    if it[0] == "new":
        return [("constructed", it[2], None), *costs.built(it[2])]
    if it[0] == "thaw":
        return [("property", *end) for end in costs.partners if end[0] in costs.places_of(kinds[it[1]])]
    return []
