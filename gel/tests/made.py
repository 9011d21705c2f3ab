"""Definitions that are made up: the same seed gives the same definition. Most of them are accepted."""
import json
import random

from ..model import Model, all_objects, is_object, may_be_null, not_null
from ..registers import result_kind

WHOLE = ("int", "uint", "int64", "uint64")
NAMES = ["value", "label-text", "a_b", "on", "signal", "object", "text", "x1-2", "count", "repeat", "new", "is-so"]
IDS = ["box", "1a", "a--b", "-x", "true", "none", "row_2", "let", "_", "new", "at-9"]
KINDS = [*WHOLE, "bool", "text"]


def made(seed):
    """The definition of a seed."""
    return Maker(random.Random(seed)).whole()


def events(definition, seed):
    """The lines of events for a definition: sets, emissions, reads, turns and releases."""
    maker = Maker(random.Random(seed))
    maker.model, lines = Model(definition), []
    for it in maker.model.objects:
        for name, found in maker.model.properties(it["class"]).items():
            lines += [{"set": [it["id"], name, maker.value(found["kind"], False)]}, {"get": [it["id"], name]}]
        for name, found in maker.model.signals(it["class"]).items():
            lines.append({"emit": [it["id"], name, [maker.value(kind, False) for kind in found["params"]]]})
    maker.rng.shuffle(lines)
    lines += [{"turn": 10}, *[{"release": it["id"]} for it in maker.model.objects[::2]], {"turn": 20}]
    return "".join(json.dumps(line) + "\n" for line in lines)


class Maker:
    """Makes one definition."""

    def __init__(self, rng):
        self.rng, self.count = rng, 0
        self.tree = {"format": rng.choice([1, 2, 2]), "enums": [], "flags": [], "interfaces": [], "shapes": [], "classes": [], "programs": [],
                     "prototypes": [], "objects": []}

    def whole(self):
        rng, tree = self.rng, self.tree
        if rng.random() < 0.7:
            tree["limits"] = {"objects": rng.randrange(12, 60), "handlers": rng.randrange(3)}
        for section, name in (("enums", "Mood"), ("flags", "Style")):
            for number in range(rng.randrange(3)):
                tree[section].append(self.members(section, f"{name}{number}"))
        if rng.random() < 0.5:
            tree["shapes"] = [{"name": "Tally", "methods": [{"name": "add", "params": ["int64"], "result": "int64"}, {"name": "read", "result": "int64"}]}]
        for number in range(rng.randrange(3)):
            tree["interfaces"].append({"name": f"Face{number}", "properties": self.properties(1, f"f{number}"), "signals": self.signals(f"fs{number}")})
        for number in range(rng.randrange(2, 5)):
            tree["classes"].append(self.type(number))
        self.places()
        self.model = Model(tree)
        self.values()
        self.handlers()
        return tree

    def one(self, entries):
        """One of some entries."""
        return self.rng.choice(entries)

    def members(self, section, name):
        """An enum or a flags type."""
        numbers = self.rng.sample(range(-9, 9), 3) if section == "enums" else [1, 2, 12]
        words = self.rng.sample(IDS, 3)
        return {"name": name, "members": [[f"M_{word}", self.one([word, f"M_{word}"]), number] for word, number in zip(words, numbers)]}

    def kind(self, is_result=False):
        """A kind of a property, or of a result."""
        kinds = [*KINDS, *[f"enum:{it['name']}" for it in self.tree["enums"]], *[f"flags:{it['name']}" for it in self.tree["flags"]], "object:GObject"]
        kinds += [f"object:{it['name']}" for it in (*self.tree["interfaces"], *self.tree["classes"])]
        return "none" if is_result and self.rng.random() < 0.6 else self.one(kinds)

    def properties(self, most, prefix):
        """Some properties."""
        found = []
        for name in self.rng.sample(NAMES, self.rng.randrange(most + 1)):
            it = {"name": f"{prefix}-{name}", "kind": self.kind()}
            if it["kind"] in WHOLE and self.rng.random() < 0.5:
                it.update(self.rng.choice([{"min": 0}, {"max": 99}, {"min": 0, "max": 9, "default": 3}]))
            elif it["kind"] == "text" and self.rng.random() < 0.5:
                it["default"] = self.one(["", "a \"b\"\n", "é // {;}", None])
            elif it["kind"].startswith("object:") and self.rng.random() < 0.4:
                it["weak"] = True
            if self.rng.random() < 0.4:
                it["flags"] = self.one([["readable"], ["writable"], ["readable", "writable", "explicit-notify", "lax-validation"],
                                        ["writable", "construct"], ["readable", "writable", "construct-only"], ["writable", "readable"]])
            found.append(it)
        return found

    def signals(self, prefix):
        """Some signals."""
        found = []
        for number in range(self.rng.randrange(3)):
            it = {"name": f"{prefix}-s{number}", "params": [self.kind() for _ in range(self.rng.randrange(3))], "result": self.kind(True)}
            if self.rng.random() < 0.5:
                it["flags"] = self.one([[], ["run-first"], ["run-last", "detailed"], ["detailed"], ["run-first", "run-last", "run-cleanup"]])
            if it["result"] != "none" and self.rng.random() < 0.4:
                it["accumulator"] = "true-handled" if it["result"] == "bool" else "first-wins"
            found.append(it)
        return found

    def type(self, number):
        """A class."""
        rng, name = self.rng, f"Class{number}"
        it = {"name": name, "properties": self.properties(4, f"p{number}"), "signals": self.signals(f"c{number}")}
        if rng.random() < 0.6:
            it["parent"] = self.one(["GObject", "GInitiallyUnowned", *[one["name"] for one in self.tree["classes"] if not one.get("final")]])
        inherited = [face for one in self.chain(it.get("parent")) for face in one.get("implements", [])]
        faces = [one for one in self.tree["interfaces"] if rng.random() < 0.4 and one["name"] not in inherited]
        if faces:
            it["implements"] = [one["name"] for one in faces]
            it["properties"] += [dict(one) for face in faces for one in face["properties"]]
        if self.tree["shapes"] and rng.random() < 0.3 and not any("shape" in one for one in self.chain(it.get("parent"))):
            it["shape"] = "Tally"
        return it

    def chain(self, name):
        """The classes that are declared, from one up."""
        by_name = {it["name"]: it for it in self.tree["classes"]}
        while name in by_name:
            yield by_name[name]
            name = by_name[name].get("parent")

    def places(self):
        """Objects and prototypes."""
        ids = self.rng.sample(IDS, len(IDS))
        names = ["GObject", *[it["name"] for it in self.tree["classes"]]]
        holders = [self.tree["objects"]]
        for number in range(self.rng.randrange(2, 8)):
            it = {"id": ids[number], "class": self.one(names)}
            if number > 4:
                self.tree["prototypes"].append(it)
            else:
                it["children"] = []
                self.one(holders).append(it)
                holders.append(it["children"])
            if any("shape" in one for one in self.chain(it["class"])):
                it.update({"peers": [f"p{number}"]} if number > 4 else {"peer": f"p{number}"})

    def value(self, kind, is_prototype=True):
        """A value of a kind in JSON."""
        sort, _, name = kind.partition(":")
        if kind in WHOLE:
            return self.rng.randrange(0, 10)
        if sort in ("enum", "flags"):
            members = self.model.types[name][1]["members"]
            words = [it[0] for it in members] + [it[1] for it in members] + [it[2] for it in members]
            return self.one(words + (["", f"{words[0]} | {words[1]}", f"{words[0]}|{words[2]}"] if sort == "flags" else []))
        if sort == "object":
            fit = [it["id"] for it in self.model.objects if self.model.is_a(it["class"], name)]
            return None if is_prototype or not fit else self.one([None, *fit])
        return self.one([True, False]) if kind == "bool" else self.one(["a", "", None, "\u0007\\ \t\"", "null"])

    def values(self):
        """Given values and bindings."""
        for it in self.model.places.values():
            is_object_ = it["id"] in self.model.object_ids
            it["properties"] = []
            for name, found in self.model.properties(it["class"]).items():
                flags = found.get("flags", ["readable", "writable"])
                if "writable" not in flags or self.rng.random() < 0.6:
                    continue
                source = self.one(self.model.objects)
                if is_object_ and "construct-only" not in flags and self.rng.random() < 0.3 and name in self.model.properties(source["class"]):
                    bind = {"source": source["id"], "flags": self.rng.sample(["sync-create", "bidirectional"], self.rng.randrange(2))}
                    if self.rng.random() < 0.5:
                        bind.update(name=f"b{len(it['properties'])}-{it['id']}"[:60], property=name.replace("-", "_"))
                    it["properties"].append({"name": name, "bind": bind})
                elif "construct-only" not in flags or not found["kind"].startswith("object:"):
                    it["properties"].append({"name": name, "value": self.value(found["kind"], not is_object_)})

    def handlers(self):
        """Programs, and the handlers that run them."""
        for it in self.tree["classes"]:
            if self.rng.random() < 0.3:
                it["constructed"] = self.program([f"some:{it['name']}"], "none")
            for signal in it["signals"]:
                if self.rng.random() < 0.4:
                    it.setdefault("class-handlers", []).append([signal["name"], self.program([f"some:{it['name']}", *signal["params"]], signal["result"])])
        for it in all_objects(self.tree["objects"]):
            for signal in (*self.model.signals(it["class"]).values(), {"name": "notify", "params": [], "result": "none"}):
                if self.rng.random() < 0.5:
                    it.setdefault("signals", []).append(self.handler(it, signal))

    def handler(self, it, signal):
        """A handler of an object, with its program."""
        entry, own, args = {"name": signal["name"]}, f"at:{it['id']}", signal["params"]
        data = self.one(self.model.objects) if self.rng.random() < 0.4 else None
        if data:
            entry["object"] = data["id"]
        if self.rng.random() < 0.4:
            entry["swapped"] = self.one([True, False])
        if self.rng.random() < 0.3:
            entry["after"] = self.one([True, False])
        names = list(self.model.properties(it["class"]))
        if signal["name"] == "notify" and names and self.rng.random() < 0.7:
            entry["detail"] = self.one(names)
        elif "detailed" in signal.get("flags", []) and self.rng.random() < 0.5:
            entry["detail"] = self.one(IDS)
        extra = [f"at:{data['id']}"] if data else []
        given = [*extra, *args, own] if entry.get("swapped", bool(data)) else [own, *args, *extra]
        entry["handler"] = self.program(given, signal["result"])
        return entry

    def program(self, params, result):
        """Makes a program, and returns its name."""
        self.count += 1
        name = f"{self.one(['do', 'on', 'let', '9', 'x-y'])}-{self.count}"
        made = Body(self, params, result).whole()
        self.tree["programs"].append({"name": name, "params": params, "result": result, **made})
        return name


class Body:
    """Makes the blocks of one program."""

    def __init__(self, maker, params, result):
        self.maker, self.rng, self.model, self.params, self.result = maker, maker.rng, maker.model, params, result
        self.registers = min(32, len(params) + self.rng.randrange(1, 7))
        self.entries = [[*params, *["unset"] * (self.registers - len(params))]]
        self.blocks = []

    def whole(self):
        while len(self.blocks) < len(self.entries):
            self.blocks.append(self.block(len(self.blocks)))
        return {"registers": self.registers, "blocks": self.blocks}

    def block(self, number):
        """One block."""
        self.kinds, self.code = list(self.entries[number]), []
        made = {"in": list(self.kinds)} if number else {}
        is_repeated = self.maker.tree["format"] == 2 and self.rng.random() < 0.15
        for _ in range(self.rng.randrange(6)):
            self.instruction(self.rng.choice(range(14)))
        if is_repeated and all(self.model.fits(one, two) for one, two in zip(self.kinds, self.entries[number])):
            made["repeat"] = self.rng.randrange(1, 5)
            self.code.append(["jump", self.target(self.kinds, number)])
        else:
            self.end(number)
        made["code"] = self.code
        return made

    def put(self, *instruction):
        """Adds an instruction that writes nothing."""
        self.code.append(list(instruction))

    def held(self, test):
        """The registers that hold a kind that passes a test."""
        return [at for at, kind in enumerate(self.kinds) if kind != "unset" and test(kind)]

    def write(self, *instruction):
        """Adds an instruction that writes a register."""
        made = list(instruction)
        kind = result_kind(self.model, made, self.kinds)
        self.code.append(made)
        self.kinds[made[1]] = kind

    def instruction(self, way):
        """Adds an instruction of one of several ways, if it can be typed."""
        to, rng = self.rng.randrange(self.registers), self.rng
        whole = self.held(lambda it: it in WHOLE)
        bools, texts = self.held(lambda it: it == "bool"), self.held(lambda it: it == "text")
        objects = self.held(lambda it: is_object(it) and not may_be_null(it))
        if way < 3:
            kind = self.maker.kind()
            self.write("const", to, kind, self.maker.value(kind))
        elif way == 3 and whole:
            one = rng.choice(whole)
            two = rng.choice([it for it in whole if self.kinds[it] == self.kinds[one]])
            self.write(rng.choice(["add", "sub", "mul"]), to, one, two) if rng.random() < 0.5 else self.write("cmp", to, rng.choice(["eq", "lt", "le"]), one, two)
        elif way == 4 and bools:
            one, two = rng.choice(bools), rng.choice(bools)
            self.write("not", to, one) if rng.random() < 0.4 else self.write(rng.choice(["and", "or"]), to, one, two)
        elif way == 5 and texts:
            self.write("join", to, rng.choice(texts), rng.choice(texts))
        elif way == 6 and whole:
            self.write("convert", to, rng.choice(whole), rng.choice(["text", "int64", "bool"]))
        elif way == 7 and self.held(bool):
            one = rng.choice(self.held(bool))
            self.write("move", to, one) if rng.random() < 0.7 else self.write("same", to, one, one)
        elif way == 8:
            places = [("new" if it["id"] not in self.model.object_ids else "object", it["id"]) for it in self.model.places.values()]
            word, name = rng.choice(places)
            self.write(word, to, name)
        elif objects:
            self.on_object(way, rng.choice(objects), to)

    def on_object(self, way, one, to):
        """Adds an instruction on an object."""
        of = self.model.class_of(self.kinds[one])
        found = [it for it in self.model.properties(of).values()]
        if way in (9, 10) and found:
            it = self.rng.choice(found)
            flags = it.get("flags", ["readable", "writable"])
            fit = self.held(lambda kind: self.model.fits(kind, it["kind"]))
            if way == 9 and "readable" in flags:
                self.write("get", to, one, it["name"])
            elif "writable" in flags and "construct-only" not in flags and fit and self.rng.random() < 0.2:
                self.put("set", one, it["name"], self.rng.choice(fit))
        elif way == 11:
            self.put(self.rng.choice(["sink", "orphan"]), one)
        elif way == 12 and self.model.methods(of):
            self.write("call", to, one, "read", [])
        elif way == 13:
            self.put("freeze", one)
            self.put("thaw", one)

    def target(self, kinds, number):
        """A block that may be led to with these kinds: a new one, or one that is there."""
        there = [at for at in range(number + 1, len(self.entries)) if all(self.model.fits(one, two) for one, two in zip(kinds, self.entries[at]))]
        if there and self.rng.random() < 0.4 or len(self.entries) > 8 and there:
            return self.rng.choice(there)
        keeps = self.rng.choice([1.0, 0.7])
        self.entries.append([kind if self.rng.random() < keeps else "unset" for kind in kinds])
        return len(self.entries) - 1

    def end(self, number):
        """Ends the block."""
        bools = self.held(lambda it: it == "bool")
        nulls = self.held(lambda it: it == "text" or is_object(it))
        if len(self.entries) < 9 and bools and self.rng.random() < 0.5:
            self.put("if", self.rng.choice(bools), self.target(self.kinds, number), self.target(self.kinds, number))
        elif len(self.entries) < 9 and nulls and self.rng.random() < 0.5:
            one = self.rng.choice(nulls)
            second = [not_null(kind) if at == one and is_object(kind) else kind for at, kind in enumerate(self.kinds)]
            self.put("ifnull", one, self.target(self.kinds, number), self.target(second, number))
        elif number + 1 < len(self.entries) and self.rng.random() < 0.5 or len(self.entries) < 9 and self.rng.random() < 0.2:
            self.put("jump", self.target(self.kinds, number))
        elif self.result == "none":
            self.put("return", None)
        else:
            self.give()

    def give(self):
        """Returns a value of the result's kind."""
        fit = self.held(lambda kind: self.model.fits(kind, self.result))
        if not fit:
            to = self.rng.randrange(self.registers)
            self.write("const", to, self.result, self.maker.value(self.result))
            fit = [to]
        self.put("return", self.rng.choice(fit))
