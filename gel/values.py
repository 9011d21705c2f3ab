"""Values in programs: makes instructions that work them out."""
from .faults import Fault, listed, nearest
from .kinds import check_name, shown
from .model import canonical, is_object, may_be_null, may_transform
from .reader import WHOLE
from .tokens import node

SIGNS = {"+": "add", "-": "sub", "*": "mul", "and": "and", "or": "or"}
TESTS = {"==": "eq", "!=": "eq", "<": "lt", ">": "lt", "<=": "le", ">=": "le"}


class Values:
    """The part of `Code` that is about values. Each method returns the register of the value and its kind."""

    def value(self, it, want=None, name=None):
        """Works a value out. The kind is what is wanted there, if that is known; the name is the variable that it goes into."""
        return getattr(self, "value_" + it["sort"])(it, want, name)

    def fitted(self, it, want, name=None):
        """Works a value out that has to fit a kind."""
        register, kind = self.value(it, want, name)
        self.check_fits(kind, want, it.at)
        return register, kind

    def check_fits(self, kind, want, at):
        """Fails where a kind does not fit the one that is wanted."""
        if want is None or self.model.fits(kind, want):
            return
        more = ""
        if is_object(kind) and may_be_null(kind) and not may_be_null(want) and is_object(want):
            more = ": test it first, with `let NAME = .. else return;` or `if let`"
        elif may_transform(kind, want):
            more = f": write `.. as {shown(want)}`"
        raise Fault(at, f"`{shown(want)}` is wanted here, and this is `{shown(kind)}`{more}")

    def target(self, name):
        """The register for a result: that of the variable, or a new one."""
        return self.fresh() if name is None else self.named(name)

    def variable(self, name):
        """The register of a variable that holds something."""
        if name not in self.registers:
            raise Fault(name.at, f"there is no variable `{name}` here{nearest(name, self.registers)}; there is {listed(self.registers, 'none')}")
        register = self.registers[name]
        if self.kinds[register] == "unset":
            raise Fault(name.at, f"`{name}` holds nothing here, or not the same kind on each way that leads here")
        return register, self.kinds[register]

    def value_name(self, it, want, name):
        """A variable, or a member of an enum or a flags type."""
        word = it["name"]
        if word not in self.registers and want and want.startswith(("enum:", "flags:")):
            return self.constant(node(it.at, sort="words", value=[word]), want, it.at, name)
        register, kind = self.variable(word)
        if name is None:
            return register, kind
        to = self.named(name)
        self.put(it.at, "move", to, register)
        return to, kind

    def value_constant(self, it, want, name):
        """A constant, of the kind that it says or that is wanted."""
        kind = None if it["kind"] is None else self.all_kinds.kind(it["kind"], "property" if it["kind"]["is_null"] else "register")
        if kind is not None and kind.startswith("some:"):
            raise Fault(it.at, f"the only constant of objects is null: write `{shown(kind)}?(null)`")
        return self.constant(it["value"], kind or self.guessed(it["value"], want), it.at, name)

    def guessed(self, constant, want):
        """The kind of a constant that does not say it."""
        sort, is_member = constant["sort"], bool(want) and want.startswith(("enum:", "flags:"))
        if sort in ("true", "false"):
            return "bool"
        if sort == "text":
            return want if is_member else "text"
        if sort == "number":
            return want if want in WHOLE or is_member else "int"
        if sort == "null":
            if want == "text" or want and is_object(want) and may_be_null(want):
                return self.nullable(want)
            if want:
                raise Fault(constant.at, f"`{shown(want)}` is wanted here, which is never null")
            raise Fault(constant.at, "say of which kind null is: `text(null)`, or `Box?(null)` for an object of a class `Box`")
        if is_member:
            return want
        raise Fault(constant.at, f"there is no variable `{constant['value'][0]}` here{nearest(constant['value'][0], self.registers)}")

    def nullable(self, kind):
        """The kind of null where this kind is wanted."""
        return "object:" + self.model.class_of(kind) if kind.startswith("at?:") else kind

    def constant(self, written, kind, at, name):
        """Puts a constant into a register."""
        value = self.all_kinds.value(written, kind)
        to = self.target(name)
        self.put(at, "const", to, str(kind), value)
        return to, str(kind)

    def object(self, it):
        """The register of an object that is not null."""
        register, kind = self.value(it)
        if not is_object(kind):
            raise Fault(it.at, f"an object is wanted here, and this is `{shown(kind)}`")
        if may_be_null(kind):
            raise Fault(it.at, f"this may be null (`{shown(kind)}`): test it first, with `let NAME = .. else return;` or `if let NAME = .. {{`")
        return register, kind

    def property_of(self, it, flag):
        """The register of the object, and the property that is read, set or notified."""
        register, kind = self.object(it["value"])
        of = self.model.class_of(kind)
        found = self.model.properties(of).get(canonical(it["name"]))
        if found is None:
            names = self.model.properties(of)
            raise Fault(it["name"].at, f"`{of}` has no property `{it['name']}`{nearest(it['name'], names)}; it has {listed(names, 'none')}")
        flags = found.get("flags", ["readable", "writable"])
        if flag is not None and flag not in flags:
            raise Fault(it["name"].at, f"the property `{it['name']}` is not {flag}")
        if flag == "writable" and "construct-only" in flags:
            raise Fault(it["name"].at, f"the property `{it['name']}` is set as its object is made, and never after that")
        return register, found

    def value_get(self, it, want, name):
        """Reads a property."""
        register, found = self.property_of(it, "readable")
        to = self.target(name)
        self.put(it.at, "get", to, register, it["name"])
        return to, found["kind"]

    def value_call(self, it, want, name):
        """Calls a method of a peer."""
        register, kind = self.object(it["value"])
        of = self.model.class_of(kind)
        methods = self.model.methods(of)
        if methods is None:
            raise Fault(it["name"].at, f"`{of}` has no shape, so it has no methods; a signal is emitted with `emit NAME.SIGNAL(..)`")
        if it["name"] not in methods:
            raise Fault(it["name"].at, f"`{of}` has no method `{it['name']}`{nearest(it['name'], methods)}; it has {listed(methods, 'none')}")
        found = methods[it["name"]]
        args = self.arguments(it["args"], found.get("params", []), it["name"])
        to = self.target(name)
        self.put(it.at, "call", to, register, it["name"], args)
        return to, found["result"]

    def arguments(self, args, params, name):
        """Works arguments out. Fails where there are more or fewer than are wanted."""
        if len(args) != len(params):
            raise Fault(name.at, f"`{name}` takes {len(params)} arguments ({', '.join(map(shown, params)) or 'none'}), and {len(args)} are given")
        return [self.fitted(it, kind)[0] for it, kind in zip(args, params)]

    def signal_of(self, it):
        """The register of the object, its kind and type, and its signal."""
        register, kind = self.object(it["value"])
        of = self.model.class_of(kind)
        found = self.model.signal(of, it["signal"])
        if found is None:
            names = self.model.signals(of)
            raise Fault(it["signal"].at, f"`{of}` has no signal `{it['signal']}`{nearest(it['signal'], names)}; it has {listed(names, 'none')}")
        if it["detail"] is not None:
            check_name(it["detail"], "a detail")
            if it["signal"] != "notify" and "detailed" not in found.get("flags", []):
                raise Fault(it["detail"].at, f"the signal `{it['signal']}` takes no detail: it is not `detailed`")
        return register, kind, of, found

    def value_emit(self, it, want, name):
        """Emits a signal for its result."""
        return self.emission(it, name, True)

    def emission(self, it, name, is_wanted):
        """Emits a signal, with or without a register for its result."""
        if it["signal"] == "notify":
            raise Fault(it["signal"].at, "`notify` is not emitted: write `notify NAME.PROPERTY;`")
        register, _, _, found = self.signal_of(it)
        result = found.get("result", "none")
        if is_wanted and result == "none":
            raise Fault(it["signal"].at, f"the signal `{it['signal']}` has no result")
        args = self.arguments(it["args"], found.get("params", []), it["signal"])
        to = self.target(name) if is_wanted else None
        self.put(it.at, "emit", to, register, it["signal"], it["detail"], args)
        return to, result

    def check_program(self, name):
        """Fails where there is no such program."""
        if name not in self.model.programs:
            raise Fault(name.at, f"there is no program `{name}`{nearest(name, self.model.programs)}")

    def check_given(self, name, given, result):
        """Fails where a program does not take what it would be given, or returns something else."""
        self.check_program(name)
        program = self.model.programs[name]
        params, own = program.get("params", []), program.get("result", "none")
        takes = len(params) == len(given) and all(self.model.fits(one, two) for one, two in zip(given, params))
        gives = own == result or "none" not in (own, result) and self.model.fits(own, result)
        if not takes or not gives:
            raise Fault(name.at, f"`{name}` would be given ({', '.join(map(shown, given))}) and asked for `{shown(result)}`; "
                                 f"it takes ({', '.join(map(shown, params))}) and returns `{shown(own)}`")

    def value_connect(self, it, want, name):
        """Connects a program."""
        register, kind, of, found = self.signal_of(it)
        if it["signal"] == "notify" and it["detail"] is not None and canonical(it["detail"]) not in self.model.properties(of):
            names = self.model.properties(of)
            raise Fault(it["detail"].at, f"`{of}` has no property `{it['detail']}`{nearest(it['detail'], names)}")
        data, data_kind = (None, None) if it["data"]["name"] is None else self.object(it["data"]["name"])
        extra = [] if data is None else [data_kind]
        args = found.get("params", [])
        given = [*extra, *args, kind] if it["data"]["is_first"] else [kind, *args, *extra]
        self.check_given(it["program"], given, found.get("result", "none"))
        options = [word for word in ("after",) if word in it["data"]["words"]] + (["swapped"] if it["data"]["is_first"] else [])
        to = self.target(name)
        self.put(it.at, "connect", to, register, it["signal"], it["detail"], it["program"], options, data)
        return to, "bool"

    def value_idle(self, it, want, name):
        """Attaches a source."""
        data, kind = (None, None) if it["data"] is None else self.object(it["data"])
        self.check_given(it["program"], [] if data is None else [kind], "bool")
        to = self.target(name)
        numbers = [it["priority"]] if it["interval"] is None else [it["priority"], it["interval"]]
        self.put(it.at, it["sort"], to, it["program"], *numbers, data)
        return to, "bool"

    value_timeout = value_idle

    def value_object(self, it, want, name):
        """The object of an id."""
        if it["name"] not in self.model.object_ids:
            why = "is a prototype: `new` makes an object of it" if it["name"] in self.model.places else \
                f"is no object{nearest(it['name'], self.model.object_ids)}"
            raise Fault(it["name"].at, f"`{it['name']}` {why}")
        to = self.target(name)
        self.put(it.at, "object", to, it["name"])
        return to, "at?:" + it["name"]

    def value_new(self, it, want, name):
        """A new object of a prototype."""
        prototypes = [one["id"] for one in self.model.prototypes]
        if it["name"] not in prototypes:
            raise Fault(it["name"].at, f"there is no prototype `{it['name']}`{nearest(it['name'], prototypes)}")
        to = self.target(name)
        self.put(it.at, "new", to, it["name"])
        return to, "at?:" + it["name"]

    def value_adopt(self, it, want, name):
        """Makes one object the child of another."""
        parent, child = self.object(it["parent"])[0], self.object(it["child"])[0]
        to = self.target(name)
        self.put(it.at, "adopt", to, parent, child)
        return to, "bool"

    def value_same(self, it, want, name):
        """Whether two values are the same, whatever they are."""
        return self.comparison(it, it["first"], it["second"], "same", name)

    def value_as(self, it, want, name):
        """Converts a value."""
        kind = self.all_kinds.kind(it["kind"], "property")
        register, held = self.value(it["value"])
        if is_object(held) or is_object(kind) or not may_transform(held, kind):
            raise Fault(it.at, f"nothing makes `{shown(kind)}` of `{shown(held)}`")
        to = self.target(name)
        self.put(it.at, "convert", to, register, str(kind))
        return to, str(kind)

    def value_not(self, it, want, name):
        """The opposite of a truth value."""
        register, _ = self.fitted(it["value"], "bool")
        to = self.target(name)
        self.put(it.at, "not", to, register)
        return to, "bool"

    def value_two(self, it, want, name):
        """Two values with a sign or a word between."""
        sign = it["sign"]
        if sign in TESTS:
            return self.comparison(it, it["first"], it["second"], sign, name)
        if sign in ("and", "or"):
            first, second = self.fitted(it["first"], "bool")[0], self.fitted(it["second"], "bool")[0]
            to = self.target(name)
            self.put(it.at, sign, to, first, second)
            return to, "bool"
        first, second, kind = self.both(it["first"], it["second"], want)
        if kind not in WHOLE and not (kind == "text" and sign == "+"):
            raise Fault(it.at, f"`{sign}` takes two whole numbers of one kind" + (", or two texts" if sign == "+" else "") +
                        f", and this is `{shown(kind)}`")
        to = self.target(name)
        self.put(it.at, "join" if kind == "text" else SIGNS[sign], to, first, second)
        return to, kind

    def both(self, first, second, want):
        """Two operands of one kind, from the left; a constant takes the kind of the other."""
        if first["sort"] == "constant" and first["kind"] is None:
            want = self.kind_of(second) or want
        one, kind = self.value(first, want)
        other, kind_two = self.value(second, kind)
        if kind != kind_two and not (is_object(kind) and is_object(kind_two)):
            raise Fault(second.at, f"`{shown(kind)}` is wanted here, as on the left, and this is `{shown(kind_two)}`"
                        + (f": write `.. as {shown(kind)}`" if may_transform(kind_two, kind) else ""))
        return one, other, kind

    def kind_of(self, it):
        """The kind of a value, without working it out, where that is easily seen."""
        sort = it["sort"]
        if sort == "name" and it["name"] in self.registers:
            return self.kinds[self.registers[it["name"]]]
        if sort == "as":
            return self.all_kinds.kind(it["kind"], "property")
        if sort == "get":
            kind = self.kind_of(it["value"])
            if kind and is_object(kind) and canonical(it["name"]) in self.model.properties(self.model.class_of(kind)):
                return self.model.properties(self.model.class_of(kind))[canonical(it["name"])]["kind"]
        if sort == "two" and it["sign"] in ("+", "-", "*"):
            return self.kind_of(it["first"]) or self.kind_of(it["second"])
        return None

    def comparison(self, it, first, second, sign, name):
        """Compares two values."""
        if sign in ("==", "!=") and second["sort"] == "constant" and second["value"]["sort"] == "null" and second["kind"] is None:
            raise Fault(it.at, "null is tested with `if VALUE is null {`, `if let NAME = VALUE {` or `let NAME = VALUE else return;`")
        one, other, kind = self.both(first, second, None)
        to = self.target(name)
        if kind in WHOLE and sign != "same":
            self.put(it.at, "cmp", to, TESTS[sign], *((other, one) if sign in (">", ">=") else (one, other)))
        elif sign in ("==", "!=", "same"):
            self.put(it.at, "same", to, one, other)
        else:
            raise Fault(it.at, f"only whole numbers are less or greater, and this is `{shown(kind)}`")
        if sign == "!=":
            self.put(it.at, "not", to, to)
        return to, "bool"
