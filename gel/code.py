"""Programs with statements: makes blocks of them."""
from .faults import Fault, listed, nearest
from .kinds import shown
from .model import is_object, not_null
from .registers import read, written
from .values import Values


class TooMany(Exception):
    """More than 32 registers are wanted."""


class Block:
    """A block while it is made: its entry's kinds, its instructions with their places, and how often it is repeated."""

    def __init__(self, at, kinds):
        self.at, self.entry, self.code, self.places, self.repeat, self.end = at, list(kinds), [], [], None, None
        self.label, self.is_join = None, False


class Code(Values):
    """The blocks of one program. Where registers are spare, those of values that are done with are used again."""

    def __init__(self, kinds, program, is_spare):
        self.all_kinds, self.model, self.program, self.is_spare = kinds, kinds.model, program, is_spare
        self.params = program["params"]
        self.registers = {name: number for number, name in enumerate(program["names"]) if name is not None}
        self.kinds, self.declared = [*self.params, *["unset"] * 32], [*self.params, *["unset"] * 32]
        self.count, self.busy = len(self.params), set(range(len(self.params)))
        self.block = Block(program["name"].at, self.kinds)
        self.blocks, self.arrived, self.labels, self.in_repeat = [self.block], {}, {}, False

    def whole(self):
        """The blocks, and where each of their instructions is in the source."""
        if self.count > 32:
            raise Fault(self.program["name"].at, "a program takes 32 parameters at most")
        self.run(self.program["body"])
        if self.block is not None:
            if self.program.get("result", "none") != "none":
                raise Fault(self.program["end"], f"`{self.program['name']}` returns `{shown(self.program['result'])}`: `return VALUE;` is wanted before this")
            self.put(self.program["end"], "return", None)
        self.program["registers"] = max(self.count, self.program.get("registers", 0))
        entries = self.entries()
        found, places = [], {}
        for number, block in enumerate(self.blocks):
            made = {"in": entries[number]} if entries[number] else {}
            if block.repeat is not None:
                made["repeat"] = block.repeat
            made["code"] = [self.numbered(it) for it in block.code if it[0] != "keep"]
            found.append(made)
            places[number] = [block.at, *[at for at, it in zip(block.places, block.code) if it[0] != "keep"]]
        return found, places

    def numbered(self, instruction):
        """The instruction with the numbers of blocks for their labels."""
        return [self.number_of(it) if isinstance(it, Label) else it for it in instruction]

    def number_of(self, label):
        """The number of the block of a label."""
        while label.becomes is not None:
            label = label.becomes
        return self.labels[label]

    # blocks

    def put(self, at, word, *operands):
        """Adds an instruction to the block."""
        self.block.code.append([word, *operands])
        self.block.places.append(at)

    def end(self, at, word, *operands):
        """Ends the block."""
        self.put(at, word, *operands)
        self.block = None

    def arrive(self, label, kinds=None):
        """A way leads to the label, with these kinds."""
        self.arrived.setdefault(label, []).append((list(kinds or self.kinds), list(self.declared)))

    def begin(self, label, at):
        """Begins the block of a label, with what is known on all ways to it."""
        ways = self.arrived[label]
        kinds, declared = ways[0]
        for other, other_declared in ways[1:]:
            declared = [one if one == two else "unset" for one, two in zip(declared, other_declared)]
            kinds = [self.met(one, two, of) for one, two, of in zip(kinds, other, declared)]
        self.kinds, self.declared = list(kinds), list(declared)
        self.labels[label] = len(self.blocks)
        self.block = Block(at, self.kinds)
        self.block.label = label
        self.blocks.append(self.block)

    def met(self, one, two, declared):
        """The kind of a register to which two ways lead."""
        if one == two or self.model.fits(one, two) and two != "unset":
            return two
        if self.model.fits(two, one) and one != "unset":
            return one
        both = "unset" not in (one, two, declared) and self.model.fits(one, declared) and self.model.fits(two, declared)
        return declared if both else "unset"

    def entries(self):
        """The `in` of each block: the registers that are read before they are written, there or later, or that are kept."""
        live = [set() for _ in self.blocks]
        for number in range(len(self.blocks) - 1, -1, -1):
            block = self.blocks[number]
            after = set().union(*[live[self.number_of(it)] for it in block.code[-1] if isinstance(it, Label)], set())
            live[number] = self.live(block, after)
            if block.repeat is not None:
                live[number] = self.live(block, after | live[number])
                self.check_passes(block, live[number] if number else range(len(self.params)))
        return [self.entry(block, live[number]) if number else [] for number, block in enumerate(self.blocks)]

    @staticmethod
    def live(block, after):
        """The registers that are read in a block or after it, before they are written."""
        found = set(after)
        for instruction in reversed(block.code):
            if instruction[0] == "keep":
                found.add(instruction[1])
                continue
            found.discard(written(instruction))
            found.update(read(instruction))
        return found

    def entry(self, block, live):
        """The `in` of a block: the kinds of these registers."""
        kinds = [kind if number in live else "unset" for number, kind in enumerate(block.entry)]
        while kinds and kinds[-1] == "unset":
            kinds.pop()
        return kinds

    def check_passes(self, block, registers):
        """Fails where a register holds another kind as a pass ends than as it begins."""
        for number in registers:
            if not self.model.fits(block.end[number], block.entry[number]):
                name = next((name for name, it in self.registers.items() if it == number), "a value")
                raise Fault(block.at, f"`{name}` is `{shown(block.entry[number])}` as a pass begins and `{shown(block.end[number])}` as it ends; "
                                      "it has to be the same")

    # statements

    def run(self, body):
        """Makes the instructions of statements."""
        for statement in body:
            if self.block is None:
                raise Fault(statement.at, "nothing leads here: the statement before this one ends the program on all ways")
            self.done()
            getattr(self, "run_" + statement["sort"])(statement)

    def done(self):
        """Between statements only variables are held, if registers are spare."""
        if self.is_spare:
            self.busy = {*range(len(self.params)), *self.registers.values()}

    def fresh(self):
        """A register for a value."""
        free = next((it for it in range(32) if it not in self.busy), 32) if self.is_spare else self.count
        if free >= 32:
            raise TooMany
        self.busy.add(free)
        self.count = max(self.count, free + 1)
        return free

    def named(self, name):
        """The register of a variable: a name has the same one in the whole program."""
        if name not in self.registers:
            self.registers[name] = self.fresh()
        return self.registers[name]

    def hold(self, register, kind, declared=None):
        """Notes what a register holds, and which kind its variable is of."""
        self.kinds[register] = kind
        if declared is not None:
            self.declared[register] = declared

    def run_let(self, it):
        """Makes a variable. With `else`, the program ends where it would be null."""
        kind = None if it["kind"] is None else self.all_kinds.kind(it["kind"], "register")
        register, held = self.fitted(it["value"], kind, it["name"])
        self.hold(register, held, kind or held)
        if it["otherwise"] is not None:
            self.check_null(held, it["value"].at)
            no, yes = Label(), Label()
            self.arrive(no)
            self.arrive(yes, self.kinds_with(register, not_null(held)))
            self.end(it.at, "ifnull", register, no, yes)
            self.begin(no, it.at)
            self.run(it["otherwise"])
            if self.block is not None:
                raise Fault(it.at, f"what is behind `else` has to end the program with `return`: `{it['name']}` would be null after it")
            self.begin(yes, it.at)

    def run_assign(self, it):
        """Gives a variable another value of its kind."""
        name = it["target"]["name"]
        if name not in self.registers or self.declared[self.registers[name]] == "unset":
            raise Fault(it["target"].at, f"there is no variable `{name}` here{nearest(name, self.registers)}; `let {name} = ..` makes one")
        register, held = self.fitted(it["value"], self.declared[self.registers[name]], name)
        self.hold(register, held)

    def run_set(self, it):
        """Sets a property."""
        register, found = self.property_of(it["target"], "writable")
        value, _ = self.fitted(it["value"], found["kind"])
        self.put(it.at, "set", register, it["target"]["name"], value)

    def run_notify(self, it):
        """Notifies a property."""
        register, _ = self.property_of(it["value"], None)
        self.put(it.at, "notify", register, it["value"]["name"])

    def run_do(self, it):
        """Works a value out and lets it go."""
        if it["value"]["sort"] == "emit":
            self.emission(it["value"], None, False)
        else:
            self.value(it["value"])

    def run_on_object(self, it):
        """Does what a word says with an object."""
        register, _ = self.object(it["value"])
        self.put(it.at, it["word"], register)

    def run_handlers(self, it):
        """Disconnects, blocks or unblocks the handlers of a program."""
        register, _ = self.object(it["value"])
        self.check_program(it["program"])
        self.put(it.at, it["word"], register, it["program"])

    def run_named(self, it):
        """Ends a binding, or removes the sources of a program."""
        if it["word"] == "remove":
            self.check_program(it["name"])
        else:
            names = [bind["name"] for _, _, bind in self.model.bindings() if "name" in bind]
            if it["name"] not in names:
                raise Fault(it["name"].at, f"no binding has the name `{it['name']}`{nearest(it['name'], names)}; there is {listed(names, 'none')}")
        self.put(it.at, it["word"], it["name"])

    def run_stop(self, it):
        """Stops the emission."""
        self.put(it.at, "stop")

    def run_next(self, it):
        """Goes on in a new block."""
        self.check_branch(it.at, "next")
        label = Label()
        self.arrive(label)
        self.end(it.at, "jump", label)
        self.begin(label, it.at)

    def run_clear(self, it):
        """Clears a variable."""
        register, _ = self.variable(it["name"])
        self.put(it.at, "clear", register)
        self.hold(register, "unset")

    def run_keep(self, it):
        """Keeps variables, and maybe forgets what is known of them."""
        for entry in it["entries"]:
            register, held = self.variable(entry["name"])
            if entry["kind"] is not None:
                kind = self.all_kinds.kind(entry["kind"], "register")
                if [one for one in self.block.code if one[0] != "keep"]:
                    raise Fault(entry["kind"].at, "`keep` gives a kind only where a block begins")
                self.check_fits(held, kind, entry.at)
                self.hold(register, kind, kind)
                self.block.entry[register] = kind
            self.put(it.at, "keep", register)

    def run_return(self, it):
        """Ends the program, with its result."""
        result = self.program.get("result", "none")
        if self.in_repeat:
            raise Fault(it.at, "a repeated block goes on to its end: `return` comes after it")
        if it["value"] is None:
            if result != "none":
                raise Fault(it.at, f"`{self.program['name']}` returns `{shown(result)}`: write `return VALUE;`")
            self.end(it.at, "return", None)
            return
        if result == "none":
            raise Fault(it["value"].at, f"`{self.program['name']}` returns nothing: write `return;`, or `-> KIND` behind its parameters")
        self.end(it.at, "return", self.fitted(it["value"], result)[0])

    def check_branch(self, at, word):
        """Fails inside of a repeated block, which has no branch."""
        if self.in_repeat:
            raise Fault(at, f"a repeated block has no `{word}` in it: work out a number instead, or emit a signal whose handler tests")

    def run_if(self, it):
        """Makes the blocks of a branch."""
        self.check_branch(it.at, "if")
        register, held = self.condition(it)
        yes, no, join = Label(), Label(), Label()
        has_no = it["otherwise"] is not None
        other = no if has_no else join
        if it["test"] == "true":
            self.arrive(yes)
            self.arrive(other)
            self.end(it["value"].at, "if", register, yes, other)
        else:
            some = self.kinds_with(register, not_null(held))
            null, full = (yes, other) if it["test"] == "null" else (other, yes)
            self.arrive(null)
            self.arrive(full, some)
            self.end(it["value"].at, "ifnull", register, null, full)
        self.branch(yes, it["body"], join, it.at)
        if has_no:
            self.branch(no, it["otherwise"], join, it.at)
        self.meet(join, it.at)

    def condition(self, it):
        """The register that is tested, and its kind."""
        if it["test"] == "true":
            return self.fitted(it["value"], "bool")
        if it["test"] == "let":
            register, held = self.fitted(it["value"], None, it["name"])
            self.hold(register, held, held)
        else:
            register, held = self.value(it["value"])
        self.check_null(held, it["value"].at)
        return register, held

    def kinds_with(self, register, kind):
        """What all registers hold, with another kind for one."""
        return [kind if number == register else it for number, it in enumerate(self.kinds)]

    def check_null(self, kind, at):
        """Fails where a value is never null."""
        if kind != "text" and not is_object(kind):
            raise Fault(at, f"only texts and objects may be null, and this is `{shown(kind)}`")

    def branch(self, label, body, join, at):
        """Makes one way of a branch, and leads it to where the ways meet."""
        self.begin(label, body[0].at if body else at)
        self.run(body)
        if self.block is not None:
            self.leave(join, at)

    def leave(self, join, at):
        """Ends a branch. Where it ends in an empty block in which ways meet, these ways lead on at once."""
        block = self.block
        if block.is_join and not block.code and block.repeat is None:
            self.arrived.setdefault(join, []).extend(self.arrived[block.label])
            block.label.becomes = join
            self.blocks.pop()
            self.block = None
        else:
            self.arrive(join)
            self.end(at, "jump", join)

    def meet(self, join, at):
        """Goes on where ways meet, if one comes there."""
        if join in self.arrived:
            self.begin(join, at)
            self.block.is_join = True

    def run_unless(self, it):
        """Makes the blocks of a branch that is taken where the value is false."""
        self.check_branch(it.at, "unless")
        register, _ = self.fitted(it["value"], "bool")
        yes, join = Label(), Label()
        self.arrive(join)
        self.arrive(yes)
        self.end(it["value"].at, "if", register, join, yes)
        self.branch(yes, it["body"], join, it.at)
        self.meet(join, it.at)

    def run_repeat(self, it):
        """Makes a repeated block: the one that is under way, if it is empty, or a new one."""
        self.check_branch(it.at, "repeat")
        if self.block.code or self.block.repeat is not None:
            own = Label()
            self.arrive(own)
            self.end(it.at, "jump", own)
            self.begin(own, it.at)
        self.block.repeat, self.block.at, self.in_repeat = it["count"], it.at, True
        self.run(it["body"])
        self.in_repeat = False
        after = Label()
        self.block.end = list(self.kinds)
        self.arrive(after)
        self.end(it.at, "jump", after)
        self.begin(after, it.at)


class Label:
    """A block that is still to be made, or the label that it became."""

    becomes = None


def blocks_of(kinds, body, program):
    """The blocks of a program with statements, and where their instructions are. The number of registers goes into the program."""
    for is_spare in (False, True):
        trial = dict(body)
        try:
            found = Code(kinds, trial, is_spare).whole()
        except TooMany:
            continue
        program["registers"] = trial["registers"]
        return found
    raise Fault(program["name"].at, "this program needs more than 32 registers: divide it, or let one program emit a signal for another")
