"""Reads programs: their heads, statements, values and raw blocks."""
from .faults import Fault, nearest
from .reader import Reader
from .tokens import node, placed

COMPARED = ("==", "!=", "<", "<=", ">", ">=")
ON_OBJECT = ("sink", "orphan", "dispose", "freeze", "thaw")
OPERANDS = {
    "const": "rkv", "move": "rr", "clear": "r", "add": "rrr", "sub": "rrr", "mul": "rrr", "cmp": "rorr", "same": "rrr", "not": "rr",
    "and": "rrr", "or": "rrr", "join": "rrr", "convert": "rrk", "get": "rrs", "set": "rsr", "object": "rs", "new": "rs", "sink": "r",
    "orphan": "r", "dispose": "r", "adopt": "rrr", "freeze": "r", "thaw": "r", "emit": "zrsDa", "notify": "rs", "connect": "rrsDscz",
    "disconnect": "rs", "block": "rs", "unblock": "rs", "stop": "", "unbind": "s", "idle": "rsnz", "timeout": "rsniz", "remove": "s",
    "call": "rrsa", "jump": "b", "if": "rbb", "ifnull": "rbb", "return": "z"}


def hint(word):
    """What may be meant by a word that begins no statement."""
    if word in ("while", "for", "loop"):
        return "; the only loop is `repeat NUMBER {`"
    return "; a variable is made with `let`" if word in ("var", "int", "text", "bool") else nearest(word, ["let", "if", "repeat", "return", "emit"])


class Bodies(Reader):
    """The part of the grammar that is about programs."""

    def read_program(self, at):
        """NAME(PARAMETERS) -> KIND registers NUMBER, and then statements or raw blocks."""
        made = node(at, name=self.name("the name of the program"))
        self.want("(", ", and then the parameters")
        made["params"] = self.listed(self.parameter)
        if self.take("->"):
            made["result"] = self.kind()
        if self.take("registers"):
            made["registers"] = self.count("the number of registers", 0, 32)
        if self.take("blocks"):
            self.want("{")
            made["raw"] = self.raw_blocks()
        else:
            made["body"] = self.body()
            made["end"] = self.last.at
        self.tree["programs"].append(made)

    def parameter(self):
        """NAME: KIND, or a kind alone."""
        made = node(self.at, name=None)
        if self.is_name() and self.is_at(":", ahead=1):
            made["name"] = self.name("a parameter")
            self.next += 1
        made["kind"] = self.kind()
        return made

    def body(self):
        """Statements in braces."""
        self.want("{")
        found = []
        while not self.take("}"):
            if self.token.sort == "end":
                raise Fault(self.at, "`}` is wanted here: a body is not closed")
            found.append(self.statement())
        return found

    # statements

    def statement(self):
        """One statement. Fails where none begins."""
        at = self.at
        if self.is_at(";"):
            raise Fault(at, "a `;` alone is no statement, and none comes behind a `}`")
        if not self.is_at("=", ".", ahead=1):
            for word in ("let", "if", "unless", "repeat", "keep", "next", "return", "stop", "clear", "notify", *ON_OBJECT, "disconnect", "block", "unblock",
                         "unbind", "remove"):
                if self.take(word):
                    return getattr(self, "read_" + (word if word not in ON_OBJECT else "on_object"))(at, word)
        return self.assignment(at)

    def assignment(self, at):
        """NAME = VALUE;  VALUE.PROPERTY = VALUE;  or a value whose result is let go."""
        target = self.postfix()
        if self.is_at("+", "-", "*") and self.is_at("=", ahead=1):
            raise Fault(self.at, f"write `a = a {self.token.text} b`: there is no `{self.token.text}=`")
        if not self.take("="):
            if target["sort"] not in ("call", "emit", "adopt", "connect", "idle", "timeout", "new", "object"):
                raise Fault(self.gap if target["sort"] in ("name", "get") else at,
                            "this does nothing: `=` is wanted here, or a call, `emit`, `adopt`, `connect`, `idle` or `timeout`"
                            + (hint(target["name"]) if target["sort"] == "name" else ""))
            self.want(";")
            return node(at, sort="do", value=target)
        if target["sort"] not in ("name", "get"):
            raise Fault(at, "a value goes into a variable or into a property of an object: `NAME = ..` or `NAME.PROPERTY = ..`")
        value = self.value()
        self.want(";")
        return node(at, sort="assign" if target["sort"] == "name" else "set", target=target, value=value)

    def read_let(self, at, word):
        """let NAME: KIND = VALUE; or with `else` and what is done if the value is null."""
        made = node(at, sort="let", name=self.name("a variable"), kind=None, otherwise=None)
        if self.take(":"):
            made["kind"] = self.kind()
        self.want("=")
        made["value"] = self.value()
        if self.take("else"):
            made["otherwise"] = self.body() if self.is_at("{") else [self.statement()]
            return made
        self.want(";")
        return made

    def read_if(self, at, word):
        """if VALUE, if VALUE is null, if VALUE is not null, if let NAME = VALUE."""
        made = node(at, sort="if", name=None, test="true", otherwise=None)
        if self.take("let"):
            made["name"], made["test"] = self.name("a variable"), "let"
            self.want("=")
            made["value"] = self.value()
        else:
            made["value"] = self.value()
            if self.take("is"):
                made["test"] = "not null" if self.take("not") else "null"
                if not self.take("null"):
                    raise Fault(self.at, f"`null` or `not null` is wanted here, not {self.shown()}")
        made["body"] = self.body()
        if self.take("else"):
            if self.is_at("if"):
                self.next += 1
                made["otherwise"] = [self.read_if(self.last.at, "if")]
            else:
                made["otherwise"] = self.body()
        return made

    def read_unless(self, at, word):
        """unless VALUE { .. }"""
        return node(at, sort="unless", value=self.value(), body=self.body())

    def read_repeat(self, at, word):
        """repeat NUMBER { .. }"""
        count = self.count("the number of passes", 1, 65535)
        return node(at, sort="repeat", count=count, body=self.body())

    def read_keep(self, at, word):
        """keep NAME: KIND, ..;"""
        def one():
            made = node(self.at, name=self.name("a variable"), kind=None)
            if self.take(":"):
                made["kind"] = self.kind()
            return made
        return node(at, sort="keep", entries=self.listed(one, ";"))

    def read_return(self, at, word):
        """return VALUE;"""
        gap, is_apart = self.gap, self.gap != self.at
        value = None if self.is_at(";") else self.value()
        if is_apart and not self.is_at(";"):
            raise Fault(gap, "`;` is wanted here, or a value")
        self.want(";")
        return node(at, sort="return", value=value)

    def read_stop(self, at, word):
        """stop; and next;"""
        self.want(";")
        return node(at, sort=word)

    read_next = read_stop

    def read_clear(self, at, word):
        """clear NAME;"""
        made = node(at, sort="clear", name=self.name("a variable"))
        self.want(";")
        return made

    def read_notify(self, at, word):
        """notify VALUE.PROPERTY;"""
        value = self.postfix()
        if value["sort"] != "get":
            raise Fault(value.at, "a property is wanted here: `notify NAME.PROPERTY;`")
        self.want(";")
        return node(at, sort="notify", value=value)

    def read_on_object(self, at, word):
        """A word and an object."""
        value = self.value()
        self.want(";")
        return node(at, sort="on_object", word=word, value=value)

    def read_disconnect(self, at, word):
        """disconnect VALUE -> PROGRAM; and the same with `block` and `unblock`."""
        value = self.value()
        self.want("->", ", and then the program")
        made = node(at, sort="handlers", word=word, value=value, program=self.name("a program"))
        self.want(";")
        return made

    read_block = read_unblock = read_disconnect

    def read_unbind(self, at, word):
        """unbind NAME; and remove NAME;"""
        made = node(at, sort="named", word=word, name=self.name("the name of a binding" if word == "unbind" else "a program"))
        self.want(";")
        return made

    read_remove = read_unbind

    # values

    def value(self):
        """A value, with all signs and words between."""
        return self.chained(("or",), lambda: self.chained(("and",), self.test))

    def chained(self, words, one):
        """Values with a word or sign between, from the left."""
        found = one()
        while self.is_at(*words):
            at, sign = self.at, self.take(*words)
            found = node(at, sort="two", sign=sign, first=found, second=one())
        return found

    def test(self):
        """not VALUE, or two values that are compared."""
        at = self.at
        if self.take("not"):
            return node(at, sort="not", value=self.test())
        first = self.sum()
        if not self.is_at(*COMPARED):
            return first
        at, sign = self.at, self.take(*COMPARED)
        made = node(at, sort="two", sign=sign, first=first, second=self.sum())
        if self.is_at(*COMPARED):
            raise Fault(self.at, "one comparison at a time: write `a < b and b < c`")
        return made

    def sum(self):
        """Products with `+` and `-` between."""
        return self.chained(("+", "-"), lambda: self.chained(("*",), self.converted))

    def converted(self):
        """VALUE as KIND."""
        found = self.postfix()
        while self.take("as"):
            found = node(self.last.at, sort="as", value=found, kind=self.kind())
        return found

    def postfix(self):
        """A value, and behind it properties and methods."""
        found = self.leaf()
        while self.take("."):
            name = self.name("a property or a method")
            if self.take("("):
                found = node(name.at, sort="call", value=found, name=name, args=self.listed(self.value))
            else:
                found = node(name.at, sort="get", value=found, name=name)
        return found

    def leaf(self):
        """The smallest value: a name, a constant, a word with its operands, or a value in parentheses."""
        at = self.at
        if self.take("("):
            found = self.value()
            self.want(")")
            return found
        if self.take("#"):
            return node(at, sort="object", name=self.name("an id"))
        for word in ("new", "emit", "adopt", "same", "connect", "idle", "timeout"):
            if self.is_at(word) and not self.is_at("=", ".", ")", ";", ",", ahead=1):
                self.next += 1
                return getattr(self, "leaf_" + word)(at)
        if self.is_typed_constant():
            kind = self.kind()
            self.want("(")
            if self.is_at(")"):
                raise Fault(at, f"`{kind['name']}()` is nothing: a method is called by `NAME.METHOD(..)`, and a program runs for a signal or as a source")
            made = node(at, sort="constant", kind=kind, value=self.constant())
            self.want(")")
            return made
        if self.is_name() and not self.is_at("true", "false", "null") and not self.is_at("|", ahead=1):
            return node(at, sort="name", name=self.name("a value"))
        return node(at, sort="constant", kind=None, value=self.constant())

    def is_typed_constant(self):
        """Whether KIND( begins here."""
        return self.is_name() and (self.is_at("(", ahead=1) or self.is_at("?", ahead=1) and self.is_at("(", ahead=2))

    def leaf_new(self, at):
        """new PROTOTYPE"""
        return node(at, sort="new", name=self.name("a prototype"))

    def signal_of(self):
        """VALUE.SIGNAL::DETAIL, in which the value is a name or in parentheses."""
        value = self.leaf()
        self.want(".", ", and then the signal")
        signal = self.name("a signal")
        return value, signal, self.name("a detail") if self.take("::") else None

    def leaf_emit(self, at):
        """emit VALUE.SIGNAL::DETAIL(VALUES)"""
        value, signal, detail = self.signal_of()
        self.want("(", ", and then the arguments")
        return node(at, sort="emit", value=value, signal=signal, detail=detail, args=self.listed(self.value))

    def leaf_adopt(self, at):
        """adopt(PARENT, CHILD)"""
        self.want("(", ", and then the parent and the child")
        parent = self.value()
        self.want(",", ", and then the child")
        made = node(at, sort="adopt", parent=parent, child=self.value())
        self.want(")")
        return made

    def leaf_same(self, at):
        """same(VALUE, VALUE)"""
        self.want("(")
        first = self.value()
        self.want(",")
        made = node(at, sort="same", first=first, second=self.value())
        self.want(")")
        return made

    def leaf_connect(self, at):
        """connect VALUE.SIGNAL::DETAIL -> PROGRAM(DATA) WORDS"""
        value, signal, detail = self.signal_of()
        self.want("->", ", and then the program")
        program = self.name("a program")
        return node(at, sort="connect", value=value, signal=signal, detail=detail, program=program, data=self.data(self.value))

    def data(self, one=None):
        """(DATA, ..): the data is first; (.., DATA): it is last; and the words behind. Of an object's handler the data is an id."""
        one = one or (lambda: self.name("the id of the data"))
        made = node(self.at, name=None, is_first=False, words=[])
        if self.take("("):
            is_last = bool(self.take(".."))
            if is_last:
                self.want(",", ", and then the data; `(..)` alone says nothing")
            made["name"], made["is_first"] = one(), not is_last
            if not is_last:
                self.want(",", " and `..`: the data comes first, as in `(data, ..)`, or last, as in `(.., data)`")
                self.want("..")
            self.want(")")
        while True:
            word = self.take("after", "swapped")
            if word is None:
                return made
            if word == "swapped" and made["name"] is not None:
                raise Fault(self.last.at, "with data `(data, ..)` says that the two are swapped, and `(.., data)` that they are not")
            made["words"].append(word)
            made["is_first"] = made["is_first"] or word == "swapped"

    def leaf_idle(self, at):
        """idle PROGRAM(DATA) priority NUMBER"""
        return self.attached(at, "idle", 200)

    def leaf_timeout(self, at):
        """timeout PROGRAM(DATA) every NUMBER priority NUMBER"""
        return self.attached(at, "timeout", 0)

    def attached(self, at, word, priority):
        """PROGRAM(DATA) every MILLISECONDS priority NUMBER."""
        made = node(at, sort=word, program=self.name("a program"), data=None, priority=placed(priority, at), interval=None)
        if self.take("("):
            made["data"] = self.value()
            self.want(")")
        if word == "timeout":
            self.want("every", ", and then the milliseconds")
            made["interval"] = self.count("an interval in milliseconds", 0, (1 << 32) - 1)
        if self.take("priority"):
            made["priority"] = self.count("a priority", -(1 << 31), (1 << 31) - 1)
        return made

    # raw blocks

    def raw_blocks(self):
        """Blocks up to the closing brace. Fails where they are not numbered in order."""
        found = []
        while not self.take("}"):
            at = self.at
            self.want("block")
            number = self.number("the number of the block")
            if number != len(found):
                raise Fault(number.at, f"blocks are numbered in order, and this is block {len(found)}")
            made = node(at, code=[])
            if self.take("("):
                made["in"] = self.listed(self.kind)
            if self.take("repeat"):
                made["repeat"] = self.count("the number of passes", 1, 65535)
            self.want("{")
            while not self.take("}"):
                made["code"].append(self.instruction())
            found.append(made)
        return found

    def instruction(self):
        """A word, its operands, and `;`."""
        at, word = self.at, self.take(*OPERANDS)
        if word is None:
            raise Fault(at, f"an instruction is wanted here, not {self.shown()}{nearest(self.token.text, OPERANDS)}")
        made = node(at, word=word, operands=[(sort, self.at, self.operand(sort)) for sort in OPERANDS[word]])
        if not self.is_at(";"):
            raise Fault(self.gap, f"`;` is wanted here, not {self.shown()}: `{word}` has no more operands")
        self.next += 1
        return made

    def operand(self, sort):
        """One operand of a raw instruction, by its sort in `OPERANDS`."""
        if sort == "r" or sort == "z" and not self.is_at("none"):
            self.want("%", ", and then the number of a register")
            return self.count("the number of a register", 0, 31)
        if sort == "a":
            self.want("(", ", and then the registers of the arguments")
            return self.listed(lambda: self.operand("r"))
        if sort in "zD" and self.take("none"):
            return None
        if sort in "sD":
            return self.name("a name")
        if sort in "kv":
            return self.kind() if sort == "k" else self.constant()
        if sort == "c":
            return self.options()
        if sort == "o":
            word = self.take("eq", "lt", "le")
            if word is None:
                raise Fault(self.at, f"`eq`, `lt` or `le` is wanted here, not {self.shown()}")
            return word
        ranges = {"b": ("the number of a block", 0, 63), "n": ("a priority", -(1 << 31), (1 << 31) - 1),
                  "i": ("an interval in milliseconds", 0, (1 << 32) - 1)}
        return self.count(*ranges[sort])

    def options(self):
        """The options of `connect` in parentheses."""
        found = []
        self.want("(", ", and then `after`, `swapped` or `)`")
        while not self.take(")"):
            word = self.take("after", "swapped")
            if word is None:
                raise Fault(self.at, f"`after`, `swapped` or `)` is wanted here, not {self.shown()}")
            found.append(word)
            self.take(",")
        return found
