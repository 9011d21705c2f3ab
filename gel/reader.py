"""A cursor over tokens, with what all parts of the grammar ask for."""
from .faults import Fault
from .tokens import node, placed, tokens

PLAIN = ("bool", "int", "uint", "int64", "uint64", "text")
WHOLE = ("int", "uint", "int64", "uint64")


class Reader:
    """Reads tokens one after the other."""

    def __init__(self, source):
        self.source, self.tokens, self.next = source, tokens(source), 0

    @property
    def token(self):
        """The token that is next."""
        return self.tokens[self.next]

    @property
    def at(self):
        """Where the next token is."""
        return self.token.at

    @property
    def gap(self):
        """Where a sign is missing: at the next token, or behind the last one where that ends its line."""
        is_apart = self.next and "\n" in self.source[self.last.end:self.at]
        return self.last.end if is_apart else self.at

    @property
    def last(self):
        """The token before the next one."""
        return self.tokens[max(self.next - 1, 0)]

    def is_at(self, *words, ahead=0):
        """Whether the token is one of these signs or words. A name in quotes and a text are none."""
        token = self.tokens[min(self.next + ahead, len(self.tokens) - 1)]
        return token.sort in ("sign", "name") and token.text in words

    def take(self, *words):
        """Steps over one of these signs or words, and returns it; None where the token is another."""
        if not self.is_at(*words):
            return None
        self.next += 1
        return self.last.text

    def want(self, sign, why=""):
        """Steps over the sign. Fails where something else is there."""
        if self.take(sign):
            return
        at = self.at if sign.isalpha() else self.gap
        more = why if why.startswith(" or ") else ""
        raise Fault(at, f"`{sign}`{more} is wanted here{why[len(more):]}, not {self.shown()}")

    def shown(self):
        """The token, for a sentence."""
        return self.token.text if self.token.sort == "end" else f"`{self.token.text}`"

    def name(self, what):
        """A name, bare or in quotes, with its place."""
        token = self.token
        if token.sort not in ("name", "quoted"):
            raise Fault(token.at, f"{what} is wanted here, not {self.shown()}")
        self.next += 1
        return placed(token.value, token.at)

    def is_name(self):
        """Whether a name is next."""
        return self.token.sort in ("name", "quoted")

    def number(self, what="a whole number"):
        """A whole number, maybe below 0."""
        at = self.at
        sign = -1 if self.take("-") else 1
        if sign < 0 and self.is_name():
            raise Fault(at, f"`-` is before numbers alone: write `0 - {self.token.text}`")
        if self.token.sort != "number":
            raise Fault(self.at, f"{what} is wanted here, not {self.shown()}")
        self.next += 1
        return placed(sign * self.last.value, at)

    def count(self, what, least, most):
        """A whole number between two others. Fails at any other."""
        found = self.number(what)
        if not least <= found <= most:
            raise Fault(found.at, f"{what} is from {least:,} to {most:,}")
        return found

    def text(self):
        """A text, with its place."""
        token = self.token
        self.next += 1
        return placed(token.value, token.at)

    def listed(self, one, end=")"):
        """Entries with commas between, up to a sign."""
        found = []
        while not self.take(end):
            found.append(one())
            if not self.is_at(end):
                self.want(",", f", or `{end}`")
        return found

    def names(self, what):
        """One name at least, with commas between."""
        found = [self.name(what)]
        while self.take(","):
            found.append(self.name(what))
        return found

    def kind(self):
        """A kind as it is written: its sort (`plain`, `type` or `at`), its name, and whether it may be null."""
        at = self.at
        if self.take("#"):
            found = node(at, sort="at", name=self.name("an id"))
        else:
            is_plain = self.is_at(*PLAIN, "none", "unset")
            found = node(at, sort="plain" if is_plain else "type", name=self.name("a kind"))
        found["is_null"] = bool(self.take("?"))
        if found["is_null"] and found["sort"] == "plain":
            raise Fault(self.last.at, f"`{found['name']}` has no `?`: only an object's kind has")
        return found

    def constant(self):
        """A value that is written out: a number, a text, true, false, null, or words with `|` between."""
        at = self.at
        if self.token.sort == "text":
            return node(at, sort="text", value=self.text())
        if self.token.sort == "number" or self.is_at("-"):
            return node(at, sort="number", value=self.number())
        for word, value in (("true", True), ("false", False), ("null", None)):
            if self.take(word):
                return node(at, sort=word, value=value)
        words = [self.name("a value")]
        while self.take("|"):
            words.append(self.name("a member of the flags"))
        return node(at, sort="words", value=words)
