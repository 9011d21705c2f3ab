"""Reads JSON, and keeps the place of each value and each name in the text."""
import json
import re


class Fault(Exception):
    """The text is not JSON: the offset of the fault, and what is expected there."""

    def __init__(self, at, hint):
        super().__init__(hint)
        self.at, self.hint = at, hint


class Reader:
    """Reads JSON and keeps where each value and each member's name begins, by path."""

    BLANK = re.compile(r"[ \t\r\n]*")
    NUMBER = re.compile(r"-?(0|[1-9][0-9]*)(\.[0-9]+)?([eE][+-]?[0-9]+)?")
    TEXT = re.compile(r'"((?:[^"\\\x00-\x1f]|\\(?:["\\/bfnrt]|u[0-9a-fA-F]{4}))*)"')

    def __init__(self, text):
        self.text, self.at, self.values, self.names = text, 0, {}, {}

    def whole(self):
        """The value of the whole text. Raises a Fault where the text is not JSON."""
        value = self.value("", 0)
        self.blanks()
        if self.at < len(self.text):
            raise Fault(self.at, "the JSON value has ended, and more text follows")
        return value

    def blanks(self):
        """Goes past blanks."""
        self.at = self.BLANK.match(self.text, self.at).end()

    def expect(self, char, what, more=""):
        """Goes past a character. Raises a Fault where there is another."""
        self.blanks()
        if self.text[self.at:self.at + 1] != char:
            raise Fault(self.at, f"{what} is expected here{more}")
        self.at += 1

    def value(self, path, depth):
        """Reads one value, and notes where it begins."""
        self.blanks()
        self.values[path] = self.at
        first = self.text[self.at:self.at + 1]
        if depth > 126 and first in "[{" and first:
            raise Fault(self.at, "lists and objects nest at most 127 levels deep")
        if first == "{":
            return self.members(path, depth)
        if first == "[":
            return self.entries(path, depth)
        if first == '"':
            return self.string()
        for word, value in (("true", True), ("false", False), ("null", None)):
            if self.text.startswith(word, self.at):
                self.at += len(word)
                return value
        number = self.NUMBER.match(self.text, self.at)
        if not number:
            raise Fault(self.at, self.no_value(first))
        self.at = number.end()
        # A minus before zero makes a number with a fraction, as it does for the program.
        return -0.0 if number[0] == "-0" else json.loads(number[0])

    def no_value(self, first):
        """Why no value begins here."""
        if not first:
            return "the text ends before its value does"
        if self.text[self.at:self.at + 2] in ("//", "/*") or first == "#":
            return "a value is expected here; JSON has no comments"
        if first == "'":
            return "a value is expected here; strings are in double quotes"
        return "a value is expected here" + after_comma(self.text, self.at)

    def string(self):
        """Reads a string."""
        found = self.TEXT.match(self.text, self.at)
        if not found:
            raise Fault(self.at, "the string that begins here has no end, or it has a bare control character or an unknown escape")
        self.at = found.end()
        return json.loads(found[0])

    def entries(self, path, depth):
        """Reads the entries of a list."""
        self.at += 1
        entries = []
        self.blanks()
        if self.text[self.at:self.at + 1] == "]":
            self.at += 1
            return entries
        while True:
            entries.append(self.value(f"{path}/{len(entries)}", depth + 1))
            self.blanks()
            if self.text[self.at:self.at + 1] == "]":
                self.at += 1
                return entries
            self.expect(",", "a comma or the end of the list")

    def members(self, path, depth):
        """Reads the members of an object, and notes where their names begin."""
        self.at += 1
        members, before = {}, None
        self.blanks()
        if self.text[self.at:self.at + 1] == "}":
            self.at += 1
            return members
        while True:
            self.blanks()
            if self.text[self.at:self.at + 1] != '"':
                raise Fault(self.at, "a member's name in quotes is expected here" + after_comma(self.text, self.at))
            begin = self.at
            name = self.string()
            under = f"{path}/{name.replace('~', '~0').replace('/', '~1')}"
            self.names[under] = begin
            self.blanks()
            is_entry = before and self.text[self.at:self.at + 1] in (",", "]")
            self.expect(":", "a colon", f"; is a `[` missing before the value of `{before}`?" if is_entry else "")
            members[name], before = self.value(under, depth + 1), name
            self.blanks()
            if self.text[self.at:self.at + 1] == "}":
                self.at += 1
                return members
            self.expect(",", "a comma or the end of the object")


def after_comma(text, at):
    """What to add where a list or an object ends after a comma."""
    return ", and there is none after the last comma" if text[:at].rstrip().endswith(",") and text[at:at + 1] in "]}" else ""


def parts_of(path):
    """The parts of a path, which is a JSON pointer."""
    return [part.replace("~1", "/").replace("~0", "~") for part in path.split("/")[1:]]


def at_path(value, path):
    """The value at a path, or None."""
    for part in parts_of(path):
        if isinstance(value, list):
            value = value[int(part)] if part.isdigit() and int(part) < len(value) else None
        else:
            value = value.get(part) if isinstance(value, dict) else None
    return value


def place(text, offset):
    """The line and the column of an offset, both from 1."""
    line = text.count("\n", 0, offset) + 1
    return line, offset - (text.rfind("\n", 0, offset) + 1) + 1
