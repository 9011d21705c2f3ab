"""Lays a source out: blanks, indents and line breaks. What counts stays as it is, comments too."""
from .tokens import all_tokens

WIDTH = 100
TIGHT_BEFORE = (";", ",", ")", "]", ":", "?", ".", "::")
TIGHT_AFTER = ("(", "#", "%", ".", "::", "[")
WORDS_BEFORE_GROUP = ("if", "unless", "return", "not", "and", "or", "as", "is", "let", "in", "else", "repeat")
VALUE_ENDS = (")", "]", "?")


class Line:
    """Tokens that are to be on one line, its indent, and whether a blank line is before it."""

    def __init__(self, depth, is_apart):
        self.depth, self.is_apart, self.tokens = depth, is_apart, []


def laid_out(source):
    """The source, laid out. Fails with a Fault where something in it is no token."""
    return Layout(source).whole()


class Layout:
    """Puts the tokens of a source on lines."""

    def __init__(self, source):
        self.tokens = counted(source)
        self.ends, self.lines, self.depth, self.short_end, self.lists = matches(self.tokens), [Line(0, False)], 0, -1, []

    def whole(self):
        """The text of all lines."""
        for number in range(len(self.tokens)):
            self.add(number)
        return joined([it for it in self.lines if it.tokens])

    def is_sign(self, number, *signs):
        """Whether a token is one of these signs."""
        return self.tokens[number][0].sort == "sign" and self.tokens[number][0].text in signs

    def add(self, number):
        """Adds a token to the last line, and ends the line where that is due."""
        is_inner, is_close = number < self.short_end, self.is_sign(number, "}")
        if is_close and number > self.short_end:
            self.close()
        line = self.line_for(number)
        line.tokens.append(self.tokens[number][0])
        if is_inner:
            return
        if self.is_sign(number, "{") and number > self.short_end:
            self.open(number, line)
        elif is_close or self.is_sign(number, ";") or self.tokens[number][0].sort == "comment" or self.is_sign(number, ",") and self.is_list_entry():
            self.end_line(number)

    def line_for(self, number):
        """The line that a token goes on: a comment that has a line of its own keeps it."""
        token, breaks = self.tokens[number]
        line = self.lines[-1]
        if token.sort == "comment" and breaks and line.tokens:
            line = self.new_line()
        if not line.tokens:
            line.depth, line.is_apart = self.depth, breaks > 1 and len(self.lines) > 1 and not opens(self.lines) and token.text != "}"
        return line

    def open(self, number, line):
        """Begins a group: on its line, if it is short, and else on lines of its own."""
        end = self.ends.get(number)
        if is_short(self.tokens, number, end, line):
            self.short_end = end
            return
        inner = range(number + 1, len(self.tokens) if end is None else end)
        self.lists.append(not any(self.is_sign(it, ";", "{") for it in inner))
        self.depth += 1
        self.end_line(number)

    def close(self):
        """Ends a group that is on lines of its own."""
        self.depth = max(self.depth - 1, 0)
        if self.lists:
            self.lists.pop()
        self.new_line()

    def is_list_entry(self):
        """Whether a `,` ends an entry of a group of members, each of which has its line."""
        return bool(self.lists) and self.lists[-1]

    def new_line(self):
        """Begins a line, if the last one has tokens, and returns the last one."""
        if self.lines[-1].tokens:
            self.lines.append(Line(self.depth, False))
        return self.lines[-1]

    def end_line(self, number):
        """Begins a line, unless `else` or a comment of the same line follows."""
        if number + 1 < len(self.tokens):
            token, breaks = self.tokens[number + 1]
            is_kept = token.text in ("else", ";") and token.sort in ("name", "sign") and self.is_sign(number, "}")
            if is_kept or token.sort == "comment" and not breaks:
                return
        self.new_line()


def counted(source):
    """The tokens without blanks, each with the number of line breaks before it."""
    found, breaks = [], 0
    for token in all_tokens(source):
        if token.sort == "comment":
            token = token._replace(text=token.text.rstrip())
        if token.sort == "blank":
            breaks = token.text.count("\n")
        else:
            found.append((token, breaks))
            breaks = 0
    return found


def matches(tokens):
    """For each `{` the place of its `}`."""
    found, stack = {}, []
    for number, (token, _) in enumerate(tokens):
        if token.sort == "sign" and token.text == "{":
            stack.append(number)
        elif token.sort == "sign" and token.text == "}" and stack:
            found[stack.pop()] = number
    return found


def is_short(tokens, begin, end, line):
    """Whether a group stays on its line: one statement at most, no comment, no group inside, and short enough."""
    if end is None:
        return False
    inner = [it for it, _ in tokens[begin + 1:end]]
    signs = [it.text for it in inner if it.sort == "sign"]
    if any(it.sort == "comment" for it in inner) or "{" in signs or signs.count(";") > 1:
        return False
    rest = [it for it, _ in tokens[end + 1:end + 2] if it.text in ("else", ";")]
    return line.depth * 2 + len(spaced([*line.tokens, *inner, tokens[end][0], *rest])) <= WIDTH


def opens(lines):
    """Whether the line before opens a group."""
    return len(lines) > 1 and lines[-2].tokens and lines[-2].tokens[-1].text == "{"


def spaced(tokens):
    """The tokens of a line with blanks between."""
    found = ""
    for number, token in enumerate(tokens):
        if number and is_blank(tokens, number):
            found += " "
        found += token.text
    return found


def is_blank(tokens, number):
    """Whether a blank is before a token."""
    before, token = tokens[number - 1], tokens[number]
    is_sign = token.sort == "sign"
    if is_sign and token.text in TIGHT_BEFORE or before.sort == "sign" and before.text in TIGHT_AFTER:
        return False
    if is_sign and token.text == "..":
        return before.text in ("in", ",")
    if before.sort == "sign" and before.text == "..":
        return token.sort != "number" and not (is_sign and token.text == "-")
    if is_sign and token.text == "(":
        if before.text != "(" and any(it.text == "%" for it in tokens[:number]):
            return True
        return before.sort in ("number", "sign") and before.text not in VALUE_ENDS or before.sort == "name" and before.text in WORDS_BEFORE_GROUP
    if before.sort == "sign" and before.text == "-" and token.sort == "number":
        return not is_below_zero(tokens, number - 1)
    return True


def is_below_zero(tokens, number):
    """Whether a `-` belongs to its number: behind a sign, behind a word that a number follows, or in a raw instruction."""
    if number == 0 or any(it.text == "%" for it in tokens[:number]):
        return True
    before = tokens[number - 1]
    if before.sort == "sign":
        return before.text not in VALUE_ENDS
    return before.sort == "name" and before.text in ("in", "return", "priority", "every", "and", "or", "not")


def joined(lines):
    """The text of all lines."""
    found = []
    for line in lines:
        if line.is_apart and found:
            found.append("")
        found.append("  " * line.depth + spaced(line.tokens))
    return "\n".join(found) + "\n" if found else ""
