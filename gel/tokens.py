"""Tokens of a source, and the words and numbers that keep their place."""
import json
import re
from collections import namedtuple

from .faults import Fault

Token = namedtuple("Token", "sort text value at end")

TOKEN = re.compile(
    r'(?P<blank>[ \t\r\n]+)|(?P<comment>//[^\n]*)|(?P<text>"(?:[^"\\\n]|\\.)*")|(?P<number>[0-9]+)'
    r"|(?P<quoted>'[^'\n]*')|(?P<name>[A-Za-z_][A-Za-z0-9_]*(?:-[A-Za-z0-9_]+)*)"
    r"|(?P<sign>->|<-|::|\.\.|<=|>=|==|!=|[{}()\[\];:,.=<>+*#?%|-])")
BARE = re.compile(r"[A-Za-z_][A-Za-z0-9_]*(?:-[A-Za-z0-9_]+)*")


class Word(str):
    """A text that knows where it is in the source."""

    at = 0


class Number(int):
    """A whole number that knows where it is in the source."""

    at = 0


class Node(dict):
    """A JSON object that knows where it is in the source."""

    at = 0


def placed(value, at):
    """The text or number with its place."""
    made = Word(value) if isinstance(value, str) else Number(value)
    made.at = at
    return made


def node(at, **members):
    """A JSON object with its place."""
    made = Node(members)
    made.at = at
    return made


def text_value(written, at):
    """The value of a text as it is written, which is that of JSON. Fails where JSON has no such text."""
    try:
        value = json.loads(written)
        value.encode("utf-8")
        return value
    except ValueError:
        raise Fault(at, "this text has an escape or a character that JSON does not have; escapes are "
                        r'\" \\ \/ \b \f \n \r \t and \uXXXX') from None


def fault_of(source, at):
    """Why no token begins here."""
    if source[at] == '"':
        return "this text has no end on its line: a `\"` is wanted; a line break inside a text is written `\\n`"
    if source[at] == "'":
        return "this name has no end on its line: a `'` is wanted"
    meant = {"!": "; write `not`", "&": "; write `and`", "/": "; there is no division, and a comment begins with `//`", "@": "",
             "\ufeff": "; save the file without a byte order mark"}
    if source[at] in meant:
        return f"`{source[at]}` begins nothing in this language{meant[source[at]]}"
    return f"`{source[at]}` begins nothing in this language"


def all_tokens(source):
    """All tokens of a source, with blanks and comments."""
    found, at = [], 0
    while at < len(source):
        match = TOKEN.match(source, at)
        if not match:
            raise Fault(at, fault_of(source, at))
        sort, written = match.lastgroup, match[0]
        value = written
        if sort == "text":
            value = text_value(written, at)
        elif sort == "quoted":
            value = written[1:-1]
        elif sort == "number":
            value = whole(source, written, at, match.end())
        found.append(Token(sort, written, value, at, match.end()))
        at = match.end()
    return found


def whole(source, written, at, end):
    """The whole number. Fails where a letter follows at once, or where it has too many digits."""
    if end < len(source) and (source[end].isalnum() or source[end] == "_"):
        raise Fault(at, "a name that begins with a digit is written in quotes: `'1a'`")
    if len(written) > 40:
        raise Fault(at, "no kind has a number of so many digits")
    return int(written)


def tokens(source):
    """The tokens that count, and one for the end."""
    found = [it for it in all_tokens(source) if it.sort not in ("blank", "comment")]
    return [*found, Token("end", "the end of the file", None, len(source.rstrip()), len(source))]
