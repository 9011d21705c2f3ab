"""Mistakes in a source: where they are, and how they are told."""
import difflib
import re


class Fault(Exception):
    """A mistake at a place of the source, with what would be right."""

    def __init__(self, at, text):
        super().__init__(text)
        self.at, self.text = at, re.sub("`\\?; (.)", lambda found: f"`? {found[1].upper()}", text)


def place(source, at):
    """The line and the column of an offset, from 1."""
    at = min(at, len(source))
    begin = source.rfind("\n", 0, at) + 1
    return source.count("\n", 0, at) + 1, at - begin + 1


def told(file, source, at, text):
    """The lines that tell a mistake: FILE:LINE:COLUMN: text, the line of source, and a caret under the place."""
    line, column = place(source, at)
    shown = source.split("\n")[line - 1].rstrip("\r")
    begin = max(0, column - 100)
    shown, column_shown = shown[begin:begin + 160], column - begin
    before = "".join("\t" if char == "\t" else " " for char in shown[:column_shown - 1])
    first, _, more = text.partition("\n")
    return f"{file}:{line}:{column}: {first}\n  {shown}\n  {before}^" + (f"\n{more}" if more else "")


def nearest(word, words):
    """A text that names the nearest of some words, or nothing."""
    found = difflib.get_close_matches(str(word), sorted({str(it) for it in words}), 2, 0.6)
    return f"; did you mean {' or '.join(f'`{it}`' for it in found)}?" if found else ""


def listed(words, none="nothing"):
    """Words in a row, for a sentence."""
    return ", ".join(f"`{word}`" for word in words) or none
