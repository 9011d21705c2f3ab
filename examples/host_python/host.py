#!/usr/bin/env python3
"""A host in Python: a panel in a terminal, through the shared library of `scripts/host_c --install PREFIX`.

    host.py LIBRARY DEFINITION

The panel is drawn from the session alone. Type the number of a row to press a button or to turn a switch, `NUMBER TEXT` to write into a
field, `NUMBER !` to activate it, `quit` to end. Where the input is no terminal, time stands still but for the lines `wait MILLISECONDS`.
"""
import ctypes
import json
import select
import sys
import time

DONE, LINE_REFUSED, UNDER_WAY = 0, 5, 6
NEVER, NOW, AT = 0, 1, 2
STEPS = 100_000  # of a part of an event


class Handle(ctypes.Structure):
    """gelvopaun_ui: zero bytes at first, and then only the library reads or writes it."""

    _fields_ = [("is_open", ctypes.c_bool), ("session", ctypes.c_void_p)]


def load(path):
    """The library, with the types of its functions."""
    library, size, byte = ctypes.CDLL(path), ctypes.c_size_t, ctypes.c_uint8
    text, room, ui, number = ctypes.c_char_p, [ctypes.c_char_p, size], ctypes.POINTER(Handle), ctypes.c_uint64
    for name, result, words in (
        ("start", byte, [text, size, ui, *room]),
        ("begin", byte, [ui, text, size, *room]),
        ("advance", byte, [ui, number]),
        ("next_due", byte, [ui, ctypes.POINTER(number)]),
        ("take_lines", size, [ui, *room]),
        ("next_object", number, [ui, number]),
        ("describe", size, [ui, number, *room]),
        ("get", size, [ui, number, text, size, *room]),
        ("finish", None, [ui]),
    ):
        function = getattr(library, f"gelvopaun_{name}")
        function.restype, function.argtypes = result, words
    return library


class Session:
    """A session, from the bytes of a definition."""

    def __init__(self, library, definition):
        self.library, self.handle = library, Handle()
        refusal = ctypes.create_string_buffer(256)
        if library.gelvopaun_start(definition, len(definition), self.handle, refusal, len(refusal)) != DONE:
            sys.exit(f"refused: {refusal.value.decode() or 'OutOfMemory'}")

    def finish(self):
        self.library.gelvopaun_finish(self.handle)

    def carry_out(self, event):
        """Carries an event out, in parts. Returns why it is refused, or None."""
        line, refusal = json.dumps(event, ensure_ascii=False).encode(), ctypes.create_string_buffer(64)
        outcome = self.library.gelvopaun_begin(self.handle, line, len(line), refusal, len(refusal))
        while outcome == UNDER_WAY:
            self.take_lines()
            outcome = self.library.gelvopaun_advance(self.handle, STEPS)
        self.take_lines()
        return refusal.value.decode() if outcome == LINE_REFUSED else None if outcome == DONE else "OutOfMemory"

    def take_lines(self):
        """Takes the lines that were said, so that the session need not keep them."""
        piece = ctypes.create_string_buffer(4096)
        while self.library.gelvopaun_take_lines(self.handle, piece, len(piece)):
            pass

    def due(self):
        """When a turn has something to run: a moment in milliseconds, 0 for at once, or None."""
        moment = ctypes.c_uint64()
        when = self.library.gelvopaun_next_due(self.handle, moment)
        return {NEVER: None, NOW: 0, AT: moment.value}[when]

    def told(self, call, *words):
        """The JSON that a call of the library writes, or None where it writes nothing."""
        room = 256
        while True:
            out = ctypes.create_string_buffer(room)
            length = call(self.handle, *words, out, room)
            if length < room:
                return json.loads(out.raw[:length]) if length else None
            room = length + 1

    def objects(self):
        """The objects that live and are not disposed, by their numbers."""
        found, number = {}, 0
        while number := self.library.gelvopaun_next_object(self.handle, number + 1):
            it = self.told(self.library.gelvopaun_describe, number)
            if it and not it["disposed"]:
                found[number] = it
        return found

    def get(self, number, name):
        """The value of a property. None where it is null, and where there is no such property."""
        return self.told(self.library.gelvopaun_get, number, name.encode(), len(name.encode()))


class Terminal:
    """A panel as lines of text. The rows on which a person can act are numbered."""

    def __init__(self, session):
        self.session, self.rows, self.began, self.waited = session, [], time.monotonic(), 0
        self.is_live = sys.stdin.isatty()

    def moment(self):
        """The moment of a turn, in milliseconds."""
        return int((time.monotonic() - self.began) * 1000) if self.is_live else self.waited

    def draw(self):
        """Writes the whole panel, from the session alone."""
        objects, self.rows = self.session.objects(), []
        for number, it in objects.items():
            if it["parent"] is None:
                self.draw_object(objects, number, 0)
        print(flush=True)

    def draw_object(self, objects, number, depth):
        it, value = objects[number], lambda name: self.session.get(number, name)
        title, is_off = value("title") or "", value("sensitive") is False
        shown = {
            "Button": lambda: f"[{value('label')}]",
            "Entry": lambda: f"{title:24} {value('text') or ''}_",
            "Label": lambda: value("label") or "",
            "LevelBar": lambda: f"{title:24} {value('value')} of {value('max-value')}",
            "SpinButton": lambda: f"{title:24} {value('value')}",
            "Switch": lambda: f"{title:24} {'on' if value('active') else 'off'}",
        }.get(it["class"], lambda: title)()
        mark = "   "
        if it["class"] in ("Button", "Entry", "SpinButton", "Switch") and not it["prototype"]:
            self.rows.append((number, it))
            mark = f"{len(self.rows):2} " if not is_off else " - "
        if shown:
            print(mark + "  " * depth + shown)
        for child in it["children"]:
            if child in objects:
                self.draw_object(objects, child, depth + bool(shown))

    def event(self, words):
        """The event of what a person has typed, or None."""
        row, _, text = words.partition(" ")
        if not row.isdigit() or not 0 < int(row) <= len(self.rows):
            return None
        number, it = self.rows[int(row) - 1]
        if self.session.get(number, "sensitive") is False:
            return None
        if it["class"] == "Switch":
            return {"set": [it["id"], "active", not self.session.get(number, "active")]}
        if it["class"] == "SpinButton":
            return {"set": [it["id"], "value", int(text)]} if text.lstrip("-").isdigit() else None
        if it["class"] == "Entry" and text != "!":
            return {"set": [it["id"], "text", text]}
        return {"emit": [it["id"], "clicked" if it["class"] == "Button" else "activate", []]}

    def next_words(self):
        """The next line of a person. While none comes, the session's turns are made. None at the end."""
        while self.is_live:
            due = self.session.due()
            left = None if due is None else max(due - self.moment(), 0) / 1000
            if select.select([sys.stdin], [], [], left)[0]:
                break
            self.turn()
        line = sys.stdin.readline()
        return line.rstrip("\n") if line and line != "quit\n" else None

    def turn(self):
        self.session.carry_out({"turn": self.moment()})
        self.draw()

    def run(self):
        self.draw()
        while (words := self.next_words()) is not None:
            if words.startswith("wait "):
                self.waited += int(words[5:])
                self.turn()
                continue
            event = self.event(words)
            fault = self.session.carry_out(event) if event else "no row that can be used so"
            if fault:
                print(f"refused: {fault}")
            self.draw()


def main():
    if len(sys.argv) != 3:
        sys.exit(__doc__)
    with open(sys.argv[2], "rb") as file:
        definition = file.read()
    session = Session(load(sys.argv[1]), definition)
    Terminal(session).run()
    session.finish()


if __name__ == "__main__":
    main()
