"""Parts of definitions that are made to measure the program."""
from .running import packed

MOST_BYTES = 4 << 20
MOST_PLACES = 512
MOST_MEMBERS = 64
MOST_LINES = 65_536
RETURN = ["return", None]
TALLY = {"name": "Tally", "methods": [{"name": "add", "params": ["int64"], "result": "int64"}, {"name": "read", "result": "int64"}]}


def one(classes, **more):
    return {"format": 1, "classes": classes, **more}


def box(*properties, signals=(), name="Box", **more):
    return {"name": name, "properties": list(properties), "signals": [{"name": s} for s in signals], **more}


def program(name, code, registers=4, params=("some:Box",), result=None, last=None):
    """A program of one block, which returns nothing, or the register `last`."""
    told = {"result": result} if result else {}
    return {"name": name, "params": list(params), "registers": registers, **told, "blocks": [{"code": [*code, ["return", last]]}]}


def numbered(letter, n):
    return [f"{letter}{i}" for i in range(n)]


def numbers(n=MOST_MEMBERS):
    """Properties that are whole numbers."""
    return [{"name": name, "kind": "int"} for name in numbered("p", n)]


def places(n=MOST_PLACES, kind="Box", **more):
    """Objects `o0` and so on."""
    return [{"id": f"o{i}", "class": kind, **more} for i in range(n)]


def interfaces(n, signals=MOST_MEMBERS):
    """Interfaces `I00` and so on, each with so many signals of its own."""
    return [{"name": f"I{i:02}", "signals": [{"name": f"s{i}-{k}"} for k in range(signals)]} for i in range(n)]


def filled(make, most=None, step=10_000):
    """What `make` gives for a number with which it takes nearly as many bytes as a definition may have, as a text.

    The number is reckoned from two smaller ones, and lowered by an eighth since greater numbers have more digits.
    """
    few, more = len(packed(make(step))), len(packed(make(2 * step)))
    n = (step + (MOST_BYTES - few) * step // (more - few)) * 7 // 8
    text = packed(make(n if most is None else min(most, n)))
    if len(text) > MOST_BYTES:
        raise ValueError(f"{len(text)} bytes are more than a definition may have")
    return text
