"""Words for hints: the nearest of some names, lists of names, and shortened texts."""
import difflib

# Words that other formats use for ours.
OTHERS = {"type": "kind", "string": "text", "boolean": "bool", "integer": "int", "number": "int", "str": "text", "float": "int",
          "char": "text", "gchararray": "text", "gint": "int", "guint": "uint", "gboolean": "bool", "extends": "parent",
          "interfaces": "implements", "args": "params", "arguments": "params", "callback": "handler", "code": "blocks", "body": "blocks",
          "minimum": "min", "maximum": "max", "initial": "default", "return": "result", "returns": "result", "construct_only": "construct-only",
          "constructonly": "construct-only", "readwrite": "readable", "child": "children", "template": "prototypes", "user_data": "object"}


def nearest(word, words):
    """A text that names the nearest of some words, or nothing."""
    words = [it for it in words if isinstance(it, str)]
    if isinstance(word, str) and OTHERS.get(word) in words:
        return f"; did you mean `{OTHERS[word]}`?"
    found = difflib.get_close_matches(str(word), words, 2, 0.6)
    return f"; did you mean {' or '.join(f'`{it}`' for it in found)}?" if found else ""


def shortened(text):
    """A text, cut where it is long."""
    return text if len(text) <= 60 else text[:60] + ".."


def sentence(hint):
    """A hint with its full stop."""
    return hint if hint.endswith("?") else hint + "."


def listed(words):
    """Words as code, with commas between."""
    return ", ".join(f"`{word}`" for word in words)


def counted(number, word):
    """A number with its word, as `1 argument` and `2 arguments`."""
    return f"{number} {word}" + ("" if number == 1 else "s")
