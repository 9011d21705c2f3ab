"""A definition of a file of specs or of code."""
import re
from dataclasses import dataclass, field


@dataclass(frozen=True)
class Item:
    """A definition: its file below `crates`, its name, its first and last line (with the comment above it), and its text without comments."""
    path: str
    name: str
    kind: str
    first: int
    last: int
    text: str = field(repr=False, compare=False)
    cases: tuple = field(default=(), repr=False, compare=False)  # the names of its cases, which lead to it as its own does
    within: str = field(default="", compare=False)  # the name of the definition that it lies in

    def is_spec(self):
        return self.path.endswith(".antt")


def without_comments(text, mark):
    """A text without comments, and with nothing in its quotes."""
    text = re.sub(r'b?"(?:[^"\\\n]|\\.)*"', '""', text)
    return re.sub(re.escape(mark) + r".*", "", text)
