"""The cases of conformance/ and the examples, found by a walk. conformance/README.md says how the folder is laid out."""
import os
from functools import lru_cache
from pathlib import Path
from typing import NamedTuple, Optional

TOP = Path(__file__).resolve().parent.parent.parent
CONFORMANCE = TOP / "conformance"
EXAMPLES = TOP / "examples"
TABLE = "expected.tsv"


class Case(NamedTuple):
    """A definition and events, and what `ui run` and `ui verify` write of them.

    The name of a case is that of its folder or of its file; the name of an example is its path. Events of a refused definition are never
    read, so none are kept. The verdict is None where no file says it.
    """
    name: str
    definition: Path
    events: Path
    expected: str
    status: int
    verdict: Optional[str]

    @property
    def is_refused(self):
        """Whether `ui run` refuses the definition."""
        return self.status == 1


def rows(table):
    """The rows of a table of two or more columns, below its head."""
    return [line.split("\t") for line in table.read_text(encoding="utf-8").split("\n")[1:] if line]


def text(file):
    """The text of a file, or None where there is none."""
    return file.read_text(encoding="utf-8") if file.exists() else None


def runs(top):
    """The cases below a folder that have folders of their own, as those that run have."""
    for definition in sorted(top.rglob("definition.json")):
        folder = definition.parent
        name = str(folder.relative_to(TOP)) if top == EXAMPLES else folder.name
        yield Case(name, definition, folder / "events.jsonl", text(folder / "expected.txt"), int(text(folder / "status")),
                   text(folder / "verdict.txt"))


def refused():
    """The cases of refused definitions: a file each, and a line in the table beside it. Where the table has none the line is empty."""
    for folder in sorted((CONFORMANCE / "refused").iterdir()):
        lines = dict(rows(folder / TABLE))
        for definition in sorted(folder.glob("*.json")):
            line = f"{lines.get(definition.stem, '')}\n"
            verdict = text(definition.with_suffix(".verdict.txt"))
            yield Case(definition.stem, definition, Path(os.devnull), line, 1, verdict or line)


@lru_cache(maxsize=None)
def conformance():
    """The cases of conformance/, by name."""
    return tuple(sorted((*runs(CONFORMANCE / "runs"), *refused())))


@lru_cache(maxsize=None)
def examples():
    """The examples, by path."""
    return tuple(runs(EXAMPLES))


def case(name):
    """The case or example of this name. Fails with LookupError where there is none."""
    found = next((it for it in (*conformance(), *examples()) if it.name == name), None)
    if found is None:
        raise LookupError(f"no such case: {name}")
    return found
