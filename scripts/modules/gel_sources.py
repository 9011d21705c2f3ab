"""What an editor is told of a source of gel: its first mistake, the numbers of a line, and its layout."""
import sys
from pathlib import Path

TOP = Path(__file__).resolve().parent.parent.parent
sys.path.insert(0, str(TOP))
from gel.compiled import compiled  # noqa: E402
from gel.faults import Fault, place  # noqa: E402
from gel.layout import laid_out  # noqa: E402
from gel.numbers import rows  # noqa: E402
from gel.refusals import Told  # noqa: E402
from gel.syntax import Syntax  # noqa: E402


def accepted(text, judge):
    """The compiled source. Fails with a Fault at its first mistake, or where `judge` answers for its definition with a refusal."""
    made = compiled(text)
    said = judge(made.definition)
    if said.startswith("refused: "):
        raise Told(made).fault(said)
    return made


def mistake(text, judge):
    """The line, the column and the text of the first mistake of a source, or None."""
    try:
        accepted(text, judge)
    except Fault as fault:
        return (*place(text, fault.at), fault.text)
    return None


def numbers(text, line, judge):
    """The bounds and the steps of what is on a line, for reading. Nothing where the source is wrong."""
    try:
        found = rows(accepted(text, judge))
    except Fault:
        return []
    return [f"{what.strip()}: {number:,} {sort}" for at, what, number, sort in found if at == line and what != "build"]


def laid_out_source(text):
    """A source laid out, or None where it is wrong."""
    try:
        Syntax(text).whole()
        return laid_out(text)
    except (Fault, RecursionError):
        return None
