"""The definition of a source, and where each part of it is in the source."""
import importlib.machinery
import importlib.util
import json
from collections import namedtuple
from pathlib import Path

from .checks import Checks
from .code import blocks_of
from .faults import Fault
from .kinds import Kinds
from .model import Model
from .raw import Raw, check_limits
from .syntax import SECTIONS, Syntax

TOP = Path(__file__).resolve().parent.parent
Compiled = namedtuple("Compiled", "definition places source")


def compiled(source):
    """Compiles a source. Fails with a Fault at its first mistake."""
    try:
        tree = Syntax(source).whole()
        kinds = Kinds(Model(tree))
        Checks(tree, kinds).whole()
        starts = {}
        for number, program in enumerate(tree["programs"]):
            starts.update(program_blocks(kinds, program, f"/programs/{number}"))
    except RecursionError:
        raise Fault(0, "something in this source nests too deep") from None
    check_format(tree)
    definition = {"format": tree.get("format", 2 if is_repeated(tree) else 1)}
    for member in ("limits", *SECTIONS):
        if tree.get(member):
            definition[member] = tree[member]
    places = {"": 0}
    note_places(definition, "", places)
    return Compiled(json.loads(json.dumps(definition)), {**places, **starts}, source)


def program_blocks(kinds, program, path):
    """Makes the blocks of a program in place, and says where its blocks and instructions are."""
    body = program.pop("body", None)
    if body is None:
        program["blocks"], places = Raw(kinds, program).whole()
        del program["raw"]
    else:
        program["blocks"], places = blocks_of(kinds, {**program, "body": body}, program)
    check_limits(program, program["name"].at)
    for member in ("names", "end"):
        program.pop(member, None)
    if not program["params"]:
        del program["params"]
    starts = {}
    for number, (at, *each) in places.items():
        starts[f"{path}/blocks/{number}"] = at
        starts.update({f"{path}/blocks/{number}/code/{row}": it for row, it in enumerate(each)})
    return starts


def is_repeated(tree):
    """Whether a block is repeated."""
    return any("repeat" in block for program in tree["programs"] for block in program["blocks"])


def check_format(tree):
    """Fails where the source says format 1 and repeats a block."""
    if tree.get("format") == 1 and is_repeated(tree):
        raise Fault(tree["format"].at, "blocks are repeated in format 2 alone: write `format 2;`, or leave this line out")


def note_places(value, path, places):
    """Notes where each part of the definition is in the source."""
    at = getattr(value[0] if isinstance(value, list) and value else value, "at", None)
    if at is not None:
        places[path] = at
    if isinstance(value, dict):
        for name, part in value.items():
            note_places(part, f"{path}/{name}", places)
    elif isinstance(value, list):
        for number, part in enumerate(value):
            note_places(part, f"{path}/{number}", places)


def layout_script():
    """The functions of scripts/layout."""
    loader = importlib.machinery.SourceFileLoader("layout_script", str(TOP / "scripts" / "layout"))
    spec = importlib.util.spec_from_loader("layout_script", loader)
    module = importlib.util.module_from_spec(spec)
    loader.exec_module(module)
    return module


def written(definition):
    """The text of a definition, as scripts/layout lays it out."""
    return layout_script().laid_out(json.dumps(definition, ensure_ascii=False))
