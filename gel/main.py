"""The words of the command line of scripts/gel."""
import json
import os
import shutil
import subprocess
import sys
import tempfile
import threading
from pathlib import Path

from .back import source_of
from .compiled import TOP, compiled, written
from .faults import Fault, told
from .layout import laid_out
from .numbers import check_most, table
from .refusals import Told
from .syntax import Syntax

sys.path.insert(0, str(TOP / "scripts" / "modules"))
from common import ready_program  # noqa: E402

NO_PROGRAM = "there is no program to ask: `./ui verify DEF` builds one within minutes, and PROGRAM names another"
USAGE = """usage:
    gel FILE.gel                    writes the definition of a source, once the program has judged it
    gel --unjudged FILE.gel         writes it without that
    gel --from DEF                  writes the source of a definition that the program accepts
    gel --bounds FILE.gel           writes the bound beside each property, signal and handler, and the steps of each program
    gel --bounds --most N FILE.gel  fails where a bound is above N, with the path that costs most
    gel --layout [--write] FILE.gel writes the source laid out, or writes it into the file
    gel --check [--all]             runs the tests of the language"""


class Ended(Exception):
    """The command ends with a status and a message."""

    def __init__(self, status, text):
        super().__init__(text)
        self.status, self.text = status, text


def program_words():
    """The words that call the program which judges: PROGRAM, or else one that is built. None where there is no such program."""
    words = (os.environ.get("PROGRAM") or ready_program() or "").split()
    return words if words and shutil.which(words[0]) else []


PROGRAM = program_words()


def text_of(file):
    """The text of a file. Ends the command where there is none, or where it is not UTF-8."""
    try:
        return Path(file).read_bytes().decode("utf-8")
    except OSError:
        raise Ended(4, f"cannot read {file}") from None
    except UnicodeDecodeError as error:
        raise Ended(1, f"{file}: byte {error.start} is not UTF-8") from None


def verdict(file):
    """What the program says of a definition: its status and its first line. None where no program is built."""
    if not PROGRAM:
        return None
    ran = subprocess.run([*PROGRAM, "verify", str(file)], stdout=subprocess.PIPE, stderr=subprocess.DEVNULL, env={**os.environ, "HINTS": "no"})
    return ran.returncode, ran.stdout.decode("utf-8", "replace").partition("\n")[0]


def judge(made, is_needed):
    """Has the program judge a definition. Fails with a Fault where it is refused."""
    with tempfile.TemporaryDirectory() as folder:
        file = Path(folder) / "definition.json"
        file.write_text(json.dumps(made.definition), encoding="utf-8")
        said = verdict(file)
    if said is None:
        if is_needed:
            raise Ended(2, NO_PROGRAM)
        print(f"the definition is not judged, because {NO_PROGRAM}", file=sys.stderr)
    elif said[0] and not said[1].startswith("refused: "):
        raise Ended(said[0], f"the program ({' '.join(PROGRAM)}) did not judge the definition: its status is {said[0]}")
    elif said[0]:
        raise Told(made).fault(said[1])


def compile_file(file, is_judged=True, is_needed=False):
    """The compiled source of a file, judged. Ends the command with the place of a mistake."""
    source = text_of(file)
    try:
        made = compiled(source)
        if is_judged:
            judge(made, is_needed)
        return made
    except Fault as fault:
        raise Ended(1, told(file, source, fault.at, fault.text)) from None


def show_bounds(file, most):
    """Writes the bounds of a source. Ends the command where one is too large."""
    made = compile_file(file, is_needed=True)
    try:
        if most is not None:
            check_most(made, most)
    except Fault as fault:
        raise Ended(1, told(file, made.source, fault.at, fault.text)) from None
    print("\n".join(table(file, made)))


def show_source(file):
    """Writes the source of a definition. Ends the command where the program refuses it."""
    text_of(file)
    said = verdict(file)
    if said is None:
        raise Ended(2, f"{NO_PROGRAM}; only a definition that it accepts has a source")
    if said[0]:
        raise Ended(1, f"{file}: {said[1]}\nonly a definition that is accepted has a source; `scripts/explain {file}` says what is wrong")
    print(source_of(json.loads(text_of(file))), end="")


def show_layout(file, is_written):
    """Writes a source laid out."""
    source = text_of(file)
    try:
        Syntax(source).whole()
        made = laid_out(source)
    except Fault as fault:
        raise Ended(1, told(file, source, fault.at, fault.text)) from None
    except RecursionError:
        raise Ended(1, f"{file}: something in this source nests too deep") from None
    if is_written:
        Path(file).write_text(made, encoding="utf-8")
    else:
        print(made, end="")


def run(words):
    """Carries out the words of the command line, and returns the status."""
    if words[:1] == ["--check"] and words[1:] in ([], ["--all"]):
        from .tests.run import check
        return check(PROGRAM, words[1:] == ["--all"])
    if words[:1] == ["--bounds"] and len(words) == 4 and words[1] == "--most" and words[2].isdigit():
        show_bounds(words[3], int(words[2]))
    elif words[:1] == ["--layout"] and words[1:-1] in ([], ["--write"]) and len(words) > 1:
        show_layout(words[-1], len(words) == 3)
    elif len(words) == 2 and words[0] in ("--bounds", "--from", "--unjudged"):
        if words[0] == "--unjudged":
            print(written(compile_file(words[1], False).definition), end="")
        else:
            show_bounds(words[1], None) if words[0] == "--bounds" else show_source(words[1])
    elif len(words) == 1 and not words[0].startswith("-"):
        print(written(compile_file(words[0]).definition), end="")
    else:
        raise Ended(2, USAGE)
    return 0


def main():
    """Runs the command in a thread with room for deep nesting, and ends with its status."""
    status = []

    def work():
        try:
            status.append(run(sys.argv[1:]))
        except Ended as ended:
            print(ended.text, file=sys.stderr)
            status.append(ended.status)
        except BrokenPipeError:
            status.append(4)

    sys.setrecursionlimit(40_000)
    threading.stack_size(256 << 20)
    thread = threading.Thread(target=work)
    thread.start()
    thread.join()
    sys.exit(status[0] if status else 1)
