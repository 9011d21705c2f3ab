"""What several scripts share: where the repository is, which program they run, and how they load each other."""
import importlib.machinery
import importlib.util
import os
import subprocess
import sys
import tempfile
from pathlib import Path

TOP = Path(__file__).resolve().parent.parent.parent
BUILT = TOP / "crates/ui_runner/out/ui_runner"


def program(word=None):
    """The program that judges and runs: the word that was given, else the variable PROGRAM, else `./ui`."""
    return str(word or os.environ.get("PROGRAM") or TOP / "ui")


def built_program():
    """A program that is a file of its own, for scripts that count or trace what it does: PROGRAM, else the proved one."""
    return os.environ.get("PROGRAM") or str(BUILT)


def run_program(words, of=None, **how):
    """Runs the program with these words. `./ui` then explains nothing, because the script does so itself."""
    how = {"stdout": subprocess.PIPE, "text": True, "encoding": "utf-8", "errors": "replace", **how}
    return subprocess.run([program(of), *map(str, words)], env={**os.environ, "HINTS": "no"}, **how)


def loaded(name):
    """Another script of this folder as a module."""
    loader = importlib.machinery.SourceFileLoader(name, str(TOP / "scripts" / name))
    module = importlib.util.module_from_spec(importlib.util.spec_from_loader(name, loader))
    loader.exec_module(module)
    return module


def has_unknown(words, *known):
    """Whether a word begins with `-` and is none of those that a script knows: then its usage is printed."""
    return any(word.startswith("-") and word not in known for word in words)


def usage(text):
    """Prints what a script's first comment says of its words, and returns the status of wrong words."""
    print(text.partition("\n\n")[2], file=sys.stderr)
    return 2


def is_json(text):
    """What is wrong with a text that is no JSON, as LINE:COLUMN and a reason; None if it is JSON."""
    from json_places import Fault, Reader, place
    try:
        Reader(text).whole()
    except Fault as fault:
        line, column = place(text, min(fault.at, len(text)))
        return f"{line}:{column}: {fault.hint}"
    return None


def json_file(name):
    """The text of a file that holds JSON. Ends the script with one sentence where there is no such file, or where it is not JSON."""
    try:
        text = Path(name).read_bytes().decode("utf-8")
    except UnicodeDecodeError:
        sys.exit(f"{name}: this is not JSON, because it is not UTF-8")
    except OSError as error:
        sys.exit(f"{name}: it cannot be read ({error.strerror})")
    fault = is_json(text)
    if fault:
        sys.exit(f"{name}:{fault}")
    return text


def answers_bad_files(script, *words):
    """Whether a script answers bad JSON and an absent file with one sentence. Prints each answer that is something else."""
    wrong = []
    with tempfile.TemporaryDirectory() as folder:
        for number, text in enumerate((b"{", b"[1,]", b'{"a":"\xff"}')):
            file = Path(folder, str(number))
            file.write_bytes(text)
            wrong += badly_said([script, *words, file], text)
        wrong += badly_said([script, *words, Path(folder, "absent")], "an absent file")
    print("".join(f"{it}\n" for it in wrong), end="")
    return not wrong


def badly_said(words, what):
    """What is wrong with how a script answers a text that it cannot take: nothing, or one line for the list of faults."""
    ran = subprocess.run([sys.executable, *map(str, words)], stdout=subprocess.PIPE, stderr=subprocess.PIPE, text=True)
    is_fine = ran.returncode == 1 and ran.stdout == "" and ran.stderr.count("\n") == 1 and "Traceback" not in ran.stderr
    return [] if is_fine else [f"{Path(words[0]).name}: of {what!r} it says {ran.stderr.strip()[-200:]!r}, with status {ran.returncode}"]


def ready_program():
    """A program that answers at once: PROGRAM, the proved one, or the one that `./ui` keeps; None where none is built."""
    words = (os.environ.get("PROGRAM"), BUILT, TOP / ".unproved/ui_runner")
    return next((str(word) for word in words if word and os.access(word, os.X_OK)), None)
