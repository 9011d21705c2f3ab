"""Runs the built program on a definition and events, and says what that cost. PROGRAM names another program than the built one."""
import json
import os
import re
import shutil
import subprocess
import sys
import time
from collections import namedtuple
from pathlib import Path

TOP = Path(__file__).resolve().parent.parent.parent
PROGRAM = os.environ.get("PROGRAM") or str(TOP / "crates/ui_runner/out/ui_runner")
# What the yardstick takes on the processor that the bounds in seconds are meant for.
YARDSTICK = 0.15

Cost = namedtuple("Cost", "status seconds peak end")


class Starter:
    """The process that starts the commands (see `starter`)."""

    def __init__(self):
        words = [sys.executable, str(Path(__file__).with_name("starter.py"))]
        self.process = subprocess.Popen(words, stdin=subprocess.PIPE, stdout=subprocess.PIPE, universal_newlines=True)

    def run(self, words, memory=0, seconds=0):
        print(json.dumps([words, memory, seconds]), file=self.process.stdin, flush=True)
        return Cost(*json.loads(self.process.stdout.readline()))


def packed(value):
    """JSON without blanks."""
    return json.dumps(value, separators=(",", ":"))


def written(folder, definition, events):
    """The two files of a run, written into a folder. A definition may be a text."""
    files = folder / "definition.json", folder / "events.jsonl"
    files[0].write_text(definition if isinstance(definition, str) else json.dumps(definition))
    files[1].write_text("".join(json.dumps(event) + "\n" for event in events))
    return files


def size(files):
    return sum(file.stat().st_size for file in files)


def run_words(files):
    return [PROGRAM, "run", *map(str, files)]


def verify_words(files):
    return [PROGRAM, "verify", str(files[0])]


def counts_instructions():
    return shutil.which("valgrind") is not None


# Small pieces that were freed are joined at once, and not all together at a moment that depends on the length of a run.
STEADY = {**os.environ, "GLIBC_TUNABLES": "glibc.malloc.mxfast=0"}


def instructions(folder, words):
    """The instructions of a command, or None where they are not counted."""
    if not counts_instructions():
        return None
    done = subprocess.run(["valgrind", "--tool=callgrind", f"--callgrind-out-file={folder / 'callgrind'}", *words], stdout=subprocess.DEVNULL,
                          stderr=subprocess.PIPE, universal_newlines=True, check=False, env=STEADY)
    found = re.search(r"Collected : (\d+)", done.stderr)
    return int(found[1]) if found else None


def slowness():
    """How many times slower the processor is now than the one that the bounds are meant for, and at least 1."""
    began = time.process_time()
    text = json.dumps([{"name": f"p{i}", "value": i} for i in range(60_000)])
    for _ in range(3):
        json.loads(text)
    return max(1.0, (time.process_time() - began) / YARDSTICK)


def need_program():
    if not Path(PROGRAM).exists():
        sys.exit("no program is built: ./ui prove builds it")
