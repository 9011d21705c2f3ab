"""Runs the tests of the language, and prints one line."""
import json
import os
import re
import subprocess
import sys
import tempfile
import time
from pathlib import Path

from ..back import source_of
from ..bodies import OPERANDS
from ..compiled import TOP, compiled, written
from ..costs import Costs
from ..faults import Fault, place
from ..layout import laid_out
from ..names import WORDS
from ..normal import normal
from ..numbers import table
from ..refusals import Told
from ..syntax import ACCUMULATORS, BEGINS, BIND_WORDS, PROPERTY_WORDS, SIGNAL_FLAGS
from .changed import changed
from .made import events, made
from .mistakes import FRAMES, JUDGED, MISTAKES, PRELUDE

sys.path.insert(0, str(TOP / "scripts" / "modules"))
from cases import conformance, examples  # noqa: E402

# How many definitions are made up and how many sources are changed: on a sample, and with --all.
MADE, CHANGED = (60, 2_000), (2_000, 10_000)
UNREAD = ("refused: Shape", "refused: Unknown", "refused: BadProgram", "refused: NotJson")


class Tests:
    """Counts what holds and notes what does not."""

    def __init__(self, program, folder):
        self.program, self.folder = program, Path(folder)
        self.counts, self.faults = {}, []

    def note(self, sort, fault=""):
        """Counts a test of a sort, and notes its fault, if it has one."""
        self.counts[sort] = self.counts.get(sort, 0) + 1
        if fault:
            self.faults.append(f"{sort}: {fault}")

    def said(self, word, *files):
        """What the program writes, and its status."""
        ran = subprocess.run([*self.program, word, *map(str, files)], stdout=subprocess.PIPE, stderr=subprocess.DEVNULL,
                             env={**os.environ, "HINTS": "no"})
        return ran.stdout, ran.returncode

    def judged(self, definition):
        """The lines of the report, or of the refusal."""
        file = self.folder / "definition.json"
        file.write_text(json.dumps(definition), encoding="utf-8")
        return self.said("verify", file)[0].decode("utf-8", "replace").splitlines()

    # definition, source, definition

    def way_back(self, sort, name, definition, events=None, file=None):
        """A definition that is accepted, its source, and what comes of that."""
        try:
            source = source_of(definition)
            again = compiled(source).definition
            self.note(sort, self.difference(definition, source, again, events, file) and f"{name}: {self.last}")
        except Fault as fault:
            self.note(sort, f"{name}: line {place(source, fault.at)[0]} of its source: {fault.text}")

    def difference(self, definition, source, again, events, file):
        """Whether something is not as it was; `last` says what."""
        self.last = ""
        if normal(again) != normal(definition):
            self.last = "another definition comes of its source"
        elif laid_out(source) != source:
            self.last = "its source is not laid out at once"
        elif events is not None:
            other = self.folder / "again.json"
            other.write_text(written(again), encoding="utf-8")
            if self.said("run", file, events) != self.said("run", other, events):
                self.last = "another transcript comes of its source"
        return bool(self.last)

    def cases(self):
        """Each accepted case of conformance/ and examples/, with its transcript and its bounds."""
        for case in (*conformance(), *examples()):
            out, status = self.said("verify", case.definition)
            if status == 0:
                definition = json.loads(case.definition.read_text(encoding="utf-8"))
                self.way_back("cases", case.name, definition, case.events, case.definition)
                self.bounds(case.name, definition, out.decode().splitlines())

    def bounds(self, name, definition, report):
        """The bounds that are worked out are those of the report."""
        wanted = [re.sub(r" rank \d+ ", " ", line) for line in report[1:]]
        found = [f"{text} bound {bound}" for text, _, bound in Costs(definition).bounds()]
        self.note("reports", found != wanted and f"{name}: other bounds than the report's")

    def made_up(self, count):
        """Definitions that are made up, until so many were accepted."""
        seed = found = 0
        while found < count and seed < 10 * count:
            definition = made(seed)
            report = self.judged(definition)
            if not report[0].startswith("refused"):
                found += 1
                lines = self.folder / "events.jsonl"
                lines.write_text(events(definition, seed), encoding="utf-8")
                self.way_back("definitions made up", f"seed {seed}", definition, lines, self.folder / "definition.json")
                self.bounds(f"seed {seed}", definition, report)
            elif report[0].startswith(UNREAD):
                self.note("definitions made up", f"seed {seed}: {report[0]}")
            seed += 1

    # sources

    def examples(self):
        """The sources of the examples: each gives its definition, and is laid out. `--bounds` has rows for it."""
        for file in sorted((TOP / "examples").glob("**/*.gel")):
            name, source = file.relative_to(TOP), file.read_text(encoding="utf-8")
            try:
                again = compiled(source)
            except Fault as fault:
                self.note("examples", f"{name}:{place(source, fault.at)[0]}: {fault.text}")
                continue
            definition = json.loads((file.parent / "definition.json").read_text(encoding="utf-8"))
            fault = "another definition comes of it" if normal(again.definition) != normal(definition) else ""
            fault = fault or ("it is not laid out" if laid_out(source) != source else "") or ("" if table(str(name), again) else "no bounds")
            self.note("examples", fault and f"{name}: {fault}")

    def long_program(self):
        """A program that has more values than registers."""
        sums = "\n".join(f"  n = n + {it} * n; if n < {it} {{ box.n = n; }}" for it in range(30))
        source = f"{PRELUDE}program long(box: Box, n: int) {{\n{sums}\n  box.n = n;\n}}\n"
        try:
            said = self.judged(compiled(source).definition)[0]
            self.note("long programs", said if said.startswith("refused") else "")
        except Fault as fault:
            self.note("long programs", fault.text)

    def mistakes(self):
        """Broken sources: each is refused at its place, with its text."""
        for group, rows in MISTAKES.items():
            for text, words in rows:
                self.mistake(FRAMES[group].format(text), words, False)
        for text, words in JUDGED["top"]:
            self.mistake(FRAMES["top"].format(text), words, True)

    def mistake(self, text, words, is_judged):
        """One broken source."""
        marked = PRELUDE + text
        at, source = marked.index("§"), marked.replace("§", "")
        try:
            again = compiled(source)
            said = self.judged(again.definition)[0] if is_judged else ""
            if not said.startswith("refused"):
                self.note("mistakes", f"{text.strip()}: not refused")
                return
            raise Told(again).fault(said)
        except Fault as fault:
            is_there = fault.at == at and words in fault.text
            self.note("mistakes", "" if is_there else f"{text.strip()}: refused in line {place(source, fault.at)[0]}: {fault.text}")

    def changes(self, count):
        """Sources with changed tokens."""
        sources = [PRELUDE, *[it.read_text(encoding="utf-8") for it in sorted((TOP / "examples").glob("**/*.gel"))]]
        sources += [source_of(made(seed)) for seed in (0, 1, 3) if not self.judged(made(seed))[0].startswith("refused")]
        for seed in range(count):
            source = changed(sources[seed % len(sources)], seed)
            try:
                again = compiled(source)
                said = self.judged(again.definition)[0]
                fault = said if said.startswith(UNREAD) else "" if is_kept(source, again.definition) else "its layout means something else"
                self.note("changed sources", fault and f"seed {seed}: {fault}")
                if said.startswith("refused"):
                    raise Told(again).fault(said)
            except Fault as fault:
                is_there = 0 <= fault.at <= len(source) and fault.text
                self.note("changed sources", "" if is_there else f"seed {seed}: no place or no text")


    def pages(self):
        """The page: its sources compile and are laid out, and its tables have each member and each instruction. An editor's words are all there."""
        page = (TOP / "docs" / "gel.md").read_text(encoding="utf-8")
        for source in re.findall(r"(?ms)^```gel\n(.*?)^```$", page):
            try:
                said = self.judged(compiled(source).definition)[0]
                self.note("pages", said if said.startswith("refused") else laid_out(source) != source and "a source is not laid out")
            except Fault as fault:
                self.note("pages", f"a source of the page: {fault.text}")
        cells = set(re.findall(r"`([^`]+)`", " ".join(row.rpartition(" | ")[0] for row in page.splitlines() if row.startswith("| "))))
        absent = [name for name in (*members(), *OPERANDS) if name not in cells]
        self.note("pages", absent and f"the tables do not have {', '.join(absent)}")
        grammar = (TOP / "editors" / "gel" / "gel.tmLanguage.json").read_text(encoding="utf-8")
        for match in re.findall(r'"match": ("(?:[^"\\\\]|\\\\.)*")', grammar):
            re.compile(json.loads(match))
        known = set(re.findall(r"[a-z0-9-]+", grammar))
        absent = [word for word in (*WORDS, *BEGINS, *PROPERTY_WORDS, *SIGNAL_FLAGS, *ACCUMULATORS, *BIND_WORDS, *OPERANDS) if word not in known]
        self.note("pages", absent and f"editors/gel does not know {', '.join(absent)}")


def is_kept(source, definition):
    """Whether a source that is laid out means the same, and is laid out at once."""
    other = laid_out(source)
    return compiled(other).definition == definition and laid_out(other) == other


def members():
    """The names of all members of the format."""
    schema = json.loads((TOP / "schema" / "definition.schema.json").read_text(encoding="utf-8"))
    left, found = [schema], []
    while left:
        of = left.pop()
        if isinstance(of, dict) and of.get("type") == "object":
            found += of.get("properties", {})
        left += of.values() if isinstance(of, dict) else of if isinstance(of, list) else []
    return sorted(set(found))


def check(program, is_all):
    """Runs the tests on a sample or on all. The status is 1 where one fails."""
    if not program:
        print("gel: there is no program to ask: `./ui verify DEF` builds one within minutes, and PROGRAM names another")
        return 1
    began = time.monotonic()
    with tempfile.TemporaryDirectory() as folder:
        tests = Tests(program, folder)
        tests.mistakes()
        tests.pages()
        tests.long_program()
        tests.examples()
        tests.cases()
        tests.made_up(MADE[is_all])
        tests.changes(CHANGED[is_all])
    for fault in tests.faults[:40]:
        print(fault)
    counted = ", ".join(f"{count} {sort}" for sort, count in tests.counts.items())
    print(f"gel: {counted} in {time.monotonic() - began:.0f} seconds, {len(tests.faults)} not as they should be")
    return 1 if tests.faults else 0
