"""Builds the static library of `crates/ui_c` from its sources without any proof, and keeps it until a source changes.

    python3 scripts/modules/unproved_library.py    builds it, where it is not there or a source has changed, and prints its name

The toolchain makes a static library of proved crates alone. It tries an unproved program (`rt try`), so the functions are put into a program
that calls each of them once, and its object file is kept as scripts/unproved keeps that of `ui`. In this file the functions are then called as
in C, and everything else is made local. The code is not optimised, and stops at an overflow or a bad index. Nothing of it is proved.
"""
import fcntl
import hashlib
import importlib.machinery
import importlib.util
import os
import re
import shutil
import subprocess
import sys
import tempfile
import time
from pathlib import Path

TOP = Path(__file__).resolve().parent.parent.parent
sys.path.insert(0, str(TOP / "scripts" / "modules"))
sys.dont_write_bytecode = True
from crate_lists import crate_lines, needed_crates  # noqa: E402

KEPT = TOP / ".unproved"
LIBRARY = KEPT / "libui_c.a"
# A call of each function. The words behind the handle are made of the types of the parameters.
ARGUMENTS = {"Global": "alloc", "&mut SessionHandle": "&mut ui", "&mut [u8]": "&mut out", "&[u8]": 'b""', "&mut u64": "&mut moment", "&mut usize": "&mut whole", "u64": "0"}
MAIN = """
fn main(rt: HostRuntime) {{
    let alloc = rt.alloc();
    let mut ui = SessionHandle::closed();
    let mut out = [0u8; 1];
    let mut moment = 0u64;
    let mut whole = 0usize;
{calls}
    drop(ui.into_session(alloc));
}}
"""
EXPORT = re.compile(r'pub extern "C" fn (\w+)\(([^)]*)\)( -> \w+)?', re.S)


def unproved():
    """The script that builds the program without proofs, as a module."""
    loader = importlib.machinery.SourceFileLoader("unproved", str(TOP / "scripts" / "unproved"))
    module = importlib.util.module_from_spec(importlib.util.spec_from_loader("unproved", loader))
    loader.exec_module(module)
    return module


def sources_sum():
    """A sum of all sources that the library is built from, and of this script."""
    found = hashlib.sha256((TOP / "crates.txt").read_bytes() + Path(__file__).read_bytes())
    for name in needed_crates(TOP, "ui_c"):
        for file in sorted((TOP / "crates" / name / "src").rglob("*")):
            if file.is_file():
                found.update(f"{file.relative_to(TOP)}\n".encode() + file.read_bytes())
    return found.hexdigest()


def exported(text):
    """The functions of the library, by name: the calls of them."""
    found = {}
    for name, parameters, result in EXPORT.findall(text):
        types = [it.split(":", 1)[1].strip() for it in parameters.split(",") if it.strip()]
        call = f"{name}({', '.join(ARGUMENTS[it] for it in types)});"
        found[name] = f"    let _ = {call}" if result else f"    {call}"
    return found


def copy_sources(folder):
    """Copies the crates below the library into a folder, with the library as a program. Returns the names of its functions."""
    needed, lines = needed_crates(TOP, "ui_c"), crate_lines(TOP)
    rows = [lines[it].replace("ui_c staticlib:", "ui_c:") for it in needed]
    (folder / "crates.txt").write_text("".join(f"{it}\n" for it in rows), encoding="utf-8")
    for name in needed:
        shutil.copytree(TOP / "crates" / name / "src", folder / "crates" / name / "src")
    source = folder / "crates/ui_c/src"
    text = (source / "lib.rt").read_text(encoding="utf-8")
    calls = exported(text)
    (source / "lib.rt").unlink()
    (source / "main.rt").write_text(text + MAIN.format(calls="\n".join(calls.values())), encoding="utf-8")
    return list(calls)


def symbols(file):
    """The functions that an object file defines, by name."""
    out = subprocess.run(["nm", "--defined-only", "--format=posix", file], stdout=subprocess.PIPE, text=True, check=True).stdout
    return [line.rsplit(" ", 3)[0] for line in out.splitlines() if " t " in line.lower()]


def export(built, names):
    """Makes the functions of an object file those of a library: each has its name in C, and nothing else can be called. Returns what is missing."""
    found = symbols(built)
    words, missing = ["objcopy"], []
    for name in names:
        inner = next((it for it in found if it == name or it.endswith(f"::{name}")), None)
        if inner is None:
            missing.append(name)
        else:
            words += [f"--redefine-sym={inner}={name}", f"--globalize-symbol={name}"]
    subprocess.run([*words, built], check=True)
    subprocess.run(["objcopy", *(f"--keep-global-symbol={it}" for it in names), built], check=True)
    return missing


def built_object(kit, folder, script):
    """The object file of the program that calls the functions, with the functions' names, or None where that is not built. Then it has said why."""
    built = folder / "whole.o"
    copy = script.kit_copy(kit, folder, built)
    names = copy_sources(folder / "copy")
    ran = subprocess.run([str(copy / "bin/rt"), "try", "--steps", "1"], cwd=folder / "copy/crates/ui_c", stdin=subprocess.DEVNULL,
                         stdout=subprocess.PIPE, stderr=subprocess.STDOUT, text=True, errors="replace")
    if not built.exists():
        print(ran.stdout, end="", file=sys.stderr)
        return None
    missing = export(built, names)
    if missing:
        script.say(f"the toolchain has left out {', '.join(missing)}")
    return None if missing else built


def build(of):
    """Builds the library and keeps it with the sum of its sources. Returns whether that worked."""
    began, script = time.monotonic(), unproved()
    script.say("building the library for C without proofs, once: this takes two to four minutes")
    ran = subprocess.run([os.environ.get("RT") or "rt", "doc"], stdout=subprocess.PIPE, text=True)
    kit = Path(ran.stdout.strip()).parent
    with tempfile.TemporaryDirectory(prefix="ui-") as name:
        folder = Path(name)
        (folder / "copy").mkdir()
        built = built_object(kit, folder, script)
        if built is None:
            return False
        LIBRARY.unlink(missing_ok=True)
        subprocess.run([kit / "toolchain/bin/llvm-ar", "rcs", LIBRARY, built], check=True)
    (KEPT / "library_sources").write_text(of, encoding="utf-8")
    script.say(f"built in {time.monotonic() - began:.0f} seconds, and kept in {KEPT.name}/ until a source changes")
    return True


def main():
    KEPT.mkdir(exist_ok=True)
    with open(KEPT / "library_lock", "w", encoding="utf-8") as lock:
        fcntl.flock(lock, fcntl.LOCK_EX)
        of, kept = sources_sum(), KEPT / "library_sources"
        is_fresh = LIBRARY.exists() and kept.exists() and kept.read_text(encoding="utf-8") == of
        if not is_fresh and not build(of):
            return 1
    print(LIBRARY)
    return 0


if __name__ == "__main__":
    sys.exit(main())
