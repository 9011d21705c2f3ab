"""Runs the toolchain's command for scripts/prove, which keeps other runs out of all crates itself.

The command keeps other runs out of its crate and of all crates below it, so two runs that need one crate would wait for each other. Here it
does not. Each sum that it makes of a crate and all crates below has every crate's part made once, not once for each way that leads to it.
The words are the command's file and then its own words.
"""
import fcntl
import runpy
import sys
from importlib.machinery import SourceFileLoader


def made_once(stamp):
    """A method that makes the sums of a crate from those of the crates below, each once."""
    sums = {}

    def once(crate):
        is_first = not sums
        known = sums.setdefault(crate.folder, None)
        try:
            if known is None:
                sums[crate.folder] = stamp(crate)
            return sums[crate.folder]
        finally:
            if is_first:
                sums.clear()

    return once


def load(loader, module, plain=SourceFileLoader.exec_module):
    """Loads a module, and has the sums of its crates made once if it has such crates."""
    plain(loader, module)
    if hasattr(getattr(module, "Crate", None), "stamp"):
        module.Crate.stamp = made_once(module.Crate.stamp)


fcntl.flock = lambda *_: None
SourceFileLoader.exec_module = load
sys.argv = sys.argv[1:]
runpy.run_path(sys.argv[0], run_name="__main__")
