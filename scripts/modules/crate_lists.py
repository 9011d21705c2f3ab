"""Reads crates.txt: the crates of the repository, what each depends on, and how large it is."""
PARTS = ("src", "specs", "proofs")


def crate_lines(top):
    """The line of each crate of the repository, by its name, in the order of the file, which is lowest first."""
    found = {}
    for line in (top / "crates.txt").read_text(encoding="utf-8").splitlines():
        name, colon, _ = line.partition("#")[0].partition(":")
        if colon and name.split():
            found[name.split()[0]] = line
    return found


def dependencies(top):
    """The crates of the repository that each crate names, by its name, in the order of the file."""
    lines = crate_lines(top)
    return {name: [it for it in line.partition("#")[0].partition(":")[2].split() if it in lines] for name, line in lines.items()}


def needed_crates(top, *names):
    """Some crates and all that they depend on, lowest first."""
    of, wanted = dependencies(top), set(names)
    for name in reversed(list(of)):
        if name in wanted:
            wanted.update(of[name])
    return [name for name in of if name in wanted]


def crate_size(top, name):
    """The bytes of a crate's sources and proofs, by which the time that its proof takes is estimated."""
    files = (file for part in PARTS for file in (top / "crates" / name / part).rglob("*"))
    return sum(file.stat().st_size for file in files if file.suffix in (".rt", ".antt"))
