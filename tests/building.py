# What is built from the crates, for the tests: whether a built file is newer than all that it is made from, and the crates that one leans on.
import os
import shutil

ROOT = os.path.realpath(os.path.join(os.path.dirname(os.path.abspath(__file__)), ".."))


def needs(crate):
    """The crates of this repository that a crate leans on, as its line in crates.txt names them."""
    with open(os.path.join(ROOT, "crates.txt")) as listed:
        lines = dict(line.split("#")[0].split(":") for line in listed if ":" in line.split("#")[0])
    words = {line.split()[0]: named.split() for line, named in lines.items()}
    return [need for need in words[crate] if need in words]


def sources(crate):
    """What a crate is made from: the toolchain, the list of crates, and of the crate and those that it leans on every file and folder, but what was built."""
    yield from (os.path.realpath(shutil.which("rt")), os.path.join(ROOT, "crates.txt"))
    for name in [crate] + needs(crate):
        top = os.path.join(ROOT, "crates", name)
        for part in ("src", "specs", "proofs"):
            for place, _, names in os.walk(os.path.join(top, part)):
                yield from [place] + [os.path.join(place, name) for name in names]


def is_new(path, crate, *more):
    """Whether a file that was built from a crate, and from these files, is newer than all of them."""
    # A source's time is that of its last change of any kind, which no tool sets back: that of its contents may be old after a move or a copy.
    return os.path.exists(path) and os.stat(path).st_mtime > max(os.stat(source).st_ctime for source in [*sources(crate), *more])
