# The hosts in C: each is compiled with all warnings as errors, linked with the static library, and run; for tests/check-c and tests/check-sheet.
import os

from building import is_new
from comparing import ROOT, emulator, must

WARNINGS = "-std=c99 -Wall -Wextra -Wpedantic -Wconversion -Wshadow -Wstrict-prototypes -Wmissing-prototypes -Werror -O2".split()
HOSTS = {"two_boxes": "examples/two_boxes.c", "replay": "examples/replay.c", "rows": "tests/rows.c"}
LIBRARY, MAKER, CRATE = "target/libzorakunju.a", "tools/static-library", "row_calls_c"


class Hosts:
    """Hosts in C, built for one processor and with one compiler's flags, and run."""

    def __init__(self, both, kind, compiler, flags, library, before=(), names=tuple(HOSTS)):
        self.kind, self.before, self.built = kind, list(before), {}
        for name in names:
            self.built[name] = both.path("%s-%s" % (name, kind))
            must([compiler] + WARNINGS + flags + ["-Iinclude", "-o", self.built[name], HOSTS[name], library])

    def words(self, name, words=()):
        """What runs a host."""
        return self.before + [self.built[name]] + list(words)

    def prints(self, name, words=(), given=b""):
        """What a host prints."""
        return must(self.words(name, words), given)


def x86_tool(name):
    """The compiler, or a tool that comes with it, for x86-64."""
    return name if os.uname().machine == "x86_64" else "x86_64-linux-gnu-" + name


def x86_hosts(both, names=tuple(HOSTS)):
    """Hosts for x86-64, linked with the library as it is: on another processor they run under the emulator."""
    return Hosts(both, "x86-64", x86_tool("gcc"), ["-static"], LIBRARY, emulator(), names)


def make_library():
    """Makes the library, unless it is newer than all that it is made from: making it proves its crates, which tests/check-c has just done in the gate."""
    if not is_new(os.path.join(ROOT, LIBRARY), CRATE, os.path.join(ROOT, MAKER)):
        must([MAKER])
