# What the comparisons share: both programs are built and run on the same files; the inputs of a file, the lines that are printed, what is counted,
# and where two outputs differ. A script over it has its inputs, what it expects of them, and what must occur.
import collections
import contextlib
import hashlib
import os
import subprocess
import sys
import tempfile

from building import ROOT

RUN, BUILD = (os.path.join(ROOT, "tests", name) for name in ("run-program", "build-program"))
# What `single` and the independent program read inputs of, and the lines that both print for one.
LINES = {"steps": 6, "packets": 1, "messages": 1, "writes": 1, "calls": 1, "tables": 1}
# So many characters of a line are shown before and behind a difference.
NEAR = 2000


def fail(said):
    """Ends the script: it has failed, and why."""
    print(os.path.basename(sys.argv[0]) + ": FAILED: " + said)
    sys.exit(1)


def run(words, given=b""):
    """A program's run with these bytes as standard input: what it prints, what it says on standard error, its status."""
    return subprocess.run(words, input=given, capture_output=True, cwd=ROOT)


def must(words, given=b""):
    """What is printed by a run that goes well: status 0, and nothing on standard error."""
    done = run(words, given)
    if done.returncode != 0 or done.stderr:
        said = (done.stdout[-2000:] + done.stderr[-2000:]).decode(errors="replace")
        fail("%s: status %d\n%s" % (" ".join(words), done.returncode, said))
    return done.stdout


def proved(name, words, given=b""):
    """What a proved program prints."""
    return must([RUN, name] + words, given)


def verdict_of(words, status, given=b""):
    """What a program that checks recorder files prints, and what it says on standard error; with this status where it says something, else with 0."""
    done = run(words, given)
    if done.returncode != (status if done.stderr else 0):
        fail("%s: status %d, prints %r, says %r" % (" ".join(words), done.returncode, done.stdout[:100], done.stderr[:500]))
    return done.stdout, done.stderr


def emulator():
    """The words that come before an x86-64 program's own: on another processor the emulator, as tests/run-program has it."""
    return [] if os.uname().machine == "x86_64" else ["qemu-x86_64"]


def number(given):
    """The number that bytes make, highest byte first."""
    return int.from_bytes(given, "big")


def contents(path):
    """The bytes of a file."""
    with open(path, "rb") as file:
        return file.read()


def inputs(given, size, between=lambda fields: 0):
    """The inputs of a file: `size` bytes of fields, the last two a length, and the rest: so many bytes, and those that `between` gives."""
    at = 0
    while at < len(given):
        fields = given[at:at + size]
        end = at + size + between(fields) + number(fields[-2:])
        yield fields, given[at + size:end]
        at = end


def same(what, ours, theirs, given=lambda at: "", names=("proved program", "independent")):
    """Fails where two outputs differ: at which line and byte, what went in there, and both lines; of long ones, what is near that byte."""
    if ours == theirs:
        return
    ours, theirs = ours.split(b"\n"), theirs.split(b"\n")
    at = next((at for at, (a, b) in enumerate(zip(ours, theirs)) if a != b), min(len(ours), len(theirs)))
    both = [b"".join(lines[at:at + 1]) for lines in (ours, theirs)]
    byte = len(os.path.commonprefix(both))
    near = [line[max(0, byte - NEAR):byte + NEAR] for line in both]
    said = "".join("\n%s: %s" % pair for pair in zip(names, near))
    fail("%s: they differ at line %d, byte %d%s%s" % (what, at + 1, byte + 1, given(at), said))


def times(counts, names):
    """How often each of these occurred, in words."""
    return ", ".join("%s %d" % (name, counts[name]) for name in names)


def answered(counts, answers):
    """How often each of these answers occurred."""
    return " ".join("%s:%d" % (answer, counts[answer]) for answer in answers)


def summed(pairs):
    """Counts of names, those of one name added up."""
    counts = collections.Counter()
    for name, times_of_it in pairs:
        counts[name] += times_of_it
    return counts


def must_occur(names, counts, how=""):
    """Fails where one of these never occurred."""
    never = [name for name in names if not counts[name]]
    if never:
        fail("never occurred%s: %s" % (how, never))


def no_other(names, counts):
    """Fails where another one than these occurred."""
    other = [name for name in counts if counts[name] and name not in names]
    if other:
        fail("not one that 01 has there: %s" % other)


def independent_built():
    """The independent program, built once for all comparisons of the same source: its path."""
    source = hashlib.sha256()
    for place, _, names in sorted(os.walk(os.path.join(ROOT, "independent"))):
        for name in sorted(names):
            source.update(contents(os.path.join(place, name)))
    built = os.path.join(ROOT, "target", "independent-" + source.hexdigest()[:16])
    if not os.path.exists(built):
        must([os.path.join(ROOT, "independent", "build"), built + ".part"])
        os.rename(built + ".part", built)
    return built


class Programs:
    """The independent program beside the proved ones, and a folder for the files that go into them."""

    def __init__(self, folder):
        self.folder = folder
        self.built = independent_built()

    def independent(self, words, given=b""):
        """What the independent program prints."""
        return must([self.built] + words, given)

    def path(self, name):
        """Where a file of this name stands."""
        return os.path.join(self.folder, name)

    def file(self, name, given):
        """Writes a file; gives its path."""
        with open(self.path(name), "wb") as file:
            file.write(given)
        return self.path(name)

    def made(self, kind, seed, count):
        """Has a folder filled with `count` random files from a seed; gives its path."""
        folder = self.path("%s-%d" % (kind, seed))
        os.mkdir(folder)
        told = self.independent([kind, str(seed), str(count), folder]).decode()
        never = [line for line in told.splitlines() if line.startswith("never:")]
        return fail("seed %d: %s" % (seed, never)) if never else folder

    def agree(self, what, name, words, given=b""):
        """What a proved program prints, and the independent one under that name; fails where they differ, and where it is nothing."""
        ours = proved(name, words, given)
        same(what, ours, self.independent([name] + words, given))
        return ours or fail(what + ": nothing is printed")

    def random(self, kind, seed, count):
        """The bytes of a file of `count` random inputs from a seed, and the lines that both programs print for it; fails where they differ."""
        words, path = [kind, str(seed), str(count)], self.path("%s-%d" % (kind, seed))
        theirs = self.independent(words + [path])
        # without a file the independent program prints a heading, and a line for each input with its fields
        given = lambda at: "\ngiven: %s" % [line[:2 * NEAR] for line in self.independent(words).splitlines()[at // LINES[kind] + 1:][:1]]
        ours = proved("single", [kind, path])
        same("independent " + " ".join(words), ours, theirs, given)
        return contents(path), ours.decode().splitlines()

    def each(self, kind, seeds, size, between=lambda fields: 0):
        """The random inputs of each seed and count: the fields, the rest, and the line that both programs print for it."""
        for seed, count in seeds:
            given, lines = self.random(kind, seed, count)
            made = list(inputs(given, size, between))
            if len(made) != len(lines):
                fail("seed %d: %d inputs of %s, %d lines" % (seed, len(made), kind, len(lines)))
            for (fields, rest), line in zip(made, lines):
                yield fields, rest, line


@contextlib.contextmanager
def programs(*names):
    """Proves and builds these programs, builds the independent one, and lends both with a folder."""
    must([BUILD] + list(names))
    with tempfile.TemporaryDirectory() as folder:
        yield Programs(folder)
