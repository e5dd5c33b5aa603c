# The ages that calls report (AGE-7, AGE-8), for the comparisons: each is worked out here, from the record and the message that went in,
# and held against what is printed; so is the verdict. It counts with which answers and at which edges an age occurred, and where none did
# though the message has a stamp.
import collections

from answers import AGED, OPEN
from comparing import fail, must_occur, number

# Of a message: its type, its stamp, its own count at arrival.
TYPE, STAMP, ARRIVAL = 0, slice(3, 7), slice(11, 15)
# What must have occurred: an age other than 0 with each answer, with each that can release where it does, where E counts, and where max
# would give another; each edge of a verdict; and an answer without an age where the formula gives one other than 0.
REPORTED = ["with " + answer for answer in AGED] + ["with %s that releases" % answer for answer in AGED if answer != "0"]
REPORTED += ["with an E", "with another max"]
EDGES = ["0 at 0", "0 at T_max", "204 at 0", "204 at T_max", "205 at T_max + 1", "205 at 2^31-1", "206 at -1", "206 at -2^31"]
UNREPORTED = ["open, " + answer for answer in ("201", "202", "203", "211")]
UNREPORTED += ["not open, " + answer for answer in ("0", "202", "203", "204", "208", "209")]


def centred(difference):
    """KIND-3: the number of -2^31 .. 2^31-1 that differs by a multiple of 2^32."""
    return (difference + 2 ** 31) % 2 ** 32 - 2 ** 31


def age_of(before, now, message):
    """AGE-1, by the record's E and min; None where the message is too short to have a stamp."""
    return centred(now - number(message[STAMP]) + before["E"] - before["min"]) if len(message) >= STAMP.stop else None


def verdicts(age, t_max):
    """AGE-2 to AGE-5: the answers that go with an age."""
    if age < 0:
        return ["206"]
    return ["205"] if age > t_max else ["0", "204"]


class Ages:
    """The ages of many calls: each is judged as it comes, and counted."""

    def __init__(self):
        self.counts = collections.Counter()

    def note(self, call, before, now, message, answer, released, reported):
        """A call on a record, or on none: fails where another age is reported than the record and the message give, or another verdict."""
        age = age_of(before, now, message) if call == "receive" and before else None
        reports = age is not None and before["phase"] == OPEN and answer in AGED
        wanted, fitting = (age, verdicts(age, before["T_max"])) if reports else (0, [answer])
        if reported != str(wanted) or answer not in fitting:
            said = call, now, message.hex(), before, answer, reported, wanted, " or ".join(fitting)
            fail("%s at %d of %s on %s is answered %s, age %s; wanted is age %d, with %s" % said)
        if reports:
            self.count(age, before, answer, released)
        elif age:
            self.counts["%s, %s" % ("open" if before["phase"] == OPEN else "not open", answer)] += 1

    def count(self, age, before, answer, released):
        """An age that is reported."""
        edges = {0: "0", before["T_max"]: "T_max", before["T_max"] + 1: "T_max + 1", 2 ** 31 - 1: "2^31-1", -1: "-1", -2 ** 31: "-2^31"}
        if age in edges:
            self.counts["%s at %s" % (answer, edges[age])] += 1
        if age != 0:
            self.counts["with " + answer] += 1
            self.counts["with %s that releases" % answer] += released
            self.counts["with an E"] += before["E"] != 0
            self.counts["with another max"] += before["max"] != before["min"]

    def told(self):
        """Says how often each occurred that must; fails where one never did."""
        for what, names in [("ages but 0", REPORTED), ("ages at the edges", EDGES), ("no age where the formula gives one", UNREPORTED)]:
            print(what + ": " + "; ".join("%s: %d" % (name, self.counts[name]) for name in names))
            must_occur(names, self.counts, " (%s)" % what)
