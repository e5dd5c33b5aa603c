# The calls from C over a connection's row, for tests/check-c: each is judged here, from what went in (whether it is refused with 109, that a refusal changes
# no byte, what else its answer must look like), and what it was is counted: call, phase and answer, and each kind of damage to a row.
import collections
import struct

from ages import Ages
from answers import CALLS, OF_ROWS, OPEN, ROW_CALLS, triples
from comparing import answered, fail, must_occur, no_other, number, times
from sheet import ANSWER_ROW, BEFORE, FIELDS, INPUT, NAMES, READ, RECORD, ROLES, WRITE, fields_in

# A row's fields as they are read and written: MIN and MAX as their 32 bits.
ROW = struct.Struct(">" + "".join({1: "B", 2: "H", 4: "I"}[width] for _, width in FIELDS))
# The ranges of a row that is not closed, beside E's up to T_max and the error counter's under the limit.
RANGES = {"phase": (1, 6), "N": (1, 1000), "T_max": (1, 60000), "T_start": (1, 60000), "T_off": (0, 60000), "limit": (1, 255)}
# Both sides of each end of a range that the field's bytes can say; of E over T_max, of the error counter over the limit.
EDGES = {"phase": (6, 7, 255), "N": (0, 1, 1000, 1001), "T_max": (0, 1, 60000, 60001), "T_start": (0, 1, 60000, 60001), "T_off": (0, 60000, 60001),
         "limit": (0, 1, 255), "E over T_max": (0, 1), "errors over limit": (-1, 0)}
# What is written for the peer: by an initiator's begin, by each phase's receive that is answered 0, and before the data of a send. An initiator's 209
# writes what its 0 would.
BEGUN, REPLIES, SENT = 19, {1: 15, 2: 16, 3: 19, 4: 25}, 15
# Where a message's data starts.
DATA = 15
# What must occur of damage: each fault alone, on a row in use and in a closed one; each byte of a closed row; each edge; each length.
IN_USE, LEFT_OVER = [*RANGES, "E", "errors"], ["closed, " + name for name in NAMES if name != "phase"]
ALONE = ["only " + fault for fault in IN_USE + LEFT_OVER]
BYTES = ["only byte %d" % at for at in range(1, RECORD)]
AT_EDGES = ["%s %d" % (name, end) for name, ends in EDGES.items() for end in ends]
LENGTHS = ["length %d" % length for length in range(121)]
# The same of the numbers of a writing, and of another count of them.
TOO_LARGE = ["too large, " + name for name, width in FIELDS if width < 4]
WRITES = ["write, only " + fault for fault in IN_USE + LEFT_OVER + TOO_LARGE + ["count"]]
# The answers that a sound row has in each phase.
IN_PHASES = [triple for triple in sorted(triples()) if triple[2] != "101"]


def faults(row):
    """Why a row is refused: its length, or the names of the fields; nothing where it is sound."""
    if len(row) != RECORD:
        return ["length"]
    fields = fields_in(row)
    if fields["phase"] == 0:
        return ["closed, " + name for name in NAMES if fields[name]]
    outside = [name for name, (low, high) in RANGES.items() if not low <= fields[name] <= high]
    # where the limit itself is 0, the counter is not what is wrong
    return outside + ["E"] * (fields["E"] > fields["T_max"]) + ["errors"] * (0 < fields["limit"] <= fields["errors"])


def packed(numbers):
    """The row of these numbers, None where they have none; and why it is not written."""
    if len(numbers) != len(FIELDS):
        return None, ["count"]
    wide = ["too large, " + name for (name, width), given in zip(FIELDS, numbers) if given >= 256 ** width]
    row = None if wide else ROW.pack(*numbers)
    return row, wide or faults(row)


class Call:
    """One call: what went in, and what came out, which is a line of four words."""

    def __init__(self, fields, rest, line):
        kind, self.now, size, self.room, self.answer_size, _ = INPUT.unpack(fields)
        self.kind, self.row, self.bytes, self.line = ROW_CALLS[kind], rest[:size], rest[size:], line
        self.answer, *after = line.split(" ")
        self.row_after, self.out, self.said = [b"" if word == "-" else bytes.fromhex(word) for word in after]
        self.refused = len(self.answer) == 3 and self.answer[0] == "1"
        numbers = [number(self.bytes[at:at + 4]) for at in range(0, len(self.bytes), 4)]
        self.written_row, self.faults = packed(numbers) if self.kind == WRITE else (None, faults(self.row))

    def must(self, holds, said):
        """Fails where something does not hold of the call."""
        if not holds:
            fail("%s\n%s at %d of %s on the row %s, room %d, answer row of %d bytes\n%s" % (
                said, self.kind, self.now, self.bytes.hex() or "-", self.row.hex() or "-", self.room, self.answer_size, self.line))

    def before(self):
        """The bytes of out and answer row before the call."""
        room = {"tick": 0, "close": 0, WRITE: 0, READ: 4 * self.room}.get(self.kind, self.room)
        return BEFORE * room, BEFORE * (0 if self.kind in (READ, WRITE) else self.answer_size)

    def judge(self, ages):
        """A 109 just where it is due, a refusal that changes nothing, and otherwise what the answer must look like."""
        due = bool(self.faults) or (self.kind in CALLS.values() and self.answer_size != ANSWER_ROW.size)
        self.must((self.answer == "109") == due, "109 is " + "due" * due + "not due" * (not due))
        out, said = self.before()
        if self.refused:
            self.must((self.row_after, self.out, self.said) == (self.row, out, said), "a refusal changed something")
        elif self.kind == READ:
            fields = b"".join(field.to_bytes(4, "big") for field in ROW.unpack(self.row))
            self.must((self.row_after, self.out) == (self.row, fields + out[len(fields):]), "not the fields of the row")
        elif self.kind == WRITE:
            self.must(self.row_after == self.written_row + self.row[RECORD:], "not the row of the numbers")
        else:
            self.judge_answer(out)
        if self.kind in CALLS.values():
            released, *_, age = (0, 0) if self.refused else ANSWER_ROW.unpack(self.said)
            ages.note(self.kind, None if self.faults else fields_in(self.row), self.now, self.bytes, self.answer, released, str(age))

    def judge_answer(self, out):
        """The answer row of a call that was not refused, and what it says of row and out."""
        released, written, place, length, _ = ANSWER_ROW.unpack(self.said)
        delivers = self.kind == "receive" and self.row[0] == OPEN and self.answer in ("0", "204") and self.bytes[DATA:]
        self.must(not faults(self.row_after) and released == (not any(self.row_after)), "not a row that fits `released`")
        self.must(written == self.to_peer() and self.out[written:] == out[written:], "not so many bytes for the peer, or more have changed")
        self.must((place, length) == ((DATA, len(self.bytes) - DATA) if delivers else (0, 0)), "not what is delivered")

    def to_peer(self):
        """How many bytes a call that was not refused writes."""
        if self.kind == "begin":
            return BEGUN if self.bytes[0] == ROLES["initiator"] else 0
        if self.kind == "send":
            return SENT + len(self.bytes)
        phase = self.row[0]
        return REPLIES.get(phase, 0) if self.kind == "receive" and self.answer in (("0", "209") if phase == 2 else ("0",)) else 0


class Rows:
    """Many calls: each is judged as it comes, and counted."""

    def __init__(self):
        self.answers, self.phases, self.damage, self.ages = collections.Counter(), collections.Counter(), collections.Counter(), Ages()

    def note(self, call):
        """Judges and counts a call."""
        call.judge(self.ages)
        self.answers[call.kind, call.answer] += 1
        if len(call.faults) == 1:
            self.damage[("write, only " if call.kind == WRITE else "only ") + call.faults[0]] += 1
        if call.kind != WRITE:
            self.note_row(call)
        if call.kind in CALLS.values() and call.answer != "109":
            self.phases[call.kind, call.row[0], call.answer] += 1

    def note_row(self, call):
        """Counts a row's length, the single byte that is not 0 in it, and the ends of ranges where it stands with no other fault."""
        self.damage["length %d" % len(call.row)] += 1
        if len(call.row) != RECORD:
            return
        not_zero = [at for at, byte in enumerate(call.row) if byte]
        if len(not_zero) == 1:
            self.damage["only byte %d" % not_zero[0]] += 1
        fields = fields_in(call.row)
        fields["E over T_max"], fields["errors over limit"] = fields["E"] - fields["T_max"], fields["errors"] - fields["limit"]
        for name, ends in EDGES.items() if fields["phase"] else []:
            if fields[name] in ends and set(call.faults) <= {name.split(" ")[0]}:
                self.damage["%s %d" % (name, fields[name])] += 1

    def told(self):
        """Says how often each answer and each kind of damage occurred; fails where one that must never did, and where another answer did."""
        listed = [(call, answer) for call, answers in OF_ROWS.items() for answer in answers]
        for call, answers in OF_ROWS.items():
            print(call + ": " + answered({answer: self.answers[call, answer] for answer in answers}, answers))
        for names, counts in (listed, self.answers), (IN_PHASES, self.phases):
            must_occur(names, counts)
            no_other(names, counts)
        print("on sound rows each of the %d pairs of a call in a phase and an answer that 01 has for it occurred, and no other" % len(IN_PHASES))
        print("refused for one field alone: " + "; ".join("%s: %d" % (name[len("only "):], self.damage[name]) for name in ALONE))
        print("at the ends of ranges: " + times(self.damage, AT_EDGES))
        least = [("each byte alone in a closed row", BYTES), ("each length from 0 to 120", LENGTHS), ("writings refused for each reason alone", WRITES)]
        for what, names in least:
            print("%s: at least %d times" % (what, min(self.damage[name] for name in names)))
        must_occur(ALONE + AT_EDGES + BYTES + LENGTHS + WRITES, self.damage)
        self.ages.told()
        print("109 is answered just where it is due; no refusal changed a byte of row, out or answer row")
