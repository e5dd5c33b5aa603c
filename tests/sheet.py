# Reads the test sheet's cases (tests/cases, described in tests/cases/README.md): what goes into the programs, in bytes, and what must come out.
import itertools
import os
import re
import struct

from answers import AGED, CALLS, OPEN, PHASES, ROW_CALLS

CASES = os.path.join(os.path.dirname(os.path.abspath(__file__)), "cases")
FILES = ["links.cases", "packets.cases", "messages.cases", "calls.cases", "rows.cases", "traces.cases", "sample.trace", "recordings.cases"]
KINDS = {name: number for number, name in CALLS.items()}
MESSAGES = {1: "OffsetStart", 2: "OffsetAnsw1", 3: "OffsetAnsw2", 4: "OffsetEst", 5: "OffsetEnd", 6: "application"}
# A packet's fields before its user data.
HEADER = 10
MARK = "52 32"
HEADING = "slot answer age"
# A connection record's fields in the order of the files of calls that `single` reads, with their widths; min and max in two's complement.
FIELDS = [("phase", 1), ("N", 2), ("T_max", 4), ("E", 4), ("T_start", 4), ("T_off", 4), ("limit", 1), ("own number", 2), ("period", 4), ("last number", 2),
          ("peer stamp", 4), ("arrival", 4), ("wait start", 4), ("min", 4), ("max", 4), ("errors", 1), ("clock", 4)]
# A record's bytes in such a file, and its fields as numbers; min and max are signed.
RECORD = sum(width for _, width in FIELDS)
NUMBERS = struct.Struct(">" + "".join("i" if name in ("min", "max") else {1: "B", 2: "H", 4: "I"}[width] for name, width in FIELDS))
# Begin's bytes in a trace after the role.
BEGIN = [("N", 2), ("T_max", 4), ("E", 4), ("T_start", 4), ("T_off", 4), ("limit", 1), ("first number", 2), ("period", 4)]
ROLES = {"initiator": 0, "responder": 1}


class Wrong(Exception):
    """A case that can't be read."""


class Item:
    """A line that begins at the margin, with the hex lines below it."""

    def __init__(self, at, text, comment):
        self.at, self.text, self.comment = at, text, comment
        self.hex = []


class Case:
    """One case. `rules` are the ids of the rules that it shows; `given` goes in, `wanted` must come out, `answer` is what it is about, and the sheet says
    `says` of it; `triple` is call, phase, answer where it is about one; `readings` are messages with the fields that a comment gives them."""

    def __init__(self, file, name):
        self.file, self.name = file, name
        self.items, self.rules = [], []
        self.kind = self.given = self.wanted = self.answer = self.says = self.triple = None
        self.readings = []


def bytes_of(text):
    made = b""
    for token in text.split():
        found = re.fullmatch(r"([0-9A-F]{2})(?:\*([0-9]+))?", token)
        if not found:
            raise Wrong("%s: not a byte" % token)
        made += bytes([int(found[1], 16)]) * int(found[2] or 1)
    return made


# Bytes in hex for a person, as a case writes them.
def told(given):
    runs = [(byte, len(list(same))) for byte, same in itertools.groupby(given)]
    return " ".join("%02X*%d" % (byte, times) if times > 16 else " ".join(["%02X" % byte] * times) for byte, times in runs)


# What is printed, for a person: many bytes as a case writes them.
def shortened(text):
    return re.sub(r"\b(?:[0-9A-F]{2}){100,}\b", lambda found: told(bytes.fromhex(found[0])), text)


def big_endian(value, width):
    return (value % 256 ** width).to_bytes(width, "big")


# "N 3, T_max 40" as a dictionary; each word must be one of those that are known.
def fields_of(text, known):
    given = {}
    for part in text.split(","):
        name, _, value = part.strip().rpartition(" ")
        if name not in known or name in given or not re.fullmatch(r"-?[0-9]+", value):
            raise Wrong("%s: not one of %s with a number, or said twice" % (part.strip(), ", ".join(known)))
        given[name] = int(value)
    return given


# The check of a header, bit by bit: of each byte its lowest bit goes in first; the register is all ones before, and has the highest term in its lowest bit.
def check_of(header):
    register = 0xFFFF
    for byte in header:
        for bit in range(8):
            odd = (register ^ byte >> bit) & 1
            register = register >> 1 ^ (0x8408 if odd else 0)
    return register


# What a comment beside a packet must say of its bytes.
def packet_reading(packet):
    fields = packet[:2], packet[2:3], packet[3:4], packet[4:6], packet[6:7], packet[7:8]
    right = "right" if int.from_bytes(packet[8:10], "big") == check_of(packet[:8]) else "wrong"
    return "length %d, version %d, application type %d, number %d, flag %d, type %d" % tuple(int.from_bytes(f, "big") for f in fields) + ", check " + right


# What a comment beside a message must say, from the line that the programs print for it.
def message_reading(line):
    read, _, written = line.partition(" = ")
    kind, number, stamp, last, arrival, *after = read.split(" ")
    head = "%s, number %s, stamp %s, last peer stamp %s, own count at arrival %s" % (MESSAGES[int(kind)], number, stamp, last, arrival)
    tail = {"1": ", period %s", "2": ", period %s", "3": "", "4": ", min %s, max %s", "5": ", check %s", "6": ", data %s"}[kind]
    return head + (tail % tuple(after) if tail else "")


def parts(file):
    case, made, named = None, [], {}
    with open(os.path.join(CASES, file)) as lines:
        for at, line in enumerate(lines, 1):
            text, _, comment = (part.rstrip() for part in line.rstrip("\n").partition("#"))
            place = "%s:%d" % (file, at)
            if not text:
                continue
            if text[0] == " ":
                case.items[-1].hex.append((text.strip(), comment.strip()))
                continue
            word, _, rest = text.partition(" ")
            if word in ("case", "record", "history"):
                case = Case(place, rest)
                (made if word == "case" else named.setdefault(word, [])).append(case)
            elif word == "rule:":
                case.rules += rest.split()
            else:
                case.items.append(Item(place, text, comment.strip()))
    return made, {word: {part.name: part for part in listed} for word, listed in named.items()}


# The hex of an item, on its own line and below it, as bytes with their comments.
def hex_of(item, inline=""):
    lines = ([(inline, item.comment)] if inline not in ("", "nothing") else []) + item.hex
    return [(bytes_of(text), comment) for text, comment in lines]


def joined(lines):
    return b"".join(bytes for bytes, _ in lines)


# Messages whose comment gives their fields; the programs say whether it is right.
def note_readings(case, lines):
    for bytes, comment in lines:
        reading = comment.split(";")[0].strip()
        if reading.split(",")[0] in MESSAGES.values():
            case.readings.append((bytes, reading))


# The item of a case that begins with a word, and what stands after the word.
def item_of(case, word, needed=True):
    found = [item for item in case.items if item.text.startswith(word)]
    if len(found) != 1 and (needed or found):
        raise Wrong("%d lines `%s`" % (len(found), word))
    return (found[0], found[0].text[len(word):].strip()) if found else (None, "")


def hexed(bytes):
    return bytes.hex().upper() or "-"


# Steps over two links.

LINK_WORDS = {"both links up": (1, 1), "normal link down": (0, 1), "redundant link down": (1, 0), "both links down": (0, 0)}


def state_of(text):
    words = [word.strip() for word in text.split(",")]
    (role, setting), links = words[0].split(" "), LINK_WORDS[words[1]]
    if role not in ROLES or setting not in ("strict", "loose"):
        raise Wrong("%s: not a role and a setting" % words[0])
    first = words[2] == "first packet"
    return {"role": role, "strict": setting == "strict", "links": links, "first": first, "last": 0 if first else int(words[2].removeprefix("last "))}


def link_of(case, word):
    item, text = item_of(case, word)
    place, text = (0, text) if text.startswith(":") else (int(text.split(":")[0].removeprefix("from ")), text[text.index(":"):])
    lines = hex_of(item, text[1:].strip())
    for bytes, comment in lines:
        reading = comment.split(";")[0].strip()
        if len(bytes) >= HEADER and reading != packet_reading(bytes):
            raise Wrong("the comment says `%s`, the bytes say `%s`" % (reading, packet_reading(bytes)))
    return place, joined(lines)


# The lines of a step, from `=> ANSWER on LINK, USED used[; type .. from START]`, `after: ..` and what each link holds: three, as the links are lent and
# the same by readers.
def step_lines(state, wanted, after, links):
    found = re.fullmatch(r"([0-9]+) on (normal|redundant), ([0-9]+) used(?:; (.*))?", wanted)
    if not found:
        raise Wrong("%s: not an answer of a step" % wanted)
    answer, link, used, handed_up = found.groups()
    numbers = re.fullmatch(r"type ([0-9]+), number ([0-9]+), version ([0-9]+), application type ([0-9]+), data ([0-9]+) from ([0-9]+)", handed_up or "")
    if (answer == "0") != bool(numbers):
        raise Wrong("only an answer 0 hands up")
    kind, number, version, application, data, start = numbers.groups() if numbers else 6 * "0"
    up, first, last = state["links"], state["first"], state["last"]
    for word in [] if after == "unchanged" else after.split(", "):
        if word in ("normal link down", "redundant link down", "both links down"):
            up = LINK_WORDS[word]
        else:
            first, last = False, int(word.removeprefix("last "))
    first_line = "%s %s %s %s %s %s" % (link, answer, used, kind, number, data)
    state_line = "state %d %d %d %d %s %s %s" % (*up, first, last, version, application, start)
    return answer, 2 * [first_line, state_line, "data " + hexed(links[link][int(start):int(start) + int(data)])]


# Our own id and the list of those who may call us, in bytes. A responder's first packet is judged by them, so that its case must give both;
# another case may, and without them our id is 0 and the list is empty.
def callers_of(case, needed):
    if not needed and not any(item.text.startswith(("ours:", "callers:")) for item in case.items):
        return bytes(4), b""
    word, (callers, inline) = item_of(case, "ours:")[1], item_of(case, "callers:")
    if not re.fullmatch(r"[0-9A-F]{8}", word):
        raise Wrong("%s: not an id of eight hex digits" % word)
    if not inline and not callers.hex:
        raise Wrong("`callers:` gives neither bytes nor `nothing`")
    return bytes.fromhex(word), joined(hex_of(callers, inline))


# A step as it stands in a file that `single steps` reads; a link is its place and its bytes.
def step_bytes(flags, last, normal, redundant, ours=bytes(4), callers=b""):
    fields = bytes([flags]) + big_endian(last, 2) + big_endian(normal[0], 4) + big_endian(redundant[0], 4) + ours
    lent = normal[1], redundant[1], callers
    return fields + b"".join(big_endian(len(part), 2) for part in lent) + b"".join(lent)


def read_step(case):
    state = state_of(item_of(case, "before:")[1])
    normal, redundant = link_of(case, "normal"), link_of(case, "redundant")
    ours, callers = callers_of(case, state["role"] == "responder" and state["first"])
    flags = state["links"][0] + 2 * state["links"][1] + 4 * ROLES[state["role"]] + 8 * state["strict"] + 16 * state["first"]
    case.kind = "steps"
    case.given = step_bytes(flags, state["last"], normal, redundant, ours, callers)
    links = {"normal": normal[1], "redundant": redundant[1]}
    case.answer, case.wanted = step_lines(state, item_of(case, "=>")[1], item_of(case, "after:")[1], links)


# The words of a run of `cut` as they are typed, with these two for its files. An id is eight hex digits (CUT-5).
CUT = re.compile(r"(?:initiator (?:strict|loose) NORMAL REDUNDANT|responder (?:strict|loose) NORMAL REDUNDANT(?: [0-9A-Fa-f]{8})+)")


# A run of `cut`: its words, both files, and every line after the heading.
def read_cut(case):
    case.kind = "cut"
    words = item_of(case, "cut:")[1]
    if not CUT.fullmatch(words):
        raise Wrong("%s: not the words of `cut`" % words)
    case.given = words.split(" "), link_of(case, "normal")[1], link_of(case, "redundant")[1]
    lines = [item.text[2:].strip() for item in case.items if item.text[:2] in ("->", "=>")]
    case.answer = item_of(case, "=>")[1].split(" ")[1]
    case.wanted = ["link answer used type number data"] + lines


# Packets that are written.
def read_packet(case):
    text = item_of(case, "write:")[1]
    link, _, rest = text.partition(", ")
    fields = fields_of(rest, ["version", "application type", "number", "type", "room"])
    item, inline = item_of(case, "data:")
    data = joined(hex_of(item, inline))
    case.kind = "packets"
    case.given = bytes([{"normal": 1, "redundant": 0}[link], fields["version"], fields["application type"]]) + big_endian(fields["number"], 2)
    case.given += bytes([fields["type"]]) + big_endian(fields["room"], 2) + big_endian(len(data), 2) + data
    case.answer = item_of(case, "=>")[1]
    written, inline = item_of(case, "written:", case.answer == "0")
    lines = hex_of(written, inline) if written else []
    for bytes_, comment in lines[:1]:
        if comment.split(";")[0].strip() != packet_reading(bytes_):
            raise Wrong("the comment says `%s`, the bytes say `%s`" % (comment, packet_reading(bytes_)))
    case.written = joined(lines)
    case.wanted = ["%s %s" % (case.answer, hexed(case.written))]


# Messages.
def read_message(case):
    item, inline = item_of(case, "message:")
    lines = hex_of(item, inline)
    message = joined(lines)
    case.kind = "messages"
    case.given = big_endian(len(message), 2) + message
    case.answer, _, reading = item_of(case, "=>")[1].partition(": ")
    if case.answer == "whole":
        case.readings.append((message, reading))
    elif case.answer != "malformed":
        raise Wrong("%s: not whole or malformed" % case.answer)
    case.wanted = ["malformed"] if case.answer == "malformed" else [None]


# Single calls.

NAMES = [name for name, _ in FIELDS]


# A record's fields by name, from its bytes.
def fields_in(record):
    return dict(zip(NAMES, NUMBERS.unpack(record)))


def record_of(text, records):
    name, _, changes = text.partition(" with ")
    if name not in records:
        raise Wrong("%s: no such record" % name)
    return {**records[name], **(fields_of(changes, NAMES) if changes else {})}


def records_of(named):
    made = {}
    for name, part in named.items():
        made[name] = fields_of(", ".join(item.text for item in part.items), NAMES)
        if list(made[name]) != NAMES:
            raise Wrong("record %s does not give each field once, in order" % name)
    return made


# The record after a call.
def record_after(text, before):
    if text == "unchanged":
        return before
    if text == "all zero":
        return {name: 0 for name in NAMES}
    return {**before, **fields_of(text, NAMES)}


# Role and settings as begin's bytes.
def begin_bytes(text):
    role, _, rest = text.partition(", ")
    given = fields_of(rest, [name for name, _ in BEGIN])
    return bytes([ROLES[role]]) + b"".join(big_endian(given[name], width) for name, width in BEGIN)


# The bytes that a call is given: begin's settings in words, or hex.
def given_bytes(case, item, settings):
    lines = hex_of(item)
    note_readings(case, lines)
    return begin_bytes(settings) if settings else joined(lines)


# An age in words: decimal, with a sign where it is negative.
AGE = r"0|-?[1-9][0-9]*"


# The age of a line `age:`, which an answer that reports one must have (AGE-7), and no other (AGE-8).
def age_said(case, reports):
    item, text = item_of(case, "age:", reports)
    if item and not reports:
        raise Wrong("this answer reports no age, and yet one is said")
    if item and not re.fullmatch(AGE, text):
        raise Wrong("%s: not an age" % text)
    return text or "0"


# The bytes of a line `writes:`.
def written_by(case):
    item, inline = item_of(case, "writes:")
    lines = hex_of(item, inline)
    note_readings(case, lines)
    return joined(lines)


def read_call(case, records):
    before = record_of(item_of(case, "record:")[1], records)
    item, text = item_of(case, "call:")
    head, _, settings = text.partition(": ")
    found = re.fullmatch(r"(\w+) now ([0-9]+) room ([0-9]+)", head)
    kind, now, room = found[1], int(found[2]), int(found[3])
    bytes_ = given_bytes(case, item, settings)
    case.kind = "calls"
    case.given = b"".join(big_endian(before[name], width) for name, width in FIELDS) + bytes([KINDS[kind]])
    case.given += big_endian(now, 4) + big_endian(room, 2) + big_endian(len(bytes_), 2) + bytes_
    case.answer, _, what = item_of(case, "=>")[1].partition(", ")
    if what == "nothing changes":
        if len(case.items) != 3:
            raise Wrong("nothing changes, and yet more is said")
        released, written, delivered, after = 0, b"", b"", before
    else:
        released = {"kept": 0, "released": 1}[what]
        written = written_by(case)
        delivers, inline = item_of(case, "delivers:")
        delivered = joined(hex_of(delivers, inline))
        after = record_after(item_of(case, "after:")[1], before)
    age = age_said(case, kind == "receive" and before["phase"] == OPEN and case.answer in AGED)
    line = "%s %d %s %d %s %s " % (case.answer, released, hexed(written), 15 if delivered else 0, hexed(delivered), age)
    case.wanted = [line + " ".join(str(after[name]) for name in NAMES)]
    case.triple = kind, min(before["phase"], len(PHASES) - 1), case.answer
    case.says = case.answer + ("" if what == "nothing changes" else ", " + what)


# Calls from C over a connection's row, and a row's reading and writing.

# An input in a file of them: kind 1, now 4, row size 2, room 2, answer size 2, length 2; then the row, and `length` bytes.
INPUT = struct.Struct(">BIHHHH")
ROW_KINDS = {name: number for number, name in ROW_CALLS.items()}
READ, WRITE = "read_row", "write_row"
# The answer row: its fields, and its bytes. What stands in it, in out and in the numbers of a reading before a call.
ANSWER, ANSWER_ROW, BEFORE = ["released", "written", "place", "length", "age"], struct.Struct(">BHHHi"), b"\xa5"
# The words that a call has beside its name; of what its room counts, the bytes: out's single ones, or the numbers of a reading.
HAS = {"begin": ["now", "room"], "receive": ["now", "room"], "send": ["now", "room"], "tick": ["now"], "close": [], READ: ["room"], WRITE: []}
ROOM = {"begin": 1, "receive": 1, "send": 1, READ: 4}


# Fields as the bytes of a row.
def packed_row(fields):
    return NUMBERS.pack(*fields.values())


# The row before a call: a record's, with other values where it differs, or bytes. A comment beside bytes may give their fields, and must then be right.
def row_before(case, records):
    item, text = item_of(case, "row:")
    if text.partition(" with ")[0] in records:
        return packed_row(record_of(text, records))
    lines = hex_of(item, text)
    for bytes_, comment in lines:
        reading = comment.split(";")[0].strip()
        if reading.startswith("phase ") and bytes_ != packed_row(fields_of(reading, NAMES)):
            raise Wrong("the comment says `%s`, the bytes say `%s`" % (reading, fields_in(bytes_)))
    return joined(lines)


# Numbers of a reading or a writing as bytes, four each.
def numbers_of(text):
    return b"".join(int(word).to_bytes(4, "big") for word in ([] if text == "nothing" else text.split(" ")))


# The line `call:`: the call, its now, room and answer row's size, and the bytes that it is given.
def row_call(case):
    item, text = item_of(case, "call:")
    head, _, settings = text.partition(": ")
    found = re.fullmatch(r"(\w+)(?: now ([0-9]+))?(?: room ([0-9]+))?(?:, answer row of ([0-9]+) bytes)?", head)
    if not found or [word for word, at in (("now", 2), ("room", 3)) if found[at]] != HAS[found[1]] or (found[4] and found[1] in (READ, WRITE)):
        raise Wrong("%s: not a call with its words" % head)
    kind, now, room, size = found[1], int(found[2] or 0), int(found[3] or 0), int(found[4] or ANSWER_ROW.size)
    return kind, now, room, 0 if kind in (READ, WRITE) else size, numbers_of(settings) if kind == WRITE else given_bytes(case, item, settings)


# The answer row that a case gives, with all its fields; `what` is whether the connection is kept or released.
def answer_row(case, what):
    given = fields_of(item_of(case, "answer row:")[1], ANSWER)
    if list(given) != ANSWER or given["released"] != {"kept": 0, "released": 1}[what]:
        raise Wrong("the answer row does not give each field once, in order, or `%s` is not what it says" % what)
    return ANSWER_ROW.pack(*given.values())


# What a call that is not refused leaves: the row, what is at the start of out (of a reading, its numbers), the answer row.
def row_outcome(case, kind, before, what):
    if kind in (READ, WRITE) and what:
        raise Wrong("%s: a %s has no such answer" % (what, kind))
    if kind == READ:
        return before, numbers_of(item_of(case, "reads:")[1]), b""
    item, text = item_of(case, "after:")
    if kind == WRITE:
        return joined(hex_of(item, text)), b"", b""
    return packed_row(record_after(text, fields_in(before))), written_by(case) if "room" in HAS[kind] else b"", answer_row(case, what)


# The lines that a call's case has beside `row:`, `call:` and `=>`, where it is not refused.
def row_lines(kind):
    return {READ: ["reads:"], WRITE: ["after:"]}.get(kind, ["writes:"] * ("room" in HAS[kind]) + ["answer row:", "after:"])


def read_row_call(case, records):
    before = row_before(case, records)
    kind, now, room, size, bytes_ = row_call(case)
    case.kind = "rows"
    case.given = INPUT.pack(ROW_KINDS[kind], now, len(before), room, size, len(bytes_)) + before + bytes_
    case.answer, _, what = item_of(case, "=>")[1].partition(", ")
    refused = what == "nothing changes"
    if len(case.items) != 3 + (0 if refused else len(row_lines(kind))):
        raise Wrong("nothing changes, and yet more is said" if refused else "not the lines of a %s: %s" % (kind, " ".join(row_lines(kind))))
    after, out, said = (before, b"", BEFORE * size) if refused else row_outcome(case, kind, before, what)
    out += BEFORE * (room * ROOM.get(kind, 0) - len(out))
    case.wanted = [" ".join([case.answer] + [part.hex() or "-" for part in (after, out, said)])]
    case.triple = kind, before[0] if before else None, case.answer
    case.says = case.answer + (", " + what if what and not refused else "")


# Traces.

# A record of a trace or a recorder file: its header, and the bytes that it holds.
def record_bytes(kind, slot, now, bytes_):
    return bytes_of(MARK) + bytes([kind, int(slot)]) + big_endian(int(now), 4) + big_endian(len(bytes_), 2) + bytes_


# One record of a trace: its bytes, and the line that is printed. An age that is not said is 0.
def trace_record(case, item):
    found = re.fullmatch(r"(\w+)(?: slot ([0-9]+))?(?: now ([0-9]+))?(?:: (.*?))? ([-=]>) (\w+)(?:, age (%s))?" % AGE, item.text)
    if not found:
        raise Wrong("%s: not a record of a trace" % item.text)
    kind, slot, now, settings, arrow, answer, age = found.groups()
    if age and (kind != "receive" or answer not in AGED):
        raise Wrong("%s: this answer reports no age, and yet one is said" % item.text)
    bytes_ = given_bytes(case, item, settings)
    if kind != "bytes":
        bytes_ = record_bytes(KINDS[kind], slot, now, bytes_)
    return bytes_, answer if answer == "bad" else "%s %s %s" % (slot, answer, age or "0"), kind, arrow == "=>", answer


def items_after(case, histories, phases):
    item, name = item_of(case, "after:", False)
    own = [other for other in case.items if other is not item and not other.text.startswith(("phase:", "output:", "=>", "says:"))]
    if not item:
        return own, None
    if name not in histories:
        raise Wrong("%s: no such history" % name)
    before, _ = items_after(histories[name], histories, phases)
    return before + own, phases.get(name)


# A history's phase is said by its line `phase:`.
def phases_of(histories):
    return {name: PHASES.index(item_of(part, "phase:")[1]) for name, part in histories.items()}


def read_trace(case, histories):
    phases = phases_of(histories)
    items, phase = items_after(case, histories, phases)
    records = [trace_record(case, item) for item in items]
    case.kind = "replay"
    case.given = b"".join(bytes_ for bytes_, *_ in records)
    lines = [line for _, line, *_ in records]
    case.wanted = [HEADING] + lines + ["end %d" % sum(line != "bad" for line in lines)]
    about = [(kind, answer) for _, _, kind, is_about, answer in records if is_about]
    output, text = item_of(case, "output:", False)
    if len(about) > 1 or (not about) == (not output) or (output and text != case.wanted[-1]):
        raise Wrong("a trace has one line `=>` that it is about, or a line `output:` with the last line printed")
    case.answer = about[0][1] if about else text
    own = [item for item in case.items if not item.text.startswith(("after:", "output:"))]
    if about and phase is None:
        phase = 0
    if about and own and "=>" in own[0].text:
        case.triple = about[0][0], phase, case.answer


# Recorder files.

# The kind of a record that holds a call's answer; its fields, behind which stand the bytes that the call wrote.
RECORDED, RECORDED_FIELDS = 6, struct.Struct(">HBi")
# What marks a line of standard error, so that it can't pass for one of standard output.
SAID = "standard error: "


# The fields of a recorded answer, from `NUMBER, released BYTE, age AGE`.
def recorded_fields(text):
    found = re.fullmatch(r"([0-9]+), released ([0-9]+), age (%s)" % AGE, text)
    if not found:
        raise Wrong("%s: not a recorded answer" % text)
    return RECORDED_FIELDS.pack(*map(int, found.groups()))


# One record of a recorder file: a call, the answer to one, or bytes as they are.
def recorder_bytes(case, item):
    if item.text == "bytes":
        return joined(hex_of(item))
    found = re.fullmatch(r"(\w+) slot ([0-9]+) now ([0-9]+)(?:: (.*))?", item.text)
    if not found:
        raise Wrong("%s: not a record of a recorder file" % item.text)
    kind, slot, now, words = found.groups()
    if kind == "answer":
        return record_bytes(RECORDED, slot, now, recorded_fields(words) + given_bytes(case, item, None))
    return record_bytes(KINDS[kind], slot, now, given_bytes(case, item, words))


# A line of standard error. The bytes written may stand there in parts, of which `5A*985` is 985 times that byte.
def said_line(text):
    before, word, written = text.partition(" written ")
    return before + word + "".join(re.sub(r"^(..)\*([0-9]+)$", lambda found: found[1] * int(found[2]), part) for part in written.split(" "))


def read_recording(case, histories):
    items, _ = items_after(case, histories, {})
    case.kind = "checker"
    case.given = b"".join(recorder_bytes(case, item) for item in items)
    case.answer = item_of(case, "=>")[1]
    case.wanted = [case.answer] + [SAID + said_line(item.text.removeprefix("says: ")) for item in case.items if item.text.startswith("says: ")]


# The words that a line of a case may begin with.
WORDS = {
    "links.cases": ("before:", "ours:", "callers:", "normal", "redundant", "cut:", "after:", "->", "=>"),
    "packets.cases": ("write:", "data:", "written:", "=>"),
    "messages.cases": ("message:", "=>"),
    "calls.cases": ("record:", "call:", "writes:", "delivers:", "age:", "after:", "=>"),
    "rows.cases": ("row:", "call:", "writes:", "answer row:", "reads:", "after:", "=>"),
    "traces.cases": ("after:", "phase:", "output:", "bytes ") + tuple(name + " " for name in KINDS),
    "recordings.cases": ("after:", "=>", "says: ", "bytes", "answer ") + tuple(name + " " for name in KINDS),
}
WORDS["sample.trace"] = WORDS["traces.cases"]


def read(case, file, named):
    other = [item.text for item in case.items if not item.text.startswith(WORDS[file])]
    if other:
        raise Wrong("%s: not a line of such a case" % other[0])
    if file == "links.cases":
        return read_cut(case) if any(item.text.startswith("cut:") for item in case.items) else read_step(case)
    if file == "packets.cases":
        return read_packet(case)
    if file == "messages.cases":
        return read_message(case)
    if file == "calls.cases":
        return read_call(case, records_of(named.get("record", {})))
    if file == "rows.cases":
        return read_row_call(case, records_of(named.get("record", {})))
    if file == "recordings.cases":
        return read_recording(case, named.get("history", {}))
    return read_trace(case, named.get("history", {}))


# Every case of every file.
def cases():
    made = []
    for file in FILES:
        listed, named = parts(file)
        for case in listed:
            try:
                read(case, file, named)
            except (Wrong, KeyError, ValueError, TypeError, IndexError, OverflowError, struct.error) as fault:
                raise Wrong("%s: case %s: %s" % (case.file, case.name, fault))
            case.says = case.says or case.answer
            if not case.rules:
                raise Wrong("%s: case %s names no rule" % (case.file, case.name))
            made.append(case)
    return made
