# Holds include/zorakunju.h against the source of what is exported, and against the tables of the tests: functions and parameters, answers, places,
# widths, ranges and numbers.
import re

from answers import OF_ROWS, OPEN, PHASES
from comparing import fail
from reading import functions_of
from rows import RANGES
from sheet import FIELDS

HEADER, SOURCE = "include/zorakunju.h", "crates/row_calls_c/src/lib.rt"
C_TYPES = {"u8": "uint8_t", "u16": "uint16_t", "u32": "uint32_t"}
# A field that the header calls otherwise; the answer row's fields, with their widths.
FIELD_NAMES = {"last number": "peer number"}
ANSWER_FIELDS = [("RELEASED", 1), ("WRITTEN", 2), ("PLACE", 2), ("LENGTH", 2), ("AGE", 4)]
# The header's other constants.
SIZES = {"FIELD_COUNT": 17, "HEADER_SIZE": 15, "MOST_DATA": 985, "MOST_MESSAGE": 1000, "BEGIN_ROOM": 19, "RECEIVE_ROOM": 25, "INITIATOR": 0, "RESPONDER": 1}


def declaration(f):
    """What C must declare for an exported function: a slice is a pointer and a length, of numbers a count."""
    given = re.search(r"\((.*)\) -> (\w+)", re.sub(r"\s+", " ", f.head.split("ensures")[0]))
    said = []
    for name, reference, kind in re.findall(r"(\w+): (?:(&mut |&)\[)?(\w+)", given[1]):
        length = "" if not reference else ", size_t count" if kind == "u32" else ", size_t %s_length" % name
        said.append("%s%s %s%s%s" % ("const " * (reference == "&"), C_TYPES[kind], "*" * bool(reference), name, length))
    return "%s %s(%s);" % (C_TYPES[given[2]], f.name, ", ".join(said))


def wanted(what, there, due):
    """Fails where the header has something else than it must."""
    if there != due:
        fail("%s: %s: %s\nwanted: %s" % (HEADER, what, there, due))


def check_functions(header):
    """The functions that the library exports, with their parameters, and in each one's comment the answers that it has."""
    exported = sorted(declaration(f) for f in functions_of(SOURCE) if 'extern "C"' in f.head)
    declared = sorted(re.sub(r"\s+", " ", found) for found in re.findall(r"^\w+ zorakunju_[^;{]*;", header, re.M))
    wanted("the functions", declared, exported)
    commented = re.findall(r"((?:^//.*\n)+)^\w+ zorakunju_(\w+)\([^{]*?;", header, re.M)
    listed = {call: sorted(re.findall(r"^//   (\d+)  ", comment, re.M), key=int) for comment, call in commented}
    wanted("the answers of the calls", listed, OF_ROWS)
    return len(exported)


def check_fields(header, kind, fields):
    """Of a row, or an answer row: where each field starts, its width, and the size of the whole."""
    places = [sum(width for _, width in fields[:at]) for at in range(len(fields))]
    found = re.findall(r"^#define ZORAKUNJU_%s_(\w+) (\d+) *// (\d) bytes?: " % kind, header, re.M)
    wanted("the fields", found, [(name, str(place), str(width)) for (name, width), place in zip(fields, places)])
    wanted("the size", re.findall(r"^#define ZORAKUNJU_%s_SIZE (\d+)$" % kind, header, re.M), [str(sum(width for _, width in fields))])


def check_constants(header):
    """The layouts, the ranges that the comments give, the order of the fields, the phases, the answers, and the other sizes."""
    in_c = lambda name: FIELD_NAMES.get(name, name).upper().replace(" ", "_")
    row = [(in_c(name), width) for name, width in FIELDS]
    check_fields(header, "ROW", row)
    check_fields(header, "ANSWER", ANSWER_FIELDS)
    ranges = re.findall(r"^#define ZORAKUNJU_ROW_(\w+) .*, (\d+) to (\d+)\b", header, re.M)
    wanted("the ranges", sorted(ranges), sorted((in_c(name), str(low), str(high)) for name, (low, high) in RANGES.items() if name != "phase"))
    wanted("the fields' order", re.findall(r"ZORAKUNJU_FIELD_(\w+) = (\d+)", header), [(name, str(at)) for at, (name, _) in enumerate(row)])
    phases = [(in_c(name), str(at)) for at, name in enumerate(PHASES[:OPEN + 1])]
    wanted("the phases", re.findall(r"ZORAKUNJU_PHASE_(\w+) = (\d+)", header), phases)
    numbers = re.findall(r"^    ZORAKUNJU_\w+ = (\d+)", re.search(r"enum zorakunju_answer \{.*?\}", header, re.S)[0], re.M)
    wanted("the answers", numbers, sorted({answer for answers in OF_ROWS.values() for answer in answers}, key=int))
    sizes = {name: re.findall(r"^#define ZORAKUNJU_%s (\d+)$" % name, header, re.M) for name in SIZES}
    wanted("the constants", sizes, {name: [str(size)] for name, size in SIZES.items()})
    return len(numbers)


def check_header():
    """Fails where the header says something else; says how much of it was looked at."""
    with open(HEADER) as file:
        header = file.read()
    said = check_functions(header), check_constants(header)
    print("the header declares the %d functions of the library with the answers of each, the layout of both rows, and %d answer numbers" % said)
