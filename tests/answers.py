# The answers that 01 has: of a step over two links, of writing a packet, and of each connection call in each phase.
STEP = ["308", "301", "302", "303", "304", "305", "309", "310", "306", "307", "0"]
WRITING = ["311", "312", "313", "0"]
CALLS = {1: "begin", 2: "receive", 3: "send", 4: "tick", 5: "close"}
PHASES = ["closed", "initiator waits for 2", "initiator waits for 4", "responder waits for 1", "responder waits for 3", "responder waits for 5",
          "open", "out of range"]
OPEN = PHASES.index("open")
# The answers with which a receive reports the age, where the connection was open already (AGE-7).
AGED = ["0", "204", "205", "206"]
# The answers that 01 has for a call in each phase, in the order of PHASES.
POSSIBLE = {
    "begin": ["104 108 0"] + 6 * ["101 103"] + ["101"],
    "receive": [
        "102",
        "101 105 108 207 201 211 208 0",
        "101 105 108 207 201 211 202 203 208 209 204 0",
        "101 105 108 201 211 0",
        "101 105 108 207 201 211 202 203 208 204 0",
        "101 105 108 207 201 211 202 203 208 209 204 0",
        "101 105 108 201 211 202 203 206 205 204 0",
        "101",
    ],
    "send": ["102"] + 5 * ["101 105 106"] + ["101 105 107 108 0", "101"],
    "tick": ["102"] + 2 * ["101 105 207 0"] + ["101 105 0"] + 2 * ["101 105 207 0"] + ["101 105 0", "101"],
    "close": ["102"] + 6 * ["101 0"] + ["101"],
}


# Call, phase and answer: each that 01 has.
def triples():
    return {(call, phase, answer) for call, rows in POSSIBLE.items() for phase, row in enumerate(rows) for answer in row.split()}


# Those that a trace can reach: its out buffer has 1,000 bytes, so no call answers 108, and its records are made by the calls alone, so none is unsound.
def triples_of_traces():
    return {(call, phase, answer) for call, phase, answer in triples() if answer not in ("101", "108")}


# The calls from C, by the kind that a file of them has: the five, over a connection's row, and a row's reading and writing.
ROW_CALLS = {**CALLS, 6: "read_row", 7: "write_row"}
# The answers of each: in the place of 101 stands 109.
OF_ROWS = {call: sorted({answer.replace("101", "109") for row in rows for answer in row.split()}, key=int) for call, rows in POSSIBLE.items()}
OF_ROWS.update({call: ["0", "108", "109"] for call in ("read_row", "write_row")})
