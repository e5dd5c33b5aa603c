#!/usr/bin/env python3
# tools/respell.py: brings the definitions and lemmas that this repository declares to today's spelling, words in snake case, in specs/, proofs/ and clauses.
# Run once, at the top, behind the kit's port.py. A name of src/ keeps its spelling; so does a name of a goal, and one that would fall together with another.
# It prints what it leaves, and for each name that changed a line `old new` into the file that it is given, where it is given one.
import glob
import os
import re
import sys

WORD = r"[^\s(){}.;,@\"«»⌜⌝`]+"
DECLARED = re.compile(r"^( *)((?:pub |abbrev |unfoldable )*)(%s)(?: \{[^{}\n]*\})* :(?= |$)" % WORD, re.M)
CLAUSE = re.compile(r"(?:requires|ensures)\s*\*?\s*(?:\w+\s*)?\{|ghost\s*(?:\w+\s*(?::\s*)?)?\{")
GHOST_USE = re.compile(r"ghost\s+use\b[^;]*;")


def read(path):
    with open(path, encoding="utf-8") as file:
        return file.read()


def write(path, text):
    if text != read(path):
        with open(path, "w", encoding="utf-8") as file:
            file.write(text)


def snake(name):
    words = re.sub(r"(?<=[a-z0-9])[A-Z]", lambda m: "_" + m[0].lower(), name)
    return re.sub(r"(?<=\w)-(?=\w)", "_", words)


def is_old(name):
    return name[0].islower() and snake(name) != name


RECORD = re.compile(r"(?m)^( *)(?:pub )?record \S+(?:.|\n\1  )* where\n((?:\1  .*\n|\n)+)")
USE = re.compile(r"(?m)^(?:pub )?use ([^\s{]+?)\.\{([^}]*)\}")


# The names that a text takes from a library that is not of this repository.
def imported(text):
    found = set()
    for module, items in USE.findall(text):
        if not module.startswith("Rattle.") or module.startswith("Rattle.std"):
            found |= {item.strip() for item in items.split(",")}
    return found


# The names that a text declares, and of those the goals: what is said of them is a module's of the prover.
def declared(text):
    names, goals = set(), set()
    for m in DECLARED.finditer(text):
        if m[3].startswith("--"):
            continue
        names.add(m[3])
        if re.match(r"\s*(tie|goal)\.", text[m.end():]):
            goals.add(m[3])
    return names - goals, goals


# A text with each word that is in the table respelled; a word behind a dot only where it is a field of this repository's or stands behind a module's name.
def respelled(text, table, fields, stays):
    def turn(m):
        word, before = m[0], text[:m.start()]
        if word not in table or word in stays:
            return word
        if before.endswith(".") and not re.search(r"Rattle(\.[\w+-]+)+\.$", before[-200:]) and word not in fields:
            return word
        return table[word]

    return re.sub(WORD, turn, text)


# A text in Rattle: its clauses, its `ghost use` items and what its comments quote.
def respelled_source(text, table, fields):
    spans = []
    for m in GHOST_USE.finditer(text):
        spans.append((m.start(), m.end()))
    for m in CLAUSE.finditer(text):
        depth, at = 1, m.end()
        while depth and at < len(text):
            depth += {"{": 1, "}": -1}.get(text[at], 0)
            at += 1
        spans.append((m.end(), at - 1))
    for m in re.finditer(r"(?m)//.*$", text):
        spans += [(m.start() + c.start(), m.start() + c.end()) for c in re.finditer(r"`[^`\n]+`", m[0])]
    out, last = [], 0
    for start, end in sorted(spans):
        if start < last:
            continue
        out += [text[last:start], respelled(text[start:end], table, fields, set())]
        last = end
    return "".join(out) + text[last:]


# A name that is given by its user: a variable in camel case.
VARIABLE = re.compile(r"[a-z][a-z0-9]*(?:[A-Z][A-Za-z0-9]*)+[₀-₉']*")


# Names that are spelled otherwise: `true_age` is a definition.
OTHERWISE = {"true-age": "the_true_age"}


# The table of spellings. A lemma that would fall together with a definition gets `_lem` behind its name; a field does where a file has both.
def table_of(names, words, only_fields, by_file):
    table = {name: snake(name) for name in names if is_old(name)}
    definitions = {new: old for old, new in table.items() if "-" not in old}
    for old, new in table.items():
        if "-" in old and (new in definitions or new in names):
            if old not in only_fields or any(old in here and definitions.get(new) in here for here in by_file):
                table[old] = OTHERWISE.get(old, new + "_lem")
    of_definitions = set(definitions)
    for new in of_definitions & names:
        table[new] = new + "_lem"
    for word in words:
        if VARIABLE.fullmatch(word):
            table.setdefault(word, snake(word))
    return table


def main():
    sources = sorted(glob.glob("crates/*/src/**/*.rt", recursive=True))
    texts = sorted(glob.glob("crates/*/specs/**/*.antt", recursive=True) + glob.glob("crates/*/proofs/**/*.antt", recursive=True))
    names, by_file, stays, fields, others = set(), [], {}, set(), set()
    for path in texts:
        text = read(path)
        mine, its = declared(text)
        names |= mine
        stays[path] = its | imported(text)
        by_file.append(set(re.findall(WORD, text)))
        fields |= {m[3] for record in RECORD.finditer(text) for m in DECLARED.finditer(record[2])}
        others |= declared(RECORD.sub("", text))[0]
    table = table_of(names, set().union(*by_file), fields - others, by_file)
    for path in texts:
        here = set(re.findall(WORD, read(path)))
        for old, new in sorted(table.items()):
            if old in here and new in here and old not in stays[path]:
                print("look: %s, %s: %s" % (old, new, path))
    if "--check" in sys.argv:
        return
    for path in texts:
        write(path, respelled(read(path), table, fields, stays[path]))
    for path in sources:
        write(path, respelled_source(read(path), table, fields))
    if len(sys.argv) > 1:
        with open(sys.argv[1], "w", encoding="utf-8") as file:
            file.writelines("%s %s\n" % row for row in sorted(table.items()))


main()
