# Reads the code for the checks of the documents: its functions with what they call, and the names that definitions and proofs give.
import collections
import functools
import glob
import os
import re

Function = collections.namedtuple("Function", "crate module owner name public head body")
Definition = collections.namedtuple("Definition", "name line above within")
DEFINITION = re.compile(r"(\s*)(?:(?:unfoldable|abbrev) pub|pub record|pub data) (\S+)")


def crates():
    return [path.split("/")[1] for path in sorted(glob.glob("crates/*/"))]


def qualified(f):
    return "::".join(part for part in (f.crate, f.module, f.owner, f.name) if part)


# The functions of one file: each begins with its `fn` line, its head ends with the line that opens the body, its body with the brace that stands below it.
# Those of a public trait are public; one that it leaves to each `impl` has no body.
def functions_of(path):
    crate, file = path.split("/")[1], "::".join(path[:-3].split("/")[3:])
    module, owner, trait, head, body, closing = "" if file in ("lib", "main") else file, "", False, None, None, ""
    for line in open(path).read().splitlines():
        if head is None:
            block = re.match(r"(?:impl(?:<[^>]*>)? (?:\w+ for )?|(pub trait ))(\w+)", line)
            owner, trait = (block.group(2), bool(block.group(1))) if block else ("", False) if line.startswith("}") else (owner, trait)
            begins = re.match(r"(\s*)(pub )?(?:final )?(?:extern \"C\" )?fn (\w+)", line)
            if not begins:
                continue
            head, body, closing, name, public = [], None, begins.group(1) + "}", begins.group(3), trait or bool(begins.group(2))
        if body is None:
            head.append(line)
            if re.search(r"(^|\s)\{\s*$", line):
                body = []
            elif line.rstrip().endswith("{}") or trait and line.rstrip().endswith(";"):
                yield Function(crate, module, owner, name, public, "\n".join(head), "")
                head = None
        elif line == closing:
            yield Function(crate, module, owner, name, public, "\n".join(head), "\n".join(body))
            head = None
        else:
            body.append(line)


def functions():
    return {qualified(f): f for path in sorted(glob.glob("crates/*/src/**/*.rt", recursive=True)) for f in functions_of(path)}


# The traits of each type, by the `impl` blocks.
@functools.cache
def implemented():
    found = collections.defaultdict(set)
    for path in glob.glob("crates/*/src/**/*.rt", recursive=True):
        for trait, word in re.findall(r"^impl(?:<[^>]*>)? (\w+) for (\w+)", open(path).read(), re.M):
            found[word].add(trait)
    return found


# The traits that a name stands for in a path: those of the type that it is, or those that bound it in a function's head.
def traits_of(word, f):
    return implemented()[word] | set(re.findall(r"[<,] ?%s: (\w+)" % word, f.head))


# The functions that a function's body calls: `crate::f(`, `module::f(`, `Type::f(`, `Self::f(`, `f(`, `..f(` and `.f(`; a method is any of that name.
def called(f, there):
    by_last = collections.defaultdict(set)
    for name in there:
        by_last[name.split("::")[-1]].add(name)
    found = set()
    for path, dot, last in re.findall(r"((?:\w+::)*)((?<!\.)\.|)\b(\w+)(?:::<\w+>)?\(", f.body):
        for name in by_last[last]:
            g = there[name]
            if dot:
                found |= {name} if g.owner else set()
            elif path:
                word = path.split("::")[-2]
                word = f.owner if word == "Self" else word
                found |= {name} if word in (g.crate, g.module, g.owner) or traits_of(word, f) & ({g.owner} | implemented()[g.owner]) else set()
            elif (g.crate, g.module, g.owner) == (f.crate, f.module, "") or (g.crate, g.module, g.owner) == (f.crate, f.module, f.owner):
                found.add(name)
    return found


# All functions that are run where these are.
def reached(entries, there):
    done, ahead = set(), list(entries)
    while ahead:
        name = ahead.pop()
        if name not in done:
            done.add(name)
            ahead += called(there[name], there)
    return done


# The lent parameters of a function that it may write to.
def lent_to_write(f):
    return re.findall(r"(\w+): &(?:'\w+ )?mut\b", f.head.split("requires")[0].split("ensures")[0])


# The clauses of its contract in order: whether each is a `requires` or an `ensures`, and what stands between its braces.
def clauses(f):
    for found in re.finditer(r"^\s*(requires|ensures)\*?(?: \w+)? \{", f.head, re.M):
        depth, end = 1, found.end()
        while depth:
            depth += {"{": 1, "}": -1}.get(f.head[end], 0)
            end += 1
        yield found[1], f.head[found.end():end - 1].strip()


# What its contract asks, clause by clause.
def required(f):
    return [text for kind, text in clauses(f) if kind == "requires"]


# What its contract says, with what it asks; nothing where it says nothing of what is left.
def ensured(f):
    return "\n".join(text for _, text in clauses(f)) if any(kind == "ensures" for kind, _ in clauses(f)) else ""


# The names that a file of definitions or proofs gives: definitions, theorems, records and their fields, types and their cases.
def given_by(path):
    return set(re.findall(r"^\s*(?:abbrev |unfoldable )?(?:pub )?(?:record |data )?([^\s:(){}]+)(?= [^=\n]*:| :)", open(path).read(), re.M))


# Those names, with the file of each: `crate/specs/File` or `crate/proofs/File`.
def names():
    given = collections.defaultdict(set)
    for path in glob.glob("crates/*/specs/*.antt") + glob.glob("crates/*/proofs/**/*.antt", recursive=True):
        for name in given_by(path):
            given[name].add("/".join(path[:-5].split("/")[1:]))
    return given


# The definitions, records and types of a file of specs, each with its line and its comments. The one above stands directly over it, its fixity perhaps
# between, or over its group: a comment that ends with a colon, and a heading (`-- ---- ..`), stand for all below them up to the next comment. Those
# within stand deeper than the definition itself, or at the end of one of its lines.
def definitions_of(path):
    made, comment, group, directly, going_on, deep = [], [], False, False, False, 0
    for at, line in enumerate(open(path).read().splitlines(), 1):
        text, found = line.strip(), DEFINITION.match(line)
        if text.startswith("--"):
            comment = comment + [text] if going_on else [text]
            group, directly, going_on = text.endswith(":") or text.startswith("-- ----"), True, True
            if made and deep is not None and len(line) - len(line.lstrip()) > deep:
                made[-1].within.append(text)
            continue
        going_on = False
        if found:
            deep = len(found[1])
            made.append(Definition(found[2], at, comment if directly or group else [], []))
        elif line.startswith("module "):
            # what stands deeper now is in the module
            deep = None
        if made and " -- " in line:
            made[-1].within.append(line[line.index(" -- "):].strip())
        directly = directly and text.startswith("infix")
    return made


# The wrong programs that are kept: in the gate, and beside it.
def edits(folder):
    return {tuple(path[:-5].split("/")[1::2]) for path in glob.glob("crates/*/%s/*.edit" % folder)}
