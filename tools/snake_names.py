#!/usr/bin/env python3
"""Spells the definitions and lemmas of this repository in snake case, as today's Rattle does.

    tools/snake_names.py [FOLDER [NAMES]]

It turned the tree that docs/PORT.md names, right behind the kit's own script, and is kept so that this can be seen
again; it is not part of the gate. FOLDER is the tree that is rewritten (here, if none is given), and the names are read
from the tree NAMES (FOLDER, if none is given). A name is turned where it is declared in a file of specs/ or proofs/
that is no function's own proof, and holds a dash or a capital behind a small letter: `calls-tests` becomes
`calls_tests`, `bucketAt` becomes `bucket_at`. Names that Rattle makes, of goals and steps, keep their dashes. What
turns: the code of .antt files, clauses and `ghost use` lines of .rt files, and code spans in comments and pages.
"""
import os
import re
import sys

TOKEN = re.compile(r"[^\s(){}.;,@\"`«»]+")
NAME = r"[^\s(){}.;,@\"`«»:=]+"
HEAD = r"(?:(?:pub|abbrev|unfoldable|private) )*"
DECLARED = re.compile(rf"^\s*{HEAD}(?:(?:record|data|ruleset) ({NAME})|({NAME}(?: {NAME})*)(?: :|\s*$))", re.M)
BOUND = re.compile(rf"[({{]({NAME}(?: {NAME})*) : ")
ALIAS = re.compile(rf"\bas ({NAME})")
COMMENT = re.compile(r"(?<!\S)--.*")
SPAN = re.compile(r"`[^`\n]+`")
TURNS = re.compile(r"^[^\W\d_][\w']*(?:-[\w']+)+$|^[a-z][a-z0-9]*[A-Z]\w*'*$")
OWN_PROOFS = {"Proof.antt", "Answers.antt", "Invariants.antt"}
PAGES = ("README.md", "docs/CLAIMS.md", "docs/DECISIONS.md")
# names that would fall together with another
OTHERWISE = {
    "codingAt": "job_coding",
    "pinOf": "mapped_pin",
    "bucket-at": "bucket_at_lem",
    "bucket-levels": "levels_of_buckets",
    "effective-buffers": "effective_buffers_lem",
    "state-at": "state_at_lem",
    "units-taken": "units_read",
}
# a module that today's Rattle makes itself, and so may no longer be declared
MOVED = ("crates/changing/specs/Contracts.antt", "crates/changing/specs/NewContract.antt")


def files(root, ending):
    for folder, below, names in os.walk(os.path.join(root, "crates")):
        below[:] = sorted(d for d in below if d != "out")
        for name in sorted(names):
            if name.endswith(ending):
                yield os.path.join(folder, name)


def read(path):
    with open(path, encoding="utf-8") as f:
        return f.read()


def of_a_function(path):
    """A function's own proof, and not a file of specs/ that is called Answers."""
    above = os.path.dirname(path)
    return os.path.basename(path) in OWN_PROOFS and os.path.basename(above) not in ("proofs", "specs")


def snake(name):
    if name in OTHERWISE:
        return OTHERWISE[name]
    name = name.replace("-", "_")
    if name[0].islower():
        name = re.sub(r"(?<=[a-z0-9])[A-Z]", lambda m: "_" + m[0].lower(), name)
    return name


def table(root):
    """Each own name that turns, with its new spelling."""
    names = set()
    for path in files(root, ".antt"):
        if of_a_function(path):
            continue
        code = COMMENT.sub("", read(path))
        words = [word for m in DECLARED.finditer(code) for word in (m[1] or m[2]).split()]
        words += [word for pattern in (BOUND, ALIAS) for m in pattern.finditer(code) for word in m[1].split()]
        names.update(word for word in words if TURNS.match(word))
    return {name: snake(name) for name in names}


def turned(names, text):
    return TOKEN.sub(lambda m: names.get(m[0], m[0]), text)


def turn_code(names, text):
    """The code turned whole, a comment in its code spans."""
    out, at = [], 0
    for m in COMMENT.finditer(text):
        out += [turned(names, text[at : m.start()]), turn_spans(names, m[0])]
        at = m.end()
    return "".join(out) + turned(names, text[at:])


def turn_spans(names, text):
    return SPAN.sub(lambda m: turned(names, m[0]), text)


def turn_rust(names, text):
    """Clauses, ghost items and attributes: the only places of a Rust text where such names can stand. Comments in their code spans, and strings never."""
    out = []
    for line in text.split("\n"):
        code, slashes, said = line.partition("//")
        parts = re.split(r'("(?:[^"\\]|\\.)*")', code)
        code = "".join(p if p.startswith('"') else turned(names, p) for p in parts)
        out.append(code + slashes + turn_spans(names, said))
    return "\n".join(out)


IMPORT = re.compile(r"\buse ([\w.]+)\.\{([^}]*)\}")


def own_in(names, crates, text):
    """The names as they turn in this text: those that it takes from a library keep the library's spelling."""
    taken = set()
    for module, words in IMPORT.findall(text):
        parts = module.split(".")
        if parts[0] != "Rattle" or parts[1] not in crates:
            taken.update(word.split(" as ")[0].strip() for word in words.split(","))
    return {name: new for name, new in names.items() if name not in taken} if taken & names.keys() else names


def write(path, text):
    if text != read(path):
        with open(path, "w", encoding="utf-8") as f:
            f.write(text)


def move_module(root):
    old, new = (os.path.join(root, path) for path in MOVED)
    if os.path.exists(old):
        os.rename(old, new)
    for ending in (".antt", ".rt"):
        for path in files(root, ending):
            text = read(path).replace("changing.specs.Contracts", "changing.specs.NewContract")
            if path.endswith("crates/changing/specs/Lib.antt"):
                text = text.replace("pub mod Contracts\n", "pub mod NewContract\n")
            write(path, text)


def main(argv):
    root = argv[1] if len(argv) > 1 else os.path.join(os.path.dirname(os.path.abspath(__file__)), "..")
    names = table(argv[2] if len(argv) > 2 else root)
    spellings = {}
    for old, new in sorted(names.items()):
        spellings.setdefault(new, []).append(old)
    for new, olds in spellings.items():
        if len(olds) > 1:
            print(f"fall together as {new}: {', '.join(olds)}")
    crates = set(os.listdir(os.path.join(root, "crates")))
    for ending, turn in ((".antt", turn_code), (".rt", turn_rust)):
        for path in files(root, ending):
            text = read(path)
            write(path, turn(own_in(names, crates, text), text))
    for page in PAGES:
        path = os.path.join(root, page)
        if os.path.exists(path):
            write(path, turn_spans(names, read(path)))
    move_module(root)
    print(f"{len(names)} names")


if __name__ == "__main__":
    main(sys.argv)
