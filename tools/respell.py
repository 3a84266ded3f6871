#!/usr/bin/env python3
"""Respells the repository's own definitions and lemmas in snake case, once, behind /opt/rattle/port/port.py.

usage: python3 tools/respell.py [--check]      at the top of the repository

What specs/ and proofs/ declare in camelCase or with dashes gets underscores: definitions, lemmas, fields of records. A name in camelCase turns in comments too.
The names that the check itself makes in Answers.antt and Invariants.antt (goals, steps, variants) keep theirs, and so do functions of src/, strings, and words with dashes in comments.
It goes by whole words, derives its table from the declarations that it finds, and stops where two of these, or one of these and another word of specs/ or proofs/, would fall together. --check writes nothing.
"""
import os
import re
import sys

# A lemma that would fall together with the definition that it is about.
OTHERWISE = {
    "counted-in": "counted_put",
    "in-slot": "is_in_slot",
    "is-next": "next_told",
    "on-lock": "reads_on_lock",
    "read-on": "read_reached",
    "turned-away": "turned_away_so",
}

WORD = re.compile(r'[^\s(){}.;,@"«»]+')
DECLARED = re.compile(r"^[ ]*(?:(?:pub|abbrev|unfoldable|data|record) )*([^\s(){}.;,@\"«»]+)(?: \{[^{}\n]*\}| \([^()\n]*\))* :(?= |$)", re.M)
MADE_TYPE = re.compile(r"^[ ]*(?:(?:pub|abbrev) )*([^\s(){}.;,@\"«»]+) : goal\.", re.M)
FIELDS = re.compile(r"^ *(?:pub )?record [^\n]* where\n((?:  [^\n]*\n|\n)+)", re.M)
QUIET = re.compile(r'//[^\n]*|"(?:\\.|[^"\\])*"', re.S)


def texts(kinds):
    for folder, dirs, files in os.walk("crates"):
        dirs[:] = sorted(d for d in dirs if d != "out")
        for f in sorted(files):
            if f.endswith(kinds):
                yield os.path.join(folder, f)


def snake(name):
    if name in OTHERWISE:
        return OTHERWISE[name]
    return re.sub(r"(?<=[a-z0-9])[A-Z]", lambda m: "_" + m[0].lower(), name).replace("-", "_")


def by_check(path):
    """Whether the check made some of the names that the file has: an answer or an invariant of a function."""
    return bool(re.search(r"/proofs/(.*/)?(Answers|Invariants)\.antt$", path))


def read(path):
    with open(path, encoding="utf-8") as f:
        return f.read()


def uncommented(text):
    return re.sub(r"(?m)(^|(?<=\s))--.*$", " ", text)


def table():
    """Old and new names, and the names that are fields of records."""
    own, fields, made, words = set(), set(), set(), set()
    for path in texts(".antt"):
        text = uncommented(read(path))
        words.update(WORD.findall(re.sub(r"Rattle(\.[^\s(){};,.]+)+", " ", text)))
        if by_check(path):
            made.update(MADE_TYPE.findall(text))
        names = set(DECLARED.findall(text)) - set(MADE_TYPE.findall(text))
        own.update(n for n in names if n[0].islower() or n[0] == "_" and len(n) > 1)
        for block in FIELDS.findall(text):
            fields.update(DECLARED.findall(block))
    turned = {n: snake(n) for n in own if snake(n) != n and re.fullmatch(r"[\w'-]+", n)}
    bad = []
    for old, new in sorted(turned.items()):
        others = [o for o, n in turned.items() if n == new and o != old]
        if others or new in words:
            bad.append(f"{old} would fall together with {', '.join(others) or new}")
    return turned, fields & set(turned), bad


def respelled_antt(path, text, turned, fields):
    out = []
    made = set(MADE_TYPE.findall(text)) if by_check(path) else set()
    for line in text.splitlines(keepends=True):
        m = re.search(r"(^|(?<=\s))--", line)
        code, prose = (line[: m.start()], line[m.start() :]) if m else (line, "")
        out.append(in_code(path, code, turned, fields, made))
        out.append(in_prose(prose, turned))
    return "".join(out)


def in_code(path, code, turned, fields, made):
    def one(m):
        word = m[0]
        if word not in turned or word in made:
            return word
        # behind a dot a proof file names what the check made, but for the fields of our own records
        if by_check(path) and code[: m.start()].endswith("."):
            head = re.search(r"([^\s(){};,@\"«»]+)\.$", code[: m.start()])
            if word not in fields and not (head and head[1].split(".")[0] in ("Rattle",)):
                return word
        return turned[word]

    return WORD.sub(one, code)


def in_prose(prose, turned):
    return re.sub(r"[\w'-]+", lambda m: turned[m[0]] if m[0] in turned and "-" not in m[0] else m[0], prose)


def respelled_rt(text, turned):
    """Only camelCase or dashed words turn, which no Rust has outside clauses and comments; strings stay."""
    out, at = [], 0
    for m in QUIET.finditer(text):
        out.append(WORD.sub(lambda w: turned.get(w[0], w[0]), text[at : m.start()]))
        out.append(in_prose(m[0], turned) if m[0].startswith("//") else m[0])
        at = m.end()
    out.append(WORD.sub(lambda w: turned.get(w[0], w[0]), text[at:]))
    return "".join(out)


def main(argv):
    turned, fields, bad = table()
    for it in bad:
        print("respell: " + it)
    if bad:
        return 1
    changed = 0
    for path in texts((".antt", ".rt")):
        old = read(path)
        new = respelled_antt(path, old, turned, fields) if path.endswith(".antt") else respelled_rt(old, turned)
        if new != old:
            changed += 1
            if "--check" not in argv:
                with open(path, "w", encoding="utf-8") as f:
                    f.write(new)
    for old, new in sorted(turned.items()):
        print(f"{old}\t{new}")
    print(f"respell: {len(turned)} names, {changed} files")
    return 0


if __name__ == "__main__":
    raise SystemExit(main(sys.argv[1:]))
