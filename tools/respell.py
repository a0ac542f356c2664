#!/usr/bin/env python3
"""Brings the names of this repository's own definitions and lemmas to one spelling.

usage: python3 tools/respell.py        at the top of the repository, once, right after /opt/rattle/port/port.py

Types and facts, which begin with a capital, lose their dashes and go on in camel case (None-admitted is
NoneAdmitted); every other word of ours has underscores for its dashes (early-refusal is early_refusal).
Names of Rattle's library and the names that Rattle makes (goals, steps) keep their dashes.
Comments, documents and must-fail edits follow where they name such a word.
"""

import collections
import os
import re
import subprocess

# Names that would fall together with another name, or that are better off with another word.
OTHERS = {
    "last-key": "greatest_key",  # a constant of the code is called last_key
    "In-step": "IsInStep",  # its file is called InStep
    "in-time": "arrives_in_time",  # the figures have fields in_time, used_up and too_far
    "used-up": "is_used_up",
    "too-far": "is_too_far",
    "too-far-to-fill": "is_too_far_to_fill",
    "Covers-of": "covers_of",
    "Falls-of": "falls_of",
    "get_d_set_at": "get_or_set_at",  # port.py read the library's old name letter by letter
    "ground": "ground_of",  # a word of the proof language, which definitions may not have
}

# Names of ours without a signature of their own: bound by `let`, `as` or a ghost member.
BOUND = """
Code-answer Code-call Walks-more blank-at blocks-of costs-more first-sum floor-of full-up judged-of low-a low-b low-c
more-charges more-cost next-stands ng-meaning root-at round-meaning sooner-of t-stands table-counts town-meaning
waiting-at within-gap-of within-set
""".split()

TOKEN = re.compile(r"[^\s(){}.,;:«»\[\]`\"]+")
MARKS = r"((?:(?:abbrev|unfoldable|pub)\s+)*)"


def tracked(*patterns):
    out = subprocess.run(["git", "ls-files", *patterns], capture_output=True, text=True, check=True).stdout
    return [f for f in out.splitlines() if os.path.isfile(f)]


def read(path):
    with open(path, encoding="utf-8") as f:
        return f.read()


def split_comments(text, kind):
    """The text as (is code, piece) pairs."""
    if kind == "antt":
        mark = re.compile(r"(?:(?<=\s)|^)--(?=\s|$).*", re.M)
    else:
        mark = re.compile(r"//.*|\"(?:[^\"\\\n]|\\.)*\"")
    at, pieces = 0, []
    for m in mark.finditer(text):
        pieces += [(True, text[at:m.start()]), (False, m.group())]
        at = m.end()
    return pieces + [(True, text[at:])]


def code_of(path):
    return "".join(p for is_code, p in split_comments(read(path), path.rsplit(".", 1)[1]) if is_code)


def own_names(files):
    """The dashed names that this repository defines, and no name of a library or of Rattle's making."""
    foreign, defined = set(), collections.defaultdict(list)
    for f in files:
        code = code_of(f)
        for m in re.finditer(r"use\s+Rattle\.(\w+)[\w.+'-]*\.\{([^}]*)\}", code):
            if not os.path.isdir("crates/" + m[1]):
                foreign.update(w for it in m[2].split(",") for w in TOKEN.findall(it))
        if not f.endswith(".antt"):
            continue
        for line in code.split("\n"):
            m = re.match(r"\s*" + MARKS + r"(?:record|data)\s+([^\s(){}:]+)", line)
            if m:
                defined[m[2]].append("")
                continue
            m = re.match(r"\s*" + MARKS + r"([^\s(){}:=,;|]+(?: [^\s(){}:=,;|]+)*) : (.*)$", line)
            if m:
                for n in m[2].split():
                    defined[n].append(m[3])
    names = {n for n, types in defined.items() if "-" in n and not all("goal." in t for t in types)}
    return {n for n in names | set(BOUND) if n not in foreign and re.search(r"[A-Za-z]", n)}


def respelt(name):
    if name in OTHERS:
        return OTHERS[name]
    if name[0].isupper():
        return "".join(p[:1].upper() + p[1:] for p in name.split("-"))
    return name.replace("-", "_")


def turn(text, names):
    return TOKEN.sub(lambda m: names.get(m.group(), m.group()), text)


def main():
    files = tracked("crates/*.antt", "crates/*.rt")
    names = {n: respelt(n) for n in own_names(files)}
    names.update({n: m for n, m in OTHERS.items() if any(n in TOKEN.findall(code_of(f)) for f in files)})
    quoted = lambda text: re.sub(r"`[^`\n]*`", lambda m: turn(m.group(), names), text)
    for f in files:
        pieces = split_comments(read(f), f.rsplit(".", 1)[1])
        new = "".join(turn(p, names) if is_code else quoted(p) for is_code, p in pieces)
        with open(f, "w", encoding="utf-8") as out:
            out.write(new)
    # names that port.py respelt stand in documents and edits too
    defined = {w for f in files for w in TOKEN.findall(code_of(f))}
    for f in tracked("docs/*.md", "README.md", "crates/*.edit"):
        for w in set(TOKEN.findall(read(f))):
            if re.fullmatch(r"[A-Za-z][\w'-]*-[\w'-]*", w) and w not in names and respelt(w) in defined:
                names.setdefault(w, respelt(w))
    for f in tracked("docs/*.md", "README.md"):
        new = quoted(read(f))
        with open(f, "w", encoding="utf-8") as out:
            out.write(new)
    for f in tracked("crates/*.edit"):
        new = turn(read(f), names)
        with open(f, "w", encoding="utf-8") as out:
            out.write(new)
    print(f"{len(names)} names respelt")


if __name__ == "__main__":
    main()
