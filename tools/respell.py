#!/usr/bin/env python3
"""Brings the names of this repository's own definitions and lemmas to the spelling of today's Rattle: words in snake
case, types in camel case. Run once, at the top of the repository, after the kit's port.py and before any edit by hand.

A name is one that a file of specs/ or proofs/ declares, or gives by `as`. The names of goals, the names of the library
and functions of src/ keep theirs. Names that would fall together are told apart by the table below: where a lemma would
have the name of the function that it speaks of, it gets `_lem`.
"""

import os
import re

DECLARED = re.compile(
    r"^\s*(?:\|\s*)?(?:(?:abbrev|unfoldable|pub|data|record|ruleset)\s+)*"
    r"([^\s:(){}\[\].,;=|λ]+)(?:\s+[^:\n]*?)?\s+:\s+(.*)$"
)
ALIAS = re.compile(r"\sas\s+([^\s,}]+)")
TOKEN = re.compile(r"[^\s(){}\[\].,;]+")
IMPORT = re.compile(r"use Rattle\.(?:std|core)\.[\w.]*\{([^}]*)\}|use (?:mathlib|native|lib|borrow|denote|mir)\.[\w.]*\{([^}]*)\}")

# Names that would fall together with another, by the crate in which they stand ('' for every crate).
APART = {
    ("grammar", "is-empty"): "is_empty_lem",
    ("grammar", "is-kind"): "is_kind_lem",
    ("grammar", "all_kinds"): "all_kinds_lem",
    ("table", "step-at"): "step_at_lem",
    ("worked", "step-at"): "step_at_lem",
    # Facts, which are spelled as types.
    ("", "languageOf"): "LanguageOf",
    ("", "sentencesFrom"): "SentencesFrom",
}


def files(*ends):
    for folder, dirs, names in os.walk("crates"):
        dirs[:] = sorted(d for d in dirs if d not in ("out", "target"))
        for name in sorted(names):
            if name.endswith(ends):
                yield os.path.join(folder, name)


def read(path):
    with open(path, encoding="utf-8") as f:
        return f.read()


def spelled(name):
    if name[0].isupper():
        return "".join(w[:1].upper() + w[1:] for w in name.split("-"))
    name = name.replace("-", "_")
    return re.sub(r"([a-z])([A-Z])", lambda m: m.group(1) + "_" + m.group(2).lower(), name)


def wants(name):
    return "-" in name[1:-1] and not name.startswith("-") or (name[0].islower() and re.search(r"[a-z][A-Z]", name))


def own_names():
    own = set()
    for path in files(".antt"):
        for line in read(path).splitlines():
            m = DECLARED.match(line)
            if m and not m.group(2).startswith("goal."):
                own.add(m.group(1))
            own.update(ALIAS.findall(line))
    for path in files(".rt"):
        for line in read(path).splitlines():
            if line.lstrip().startswith("ghost use"):
                own.update(ALIAS.findall(line.rstrip(";")))
    return {n for n in own if wants(n)} | {n for (_, n) in APART}


def turned(path, text, own):
    crate = path.split(os.sep)[1]
    theirs = set()
    for m in IMPORT.finditer(text):
        for word in (m.group(1) or m.group(2)).split(","):
            theirs.add(word.split(" as ")[0].strip())

    def one(m):
        name, before = m.group(0), text[max(0, m.start() - 8) : m.start()]
        if name not in own or name in theirs or re.search(r"(?:^|[^\w'-])(?:goal|c)\.$", before):
            return name
        for key in ((crate, name), ("", name)):
            if key in APART:
                return APART[key]
        return spelled(name) if wants(name) else name

    return TOKEN.sub(one, text)


def main():
    own = own_names()
    count = 0
    for path in files(".antt", ".rt", ".edit"):
        text = read(path)
        new = turned(path, text, own)
        if new != text:
            count += 1
            with open(path, "w", encoding="utf-8") as f:
                f.write(new)
    print(f"{len(own)} names, {count} files")


main()
