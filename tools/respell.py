#!/usr/bin/env python3
"""Brings this repository's own definitions and lemmas to the spelling of today's Rattle, after port.py: words in snake case.

usage: tools/respell.py          at the top of the repository, once, after port.py

A word is respelled only where a specs/ or proofs/ file declares it. Functions and fields of src/, exported names, strings, inputs and
outputs keep their spelling. A name that would fall together with another stays, or is told apart in APART.
"""
import collections
import os
import re
import sys

WORD = r"[A-Za-z_][\w'\-]*"
DECLARED = re.compile(r"\s*(?:abbrev |unfoldable )?(?:pub )?(?:data |record )?(" + WORD + r"(?: " + WORD + r")*?) (?::|\(|\{)")
BY_HAND = re.compile(r"/proofs/(?:.*/)?[a-z]\w*/(?:Proof|Answers|Invariants)\.antt$")

# lemmas whose names fall together with the definition that they speak of, by file: told apart before anything else
APART = {
    "crates/frame/proofs/Laws/Walk.antt": {"too_long": "too_long_lem"},
    "crates/frame/proofs/items/walk/Proof.antt": {"too_long": "too_long_lem"},
    "crates/demands/proofs/Laws/Sets.antt": {"set_gives": "set_gives_lem"},
    "crates/demands/proofs/Laws/Cameras.antt": {"record_of": "record_of_lem"},
    "crates/demands/proofs/": {"record_of": "record_of_lem"},
    "crates/request/proofs/Laws/Reply.antt": {"no_room": "no_room_lem"},
    "crates/request/proofs/reply/send/Proof.antt": {"no_room": "no_room_lem"},
    "crates/batch/proofs/Theorems.antt": {"one_by_one": "one_by_one_lem"},
    "crates/demands/proofs/Answers.antt": {"load_gives": "load_gives_lem", "set_gives": "set_gives_lem"},
}

# a record's field, in files that don't speak of the definition of the same name
FIELDS = {"no_room", "entry_of"}
# bound variables, and names that an import gives
BOUND = ("outA", "outB", "answersA", "answersB", "cameraWellFormed", "peripheralWellFormed")


def snake(word):
    return re.sub(r"(?<!^)[A-Z]", lambda m: "_" + m.group(0).lower(), word).replace("-", "_")


def files(suffixes, tops):
    for top in tops:
        for folder, dirs, names in os.walk(top):
            dirs[:] = sorted(d for d in dirs if d not in ("out", "target", ".git", "landings"))
            for n in sorted(names):
                if n.endswith(suffixes):
                    yield os.path.join(folder, n)


def words_of(text):
    return set(re.findall(WORD, text))


def library_words(kit):
    found = set()
    for folder in ("std", "core", "std_alloc", "logic"):
        for p in files((".antt", ".md"), [os.path.join(kit, "rattle", folder)]):
            with open(p, encoding="utf-8", errors="replace") as f:
                found |= words_of(f.read())
    return found


def main():
    kit = os.path.dirname(os.path.dirname(os.path.realpath(os.popen("command -v rt").read().strip())))
    text = {}
    for p in files((".antt", ".rt", ".edit"), ["crates"]):
        with open(p, encoding="utf-8") as f:
            text[p] = f.read()
    before = dict(text)
    for key, names in APART.items():
        for p in text:
            if p == key or (key.endswith("/") and p.startswith(key) and p.endswith(".antt")):
                if key.endswith("/") and "Cameras.{" not in text[p]:
                    continue
                for old, new in names.items():
                    text[p] = re.sub(r"(?<![\w'.\-])" + re.escape(old) + r"(?![\w'\-])", new, text[p])
    declared = collections.defaultdict(set)
    every = set()
    for p, t in text.items():
        if not p.endswith(".antt"):
            continue
        # a path's parts are no names of this kind
        every |= words_of(re.sub(r"Rattle\.[\w.]+", " ", re.sub(r"(?m)--.*$", "", t)))
        if BY_HAND.search(p):
            continue
        for line in t.splitlines():
            m = DECLARED.match(line)
            if m and not line.lstrip().startswith(("use ", "--", "open ")):
                for w in m.group(1).split():
                    declared[w].add(p)
    every -= FIELDS
    library = library_words(kit)
    turned, stay = {w: snake(w) for w in BOUND}, []
    # definitions first: a lemma that would have its function's name gets _lem
    for w in sorted(declared, key=lambda w: ("-" in w, w)):
        new = snake(w)
        if not w[0].islower() or new == w:
            continue
        if "-" in w and new in turned.values():
            new += "_lem"
        if w in library or new in every or ("-" in w and new in library) or new in turned.values():
            stay.append(w)
        else:
            turned[w] = new
    pattern = re.compile(r"(?<![\w'\-])(" + "|".join(sorted(map(re.escape, turned), key=len, reverse=True)) + r")(?![\w'\-])")

    def put(t):
        return pattern.sub(lambda m: turned[m.group(1)], t)

    for p in text:
        if p.endswith(".rt"):
            # strings keep their words
            parts = re.split(r'("(?:[^"\\\n]|\\.)*")', text[p])
            text[p] = "".join(s if s.startswith('"') else put(s) for s in parts)
        else:
            text[p] = put(text[p])
    for p in list(files((".md",), ["docs"])) + ["README.md"]:
        with open(p, encoding="utf-8") as f:
            before[p] = f.read()
        text[p] = re.sub(r"`[^`\n]*`", lambda m: put(m.group(0)), before[p])
    for p, t in text.items():
        if t != before[p]:
            with open(p, "w", encoding="utf-8") as f:
                f.write(t)
    print(f"{len(turned)} names respelled; {len(stay)} stay: {' '.join(stay)}")
    return 0


if __name__ == "__main__":
    sys.exit(main())
