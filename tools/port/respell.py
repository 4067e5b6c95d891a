#!/usr/bin/env python3
"""Respells the repository's own definitions and lemmas as today's Rattle spells words: in snake case.

usage: python3 tools/port/respell.py     at the top of the repository, once, after port.py

A definition `nodeCount` becomes `node_count`, a lemma `lowest-le` becomes `lowest_le`. It reads the names that specs/ and the lemma files of
proofs/ declare or bind, leaves those of Rattle's library, and rewrites specs/, proofs/, the clauses of src/ and the must-fail edits by whole
words. Names of functions, types, modules and exported symbols stay. Where a definition and a lemma would fall together, the lemma gets the
ending `_law`. Each name's old and new spelling is printed.
"""

import collections
import glob
import os
import re

WORD = re.compile(r"[^\s(){}\[\].,;:\"`‵«»]+")
USE = re.compile(r"^\s*(?:pub )?(?:ghost )?use (\S+?)(?:\.\{([^}]*)\})?(?: as (\S+?))?;?$", re.M)
DECLARED = re.compile(r"^\s*(?:abbrev |unfoldable )?(?:pub )?([a-z][a-z0-9_']*) :", re.M)
# Names that would fall together with another where they stand, and whose plain ending `_law` would say nothing.
BY_HAND = {
    "at-end": "at_the_end",
    "bit-and": "bit_of_and",
    "bit-or": "bit_of_or",
    "bit-xor": "bit_of_xor",
    "entry-at": "entry_stands",
    "in-range": "within_ranges",
    "node-within": "node_is_within",
    "or-end": "or_the_end",
    "put-at": "put_from_at",
}


def read(path):
    with open(path, encoding="utf-8") as f:
        return f.read()


def snake(word):
    word = word.replace("-", "_")
    return re.sub(r"([a-z0-9])([A-Z])", lambda m: m[1] + "_" + m[2].lower(), word)


def library_words(text):
    """The names that the file imports from outside the repository."""
    words = set()
    for path, names, _ in USE.findall(text):
        own = re.match(r"Rattle\.(\w+)\.", path)
        if own and os.path.isdir("crates/" + own[1]):
            continue
        words |= {n.strip().split(" as ")[0] for n in names.split(",") if n.strip()}
        words.add(path.split(".")[-1])
    return words


def code(text):
    return re.sub(r"--.*", "", text)


def candidates(files):
    """The words to respell, and the words in snake case that the repository declares itself."""
    found, library, declared = set(), set(), set()
    for path in files:
        text = read(path)
        library |= library_words(text)
        declared |= set(DECLARED.findall(text))
        for w in WORD.findall(code(text)):
            if re.fullmatch(r"[a-z][A-Za-z0-9'_-]*", w) and ("-" in w or re.search(r"[a-z0-9][A-Z]", w)):
                found.add(w)
    return found - library, declared


def renaming(words, declared):
    """From old to new. A definition in camel case keeps the plain name; a lemma that falls together with it gets `_law`."""
    by_new = collections.defaultdict(list)
    for w in sorted(words):
        if w not in BY_HAND:
            by_new[snake(w)].append(w)
    to = dict(BY_HAND)
    for new, olds in by_new.items():
        if new in declared and any(re.search("[A-Z]", w) for w in olds):
            olds.append(new)
        olds.sort(key=lambda w: (not re.search("[A-Z]", w), w))
        for i, w in enumerate(olds):
            to[w] = new if i == 0 else new + "_law"
    return to


def respell(text, to, comments, skip=()):
    """The text with whole words respelled; in comments only those in camel case or in backquotes."""
    out = []
    for line in text.split("\n"):
        m = re.match(r"((?:[^\"]|\"(?:[^\"\\]|\\.)*\")*?)(\s*%s.*)?$" % re.escape(comments), line)
        head, tail = (m[1], m[2] or "") if m else (line, "")
        parts = re.split(r"(\"(?:[^\"\\]|\\.)*\")", head)
        for i in range(0, len(parts), 2):
            parts[i] = WORD.sub(lambda w: to.get(w[0], w[0]) if w[0] not in skip else w[0], parts[i])
        tail = re.sub(r"`[^`]*`", lambda q: WORD.sub(lambda w: to.get(w[0], w[0]), q[0]), tail)
        tail = WORD.sub(lambda w: to.get(w[0], w[0]) if "-" not in w[0] else w[0], tail)
        out.append("".join(parts) + tail)
    return "\n".join(out)


def imported(text):
    """The names that a file imports one by one, from anywhere."""
    return {n.strip() for _, names, _ in USE.findall(text) for n in names.split(",")}


def rewrite(path, to, comments, skip):
    text = read(path)
    new = respell(text, to, comments, skip(text))
    if new != text:
        with open(path, "w", encoding="utf-8") as f:
            f.write(new)


def main():
    specs = sorted(glob.glob("crates/*/specs/**/*.antt", recursive=True))
    lemmas = sorted(glob.glob("crates/*/proofs/*.antt"))
    functions = sorted(set(glob.glob("crates/*/proofs/**/*.antt", recursive=True)) - set(lemmas))
    to = renaming(*candidates(specs + lemmas))
    # a word that stood in snake case already may be a function's name too: only specs/, and files that import it, mean the lemma
    stood = {w for w in to if "-" not in w and not re.search("[A-Z]", w)}
    for path in specs + lemmas:
        rewrite(path, to, "--", library_words)
    for path in functions:
        # a generated name of a goal or a step stands in the files of functions' proofs
        rewrite(path, to, "--", lambda text: library_words(text) | set(re.findall(r"tie\.([^\s.(){}]+)", text)) | (stood - imported(text)))
    for path in sorted(glob.glob("crates/*/src/**/*.rt", recursive=True)):
        rewrite(path, to, "//", lambda text: library_words(text) | stood)
    for path in sorted(glob.glob("crates/*/must-fail/*.edit")):
        text = read(path)
        lines = [respell(l, to, "\0", stood) if re.match(r"(old|new):", l) else l for l in text.split("\n")]
        if "\n".join(lines) != text:
            with open(path, "w", encoding="utf-8") as f:
                f.write("\n".join(lines))
    for old, new in sorted(to.items()):
        print(f"{old}\t{new}")


if __name__ == "__main__":
    main()
