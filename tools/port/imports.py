#!/usr/bin/env python3
"""Looks up each name that is imported from a crate of the repository, and imports it from where it now stands, in specs/ or in proofs/.

usage: python3 tools/port/imports.py     at the top of the repository
"""

import glob
import os
import re

DECL = re.compile(r"^\s*(?:abbrev |unfoldable )?(?:pub )?(?:data |record )?(?:pub )?([^\s:({]+) ?(?::|\(|where|\{)", re.M)


def read(path):
    with open(path, encoding="utf-8") as f:
        return f.read()


def names_in(text):
    text = re.sub(r"--.*", "", text)
    names = set(DECL.findall(text)) | set(re.findall(r"^\s*(?:abbrev |unfoldable )?(?:pub )?(?:data|record) (\S+)", text, re.M))
    for m in re.findall(r"^pub use \S+?\.\{([^}]*)\}", text, re.M):
        names |= {n.strip() for n in m.split(",")}
    return names


where = {}
for path in glob.glob("crates/*/specs/**/*.antt", recursive=True) + glob.glob("crates/*/proofs/**/*.antt", recursive=True):
    if os.path.basename(path) in ("Answers.antt", "Invariants.antt", "Proof.antt") or "/out/" in path:
        continue
    _, crate, part, *rest = path[:-5].split("/")
    where[f"Rattle.{crate}.{part}." + ".".join(rest)] = names_in(read(path))

for path in sorted(glob.glob("crates/*/specs/**/*.antt", recursive=True) + glob.glob("crates/*/proofs/**/*.antt", recursive=True) + glob.glob("crates/*/src/**/*.rt", recursive=True)):
    if "/out/" in path:
        continue
    text, out, seen = read(path), [], False
    for line in text.split("\n"):
        m = re.match(r"((?:pub )?(?:ghost )?use )(Rattle\.(\w+)\.(specs|proofs)\.([\w.]+))\.\{(.*)\}(;?)$", line)
        if not m or not os.path.isdir("crates/" + m[3]) or ".declared." in m[2] or m[5].endswith(("Goals", "Given")):
            out.append(line)
            continue
        head, module, crate, part, rest, names, end = m.groups()
        names = [n.strip() for n in names.split(",")]
        other = f"Rattle.{crate}.{'proofs' if part == 'specs' else 'specs'}.{rest}"
        stay, go = [], []
        for n in names:
            base = n.split(" as ")[0]
            if base in where.get(module, set()):
                stay.append(n)
            elif base in where.get(other, set()):
                go.append(n)
            else:
                print(f"{path}: {n} of {module} is nowhere")
                stay.append(n)
        if not go:
            out.append(line)
            continue
        seen = True
        if stay:
            out.append(f"{head}{module}." + "{" + ", ".join(stay) + "}" + end)
        out.append(f"{head}{other}." + "{" + ", ".join(go) + "}" + end)
    if seen:
        print(f"{path}: turned")
        with open(path, "w", encoding="utf-8") as f:
            f.write("\n".join(out))
