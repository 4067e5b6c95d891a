#!/usr/bin/env python3
"""Where a function's proof fails, tries it without the answers that fail, and then without its Answers.antt; where that fails too, puts them back.

usage: python3 tools/port/bare.py CRATE..     at the top of the repository
"""

import glob
import os
import re
import subprocess
import sys

sys.path.insert(0, os.path.dirname(os.path.realpath(__file__)))
from answers import blocks, name_of, read  # noqa: E402


def check(here):
    r = subprocess.run(["rt", "check"], cwd=here, capture_output=True, text=True)
    return r.stdout + r.stderr


def folder_of(here, name):
    parts = name.split("::")[1:]
    for end in ([*parts[:-1], parts[-1]], [*parts[:-1], "+" + parts[-1]]):
        path = os.path.join(here, "proofs", *end)
        if os.path.isdir(path):
            return path


def open_folders(here, said):
    names = re.findall(r"^fn (\S+): (?:not proved|no proof: (?!it calls))", said, re.M)
    return {f for f in (folder_of(here, n) for n in names) if f and os.path.exists(f + "/Answers.antt")}


def write(path, text):
    if text is None:
        if os.path.exists(path):
            os.remove(path)
    else:
        os.makedirs(os.path.dirname(path), exist_ok=True)
        with open(path, "w", encoding="utf-8") as f:
            f.write(text)


for crate in sys.argv[1:]:
    here = f"crates/{crate}"
    said = check(here)
    folders = open_folders(here, said)
    was = {f: read(f + "/Answers.antt") for f in folders}
    for f in folders:
        short = os.path.relpath(f, here)
        failed = set(re.findall(r"^\./%s/Answers\.antt:\S+ (?:error|note): `([^`]+)`" % re.escape(short), said, re.M))
        failed |= set(re.findall(r"^\./%s/Answers\.antt:.*\(in `([^`]+)`\)" % re.escape(short), said, re.M))
        keep = [b for b in blocks(was[f]) if name_of(b) not in failed]
        write(f + "/Answers.antt", "\n\n".join(keep) + "\n" if any(name_of(b) for b in keep) else None)
    said = check(here) if folders else ""
    still = {f for f in folders if re.search(r"^fn %s::\S*: (?:not proved|no proof: (?!it calls))" % crate, said, re.M) and f in {folder_of(here, n) for n in re.findall(r"^fn (\S+): (?:not proved|no proof: (?!it calls))", said, re.M)}}
    for f in folders - still:
        print(f"{f}: proved without the answers that failed")
    for f in still:
        write(f + "/Answers.antt", None)
    said = check(here) if still else ""
    again = {folder_of(here, n) or n for n in re.findall(r"^fn (\S+): (?:not proved|no proof: (?!it calls))", said, re.M)}
    for f in still:
        name = f"{crate}::" + os.path.relpath(f, here + "/proofs").replace("/", "::").replace("+", "")
        if f in again or name in again:
            write(f + "/Answers.antt", was[f])
            print(f"{f}: open")
        else:
            print(f"{f}: needs no answers")
    for f in folders:
        if os.path.isdir(f) and not os.listdir(f):
            os.rmdir(f)
