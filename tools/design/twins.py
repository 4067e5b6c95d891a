#!/usr/bin/env python3
"""Lists the functions of the crates whose bodies have one shape: the same words of the language and the same signs, with
other names, types, sizes and numbers. A group of two or more is a place of point 2 of docs/DESIGN-PASS.md."""
import pathlib
import re

WORDS = set("if else match return for in while loop let mut as self Self Some None Ok Err true false break continue".split())


def functions(text):
    for start in re.finditer(r"^( *)(?:pub(?:\(crate\))? )?fn (\w+)", text, re.M):
        opening = re.search(r"^%s\{$|\{$" % start.group(1), text[start.start():], re.M)
        if opening is None:
            continue
        body = start.start() + opening.end()
        end = re.search(r"^%s\}$" % start.group(1), text[body:], re.M)
        if end:
            yield start.group(2), text[body:body + end.start()]


def shape(body):
    body = re.sub(r"//[^\n]*", "", body)
    parts = re.findall(r'\w+|"[^"]*"|\S', body)
    return tuple(p if p in WORDS or not re.match(r'\w|"', p) else "x" for p in parts)


def main():
    groups = {}
    for file in sorted(pathlib.Path("crates").glob("*/src/**/*.rt")):
        for name, body in functions(file.read_text()):
            form = shape(body)
            if len(form) >= 12:
                groups.setdefault(form, []).append(f"{file}:{name}")
    twins = [g for g in groups.values() if len(g) > 1]
    for group in sorted(twins):
        print(" ~ ".join(group))


main()
