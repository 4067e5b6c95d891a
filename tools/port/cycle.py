#!/usr/bin/env python3
"""Turns the proof of a cycle of functions, a file of Proof/ for each, into one Answers.antt.

usage: python3 tools/port/cycle.py NAMES_JSON OLD_FOLDER MODULE CRATE >Answers.antt
"""

import glob
import json
import os
import re
import sys

sys.path.insert(0, os.path.dirname(os.path.realpath(__file__)))
import answers as A  # noqa: E402


class Turner(A.Turner):
    def way(self, parts):
        while parts[:1] == ["before"]:
            parts = parts[1:]
        if parts and parts[0] in ("pre", "requires"):
            if parts[1:2] == ["0"]:
                return ["decreases"] + parts[2:]
            if parts[1:2] == ["1"]:
                return ["requires"] + A.numbered(parts[2:], self.own[0])
        return super().way(parts)


def main(names, old, module, crate):
    names, common = json.load(open(names)), A.common_words()
    clauses, own = {}, {}
    for p in glob.glob("crates/*/src/**/*.rt", recursive=True):
        for k, v in A.clause_names(A.read(p)).items():
            clauses.setdefault(k, v)
    for p in glob.glob(f"crates/{crate}/src/**/*.rt", recursive=True):
        own.update(A.clause_names(A.read(p)))
    uses, answers, places, said = [], [], [], []
    members = [m[1] for m in (re.search(r"\.Lts-(\w+)$", k) for k in names) if m]
    for key, data in names.items():
        m = re.search(r"\.Lts-(\w+)$", key)
        if not m:
            continue
        member, stem = m[1], data["stem"]
        file = next(f for f in glob.glob(old + "/Proof/*.antt") if os.path.basename(f)[:-5].lower() == member.replace("_", ""))
        text = A.read(file)
        text = re.sub(r"^  ", "", text, flags=re.M)
        text = re.sub(r"Of lts\.", "tie.", text)
        text = re.sub(r"lts\.([\w-]+) \([\w-]+ t\) \([\w-]+ t\) reads\.Post", r"tie.\1", text)
        fn = A.Function(data, None, None)
        bs = [b for b in A.blocks(text)]
        ways, helpers, renamed = set(), {}, {}
        for b in bs:
            n = A.name_of(b)
            q = re.search(r"tie\.Need-(\S+)", b)
            if q and n:
                renamed[n] = stem + fn.need(q[1])
            q = re.search(r"^(?:abbrev )?(\S+) : tie\.\S+ → tie\.\S+\n\1 (\w+) = \2((?:\.before)+)$", b, re.M)
            if q:
                ways.add(q[1])
        for b in bs:
            n = A.name_of(b)
            q = n and n not in ways and n not in renamed and re.search(r"tie\.((?:After|Then|Else|Start|In|At)[^\s()]*)", b)
            if q:
                helpers[n] = stem + fn.places.get(A.plain(q[1]), q[1])
                places.append(helpers[n])
        for b in bs:
            n = A.name_of(b)
            if n is None:
                uses += [l for l in b.split("\n") if l.startswith("use ") and not re.search(r"\.(Claims|Reads|Kinds|Lts-\w+)\b", l)]
                continue
            if n in ways or n in ("closed", "Of", "Inv-loop", "μ-loop"):
                continue
            t = Turner(fn, own.get(member, ([], [])), clauses, said)
            t.ways = ways
            t.helpers = helpers
            if n in renamed:
                rest = [l for l in b.split("\n") if not l.startswith("--")]
                d = re.search(r"^%s((?: [^\s=]+)*) =(?= |\n)(.*)" % re.escape(n), "\n".join(rest), re.M | re.S)
                t.goal, t.lead = renamed[n], "t c"
                if d[2].strip() == "search rules":
                    continue
                body = t.body(d[2])
                short = renamed[n][len(stem) :]
                if not re.match(r"(%s)-(\w+-)?requires" % "|".join(members), short):
                    body = A.fields_named(short, body, own.get(member, ([], [])), clauses)
                body = re.sub(r"(?<![\w'.-])(%s) \(goal" % "|".join(map(re.escape, helpers)), lambda q: f"{q[1]}_of_{member} t (goal", body) if helpers else body
                answers.append(f"pub {renamed[n]} : goal.{renamed[n]}\n{renamed[n]} t c ={body}")
            elif n in helpers:
                t.place = helpers[n]
                new = re.sub(r"\(c : tie\.[^\s()]+\)", f"(t : ℕ) (c : {helpers[n]} t)", b)
                new = t.body(new)
                new = re.sub(r"^%s (?=c |:)" % re.escape(n), lambda q: f"{n}_of_{member} " + ("t " if not new[q.end() :].startswith(":") else ""), new, flags=re.M)
                new = re.sub(r"(?<![\w'.-])(%s) (c|\(goal)" % "|".join(map(re.escape, helpers)), lambda q: f"{q[1]}_of_{member} t {q[2]}", new)
                new = re.sub(r"goal\.at\.(\S+) c\)", r"goal.at.\1 t c)", new)
                answers.append(new)
            else:
                answers.append(b)
    lines = A.fit_uses(list(dict.fromkeys(uses)), common)
    merged = {}
    for l in lines:
        q = re.match(r"use (\S+?)\.\{(.*)\}$", l)
        merged.setdefault(q[1], [])
        merged[q[1]] += [x for x in q[2].split(", ") if x not in merged[q[1]]]
    for m, ns in merged.items():
        print(f"use {m}." + "{" + ", ".join(ns) + "}")
    if places:
        print(f"use {module}.Goals." + "{" + ", ".join(dict.fromkeys(places)) + "}")
    print(f"use {module}.Goals as goal\n")
    stems = "|".join(re.escape(m) for m in members)
    print(re.sub(r"\)\.(?:%s)-(After|Then|Else|In|At)" % stems, r").\1", "\n\n".join(answers)))
    for s in said:
        print(s, file=sys.stderr)


main(*sys.argv[1:])
