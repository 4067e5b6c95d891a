#!/usr/bin/env python3
"""Turns proofs of the older form, proofs/F/Proof.antt over a Tie, into Invariants.antt and Answers.antt.

usage: python3 tools/port/answers.py CRATE..     at the top of the repository; the crates below CRATE must be proved

Answers that only say `search rules` go, since the check finds them. A way `c.before.before.f.ensures` becomes `c.f.ensures`, a clause's
number its name, a goal's and a step's old name the new one, as `rt check --generated DIR --old-names` lists them. What it can't turn it
names; that file stays as it is, and the check says the rest.
"""

import glob
import json
import os
import re
import subprocess
import sys
import tempfile

WORD = r"[^\s(){}\[\].,;:\"`]+"
plain = lambda it: re.sub(r"-?_-?|-", "-", it)
# Names that Rattle makes up for a step; the check finds what they say.
MADE_UP = re.compile(r"\.(enum_told|known_told|self|shared_slice_known|items_fit)[^\s.()]*-\d")
# Words that respell.py took for lemmas where they name a step.
RESPELLED = {
    "at-the-end": "at-end",
    "bit-of-and": "bit-and",
    "entry-stands": "entry-at",
    "within-ranges": "in-range",
    "node-is-within": "node-within",
    "or-the-end": "or-end",
    "put-from-at": "put-at",
}


def step_word(step):
    step = plain(step)
    number = re.search(r"\d*$", step)[0]
    base = step[: len(step) - len(number)]
    base = base[:-4] if base.endswith(("-law", "-lem")) else RESPELLED.get(base, base)
    return base.lower() + number


def read(path):
    with open(path, encoding="utf-8") as f:
        return f.read()


def common_words():
    """The names that std's module Common passes on."""
    kit = os.path.dirname(subprocess.run(["rt", "doc"], check=True, capture_output=True, text=True).stdout.strip())
    text = re.sub(r"--.*", "", read(f"{kit}/rattle/std/proofs/Common.antt"))
    words = set()
    for names in re.findall(r"^pub use \S+?\.\{([^}]*)\}", text, re.M):
        words |= {n.strip().split(" as ")[-1] for n in names.split(",")}
    return words


def blocks(text):
    """The declarations of a file, each with the comments above it: they begin at the left margin."""
    out, now = [], []
    for line in text.split("\n"):
        begins = line[:1] not in ("", " ", "\t", ")")
        if begins and now and not all(l.startswith("--") for l in now if l.strip()):
            head = next(l for l in now if l.strip() and not l.startswith("--"))
            m, n = re.match(r"(?:abbrev |unfoldable )?(?:pub )?(\S+) :", head), re.match(r"(\S+)", line)
            same = m and n and (n[1] == m[1] or line.startswith("unfolding"))
            if not same:
                out.append("\n".join(now).strip("\n"))
                now = []
        now.append(line)
    if any(l.strip() for l in now):
        out.append("\n".join(now).strip("\n"))
    return [b for b in out if b.strip()]


def name_of(block):
    for line in block.split("\n"):
        if line.startswith("--") or not line.strip():
            continue
        m = re.match(r"(?:abbrev |unfoldable )?(?:pub )?(\S+) :", line)
        return m and m[1]


class Function:
    def __init__(self, data, crate, names_of):
        self.needs = {}
        for old, new in data["needs"]:
            self.needs[plain(old)] = new
        self.steps = {}
        for _, _, (old, new), _, _ in data["places"]:
            if old:
                self.steps[plain(old)] = new
        self.places = {plain(p[0]): n for p, n in zip(data["places"], data["places_by_name"])}
        self.asked = data["asked"]
        self.given = {new: data["params"].get(callee) for _, _, (old, new), callee, _ in data["places"] if callee}
        self.callee = {new: callee for _, _, (old, new), callee, _ in data["places"] if callee}
        self.loops = {plain(old): (new, vars_) for (old, new), vars_ in data["loops"]}
        self.changed = {plain(l[0][0]): ch for l, ch in zip(data["loops"], data["changed"])}
        self.arms = {}
        for place in data["typed"]:
            for variable, step in place:
                self.arms[(plain(step), "given")] = ["type_inv", variable]
        for arm in data["arms"]:
            for new, step, way in (arm[2] if arm else ()):
                self.arms[(plain(step), *way)] = [arm[0], new]

    def need(self, old):
        old = plain(old)
        for o in (old, re.sub(r"^(overflow|nonzero)-", "", old)):
            if o in self.needs:
                return self.needs[o]


def clause_names(text):
    """Per function of a source: the names of its requires and ensures, in order."""
    found = {}
    text = re.sub(r"//.*", "", text)
    for m in re.finditer(r"\bfn (\w+)", text):
        rest = text[m.end() :]
        stop = re.search(r"\n\s*\{\s*\n|;\s*\n|\bfn \w+", rest)
        head = rest[: stop.start()] if stop else rest
        req = re.findall(r"\n\s*requires\*?( \w+)? \{", head)
        ens = re.findall(r"\n\s*ensures\*?( \w+)? \{", head)
        found.setdefault(m[1], ([r.strip() for r in req], [e.strip() for e in ens]))
    return found


def numbered(path, names):
    """`.1.1.0` of several clauses becomes the clause's name; what is left of the way stays."""
    if len(names) < 2:
        return path
    rest, i = path, 0
    while i < len(names) - 1:
        if rest[:1] == ["0"]:
            return [names[i]] + rest[1:]
        if rest[:1] == ["1"]:
            rest, i = rest[1:], i + 1
        else:
            return path
    return [names[-1]] + rest


class Turner:
    def __init__(self, fn, own, clauses, said):
        self.fn, self.own, self.clauses, self.said = fn, own, clauses, said
        self.contexts, self.ways, self.helpers = {"c"}, set(), {}
        self.goal, self.place, self.lead = None, None, "c"

    def clauses_of(self, step):
        base = re.sub(r"\d+$", "", step)
        for it in (step, base):
            for w in (it.replace("-", "_"),):
                if w in self.clauses:
                    return self.clauses[w]
        for w in sorted((k for k in self.clauses if isinstance(k, str)), key=len, reverse=True):
            if base.replace("-", "_").startswith(w + "_") or base.replace("-", "_").endswith("_" + w):
                return self.clauses[w]
        return None

    def way(self, parts):
        """The fields behind a context, in today's form; the empty list is the context itself."""
        while parts[:1] == ["before"]:
            parts = parts[1:]
        if not parts:
            return []
        step, rest = parts[0], parts[1:]
        if step in ("pre", "requires"):
            return ["requires"] + numbered(rest, self.own[0])
        if step in ("well-formed", "type-inv"):
            return [step.replace("-", "_")] + rest
        if step in ("args", "ranges", "type_inv", "well_formed", "lifetimes"):
            return parts
        for n in range(len(parts), 0, -1):
            arm = self.fn.arms.get((plain(step), *rest[: n - 1]))
            if arm and not arm[1].endswith("-own"):
                return arm + rest[n - 1 :]
        new = self.fn.steps.get(plain(step)) or self.fn.steps.get(step_word(step))
        if new is None:
            if plain(step) in self.fn.loops:
                new = self.fn.loops[plain(step)][0]
            else:
                self.said.append(f"step {step}?")
                new = step
        if rest[:1] in (["auto"], ["new"]) and rest[1:2] in (["0"], ["1"]) and self.fn.given.get(new):
            at = 1
            while rest[at : at + 1] == ["1"]:
                at += 1
            rest = [rest[0], self.fn.given[new][at - 1]] + rest[at + 1 :]
        if rest[:1] == ["ensures"]:
            callee = self.fn.callee.get(new, "").split("::")
            found = self.clauses.get((callee[0], callee[-1])) or self.clauses_of(step)
            if found:
                rest = ["ensures"] + numbered(rest[1:], found[1])
        if rest[:1] == ["requires"]:
            found = self.clauses_of(step)
            if found:
                rest = ["requires"] + numbered(rest[1:], found[0])
        return [new] + rest

    def body(self, text):
        # an abbreviation of the way back to an earlier place
        for w in self.ways:
            text = re.sub(r"\(%s (%s(?:\.before)*)\)" % (re.escape(w), WORD), r"\1", text)
            text = re.sub(r"(?<![\w'.-])%s (%s(?:\.before)*)(?![\w'.-])" % (re.escape(w), WORD), r"\1", text)
        # let s = c.before.before in
        while True:
            names = "|".join(sorted(map(re.escape, self.contexts), key=len, reverse=True))
            m = re.search(r"let (%s) = \(?(%s)((?:\.before)*)\)? in[ \n]?[ ]*" % (WORD, names), text)
            if not m:
                break
            rest = re.sub(r"(?<![\w'.-])%s(?![\w'-])" % re.escape(m[1]), lambda q: m[2], text[m.end() :])
            text = text[: m.start()] + rest
        # let p = c.requires in: the way stands where the name stood
        while True:
            names = "|".join(sorted(map(re.escape, self.contexts), key=len, reverse=True))
            m = re.search(r"let (%s) = ((?:%s)(?:\.[^\s(){}\[\].,;]+)*\.(?:pre|requires|ensures)(?:\.[01])*) in[ \n]?[ ]*" % (WORD, names), text)
            if not m:
                break
            rest = re.sub(r"(?<![\w'.-])%s(?![\w'-])" % re.escape(m[1]), lambda q: m[2], text[m.end() :])
            text = text[: m.start()] + rest
        # let r = c.f in, where a clause of r goes by a number
        at = 0
        while True:
            names = "|".join(sorted(map(re.escape, self.contexts), key=len, reverse=True))
            m = re.compile(r"let (%s) = ((?:%s)(?:\.[^\s(){}\[\].,;]+)+) in[ \n]?[ ]*" % (WORD, names)).search(text, at)
            if not m:
                break
            at = m.end()
            if re.search(r"(?<![\w'.-])%s\.(ensures|requires|new|auto)\.[01]" % re.escape(m[1]), text[at:]):
                rest = re.sub(r"(?<![\w'.-])%s(?![\w'-])" % re.escape(m[1]), lambda q: m[2], text[at:])
                text, at = text[: m.start()] + rest, m.start()
        names = "|".join(sorted(map(re.escape, self.contexts), key=len, reverse=True))
        for h, place in self.helpers.items():
            asked = f"(goal.at.{self.goal} {self.lead}).{place}"
            if self.place == place:
                asked = "c"
            elif self.place:
                asked = f"(goal.at.{self.place} c).{place}"
            text = re.sub(r"(?<![\w'.-])%s (?:\((?:%s)(?:\.before)*\)|(?:%s)(?:\.before)*)(?![\w'.-])" % (re.escape(h), names, names), lambda m: f"{h} {asked}", text)

        def one(m):
            if m[0].startswith("c).") or text[max(0, m.start() - 9) : m.start()].startswith("(goal.at."):
                return m[0]
            parts = [p for p in m[2].split(".") if p]
            new = self.way(parts)
            return "c" + "".join("." + p for p in new)

        text = re.sub(r"(?<![\w'.-])(%s)((?:\.[^\s(){}\[\].,;:\"`]+)*)(?![\w'-])" % names, one, text)
        text = re.sub(r"(\.in_default(?:-[\w-]*)?)\.rest", r"\1.in_default-own.rest", text)
        # a test of `!b` says what b is
        return re.sub(r"not-(?:true|false) _ (c\.\S+?\.(?:true|false))(?![\w'.-])", r"\1", text)


def turn(path, data, own, clauses, module, common):
    text = read(path)
    fn, said = Function(data, None, None), []
    bs = blocks(text)
    uses, head, invariants, answers = [], [], [], []
    renamed = {}
    inv_names = set()
    for b in bs:
        n = name_of(b)
        m = re.search(r": tie\.Need-(\S+)", b)
        if m:
            new = fn.need(m[1])
            if new:
                renamed[n] = new
            elif not re.search(r"= search rules$", b):
                said.append(f"goal {m[1]} is no longer there")
        if re.search(r": tie\.(invariant|decreases)-", b):
            inv_names.add(n)

    # answers that cite one another
    def rename(s):
        names = "|".join(sorted(map(re.escape, renamed), key=len, reverse=True))
        return re.sub(r"(?<![\w'.-])(%s)(?![\w'-])" % names, lambda q: renamed[q[1]], s) if renamed else s

    ways = set()
    for b in bs:
        n = name_of(b)
        m = b and re.search(r"^(?:abbrev )?(\S+) : (?:\(\w+ : )?tie\.\S+?\)? → tie\.\S+\n\1 (\w+) = \2((?:\.before)+)$", b, re.M)
        if m:
            ways.add(m[1])
    helpers, places = {}, []
    for b in bs:
        n = name_of(b)
        m = n and n not in ways and re.search(r"\(?\w* ?:? ?tie\.((?:After|Then|Else|Start|In|At|Past|Joined|Left)[^\s()]*)", b)
        if m and not re.search(r": tie\.Need-", b):
            helpers[n] = fn.places.get(plain(m[1]), m[1])
            places.append(helpers[n])
    for b in bs:
        lines = b.split("\n")
        n = name_of(b)
        if n is None:
            for l in lines:
                if l.startswith("use "):
                    if not re.search(r"\.(Statement|Tie)\b", l):
                        uses.append(l)
                else:
                    head.append(l)
            continue
        if re.match(r"(?:-- .*\n)*pub \S+ : \{M : Type 1\}", b) or n in ways:
            continue
        comments = [l for l in lines if l.startswith("--")]
        rest = [l for l in lines if not l.startswith("--")]
        m = re.search(r": tie\.(invariant|decreases)-(\S+)", b)
        if m:
            new, vars_ = fn.loops.get(plain(m[2]), (None, None))
            if new is None:
                said.append(f"loop {m[2]}?")
                continue
            changed = fn.changed[plain(m[2])]
            d = re.search(r"^%s (.*?) =(?: |\n)(.*)" % re.escape(n), "\n".join(rest), re.M | re.S)
            args, body = d[1].split(), d[2]
            wanted = len(vars_) + sum(changed)
            if len(args) != wanted:
                said.append(f"invariant of {m[2]} has {len(args)} arguments, and {wanted} values are live: {vars_} {changed}")
                continue
            to = {}
            for a, v, ch in zip(args, vars_, changed):
                to[a] = f"l.initial.{v}" if ch else f"l.{v}"
            for a, v in zip(args[len(vars_) :], [v for v, ch in zip(vars_, changed) if ch]):
                to[a] = f"l.{v}"
            body = re.sub(r"(?<![\w'.-])(%s)(?![\w'₀-])" % "|".join(sorted(map(re.escape, to), key=len, reverse=True)), lambda q: to[q[1]], body)
            invariants += ["\n".join(comments + [f"abbrev pub {m[1]}-{new} : goal.{m[1]}-{new}", f"{m[1]}-{new} l ={' ' if not body.startswith(' ') else chr(10)}{body}"])]
            continue
        m = re.search(r": tie\.Need-(\S+)", b)
        t = Turner(fn, own, clauses, said)
        t.ways, t.helpers = ways, helpers
        if m:
            new = renamed.get(n)
            if not new:
                continue
            d = re.search(r"^%s((?: [^\s=]+)*) =(?= |\n)(.*)" % re.escape(n), "\n".join(rest), re.M | re.S)
            args, body = d[1].split(), d[2]
            cited = any(re.search(r"(?<![\w'.-])%s(?![\w'-])" % re.escape(n), x) for x in bs if x is not b and not re.search(r": \{M : Type 1\}", x))
            if body.strip() == "search rules" and not cited:
                continue
            ctx = [a for a in args if a != "κs"]
            at = "c" if "c" in ctx or not ctx else ctx[0]
            t.contexts, t.goal = {at}, new
            t.lead = " ".join(["c" if a == at else a for a in ctx[: ctx.index(at) + 1]]) if ctx else "c"
            unfolding = re.findall(r"^(unfolding .*)$", "\n".join(rest), re.M)
            body = rename(t.body(body))
            if MADE_UP.search(body):
                continue
            body = fields_named(new, body, own, clauses, {fn.need(k) or k: v for k, v in fn.asked.items()})
            lead = " " + " ".join(["c" if a == at else a for a in ctx]) if ctx else ""
            answers.append("\n".join(comments + [f"pub {new} : goal.{new}"] + unfolding + [f"{new}{lead} ={body if body.startswith(chr(10)) or body.startswith(' ') else ' ' + body}"]))
            continue
        # a helper of its own
        if n in helpers:
            first = re.search(r"^%s (\w+)" % re.escape(n), b, re.M)
            v = re.search(r"\((\w+) : tie\.", b)
            t.contexts = {v[1] if v else "c", first[1] if first else "c"}
            t.place = helpers[n]
            loops = "|".join(sorted(map(re.escape, inv_names), key=len, reverse=True))
            new_b = re.sub(r"(tie\.[^\s()]+)((?: (?:%s))+)" % loops, r"\1", b) if inv_names else b
            new_b = re.sub(r"tie\.((?:After|Then|Else|Start|In|At|Past|Joined|Left)[^\s()]*)", lambda q: fn.places.get(plain(q[1]), q[1]), new_b)
            answers.append(rename(t.body(new_b)))
        else:
            answers.append(b)
    if any(s.startswith(("invariant", "loop")) for s in said):
        return said, False
    own_helpers = [a for a in answers if not re.search(r": goal\.", a.split("\n")[-1]) and not re.search(r"^pub \S+ : goal\.", a, re.M)]
    folder = os.path.dirname(path)
    used_lines = fit_uses(uses, common)

    def needed(lines, body):
        out = []
        words = set(re.findall(WORD, re.sub(r"--.*", "", body)))
        ops = body
        for l in lines:
            m = re.match(r"use (\S+?)\.\{(.*)\}$", l)
            if not m:
                al = re.match(r"use \S+ as (\S+)", l)
                if not al or re.search(r"(?<![\w.])%s\." % re.escape(al[1]), body):
                    out.append(l)
                continue
            names = []
            for x in m[2].split(", "):
                y = x.split(" as ")[-1]
                if y.startswith("◌"):
                    if y.strip("◌") in ops or "simp" in body or "rw" in body:
                        names.append(x)
                elif y == "[]" and "[]" in body or y in words or any(w.startswith(y + ".") for w in words):
                    names.append(x)
            if names:
                out.append(f"use {m[1]}." + "{" + ", ".join(names) + "}")
        return out

    written = []
    if invariants:
        inv_text = "\n\n".join(invariants)
        wanted_helpers = [h for h in own_helpers if name_of(h) and re.search(r"(?<![\w'.-])%s(?![\w'-])" % re.escape(name_of(h)), inv_text)]
        answers = [a for a in answers if a not in wanted_helpers]
        inv_text = "\n\n".join([re.sub(r"^(abbrev |unfoldable )?(?!pub )(%s :)" % re.escape(name_of(h)), r"\1pub \2", h, flags=re.M) for h in wanted_helpers] + invariants)
        if wanted_helpers:
            used_lines.append(f"use {module}.Invariants." + "{" + ", ".join(name_of(h) for h in wanted_helpers) + "}")
        lines = needed([l for l in used_lines if ".Invariants." not in l], inv_text)
        out = "\n".join([h for h in head if h.strip()] + lines + [f"use {module}.Given as goal"]) + "\n\n" + inv_text + "\n"
        open(os.path.join(folder, "Invariants.antt"), "w", encoding="utf-8").write(out)
        written.append("Invariants.antt")
    if answers:
        an_text = "\n\n".join(answers)
        lines = needed(used_lines, an_text)
        if places:
            lines.append(f"use {module}.Goals." + "{" + ", ".join(dict.fromkeys(places)) + "}")
        out = "\n".join([h for h in head if h.strip()] + lines + [f"use {module}.Goals as goal"]) + "\n\n" + an_text + "\n"
        open(os.path.join(folder, "Answers.antt"), "w", encoding="utf-8").write(out)
        written.append("Answers.antt")
    os.remove(path)
    return said, True


def split_tuple(text):
    """The parts of a tuple `(a, b)`, or nothing."""
    text = text.strip()
    if not (text.startswith("(") and text.endswith(")")):
        return None
    depth, parts, at = 0, [], 1
    for i, ch in enumerate(text):
        depth += ch in "([{"
        depth -= ch in ")]}"
        if depth == 0 and i < len(text) - 1:
            return None
        if ch == "," and depth == 1:
            parts.append(text[at:i].strip())
            at = i + 1
    last = text[at:-1].strip()
    return parts + [last] if last else parts


def fields_named(goal, body, own, clauses, asked=None):
    """A tuple of clauses as a record with the clauses' names."""
    if asked and goal in asked:
        return named_parts(body, asked[goal])
    m = re.match(r"(.*)-requires(-.*)?$", goal)
    if m:
        callee = m[1]
        found = [w for w in clauses if isinstance(w, str) and (callee == w or callee.startswith(w + "-") or callee.endswith("-" + w))]
        names = clauses[max(found, key=len)][0] if found else []
    elif goal.startswith("returns"):
        names = own[1]
    else:
        return body
    return named_parts(body, names)


def named_parts(body, names):
    if len(names) < 2:
        return body
    head, last = "", body
    for m in re.finditer(r" in(?=\s+\()", body):
        if split_tuple(body[m.end() :]):
            head, last = body[: m.end()], body[m.end() :]
            break
    parts = split_tuple(last)
    while parts and len(parts) < len(names):
        more = split_tuple(parts[-1])
        if not more:
            return body
        parts = parts[:-1] + more
    if not parts or len(parts) != len(names):
        return body
    return head + " record {\n" + "".join(f"      {n} = {p};\n" for n, p in zip(names, parts)) + "    }"


def fit_uses(uses, common):
    names, others = [], []
    for l in uses:
        m = re.match(r"use (\S+?)\.\{(.*)\}$", l)
        if m and not m[1].startswith("Rattle.") or (m and m[1] in ("Rattle.std.specs.Prelude", "Rattle.std.proofs.Common")):
            left = []
            for x in m[2].split(", "):
                if x in common:
                    if x not in names:
                        names.append(x)
                else:
                    left.append(x)
            if left:
                others.append(f"use {m[1]}." + "{" + ", ".join(left) + "}")
        else:
            others.append(l)
    return (["use Rattle.std.proofs.Common.{" + ", ".join(names) + "}"] if names else []) + others


def main(crates):
    root = os.getcwd()
    common = common_words()
    clauses = {}
    for p in glob.glob("crates/*/src/**/*.rt", recursive=True):
        for k, v in clause_names(read(p)).items():
            clauses.setdefault(k, v)
            clauses[p.split("/")[1], k] = v
    for crate in crates:
        here = f"crates/{crate}"
        olds = sorted(glob.glob(f"{here}/proofs/**/Proof.antt", recursive=True))
        if not olds:
            continue
        with tempfile.TemporaryDirectory() as d:
            said = subprocess.run(["rt", "check", "--generated", d, "--old-names"], cwd=here, capture_output=True, text=True)
            if not os.path.exists(d + "/names.json"):
                print(said.stdout[-3000:], said.stderr[-3000:])
                raise SystemExit(f"{crate}: no names.json")
            names = json.load(open(d + "/names.json"))
        own = {}
        for p in glob.glob(f"{here}/src/**/*.rt", recursive=True):
            own.update(clause_names(read(p)))
        for path in olds:
            sub = os.path.relpath(os.path.dirname(path), f"{here}/proofs")
            key = f"Rattle-{crate}-proofs.{sub.replace('/', '.')}.Lts"
            if key not in names:
                print(f"{path}: not in the list")
                continue
            f = sub.split("/")[-1].lstrip("+")
            module = f"Rattle.{crate}.proofs.{sub.replace('/', '.')}"
            try:
                what, done = turn(path, names[key], own.get(f, ([], [])), {**clauses, **own}, module, common)
            except Exception as e:  # noqa: BLE001
                what, done = [f"{type(e).__name__}: {e}"], False
            for w in what:
                print(f"{path}: {w}")
            if not done:
                print(f"{path}: left as it is")


if __name__ == "__main__":
    main(sys.argv[1:])
