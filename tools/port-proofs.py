#!/usr/bin/env python3
"""Turns the proofs that walked a function by hand into answers and invariants under today's names of goals.

usage: python3 tools/port-proofs.py CRATE NAMES [FUNCTION..]

NAMES is what `rt check --generated DIR --old-names` wrote for the crate, DIR/names.json. In crates/CRATE/proofs each
F/Proof.antt becomes F/Answers.antt and F/Invariants.antt: the answers that were only a search go, a path `c.before.before.x` becomes
`c.STEP`, and a clause's number its name. What it can't turn it leaves with a line `-- TODO`, and says so.
"""

import json
import os
import re
import sys

FIELD = re.compile(r"\.(«[^»]*»|[A-Za-z0-9_'⁻¹′-]+)")
IDENT = r"[A-Za-zα-ωκ_][A-Za-z0-9_'₀-₉′α-ωκ-]*"


def norm(name):
    name = name.replace("_", "-").strip("«»")
    if name == "type-size":
        return "size-of"
    return re.sub(r"-lem(\d*)$", r"\1", re.sub(r"^slice-bounds-", "part-", re.sub(r"^overflow-", "", name)).lower())


class Function:
    def __init__(self, key, data):
        self.data = data
        self.places = {p[0]: p for p in data["places"]}
        self.order = [p[0] for p in data["places"]]
        self.index = {p: i for i, p in enumerate(self.order)}
        self.needs = {}
        self.at = {}
        for (old, new), at in zip(data["needs"], data["asked_at"]):
            self.needs[norm(old)] = new
            self.at[norm(old)] = at[0]
        for old in data["settled"]:
            self.needs.setdefault(norm(old), None)
        self.asked = {norm(k): v for k, v in data["asked"].items()}
        self.problems = []
        self.goal = None

    def clause(self, fields, rest):
        """rest: fields behind .ensures or .requires; the clause's number becomes its name."""
        if not fields or len(fields) < 2 or not rest:
            return rest
        k, i = len(fields), 0
        while i < k - 1 and rest and rest[0] == "1":
            i += 1
            rest = rest[1:]
        if i < k - 1:
            if not rest or rest[0] != "0":
                return ["?CLAUSES"] + rest
            rest = rest[1:]
        return [fields[i]] + rest

    def nearest(self, place, head):
        """The place with the step `head`: this one, one before it, or one between it and the goal's."""
        if head in ("args", "requires", "ranges"):
            return self.order[0] if self.step(place) != norm(head) else place
        if self.has(place, head):
            return place
        at = self.places[place][1]
        ahead = []
        walk = self.goal
        while walk is not None and walk != place:
            ahead.append(walk)
            walk = self.places[walk][1]
        if walk == place:
            for q in reversed(ahead):
                if self.has(q, head):
                    return q
        while at is not None:
            if self.has(at, head):
                return at
            at = self.places[at][1]
        return place

    def step(self, place):
        return norm(self.places[place][2][0])

    def has(self, place, head):
        if self.step(place) == norm(head):
            return True
        arm = self.data["arms"][self.index[place]]
        return arm is not None and any(norm(step) == norm(head) for _, step, _ in arm[2])

    def resolve(self, place, chain):
        """As `step_path` has it, with where it came from; half of a clause's number is a part."""
        r = self.step_path(place, chain)
        if r[0] == "path":
            if r[1][-1] == "?CLAUSES":
                return ("part", place, chain)
            return ("path", r[1], place, chain)
        return r

    def step_path(self, place, chain):
        """The new path of `chain` behind the record of `place`: ('place', P) or ('path', text fields, how clauses go on)."""
        while chain and chain[0] == "before":
            place = self.places[place][1] or place
            chain = chain[1:]
        if not chain:
            return ("place", place)
        head, rest = "requires" if chain[0] == "pre" else chain[0], chain[1:]
        if re.match(r"if\d*$", head) and rest:
            rest = rest[:-1] + [{"taken": "true", "left": "false"}.get(rest[-1], rest[-1])]
        place = self.nearest(place, head)
        p = self.places[place]
        if head == "args" and rest:
            rest = ["res" if rest[0] == "result" else rest[0].replace("-", "_")] + rest[1:]
        if norm(head) == "loop" or re.match(r"loop\d*$", head):
            rest = [rest[0].replace("-", "_")] + rest[1:] if rest else rest
        arm = self.data["arms"][self.index[place]]
        if p[1] is None or norm(head) in ("args", "requires", "ranges") and norm(p[2][0]) != norm(head):
            if head == "requires":
                fields = (self.data["pre"] or {}).get("fields")
                return ("path", ["requires"] + self.clause(fields, rest), ("requires", fields, len(rest)))
            return ("path", [head] + rest, None)
        if arm is not None:
            best = None
            for new, step, path in arm[2]:
                if norm(step) == norm(head) and rest[: len(path)] == path:
                    if best is None or len(path) > len(best[1]):
                        best = (new, path)
            if best is not None:
                return ("path", [arm[0], best[0]] + rest[len(best[1]):], None)
            if any(norm(step) == norm(head) and path[: len(rest)] == rest for _, step, path in arm[2]):
                return ("part", place, [head] + rest)
            if norm(head) != norm(p[2][0]):
                self.problems.append(f"arm {place}.{head}")
        if norm(head) != norm(p[2][0]):
            self.problems.append(f"at {place} no step {head}")
            return ("path", ["?" + head] + rest, None)
        step = p[2][1]
        info = self.data["clauses"][self.index[place]]
        fields = info["fields"] if info else None
        if rest and rest[0] == "ensures":
            return ("path", [step, "ensures"] + self.clause(fields, rest[1:]), ("ensures", fields, len(rest) - 1))
        if rest and rest[0] == "new" and len(rest) > 1 and p[3]:
            params = self.data["params"].get(p[3])
            i, more = 0, rest[1:]
            while more and more[0] == "1":
                i, more = i + 1, more[1:]
            if params and more and more[0] == "0":
                return ("path", [step, "new", params[i]] + more[1:], None)
        if rest and rest[0] == "auto" and len(rest) > 1 and p[3]:
            return ("path", [step] + self.auto(rest, p[3]), None)
        return ("path", [step] + rest, ("call", fields, p[3]) if not rest else None)

    def auto(self, rest, callee):
        """`.auto.0` and so on: the facts on lengths, by the parameter's name."""
        params = self.data["params"].get(callee)
        i, more = 0, rest[1:]
        while more and more[0] == "1":
            i, more = i + 1, more[1:]
        if params and more and more[0] == "0" and i < len(params):
            return ["auto", params[i]] + more[1:]
        return rest


def parts(text):
    """The file's heading, its use lines and its declarations, each a list of lines."""
    lines = text.split("\n")
    head, uses, blocks = [], [], []
    i = 0
    while i < len(lines) and (lines[i].startswith("--") or not lines[i].strip()):
        head.append(lines[i])
        i += 1
    pending = []
    while i < len(lines):
        line = lines[i]
        if line.startswith("use ") or line.startswith("pub use "):
            entry = line
            while entry.count("{") > entry.count("}"):
                i += 1
                entry += " " + lines[i].strip()
            uses.append(entry)
            i += 1
            continue
        if not line.strip():
            i += 1
            if pending and blocks is not None:
                pending.append("")
            continue
        if line.startswith("--"):
            pending.append(line)
            i += 1
            continue
        block = [line]
        i += 1
        while i < len(lines) and (not lines[i].strip() or lines[i][0] in " \t)" or lines[i].startswith("unfolding ") or starts_clause(lines[i], block)):
            block.append(lines[i])
            i += 1
        while block and not block[-1].strip():
            block.pop()
        blocks.append((pending, block))
        pending = []
    return head, uses, blocks


def name_of(block):
    m = re.match(r"(?:abbrev |unfoldable |pub )*(" + IDENT + r")\s*:", block[0])
    return m.group(1) if m else None


def starts_clause(line, block):
    n = name_of(block)
    return n is not None and re.match(re.escape(n) + r"(?![A-Za-z0-9_'-])", line) is not None


def split_top(text):
    """The parts of '(a, b, ..)' at its commas."""
    out, depth, start = [], 0, 0
    for i, ch in enumerate(text):
        if ch in "([{":
            depth += 1
        elif ch in ")]}":
            depth -= 1
        elif ch == "," and depth == 0:
            out.append(text[start:i])
            start = i + 1
    out.append(text[start:])
    return [o.strip() for o in out]


def last_tuple(body):
    """Where the body's last expression begins, if that is a tuple: its place."""
    text = body.rstrip()
    if not text.endswith(")"):
        return None
    depth = 0
    for i in range(len(text) - 1, -1, -1):
        if text[i] == ")":
            depth += 1
        elif text[i] == "(":
            depth -= 1
            if depth == 0:
                before = text[:i].rstrip()
                if before == "" or before.endswith(" in") or before.endswith("\nin") or before == "in" or before.endswith("="):
                    return i
                return None
    return None


def record(text, fields):
    """A nested pair as a record of the fields."""
    inner = text.strip()
    if not (inner.startswith("(") and inner.endswith(")")):
        return None
    items = [x for x in split_top(inner[1:-1]) if x]
    if len(items) != 2 and len(items) != len(fields):
        return None
    if len(items) == len(fields):
        return [f"{f} = {x}" for f, x in zip(fields, items)]
    if len(fields) <= 2:
        return None
    rest = record(items[1], fields[1:])
    return None if rest is None else [f"{fields[0]} = {items[0]}"] + rest


def by_rank(need, order, fn):
    """A goal of a value with no name, `add-t8`: the one of its rank."""
    m = re.match(r"(.*)-t\d+(?:-\d+)?$", need)
    if not m:
        return need
    like = re.compile(re.escape(m.group(1)) + r"-t\d+(?:-\d+)?$")
    mine = [x for x in order if like.match(x)]
    theirs = [x for x in fn.needs if like.match(x) and x not in order]
    i = mine.index(need)
    return theirs[i] if i < len(theirs) else need


def paired(body, fields):
    """The body's last expression, a pair, as a record of its parts."""
    depth, at = 0, 0
    for m in re.finditer(r"[([{]|[)\]}]|\bin\b", body):
        if m.group() in "([{":
            depth += 1
        elif m.group() in ")]}":
            depth -= 1
        elif depth == 0:
            at = m.end()
    each = [".1" * i + (".0" if i < len(fields) - 1 else "") for i in range(len(fields))]
    rec = "; ".join(f"{f} = both{e}" for f, e in zip(fields, each))
    return body[:at] + " let both = " + body[at:].strip() + " in\n    record { " + rec + " }"


class Turn:
    def __init__(self, fn, answers, locals_=None):
        self.fn = fn
        self.answers = answers
        self.locals = locals_ or {}
        self.used = []
        self.depth = 0

    def body(self, text, place, var="c"):
        """The text with its paths turned."""
        scope = {var: ("place", place)}
        out, i = "", 0
        token = re.compile(r"--[^\n]*|" + IDENT + r"|.", re.S)
        while i < len(text):
            m = token.match(text, i)
            word = m.group()
            if word.startswith("--"):
                out += word
                i = m.end()
                continue
            prev = out[-1] if out else " "
            if word == "let" and not prev.isalnum():
                k = re.compile(r"let\s+(" + IDENT + r")\s*=\s*(" + IDENT + r")((?:\.[A-Za-z0-9_'-]+)*)\s*in\b\s*").match(text, i)
                if k and k.group(2) in scope:
                    r = self.follow(scope[k.group(2)], FIELD.findall(k.group(3)))
                    if r[0] in ("place", "part"):
                        scope[k.group(1)] = r
                        i = k.end()
                        if out.endswith("in"):
                            out += " "
                        continue
                    scope[k.group(1)] = ("alias", r)
                    out += f"let {k.group(1)} = c.{'.'.join(r[1])} in "
                    if "\n" in text[k.start():k.end()]:
                        out = out.rstrip() + "\n    "
                    i = k.end()
                    continue
                k = re.compile(r"let\s+(" + IDENT + r")\s*[=:]").match(text, i)
                if k and k.group(1) in scope and k.group(1) != var:
                    del scope[k.group(1)]
                out += word
                i = m.end()
                continue
            if word == "λ":
                k = re.compile(r"λ[^.]*\.").match(text, i)
                if k and "(" not in k.group() :
                    out += k.group()
                    i = k.end()
                    continue
            if prev == "." or not re.match(IDENT, word) or word not in scope:
                k = re.compile(r"(" + IDENT + r")\s+(" + IDENT + r")((?:\.before)*)(?![A-Za-z0-9_'.-])").match(text, i)
                if k and prev != "." and k.group(1) in self.locals and k.group(2) in scope:
                    out += self.local(k.group(1))
                    i = k.end()
                    continue
                if k and prev != "." and k.group(1) in self.answers and k.group(2) in scope and self.depth < 4:
                    r = self.follow(scope[k.group(2)], FIELD.findall(k.group(3)))
                    if r[0] == "place":
                        out += self.inline(k.group(1))
                        i = k.end()
                        continue
                out += word
                i = m.end()
                continue
            j = m.end()
            chain = []
            turned = re.search(r"\bnot-(?:true|false) (?:_|[A-Za-z0-9_'.-]+) $", out)
            while True:
                f = FIELD.match(text, j)
                if not f or (text[j] == "." and f.group(1) and text[j - 1] == " "):
                    break
                chain.append(f.group(1))
                j = f.end()
            kind = scope[word]
            r = self.follow(kind, chain)
            if r[0] == "part":
                self.fn.problems.append(f"{word}{chain}: part of an arm")
                out += f"c.?{'.'.join(r[2])}"
            elif r[0] == "place":
                out += "c{-TODO: a record of another place: " + r[1] + "-}" if r[1] != place else "c"
                if r[1] != place:
                    self.fn.problems.append(f"the record at {r[1]} whole")
            elif r[1][-1] in ("requires", "ensures") and self.clauses(r):
                out += self.clauses(r)
            elif kind[0] == "alias" and r[1][: len(kind[1][1])] == kind[1][1]:
                out += word + "".join("." + x for x in r[1][len(kind[1][1]):])
            else:
                # a test `!b` is a fact of b itself today
                if turned and r[1][0].startswith("if-not-"):
                    out = out[: turned.start()]
                out += "c." + ".".join(r[1])
            i = j
        return out

    def follow(self, kind, chain):
        if kind[0] == "place":
            return self.fn.resolve(kind[1], chain)
        if kind[0] == "part":
            return self.fn.resolve(kind[1], kind[2] + chain)
        r = kind[1]
        return self.fn.resolve(r[2], r[3] + chain)

    def clauses(self, r):
        """All clauses of a call or of the function as the nested pair that lemmas take; nothing where there is one."""
        one = self.fn.resolve(r[2], r[3] + ["0"])
        if one[0] != "path" or one[1][-1] == "0":
            return None
        out, ones = [], []
        while True:
            x = self.fn.resolve(r[2], r[3] + ones + ["0"])
            if x[0] == "path" and x[1][-1] not in ("0", "1") and "?CLAUSES" not in x[1]:
                out.append("c." + ".".join(x[1]))
                ones = ones + ["1"]
                continue
            x = self.fn.resolve(r[2], r[3] + ones)
            out.append("c." + ".".join(x[1]))
            break
        return "(" + ", (".join(out[:-1]) + ", " + out[-1] + ")" * (len(out) - 1)

    def local(self, name):
        """A lemma over a step's record: a `let` at the answer's head."""
        if name not in [u[0] for u in self.used]:
            place, kind, text = self.locals[name]
            goal, self.fn.goal = self.fn.goal, place
            kind, text = self.body(kind, place), self.body(text, place)
            self.fn.goal = goal
            self.used.append((name, f"let {name} : ({' '.join(kind.split())}) = ({' '.join(text.split())}) in"))
        return name

    def inline(self, name):
        need, text = self.answers[name]
        self.depth += 1
        body = self.body(text, self.fn.at[need])
        self.depth -= 1
        return "(" + " ".join(body.split()) + ")"


def turn(folder, crate, module, fn):
    path = os.path.join(folder, "Proof.antt")
    with open(path, encoding="utf-8") as f:
        head, uses, blocks = parts(f.read())
    if not any("tie." in l for _, b in blocks for l in b):
        return "no tie"
    uses = [u for u in uses if not re.search(r"\.(Statement|Tie)\b", u)]
    answers, more = {}, {}
    for _, b in blocks:
        n = name_of(b)
        m = re.search(r"tie\.Need-([A-Za-z0-9_'-]+)", b[0] if ":" in b[0] else "")
        if n and m:
            need = norm(m.group(1))
            clause = "\n".join(l for l in b[1:] if not l.startswith("unfolding "))
            k = re.search(re.escape(n) + r"\s+c(?:\s+κs)?((?:\s+[a-z][A-Za-z0-9_']*)*)\s*=", "\n".join(b))
            if k:
                answers[n] = (need, "\n".join(b)[k.end():])
                more[n] = k.group(1)
    locals_ = {}
    for _, b in blocks:
        n, whole = name_of(b), "\n".join(b)
        m = n and re.match(re.escape(n) + r"\s*:\s*\(c : tie\.([A-Za-z0-9_'-]+)(?: invariant-[A-Za-z0-9-]+| decreases-[A-Za-z0-9-]+)*\)\s*→(.*?)\n(?:unfolding [^\n]*\n)?" + re.escape(n) + r" c =(.*)", whole, re.S)
        if m and m.group(1).split("-")[0] in ("After", "Then", "Else", "In", "At", "Joined"):
            place = [p for p in fn.order if norm(p) == norm(m.group(1))]
            if place:
                locals_[n] = (place[0], m.group(2), m.group(3))
    order = [norm(x) for _, b in blocks for x in re.findall(r"tie\.Need-([A-Za-z0-9_'-]+)", "\n".join(b))]
    inv, ans = [], []
    for notes, b in blocks:
        n = name_of(b)
        whole = "\n".join(b)
        if n is None:
            ans.append(("\n".join(notes) + "\n" if notes else "") + whole)
            continue
        if re.search(r"tie\.(spec|close)", whole) or re.search(r":.*→ statement", b[0]):
            continue
        notes = "\n".join(x for x in notes if x)
        notes = notes + "\n" if notes else ""
        m = re.search(r"tie\.(invariant|decreases)-([A-Za-z0-9_'-]+)", b[0])
        if m:
            text = loop(fn, m.group(1), m.group(2), n, whole)
            inv.append(notes + text)
            continue
        m = re.search(r"tie\.Need-([A-Za-z0-9_'-]+)", whole)
        if n in locals_:
            continue
        if not m:
            ans.append(notes + whole)
            continue
        need = norm(m.group(1))
        if n not in answers:
            fn.problems.append(f"{n}: clauses")
            ans.append("-- TODO " + n + "\n" + whole)
            continue
        text = answers[n][1]
        if text.strip() in ("search rules",) and not any(l.startswith("unfolding ") for l in b):
            continue
        if need not in fn.needs:
            need = by_rank(need, [x for x in order if x not in fn.needs], fn)
        if need not in fn.needs:
            fn.problems.append(f"{n}: no need {need}")
            ans.append("-- TODO no need " + need + "\n" + whole)
            continue
        new = fn.needs[need]
        if new is None:
            continue
        opens = [l for l in b if l.startswith("unfolding ")]
        k = whole.find("unfolding ")
        if opens:
            start = next(i for i, l in enumerate(b) if l.startswith("unfolding "))
            end = start + 1
            while not starts_clause(b[end], b):
                end += 1
            opens = b[start:end]
        fn.goal = fn.at[need]
        turner = Turn(fn, answers, locals_)
        body = turner.body(text, fn.at[need])
        if turner.used:
            body = "\n    " + "\n    ".join(u[1] for u in turner.used) + "\n    " + body.strip()
        fields = fn.asked.get(need)
        if fields and len(fields) > 1:
            at = last_tuple(body)
            rec = record(body[at:], fields) if at is not None else None
            if rec is None:
                body = paired(body, fields)
            else:
                body = body[:at] + "record {\n" + "".join(f"      {x};\n" for x in rec) + "    }"
        ans.append(notes + f"pub {new} : goal.{new}\n" + ("\n".join(opens) + "\n" if opens else "") + f"{new} c{more[n]} ={body if body.startswith((' ', chr(10))) else ' ' + body}")
    for extra in ("Invariants.antt", "Answers.antt"):
        e = os.path.join(folder, extra)
        if os.path.exists(e):
            os.remove(e)
    head = "\n".join(h for h in head if h.strip())
    base = f"Rattle.{crate}.proofs.{module}"
    if inv:
        with open(os.path.join(folder, "Invariants.antt"), "w", encoding="utf-8") as f:
            f.write(head + "\n" + "\n".join(uses) + f"\nuse {base}.Given as goal\n\n" + "\n\n".join(inv) + "\n")
    if ans:
        with open(os.path.join(folder, "Answers.antt"), "w", encoding="utf-8") as f:
            f.write(("" if inv else head + "\n") + "\n".join(uses) + f"\nuse {base}.Goals as goal\n\n" + "\n\n".join(ans) + "\n")
    os.remove(path)
    return None


def loop(fn, kind, old, name, whole):
    """An invariant or a measure, of the loop that was called `old`."""
    loops = fn.data["loops"]
    which = [i for i, l in enumerate(loops) if norm(l[0][0]) == norm(old)]
    k = re.search(r"^" + re.escape(name) + r"((?:\s+\S+)*?)\s*=", whole[whole.index("\n") + 1:], re.M)
    if not which or not k:
        fn.problems.append(f"loop {old}")
        return "-- TODO\n" + whole
    i = which[0]
    new, names = loops[i][0][1], loops[i][1]
    changed = fn.data["changed"][i]
    binders = k.group(1).split()
    body = whole[whole.index("\n") + 1:][k.end():]
    want = [("l.initial." if ch else "l.") + v for v, ch in zip(names, changed)] + ["l." + v for v, ch in zip(names, changed) if ch]
    if len(binders) != len(want):
        fn.problems.append(f"loop {old}: {len(binders)} binders for {len(want)}")
        return "-- TODO\n" + whole
    for b, w in sorted(zip(binders, want), key=lambda x: -len(x[0])):
        if b == "_":
            continue
        body = re.sub(r"(?<![A-Za-z0-9_'.₀-])" + re.escape(b) + r"(?![A-Za-z0-9_'₀-])", "\0" + w[2:], body)
    body = body.replace("\0", "l.")
    opens = [l for l in whole.split("\n") if l.startswith("unfolding ")]
    return f"abbrev pub {kind}-{new} : goal.{kind}-{new}\n" + "".join(o + "\n" for o in opens) + f"{kind}-{new} l ={body}"


def main():
    crate, names, only = sys.argv[1], sys.argv[2], set(sys.argv[3:])
    with open(names, encoding="utf-8") as f:
        data = json.load(f)
    top = os.path.join("crates", crate, "proofs")
    for folder, dirs, files in os.walk(top):
        if "Proof.antt" not in files:
            continue
        rel = os.path.relpath(folder, top).replace(os.sep, ".")
        if only and rel not in only:
            continue
        key = f"Rattle-{crate}-proofs.{rel}.Lts"
        if key not in data:
            print(f"{rel}: not in the list")
            continue
        fn = Function(key, data[key])
        said = turn(folder, crate, rel, fn)
        if said or fn.problems:
            print(f"{rel}: {said or ''} {'; '.join(fn.problems)}")


main()
