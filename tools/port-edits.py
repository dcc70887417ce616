#!/usr/bin/env python3
"""Turns the repository's edits (crates/*/*/*.edit, but those of wrong-runs) from the old spelling to the text of today's files.

usage: python3 tools/port-edits.py WORK PORT      at the top, once, after tools/port-names.py (docs/PORT.md)

WORK is a folder that it makes, and PORT the kit's folder with port.py. It makes every edit in the files of the last commit in the old
spelling, as many at once as do not meet, in copies of their crates; runs port.py and tools/port-names.py over these and over the files as
they stood; and so knows what each edit changes in the new spelling, token by token. The same tokens of today's file are then changed: an
edit that does that already is left alone, and for any other its pairs are written anew, of one line each. A line for each that is left
for the hand: where the place itself is written otherwise today. Run again it would write over what the hand has changed since.
"""

import collections
import difflib
import glob
import os
import re
import subprocess
import sys

OLDEST = "641a2dee"
NEW = os.getcwd()
WORK = os.path.abspath(sys.argv[1])
PORT = os.path.abspath(sys.argv[2])
OLD = WORK + "/old"
TREE = WORK + "/tree"
IMPORT = re.compile(r"^(pub )?(ghost )?use ")
WORDS = r"«[^»]*»|[A-Za-z_ℕ⊥⊤][A-Za-z0-9_'’′ℕ%s]*|0x[0-9A-Fa-f_]+|\d[\d_]*[a-z0-9]*|◌\S*?◌|\s+|."
TOKEN = re.compile(WORDS % "-", re.S)
TOKEN_RT = re.compile(WORDS % "", re.S)
LAST = 10**9


class Hand(Exception):
    """An edit that this leaves for the hand, and why."""


# ---- Files and edits

TEXTS = {}


def text(path):
    if path not in TEXTS:
        if os.path.exists(path):
            with open(path, encoding="utf-8") as f:
                TEXTS[path] = f.read()
        else:
            TEXTS[path] = ""
    return TEXTS[path]


def write(path, s):
    os.makedirs(os.path.dirname(path), exist_ok=True)
    with open(path, "w", encoding="utf-8") as f:
        f.write(s)


def edits(root):
    for path in sorted(glob.glob(root + "/crates/*/*/*.edit")):
        if "/wrong-runs/" not in path:
            yield path[len(root) + 1 :]


def parse(path):
    """The pairs (file, old, new), and the comments."""
    pairs, comments, file, old = [], [], None, None
    for line in text(path).split("\n"):
        if line.startswith("file: "):
            file = line[6:]
        elif line.startswith("old: "):
            old = line[5:]
        elif line.startswith("new:"):
            pairs.append((file, old, re.sub(r"\A ", "", line[4:])))
        elif line:
            comments.append(line)
    return pairs, comments


def applied(root, edit, pairs):
    """The texts that the pairs make, by file. A reading is made in the first of three crates where its old text stands once."""
    crate, kind = edit.split("/")[1:3]
    made = {}
    for file, old, new in pairs:
        for c in ["rules", "demands", "cases"] if kind.endswith("readings") else [crate]:
            path = f"crates/{c}/{file}"
            s = made.get(path, text(f"{root}/{path}"))
            if s.count(old) == 1:
                made[path] = s.replace(old, new)
                break
        else:
            raise Hand(f"an old text does not stand once in {file}: {old}")
    return made


def imported(line):
    m = re.match(r"^((?:pub )?(?:ghost )?use )(.*?)(?:\.|::)\{(.*)\};?\s*$", line)
    return m and (m.group(1), m.group(2), [x.strip() for x in m.group(3).split(",") if x.strip()])


def opcodes(a, b):
    return [o for o in difflib.SequenceMatcher(None, a, b, autojunk=False).get_opcodes() if o[0] != "equal"]


# ---- The rounds: copies of crates with edits that do not meet


def spans_of(edit):
    """The lines that an edit changes, (file, first, behind, new lines), and the imports that it adds, (file, head, module, names)."""
    spans, imports = [], []
    for path, s in applied(OLD, edit, parse(f"{OLD}/{edit}")[0]).items():
        a, b = text(f"{OLD}/{path}").split("\n"), s.split("\n")
        for _, i1, i2, j1, j2 in opcodes(a, b):
            if i2 - i1 != j2 - j1:
                spans.append((path, i1, i2, b[j1:j2]))
                continue
            for k in range(i2 - i1):
                if IMPORT.match(a[i1 + k]):
                    head, module, had = imported(a[i1 + k])
                    names = imported(b[j1 + k])[2]
                    imports.append((path, head, module, [n for n in names if n not in had]))
                else:
                    spans.append((path, i1 + k, i1 + k + 1, [b[j1 + k]]))
    return spans, imports


def rounds():
    """The tree of all copies; for each edit its (crate, round, spans)."""
    plan, taken = {}, collections.defaultdict(list)
    changed, adds = collections.defaultdict(list), collections.defaultdict(set)
    proofs, most = set(), collections.Counter()
    for edit in edits(OLD):
        spans, imports = spans_of(edit)
        plan[edit] = []
        for c in sorted({s[0].split("/")[1] for s in spans}):
            mine = [s for s in spans if s[0].split("/")[1] == c]
            n = 1
            while any(s[0] == t[0] and s[1] - 2 < t[2] and t[1] - 2 < s[2] for s in mine for t in taken[c, n]):
                n += 1
            taken[c, n] += mine
            most[c] = max(most[c], n)
            plan[edit].append((c, n, mine))
            for s in mine:
                changed[c, n, s[0]].append(s)
                if "/proofs/" in s[0]:
                    proofs.add(s[0])
            for path, head, module, names in imports:
                if path.split("/")[1] == c and names:
                    adds[c, n, path].add((head, module, tuple(names)))
    lines = []
    for line in text(f"{OLD}/crates.txt").split("\n"):
        m = re.match(r"^(\w+):(.*)", line)
        for n in range(most[m.group(1)] + 1) if m else []:
            c = m.group(1)
            name = f"{c}_r{n}" if n else c
            lines.append(f"{name}:{m.group(2)}")
            for folder, dirs, names in os.walk(f"{OLD}/crates/{c}"):
                for file in names:
                    path = f"{folder}/{file}"[len(OLD) + 1 :]
                    if not re.match(r"crates/\w+/(src|specs)/.*\.(rt|antt)$", path) and path not in proofs:
                        continue
                    s = text(f"{OLD}/{path}").split("\n")
                    for _, lo, hi, new in sorted(changed[c, n, path], key=lambda x: -x[1]) if n else []:
                        s[lo:hi] = new
                    end = ";" if path.endswith(".rt") else ""
                    more = [f"{h}{m}.{{{', '.join(x)}}}{end}" for h, m, x in sorted(adds[c, n, path])] if n else []
                    if more:
                        at = min(k for k, x in enumerate(s) if IMPORT.match(x))
                        s[at:at] = more
                    s = re.sub(rf"Rattle·{c}(?!\w)", f"Rattle·{name}", "\n".join(s))
                    write(f"{TREE}/{path.replace(f'crates/{c}/', f'crates/{name}/', 1)}", s)
    write(f"{TREE}/crates.txt", "\n".join(lines) + "\n")
    return plan


def turn():
    """port.py, but for its layout, and port-names.py over the tree."""
    subprocess.run("git init -q . && git add -A && git -c user.name=x -c user.email=x commit -qm x", shell=True, cwd=TREE, check=True)
    sys.dont_write_bytecode = True
    sys.path.insert(0, PORT)
    import port

    port.rt = lambda *words, **where: ""
    port.SAID = WORK + "/said"
    os.chdir(TREE)
    port.turn(TREE)
    names = text(NEW + "/tools/port-names.py")
    names = names.replace('path[len("crates/") :]', 'path[len("crates/"):]')
    names = names.replace('path[len("crates/"):]', r're.sub(r"^crates/(\w+?)(_r\d+)?/", r"\1/", path)')
    names = names.replace('subprocess.run(["git", "mv", old, new], check=True)', "os.rename(old, new)")
    exec(compile(names, "port-names.py", "exec"), {"__name__": "names"})
    os.chdir(NEW)
    TEXTS.clear()


def renamed(path):
    path = re.sub(r"/specs/follows(?=[./])", "/specs/Follows", path)
    m = re.match(r"(.*/)Case-([A-Za-z0-9-]+)(\.antt)$", path)
    return m.group(1) + "Case" + "".join(p[:1].upper() + p[1:] for p in m.group(2).split("-")) + m.group(3) if m else path


# ---- Tokens

TOKENS = {}


def without_imports(s):
    return re.sub(r"(?m)^(pub )?(ghost )?use .*$", lambda m: " " * len(m.group()), s)


def tokens(s, path):
    """(text, start, end) of each; a dot behind a space and before a name is another than a tight one."""
    out = []
    for m in (TOKEN_RT if path.endswith(".rt") else TOKEN).finditer(s):
        w, i = m.group(), m.start()
        if not w.isspace():
            loose = w == "." and i and s[i - 1] == " " and s[i + 1 : i + 2].strip() and s[i + 1] != "."
            out.append((" ." if loose else w, i, m.end()))
    return out


def read(path, crate=None):
    """A file's text and tokens, those of its imports left out; of a copy with the crate's own name."""
    if path not in TOKENS:
        s = re.sub(rf"Rattle\.{crate}_r\d+", f"Rattle.{crate}", text(path)) if crate else text(path)
        TOKENS[path] = (s, tokens(without_imports(s), path))
    return TOKENS[path]


def texts_of(list):
    return [x[0] for x in list]


def differences(a, b):
    """Where two long lists of tokens differ that are nearly the same: (i1, i2, j1, j2), the tokens of a and of b."""
    i = j = 0
    out = []
    while i < len(a) and j < len(b):
        if a[i] == b[j]:
            i, j = i + 1, j + 1
            continue
        found = None
        for d in range(1, 4000):
            for x in range(d + 1):
                p, q = a[i + x : i + x + 6], b[j + d - x : j + d - x + 6]
                if p == q and (len(p) == 6 or i + x + len(p) == len(a) and j + d - x + len(q) == len(b)):
                    found = (x, d - x)
                    break
            if found:
                break
        if not found:
            out.append((i, len(a), j, len(b)))
            return out
        out.append((i, i + found[0], j, j + found[1]))
        i, j = i + found[0], j + found[1]
    if i < len(a) or j < len(b):
        out.append((i, len(a), j, len(b)))
    parts = []
    for i1, i2, j1, j2 in out:
        if max(i2 - i1, j2 - j1) < 400:
            parts += [(i1 + x1, i1 + x2, j1 + y1, j1 + y2) for _, x1, x2, y1, y2 in opcodes(a[i1:i2], b[j1:j2])]
        else:
            parts.append((i1, i2, j1, j2))
    return parts


ALIGNED = {}


def today(base, head, i):
    """The place in today's file of a token of the turned one; None where the two differ there."""
    if base not in ALIGNED:
        ALIGNED[base] = differences(texts_of(read(base)[1]), texts_of(read(head)[1]))
    shift = 0
    for i1, i2, j1, j2 in ALIGNED[base]:
        if i2 <= i and not i1 == i2 == i:
            shift = j2 - i2
        elif i1 < i < i2:
            return None
    return i + shift


def snake(part):
    if not re.match(r"[a-z]", part):
        return part
    part = re.sub(r"([a-z0-9])([A-Z])", r"\1_\2", part)
    return re.sub(r"([A-Z])([A-Z][a-z])", r"\1_\2", part).lower()


def canonical(word):
    word = "-".join(snake(p) for p in word.split("-"))
    return {"getd": "get_or", "get_d": "get_or"}.get(word, word)


OF_CLAUSES = {"now", "entry", "exit", "old", "new", "result", "r", "_", "requires", "ensures", "ghost", "use", "pub"}
LINES = {}


def lines_of(path):
    """For each line of an old file the line of the turned one, None where none is like it, and how many those are."""
    if path not in LINES:
        word = re.compile(r"[A-Za-zℕ][A-Za-z0-9_'-]*|\d\w*")
        a, b = (
            [tuple(w for w in map(canonical, word.findall(x)) if w not in OF_CLAUSES) for x in s.split("\n")]
            for s in (text(f"{OLD}/{path}"), text(f"{TREE}/{renamed(path)}"))
        )
        to = [None] * len(a)
        for i, j, n in difflib.SequenceMatcher(None, a, b, autojunk=False).get_matching_blocks():
            to[i : i + n] = range(j, j + n)
        LINES[path] = (to, len(b))
    return LINES[path]


def turned_lines(path, lo, hi):
    to, n = lines_of(path)
    lo -= 1
    while lo >= 0 and to[lo] is None:
        lo -= 1
    while hi < len(to) and to[hi] is None:
        hi += 1
    return (to[lo] + 1 if lo >= 0 else 0), (to[hi] if hi < len(to) else n)


PAIRED, BY_LINE = {}, {}


def paired_lines(base, copy):
    """For each line of the turned file the same line of its copy with edits, or None."""
    if copy not in PAIRED:
        a, b = read(base)[0].split("\n"), read(copy)[0].split("\n")
        to = [None] * len(a)
        for i, j, n in difflib.SequenceMatcher(None, a, b, autojunk=False).get_matching_blocks():
            to[i : i + n] = range(j, j + n)
        PAIRED[copy] = to
    return PAIRED[copy]


def tokens_by_line(path):
    if path not in BY_LINE:
        s, list = read(path)
        out, k, at = [], 0, 0
        for line in s.split("\n"):
            first = k
            while k < len(list) and list[k][1] <= at + len(line):
                k += 1
            out.append((first, k))
            at += len(line) + 1
        BY_LINE[path] = out
    return BY_LINE[path]


def imports_of(s):
    return {(i[1], n): None for i in map(imported, filter(IMPORT.match, s.split("\n"))) if i for n in i[2]}


# ---- What an edit changes in today's files


def changes(plan):
    """For each of today's files its changes (first and behind, here and in the copy, new tokens), the copy, the names to bring in."""
    out = {}
    for c, n, spans in plan:
        for path in sorted({s[0] for s in spans}):
            new = renamed(path)
            base, head = f"{TREE}/{new}", f"{NEW}/{new}"
            copy = f"{TREE}/{new.replace(f'crates/{c}/', f'crates/{c}_r{n}/', 1)}"
            (s0, t0), (s1, t1), (sn, tn) = read(base), read(copy, c), read(head)
            to, places = paired_lines(base, copy), []
            for _, lo, hi, _ in (s for s in spans if s[0] == path):
                x, y = turned_lines(path, lo, hi)
                if places and x <= places[-1][1]:
                    places[-1][1] = max(places[-1][1], y)
                else:
                    places.append([x, y])
            hunks = []
            for x, y in places:
                while x > 0 and to[x - 1] is None:
                    x -= 1
                while y < len(to) and to[y] is None:
                    y += 1
                u, v = (to[x - 1] + 1 if x > 0 else 0), (to[y] if y < len(to) else s1.count("\n") + 1)
                same = y - x == v - u
                for x1, x2, y1, y2 in [(k, k + 1, u + k - x, u + k - x + 1) for k in range(x, y)] if same else [(x, y, u, v)]:
                    i, j = tokens_by_line(base), tokens_by_line(copy)
                    i1, j1 = i[min(x1, len(i) - 1)][0], j[min(y1, len(j) - 1)][0]
                    i2, j2 = (i[x2 - 1][1] if x2 > x1 else i1), (j[y2 - 1][1] if y2 > y1 else j1)
                    for _, k1, k2, l1, l2 in opcodes(texts_of(t0[i1:i2]), texts_of(t1[j1:j2])):
                        hunks.append((i1 + k1, i1 + k2, j1 + l1, j1 + l2))
            if not hunks:
                raise Hand(f"it changes nothing in {new}")
            found = []
            for i1, i2, j1, j2 in sorted(set(hunks)):
                a, b = today(base, head, i1), today(base, head, i2)
                if a is None or b is None or texts_of(t0[i1:i2]) != texts_of(tn[a:b]):
                    raise Hand(f"its place reads otherwise in {new}: {' '.join(texts_of(t0[i1:i2]))}")
                found.append((a, b, j1, j2, texts_of(t1[j1:j2])))
            used, joined = {w for h in found for w in h[4]}, "".join("".join(h[4]) for h in found)
            had, has, names = imports_of(s0), imports_of(sn), []
            for key in imports_of(s1):
                bare = key[1].strip("◌«»")
                cited = bare in used or key[1] in used or not re.match(r"[A-Za-zℕ⊥⊤]", bare) and bare in joined
                if key not in had and key not in has and cited:
                    names.append(key)
            out[new] = (found, copy, names)
    return out


def wanted(found, tn):
    out, at = [], 0
    for a, b, _, _, new in found:
        out += texts_of(tn[at:a]) + new
        at = b
    return out + texts_of(tn[at:])


def is_right(edit, pairs, what):
    """Whether the pairs make what the edit is to make, and nothing else."""
    try:
        made = applied(NEW, edit, pairs)
    except Hand:
        return False
    if set(made) != set(what):
        return False
    for path, s in made.items():
        found, _, names = what[path]
        if texts_of(tokens(without_imports(s), path)) != wanted(found, read(f"{NEW}/{path}")[1]):
            return False
        if any(n not in imports_of(s) for n in names):
            return False
    return True


def extents(edit, path):
    """What the old texts of an edit span, in tokens of today's file, so that the new ones span the same."""
    out, s, new = [], text(f"{OLD}/{path}"), renamed(path)
    base = f"{TREE}/{new}"
    for file, old, _ in parse(f"{OLD}/{edit}")[0]:
        if not path.endswith("/" + file) or s.count(old) != 1:
            continue
        at = s.index(old)
        begin, line = s.rfind("\n", 0, at) + 1, s.count("\n", 0, at)
        whole = s[begin:].split("\n", 1)[0]
        if IMPORT.match(whole):
            continue
        list = tokens(whole, path)
        x, y = turned_lines(path, line, line + 1)
        by = tokens_by_line(base)
        first, behind = by[min(x, len(by) - 1)][0], (by[y - 1][1] if y > x else by[min(x, len(by) - 1)][0])
        mine = [canonical(w) for w, _, _ in list]
        to = {}
        same = difflib.SequenceMatcher(None, mine, [canonical(w) for w, _, _ in read(base)[1][first:behind]], autojunk=False)
        for i, j, n in same.get_matching_blocks():
            to.update({i + k: first + j + k for k in range(n)})
        got = [to[k] for k, (_, i, j) in enumerate(list) if k in to and i + begin >= at and j + begin <= at + len(old)]
        a, b = (today(base, f"{NEW}/{new}", min(got)), today(base, f"{NEW}/{new}", max(got) + 1)) if got else (None, None)
        if a is not None and b is not None and a < b:
            out.append((a, b))
    return out


def pairs_of(edit, plan, what):
    """An edit's pairs anew, of one line each."""
    out = []
    pathes = {renamed(s[0]): s[0] for _, _, spans in plan for s in spans}
    spelled = parse(f"{OLD}/{edit}")[0]
    for path, (found, copy, names) in what.items():
        (sn, tn), (s1, t1) = read(f"{NEW}/{path}"), read(copy)
        file, spans = path.split("/", 2)[2], extents(edit, pathes[path])

        def line(k):
            return sn.count("\n", 0, tn[k][1]) if k < len(tn) else sn.count("\n")

        groups = []
        for h in found:
            a, b = h[0], h[1]
            inside = next((min(max(a - 1, x), y - 1) for x, y in spans if x <= a <= y), max(a - 1, 0))
            lo, hi = (line(a), line(b - 1)) if b > a else (line(inside), line(inside))
            if groups and groups[-1][1] == lo:
                groups[-1] = (groups[-1][0], hi, groups[-1][2] + [h])
            else:
                groups.append((lo, hi, [h]))
        parts = []
        for lo, hi, hunks in groups:
            here = sorted(s for s in spans if lo <= line(s[0]) <= hi)
            apart = all(here[k][1] <= here[k + 1][0] for k in range(len(here) - 1))
            if lo == hi and len(here) > 1 and apart and all(any(x <= h[0] and h[1] <= y for x, y in here) for h in hunks):
                for x, y in here:
                    mine = [h for h in hunks if x <= h[0] and h[1] <= y and not (h[0] == h[1] == x and any(z == x for _, z in here))]
                    if mine:
                        parts.append((lo, hi, mine))
            else:
                parts.append((lo, hi, hunks))
        for lo, hi, hunks in parts:
            if lo != hi:
                raise Hand(f"{path}: its place has lines {lo + 1} to {hi + 1}")
            a, b = hunks[0][0], hunks[-1][1]
            here = [k for k in range(max(0, a - 200), min(len(tn), b + 200)) if line(k) == lo]
            first, behind = min(here), max(here) + 1
            over = [s for s in spans if s[0] <= a and b <= s[1] or s[0] < b and a < s[1]]
            x, y = max(min([a] + [s[0] for s in over]), first), min(max([b] + [s[1] for s in over]), behind)
            if x >= y:
                x = max(first, min(x, behind - 1))
                y = x + 1
            wide = 0
            while True:
                old = sn[tn[x][1] : tn[y - 1][2]]
                if sn.count(old) == 1 or (x, y) == (first, behind):
                    break
                if wide % 2 == 0 and x > first or y == behind:
                    x -= 1
                else:
                    y += 1
                wide += 1
            new = made_of(sn, tn, s1, t1, hunks, x, y)
            pad = sn[sn.rfind("\n", 0, tn[first][1]) + 1 : tn[first][1]]
            indented = any(f == file and o.startswith(" ") and o.split()[:1] == [tn[first][0]] for f, o, _ in spelled)
            if x == first and (indented or sn.count(old) != 1):
                old, new = pad + old, pad + new
            out.append((file, old, new, a))
        for module in dict.fromkeys(m for m, _ in names):
            mine = ", ".join(n for m, n in names if m == module)
            head = f"use {module}.{{"
            if sn.count(head) != 1:
                raise Hand(f"{path}: no line, or more than one, imports of {module}")
            out.append((file, head, f"{head}{mine},", LAST))
    order = {}
    for k, (file, _, _) in enumerate(spelled):
        order.setdefault(renamed("crates/x/" + file)[9:], k)
    return [p[:3] for p in sorted(out, key=lambda p: (p[3] == LAST, order[p[0]], p[3]))]


def made_of(sn, tn, s1, t1, hunks, x, y):
    """The new text for tokens x to y: the copy's, where it has the same tokens around, else today's with the copy's put in."""
    list, at = [], x
    for a, b, _, _, new in hunks:
        list += texts_of(tn[at:a]) + new
        at = b
    list += texts_of(tn[at:y])
    i, j = hunks[0][2] - (hunks[0][0] - x), hunks[-1][3] + (y - hunks[-1][1])
    if 0 <= i <= j <= len(t1) and texts_of(t1[i:j]) == list:
        return re.sub(r"\s*\n\s*", " ", s1[t1[i][1] : t1[j - 1][2]]) if j > i else ""
    out, at = "", x
    for a, b, j1, j2, _ in hunks:
        out += sn[tn[at][1] : tn[a][1]] if a > at else ""
        out += re.sub(r"\s*\n\s*", " ", s1[t1[j1][1] : t1[j2 - 1][2]]) if j2 > j1 else ""
        out += sn[tn[b - 1][2] : tn[b][1]] if b > a else " "
        at = b
    return out + (sn[tn[at][1] : tn[y - 1][2]] if y > at else "")


def main():
    if not os.path.exists(OLD):
        os.makedirs(OLD)
        archive = subprocess.Popen(["git", "archive", OLDEST, "crates", "crates.txt"], stdout=subprocess.PIPE)
        subprocess.run(["tar", "-x", "-C", OLD], stdin=archive.stdout, check=True)
    is_turned = os.path.exists(TREE)
    plan = rounds_again() if is_turned else rounds()
    if not is_turned:
        turn()
    count = collections.Counter()
    for edit in edits(OLD):
        try:
            what = changes(plan[edit])
            pairs, comments = parse(f"{NEW}/{edit}")
            if is_right(edit, pairs, what):
                count["as they were"] += 1
                continue
            pairs = pairs_of(edit, plan[edit], what)
            if any("\n" in o + n for _, o, n in pairs) or not is_right(edit, pairs, what):
                raise Hand(f"the pairs do not make it: {pairs}")
            out, file = list(comments), None
            for f, old, new in pairs:
                out += [f"file: {f}"] * (f != file) + [f"old: {old}", f"new: {new}".rstrip()]
                file = f
            write(f"{NEW}/{edit}", "\n".join(out) + "\n")
            count["written"] += 1
        except Hand as why:
            count["by hand"] += 1
            print(f"port-edits: {edit}: {why}")
    print("port-edits: " + ", ".join(f"{n} {what}" for what, n in sorted(count.items())))


def rounds_again():
    """The plan of a tree that is turned already: the same edits fall into the same rounds."""
    global TREE
    kept, TREE = TREE, WORK + "/plan"
    plan = rounds()
    TREE = kept
    return plan


main()
