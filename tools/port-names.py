#!/usr/bin/env python3
"""Respells the repository's own names as today's Rattle has them: words of definitions, lemmas and fields in snake case, facts and modules in camel case.

usage: python3 tools/port-names.py      at the top, once, after the kit's port.py (docs/PORT.md); run again it changes nothing

It goes over crates/: .antt, .rt, and the texts of edits and readings. Names of Rust code are in snake case already and stay.
"""

import os
import re
import subprocess

WORD = re.compile(r"(?<![0-9A-Za-z_'])[A-Za-z_][A-Za-z0-9_'-]*")
CAMEL = re.compile(r"[a-z0-9][A-Z]")

# Lemmas and locals that would fall together with a definition in the same file get _lem: (names, files).
LEM = [
    ("row_at", ["door/proofs/splicer_7_ended/Proof.antt"]),
    ("of_number", ["cases/specs/LatelyCases.antt"]),
    ("other_length", ["recall_log/proofs/Logs.antt", "recall/proofs/fresh/Proof.antt"]),
    ("held_number", ["demands/proofs/Sessions.antt"]),
    ("one_end", ["demands/proofs/Lately.antt"]),
    ("is_open", ["demands/proofs/Kept.antt"]),
    ("read_whole", ["rules/proofs/Checks.antt", "rules/proofs/Held.antt"]),
    ("data_of", ["recall_pass/proofs/play_message/Proof.antt"]),
    ("one_ended", ["ends/proofs/Laws.antt", "ends/proofs/end_one_started/Proof.antt", "ends/proofs/end_waiting/Proof.antt"]),
    ("bytes_of", ["streams/proofs/Laws.antt"]),
    ("next_word", ["memory/proofs/Laws.antt", "memory/proofs/next_past/Proof.antt"]),
]

# Facts that began with a small letter: (old, new, folders or files).
FACTS = [
    ("fits", "Fits", ["cases/"]),
    ("told", "Told", ["engine/proofs/Held.antt"]),
    ("instant-is", "InstantIs", ["rolling/proofs/Calls.antt"]),
    ("reading-is", "ReadingIs", ["rolling/proofs/Calls.antt"]),
]


def files():
    for folder, dirs, names in os.walk("crates"):
        dirs[:] = sorted(d for d in dirs if d != "out")
        for n in sorted(names):
            if n.endswith((".antt", ".rt", ".edit")):
                yield os.path.join(folder, n)


def read(path):
    with open(path, encoding="utf-8") as f:
        return f.read()


def write(path, text, old):
    if text != old:
        with open(path, "w", encoding="utf-8") as f:
            f.write(text)


def snake(part):
    if not re.match(r"[a-z]", part):
        return part
    part = re.sub(r"([a-z0-9])([A-Z])", r"\1_\2", part)
    return re.sub(r"([A-Z])([A-Z][a-z])", r"\1_\2", part).lower()


def respelled(word):
    if not CAMEL.search(word):
        return word
    return "-".join(snake(p) for p in word.split("-"))


def bare(text, old, new):
    """The word where it is no field of anything and no part of a longer path."""
    return re.sub(r"(?<![0-9A-Za-z_'.-])" + re.escape(old) + r"(?![0-9A-Za-z_'-])", new, text)


def main():
    for path in files():
        old = text = read(path)
        inside = path[len("crates/"):]
        if path.endswith(".antt"):
            for word, where in LEM:
                head, *tail = word.split("_")
                if inside in where and re.search(r"\b" + head + "".join(w.capitalize() for w in tail) + r"\b", text):
                    text = bare(text, word, word + "_lem")
        for word, new, where in FACTS:
            if any(inside.startswith(w) for w in where) and path.endswith(".antt"):
                text = bare(text, word, new)
        text = WORD.sub(lambda m: respelled(m.group()), text)
        text = re.sub(r"\bCase-([A-Za-z0-9-]+)", lambda m: "Case" + "".join(p[:1].upper() + p[1:] for p in m.group(1).split("-")), text)
        text = re.sub(r"(specs[./]|pub mod )follows(?=[./\n])", r"\1Follows", text)
        write(path, text, old)
    moves = []
    for path in files():
        new = re.sub(r"/specs/follows(?=[./])", "/specs/Follows", path)
        m = re.match(r"(.*/)Case-([A-Za-z0-9-]+)(\.antt)$", new)
        if m:
            new = m.group(1) + "Case" + "".join(p[:1].upper() + p[1:] for p in m.group(2).split("-")) + m.group(3)
        if new != path:
            moves.append((path, new))
    for old, new in moves:
        os.makedirs(os.path.dirname(new), exist_ok=True)
        subprocess.run(["git", "mv", old, new], check=True)


main()
