#!/usr/bin/env python3
"""Spells the repository's own definitions and lemmas in snake case: in specs/ and proofs/, in clauses and comments of src/, in must-fail edits.

usage: respell.py [--check] [ROOT]

A word that begins small and has a capital, as `frameOf`, is one of these: functions of src/ are in snake case already, types and modules begin
with a capital. A name that would fall together with another gets the one that TOGETHER has for it. A field or a definition of specs/ that has a
dash gets an underscore; lemmas of proofs/ keep theirs, which joins two names. --check writes nothing and lists what falls together.
"""
import collections
import glob
import os
import re
import sys

WORD = re.compile(r"(?<![\w'])[A-Za-z_][\w]*(?:[-'][\w']+)*'*")
CAMEL = re.compile(r"(?<![\w])[a-z][a-z0-9]*(?:[A-Z][A-Za-z0-9]*)")
KEEP = {"kHz"}
# What would have another's name, the field `bad_stops` of answers.
TOGETHER = {"badStops": "bad_stop_count"}
# Lemmas that have the name that a definition gets: "A lemma that would have its function's name gets `_lem`".
LEMMAS = {
    "numeric/proofs/Tested.antt": ["same_bit", "same_bits"],
    "framing/proofs/FramingLaws.antt": ["same_bits"],
    "wav/proofs/Recorded.antt": ["sample_in"],
    "demodulation/proofs/FreshLaws.antt": ["next_place"],
    "demodulation/proofs/SummingSteps.antt": ["next_place"],
    "pooling/proofs/PoolLaws.antt": ["shown_by"],
}


def snake(word):
    if word in TOGETHER:
        return TOGETHER[word]
    word = re.sub(r"([a-z0-9])([A-Z])", r"\1_\2", word)
    return re.sub(r"([A-Z])([A-Z][a-z])", r"\1_\2", word).lower()


def files(root):
    for kind in ("antt", "rt", "edit"):
        yield from sorted(glob.glob(os.path.join(root, "crates/**/*." + kind), recursive=True))
    for page in ("README.md", "docs/*.md", "docs/landings/*.md"):
        yield from sorted(glob.glob(os.path.join(root, page)))


def dashed_fields(root):
    """Fields and definitions of specs/ with a dash."""
    found = set()
    for path in glob.glob(os.path.join(root, "crates/*/specs/*.antt")):
        with open(path, encoding="utf-8") as f:
            text = f.read()
        found |= set(re.findall(r"(?m)^ +(?:pub )?([a-z][\w']*(?:-[\w']+)+) :", text))
        found |= set(re.findall(r"(?m)^(?:(?:unfoldable|abbrev|pub) )*([a-z][\w']*(?:-[\w']+)+) :", text))
    return sorted(found, key=len, reverse=True)


def with_lemmas(path, text):
    for tail, names in LEMMAS.items():
        if path.endswith(tail):
            for name in names:
                text = re.sub(rf"(?<![\w'-]){name}(?![\w'-])", name + "_lem", text)
    return text


def undashed(text, fields):
    for name in fields:
        text = re.sub(rf"(?<![\w'/-]){name}(?![\w'-])", name.replace("-", "_"), text)
    return text


def turned(text):
    """The text with each such word turned, but for strings' and numbers' (0xFF)."""
    def word(m):
        w = m.group()
        if w in KEEP or re.match(r"x[0-9A-F_]+$", w) and m.start() and text[m.start() - 1] == "0":
            return w
        return snake(w)
    out, at = [], 0
    for m in re.finditer(r'"(?:[^"\\\n]|\\.)*"', text):
        out += [CAMEL.sub(word, text[at:m.start()]), m.group()]
        at = m.end()
    return "".join(out) + CAMEL.sub(word, text[at:])


def main(argv):
    check = "--check" in argv
    roots = [a for a in argv if not a.startswith("-")]
    root = roots[0] if roots else "."
    words, camel = collections.defaultdict(set), set()
    changed = 0
    fields = dashed_fields(root)
    for path in files(root):
        with open(path, encoding="utf-8") as f:
            text = f.read()
        if path.endswith((".antt", ".rt")):
            plain = re.sub(r'"(?:[^"\\\n]|\\.)*"', "", re.sub(r"(--|//)[^\n]*", "", text))
            crate = path.split("crates/")[1].split("/")[0]
            for m in re.finditer(r"[A-Za-z_]\w*", plain):
                words[m.group()].add(os.path.relpath(path, root))
            camel |= {m.group() for m in CAMEL.finditer(plain) if not (m.start() and plain[m.start() - 1] == "0")}
        new = turned(undashed(with_lemmas(path, text), fields))
        if new != text:
            changed += 1
            if not check:
                with open(path, "w", encoding="utf-8") as f:
                    f.write(new)
    if check:
        to = collections.defaultdict(set)
        for w in camel - KEEP:
            to[snake(w)].add(w)
        for s, ws in sorted(to.items()):
            if len(ws) > 1:
                print("one name for", *sorted(ws))
            if s in words:
                for w in ws:
                    both = sorted(words[s] & words[w])
                    print(f"{w} -> {s}: in {len(words[s])} files already; together in {both[:6]}")
    print(f"{changed} files {'would change' if check else 'changed'}")
    return 0


if __name__ == "__main__":
    raise SystemExit(main(sys.argv[1:]))
