#!/usr/bin/env python3
"""Turns proofs that walk the code by `tie.spec`, proofs/F/Proof.antt, to Invariants.antt and Answers.antt.

usage: answers.py NAMES CRATE [F..]

NAMES is the names.json that `rt check --generated DIR --old-names` writes for the crate whose folder is CRATE. Each file of proofs/ that ends in
`tie.close (tie.spec ..)` is turned, or those of the functions F, as sine/reduce. A need that has no goal of its own today is left out; so is an
answer that is only `search rules`, which the check tries by itself. It prints what it leaves out for other reasons.
"""
import json
import os
import re
import sys

W = r"[^\s(){}.;,@\"«»\[\]\\|]+"
DECL = re.compile(r"^(?:(?:unfoldable|abbrev|pub|ruleset) )*([^\s(){}:]+)((?: \{[^}]*\})*) :(?=\s)")


def blocks(text):
    """Head (comments, use lines) and declarations: (comments, name, lines)."""
    head, out, comments, cur = [], [], [], None
    for line in text.split("\n"):
        m = DECL.match(line)
        if m and not line.startswith(("use ", "--")):
            if cur:
                out.append(cur)
            cur = [comments, m.group(1), [line]]
            comments = []
        elif line.startswith("--") and (cur is None or cur[2][-1] == "" ):
            if cur is None and not any(l.startswith("use ") for l in head):
                head.append(line)
            else:
                comments.append(line)
        elif cur is None:
            head.append(line)
        elif line == "" :
            cur[2].append(line)
        elif line.startswith("ruleset"):
            out.append(cur)
            cur = [comments, line.split()[1], [line]]
            comments = []
        else:
            cur[2].append(line)
    if cur:
        out.append(cur)
    for b in out:
        while b[2] and b[2][-1] == "":
            b[2].pop()
    return head, out


def norm(name):
    name = re.sub(r"^(overflow|nonzero)[-_]", "", name.replace("_", "-"))
    return name


class Names:
    def __init__(self, data, clauses=None, own=None):
        self.clauses, self.own, self.callees = clauses or {}, own, {}
        self.params = data["params"]
        self.renamed = [(a.replace(" ", ""), b.replace(" ", "")) for a, b in data["args"] if " " in a]
        self.needs = data["needs"]
        self.loops = data["loops"]
        self.changed = data["changed"]
        self.steps, self.fields, self.places = {}, {}, {}
        for i, p in enumerate(data["places"]):
            old, parent, (of, nf), callee, fields = p
            self.places[old] = data["places_by_name"][i]
            if of and callee:
                self.callees.setdefault(norm_step(of), callee)
            if of:
                self.steps.setdefault(norm_step(of), []).append(nf)
                for a, b in fields:
                    self.fields.setdefault(norm_step(of), {}).setdefault(a, b)
        # What a match tells of its value: (old step, path) to the arm's field.
        self.told = {}
        for arm in data["arms"]:
            for new, step, path in (arm[2] if arm else []):
                if path:
                    self.told.setdefault(".".join([norm_step(step)] + path), arm[0] + "." + new)

    def step(self, old):
        # A script took some steps for lemmas of that name.
        got = self.steps.get(norm_step(old)) or old.endswith("_lem") and self.steps.get(norm_step(old[: -len("_lem")]))
        if not got:
            return None
        return got[0]


def clauses_of(root):
    """The names of the clauses of each function that has two or more of a kind, by path and kind."""
    found = {}
    for top, _, files in os.walk(os.path.join(root, "crates")):
        if os.sep + "src" not in top:
            continue
        for name in files:
            if not name.endswith(".rt"):
                continue
            path = os.path.join(top, name)
            parts = os.path.relpath(path, os.path.join(root, "crates")).split(os.sep)
            crate, inner = parts[0], [p[:-3] if p.endswith(".rt") else p for p in parts[2:]]
            if inner[-1] in ("lib", "main"):
                inner = inner[:-1]
            owner, fn = None, None
            with open(path, encoding="utf-8") as f:
                for line in f:
                    m = re.match(r"impl(?:<[^>]*>)? (?:\w+ for )?(\w+)", line)
                    if m:
                        owner = m.group(1)
                    elif line.startswith("}"):
                        owner = None
                    m = re.match(r"( *)(?:pub(?:\([a-z]+\))? )?(?:extern \"C\" )?fn (\w+)", line)
                    if m:
                        fn = "::".join([crate] + ([owner] if owner and m.group(1) else inner) + [m.group(2)])
                    m = re.match(r"\s+(requires|ensures)\*? (\w+) \{", line)
                    if m and fn:
                        found.setdefault((fn, m.group(1)), []).append(m.group(2))
    return Clauses({k: v for k, v in found.items() if len(v) > 1})


class Clauses(dict):
    """By path and kind; a method's path is that of its type, whatever file it stands in."""

    def get(self, key, default=None):
        path, kind = key
        parts = (path or "").split("::")
        if len(parts) > 2 and parts[-2][:1].isupper():
            path = "::".join([parts[0]] + parts[-2:])
        return dict.get(self, (path, kind), default)

    def __getitem__(self, key):
        return self.get(key)


def clause_path(labels, rest):
    """What stands for the right-nested places `rest` of the clauses: the label, and the places left."""
    for j in range(len(labels)):
        want = ["1"] * j + (["0"] if j < len(labels) - 1 else [])
        if rest[: len(want)] == want and (want or len(labels) == 1):
            return [labels[j]] + rest[len(want):]
    return None


def norm_step(s):
    return s.replace("-", "_").lower()


def turned_text(text, names):
    text = re.sub(r"(?:\.before)+(?![\w'-])", "", text)
    for a, b in names.renamed:
        text = re.sub(re.escape(a) + r"(?![\w'-])", b, text)
    text = re.sub(r"\.(well|type)-(formed|inv)(?![\w'-])", r".\1_\2", text)

    # The steps stand behind `c`, or behind a name that a `let` gave it.
    heads = {"c"}
    for _ in range(5):
        heads |= set(re.findall(r"\blet ([\w']+) = (?:" + "|".join(map(re.escape, heads)) + r") in\b", text))
    at = r"(?<![\w'.-])(" + "|".join(re.escape(h) for h in sorted(heads)) + r")((?:\.[^\s(){}.;,@\"«»\[\]\\|]+)+)"

    def known(step, parts):
        """`new` and `auto` show the parameters by name, where they were places of a tuple."""
        params = names.params.get(names.callees.get(step))
        if len(parts) < 2 or parts[0] not in ("new", "auto") or not params:
            return parts
        n = 1
        while n < len(parts) and parts[n] == "1":
            n += 1
        if n < len(parts) and parts[n] == "0" and n - 1 < len(params):
            return [parts[0], params[n - 1]] + parts[n + 1:]
        return parts

    def path(m):
        parts = m.group(2)[1:].split(".")
        for n in range(len(parts), 1, -1):
            key = ".".join([norm_step(parts[0])] + parts[1:n])
            if key in names.told:
                return ".".join([m.group(1), names.told[key]] + parts[n:])
        if parts[0] in ("requires", "ensures") and names.clauses.get((names.own, parts[0])):
            said = clause_path(names.clauses[names.own, parts[0]], parts[1:])
            return ".".join([m.group(1), parts[0]] + said) if said else m.group(0)
        new = names.step(parts[0])
        if new is None:
            return m.group(0)
        fields = names.fields.get(norm_step(parts[0]), {})
        step = norm_step(parts[0])
        if step.endswith("_lem") and step not in names.callees:
            step = step[: -len("_lem")]
        parts = parts[:1] + known(step, parts[1:])
        labels = len(parts) > 2 and names.clauses.get((names.callees.get(step), parts[1]))
        if labels:
            said = clause_path(labels, parts[2:])
            if said:
                return ".".join([m.group(1), new, parts[1]] + said)
        fields = fields or names.fields.get(norm_step(parts[0][: -len("_lem")]), {})
        rest = [fields.get(parts[1], parts[1])] + parts[2:] if len(parts) > 1 else []
        return ".".join([m.group(1), new] + rest)
    text = re.sub(r"(?<=\.)[a-z][a-z0-9]*(?:-[a-z0-9]+)+(?![\w'-])", lambda m: RUST.get(m.group(0), m.group(0)) if names.step(m.group(0)) is None else m.group(0), text)
    # A name that a `let` gave to a call, or to what it ensures.
    for m in list(re.finditer(r"\blet ([\w']+) = " + at + r" in\b", text)):
        parts = m.group(3)[1:].split(".")
        at_step = norm_step(parts[0]) if norm_step(parts[0]) in names.callees else norm_step(parts[0][: -len("_lem")])
        callee = names.callees.get(at_step)
        if len(parts) == 1 and callee:
            def by_name(mm):
                return mm.group(1) + "." + ".".join(known(at_step, mm.group(2)[1:].split(".")))
            text = re.sub(r"(?<![\w'.-])(" + re.escape(m.group(1)) + r")((?:\.(?:new|auto))(?:\.\d+)+(?:\.[\w'-]+)*)", by_name, text)
        kind = parts[1] if len(parts) > 1 else None
        if len(parts) > 2 or kind not in (None, "ensures", "requires"):
            continue
        for k in ("ensures", "requires"):
            labels = names.clauses.get((callee, k))
            if not labels or kind not in (None, k):
                continue
            lead = re.escape(m.group(1)) + ("" if kind else r"\." + k)

            def sub(mm):
                said = clause_path(labels, mm.group(2)[1:].split("."))
                return mm.group(1) + "." + ".".join(said) if said else mm.group(0)
            text = re.sub(r"(?<![\w'.-])(" + lead + r")((?:\.\d+)+(?:\.[\w'-]+)*)", sub, text)
    text = re.sub(at, path, text)
    return text


def split_top(text):
    """The parts of a text that commas divide, outside brackets."""
    out, depth, at = [], 0, 0
    for i, ch in enumerate(text):
        if ch in "([{":
            depth += 1
        elif ch in ")]}":
            depth -= 1
        elif ch == "," and depth == 0:
            out.append(text[at:i])
            at = i + 1
    last = text[at:]
    return out + ([last] if last.strip() else [])


def labelled(body, labels):
    """The answer for several clauses: a record of them."""
    m = re.match(r"(.*?[ \n]=)(\s.*)$", body, re.S)
    if not m:
        return body
    head, rest = m.group(1), m.group(2)
    at = 0
    while True:
        n = re.match(r"\s*let\b", rest[at:])
        if not n:
            break
        depth, i = 0, at + n.end()
        while i < len(rest):
            if rest[i] in "([{":
                depth += 1
            elif rest[i] in ")]}":
                depth -= 1
            elif depth == 0 and re.match(r"\blet\b", rest[i:]) and not re.match(r"\w", rest[i - 1]):
                depth += 0
            elif depth == 0 and re.match(r"in\b", rest[i:]) and rest[i - 1] in " \n":
                break
            i += 1
        at = i + 2
    lets, expr = rest[:at], rest[at:]
    strip = expr.strip()
    inner = strip[1:-1] if strip.startswith("(") and strip.endswith(")") else None
    if inner is not None:
        depth = 0
        for i, ch in enumerate(strip):
            depth += (ch in "([{") - (ch in ")]}")
            if depth == 0 and i < len(strip) - 1:
                inner = None
                break
    pieces = split_top(inner) if inner is not None else []
    while 1 < len(pieces) < len(labels) and re.match(r"\(.*\)$", pieces[-1].strip(), re.S):
        pieces = pieces[:-1] + split_top(pieces[-1].strip()[1:-1])
    if len(pieces) >= len(labels):
        k = len(labels)
        parts = pieces[: k - 1] + ([pieces[k - 1]] if len(pieces) == k else ["(" + ",".join(pieces[k - 1:]) + ")"])
        values = [p.strip() for p in parts]
    elif strip == "search rules":
        return body
    else:
        places = [".".join([""] + ["1"] * j + (["0"] if j < len(labels) - 1 else [])) for j in range(len(labels))]
        lets += f" let all = {strip} in"
        values = ["all" + p for p in places]
    return head + lets + " record { " + "; ".join(f"{a} = {b}" for a, b in zip(labels, values)) + " }"


def used(names, text):
    words = set(re.findall(r"[^\s(){};,.\"\[\]«»]+", text)) | set(re.findall(W, text))
    keep = []
    for n in names:
        short = n.split(" as ")[-1].strip()
        if short == "[]":
            keep += [n] if "[]" in text else []
        elif "◌" in short:
            parts = [p for p in short.split("◌") if p]
            if all(p in words or p in text for p in parts):
                keep.append(n)
        elif short in words or short.strip("«»") in words:
            keep.append(n)
    return keep


def rust_names(crate):
    """Names of the source with an underscore, which records show as they are, but for those that a record of the repository's own has with a dash."""
    found, own = set(), set()
    for top, _, files in os.walk(os.path.join(crate, "src")):
        for name in files:
            with open(os.path.join(top, name), encoding="utf-8") as f:
                found |= set(re.findall(r"\b[a-z][a-z0-9]*(?:_[a-z0-9]+)+\b", re.sub(r"//[^\n]*", "", f.read())))
    for top, _, files in os.walk(os.path.join(os.path.dirname(os.path.abspath(crate)))):
        for name in files:
            if name.endswith(".antt") and "/out" not in top and name not in ("Proof.antt", "Answers.antt"):
                with open(os.path.join(top, name), encoding="utf-8") as f:
                    own |= set(re.findall(r"(?m)^ +(?:pub )?([a-z][\w']*(?:-[\w']+)+) :", f.read()))
    return {n.replace("_", "-"): n for n in found if n.replace("_", "-") not in own}


RUST = {}


def imports(head, text):
    out = []
    joined = "\n".join(head)
    for m in re.finditer(r"(?m)^use (.+?)(?:\n(?=use|--|\n|$)|$)", joined):
        line = m.group(1).strip()
        if re.search(r"\.(Statement|Tie|Lts)\b", line) and ".proofs." in line:
            continue
        b = re.match(r"(.*)\.\{(.*)\}$", line, re.S)
        if b:
            keep = used([x.strip() for x in b.group(2).split(",") if x.strip()], text)
            if keep:
                out.append(f"use {b.group(1)}.{{{', '.join(keep)}}}")
        else:
            short = line.split(" as ")[-1].split(".")[-1].strip()
            if re.search(r"(?<![\w.])" + re.escape(short) + r"\.", text):
                out.append("use " + line)
    return out


def equation_args(lines, name):
    pass


def with_bodies(text, bodies):
    """An answer that cites another gets what that says: its `c` is another step's today, and all that it cites has a name of its own."""
    for _ in range(4):
        words = set()

        def body(m):
            words.update(bodies[m.group(1)][0])
            b = bodies[m.group(1)][1]
            return b if re.fullmatch(r"[\w.'-]+", b) else "(" + b + ")"
        cited = [n for n in bodies if re.search(r"(?<![\w'.-])" + re.escape(n) + r" c(?:\.before)*(?![\w'.-])", text)]
        first = text.split("\n", 1)
        if not cited:
            break
        new = re.sub(r"(?<![\w'.-])(" + "|".join(re.escape(n) for n in sorted(cited, key=len, reverse=True)) + r") c(?:\.before)*(?![\w'.-])(?!\s*=|\s+κs\s*=)", body, text)
        if new == text:
            break
        text = new
        if words:
            text = "unfolding " + " ".join(dict.fromkeys(first[0].split()[1:] + sorted(words))) + "\n" + text.split("\n", 1)[1] if first[0].startswith("unfolding") else "unfolding " + " ".join(sorted(words)) + "\n" + text
    return text


def turn(crate_name, fn, path, data, clauses=None):
    own = "::".join([crate_name] + fn.split("/"))
    names = Names(data, clauses, own)
    with open(path, encoding="utf-8") as f:
        text = f.read()
    head, decls = blocks(text)
    if not any("tie.spec" in "\n".join(d[2]) for d in decls):
        return None, None, ["no tie.spec"]
    said = []
    order = None
    for d in decls:
        body = "\n".join(d[2])
        m = re.search(r"tie\.spec((?:\s+" + W + r")*)", body)
        if m:
            order = m.group(1).split()
    bykey = {}
    for o, n in names.needs:
        bykey.setdefault(norm(o), n)
    invs, answers, helpers, bodies = [], [], [], {}
    loop_of = {norm_step(l[0][0]): (l[0][1], l[1], ch) for l, ch in zip(names.loops, names.changed)}
    renamed = {}
    for comments, name, lines in decls:
        sig = lines[0] + "\n" + "\n".join(lines[1:])
        if "tie.spec" in sig:
            continue
        m = re.match(r"(?:(?:unfoldable|abbrev|pub) )*" + re.escape(name) + r" :\s+tie\.(Need-(" + W + r")|invariant-(" + W + r")|decreases-(" + W + r"))", sig)
        if not m:
            helpers.append((comments, name, lines))
            continue
        if m.group(2):
            need = m.group(2)
            new = bykey.get(norm(need))
            # where the sig spans lines, drop up to the equation
            k = 0
            while k < len(lines) and not re.match(r"(unfolding\b|" + re.escape(name) + r"(\s|$))", lines[k]) or k == 0:
                k += 1
                if k >= len(lines):
                    break
            rest = lines[k:]
            whole = "\n".join(rest)
            e = re.match(r"((?:unfolding[^\n]*\n)?)" + re.escape(name) + r" c(?: κs)?\s*=\s*(.*)$", whole, re.S)
            if e:
                bodies[name] = (e.group(1).split()[1:], e.group(2).strip())
            if new is None:
                if not re.search(r"(same.length|shared.slice|slice.write|slice.read)", need):
                    said.append(f"{fn}: no goal for {need}")
                continue
            body = "\n".join(rest)
            plain = re.sub(r"\s+", " ", body.split("=", 1)[1] if "=" in body else body).strip()
            if plain in ("search rules", "tt"):
                continue
            answers.append((comments, name, new, rest))
            renamed[name] = new
        else:
            loop = m.group(3) or m.group(4)
            invs.append((comments, name, loop, "invariant" if m.group(3) else "decreases", lines[1:]))
    inv_out, inv_helpers = [], set()
    for comments, name, loop, kind, rest in invs:
        got = loop_of.get(norm_step(loop))
        if not got:
            said.append(f"{fn}: no loop {loop}")
            continue
        new, vars_, changed = got
        body = "\n".join(rest)
        m = re.match(r"((?:unfolding[^\n]*\n)?)" + re.escape(name) + r"((?:\s+(?:«\w+»|" + W + r"))*)\s*=\s*(.*)$", body, re.S)
        if not m:
            said.append(f"{fn}: invariant {name} not read")
            continue
        params = m.group(2).split()
        expect = [(v, "initial" if c else "plain") for v, c in zip(vars_, changed)] + [(v, "now") for v, c in zip(vars_, changed) if c]
        if len(params) != len(expect):
            said.append(f"{fn}: {name}: {len(params)} parameters, {len(expect)} expected ({vars_})")
        t = m.group(3)
        table = {}
        for p, (v, k) in zip(params, expect):
            v = f"«{v}»" if p.startswith("«") else v
            table[p] = f"l.initial.{v}" if k == "initial" else f"l.{v}"
        # binders of the body that hide a parameter are left to the eye
        def sub(mm):
            w = mm.group(0)
            if re.search(r"[{;]\s*$", mm.string[: mm.start()]) and re.match(r" =\s", mm.string[mm.end():]):
                return w
            return table.get(w, w)
        if "l" in re.findall(r"(?<![\w.'-])l(?![\w'-])", t):
            t = re.sub(r"(?<![\w.'-])l(?![\w'-])", "l'", t)
            if "l" in table:
                table["l'"] = table.pop("l")
        t = re.sub(r"(?<![\w.'₀-])(?:«\w+»|[^\s(){}.;,@\"«»\[\]\\|]+)", sub, t)
        t = turned_text(t, names)
        inv_out.append(comments + [f"abbrev pub {kind}-{new} : goal.{kind}-{new}"] + ([m.group(1).strip()] if m.group(1) else []) + [f"{kind}-{new} l = {t}"])
    ans_out = []
    inv_text = "\n\n".join("\n".join(x) for x in inv_out)
    for comments, name, lines in helpers:
        t = turned_text("\n".join(lines), names)
        ans_out.append((name, comments, t, True))
    for comments, name, new, rest in answers:
        t = with_bodies("\n".join(rest), bodies)
        t = re.sub(r"(?m)^" + re.escape(name) + r" c κs(?=[\s=])", new + " c", t)
        t = re.sub(r"(?m)^" + re.escape(name) + r"(?=[\s=])", new, t)
        t = turned_text(t, names)
        labels = (clauses or {}).get((own, "ensures"))
        if labels and new.startswith("returns"):
            t = labelled(t, labels)
        ans_out.append((new, comments, f"pub {new} : goal.{new}\n{t}", False))
    # helpers that invariants use stand there
    moved = True
    in_inv = []
    text_needed = inv_text
    while moved:
        moved = False
        for x in ans_out:
            if x[3] and x not in in_inv and re.search(r"(?<![\w.'-])" + re.escape(x[0]) + r"(?![\w'-])", text_needed):
                in_inv.append(x)
                text_needed += "\n" + x[2]
                moved = True
    in_inv.sort(key=lambda x: ans_out.index(x))
    rest_ans = [x for x in ans_out if x not in in_inv]
    # helpers that nothing uses go
    text_ans = "\n".join(x[2] for x in rest_ans if not x[3])
    keep = True
    kept = []
    grown = text_ans
    while keep:
        keep = False
        for x in rest_ans:
            if x[3] and x not in kept and re.search(r"(?<![\w.'-])" + re.escape(x[0]) + r"(?![\w'-])", grown):
                kept.append(x)
                grown += "\n" + x[2]
                keep = True
    dropped = [x[0] for x in rest_ans if x[3] and x not in kept]
    if dropped:
        said.append(f"{fn}: helpers dropped: {dropped}")
    rest_ans = [x for x in rest_ans if not x[3] or x in kept]
    comment = [l for l in head if l.startswith("--")]
    mod = f"Rattle.{crate_name}.proofs." + fn.replace("/", ".")
    inv_file = ans_file = None
    if inv_out:
        parts = []
        for x in in_inv:
            t = x[2]
            if not re.match(r"(?:unfoldable |abbrev )?pub ", t):
                t = re.sub(r"^((?:unfoldable |abbrev )?)", r"\1pub ", t, count=1)
            parts.append("\n".join(x[1] + [t]))
        whole = "\n\n".join(parts + [inv_text])
        use = imports(head, whole)
        inv_file = "\n".join(comment + use + [f"use {mod}.Given as goal"]) + "\n\n" + whole + "\n"
    if rest_ans:
        whole = "\n\n".join("\n".join(x[1] + [x[2]]) for x in rest_ans)
        use = imports(head, whole)
        shared = [x[0] for x in in_inv if re.search(r"(?<![\w.'-])" + re.escape(x[0]) + r"(?![\w'-])", whole)]
        if shared:
            use.append(f"use {mod}.Invariants.{{{', '.join(shared)}}}")
        lts = lts_names(whole, names)
        ans_file = "\n".join(comment + use + [f"use {mod}.Goals as goal"]) + "\n\n" + whole + "\n"
    return inv_file, ans_file, said


def lts_names(whole, names):
    return []


def main(argv):
    with open(argv[0], encoding="utf-8") as f:
        listed = json.load(f)
    crate = argv[1].rstrip("/")
    only = argv[2:]
    name = os.path.basename(os.path.abspath(crate))
    count = 0
    RUST.update(rust_names(crate))
    clauses = clauses_of(os.path.dirname(os.path.dirname(os.path.abspath(crate))))
    by = {}
    for module, data in listed.items():
        if ".Lts" not in module:
            continue
        fn = module.split("-proofs.", 1)[1].rsplit(".Lts", 1)[0].replace(".", "/").replace("«", "").replace("»", "")
        by[fn] = data
    for root, _, files in sorted(os.walk(os.path.join(crate, "proofs"))):
        if "Proof.antt" not in files:
            continue
        fn = os.path.relpath(root, os.path.join(crate, "proofs"))
        if only and fn not in only:
            continue
        data = by.get(fn)
        if data is None:
            print(f"{fn}: not in the list of names")
            continue
        path = os.path.join(root, "Proof.antt")
        inv, ans, said = turn(name, fn, path, data, clauses)
        for s in said:
            print(s)
        if said == ["no tie.spec"]:
            continue
        os.remove(path)
        if inv:
            with open(os.path.join(root, "Invariants.antt"), "w", encoding="utf-8") as f:
                f.write(inv)
        if ans:
            with open(os.path.join(root, "Answers.antt"), "w", encoding="utf-8") as f:
                f.write(ans)
        count += 1
    print(f"{count} files turned")


if __name__ == "__main__":
    main(sys.argv[1:])
