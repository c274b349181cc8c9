#!/usr/bin/env python3
# Lists the places of the eight points of docs/DESIGN-PASS.md in crates/*/src (point 8: crates/*/proofs), as file:line:text, with counts by crate.
#   python3 tools/places.py [POINT..] [-q] [--top FOLDER]    POINT is 1 to 8, or part of one such as 1.a; -q: the counts alone
# It lists what has the shape; whether a listed place should change is judged by hand.
import collections, glob, itertools, os, re, signal, sys

INTS = r'(?:u8|u16|u32|u64|usize|i8|i16|i32|i64)'
# Cases that are named as a refusal or as none, and what a comment says where a number stands for one or for a kind.
EMPTY = r'(Refused|Wrong|Un[a-z]|None|Never|Not$|Bad|No[A-Z]|Nothing|Waiting|Damaged)'
SENTINEL = r'0 (?:where|for|of|at)|none (?:up|where)|that is none|no such|one past|else 0|is no (?!ne)|and 0;|number that a refused|1 for|length where|is missing|it is none|as a number'

def plain(text):
    # Without comments and without what stands in texts; lines stay lines.
    text = re.sub(r'b?"(?:\\.|[^"\\])*"', lambda m: '""' + '\n' * m.group().count('\n'), text)
    return re.sub(r'//[^\n]*', '', text)

def closing(s, i):
    # The place behind the bracket that closes the one at i.
    depth = 0
    for k in range(i, len(s)):
        depth += (s[k] == s[i]) - (s[k] == {'{': '}', '(': ')'}[s[i]])
        if depth == 0:
            return k + 1

def parts_of(s):
    # The parts between the commas that stand in no bracket.
    out, depth, last = [], 0, 0
    for k, c in enumerate(s + ','):
        depth += (c in '([{') - (c in ')]}')
        if c == ',' and depth == 0:
            out, last = out + [re.sub(r'\s+', ' ', s[last:k]).strip()], k + 1
    return [p for p in out if p]

class Item:
    # An enum, a struct or a function: its parts, or its parameters, contract and body.
    def __init__(self, path, s, lines, m, uses):
        self.file, self.kind, self.name, self.uses, self.line = path, m.group(1), m.group(2), uses, s[:m.start(1)].count('\n') + 1
        self.returns, self.clauses, self.params, self.parts, self.doc, up = '', [], [], [], '', s[:m.start(1)].count('\n') - 1
        while up >= 0 and re.match(r'\s*(//|#\[)', lines[up]):
            self.doc, up = lines[up].strip(' /') + ' ' + self.doc, up - 1
        if self.kind == 'fn':
            p = s.index('(', m.end())
            i = q = closing(s, p)
            self.params = [tuple(re.sub(r'^mut ', '', x).split(': ', 1)) for x in parts_of(s[p + 1:q - 1]) if ': ' in x]
            while c := re.match(r'[^{}]*?\b(requires|ensures)\b\s*\w*\s*(?=\{)', s[i:]):
                k = closing(s, i + c.end())
                self.clauses.append((c.group(1), re.sub(r'\s+', ' ', s[i + c.end() + 1:k - 1]).strip()))
                i = k
            head = re.match(r'\s*->\s*([^{]*?)\s*(?=\brequires\b|\bensures\b|\{|\bwhere\b|$)', s[q:])
            self.returns = head.group(1) if head else ''
        i = i if self.kind == 'fn' else m.end()
        b = re.compile(r'\{|;\n' if self.kind == 'fn' else r'[{;(]').search(s, i).start()
        self.body = '' if s[b] == ';' else s[b:closing(s, b)]
        self.body_line, self.flat = s[:b].count('\n') + 1, re.sub(r'\s+', ' ', self.body).strip()
        if self.kind != 'fn':
            self.parts = [re.sub(r'^pub(\(\w+\))? ', '', x) for x in parts_of(re.sub(r'#\[[^\]]*\]', '', self.body[1:-1]))]
            self.flat = '{ %s }' % ', '.join(self.parts)
        self.fields = [tuple(x.split(': ', 1)) for x in self.parts if ': ' in x]

def shape(text):
    # A text with each name, number and type replaced by the order in which it first stands.
    seen, out = {}, []
    for t in re.findall(r'\d+\.\d\w*|\w+|[^\w\s]', text):
        if re.match(r'\w', t) and t not in 'if else while for let mut return match fn self as in'.split():
            t = str(seen.setdefault(t, len(seen)))
        out.append(t)
    return re.sub(r', ([)}\]])', r' \1', ' '.join(out))

def at(x, text=None):
    return x.file, x.line, x.name + ' ' + (x.flat[:160] if text is None else text)

def read(files):
    for path in files:
        raw = open(path, encoding='utf-8').read()
        s = plain(raw)
        uses = {w.strip(): 'specs.'.join(m) for *m, ws in re.findall(r'use Rattle\.(\w+\.)specs\.([\w.]+)\.\{([^}]*)\}', s) for w in ws.split(',')}
        for m in re.finditer(r'^[ \t]*(?:pub(?:\(\w+\))? )?(?:extern \S+ )?(enum|struct|fn) (\w+)', s, re.M):
            yield Item(path, s, raw.split('\n'), m, uses)

def alike(xs, key, least=1):
    groups = collections.defaultdict(list)
    for x in xs:
        if len(key(x).split()) >= least:
            groups[key(x)].append(x)
    return [g for g in groups.values() if len(g) > 1]

def loops(fns):
    for x in fns:
        for m in re.finditer(r'\b(while|for)\b([^{]*)\{', x.body):
            block = x.body[m.end() - 1:closing(x.body, m.end() - 1)]
            steps = any(re.search(r'\b%s\b' % v, m.group(2)) for v in re.findall(r'\b(\w+) [+-]= \d+;', block))
            kind = 'for' if m.group(1) == 'for' else 'index' if steps else 'other'
            yield kind, (x.file, x.body_line + x.body[:m.start()].count('\n'), x.name + ': ' + re.sub(r'\s+', ' ', m.group()[:-1]).strip())

def copies(fns):
    for x in fns:
        for m in re.finditer(r'\b([A-Z]\w*) \{', x.body):
            same = collections.Counter(b for n, b, c in re.findall(r'(\w+): (\w+)\.(\w+),', x.body[m.end():closing(x.body, m.end() - 1)]) if n == c)
            for who, n in same.most_common(1):
                if n > 1:
                    yield x.file, x.body_line + x.body[:m.start()].count('\n'), '%s: %s copies %d of %s' % (x.name, m.group(1), n, who)

def facts(fns, word):
    # By fact: the functions that ask for it, and those that promise it.
    out = collections.defaultdict(lambda: ([], []))
    for x in fns:
        for kind in ('requires', 'ensures'):
            for w in {w for k, c in x.clauses if k == kind for w in word(c)}:
                out['%s.%s' % (x.uses[w], w) if w in x.uses else w][kind == 'ensures'].append(x)
    for w, (a, b) in sorted(out.items()):
        if len({id(x) for x in a + b}) > 2:
            for x in a or b[:1]:
                yield at(x, '%s [asked by %d, promised by %d]' % (w, len(a), len(b)))

def together(fns):
    for crate, xs in itertools.groupby(sorted(fns, key=lambda x: x.file), lambda x: x.file.split('/')[1]):
        xs = [(x, frozenset((n, re.sub(r'^&(mut )?', '', t)) for n, t in x.params)) for x in xs]
        found = {a & b for (_, a), (_, b) in itertools.combinations(xs, 2)}
        found |= {a & b for a, b in itertools.combinations(found, 2)}
        for g in found:
            users = [x for x, p in xs if g <= p]
            if len(g) > 2 and len(users) > 2:
                yield at(users[0], '(%s) in %d: %s' % (', '.join(': '.join(p) for p in sorted(g)), len(users), ', '.join(x.name for x in users)))

def proofs(files):
    for f in files:
        top, inner = f.count('/') == 3 and not f.endswith('/Lib.antt'), f.count('/') > 3 and f.endswith('/Answers.antt')
        if inner:
            yield 'file', (f, 1, '')
        block = ''
        for n, l in enumerate(open(f, encoding='utf-8').read().split('\n'), 1):
            if inner and re.match(r'(?:pub )?\S+ : goal\.', l):
                yield 'answer', (f, n, l)
            if inner and (m := re.search(r'\blet \S+ = ([\w.-]+) in\b', l)):
                yield 'alias' if m.group(1) == 'c' else 'part', (f, n, l.strip())
            block = l.split()[0] if l[:1].strip() and l[:2] != '--' else block
            if top and re.match('(?:  )?' * (block == 'module') + r'(?:abbrev |private |pub )*[^\s(-]\S* : ', l):
                yield 'lemma', (f, n, l.strip()[:150])

def main():
    args = sys.argv[1:]
    os.chdir(args.pop(args.index('--top') + 1) if '--top' in args else os.path.join(os.path.dirname(os.path.abspath(__file__)), '..'))
    want = [a for a in args if not a.startswith('-')]
    items = list(read(sorted(glob.glob('crates/*/src/**/*.rt', recursive=True))))
    fns, structs, enums = ([x for x in items if x.kind == k] for k in ('fn', 'struct', 'enum'))
    valued = lambda x: [bool(re.search(r'[({]', p)) for p in x.parts]
    whole, fixed = [x for x in fns if re.fullmatch(INTS, x.returns)], r'return (?:\d+|\w+::MAX);|=> ?\d+[, ]|\{ \d+ \}'
    twins, types = alike(fns, lambda x: shape(x.body), 7), alike(structs + enums, lambda x: re.sub(
        r'(state|answer): \w+|\(\w+\)', 'T', '%s %s' % (x.kind, sorted(x.parts))))
    cases = lambda x: (m := re.fullmatch(r'\{ match \w+ \{ (.*?),? \} \}', x.flat)) and all(re.search(r'=> (-?[\w:]+|\w+\(\w+\))$', c) for c in parts_of(m.group(1)))
    arrays = lambda x: [t for _, t in x.fields if re.match(r'\[', t)]
    turns, proved = list(loops(fns)), list(proofs(sorted(glob.glob('crates/*/proofs/**/*.antt', recursive=True))))
    steps = lambda x: [v for v, n in collections.Counter(re.findall(r'if !?(\w+)(?: [=!<]=? [\w:\'"]+)? \{ (?:return )?[a-z_][\w.:]*\(', x.flat)).items() if n > 1]
    calls = lambda x: (m := re.search(r'match ([\w.]+) \{(.*)\}', x.flat)) and len(re.findall(r'=>[^,]*?\b[a-z_]\w*\(', m.group(2))) > 1 and m.group(1)
    lists = {
        '1.a enum of two cases, one of them with a value': [at(x) for x in enums if len(x.parts) == 2 and any(valued(x))],
        '1.b enum of more cases, one named as a refusal or none, or some with a value and some without': [at(x) for x in enums if len(x.parts) > 2
            and (any(valued(x)) and not all(valued(x)) or any(re.match(EMPTY, p) for p in x.parts))],
        '1.c struct with a flag, or a number for a kind or answer, beside a value': [at(x) for x in structs if len(x.fields) > 1 and any(
            t == 'bool' or n in ('number', 'kind', 'answer', 'last') and re.fullmatch(INTS, t) for n, t in x.fields)],
        '1.d function whose comment says that a number stands for none, a kind or a refusal': [at(x, '-> %s: %s' % (x.returns, x.doc[:140])) for x in whole if re.search(SENTINEL, x.doc)],
        '1.e other function that returns a number, and a fixed one early or in a case': [at(x) for x in whole if not re.search(SENTINEL, x.doc) and re.search(fixed, x.flat)],
        '2.a function with the shape of another, names and numbers taken alike (%d groups)' % len(twins): [at(x, '[%s]' % ', '.join(y.name for y in g)) for g in twins for x in g],
        '2.b type with the parts of another, but for the types (%d groups)' % len(types): [at(x, '[%s]' % ', '.join(y.name for y in g)) for g in types for x in g],
        '3.a `while` with a name in its test that a constant is added to, or taken from': [t for k, t in turns if k == 'index'],
        '3.b other `while`': [t for k, t in turns if k == 'other'],
        '3.c `for`': [t for k, t in turns if k == 'for'],
        '4.a smaller or greater of two by hand': [at(x) for x in fns if re.fullmatch(r'\{ if (\w+) <=? (\w+) \{ (?:return )?(?:\1|\2)(?: as \w+)?;? \}(?: else \{)? ?(?:\1|\2)(?: \})? \}', x.flat)
            or re.search(r'if (\w+) <=? (\d+|\w+ - \w+) \{ (?:return )?\1(?: as \w+)?;? \}(?: else \{)? ?\2\b', x.flat)],
        '4.b count held at its most by hand': [at(x) for x in fns if len(x.flat) < 160 and re.search(r'\b([A-Z]+_[A-Z]+|\w+::MAX)\b.*\{.*\+.*\b\1\b', x.flat)],
        '4.c conversion by hand: a fixed answer for each case, or for each number': [at(x, '-> ' + x.returns) for x in fns if cases(x)
            or re.search(r'^[A-Z](?!elf)\w*$', x.returns) and len(re.findall(r'if [\w:()., ""]+(?: == \S+)? \{ return [A-Z]\w*::', x.flat)) > 1],
        '4.d `return true;` or `return false;` in tests, where `||`, `&&` say it': [at(x) for x in fns if x.returns == 'bool' and re.search(r'\{ return (true|false); \}', x.flat)],
        '4.e struct written out that copies two or more parts of another': list(copies(fns)),
        '4.f function that prints': [at(x, '') for x in fns if re.search(r'\bio::(write_all|print_decimal)\(|\bprint::\w+\(', x.body)],
        '5.a named fact in the contracts of three or more functions': list(facts(fns, lambda c: re.findall(r'(?<![\w.])([A-Z]\w+)(?= [\w(«])', c))),
        '5.b other requirement that three or more functions state in the same words': list(facts(fns, lambda c: [
            p for p in re.split(r' × ', c) if re.search(r'[≤<≡]', p) and not re.search(r'result|\.new|^[A-Z]', p)])),
        '5.c three or more parameters that travel together in three or more functions of a crate': list(together(fns)),
        '6.a struct with an array and a whole number, or two arrays of one length': [at(x) for x in structs if arrays(x) and (
            any(re.fullmatch(INTS, t) for _, t in x.fields) or max(collections.Counter(arrays(x)).values()) > 1)],
        '6.b function with an array or slice, and a place or count beside it': [at(x, '(%s)' % ', '.join(': '.join(p) for p in x.params)) for x in fns
            if any(re.match(r'&?(?:mut )?\[', t) for _, t in x.params) and any(t == 'usize' for _, t in x.params)],
        '6.c loop that is left early, as a search is': [at(x, '') for x in fns if re.search(r'while [^{]*\{[^}]*if [^{]*\{\s*return', x.body)],
        '7.a match whose cases make two or more calls': [at(x, calls(x)) for x in fns if calls(x)],
        '7.b tests of one name, each with another call': [at(x, ', '.join(steps(x))) for x in fns if steps(x)],
        '7.c table of functions, or a parameter that is one': [at(x, '') for x in items if re.search(r'\[fn\(|\bFn(?:Once|Mut)?\(', x.flat + str(x.params))],
        **{title: [t for k, t in proved if k == kind] for title, kind in (('8.a Answers.antt', 'file'), ('8.b answers in them', 'answer'), (
            '8.c `let x = c in`', 'alias'), ('8.d `let x = c.part in`', 'part'), ('8.e lemmas in proofs/*.antt', 'lemma'))},
    }
    for title, found in lists.items():
        if not want or any(re.match(re.escape(w) + '[. ]', title) for w in want):
            by = collections.Counter(f.split('/')[1] for f, _, _ in found)
            print('== %s: %d\n   %s' % (title, len(found), ', '.join('%s %d' % kv for kv in sorted(by.items()))))
            for t in () if '-q' in args else sorted(found):
                print('%s:%d:%s' % t)

signal.signal(signal.SIGPIPE, signal.SIG_DFL)
main()
