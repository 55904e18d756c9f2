#!/usr/bin/env python3
"""Counts, in crates/*/src, the places that docs/DESIGN-PASS.md speaks of.

usage: tools/design_counts.py [--list] [TREE]
"""
import collections, glob, re, sys

args = [a for a in sys.argv[1:] if a != '--list']
LIST = '--list' in sys.argv
ROOT = args[0] if args else '.'
FILES = {f[len(ROOT) + 1:]: open(f, encoding='utf-8').read() for f in sorted(glob.glob(ROOT + '/crates/*/src/*.rt'))}

def code(text):
    return '\n'.join(l for l in text.split('\n') if not l.lstrip().startswith('//'))

def lines(pattern):
    out = []
    for f, s in FILES.items():
        for i, l in enumerate(s.split('\n'), 1):
            if not l.lstrip().startswith('//') and re.search(pattern, l):
                out.append(f'{f}:{i}: {l.strip()}')
    return out

# functions: file, name, parameters, clauses
FUNCTIONS = []
for f, s in FILES.items():
    for m in re.finditer(r'^( *)(?:pub(?:\(crate\))? )?fn (\w+)(?:<[^>\n]*>)?\(([^{]*?)\)(?: -> [^\n{]*)?((?:\n(?!\1\{)[^\n]*)*)\n\1\{', code(s), re.M):
        params = [p for p in re.split(r',(?![^\[]*\])', m.group(3)) if p.strip()]
        FUNCTIONS.append((f, m.group(2), params, m.group(4)))

STRUCTS = []
for f, s in FILES.items():
    for m in re.finditer(r'^(?:pub(?:\(crate\))? )?struct (\w+)[^{;\n]*\{\n(.*?)^\}', code(s), re.M | re.S):
        STRUCTS.append((f, m.group(1), m.group(2)))

def facts():
    where = collections.defaultdict(set)
    for f, n, p, c in FUNCTIONS:
        for clause in re.findall(r'requires(?: \w+)? \{ ?(.*?) ?\}$', c, re.M | re.S):
            for part in re.split(r' × ', re.sub(r'\s+', ' ', clause)):
                where[part.strip(' ()')].add(f'{f}: {n}')
    return [f'{k}: {len(v)} functions' for k, v in sorted(where.items()) if len(v) >= 3]

def arrays():
    out = []
    for f, n, body in STRUCTS:
        fields = re.findall(r'(\w+): (\[[^\n]*\])', body)
        sizes = [re.sub(r'^\[.*; ', '', t) for _, t in fields]
        counted = re.search(r'\b\w*count: u|\blen: u', body)
        if fields and (counted or len(sizes) != len(set(sizes))):
            out.append(f'{f}: {n}')
    return out

def number_matches():
    out = []
    for f, s in FILES.items():
        for m in re.finditer(r'match ([^\n]*) \{\n(.*?)^\s*\}\n', code(s), re.M | re.S):
            arms = re.findall(r'^\s*(?:\d+|b\'.\')(?:\.\.=(?:\d+|b\'.\'))? => ', m.group(2), re.M)
            if len(arms) >= 3:
                out.append(f'{f}: match {m.group(1)}, {len(arms)} arms')
    return out

# runs of eight lines or more that are alike but for names and numbers, as pairs of places
WORDS = set('pub fn let mut if else while loop for in return match struct enum impl const ensures requires'.split())

def shape(line):
    return ' '.join(t if t in WORDS or not re.match(r'\w', t) else 'x' for t in re.findall(r'\w+|[^\w\s]', line))

def twins():
    rows = []
    for f, s in FILES.items():
        kept = [(f, i, l) for i, l in enumerate(s.split('\n'), 1) if re.search(r'\w', l) and not re.match(r'\s*(//|use |ghost use|pub mod|mod )', l)]
        rows += [(f, i, shape(l)) for f, i, l in kept] + [(f, 0, f'end of {f}')]
    windows = collections.defaultdict(list)
    for at in range(len(rows) - 7):
        windows[tuple(r[2] for r in rows[at:at + 8])].append(at)
    pairs = {(a, b) for same in windows.values() for a in same for b in same if a + 8 <= b}
    starts = sorted(p for p in pairs if (p[0] - 1, p[1] - 1) not in pairs)
    return [f'{rows[a][0]}:{rows[a][1]} ~ {rows[b][0]}:{rows[b][1]}' for a, b in starts]

def answers():
    total = single = 0
    for f in glob.glob(ROOT + '/crates/*/proofs/**/Answers.antt', recursive=True):
        t = open(f, encoding='utf-8').read()
        total += len(re.findall(r'^pub \S+ : goal\.', t, re.M))
        single += len(re.findall(r'^\S+(?: \w+)* = search rules$', t, re.M))
    return total, single

POINTS = [
    ('1 own enums of the shape of Option or Result', lines(r'^    (Refused \{ number: u8, place: u16 \}|NotFound|Absent),$')),
    ('1 a flag or a verdict with a value beside it', lines(r'^    (pub(\(crate\))? )?(found|has_supply|verdict|stopped|reached): (bool|Verdict|\[bool)')),
    ('1 numbers for refusals', lines(r'number: [0-9]+|refusal\([0-9]+,|not_solved\([0-9]+,')),
    ('1 numbers for none', lines(r'const (NO_[A-Z]+|NOWHERE)\b.*=')),
    ('2 pairs of runs of eight lines or more, alike but for names and numbers', twins()),
    ('3 loops that count by hand', lines(r'^\s*while ')),
    ('4 conversions, copies and printing by hand', lines(r'fn (algorithm|method_byte|action_byte|reason_byte|truth_byte|state_byte|radial_byte|is_tree|differ|as_exhaustive|without_own_loops|print_refusal|print_verdict|print_form|print_number)\b')),
    ('5 functions of six parameters or more', [f'{f}: {n}, {len(p)}' for f, n, p, c in FUNCTIONS if len(p) >= 6]),
    ('5 facts that stand in three contracts or more', facts()),
    ('6 arrays with a count beside, or side by side', arrays()),
    ('7 a number decides which step runs', number_matches()),
]
for name, places in POINTS:
    print(f'{len(places):4} {name}')
    if LIST:
        for p in places:
            print('       ' + p)
total, single = answers()
print(f'{total:4} 8 answers, {single} of them only `search rules`')
