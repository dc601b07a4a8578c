#!/usr/bin/env python3
"""Counts the places of each point of docs/DESIGN-PASS.md in crates/*/src.

    tools/design_counts.py            the counts
    tools/design_counts.py -v         each place too
    tools/design_counts.py -C FOLDER  of another checkout
"""
import glob
import os
import re
import sys
from collections import defaultdict

args = sys.argv[1:]
show = '-v' in args
root = args[args.index('-C') + 1] if '-C' in args else os.path.dirname(os.path.dirname(os.path.abspath(__file__)))
files = sorted(glob.glob(os.path.join(root, 'crates/*/src/*.rt')))
library = [f for f in files if '/run_samples/' not in f and '/bench_samples/' not in f]


def name(path):
    return path.split('/crates/')[1].split('/')[0]


def functions(path):
    """(line, name, head, body) of each function; the head holds its parameters and clauses."""
    text = open(path).read()
    for m in re.finditer(r'^( *)(?:pub )?(?:extern "C" )?fn (\w+)', text, re.M):
        start = m.start()
        brace = re.compile(rf'^{m.group(1)}\{{$|\{{$', re.M).search(text, m.end())
        end = re.compile(rf'^{m.group(1)}\}}$', re.M).search(text, m.end())
        if not brace or not end:
            continue
        # the body begins at the first line that is a lone brace, or ends in one
        for b in re.finditer(r'^ *\{$|\{$', text[m.end():end.start()], re.M):
            line = text.rfind('\n', 0, m.end() + b.start()) + 1
            if not re.match(r' *(requires|ensures)', text[line:]):
                brace = m.end() + b.start()
                break
        else:
            continue
        if re.search(r';$', text[m.start():brace], re.M):
            continue  # a trait's function without a body
        yield text.count('\n', 0, start) + 1, m.group(2), text[m.start():brace], text[brace:end.end()]


def tell(point, what, places):
    print(f'{point}  {what}: {len(places)}')
    if show:
        for p in places:
            print('      ', p)


def grep(pattern, which=None):
    out = []
    for f in which or files:
        for i, line in enumerate(open(f), 1):
            code = line.split('//')[0]
            if re.search(pattern, code):
                out.append(f'{name(f)}:{i}: {line.strip()[:110]}')
    return out


# 1: own enums of the shape of Result or Option; a flag beside a value; numbers for refusals
enums = []
for f in files:
    for m in re.finditer(r'enum (\w+)[^{]*\{(.*?)^\}', open(f).read(), re.M | re.S):
        rows = [r.strip() for r in m.group(2).split('\n') if r.strip() and not r.strip().startswith('//')]
        if any(re.match(r'(Refused|Refuses|BadAxis)\b', r) for r in rows) or len(rows) == 2 and sum('(' in r for r in rows) == 1:
            enums.append(f'{name(f)}: {m.group(1)}')
tell('1a', 'own enums of the shape of Result or Option', enums)
tell('1b', 'a refusal made by a literal number', grep(r'\bnumber: \d+|\brefuse\(\d+'))
tell('1c', 'a bool field in a struct', [f'{name(f)}: {m.group(1)}.{b}' for f in files for m in re.finditer(r'struct (\w+)[^{;]*\{(.*?)^\}', open(f).read(), re.M | re.S)
     for b in re.findall(r'^ +(?:pub )?(\w+): bool,', m.group(2), re.M)])

# 2: functions of one shape: the same body once names, types and numbers are struck out
shapes = defaultdict(list)
for f in library:
    if '/parsniprow_export/' in f:
        continue
    for line, fn, head, body in functions(f):
        tokens = re.findall(r"[A-Za-z_]\w*|\d\w*|[^\s\w]", re.sub(r'//.*', '', body))
        if len(tokens) < 12:
            continue
        names = {}
        shape = ' '.join(('#' if t[0].isdigit() else names.setdefault(t, f'v{len(names)}')) if re.match(r'\w', t) and t not in (
            'let', 'mut', 'while', 'for', 'in', 'if', 'else', 'return', 'match', 'as') else t for t in tokens)
        shapes[shape].append(f'{name(f)}:{line}: {fn}')
twins = [' = '.join(v) for v in shapes.values() if len(v) > 1]
tell('2', 'groups of functions of one shape', twins)

# 3: loops that count an index
loops, other = [], []
for f in files:
    text = open(f).read()
    for m in re.finditer(r"^( *)(?:'\w+: )?while (.*) \{$", text, re.M):
        end = re.compile(rf'^{m.group(1)}\}}$', re.M).search(text, m.end())
        body = text[m.end():end.start()]
        tests = re.findall(r'[a-z_]\w*', m.group(2))
        line = text.count('\n', 0, m.start()) + 1
        step = any(re.search(rf'^ *{v} [+-]= 1;', body, re.M) for v in tests)
        (loops if step else other).append(f'{name(f)}:{line}: while {m.group(2)}')
tell('3a', 'while loops that count an index by one', loops)
tell('3b', 'other while loops', other)

# 4: comparing, choosing and converting by hand
hand = []
for f in library:
    for line, fn, head, body in functions(f):
        b = re.sub(r'\s+', ' ', re.sub(r'//.*', '', body))
        if re.fullmatch(r'\{ if [^{}]* \{ (return )?\w+;? \} (else \{ )?\w+ ?\}( \})?', b):
            hand.append(f'{name(f)}:{line}: {fn} {b}')
tell('4', 'functions that choose one of two values by one test (max, min, bool as a number ..)', hand)

# 5: clauses that stand in three functions or more; parameters that go together in three functions or more
clauses, groups = defaultdict(set), defaultdict(set)
for f in library:
    if name(f) in ('parsniprow_export', 'parsniprow_c'):
        continue
    for line, fn, head, body in functions(f):
        for c in re.findall(r'requires(?: \w+)? \{ (.*) \}', head):
            for part in c.split(' × '):
                part = part.strip('() ')
                clauses[part].add(f'{name(f)}::{fn}')
        ps = re.search(r'\(((?:[^()]|\([^()]*\))*)\)', head)
        params = [p.split(':')[0].strip() for p in ps.group(1).split(',') if ':' in p] if ps else []
        for g in (('nx', 'ny', 'nz'), ('size', 'samples', 'cut'), ('words', 'offsets', 'quads'), ('words', 'offsets'), ('a', 'b'), ('lo', 'hi'), ('under', 'tab'),
                  ('below', 'here'), ('row', 'a', 'b'), ('samples', 'readings'), ('up', 'size'), ('wide', 'layer')):
            if set(g) <= set(params):
                groups[g].add(f'{name(f)}::{fn}')
tell('5a', 'a clause that three functions or more ask', [f'{len(v)} × {k}' for k, v in sorted(clauses.items(), key=lambda x: -len(x[1])) if len(v) > 2])
tell('5b', 'parameters that go together in three functions or more', [f'{len(v)} × {k}' for k, v in groups.items() if len(v) > 2])

# 6: a fixed array with a count beside it
tell('6', 'a count beside an array or a buffer in a struct', [f'{name(f)}: {m.group(1)}' for f in files for m in re.finditer(
    r'struct (\w+)[^{]*\{([^}]*)\}', open(f).read()) if re.search(r': \[', m.group(2))])

# 7: a match on which step to run
tell('7', 'a switch on which step to run', [f'{name(f)}:{line}: {fn}' for f in library for line, fn, head, body in functions(f)
     if re.search(r'match (source|along)\b', body)])

# 8: files of answers and of invariants
for what in ('Answers', 'Invariants'):
    got = glob.glob(os.path.join(root, f'crates/*/proofs/**/{what}.antt'), recursive=True)
    tell('8', f'files {what}.antt, with {sum(len(re.findall(r"^(?:abbrev )?pub .* : goal", open(g).read(), re.M)) for g in got)} answers', got)
