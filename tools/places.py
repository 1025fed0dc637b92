#!/usr/bin/env python3
"""Lists the places of src/ that have an older form, by point, and counts them.

    python3 tools/places.py            the counts, one line a point and kind
    python3 tools/places.py -v         each place as well

A place is found by its text alone, so a list may name what is fine as it is and miss what has an unusual form; the
page docs/DESIGN-PASS.md says what was found by reading besides.
"""
import pathlib
import re
import sys
from collections import defaultdict

ROOT = pathlib.Path(__file__).resolve().parent.parent
FILES = sorted(ROOT.glob('crates/*/src/**/*.rt'))


def strip(text):
    """The text without comments; the lines stay where they are."""
    return re.sub(r'//[^\n]*', '', text)


def block_end(text, at):
    """Where the block ends whose bracket stands before `at`."""
    depth = 1
    while depth:
        depth += {'{': 1, '(': 1, '[': 1, '}': -1, ')': -1, ']': -1}.get(text[at], 0)
        at += 1
    return at


def functions(text):
    """(line, name, parameters, contract, body) of each function with a body."""
    for m in re.finditer(r'\bfn (\w+)[^({]*?\(', text):
        i = block_end(text, m.end())
        params = text[m.end():i - 1]
        line = text.count('\n', 0, m.start()) + 1
        # The body is the block that no clause word stands before.
        at, contract = i, ''
        while at < len(text):
            nxt = re.compile(r'[{;]').search(text, at)
            if not nxt or nxt.group() == ';':
                break
            head = text[at:nxt.start()]
            j = block_end(text, nxt.end())
            if re.search(r'\b(requires|ensures|ghost)\b[\w\s*]*$', head):
                contract += head + text[nxt.start():j]
                at = j
                continue
            yield line, m.group(1), params, contract, text[nxt.start():j]
            break


found = defaultdict(list)


def add(point, kind, path, line, what):
    found[(point, kind)].append(f'{path.relative_to(ROOT)}:{line}: {what}')


twins, facts, pairs = defaultdict(list), defaultdict(set), defaultdict(set)
for path in FILES:
    text = strip(path.read_text())
    crate = path.relative_to(ROOT).parts[1]
    for m in re.finditer(r'((?:#\[[^\]]*\]\s*)*)(?:pub(?:\(\w+\))? )?\b(enum|struct) (\w+)[^{;(]*([{(])', text):
        line = text.count('\n', 0, m.start(3)) + 1
        _, kind, name, _ = m.groups()
        body = text[m.end():block_end(text, m.end()) - 1]
        if kind == 'enum':
            cases = re.findall(r'^\s+([A-Z]\w*)(\([^\n]*\))?,', body, re.M)
            loads = [load for _, load in cases if load]
            if len(cases) == 2 and len(loads) >= 1:
                add(1, 'enums of two cases with a value', path, line, name)
        if re.search(r'\bbool\b', body):
            add(1, 'flags in a type', path, line, name)
        arrays = re.findall(r'(\w+): \[', body)
        counts = re.findall(r'(\w*(?:len|count|used))\b: (?:u8|u16|u32|usize)', body)
        if arrays and counts:
            add(6, 'arrays with a count beside them', path, line, name)
        if len(arrays) > 1 and counts:
            add(6, 'parallel arrays', path, line, name)
    for number, row in enumerate(text.split('\n'), 1):
        if re.search(r'\b(NO_CELL|usize::MAX|u32::MAX)\b', row) and 'use ' not in row and 'const ' not in row:
            add(1, 'numbers that stand for none', path, number, row.strip())
        if crate == 'cache_store' and re.search(r'\bNO_STREAM\b', row) and 'use ' not in row:
            add(1, 'numbers that stand for none', path, number, row.strip())
        if re.search(r'^\s*(while|loop)\b', row):
            add(3, 'while and loop', path, number, row.strip())
        if re.search(r'\bfor \w+ in [\w.]+\.\.', row):
            add(3, 'for over a range', path, number, row.strip())
        if re.search(r'\bfn (as_|from_)\w+|\bfn number\b', row):
            add(4, 'conversions by name', path, number, row.strip())
        if re.search(r'impl .*\bDisplay for', row):
            add(4, 'Display by hand', path, number, row.strip())
        if re.search(r'\bfn\(|\bdyn \b|% \d+ == ', row):
            add(7, 'switches and tables of steps', path, number, row.strip())
    for line, name, params, contract, body in functions(text):
        if re.search(r'\bfor \w|\bfor \(', body) and re.search(r'\breturn\b', body) and not re.search(r'for \w+ in [\w.]+\.\.', body):
            add(3, 'searches by a for that returns', path, line, name)
        if re.search(r'=> true,\s*_ => false|=> false,\s*\w+::\w+ => true', body):
            add(4, 'equality by match', path, line, name)
        if re.search(r'Some\((\w+)\) => Some\(|Ok\((\w+)\) => Ok\(\2\)|Err\(_\) => (return )?Err\(', body):
            add(1, 'matches that map an Option or a Result', path, line, name)
        names = iter(range(10000))
        seen = {}
        tokens = re.findall(r'\w+|[^\w\s]', body)
        shape = []
        for token in tokens:
            if re.match(r'[A-Za-z_]', token) and token not in ('self', 'let', 'mut', 'for', 'in', 'if', 'else', 'match', 'return', 'while'):
                seen.setdefault(token, next(names))
                shape.append(f'@{seen[token]}')
            elif token[0].isdigit():
                shape.append('#')
            else:
                shape.append(token)
        if len(tokens) > 12:
            twins[' '.join(shape)].append((path, line, name))
        twins[crate + ':' + re.sub(r'\d+', '#', name)].append((path, line, name)) if re.search(r'\d', name) else None
        for clause in re.findall(r'\b(?:requires|ensures)\b\s*(?:\w+\s*)?\{((?:[^{}]|\{[^{}]*\})*)\}', contract):
            fact = re.sub(r'\.(old|new|now)\b', '', re.sub(r'\s+', ' ', clause)).strip()
            fact = re.sub(r'\b(self|result|table|cells|it)\b', '_', fact)
            facts[(crate, fact)].add((path, line, name))
        ps = sorted(set(re.findall(r'(\w+): (&?(?:mut )?[\w:<>\[\]; ]+)', params)))
        for i in range(len(ps)):
            for j in range(i + 1, len(ps)):
                pairs[(crate, ps[i], ps[j])].add((path, line, name))

seen = set()
for group in twins.values():
    group = sorted(set(group))
    if len(group) > 1 and tuple(group) not in seen:
        seen.add(tuple(group))
        path, line, _ = group[0]
        add(2, 'groups of functions of one shape', path, line, ', '.join(f'{p.relative_to(ROOT).parts[1]}:{n}' for p, _, n in group))
for (crate, fact), group in facts.items():
    if len(group) >= 3:
        path, line, _ = sorted(group)[0]
        add(5, 'facts in three contracts or more', path, line, f'{len(group)} times: {fact}')
for (crate, a, b), group in pairs.items():
    if len(group) >= 3:
        path, line, _ = sorted(group)[0]
        add(5, 'pairs of parameters of three functions or more', path, line, f'{len(group)} times: {a[0]}: {a[1]}, {b[0]}: {b[1]}')
for crate in sorted({p.relative_to(ROOT).parts[1] for p in FILES}):
    proofs = list(ROOT.glob(f'crates/{crate}/proofs/**/*.antt'))
    lines = sum(len(p.read_text().split('\n')) for p in proofs)
    if proofs:
        found[(8, 'files of proofs')] += [str(p.relative_to(ROOT)) for p in proofs]
        found[(8, 'lines of proofs')] += [''] * lines
for (point, kind), places in sorted(found.items()):
    print(f'{point}  {kind}: {len(places)}')
    if '-v' in sys.argv and point != 8:
        for place in places:
            print('     ', place)
