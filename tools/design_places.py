#!/usr/bin/env python3
"""Lists, for each point of docs/DESIGN-PASS.md, the lines of crates/*/src that may be places of it.
usage: tools/design_places.py [ROOT [POINT]]    ROOT: a checkout, by default this one
A line is a candidate, not yet a place: the page says which are."""
import collections, glob, os, re, sys

root = sys.argv[1] if len(sys.argv) > 1 else os.path.join(os.path.dirname(__file__), '..')
only = sys.argv[2] if len(sys.argv) > 2 else None
files = {}
for path in sorted(glob.glob(os.path.join(root, 'crates', '*', 'src', '**', '*.rt'), recursive=True)):
    name = os.path.relpath(path, os.path.join(root, 'crates')).replace('/src/', '/')
    files[name] = open(path, encoding='utf-8').read()


def clause(line):
    return re.match(r'\s*(requires|ensures|ghost)\b', line)


def lines(pattern, skip_clauses=True):
    found = []
    for name, text in files.items():
        for number, line in enumerate(text.split('\n'), 1):
            if line.lstrip().startswith('//') or skip_clauses and clause(line):
                continue
            if re.search(pattern, line):
                found.append((name, number, line.strip()))
    return found


def spans(pattern):
    found = []
    for name, text in files.items():
        for m in re.finditer(pattern, text):
            found.append((name, text.count('\n', 0, m.start()) + 1, ' '.join(m.group(0).split())))
    return found


def functions():
    """Each function: file, line, name, parameters, clauses."""
    for name, text in files.items():
        for m in re.finditer(r'\bfn (\w+)(<[^(]*>)?\(([^)]*)\)([^{;]*)', text):
            head = text[m.end(): ]
            facts = []
            for line in text[m.start():].split('\n')[1:]:
                if clause(line):
                    facts.append(re.sub(r'^\s*(requires|ensures)\*? ?(\w+ )?', r'\1 ', line).strip())
                elif line.strip() in ('{', '') or line.startswith('}'):
                    break
            params = [re.sub(r'\s+', ' ', p).strip() for p in m.group(3).split(',')]
            yield name, text.count('\n', 0, m.start()) + 1, m.group(1), [p for p in params if p and 'self' not in p], facts


def repeated_facts():
    where = collections.defaultdict(list)
    for name, number, fn, _, facts in functions():
        for fact in set(facts):
            where[name.split('/')[0], fact].append(fn)
    return [(crate, len(fns), fact + '   in ' + ', '.join(fns)) for (crate, fact), fns in sorted(where.items()) if len(fns) >= 3]


def travelling():
    where = collections.defaultdict(list)
    for name, number, fn, params, _ in functions():
        names = sorted(p for p in params)
        for i in range(len(names)):
            for j in range(i + 1, len(names)):
                where[name.split('/')[0], names[i] + ', ' + names[j]].append(fn)
    return [(crate, len(fns), pair + '   in ' + ', '.join(fns)) for (crate, pair), fns in sorted(where.items()) if len(fns) >= 3]


def proofs():
    found = []
    for crate in sorted(glob.glob(os.path.join(root, 'crates', '*', 'proofs'))):
        paths = glob.glob(os.path.join(crate, '**', '*.antt'), recursive=True)
        size = sum(len(open(p, encoding='utf-8').read().split('\n')) - 1 for p in paths)
        found.append((crate.split('/')[-2], len(paths), '%d lines' % size))
    return found


points = [
    ('1 enums', lines(r'\benum \w+')),
    ('1 bool results', lines(r'-> (anyhow::Result<)?bool\b')),
    ('1 codes and numbers that refuse', lines(r'const \w+: u8 =|4_?294_?967_?295\)|u32::MAX')),
    ('1 matches that ?, map_err, then_some or and_then say', spans(r'None => None|Err\((\w+)\) => (return )?Err\(|else \{\s*return (None|Err\([^;]*\));\s*\}|\{\s*Some\([^;]*\)\s*\} else \{\s*None\s*\}')),
    ('1 a value beside an Option', lines(r'pub \w+: Option<')),
    ('2 functions named for a width or a kind', lines(r'fn \w*(_u8|_u16|_u32|_u64|_inside|_end|_at|_stands)\b')),
    ('3 loops', lines(r"^\s*('\w+: )?(for|while|loop)\b")),
    ('4 impls of the traits of std', lines(r'^\s*impl\b.* for ')),
    ('4 matches that answer a bool', spans(r'=> (true|false),')),
    ('5 facts in the contracts of three or more functions', repeated_facts()),
    ('5 parameters that travel together in three or more functions', travelling()),
    ('6 arrays, and places or lengths beside them', lines(r'^\s*(pub )?\w+: \[|\bat: usize|\bcount: usize|\bsize: usize|_names: Vec')),
    ('7 tables of functions', lines(r'\bdyn\b|\bfn\(')),
    ('8 proof files', proofs()),
]
for title, found in points:
    if only and not title.startswith(only):
        continue
    print('%s: %d' % (title, len(found)))
    for name, number, text in found:
        print('    %s:%s: %s' % (name, number, text[:160]))
