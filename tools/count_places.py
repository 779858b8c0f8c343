#!/usr/bin/env python3
"""Counts, in src/ of every crate, the places that docs/DESIGN-PASS.md speaks of; with -v it lists them.

    python3 tools/count_places.py [-v]
"""
import collections
import glob
import re
import sys

FILES = sorted(glob.glob('crates/*/src/**/*.rt', recursive=True))
LINES = [
    (f, i, l.rstrip('\n'))
    for f in FILES
    for i, l in enumerate(open(f, encoding='utf-8'), 1)
    if not re.match(r'\s*(//|ghost use|use |ensures|requires|ghost )', l)
]


def lines(pattern):
    return [(f, i, l.strip()) for f, i, l in LINES if re.search(pattern, l)]


def functions():
    for f in FILES:
        text = open(f, encoding='utf-8').read()
        for m in re.finditer(r'\bfn (\w+)(?:<[^>]*>)?\(([^)]*)\)', text):
            yield f, text.count('\n', 0, m.start()) + 1, m.group(1), m.group(2), text[m.end():]


def long_lists():
    for f, i, name, parameters, _ in functions():
        count = len([p for p in re.split(r',\s*(?![^<\[(]*[>\])])', parameters.strip()) if p.strip()])
        if count >= 5:
            yield f, i, f'{name}: {count} parameters'


def of_one_name():
    """Functions that share their name with another: what twins there are, a reader has to see."""
    seen = collections.defaultdict(list)
    for f, i, name, parameters, rest in functions():
        body = re.search(r'\n\s*\{\n(.*?)\n\s*\}\n', rest, re.S)
        if not body or '\nfn ' in rest[:body.start()] or rest.lstrip().startswith(';'):
            continue
        seen[name].append((f, i, name))
    return [p for same in seen.values() if len(same) > 1 for p in same]


def repeated_facts():
    """Facts that stand in three `requires` of one line or more."""
    count = collections.defaultdict(list)
    for f in FILES:
        for i, l in enumerate(open(f, encoding='utf-8'), 1):
            m = re.match(r'\s+requires (?:\w+ )?\{ (.*) \}', l)
            for part in m.group(1).split(' × ') if m else []:
                fact = re.sub(r'[()]', '', part).strip()
                fact = re.sub(r'\b(self|sizes|words|law|rule|source)\.(now|old)\b', r'\1', fact)
                count[fact].append((f, i, fact))
    return [p for places in count.values() if len(places) >= 3 for p in places]


ROWS = [
    ('1', 'own enums', lines(r'^(pub(\(crate\))? )?enum ')),
    ('1', 'a None handed on by hand', lines(r'return (Ok\()?None')),
    ('1', 'numbers for kinds', lines(r'\b(kind|rule|law): u(8|16)|fn (new|law_of)\(number: u8')),
    ('2', 'functions of one name', of_one_name()),
    ('3', 'loops over a range', lines(r'^\s*for .* in .*\.\.')),
    ('3', 'while and loop', lines(r'^\s*(while|loop)\b')),
    ('4', 'impls of printing, conversion and dropping', lines(r'^impl.*\b(Display|From<.*>|TryFrom<.*>|Drop|PartialEq|Ord|Clone) for')),
    ('4', 'bytes put together by hand', lines(r'% 256|/ 256|\* 256|256 \*')),
    ('4', 'casts with as', lines(r' as (u|i)(8|16|32|64|size)| as char')),
    ('5', 'facts in three contracts or more', repeated_facts()),
    ('5', 'lists of five parameters or more', list(long_lists())),
    ('6', 'arrays of a fixed length', lines(r'\[[a-z0-9& ]+; *[A-Z0-9]+\]')),
    ('7', 'choice of a step by a name or a number', lines(r'match self\.rule|if same\(')),
]

for point, what, places in ROWS:
    print(f'{point}  {what}: {len(places)}')
    if '-v' in sys.argv[1:]:
        for f, i, text in places:
            print(f'       {f}:{i}: {text}')
