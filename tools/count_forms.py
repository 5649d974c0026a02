#!/usr/bin/env python3
"""Counts the places in src/ that docs/DESIGN-PASS.md counts.

    tools/count_forms.py [FOLDER] [--list]

FOLDER is a checkout; the default is this one. Without --list it prints one line for each point, with --list each place too."""
import glob
import os
import re
import sys

ARGS = [a for a in sys.argv[1:] if not a.startswith('--')]
TOP = ARGS[0] if ARGS else os.path.join(os.path.dirname(os.path.abspath(__file__)), '..')
FILES = sorted(glob.glob(os.path.join(TOP, 'crates/*/src/*.rt')))


def lines():
    for path in FILES:
        name = path.split('/crates/')[1].replace('/src/', '/')
        with open(path, encoding='utf-8') as f:
            for number, line in enumerate(f, 1):
                yield f'{name}:{number}', line.rstrip('\n')


def enums():
    """Each enum with the names of its variants."""
    for path in FILES:
        name = path.split('/crates/')[1].replace('/src/', '/')
        text = open(path, encoding='utf-8').read()
        for m in re.finditer(r'^(?:pub(?:\(crate\))? )?enum (\w+) \{\n(.*?)^\}', text, re.M | re.S):
            variants = re.findall(r'^    (\w+)([({].*)?,', m.group(2), re.M)
            yield f'{name}: {m.group(1)}', variants


def matching(pattern):
    return [f'{at}: {line.strip()}' for at, line in lines() if re.search(pattern, line) and not line.lstrip().startswith('//')]


# Variants that say that there is nothing, or that something failed.
NONE = {'None', 'Nowhere', 'Nothing', 'Fine', 'Closed', 'Other', 'Blank'}
FAILED = {'Refused', 'Wrong', 'Failed', 'NoRoom', 'Full', 'Over', 'Malformed', 'TooLong', 'TooFar', 'Denied', 'Left'}


def shaped():
    return [f'{at} {{{", ".join(v for v, _ in variants)}}}' for at, variants in enums()
            if any(v in NONE or v in FAILED for v, _ in variants)
            or len(variants) == 2 and any(not p for _, p in variants) and any(p for _, p in variants)]


POINTS = [
    ('1  enums with a variant that says none or failed', shaped),
    ('1  refusals as numbers: functions', lambda: matching(r'fn \w*refus\w*\(.*\) -> u32')),
    ('1  refusals as numbers: tests for 0 and fields', lambda: matching(
        r'(refusal|late|further|rates|parents|refusal\([^)]*\)) [!=]= 0|\w*refusal: u32|Refused\(u32\)')),
    ('1  a flag beside a value', lambda: matching(r'\bgood: bool')),
    ('3  loops that count by hand', lambda: matching(r'^\s*while |\bloop \{')),
    ('4  conversions and tests by hand', lambda: matching(r'fn (told|code|number|moment|numbered|settings_of|forgets|is_some|other|small|is_digit)\(')),
    ('4  arithmetic that std has', lambda: matching(r'arith::(smaller|larger|fewer|saturating_sub|saturating_add|div_ceil)\(|std::num::wrapping_')),
    ('5  a part and its two ends taken out by hand', lambda: matching(r'let start = part\.start;')),
    ('5  functions that take (ws, cap, ..) or (ws, index, ..)', lambda: matching(r'fn \w+\(ws: &(mut )?\[u64\], (cap: usize|index: Index)')),
    ('6  buffers of a fixed size', lambda: matching(r': \[\w+; [\w: +*]+\]|= \[0(u8)?; ')),
    ('7  a value that says which step to run', lambda: matching(r'(check|layout|from|why): (Check|Layout|Why)\b')),
]

for title, find in POINTS:
    found = find()
    print(f'{len(found):4}  {title}')
    if '--list' in sys.argv:
        for place in found:
            print(f'        {place}')
