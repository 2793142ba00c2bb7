#!/usr/bin/env python3
"""Counts the places of docs/DESIGN-PASS.md in crates/*/src (and proof files in crates/*/proofs) of a tree.

Usage: tools/count_forms.py [FOLDER] [--list]. With --list each place is printed, as point, file, line and text.
"""
import glob
import os
import re
import sys

ROOT = next((a for a in sys.argv[1:] if not a.startswith('-')), '.')
LIST = '--list' in sys.argv
PLACES = {}


def place(point, path, line, text):
    PLACES.setdefault(point, []).append((os.path.relpath(path, ROOT), line, text.strip()))


def blocks(lines, head):
    """The blocks that begin with a line that matches head, as (line number, head, body lines)."""
    for i, line in enumerate(lines):
        m = re.match(head, line)
        if m and line.rstrip().endswith('{'):
            indent = len(line) - len(line.lstrip())
            j = i + 1
            while j < len(lines) and not lines[j].startswith(' ' * indent + '}'):
                j += 1
            yield i + 1, line, lines[i + 1:j]


def variants(body):
    """The variants of an enum, each with whether it holds data."""
    found = []
    for line in body:
        m = re.match(r'^    ([A-Z][A-Za-z0-9]*)(.*)$', line)
        if m:
            found.append((m.group(1), bool(m.group(2).strip(' ,'))))
    return found


FAILURES = {'Fails', 'Refused', 'Refusal', 'Nothing', 'NothingLeft', 'NoModel', 'Dead', 'Met', 'Short'}

for path in sorted(glob.glob(os.path.join(ROOT, 'crates/*/src/**/*.rt'), recursive=True)):
    lines = open(path).read().split('\n')
    # 1: enums of the shape of Option or Result
    for n, head, body in blocks(lines, r'^(pub )?enum '):
        vs = variants(body)
        if any(v in FAILURES for v, _ in vs) or (len(vs) == 2 and not all(d for _, d in vs) and any(d for _, d in vs)):
            place('1 own enum of the shape of Option or Result', path, n, head)
    # 1: structs with a flag or an outcome beside a value; a number in which 0 says that nothing is wrong
    for n, head, body in blocks(lines, r'^(pub )?struct '):
        for k, line in enumerate(body):
            if re.match(r'^    (pub )?(found|whole|ended|verdict|after|ok|known|is_\w+|has_\w+): (bool|Verdict|PlaceAfter)', line):
                place('1 flag with a value beside it', path, n + k + 1, line)
            if re.match(r'^    (pub )?number: u8', line):
                place('1 number for a refusal', path, n + k + 1, line)
    for n, line in enumerate(lines, 1):
        if re.search(r'\bnumber: \d+|Fails\(\d+\)|Refused \{ number, place \}|refuse\(\d+', line) or re.match(r'^\s+number: u8,$', line):
            if not re.match(r'^    (pub )?number: u8', line):
                place('1 number for a refusal', path, n, line)
    # 2: structs of the same fields' types, two masks
    for n, head, body in blocks(lines, r'^(pub )?struct '):
        types = [re.sub(r'^\s*(pub )?\w+: ', '', l).strip(', ') for l in body if re.match(r'^\s*(pub )?\w+: ', l)]
        if types == ['u64', 'u64']:
            place('2 struct of two masks', path, n, head)
    # 3: loops
    for n, head, body in blocks(lines, r'^\s*while '):
        indent = len(head) - len(head.lstrip())
        cond = head.strip()[6:-1]
        names = set(re.findall(r'\b[a-z_][a-z_0-9]*\b', cond))
        if any(re.match(r'^\s*%s (\+|-)= 1;' % re.escape(v), b) for v in names for b in body):
            place('3 loop that counts an index by hand', path, n, head)
        elif any(re.match(r'^\s*%s = sets::remove' % re.escape(v), b) for v in names for b in body):
            place('3 loop over the elements of a mask by hand', path, n, head)
        else:
            place('3 other while', path, n, head)
    # 4: tests and conversions written by hand
    for n, line in enumerate(lines, 1):
        if re.match(r'^\s*(pub )?fn (same|same_\w+|equal\w*|earlier|is_same)\(', line):
            place('4 equality or order by hand', path, n, line)
        if re.match(r'^\s*return (false|true);', line) or re.search(r'else \{ (false|true) \}', line):
            place('4 test by returns of false or true', path, n, line)
        if re.match(r'^#\[derive\(Clone, Copy\)\]', line):
            place('4 type with no derive but Clone and Copy', path, n, line)
    # 5, 6
    for n, line in enumerate(lines, 1):
        if re.search(r'length (yes|no)\.now ≡ length (yes|no)\.now', line):
            place('5 clause that two parallel slices are as long as one another', path, n, line)
        if re.search(r'\b(yes|rules_yes): &(mut )?\[u64', line):
            place('5 rules as parallel slices in a signature', path, n, line)
    for n, head, body in blocks(lines, r'^(pub )?struct '):
        arrays = [l for l in body if re.match(r'^\s*(pub )?\w+: \[', l)]
        if arrays and any(re.match(r'^\s*(pub )?(len|used|rules|kept|count|size|choices): usize', l) for l in body):
            place('6 arrays with a length beside them in a struct', path, n, head)
        if len(arrays) > 1:
            place('6 parallel arrays in a struct', path, n, head)

for path in sorted(glob.glob(os.path.join(ROOT, 'crates/*/proofs/**/*.antt'), recursive=True)):
    name = os.path.basename(path)
    kind = {'Answers.antt': '8 file of answers', 'Invariants.antt': '8 file of invariants', 'Proof.antt': '8 old proof file'}.get(name)
    if kind:
        place(kind, path, 0, '')

for point in sorted(PLACES):
    print(f'{len(PLACES[point]):5}  {point}')
    if LIST:
        for path, line, text in PLACES[point]:
            print(f'         {path}:{line}: {text}')
