#!/usr/bin/env python3
"""Lists the places in crates/*/src where one of seven kinds of older form may stand.

python3 tools/places.py        how many there are of each kind
python3 tools/places.py 3      the places of kind 3
Run at the top of the repository. Tests and their tables (crates/trials) are counted as the rest.
"""
import glob
import re
import sys

FILES = sorted(glob.glob('crates/*/src/*.rt'))

LINES = {
    '1 nested options, flags beside values, numbers for kinds and refusals': [
        r'Option<(Fitting|Option)<',
        r'&mut .*-> bool',
        r'\b\d+ << 2[678]\b',
        r'^\s+\d+( if .*)? => (Some\(|\{)',
        r'\bkind\(word\) ==',
        r'fn (number|place|kind|number_and_line)\(.*-> \(?(u\d+|usize)',
        r'^\s+(Nothing|Absent|Missing),$',
    ],
    '3 loops that count by hand': [
        r'^\s+while ',
        r'\bfor [a-z_]+ in [^{]*\.\.',
        r'\+= 1;',
        r'= [a-z]+\.saturating_add\(1\)',
    ],
    '4 equality, order, conversion, printing by hand': [
        r'\.get\(\) (==|!=|<|<=) \w+\.get\(\)',
        r'\.tenths (<|<=) ',
        r'\.get\(\) as (usize|u8)',
        r'\(\) as u32\b',
        r'fn (equal|larger|is_behind|digit|push_hex|numbered_line|refusal_line|heading)\b',
        r'_ if spells\(',
        r'derive\(Clone, Copy\)\]$',
    ],
    '6 buffers with a length beside': [
        r'\[u32; 8\]',
        r'^\s+(pub\(crate\) )?count: usize,',
        r'&words\[(0)?\.\.count\]',
    ],
    '7 switches on which step to run': [
        r'match (self|rule|keyword|section|served)\b',
        r'^\s*(\} else )?if label == ',
    ],
}

# Parameters that travel together, by the functions that take both.
PAIRS = [('line', 'at'), ('text', 'at'), ('words', 'place'), ('words', 'at')]


def functions(path):
    """Each function of a file: where it stands, its head and its body, without clauses."""
    text = open(path).read()
    for found in re.finditer(r'^(\s*)(pub(\(crate\))? )?fn (\w+)(.*?)^\1\{\n(.*?)^\1\}|^(\s*)fn (\w+)([^\n;]*) \{\n(.*?)^\7\}', text, re.M | re.S):
        where = f'{path}:{text[:found.start()].count(chr(10)) + 1}'
        if found.group(4):
            head, body, name = found.group(5), found.group(6), found.group(4)
        else:
            head, body, name = found.group(9), found.group(10), found.group(8)
        head = re.split(r'\n\s*(requires|ensures)', head)[0]
        yield where, name, head, body


def shape(head, body):
    """The text with each name, number and type replaced by a mark."""
    words = re.findall(r'\w+|[^\w\s]', head + ' { ' + body)
    keep = {'fn', 'let', 'match', 'if', 'else', 'for', 'in', 'while', 'return', 'Some', 'None', 'Ok', 'Err', 'mut', 'as', 'impl', 'const'}
    return tuple(w if w in keep or not re.match(r'\w', w) else '_' for w in words)


def twins():
    groups = {}
    for path in FILES:
        for where, name, head, body in functions(path):
            form = shape(head, re.sub(r'//.*', '', body))
            if len(form) > 24:
                groups.setdefault(form, []).append(f'{where}: {name}')
    return [group for group in groups.values() if len(group) > 1]


def together():
    out = []
    for path in FILES:
        for where, name, head, _ in functions(path):
            for pair in PAIRS:
                if all(re.search(rf'\b{p}: ', head) for p in pair):
                    out.append(f'{where}: {name} ({", ".join(pair)})')
    return out


def main():
    found = {}
    for kind, patterns in LINES.items():
        found[kind] = []
        for path in FILES:
            for number, line in enumerate(open(path).read().split('\n'), 1):
                if any(re.search(p, line.split(' // ')[0]) for p in patterns) and not line.strip().startswith('//'):
                    found[kind].append(f'{path}:{number}: {line.strip()}')
    found['2 functions of one shape'] = [' = '.join(group) for group in twins()]
    found['5 parameters that travel together'] = together()
    for kind in sorted(found):
        if len(sys.argv) > 1 and sys.argv[1] != kind[0]:
            continue
        print(f'{kind}: {len(found[kind])}')
        if len(sys.argv) > 1:
            print('\n'.join('  ' + place for place in found[kind]))


main()
