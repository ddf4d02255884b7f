#!/usr/bin/env python3
"""Counts the places of src/ that docs/DESIGN-PASS.md speaks of: forms.py [FOLDER] [-v]; -v lists each place."""
import collections
import glob
import os
import re
import sys

words = [a for a in sys.argv[1:] if a != '-v']
os.chdir(words[0] if words else '.')
places = collections.defaultdict(list)
files = {f: open(f).read() for f in sorted(glob.glob('crates/*/src/**/*.rt', recursive=True))}


def lines(name, pattern, but=None):
    for f, s in files.items():
        for i, l in enumerate(s.split('\n'), 1):
            if re.search(pattern, l) and not (but and re.search(but, l)):
                places[name].append(f'{f}:{i}: {l.strip()}')


def functions():
    for f, s in files.items():
        for m in re.finditer(r'^( *)(?:pub )?(?:extern "C" )?fn (\w+)(.*?)^\1\}\n', s, re.M | re.S):
            yield f.split('/')[1] + '::' + m.group(2), m.group(0)


def parameters(text):
    return re.findall(r'\b([a-z_]\w*): ', re.split(r'\n\s*(?:requires|ensures|\{)|\{\n', text)[0])


# A body with its own names in the order in which they come, and without its types and numbers.
def shape(text):
    body = re.sub(r'//.*', '', text[text.find('\n{') + 1:] if '\n{' in text else text[text.find('{'):])
    body = re.sub(r'\b(u8|u16|u32|u64|i64|usize)\b', 'T', body)
    names = {}
    kept = 'if for in return let mut while loop match else true false T as'.split()
    body = re.sub(r'\b[a-zA-Z_]\w*\b', lambda m: m.group(0) if m.group(0) in kept else names.setdefault(m.group(0), f'v{len(names)}'), body)
    return re.sub(r'\s+', ' ', re.sub(r'\b\d[\d_]*\b', '0', body))


lines('1 enums, to be read: which have the shape of Option or Result', r'^(pub )?enum ')
lines('1 a verdict beside values', r'^    (pub )?(verdict: Verdict|read: Read),$')
lines('1 a flag beside a value', r'let mut found = false')
lines('1 a number for a refusal', r'\bnumber: u8')
alike = collections.defaultdict(list)
for name, text in functions():
    if len(shape(text)) > 14:
        alike[shape(text)].append(name)
places['2 functions of one shape'] = [', '.join(v) for v in alike.values() if len(v) > 1]
lines('3 loops that count by hand or run on', r"^\s*('\w+: )?while |^\s*loop \{")
for f, s in files.items():
    for m in re.finditer(r"^( *)(?:'\w+: )?for (\w+) in [^\n]*\.\.[^\n]* \{\n", s, re.M):
        head = f + ': ' + m.group(0).strip()
        places['3 loops over a range'].append(head)
        x, body = m.group(2), s[m.end():s.index('\n' + m.group(1) + '}', m.end() - 1)]
        cell = r'\b(\w+)\[[^\[\]]*\b' + x + r'\b[^\[\]]*\]'
        used = sorted(set(re.findall(cell, body)))
        if used and not re.search(r'\b' + x + r'\b', re.sub(cell, '', body)):
            places['3 of these, with an index for slices alone'].append(head + ' ' + ', '.join(used))
lines('4 functions of one parameter and a number, to be read: which only cast', r'fn \w+\(\w+: \w+\) -> (u64|usize|u16|u8|u32)$')
for name, text in functions():
    ps = parameters(text)
    if 'transition' in ps and 'observation' in ps:
        places['5 functions lent T and O'].append(name)
    if len(ps) >= 10:
        places['5 functions of ten parameters or more'].append(f'{name} {len(ps)}')
lines('5 a bound on a count of states that is asked for', r'requires.*n ≤ max_states')
lines('6 a text written over a slice from a place on', r'\bout: &mut \[u8\],( at: usize|$)')
lines('6 arrays of which the first cells count', r'^(pub )?type \w+ = \[')
lines('7 a switch on which step to run', r'if full|if list.len\(\) == 0')

for name, found in places.items():
    print(f'{len(found):4} {name}')
    if '-v' in sys.argv:
        for p in found:
            print('       ', p)
