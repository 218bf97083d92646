#!/usr/bin/env python3
"""Lists the places in crates/*/src that read like an older Rattle, by the points of docs/DESIGN-PASS.md.

    tools/design_places.py [FOLDER]         how many places each point has, in this checkout or in another
    tools/design_places.py -l [FOLDER]      the places too

A place is an item (a function, a type, a constant) that one of the point's patterns fits; for point 2 a shape that several functions
share, all names and numbers left out; for point 5 parameters that stand together in three or more functions, those for C left out, or a
`requires` that does."""
import collections
import glob
import os
import re
import sys

ITEM = re.compile(r'^(\s*)(?:#\[.*\]\s*)?(?:pub )?(?:unsafe |extern "C" |const )*(fn|struct|enum|impl|const|static) ?(.*)')

PATTERNS = {
    1: [r'\bOutcome::', r'^\s*(pub )?enum (Outcome|Channel|Piece)\b', r'enum Asked\b[^}]*Unknown', r'struct Filled', r'\bFilled \{',
        r'\bwhy [!=]= 0', r'\bnumber != 0',
        r'-> u8\b[^{]*given result', r'-> u8\b[^{]*(fault_number|end_number|lacking)', r'\bkinds::[A-Z]+\b',
        r'\bkind: u(8|64)\b', r'\bkind as u', r'\b(NOT_RUN|UNASKED|NO_BANK|NONE)\b', r'\bpass (==|:)|\bpass: u8',
        r'const (PLACING|JUDGING|COUNTING|WRITING|DONE)\b', r'\bfield: usize', r'const (ID|ADDRESS|VALUE): usize = \d',
        r'\b(asked|answered|fits|same|before)\b[^\n]*== 1', r'\bbefore: u64, (m|column)\b[^{}]*-> u64'],
    3: [r'\bwhile\b[^{]*(\blen\(\)|0 <|< )', r'\bwhile [^{]*pass != 0'],
    4: [r'impl (PartialEq|Eq|PartialOrd|Ord|Clone|Copy|Hash)\b', r'if \w+ \{ 1 \} else \{ 0 \}', r'\bas u16 \* 256', r'\n\{\n\s+\w+ as u64\n\}',
        r'\* 256 \+', r'/ 256\) as u8', r'>= b\'0\'|b\'0\' <= ', r'if \w+ < \w+ \{ \w+ \} else \{ \w+ \}'],
    6: [r'&mut \[u8\], at: usize', r'\bp \+= 1;', r'\[at \+ \d\] =', r'text\[j\] != line\[j\]', r'const REMAINDERS: u64',
        r'b"000 001', r'b"047', r'b"        lock'],
    7: [r'\bmatch phase\b', r'\bstate\.pass =='],
}


def items(path):
    """The items of a file: its name, its text, and the indentation that it begins with."""
    lines = open(path).read().split('\n')
    i = 0
    while i < len(lines):
        head = ITEM.match(lines[i])
        if not head or lines[i].lstrip().startswith('//'):
            i += 1
            continue
        indent, sort = head.group(1), head.group(2)
        if sort == 'impl':
            i += 1
            continue
        end = i
        short = sort in ('const', 'static', 'struct')
        while end < len(lines) and not (lines[end].startswith(indent + '}') or (short and lines[end].rstrip().endswith(';'))):
            end += 1
        name = re.match(r'\w+', head.group(3)).group(0)
        yield name, '\n'.join(line for line in lines[i:end + 1] if not line.lstrip().startswith('//'))
        i = end + 1


def shape(text):
    """A function's text with every name and number of its own left out."""
    body = text[text.index('{', text.rfind('ensures') if 'ensures' in text else 0):] if '{' in text else text
    kept = set('if else while for in let mut match return true false as u8 u16 u32 u64 usize bool len loop'.split())
    return ' '.join(w if w in kept or not (w[0].isalnum() or w[0] == '_') else '_' for w in re.findall(r'\w+|[^\w\s]', body))


def parameters(text):
    head = text[text.index('(') + 1:]
    depth, end = 1, 0
    while depth:
        depth += {'(': 1, ')': -1}.get(head[end], 0)
        end += 1
    return [re.sub(r'\s+', ' ', p).strip() for p in head[:end - 1].split(',') if ':' in p]


def clauses(text):
    for line in re.findall(r'requires \{ (.*) \}', text):
        for part in re.split(r' × ', line):
            yield part.strip('() ')


def places(folder):
    found = collections.defaultdict(list)
    shapes, groups, facts = (collections.defaultdict(list) for _ in range(3))
    for path in sorted(glob.glob(os.path.join(folder, 'crates/*/src/*.rt'))):
        crate = os.path.relpath(path, os.path.join(folder, 'crates')).replace('/src/', '/')
        for name, text in items(path):
            here = f'{crate} {name}'
            for point, patterns in PATTERNS.items():
                is_kind_number = point == 1 and crate == 'kinds/lib.rt' and text.lstrip().startswith('pub const')
                if is_kind_number or any(re.search(p, text, re.M) for p in patterns):
                    found[point].append(here)
            if re.match(r'\s*(pub )?(extern "C" )?fn', text):
                if 40 <= len(shape(text)):
                    shapes[shape(text)].append(here)
                names = [] if crate.startswith('biss') else parameters(text)
                for group in {tuple(sorted(names[i:j])) for i in range(len(names)) for j in range(i + 2, len(names) + 1)}:
                    groups[group].append(here)
                for fact in set(clauses(text)):
                    facts[fact].append(here)
    found[2] = [' = '.join(same) for same in shapes.values() if len(same) > 1]
    widest = {tuple(v): ', '.join(g) for g, v in sorted(groups.items(), key=lambda g: len(g[0])) if len(v) >= 3}
    found[5] = [f'{", ".join(v)}: {g}' for v, g in widest.items()] + [f'{", ".join(v)}: requires {f}' for f, v in facts.items() if len(v) >= 3]
    return found


def main():
    arguments = sys.argv[1:]
    told = '-l' in arguments
    folder = next((a for a in arguments if a != '-l'), '.')
    found = places(folder)
    for point in sorted(set(PATTERNS) | {2, 5}):
        print(f'point {point}: {len(found[point])}')
        for place in found[point] if told else []:
            print(f'    {place}')


main()
