#!/usr/bin/env python3
"""Figures of the crates' text: lines of code, specs, laws and proofs without blanks and comments (code without contracts), the share of place chains
(`.before`) and the long lines in proofs/, and how many definitions go by cases over types (Ty) and values (Val).
usage: figures.py [CRATE ..]"""
import os
import re
import sys

ROOT = os.path.join(os.path.dirname(os.path.abspath(__file__)), '..', 'crates')


def files(folder, ending):
    return sorted(os.path.join(d, f) for d, _, names in os.walk(folder) for f in names if f.endswith(ending))


def read(path):
    with open(path, encoding='utf-8') as f:
        return f.read().split('\n')[:-1]


def code(paths):
    n = 0
    for path in paths:
        inside = False  # a contract that goes on over lines
        for line in (x.strip() for x in read(path)):
            if inside or re.match(r'(requires|ensures)\b', line):
                inside = not line.endswith('}')
            elif line and not line.startswith(('//', 'ghost use')):
                n += 1
    return n


def text(paths):
    return sum(1 for path in paths for line in read(path) if line.strip() and not line.strip().startswith('--'))


def by_cases(paths, data):
    pattern = re.compile(r'\b' + data + r'\.[A-Z]\w*')
    found = set()
    for path in paths:
        for line in read(path):
            clause = re.match(r'\s*(\S+)\s+([^:=]*?)\s=(\s|$)', line)
            if clause and not line.lstrip().startswith(('--', 'use ', 'let ', 'pub ', 'abbrev ', 'unfoldable ')) and pattern.search(clause.group(2)):
                found.add((path, clause.group(1)))
    return len(found)


def main():
    names = sys.argv[1:] or sorted(os.listdir(ROOT))
    head = ['crate', 'code', 'specs', 'laws', 'proofs', 'proof characters', '.before', 'longest line', 'over 300', 'over 600', 'by cases: Ty', 'Val']
    print('| ' + ' | '.join(head) + ' |\n|' + '-|' * len(head))
    total = [0] * 10
    longest_of_all = 0
    for name in names:
        folder = os.path.join(ROOT, name)
        proofs = files(os.path.join(folder, 'proofs'), '.antt')
        specs = files(os.path.join(folder, 'specs'), '.antt')
        of_functions = [p for p in proofs if os.path.basename(p) in ('Invariants.antt', 'Answers.antt', 'Proof.antt')]
        laws = [p for p in proofs if p not in of_functions]
        lines = [line for p in proofs for line in read(p)]
        characters = sum(len(x) + 1 for x in lines)
        chains = sum(x.count('.before') for x in lines)
        longest = max([len(x) for x in lines], default=0)
        row = [code(files(os.path.join(folder, 'src'), '.rt')), text(specs), text(laws), text(of_functions),
               characters, chains, sum(len(x) > 300 for x in lines), sum(len(x) > 600 for x in lines), by_cases(specs + proofs, 'Ty'), by_cases(specs + proofs, 'Val')]
        total = [a + b for a, b in zip(total, row)]
        longest_of_all = max(longest_of_all, longest)
        show(name, row, longest)
    if len(names) > 1:
        show('all', total, longest_of_all)


def show(name, row, longest):
    share = 100 * len(' .before') * row[5] / row[4] if row[4] else 0
    print(f'| {name} | {row[0]:,} | {row[1]:,} | {row[2]:,} | {row[3]:,} | {row[4]:,} | {share:.1f} % | {longest:,} | {row[6]} | {row[7]} | {row[8]} | {row[9]} |')


main()
