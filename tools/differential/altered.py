#!/usr/bin/env python3
"""Whether the gate's program replay would see a wrong answer: alters answers in its list and has it find exactly those lines.

usage: altered.py REPLAY [RUNS]     REPLAY is crates/replay/out/replay, which `rt run` in crates/replay writes; 30 runs of about 1,950 lines each

An answer's number is raised, lowered or made another; of a list an element is changed, added or dropped, a repetition's count changed, or all is dropped."""
import os
import random
import re
import subprocess
import sys

LIST = os.path.join(os.path.dirname(os.path.abspath(__file__)), '../../crates/replay/stdin')
# the fields of each call's answer that are lists; those of words
LISTS = {
    'encode_typed': [10], 'encode_key': [10], 'decode_typed': [11, 12], 'decode_key': [11, 12], 'strinc': [7], 'above_field': [7], 'bounds': [11, 12],
    'span': [15, 16],
    'replace': [11], 'get_str': [10], 'get_bytes': [10], 'put_i64': [8], 'put_u64': [8], 'put_fact_id': [8], 'put_str': [8], 'put_bytes': [8],
    'take_str': [13], 'take_bytes': [13], 'put_null': [10], 'put_record': [10], 'put_end': [10], 'put_union': [11], 'chars': [7], 'names': [6],
}
WORDS = {('decode_typed', 11), ('decode_key', 11), ('chars', 7), ('names', 6)}


def one_more(v, words):
    joint = '+' if '*' in v.split('+')[-1] else ',' if words else ''
    return v + joint + random.choice(['0', '1', '7'] if words else ['00', 'ff', 'ee', '01'])


def other_count(v):
    m = random.choice(list(re.finditer(r'x(\d+)', v)) or [None])
    if not m:
        return '-'
    return v[:m.start(1)] + str(max(1, int(m.group(1)) + random.choice([-3, -2, -1, 1, 2]))) + v[m.end(1):]


def one_less(v, words):
    if words:
        return v.rsplit(',', 1)[0] if ',' in v and '*' not in v else '-'
    parts = v.split('+')
    if not parts[-1].startswith('*') and len(parts[-1]) > 2:
        return v[:-2]
    return '+'.join(parts[:-1]) or '-'


def other_element(v, words):
    digits = '0123456789' if words else '0123456789abcdef'
    k = random.choice([p for p, c in enumerate(v) if c in digits and not re.search(r'x\d*$', v[:p])])
    new = v[:k] + random.choice([c for c in digits if c != v[k]]) + v[k + 1:]
    return v if words and re.search(r'(^|,|\*)0\d', new) else new


def altered(line):
    f = line.split(' ')
    lists = LISTS.get(f[0], [])
    j = random.choice(lists) if lists and random.random() < 0.6 else random.randrange(f.index('=') + 1, len(f))
    v, words = f[j], (f[0], j) in WORDS
    if j not in lists:
        f[j] = str(random.choice([int(v) + 1, max(0, int(v) - 1), int(v) + 256, 0, 1]))
    elif v == '-':
        f[j] = random.choice(['0', '7'] if words else ['00', 'ff', 'ee'])
    else:
        f[j] = random.choice([lambda: one_more(v, words), lambda: other_count(v), lambda: one_less(v, words), lambda: '-', lambda: other_element(v, words)])()
    return ' '.join(f)


def main():
    with open(LIST) as f:
        lines = f.read().splitlines()
    calls = {}
    for i, line in enumerate(lines):
        calls.setdefault(line.split(' ')[0], []).append(i)
    changed = unseen = others = 0
    for seed in range(int(sys.argv[2]) if len(sys.argv) > 2 else 30):
        random.seed(seed)
        new = list(lines)
        for places in calls.values():
            for i in random.sample(places, min(60, len(places))):
                new[i] = altered(lines[i])
        due = {b for a, b in zip(lines, new) if a != b}
        out = subprocess.run([sys.argv[1]], input='\n'.join(new).encode() + b'\n', capture_output=True, check=True).stdout.decode()
        seen = {line[len('differs: '):] for line in out.splitlines() if line.startswith('differs: ')}
        changed, unseen, others = changed + len(due), unseen + len(due - seen), others + len(seen - due)
        for line in sorted(due - seen)[:2]:
            print('not seen:', line[:200])
    print(f'{changed} answers altered, {unseen} not seen, {others} other lines')
    sys.exit(unseen + others != 0)


if __name__ == '__main__':
    if len(sys.argv) < 2:
        sys.exit(__doc__)
    main()
