#!/usr/bin/env python3
"""Counts the places that docs/DESIGN-PASS.md speaks of, point by point. Run at the top of a checkout.

usage: python3 tools/places.py           the counts, for the crates with rules, the programs and the vectors and benches
       python3 tools/places.py LETTER    each place of one count, as FILE:LINE: TEXT
"""
import glob
import re
import sys


def kind(crate):
    if re.match(r'vectors_|bench_', crate):
        return 2
    if re.match(r'cli_|bureau|lentilpot|size_limit', crate):
        return 1
    return 0


def sources():
    for path in sorted(glob.glob('crates/*/src/*.rt')):
        yield path, open(path, encoding='utf-8').read()


def lines(pattern):
    """The places of a pattern, line by line, outside comments."""
    for path, text in sources():
        for number, line in enumerate(text.split('\n'), 1):
            if not line.lstrip().startswith('//') and re.search(pattern, line):
                yield path, number, line.strip()


def option_shaped():
    """Enums of two variants, of which one or both hold a value, and one says that there is none or why."""
    for path, text in sources():
        for m in re.finditer(r'^(?:pub )?enum (\w+) \{\n(.*?)^\}', text, re.M | re.S):
            variants = re.findall(r'^    (\w+)(\(| \{|,)', m.group(2), re.M)
            if len(variants) == 2 and sum(v[1] != ',' for v in variants) == 1:
                yield path, text[:m.start()].count('\n') + 1, 'enum ' + m.group(1)


def flags():
    """Structs with a flag or a number that says whether the values beside it count."""
    for path, text in sources():
        for m in re.finditer(r'^(?:pub )?struct (\w+) \{\n(.*?)^\}', text, re.M | re.S):
            f = re.search(r'^    (?:pub )?(given|good|found|refusal): (bool|u32)', m.group(2), re.M)
            if f:
                yield path, text[:m.start()].count('\n') + 1, 'struct %s { %s, .. }' % (m.group(1), f.group(1))


def twins():
    """Private functions whose name and body stand in an earlier crate or module too."""
    seen = {}
    for path, text in sources():
        for m in re.finditer(r'^(?:pub )?fn (\w+)(?:<(?:[^<>]|<[^<>]*>)*>)?\(.*?^\}', text, re.M | re.S):
            body = re.sub(r'\s+', ' ', re.sub(r'ensures \{.*?\}\n', '', m.group(0)))
            body = body[body.index('('):]
            key = body
            if key in seen:
                yield path, text[:m.start()].count('\n') + 1, '%s: as %s' % (m.group(1), seen[key])
            else:
                seen[key] = '%s in %s' % (m.group(1), path)


def repeated_requires():
    """Clauses that ask the same of callers in three functions or more."""
    found = {}
    for path, number, line in lines(r'^\s*requires '):
        found.setdefault(re.sub(r'^\s*requires( \w+)? ', '', line.strip()), []).append((path, number))
    for clause, at in found.items():
        if len(at) >= 3:
            for path, number in at:
                yield path, number, clause


def parallel():
    """Structs with two arrays or more of one length, or an array with a count beside it; constants of one length side by side."""
    for path, text in sources():
        for m in re.finditer(r'^(?:pub )?struct (\w+)[^\n]* \{\n(.*?)^\}', text, re.M | re.S):
            arrays = re.findall(r': \[[^;\]]+; (\w+)\]', m.group(2))
            many = [n for n in arrays if n not in ('25', '16', '17', '15', '161', '8')]
            if len(many) != len(set(many)) or (many and re.search(r'(count|length|size): (usize|u32)', m.group(2))):
                yield path, text[:m.start()].count('\n') + 1, 'struct ' + m.group(1)
        consts = {}
        for m in re.finditer(r'^(?:pub(?:\(crate\))? )?const (\w+): \[[^;]+; (\w+)\]', text, re.M):
            consts.setdefault(m.group(2), []).append((text[:m.start()].count('\n') + 1, m.group(1)))
        for length, at in consts.items():
            if len(at) > 1:
                for number, name in at:
                    yield path, number, 'const %s, of %s' % (name, length)


POINTS = [
    ('1a', 'own enums of the shape of Option or Result', option_shaped),
    ('1b', 'structs with a flag or a refusal\'s number beside the values', flags),
    ('1c', 'numbers returned for kinds or refusals (`return 4;`)', lambda: lines(r'\breturn [0-9]+;')),
    ('2', 'functions that stand twice, body for body', twins),
    ('3a', '`while` loops', lambda: lines(r'^\s*while ')),
    ('3b', '`i += 1` and the like', lambda: lines(r'^\s*\w+ \+= 1;')),
    ('4a', 'fields moved out before use (`let x = s.x;`)', lambda: lines(r'^\s*let (mut )?(\w+) = \w+(\.\w+)*\.\2;')),
    ('4b', '`return true;` and `return false;`', lambda: lines(r'\breturn (true|false);')),
    ('4c', 'arms that give `true` or `false` alone', lambda: lines(r'=> (true|false),')),
    ('4d', 'fields named twice (`x: x,`)', lambda: lines(r'^\s*(\w+): \1,$')),
    ('5', 'clauses that ask the same in three functions or more', repeated_requires),
    ('6', 'parallel arrays, and arrays with a count beside them', parallel),
    ('7', 'a flag that says which step to run (`values: bool`, `pte: bool`, `bare: bool`, `sound: bool`)',
     lambda: lines(r'fn .*\b(values|pte|bare|sound): bool')),
]


def main():
    if len(sys.argv) > 1:
        for letter, _, places in POINTS:
            if letter == sys.argv[1]:
                for path, number, text in places():
                    print('%s:%d: %s' % (path, number, text))
        return
    print('| point | what | rules | programs | vectors, benches |\n|---|---|---|---|---|')
    for letter, what, places in POINTS:
        counts = [0, 0, 0]
        for path, _, _ in places():
            counts[kind(path.split('/')[1])] += 1
        print('| %s | %s | %d | %d | %d |' % (letter, what, counts[0], counts[1], counts[2]))
    proofs = {'answers': 0, 'files': 0, 'lines': 0, 'laws': 0}
    for path in glob.glob('crates/*/proofs/**/*.antt', recursive=True):
        text = open(path, encoding='utf-8').read()
        if path.endswith('/Answers.antt'):
            proofs['files'] += 1
            proofs['answers'] += len(re.findall(r'^pub [\w+-]+ : goal\.', text, re.M))
            proofs['lines'] += text.count('\n')
        else:
            proofs['laws'] += text.count('\n')
    print('\n8: %(answers)d answers by hand in %(files)d files of %(lines)d lines; %(laws)d lines of other proof' % proofs)


main()
