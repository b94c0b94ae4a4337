#!/usr/bin/env python3
"""Respells the crates' own definitions and lemmas, words in snake case (no camel case), as today's Rattle has them: usage: respell.py [--try]
It was run once, behind port.py and before anything was changed by hand. Names of types, modules, constructors of types and of Rust items stay: a name
is turned only where it begins with a small letter and has a capital behind a small letter or a digit, and where a file of specs/ or proofs/ declares it.
--try: says how many names would be turned and which would fall together, and writes nothing."""
import glob, os, re, subprocess, sys

TOP = subprocess.run(['git', 'rev-parse', '--show-toplevel'], stdout=subprocess.PIPE, text=True).stdout.strip()
os.chdir(TOP)
WORDS = {'use', 'mod', 'open', 'module', 'infixl', 'infixr', 'infix', 'prefix', 'let', 'unfolding', 'where'}
NAME = r"[\w'◌₀-₉-]"
DECLARED = re.compile(r"\s*(?:(?:abbrev|opaque|unfoldable|pub|instance)\s+)*(?:(?:record|data)\s+)?(%s+)(?:\s+\{[^}]*\}|\s+\([^)]*\)|\s+\w+)*\s*:\s" % NAME)

def antt():
    return sorted(glob.glob('crates/*/specs/**/*.antt', recursive=True) + glob.glob('crates/*/proofs/**/*.antt', recursive=True))

def snake(name):
    part = lambda s: re.sub(r'(?<=[a-z0-9])[A-Z]|(?<=[A-Z])[A-Z](?=[a-z])', lambda m: '_' + m[0].lower(), s) if s[:1].islower() else s
    low = lambda s: re.sub(r'[A-Z]+', lambda m: m[0].lower(), part(s)) if s[:1].islower() else s
    return '-'.join(low(s) for s in name.split('-'))

def declared():
    found = set()
    for f in antt():
        for line in open(f):
            m = DECLARED.match(line)
            if m and m[1] not in WORDS:
                found.add(m[1])
    return found

def turned(text, table):
    return re.sub(r"(?<!%s)(?:%s)(?!%s)" % (NAME, '|'.join(sorted(map(re.escape, table), key=len, reverse=True)), NAME), lambda m: table[m[0]], text) if table else text

def main():
    names = declared()
    table = {n: snake(n) for n in names if snake(n) != n} | {'is_field': 'is_field_lem'}
    files = antt() + sorted(glob.glob('crates/*/src/**/*.rt', recursive=True)) + sorted(glob.glob('crates/*/must-fail/*.edit'))
    tokens = set()
    for f in antt() + glob.glob('crates/*/src/**/*.rt', recursive=True):
        tokens |= set(re.findall(NAME + '+', open(f).read()))
    for old, new in sorted(table.items()):
        if new in tokens:
            print('falls together: %s, %s%s' % (old, new, ' (declared)' if new in names else ''))
    back = {}
    for old, new in table.items():
        if new in back:
            print('two become one: %s, %s' % (old, back[new]))
        back[new] = old
    if '--try' in sys.argv:
        print(len(table), 'names')
        return
    for f in files:
        text = open(f).read()
        new = turned(text, table)
        if new != text:
            open(f, 'w').write(new)
    print(len(table), 'names respelled')

main()
