#!/usr/bin/env python3
"""Brings this repository's own names to the spelling of today's Rattle. Run once, at the top, on the tree as the kit's port.py leaves it.

- The crate `bytes` becomes `octets`, since the kit has a library of the old name.
- Definitions and lemmas are in snake case: `headerIn` becomes `header_in`.
- A dash joins two names, a plain word is added with `_`: `skip-room` stays, `part-long` becomes `part_long`.
Functions of src/, exported names, strings, inputs and outputs stay. What a proof file of a function declares for its goals stays too, since those names are Rattle's.
It prints each row that it turns, and stops where two names would fall together.
"""
import collections, glob, os, re, sys

OLD, NEW = 'bytes', 'octets'
WORD = re.compile(r'[^\s(){}.;,@"«»\[\]|]+')

def antt_files():
    return sorted(glob.glob('crates/*/specs/**/*.antt', recursive=True) + glob.glob('crates/*/proofs/**/*.antt', recursive=True))

def rt_files():
    return sorted(glob.glob('crates/*/src/**/*.rt', recursive=True))

def of_a_function(path):
    "A file that proves one function, in a folder of its own."
    return path.split('/')[2] == 'proofs' and path.endswith('/Proof.antt')

def strip(line):
    return '' if line.lstrip().startswith('--') else line.split(' -- ')[0]

# Beside `row_is`, what a public call promises, stands the rule that it goes by; and the kit has a function `nan_bits`.
GIVEN = {'rowIs': 'is_row', 'nan-bits': 'nan_bits_lem'}

SIG = re.compile(r'^(\s*)((?:(?:abbrev|unfoldable|pattern|pub|data|record)\s+)*)([^\s(){}.;,@"\[\]|]+)\s+(?:\{ℓ\}\s+)?(?:\([^:]*:[^=]*)?:\s')

def declared():
    "Every name that a file declares, and where."
    names = collections.defaultdict(set)
    for path in antt_files():
        if of_a_function(path):
            continue
        for line in open(path, encoding='utf-8'):
            line = strip(line)
            m = SIG.match(line)
            if not m:
                continue
            name = m.group(3)
            if m.group(1) and not (m.group(2) or len(m.group(1)) == 2):
                continue
            names[name].add(path)
    return names

def rust_words():
    words = set()
    for path in rt_files():
        words.update(re.findall(r'\b(?:fn|struct|enum|const|mod)\s+(\w+)', open(path, encoding='utf-8').read()))
    return words

STD = set('length take drop append map add sub mul div mod le lt eq leb ltb eqb set get get_or sum reverse size run before part room slice elim code string bool nat list'.split())

def snake(name):
    if re.match(r'[a-z]', name) and '::' not in name:
        name = re.sub(r'(?<=[a-z0-9])([A-Z])', lambda m: '_' + m.group(1).lower(), name)
    return name

def dashes(name, known):
    if '-' not in name or '::' in name:
        return name
    parts = name.split('-')
    chunks, i = [], 0
    while i < len(parts):
        j = next((j for j in range(len(parts), i, -1) if '_'.join(parts[i:j]) in known), i + 1)
        chunks.append('_'.join(parts[i:j]))
        i = j
    out = chunks[0]
    for left, right in zip(chunks, chunks[1:]):
        out += ('-' if left in known and right in known else '_') + right
    return out

def main():
    names = declared()
    known = {snake(n) for n in names if '-' not in n} | rust_words() | STD
    # constructors and fields
    for path in antt_files():
        if of_a_function(path):
            continue
        inside = False
        for line in open(path, encoding='utf-8'):
            line = strip(line)
            if re.match(r'(?:\w+ )*(data|record) ', line):
                inside = True
            elif line and not line.startswith(' '):
                inside = False
            m = re.match(r'\s+([^\s(){}.;,@"\[\]|]+)\s+:\s', line)
            if inside and m:
                known.add(snake(m.group(1)))
                names[m.group(1)].add(path)
    table = {}
    for n in names:
        to = GIVEN.get(n) or dashes(snake(n), known)
        if to != n:
            table[n] = to
    # local names of signatures turn with the rest of their file where they are camel-cased
    back = collections.defaultdict(set)
    for n in names:
        back[table.get(n, n)].add(n)
    bad = False
    for to, olds in sorted(back.items()):
        # a lemma that would have its function's name ends in `_lem`
        lemmas = sorted((o for o in olds if all('/proofs/' in p for p in names[o])), key=lambda o: '-' not in o)
        while len(olds) > 1 and lemmas:
            o = lemmas.pop(0)
            olds.discard(o)
            table[o] = to + '_lem'
        if len(olds) > 1:
            print('fall together:', to, sorted(olds), [sorted(names[o]) for o in olds])
            bad = True
    rust = rust_words()
    for n, to in sorted(table.items()):
        print(f'{n}\t{to}' + ('\t(a Rust name too)' if to in rust else ''))
    if bad and '--go' not in sys.argv:
        sys.exit(1)
    if '--list' in sys.argv:
        return
    for path in antt_files() + rt_files():
        text = open(path, encoding='utf-8').read()
        new = turn(path, text, table)
        if new != text:
            open(path, 'w', encoding='utf-8').write(new)
    if os.path.isdir(f'crates/{OLD}'):
        os.rename(f'crates/{OLD}', f'crates/{NEW}')
    text = open('crates.txt', encoding='utf-8').read()
    open('crates.txt', 'w', encoding='utf-8').write(re.sub(rf'\b{OLD}\b', NEW, text))

GHOST = re.compile(r'ghost use[^;]*;|(?:requires|ensures)\*?\s*(?:\w+\s*)?\{[^\n]*|ghost\s+\w+\s*:\s*\{[^\n]*')

def turn(path, text, table):
    def word(m):
        w = m.group(0)
        # a name with neither a dash nor a capital may be Rattle's own behind a dot
        if '-' not in w and w.islower() and m.string[m.start() - 1:m.start()] == '.':
            return w
        return table.get(w, w)
    def crate(t):
        t = re.sub(rf'\bRattle\.{OLD}\.', f'Rattle.{NEW}.', t)
        t = re.sub(rf'(?<![\w:.]){OLD}::', f'{NEW}::', t)
        t = re.sub(rf'\bcrates/{OLD}\b', f'crates/{NEW}', t)
        t = re.sub(rf'\bas {OLD}$', f'as {NEW}', t, flags=re.M)
        if f'as {NEW}\n' in t:
            t = re.sub(rf'(?<![\w.]){OLD}\.(?=[A-Za-z])', f'{NEW}.', t)
        return t
    if path.endswith('.antt'):
        out = []
        for line in text.split('\n'):
            # texts in quotes stay
            pieces = re.split(r'("(?:[^"\\]|\\.)*")', line)
            out.append(''.join(p if i % 2 else WORD.sub(word, p) for i, p in enumerate(pieces)))
        return crate('\n'.join(out))
    lines = text.split('\n')
    out = []
    for line in lines:
        if re.search(r'ghost use|requires|ensures|ghost ', line) or line.lstrip().startswith('//'):
            line = WORD.sub(word, line)
        out.append(line)
    return crate('\n'.join(out))

if __name__ == '__main__':
    main()
