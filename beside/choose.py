#!/usr/bin/env python3
"""Chooses the batch of crates/vectors/stdin.

usage: choose.py EDGES BATCH RUST > stdin

EDGES is crates/vectors/data/declarators, whose declarators are taken; BATCH a generated batch and RUST the oracle's answers to it. The
examples of document 01 come first, then the declarators of EDGES, then of each class of answers a few inputs, evenly over the batch;
the names of the kinds, headers by themselves and function pointers by themselves come last.
"""
import re
import struct
import sys
from collections import defaultdict

LONGEST = 700
out = []


def put(kind, data):
    out.append((kind, bytes(data)))


def address(n, file):
    put(b'A', struct.pack('<Q', n) + file)


def block(code, payload, at, index=0, count=1):
    return code + struct.pack('<IQII', len(payload), at, index, count) + payload


CATALOGUE = (b'SDNANAME' + struct.pack('<I', 1) + b'x\0\0\0TYPE' + struct.pack('<I', 1) + b'int\0TLEN' + struct.pack('<HH', 4, 0)
             + b'STRC' + struct.pack('<I', 1) + struct.pack('<HHHH', 0, 1, 0, 0))
DNA = block(b'DNA1', CATALOGUE, 32)
HEAD = b'BLENDER-v280'


def new_block(code, payload, at, index=0, count=1):
    return code + struct.pack('<IQQQ', index, at, len(payload), count) + payload


def examples():
    hull = HEAD + block(b'OB\0\0', b'hull', 16, 3) + DNA + b'ENDB'
    assert len(hull) == 120 and len(CATALOGUE) == 52
    put(b'F', hull)
    for n in (0, 16, 32, 48):
        address(n, hull)
    put(b'C', CATALOGUE)
    put(b'c', CATALOGUE)
    for file in (b'', b'BLENDE', b'BLENDER', b'BLENDER-', b'BLENDER-x', b'BLENDER-v28', b'BLENDER17', b'BLENDER17x', HEAD, HEAD + b'EN', HEAD + b'ENDB'):
        put(b'F', file)
    put(b'F', b'BLENDER17-01v0501' + new_block(b'DNA1', CATALOGUE, 32) + b'ENDB')
    put(b'F', b'BLENDER-v2x0' + DNA + b'ENDB')
    zeros = b'\0\0\0\0'
    put(b'F', HEAD + block(zeros, b'hull', 16, 3, 1) + DNA + b'ENDB')
    put(b'F', HEAD + block(zeros, b'hull', 16, 3, 2) + b'ENDB')
    put(b'F', HEAD + block(b'REND', b'hull', 0, 3) + b'ENDB')
    put(b'F', HEAD + block(b'REND', b'hull', 0, 3)[:16])
    put(b'F', HEAD + block(b'USER', b'hull', 16, 3)[:-1])
    put(b'F', HEAD + block(b'USER', b'hull', 16, 3))
    put(b'F', HEAD + DNA + block(b'OB\0\0', b'hull', 16, 3) + b'ENDB')
    equal = (HEAD + block(b'GLOB', b'glob', 16, 3) + block(b'OB\0\0', b'hull', 32, 4) + block(b'DATA', b'ENDBdeck', 32, 5, 2)
             + block(b'DNA1', CATALOGUE, 48) + b'ENDB')
    put(b'F', equal)
    for n in (0, 16, 32, 48, 64):
        address(n, equal)
    for name in (b'a[3', b'a[]', b'a[+3]', b'a[-0]', b'*m[2][3]', b'(*f)', b'(*f)()', b''):
        put(b'D', name)


def declarators(path):
    seen = {data for kind, data in out if kind == b'D'}
    for asked, name in re.findall(rb'^([123]) (.*)$', open(path, 'rb').read(), re.MULTILINE):
        if name not in seen:
            seen.add(name)
            declarator(name)


def declarator(name):
    put(b'D', name)
    plain = bytes(97 if byte > 127 else byte for byte in name)
    if not valid(name):
        put(b'D', plain)


def valid(data):
    try:
        data.decode('utf-8')
        return True
    except UnicodeDecodeError:
        return False


def records(path):
    data = open(path, 'rb').read()
    at = 0
    while at < len(data):
        length = struct.unpack_from('<I', data, at + 1)[0]
        yield data[at:at + 1], data[at + 5:at + 5 + length]
        at += 5 + length


def answers(path):
    lines = []
    for line in open(path, encoding='ascii'):
        line = line.rstrip('\n')
        if line == '.':
            yield lines
            lines = []
        else:
            lines.append(line)


def nan(data):
    """Whether the first 4 or 8 bytes are a NaN in either order."""
    for width, form in ((4, 'f'), (8, 'd')):
        for order in '<>':
            if len(data) >= width and struct.unpack_from(order + form, data)[0] != struct.unpack_from(order + form, data)[0]:
                return True
    return False


def form(data):
    """The edition and the marks of a file's header, as far as they are there."""
    return ('legacy', data[7:9]) if data[7:8] in (b'_', b'-') else ('new', data[9:10] + data[12:13])


def head(line):
    """An answer's first word; of a refusal, with its number; of a NomError, with nom's kinds from the inside out, and whether fewer bytes
    than a mark's were left."""
    words = line.split(' ')
    if words[0] != 'refused':
        return (words[0],)
    if words[1] != 'nom':
        return (line,)
    kinds = words[2:3] + words[5::2]
    short = [int(left) < (1 if 'Alt' in kinds else 4) for left in words[4:5]]
    return ('refused nom', ' '.join(kinds), *short)


def class_of(kind, data, lines):
    first = head(lines[0])
    if kind == b'F':
        if first[0] == 'file':
            several = sum(line.startswith('row 444e4131 ') for line in lines) > 1
            return ('F', *lines[0].split(' ')[1:4], several)
        formless = first[0] == 'refused 1' or first[:2] in (('refused nom', 'Eof'), ('refused nom', 'Tag Alt'))
        return ('F', *first) if formless else ('F', *first, form(data))
    if kind == b'D':
        zero = lines[0] == 'panic' and re.search(rb'\[\+?0+\]', data) is not None
        return ('D', *first, zero)
    if kind in (b'C', b'c'):
        lossy = any(' lossy ' in line for line in lines)
        return (kind.decode(), *first, lossy)
    if kind == b'P':
        return ('P', len(data), nan(data))
    if kind == b'f':
        return ('f', *first, data.startswith(b'(*'))
    return (kind.decode(), *first)


# How many inputs of each class, by the class's beginning; the longest beginning counts.
SHARES = {
    ('F',): 4,
    ('F', 'refused 1'): 6, ('F', 'refused nom'): 1, ('F', 'refused nom', 'Eof'): 2, ('F', 'refused nom', 'Tag Alt'): 2,
    ('F', 'refused 3'): 1, ('F', 'refused 4'): 1, ('F', 'refused 5'): 1, ('F', 'refused 6'): 1,
    ('D',): 10, ('D', 'panic', True): 4,
    ('C',): 8, ('c',): 8,
    ('C', 'refused nom'): 2, ('c', 'refused nom'): 2, ('C', 'refused nom', 'Tag'): 5, ('c', 'refused nom', 'Tag'): 5,
    ('P',): 2,
    ('f',): 3,
    ('H',): 2,
    # One comes last.
    ('N',): 0,
    ('A',): 6,
    ('A', 'refused 1'): 2, ('A', 'refused nom'): 1, ('A', 'refused 3'): 2, ('A', 'refused 4'): 2, ('A', 'refused 5'): 2, ('A', 'refused 6'): 2,
}


def share(name):
    for length in range(len(name), 0, -1):
        if name[:length] in SHARES:
            return SHARES[name[:length]]
    raise KeyError(name)


def generated(batch, rust):
    classes = defaultdict(list)
    seen = set(out)
    for (kind, data), lines in zip(records(batch), answers(rust)):
        if len(data) <= LONGEST and (kind, data) not in seen:
            seen.add((kind, data))
            classes[class_of(kind, data, lines)].append((kind, data))
    for name in sorted(classes, key=repr):
        found = classes[name]
        count = min(share(name), len(found))
        for i in range(count):
            kind, data = found[(2 * i + 1) * len(found) // (2 * count)]
            if kind == b'D':
                declarator(data)
            else:
                put(kind, data)


def headers():
    put(b'N', b'')
    for header in (b'BLENDE', b'BLENDER', b'BLENDER-', b'BLENDER-x', b'BLENDER-v28', HEAD, b'BLENDER_V999', b'BLENDER-v2x0', b'BLENDER-vxyz', HEAD + b'ENDB',
                   b'BLENDER17-01v0501', b'BLENDER17_01V0501', b'BLENDERxx-yyV9999', b'BLENDER17-01v050', b'BLENDER17+01v0501', b'BLENDER17-01w0501', b'BLENDER1', b''):
        put(b'H', header)


def functions():
    for name in (b'', b'(', b'x', b'f)', b'(f', b'(*', b'(*f', b'(x', b'(*f)', b'(*f)x', b'(*f)(', b'(*f)(a', b'(*f)()', b'(*)()', b'(*f)(a)b', b'(*f)()[3]', b'*(*f)()'):
        put(b'f', name)


def main():
    edges, batch, rust = sys.argv[1:]
    examples()
    declarators(edges)
    generated(batch, rust)
    headers()
    functions()
    for kind, data in out:
        sys.stdout.buffer.write(kind + struct.pack('<I', len(data)) + data)


main()
