#!/usr/bin/env python3
"""Makes inputs of a seed, with what they are converted to, by the plain reference: a line `FROM TO|INPUT|OUTPUT` each.

usage: cases.py FOLDER SEED COUNT

FOLDER holds `reference.py`, whose function `recoded` is asked.
"""
import random
import sys
from multiprocessing import Pool

FORMS = ['utf8', 'utf16le', 'utf16be']
CODECS = {'utf8': 'utf-8', 'utf16le': 'utf-16-le', 'utf16be': 'utf-16-be'}

# The first and the last byte of each class, and those about which a code is decided.
EDGES = [0x00, 0x41, 0x7F, 0x80, 0x8F, 0x90, 0x9F, 0xA0, 0xBF, 0xC0, 0xC1, 0xC2, 0xD7, 0xD8, 0xDB, 0xDC, 0xDF, 0xE0,
         0xE1, 0xEC, 0xED, 0xEE, 0xEF, 0xF0, 0xF1, 0xF3, 0xF4, 0xF5, 0xFF]


def some_text(rng):
    """Runs of characters whose codes have one length; some are longer than what goes in blocks."""
    text = ''
    for _ in range(rng.randrange(4)):
        low, high = rng.choice([(0, 0x80), (0x80, 0x800), (0x800, 0xD800), (0xE000, 0x10000), (0x10000, 0x110000)])
        text += ''.join(chr(rng.randrange(low, high)) for _ in range(rng.randrange(24)))
    return text


def some_bytes(rng, form):
    """Edge bytes, or a text that may be damaged."""
    if rng.random() < 0.4:
        return bytes(rng.choice(EDGES) for _ in range(rng.randrange(24)))
    data = bytearray(some_text(rng).encode(CODECS[form]))
    for _ in range(rng.randrange(3)):
        place = rng.randrange(len(data) + 1)
        if rng.random() < 0.5:
            del data[place:place + 1]
        else:
            data.insert(place, rng.choice(EDGES))
    return bytes(data)


def lines(folder, seed, count):
    sys.path.insert(0, folder)
    from reference import recoded
    rng = random.Random(seed)
    made = []
    for _ in range(count):
        source, target = rng.choice(FORMS), rng.choice(FORMS)
        data = some_bytes(rng, source)
        made.append(f'{source} {target}|{data.hex()}|{bytes(recoded(source, target, list(data))).hex()}\n')
    return made


def main(folder, seed, count):
    share = 1000
    shares = [(folder, f'{seed}.{start}', min(share, count - start)) for start in range(0, count, share)]
    with Pool() as pool:
        for made in pool.starmap(lines, shares):
            sys.stdout.writelines(made)


if __name__ == '__main__':
    if sys.argv[1:] in (['--help'], ['-h']):
        print(__doc__)
        sys.exit(0)
    if len(sys.argv) != 4:
        print(__doc__.splitlines()[2], file=sys.stderr)
        sys.exit(2)
    main(sys.argv[1], sys.argv[2], int(sys.argv[3]))
