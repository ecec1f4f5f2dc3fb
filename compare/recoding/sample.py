#!/usr/bin/env python3
"""Holds lines `FROM TO|INPUT|OUTPUT` of a file against the plain reference.

usage: sample.py FOLDER FILE

FOLDER holds `reference.py`, whose function `recoded` is asked. Status 0: nothing differs. 1: something does.
"""
import sys
from multiprocessing import Pool
from pathlib import Path

MOST_PRINTED = 5


def differing(folder, lines):
    """Those of the lines whose output is another one."""
    sys.path.insert(0, folder)
    from reference import recoded
    found = []
    for line in lines:
        forms, given, made = line.split('|')
        if bytes(recoded(*forms.split(), list(bytes.fromhex(given)))).hex() != made:
            found.append(line)
    return found


def main(folder, file):
    lines = Path(file).read_text(encoding='ascii').splitlines()
    shares = [(folder, lines[start:start + 500]) for start in range(0, len(lines), 500)]
    with Pool() as pool:
        found = [line for some in pool.starmap(differing, shares) for line in some]
    for line in found[:MOST_PRINTED]:
        print(f'{line}: the reference has another output')
    print(f'reference: {len(lines)} of these answers, {len(found)} differ')
    return 1 if found or not lines else 0


if __name__ == '__main__':
    if len(sys.argv) != 3:
        print(__doc__.splitlines()[2], file=sys.stderr)
        sys.exit(2)
    sys.exit(main(*sys.argv[1:]))
