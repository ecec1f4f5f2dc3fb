#!/usr/bin/env python3
"""Makes the rows of blocks for the gate, by the plain reference: text with one thing over an edge that is other.

usage: python3 compare/recoding/rows.py

It writes `blocks.txt`, `block_places.txt` and `held.txt` to crates/run_vectors/data. Blocks have up to 133 bytes, and the thing
that is other, a fault or a code of another length, lies over the end of the first 16, 32, 48, 64, 80, 96, 112 or 128 bytes, or
begins or ends there. Surrogates stand at each of the first 41 places of units.

The rows of `held.txt` are ends of input and what a recoder holds of them: the proper front of a code, a leading surrogate, half
a unit, or a leading surrogate and half a unit. Python's own incremental decoders have to hold the same bytes; but ED A0 to ED BF
they hold too, for `surrogatepass`.
"""
import codecs
import random
import sys
from pathlib import Path

TOP = Path(__file__).resolve().parent.parent.parent
sys.dont_write_bytecode = True
sys.path.insert(0, str(TOP / 'compare'))
from reference import cut, recoded, utf8, utf16  # noqa: E402

FORMS = {'utf8': 'utf-8', 'utf16le': 'utf-16-le', 'utf16be': 'utf-16-be'}
MOST = 130
FILLS = ['a\0Z\x7f', '\x80é\u07ff', '\u0800€\ud7ff\ue000\uffff', '\U00010000🂠\U0010ffff', 'aé€🂠b\u07ff\uffff\U0010ffffcd€']
CODES = ['a', '\x80', '\u07ff', '\u0800', '\ud7ff', '\ue000', '\ufffd', '\U00010000', '\U0010ffff']
BYTES = ['c0', 'ff', '80', 'bf80', 'c2', 'df', 'e0', 'e0a0', 'e282', 'ed9f', 'f0', 'f090', 'f09f82', 'f48f', 'f48fbf', 'e08080',
         'e09fbf', 'f0808080', 'f08fbfbf', 'eda080', 'edbfbf', 'f4908080', 'f4bfbfbf', 'f5']
SURROGATES = ['d83c', 'dca0', 'd83cdca0']
UNITS = ['d800', 'dbff', 'dc00', 'dfff', 'd83cd83c', 'dca0d83c', 'd83cdca0dca0']


def filled(rng, codec, fill, size):
    """Encodings of the characters in turn, from any of them on, up to `size` bytes, and ASCII for the rest."""
    data, at = b'', rng.randrange(len(fill))
    while len(data) + len(fill[at % len(fill)].encode(codec)) <= size:
        data += fill[at % len(fill)].encode(codec)
        at += 1
    rest = size - len(data)
    return data, ('x' * rest).encode(codec)[:rest]


def other(rng, codec):
    if rng.random() < 0.3:
        return rng.choice(CODES).encode(codec)
    data = bytes.fromhex(rng.choice(BYTES if codec == 'utf-8' else UNITS))
    if codec == 'utf-16-le':
        return b''.join(data[k:k + 2][::-1] for k in range(0, len(data), 2))
    return data


def block(rng, codec, fill):
    """Text, the thing that is other at an edge, and text; of units perhaps half a one at the end."""
    unit = 1 if codec == 'utf-8' else 2
    thing = other(rng, codec)
    place = rng.choice(range(16, 129, 16)) - unit * rng.randrange(len(thing) // unit + 1)
    size = rng.choice([place + len(thing), MOST, rng.randrange(place + len(thing), MOST + len(thing))])
    front, ascii_front = filled(rng, codec, fill, place)
    back, ascii_back = filled(rng, codec, fill, (size - place - len(thing)) // unit * unit)
    half = bytes(rng.choice([[], [0xd8]])) if unit == 2 else b''
    return ascii_front + front + thing + back + ascii_back + half


def first_fault(code, xs):
    return next((p for p, _, s in cut(code, xs) if s is None), len(xs))


def recoded_rows(rng):
    yield '# FROM TO|INPUT|OUTPUT'
    for source, codec in FORMS.items():
        for target in FORMS:
            for fill in FILLS:
                for _ in range(5):
                    data = block(rng, codec, fill)
                    yield f'{source} {target}|{data.hex()}|{bytes(recoded(source, target, list(data))).hex()}'
    yield from surrogate_rows(random.Random(40))


def surrogate_rows(rng):
    """Forty units of text with a surrogate alone, or a pair, before, among or after them."""
    for source in 'utf16le', 'utf16be':
        codec = FORMS[source]
        for place in range(41):
            for number, units in enumerate(SURROGATES):
                fill = FILLS[(place + number) % len(FILLS)]
                thing = b''.join(int(units[k:k + 4], 16).to_bytes(2, 'big' if codec == 'utf-16-be' else 'little') for k in range(0, len(units), 4))
                front, ascii_front = filled(rng, codec, fill, 2 * place)
                back, ascii_back = filled(rng, codec, fill, 2 * (40 - place))
                data = ascii_front + front + thing + back + ascii_back
                yield f'{source} utf8|{data.hex()}|{bytes(recoded(source, "utf8", list(data))).hex()}'


def place_rows(rng):
    yield '# CALL|ELEMENTS|ASKED|ANSWER'
    for fill in FILLS:
        for _ in range(30):
            data = block(rng, 'utf-8', fill)
            yield f'valid_up_to|{data.hex()}||{first_fault(utf8, list(data))}'
            data = block(rng, 'utf-16-be', fill)
            data = data[:len(data) // 2 * 2]
            units = [int.from_bytes(data[k:k + 2], 'big') for k in range(0, len(data), 2)]
            yield f'units_valid_up_to|{data.hex()}||{first_fault(utf16, units)}'


def fronts_of_codes():
    """What begins the code of a scalar in UTF-8 and is not all of it."""
    codes = (utf8(s) for s in range(0x110000) if not 0xD800 <= s < 0xE000)
    return {bytes(code[:k]) for code in codes for k in range(1, len(code))}


def held(source, data, fronts):
    """What a recoder holds of the bytes: those from the first piece on with which a code may begin that is not all there."""
    if source == 'utf8':
        places = [p for p, _, _ in cut(utf8, list(data)) if data[p:] in fronts]
    else:
        order, even = ('big' if source == 'utf16be' else 'little'), len(data) // 2 * 2
        units = [int.from_bytes(data[k:k + 2], order) for k in range(0, even, 2)]
        places = [2 * p for p, _, s in cut(utf16, units) if s is None and p + 1 == len(units) and units[p] < 0xDC00]
        places += [even] * (len(data) % 2)
    left = data[places[0]:] if places else b''
    decoder = codecs.getincrementaldecoder(FORMS[source])('replace')
    decoder.decode(data)
    kept = decoder.getstate()[0]
    assert left == kept or left == b'' and 'eda0' <= kept.hex() <= 'edbf', (source, data.hex())
    return left


def ends():
    """Ends of UTF-8: each first byte at an edge, with second and third ones about which a code is decided. And ends of units."""
    firsts = [0x41, 0x80, 0xC1, 0xC2, 0xDF, 0xE0, 0xE1, 0xEC, 0xED, 0xEE, 0xEF, 0xF0, 0xF1, 0xF3, 0xF4, 0xF5]
    seconds = [0x0A, 0x7F, 0x80, 0x8F, 0x90, 0x9F, 0xA0, 0xBF, 0xC0, 0xE9]
    for first in firsts:
        yield 'utf8', bytes([first])
        for second in seconds:
            yield 'utf8', bytes([first, second])
            yield from (('utf8', bytes([first, second, third])) for third in (0x0A, 0x80, 0xBF, 0xC3) if first >= 0xE0)
    for data in 'c3a9', 'e282ac', 'f09f92a3', 'f09f920a', '636166e90a', '636166e9', 'f09f9280f09f92', 'e980e9':
        yield 'utf8', bytes.fromhex(data)
    for source in 'utf16le', 'utf16be':
        order = 'big' if source == 'utf16be' else 'little'
        yield from ((source, bytes([half])) for half in (0x00, 0x41, 0xD7, 0xD8, 0xDB, 0xDC, 0xDF, 0xE0, 0xFF))
        for unit in 0x41, 0xD7FF, 0xD800, 0xDBFF, 0xDC00, 0xDFFF, 0xE000, 0xFFFD:
            for half in b'', b'\0', b'A', b'\xd8', b'\xdc', b'\xff':
                yield source, unit.to_bytes(2, order) + half
                yield source, (0xD83D).to_bytes(2, order) + unit.to_bytes(2, order) + half


def held_rows(_):
    yield '# FROM TO|FED|OUTPUT|HELD'
    fronts = fronts_of_codes()
    for number, (source, data) in enumerate(ends()):
        left = held(source, data, fronts)
        done = data[:len(data) - len(left)]
        target = list(FORMS)[number % 3]
        yield f'{source} {target}|{data.hex()}|{bytes(recoded(source, target, list(done))).hex()}|{left.hex()}'


def main(words):
    if words:
        print(__doc__)
        return 0 if words in (['--help'], ['-h']) else 2
    rng = random.Random(130)
    for name, rows in ('blocks', recoded_rows), ('block_places', place_rows), ('held', held_rows):
        path = TOP / f'crates/run_vectors/data/{name}.txt'
        path.write_text(''.join(f'{row}\n' for row in rows(rng)), encoding='ascii')
    return 0


if __name__ == '__main__':
    sys.exit(main(sys.argv[1:]))
