#!/usr/bin/env python3
"""The definitions of docs/rattle/DEFINITIONS.md as a plain program, to hold the proved ones against.

usage: compare/reference.py forward | merge | ends WORD | recode FROM TO   < BYTES

It prints what `pieces` prints with no argument, with --merge and with --ends WORD, and writes what `recode` writes.
It decodes nothing step by step: a code stands where the bytes equal it, and a fault is what no standing code covers.
`python3 -m doctest compare/reference.py` runs the examples.
"""
import sys


def is_scalar(s):
    return 0 <= s < 0x110000 and not 0xD800 <= s <= 0xDFFF


def utf8(s):
    """The code of a scalar in bytes (RFC 3629, section 3).

    >>> bytes(utf8(0x20AC)).hex()
    'e282ac'
    """
    size = 1 + (s >= 0x80) + (s >= 0x800) + (s >= 0x10000)
    first = [0, 0xC0, 0xE0, 0xF0][size - 1] + s // 64 ** (size - 1)
    return [first] + [0x80 + s // 64 ** k % 64 for k in reversed(range(size - 1))]


def utf16(s):
    """The code of a scalar in units (RFC 2781, section 2.1).

    >>> [hex(u) for u in utf16(0x1F600)]
    ['0xd83d', '0xde00']
    """
    return [s] if s < 0x10000 else [0xD800 + (s - 0x10000) // 1024, 0xDC00 + (s - 0x10000) % 1024]


def value(w):
    """The payloads of some bytes, added up: the only scalar of which they can be the code."""
    first = w[0] - [0, 0, 0xC0, 0xE0, 0xF0][len(w)]
    return sum((x - 0x80 if k else first) * 64 ** (len(w) - 1 - k) for k, x in enumerate(w))


def pair_value(w):
    return w[0] if len(w) == 1 else 0x10000 + (w[0] - 0xD800) * 1024 + w[1] - 0xDC00


def stands(code, xs, p):
    """The scalar encoded in xs at the offset p and its length, or None."""
    guess, most = (value, 4) if code is utf8 else (pair_value, 2)
    for n in range(1, min(most, len(xs) - p) + 1):
        s = guess(xs[p:p + n])
        if is_scalar(s) and code(s) == xs[p:p + n]:
            return s, n
    return None


def cut(code, xs):
    """All pieces of xs: place, length, and the scalar, or None for an element that no standing code covers.

    >>> cut(utf8, [0x41, 0xE0, 0x80, 0xC3, 0xA9])
    [(0, 1, 65), (1, 1, None), (2, 1, None), (3, 2, 233)]
    """
    codes = [(p, n, s) for p in range(len(xs)) for s, n in [stands(code, xs, p) or (None, 0)] if n]
    covered = {k for p, n, _ in codes for k in range(p, p + n)}
    return sorted(codes + [(p, 1, None) for p in range(len(xs)) if p not in covered], key=lambda piece: piece[0])


def asked(b):
    """How many bytes a code has that begins with b, or 0 if none does."""
    return 1 if b < 0x80 else 0 if b < 0xC2 or b > 0xF4 else 2 if b < 0xE0 else 3 if b < 0xF0 else 4


def is_continuation(b):
    return 0x80 <= b <= 0xBF


def forward_kind(w):
    """What is wrong with bytes that no code begins: the first case that applies (RFC 3629, sections 3 and 4).

    >>> forward_kind([0xE0, 0x80]), forward_kind([0xE0, 0x80, 0x80])
    ('TooFewBytes', 'OverlongEncoding')
    """
    n = asked(w[0])
    if is_continuation(w[0]):
        return 'UnexpectedContinuationByte'
    if n == 0:
        return 'NonUtf8Byte'
    if len(w) < n:
        return 'TooFewBytes'
    if not all(is_continuation(b) for b in w[1:n]):
        return 'InterruptedSequence'
    if value(w[:n]) < {3: 0x800, 4: 0x10000}.get(n, 0):
        return 'OverlongEncoding'
    return 'Utf16ReservedCodepoint' if value(w[:n]) < 0xE000 else 'TooHighCodepoint'


def merger_kind(w):
    """The kind of a fault for a reader of one byte at a time: it sees a byte that breaks a sequence first."""
    is_broken = any(not is_continuation(b) for b in w[1:asked(w[0])])
    return 'InterruptedSequence' if is_broken else forward_kind(w)


def back_kind(b):
    """What is wrong with a last byte that ends no code, by itself."""
    return forward_kind([b])


def forward(xs):
    """The pieces from the front, each fault with the kind of all bytes from it on."""
    return [(p, n, forward_kind(xs[p:]) if s is None else s) for p, n, s in cut(utf8, xs)]


def merged(xs):
    return [merger_kind(xs[p:]) if s is None else s for p, n, s in cut(utf8, xs)]


def walk(xs, word):
    """The pieces that the letters take, F from the front of what is left and B from its back; None if none is left.

    >>> walk([0xE0, 0x80, 0x80], 'FBFF')
    [(0, 1, 'OverlongEncoding'), (2, 1, 'UnexpectedContinuationByte'), (1, 1, 'UnexpectedContinuationByte'), None]
    """
    pieces, i, j, answers = cut(utf8, xs), 0, len(xs), []
    for letter in word:
        if i == j:
            answers.append(None)
        elif letter == 'F':
            p, n, s = next(x for x in pieces if x[0] == i)
            answers.append((p, n, forward_kind(xs[i:j]) if s is None else s))
            i += n
        else:
            p, n, s = next(x for x in pieces if x[0] + x[1] == j)
            answers.append((p, n, back_kind(xs[p]) if s is None else s))
            j -= n
    return answers


def recoded(source, target, xs):
    """The codes of what some bytes show: the scalars of their cut, and U+FFFD for a fault or an odd last byte.

    >>> bytes(recoded('utf8', 'utf16le', [0x66, 0xCF, 0x62])).hex()
    '6600fdff6200'
    """
    order = {'utf16le': 'little', 'utf16be': 'big'}
    if source == 'utf8':
        pieces = cut(utf8, xs)
    else:
        pieces = cut(utf16, [int.from_bytes(xs[k:k + 2], order[source]) for k in range(0, len(xs) - 1, 2)])
        pieces += [(len(xs), 1, None)] * (len(xs) % 2)
    shown = [0xFFFD if s is None else s for _, _, s in pieces]
    if target == 'utf8':
        return [b for s in shown for b in utf8(s)]
    return [b for s in shown for u in utf16(s) for b in u.to_bytes(2, order[target])]


def answer_text(answer):
    return f'{answer:06x}' if isinstance(answer, int) else answer


def lines(mode, xs, word=''):
    """The lines of `pieces`: of the pieces, of a merger's items, or of a walk."""
    if mode == 'merge':
        return [answer_text(it) for it in merged(xs)]
    items = forward(xs) if mode == 'forward' else walk(xs, word)
    return ['none' if it is None else f'{it[0]} {it[1]} {answer_text(it[2])}' for it in items]


def main(words):
    match words:
        case ['forward' | 'merge'] | ['ends', _]:
            sys.stdout.writelines(f'{it}\n' for it in lines(words[0], list(sys.stdin.buffer.read()), *words[1:]))
        case ['recode', source, target]:
            sys.stdout.buffer.write(bytes(recoded(source, target, list(sys.stdin.buffer.read()))))
        case _:
            print(__doc__)
            return 0 if words in (['--help'], ['-h']) else 2
    return 0


if __name__ == '__main__':
    sys.exit(main(sys.argv[1:]))
