"""What the tests expect, from outside of the package: the interpreter's own strict decoders, one character at a time."""
import os
import random
import site

TOP = os.path.dirname(os.path.dirname(os.path.dirname(os.path.abspath(__file__))))
CODECS = {"noddychest-utf8": "utf-8", "noddychest-utf16le": "utf-16-le", "noddychest-utf16be": "utf-16-be"}
# Bytes near which the rules change.
EDGES = bytes.fromhex("00417f80818f909fa0bfc0c1c2dfe0e1ecedeeeff0f1f3f4f5ff")


def cut(data, encoding="utf-8"):
    """Pieces by the definition: a character if the bytes are its encoding, and otherwise a fault of one byte or unit."""
    unit = 1 if encoding == "utf-8" else 2
    found, at = [], 0
    while at < len(data):
        for size in (1, 2, 3, 4):
            try:
                char = data[at:at + size].decode(encoding)
            except UnicodeDecodeError:
                continue
            if len(char) == 1 and at + size <= len(data):
                break
        else:
            char, size = None, min(unit, len(data) - at)
        found.append((at, char, size))
        at += size
    return found


def shown(data, encoding="utf-8"):
    return "".join("\ufffd" if char is None else char for _, char, _ in cut(data, encoding))


def characters(source):
    return source.choice("a\0\x7f\x80é߿ࠀ€퟿\ue000�￿𐀀😀\U0010ffff")


def inputs(count, longest, seed=1):
    """Random bytes: some of them text, some of it damaged, some from the edges."""
    source = random.Random(seed)
    for _ in range(count):
        size = source.randint(1, longest)
        encoding = source.choice(list(CODECS.values()))
        data = bytearray("".join(characters(source) for _ in range(size)).encode(encoding)[:size])
        for _ in range(source.choice([0, 0, 1, 2, size])):
            data[source.randrange(len(data))] = source.choice(EDGES)
        yield bytes(data)


# About a million bytes each, of which at least half are invalid.
DENSE = [bytes(range(128, 256)) * 8000, b"\xff" * 1_000_000, b"a\x80" * 500_000, b"\xed\xa0\x80" * 333_333]


def damaged(line, every, size):
    """Text of about `size` bytes, of which every `every`th is invalid."""
    text = line * (size // len(line) + 1)
    return b"".join(text[at:at + every - 1] + b"\xff" for at in range(0, size, every))


def rows(name):
    """The lines of one of the repository's lists of vectors, or None if only the package is there."""
    path = os.path.join(TOP, "crates", "conformance", "data", name)
    if not os.path.exists(path):
        return None
    with open(path, encoding="ascii") as file:
        return [line.rstrip("\n").split("|") for line in file if not line.startswith("#")]


def skip_unless_installed(test):
    """Where the package is not among those of the interpreter, as where PYTHONPATH names it, no line of it runs at the start."""
    import noddychest

    folder = os.path.dirname(os.path.dirname(os.path.abspath(noddychest.__file__)))
    if folder not in map(os.path.abspath, [*site.getsitepackages(), site.getusersitepackages()]):
        test.skipTest("the package is not installed")
