"""What Python makes of damaged UTF-8 with errors="replace": whole, and by an incremental decoder in parts.

usage: lossy.py FILE: each line is `INPUT|OUTPUT`, both in hexadecimal digits.
Status 0: nothing differs. 1: something does.
"""

import codecs
import sys

INCREMENTAL = codecs.getincrementaldecoder("utf-8")


def whole(data):
    return data.decode("utf-8", "replace")


def in_parts(data, size):
    decoder = INCREMENTAL("replace")
    parts = [decoder.decode(data[at : at + size]) for at in range(0, len(data), size)]
    return "".join(parts) + decoder.decode(b"", True)


def main(path):
    inputs = differing = 0
    with open(path, encoding="ascii") as lines:
        for line in lines:
            data, expected = map(bytes.fromhex, line.rstrip("\n").split("|"))
            expected = expected.decode("utf-8")
            answers = [whole(data), in_parts(data, 1), in_parts(data, 1 + inputs % 7)]
            inputs += 1
            if any(answer != expected for answer in answers):
                differing += 1
                if differing <= 5:
                    print(f"{data.hex()}: {answers}, where std has {expected!r}")
    print(f"lossy: {inputs} inputs, Python beside std, {differing} differ")
    return 1 if differing else 0


if __name__ == "__main__":
    sys.exit(main(sys.argv[1]))
