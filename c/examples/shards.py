"""Transcodes the shards of a text that lie on many machines, each where it lies, on workers of dask.distributed (Debian:
python3-distributed). examples/shards.c says where a text may be cut into such files.

Each worker reads its own file in blocks and writes FILE.recoded beside it. Only names, lengths and six bytes of each file cross the
network: these tell whether a file ends inside a character, so that the joined text is another. It pays where
the files already lie on the workers' machines, so that nothing has to be copied. On one machine it does not: there 300 MB took
./recode 1.1 to 1.6 s, and one to four workers 6 to 12 s, most of it to start them (25 November 2026). NODDYCHEST names the
library, libnoddychest.so.1, on each machine."""
import argparse
import os
import sys
from time import monotonic

FORMS = {"utf8": 0, "utf16le": 1, "utf16be": 2}
BLOCK = 1 << 20


def recode(source, to, path):
    """Transcodes a file into FILE.recoded: how many bytes were read and written, its first three bytes, and those held at its end."""
    from ctypes import byref, c_size_t, create_string_buffer

    from noddychest import LIBRARY, Recoder
    room, recoder, read, count, sums = create_string_buffer(3 * (BLOCK + 3)), Recoder(source, to, 0), c_size_t(), c_size_t(), [0, 0]
    with open(path, "rb") as file, open(f"{path}.recoded", "wb") as made:
        front = file.read(3)
        file.seek(0)
        for block in iter(lambda: file.read(BLOCK), b""):
            LIBRARY.nody_recoder_feed(byref(recoder), block, len(block), room, len(room), byref(read), byref(count))
            made.write(memoryview(room)[: count.value])
            sums = [sums[0] + read.value, sums[1] + count.value]
        held = bytes(recoder.held[: recoder.count])
        LIBRARY.nody_recoder_finish(byref(recoder), room, len(room), byref(count))
        made.write(memoryview(room)[: count.value])
    return sums[0], sums[1] + count.value, front, held


def are_apart(source, held, front):
    """Whether a text may be cut between the bytes that end one file, as a recoder holds them, and those that begin the next."""
    from noddychest import LIBRARY
    return LIBRARY.nody_boundary_before(source, held + front, len(held + front), len(held)) == len(held)


def arguments():
    parser = argparse.ArgumentParser(description=__doc__, formatter_class=argparse.RawDescriptionHelpFormatter)
    parser.add_argument("source", metavar="FROM", choices=FORMS, help="utf8, utf16le or utf16be")
    parser.add_argument("to", metavar="TO", choices=FORMS)
    parser.add_argument("files", metavar="FILE", nargs="+", help="the shards, in order, by their names on the workers' machines")
    parser.add_argument("--scheduler", metavar="ADDRESS", help="where a cluster is; else workers are started here")
    parser.add_argument("--workers", metavar="N", type=int, default=2, help="how many are started here (2)")
    given = parser.parse_args()
    if given.workers < 1:
        parser.error("at least one worker is needed")
    if not given.scheduler:
        for path in given.files:
            if not os.path.isfile(path):
                parser.error(f"{path}: no such file")
            if os.path.getsize(path) == 0:
                parser.error(f"{path}: a shard of size 0 is none")
    if "NODDYCHEST" not in os.environ:
        parser.error("NODDYCHEST has to name libnoddychest.so.1")
    return given


def main():
    given = arguments()
    from distributed import Client
    here = {} if given.scheduler else {"n_workers": given.workers, "threads_per_worker": 1, "dashboard_address": None}
    with Client(given.scheduler, **here) as client:
        begun = monotonic()
        made = client.gather([client.submit(recode, FORMS[given.source], FORMS[given.to], path, pure=False) for path in given.files])
        print(f"{len(made)} shards, {sum(it[0] for it in made)} bytes, {monotonic() - begun:.2f} s without the start", file=sys.stderr)
    cut = [path for path, one, two in zip(given.files, made, made[1:]) if not are_apart(FORMS[given.source], one[3], two[2])]
    if cut:
        sys.exit(f"shards.py: ends inside a character, so the joined text is another: {', '.join(cut)}")


if __name__ == "__main__":
    main()
