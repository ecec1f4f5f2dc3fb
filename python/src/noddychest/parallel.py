"""Calls that use all cores of one machine: threads, each of which reads a shard and lets the interpreter's lock go.

>>> import os, tempfile
>>> folder = tempfile.TemporaryDirectory()
>>> path, out = os.path.join(folder.name, "text"), os.path.join(folder.name, "out")
>>> with open(path, "wb") as file:
...     _ = file.write(b"a\\xffb\\n" * 1000)
>>> recode(path, out, "utf8", "utf16le", jobs=2)
Recoded(read=4000, written=8000, replaced=1000)
>>> len(check(path, jobs=2).offsets), count(path, jobs=2).lines
(1000, 1000)
>>> folder.cleanup()
"""
from __future__ import annotations

import contextlib
import fcntl
import hashlib
import os
import secrets
import sys
import threading
import time
from collections.abc import Callable, Iterable, Iterator
from concurrent.futures import ThreadPoolExecutor
from typing import TYPE_CHECKING, Literal, NamedTuple, Optional, TypeVar, Union, overload

from ._names import form_of, form_or_auto
from ._permissions import refuse_unwritable, take_permissions
from ._pieces import boundary_before
from ._recoding import checked
from ._shards import BLOCK, ChangedError, Counts, Faults, LocatedFaults, Recoded, Shard, counted_on, no_faults, opened, path_of, place_of, shards, shards_to_recode
from ._version import __version__

if TYPE_CHECKING:
    from ._repair import Errors, Table
    from ._shards import Path, Source

    Progress = Union[bool, Callable[[int, int], object]]

__all__ = ["check", "count", "recode"]

SIZE = BLOCK  # of a shard; a job has one, and what came of three. The memory of larger ones is returned each time, at a high cost
_FAR = 4 * BLOCK  # of a shard that is asked for over a network
_WINDOW = 64  # the most shards from the first that is not written yet to the last that is being made

_Answer = TypeVar("_Answer")


def jobs_here() -> int:
    """How many CPUs this process may use."""
    return len(os.sched_getaffinity(0))


def _size(source: Source) -> int:
    return _FAR if isinstance(source, str) and "://" in source else SIZE


def _some_jobs(jobs: Optional[int]) -> int:
    if jobs is None:
        return jobs_here()
    if jobs < 1:
        raise ValueError("there has to be at least 1 job")
    return jobs


def _is_watched() -> bool:
    """Whether standard error is a terminal. (It may be closed, or something that a program put in its place.)"""
    try:
        return sys.stderr.isatty()
    except (AttributeError, ValueError):
        return False


class Bar:
    """The progress of a call: passed to a function, or shown as a line on standard error, if that is a terminal and it takes a while."""

    def __init__(self, progress: Progress, total: int) -> None:
        self._call = progress if callable(progress) else self._show if progress and _is_watched() else None
        self._total, self._done, self._begun, self._shown = total, 0, time.monotonic(), 0.0

    def add(self, size: int) -> None:
        self._done += size
        if self._call is not None:
            self._call(self._done, self._total)

    def _show(self, done: int, total: int) -> None:
        now = time.monotonic()
        if now - self._begun > 1 and (now - self._shown > 0.1 or done == total):
            self._shown = now
            ended = "\n" if done == total else ""
            print(f"\r{done / 1e6:,.0f} of {total / 1e6:,.0f} MB, {done / (now - self._begun) / 1e6:,.0f} MB/s ", end=ended, file=sys.stderr, flush=True)


# ---- reading ----


def each(function: Callable[[Shard], _Answer], them: list[Shard], jobs: Optional[int], progress: Progress) -> Iterator[_Answer]:
    """The results for all shards, in order. Few of them wait."""
    jobs = _some_jobs(jobs)
    bar = Bar(progress, sum(it.end - it.start for it in them))
    left, waiting = iter(them), []
    pool = ThreadPoolExecutor(jobs)
    try:
        for shard in left:
            waiting.append((shard, pool.submit(function, shard)))
            if len(waiting) > 2 * jobs:
                done, future = waiting.pop(0)
                yield future.result()
                bar.add(done.end - done.start)
        for done, future in waiting:
            yield future.result()
            bar.add(done.end - done.start)
    finally:
        pool.shutdown(cancel_futures=True)


@overload
def check(source: Source, encoding: str = "utf8", jobs: Optional[int] = None, progress: Progress = True, *, positions: Literal[False] = False) -> Faults: ...
@overload
def check(source: Source, encoding: str = "utf8", jobs: Optional[int] = None, progress: Progress = True, *, positions: Literal[True]) -> LocatedFaults: ...
def check(source: Source, encoding: str = "utf8", jobs: Optional[int] = None, progress: Progress = True, *,
          positions: bool = False) -> Union[Faults, LocatedFaults]:
    """All invalid bytes of a large text, in several threads.

    source: a path, as for open(): a `str`, `bytes` or a PathLike; a URL, a `str` with `://`, that fsspec opens; or text in memory, any other
    bytes-like object: of a `bytes` its memoryview. encoding: that of the source, or `auto`: that of its byte order mark, or UTF-8 if there is
    none; the mark counts as a character. jobs: how many threads; by default one for each CPU.
    progress: whether to show a line on standard error, if that is a terminal, after a second; or a function that is called with the number
    of bytes that are done, and of all. positions: whether each also has its line, its column and its byte column.
    Result: the offsets, the lengths and the kinds, as arrays: those of `faults_array` of the whole; and with positions those of `located`.
    Errors: LookupError, ValueError, OSError; ChangedError, an OSError, if the source was changed meanwhile. Cost: that of validation; a
    job has 1 MB and the faults of it, and the result takes 10 bytes for each fault, or 34 with positions.

    >>> check(memoryview(b"ab\\xff")).offsets.tolist()
    [2]
    >>> check(memoryview(b"a\\nb\\xff"), positions=True).places.tolist()
    [2, 2, 2]
    """
    if positions:
        return counted_on(each(Shard.located_array, shards(source, _size(source), encoding), jobs, progress)).faults
    found = no_faults()
    for it in each(Shard.faults_array, shards(source, _size(source), encoding), jobs, progress):
        found.extend(it)
    return found


def count(source: Source, encoding: str = "utf8", jobs: Optional[int] = None, progress: Progress = True) -> Counts:
    """How many bytes, characters, line ends, and invalid bytes of each kind a large text has. The arguments and the errors are those of
    `check`. Cost: some times that of validation; a job has 1 MB.

    >>> count(memoryview("né\\n".encode())).characters
    3
    """
    total = Counts()
    for it in each(Shard.counts, shards(source, _size(source), encoding), jobs, progress):
        total = total.plus(it)
    return total


# ---- writing ----


class _Made(NamedTuple):
    """The output of a shard, and its offset."""

    number: int
    parts: list[bytes]
    replaced: int
    place: int


class _Line:
    """Shards in a line: they are taken in order. The output of one gets its place once all before it are converted, and then any
    job may write it. Few are on their way at once."""

    def __init__(self, them: list[Shard], first: int, place: int, jobs: int, bar: Bar) -> None:
        self._them, self._bar = them, bar
        self._changed = threading.Condition()
        self._next = self._turn = self._whole = first
        self._most = min(3 * jobs, _WINDOW)
        self._place = place
        self._made: dict[int, _Made] = {}  # what has no place yet
        self._placed: list[_Made] = []
        self._written: set[int] = set()
        self._failures: dict[int, BaseException] = {}
        self.replaced = 0

    def next(self) -> Union[_Made, int, None]:
        """What is to be written, or otherwise the number of a shard that is to be converted; None at the end, or if a job failed."""
        with self._changed:
            while not self._failures:
                if self._placed:
                    return self._placed.pop()
                if self._next == len(self._them) and self._turn == self._next:
                    return None
                if self._next < len(self._them) and self._next - self._whole < self._most:
                    self._next += 1
                    return self._next - 1
                self._changed.wait()
            return None

    def put(self, number: int, parts: list[bytes], replaced: int) -> None:
        with self._changed:
            self._made[number] = _Made(number, parts, replaced, 0)
            while self._turn in self._made:
                made = self._made.pop(self._turn)._replace(place=self._place)
                self._placed.append(made)
                self._place += sum(map(len, made.parts))
                self._turn += 1
            self._changed.notify_all()

    def wrote(self, made: _Made) -> None:
        with self._changed:
            self._written.add(made.number)
            while self._whole in self._written:
                self._written.remove(self._whole)
                self._whole += 1
            self.replaced += made.replaced
            self._bar.add(self._them[made.number].end - self._them[made.number].start)
            self._changed.notify_all()

    def fail(self, number: int, error: BaseException) -> None:
        with self._changed:
            self._failures[number] = error
            self._changed.notify_all()

    def end(self) -> int:
        """The length of the output; or raises what the first shard raised that failed."""
        if self._failures:
            raise self._failures[min(self._failures)]
        return self._place


def recoded(shard: Shard, to: str, errors: Union[str, Table]) -> tuple[list[bytes], int]:
    """What comes of a shard, and how many invalid bytes were replaced."""
    parts: list[bytes] = []
    made = shard.recode_into(parts.append, to, errors, shard.end - shard.start)
    return parts, made.replaced


def recoded_size(shard: Shard, to: str, errors: Union[str, Table]) -> int:
    """How many bytes come of a shard."""
    return shard.recoded_len(to) if errors == "replace" else shard.recode_into(lambda part: None, to, errors).written


def write_at(file: int, parts: Iterable[bytes], place: int) -> None:
    for part in parts:
        view = memoryview(part)
        while view:
            done = os.pwrite(file, view, place)
            view, place = view[done:], place + done


def _work(line: _Line, them: list[Shard], file: int, to: str, errors: Union[str, Table]) -> None:
    try:
        while (it := line.next()) is not None:
            try:
                if isinstance(it, _Made):
                    write_at(file, it.parts, it.place)
                    line.wrote(it)
                else:
                    line.put(it, *recoded(them[it], to, errors))
            except BaseException as error:  # (it is raised in the thread that called)
                line.fail(it.number if isinstance(it, _Made) else it, error)
                return
            del it  # (its bytes are not kept while this waits)
    finally:
        os.close(file)


def _run(line: _Line, jobs: int, them: list[Shard], file: int, to: str, errors: Union[str, Table]) -> None:
    threads = []
    try:
        for _ in range(min(jobs, len(them))):
            threads.append(threading.Thread(target=_work, args=(line, them, os.dup(file), to, errors)))
            threads[-1].start()
        for it in threads:
            it.join()
    except BaseException as error:  # (as KeyboardInterrupt)
        line.fail(-1, error)
        for it in threads:
            with contextlib.suppress(RuntimeError):  # (it came before the last one had started, which finds nothing to do then)
                it.join()


def recode(source: Source, out: Path, from_: str, to: str, jobs: Optional[int] = None, progress: Progress = True,
           *, errors: Errors = "replace", resume: bool = False) -> Recoded:
    """Transcodes a large text into a file, in several threads. The file has the bytes of `recode` of the whole.

    source, jobs, progress: as for `check`. out: the file, which may be the source itself. from_, to, errors: as for `noddychest.recode`. from_
    may be `auto` too; then the mark that tells it is left out.
    resume: whether a run that was interrupted goes on. What such a run has written stands in `OUT.….partial` beside the file; the name
    tells the source with its time of change, the arguments and the version of this package, so that only the same run finds it. By its length those shards are found
    that need not be converted again; they are read to know their lengths. After a crash of the machine begin anew.
    Result: how many bytes were read and written, and how many invalid bytes were replaced (of the shards that this run converted).
    The file is written under another name beside it, is brought to the disk, and gets its name then: under its own name there is never a
    part of it. If anything fails, `out` is as it was; what was written goes away, but with `resume`. Right before that the source is looked
    at once more: so if it is the output too, nothing is lost that another process wrote to it meanwhile.
    Errors: as for `check`. With `strict` FaultError, with the offset of the first invalid byte of all. OSError if the disk is full.
    PermissionError if `out` is there and may not be written. BlockingIOError if another run with `resume` writes the same. Cost: each job has
    1 MB, and the output of three times as many.
    """
    errors = checked(from_, to, errors)  # (before anything is written)
    jobs = _some_jobs(jobs)
    them = shards_to_recode(source, _size(source), from_)
    if resume and not isinstance(source, (str, bytes, os.PathLike)):
        raise ValueError("resume is for a path or a URL")
    target = os.path.realpath(path_of(out))
    if os.path.exists(target) and not os.path.isfile(target):
        raise OSError(f"{target} is no file that can be replaced")
    refuse_unwritable(target)
    with partial(target, _run_name(them, from_, to, errors) if resume else None, lambda: look_again(place_of(source), stamp_of(them))) as file:
        first, place = _standing(file, them, to, errors, jobs) if resume else (0, 0)
        os.ftruncate(file, place)
        bar = Bar(progress, sum(it.end - it.start for it in them))
        bar.add(them[first].start - them[0].start if first < len(them) else 0)
        line = _Line(them, first, place, jobs, bar)
        _run(line, jobs, them, file, to, errors)
        written = line.end()
        os.ftruncate(file, written)
    return Recoded(sum(it.end - it.start for it in them), written, line.replaced)


def stamp_of(them: list[Shard]) -> Optional[tuple[int, str]]:
    """The stamp of a source. Of an empty one there are no shards, and None."""
    return them[0].stamp if them else None


def look_again(source: Union[str, memoryview], stamp: Optional[tuple[int, str]]) -> None:
    """Raises ChangedError if the source is not as it was. (One that was removed meanwhile was read to its end before)"""
    with contextlib.suppress(FileNotFoundError), opened(source) as it:
        now = it.stamp()
        if tuple(now) != tuple(stamp) if stamp is not None else now[0] != 0:
            raise ChangedError(f"{source if isinstance(source, str) else 'the buffer'} was changed after it was read")


def label_of(errors: Union[str, Table]) -> str:
    """What distinguishes a way with errors from others."""
    return errors if isinstance(errors, str) else f"table {hashlib.sha256(errors.numbers).hexdigest()[:16]}"


def _run_name(them: list[Shard], from_: str, to: str, errors: Union[str, Table]) -> str:
    """What distinguishes a run from others: the source as it is, the arguments, and the version of the package."""
    words = [(os.path.abspath(str(it.source)), *it.stamp, form_or_auto(from_), form_of(to), label_of(errors), SIZE, __version__) for it in them[-1:]]
    return hashlib.sha256(repr(words).encode("utf-8", "surrogatepass")).hexdigest()[:16]


def _beside(target: str, end: str) -> str:
    """The target's name with this at its end: of a long name its front, since file systems take at most 255 bytes."""
    folder, name = os.path.split(os.fsencode(target))
    return os.path.join(os.fsdecode(folder), os.fsdecode(name[: boundary_before(name, max(min(len(name), 255 - len(end)), 0))]) + end)


@contextlib.contextmanager
def partial(target: str, name: Optional[str], last_look: Callable[[], None]) -> Iterator[int]:
    """A file beside the target, that gets its name at the end, if the last look raises nothing, and its permissions. Without a name of its
    own it goes away if anything fails, also if a signal raises something at any moment."""
    path, file = _beside(target, f".{name or secrets.token_hex(8)}.partial"), -1
    about = os.stat(target) if os.path.exists(target) else None
    try:
        flags = os.O_RDWR | os.O_CREAT | os.O_NOFOLLOW | os.O_CLOEXEC | (0 if name else os.O_EXCL)
        file = os.open(path, flags, 0o666 if about is None else 0o600)
        if name is not None:
            _lock(file, path)
        if about is not None:
            take_permissions(file, target, about)
        yield file
        os.fsync(file)  # (this takes long, so the look comes after it)
        last_look()
        os.replace(path, target)
        path = ""
        sync_folder(os.path.dirname(target))
    finally:
        if file >= 0:
            os.close(file)
        if path and name is None:
            with contextlib.suppress(FileNotFoundError):
                os.remove(path)


def _lock(file: int, path: str) -> None:
    """Keeps other runs out. One that ended in between has given the file its name: then it is another's already."""
    try:
        fcntl.flock(file, fcntl.LOCK_EX | fcntl.LOCK_NB)
        if os.path.samestat(os.fstat(file), os.stat(path)):
            return
    except (BlockingIOError, FileNotFoundError):
        pass
    raise BlockingIOError(f"{path}: another run writes it")


def sync_folder(path: str) -> None:
    """Brings a new name to the disk, if that is possible: not all file systems can, and a folder that may be written may not be readable. It is
    no failure, since the file has its name already."""
    with contextlib.suppress(OSError):
        folder = os.open(path, os.O_RDONLY | os.O_DIRECTORY)
        try:
            os.fsync(folder)
        finally:
            os.close(folder)


def _standing(file: int, them: list[Shard], to: str, errors: Union[str, Table], jobs: int) -> tuple[int, int]:
    """How many shards are written in the file of a run that was interrupted, and the length of their output. Those in the window before its
    end may not be written yet."""
    size, ends = os.fstat(file).st_size, [0]
    lengths = each(lambda it: recoded_size(it, to, errors), them, jobs, False)
    try:
        for it in lengths:
            if ends[-1] + it > size:
                break
            ends.append(ends[-1] + it)
    finally:
        lengths.close()  # type: ignore[attr-defined]
    whole = max(len(ends) - 1 - _WINDOW, 0)
    return whole, ends[whole]
