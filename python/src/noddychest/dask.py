"""The calls of noddychest.parallel on many machines: workers of dask.distributed read shards, and only what they found crosses the network.

It needs the packages dask and distributed (`pip install './python[dask]'` in a clone; of Debian python3-dask and python3-distributed), and on the workers
this package. On one machine noddychest.parallel does the same without them, and is faster.

    from distributed import Client
    from noddychest import dask

    client = Client("scheduler:8786")
    dask.recode(client, "/data/big.txt", "/data/big.utf16", "utf8", "utf16le")
    dask.check(client, ["https://example.org/a.txt", "https://example.org/b.txt"])["https://example.org/a.txt"].offsets
"""
from __future__ import annotations

import contextlib
import errno
import fcntl
import importlib
import itertools
import json
import os
import re
import secrets
import stat
from collections.abc import Callable, Iterator, Sequence
from typing import TYPE_CHECKING, Any, Literal, NamedTuple, Optional, TypeVar, Union, overload

from ._names import form_of, form_or_auto
from ._permissions import take_permissions
from ._pieces import FaultError
from ._recoding import checked
from ._shards import (
    ChangedError, Counts, Faults, LocatedFaults, Recoded, Shard, counted_on, no_faults, opened, path_of, place_of, shards, shards_to_recode,
)
from ._version import __version__
from .parallel import Bar, label_of, look_again, recoded_size, sync_folder, write_at

if TYPE_CHECKING:
    from ._repair import Errors, Table
    from ._shards import Path
    from .parallel import Progress

    Sources = Union[Path, Sequence[Path]]

__all__ = ["RecodedFiles", "check", "count", "recode"]

SIZE = 64 << 20  # of a shard; a worker reads it by blocks of 1 MB
MANIFEST = ".noddychest-manifest.json"  # in the folder of the output; `cat FOLDER/*` leaves it out
_PART = re.compile("part-[0-9]{5,}")

_Answer = TypeVar("_Answer")
_Stamp = tuple[int, str]


class RecodedFiles(Recoded):
    """What `recode` made, of all files together."""

    failed: dict[str, OSError]
    """The files of a folder that were left out since they cannot be read, each with the reason; and so folders in it."""


# ---- what workers do: each may be done again, by another worker ----


class _Input(NamedTuple):
    name: str  # as it was given, or found in the folder
    source: str  # as workers open it
    path: str  # relative to the folder for the output; empty if there is one output


class _Inputs(NamedTuple):
    """The files to read. Those of a folder that cannot be read are reported, and left out."""

    files: list[_Input]
    odd: dict[str, OSError]
    is_folder: bool


def _inputs(source: Union[_Input, list[_Input]]) -> _Inputs:
    """The files of a folder, those of a list, or one file."""
    if isinstance(source, list):
        return _Inputs(source, {}, False)
    if "://" in source.source:
        core: Any = importlib.import_module("fsspec.core")
        system, top = core.url_to_fs(source.source)
        if not system.isdir(top):
            return _Inputs([source], {}, False)
        url: Callable[[str], str] = system.unstrip_protocol
        is_local = "file" in ([system.protocol] if isinstance(system.protocol, str) else system.protocol)
        found, odd = _walk(top) if is_local else (sorted(it for it in system.find(top) if os.path.basename(it) != MANIFEST), {})
        return _Inputs([_Input(url(it), url(it), os.path.relpath(it, top)) for it in found], {url(it): error for it, error in odd.items()}, True)
    if not os.path.isdir(source.source):
        return _Inputs([source], {}, False)
    found, odd = _walk(source.source)
    files = [_Input(_named(source, it), it, os.path.relpath(it, source.source)) for it in found]
    return _Inputs(files, {_named(source, it): error for it, error in odd.items()}, True)


def _named(folder: _Input, path: str) -> str:
    """A path in a folder, as it begins where the folder was given."""
    return folder.name if path == folder.source else os.path.join(folder.name, os.path.relpath(path, folder.source))


def _walk(top: str) -> tuple[list[str], dict[str, OSError]]:
    """The files of a folder and of those in it, in order; and the folders that cannot be read, or are links, which are not followed."""
    found, odd = [], {}

    def note(error: OSError) -> None:
        odd[str(error.filename)] = error

    for folder, folders, names in os.walk(top, onerror=note):
        found += [os.path.join(folder, name) for name in names if name != MANIFEST]
        for it in (os.path.join(folder, name) for name in folders):
            if os.path.islink(it):
                odd[it] = OSError(errno.ELOOP, "a link to a folder is not followed", it)
    return sorted(found), odd


class _Planned(NamedTuple):
    """A source as it is, and its shards."""

    stamp: _Stamp
    shards: list[Shard]


_Divided = Callable[[str, int, str], list[Shard]]


def _planned(source: str, size: int, encoding: str, divided: _Divided) -> _Planned:
    them = divided(source, size, encoding)
    if them:
        return _Planned(them[0].stamp, them)
    with opened(source) as it:
        return _Planned(it.stamp(), [])


def _begin(path: str, size: int, target: str) -> None:
    """Makes a file of this size, so that a full disk is found early. Until it replaces another one, only its owner may read it."""
    os.makedirs(os.path.dirname(path) or ".", exist_ok=True)
    file = os.open(path, os.O_WRONLY | os.O_CREAT | os.O_CLOEXEC, 0o600 if os.path.exists(target) else 0o666)
    try:
        if size > 0:
            os.posix_fallocate(file, 0, size)
    except OSError as error:
        if error.errno not in (errno.EOPNOTSUPP, errno.EINVAL):
            raise
        os.ftruncate(file, size)
    finally:
        os.close(file)


class _OutputError(OSError):
    """What is written fails, and not what is read."""


@contextlib.contextmanager
def _writing() -> Iterator[None]:
    try:
        yield
    except OSError as error:
        raise _OutputError(error.errno, error.strerror, error.filename) from None


def _write(shard: Shard, to: str, errors: Union[str, Table], path: str, place: int) -> Recoded:
    """Transcodes a shard to its place in a file, and to the disk."""
    with _writing():
        file = os.open(path, os.O_WRONLY | os.O_CLOEXEC)
    try:
        made = place

        def write(part: bytes) -> None:
            nonlocal made
            with _writing():
                write_at(file, [part], made)
            made += len(part)

        done = shard.recode_into(write, to, errors)
        with _writing():
            os.fsync(file)
        return done
    finally:
        os.close(file)


def _end(path: str, target: str, size: int, last_look: Callable[[], None] = lambda: None) -> None:
    """Gives a file its name, if the last look raises nothing. If another worker did that already, there is nothing to do."""
    if os.path.exists(path):
        if os.path.getsize(path) != size:
            raise ChangedError(f"{path} has another length than it should have")
        last_look()
        if os.path.exists(target):
            _take_permissions(path, target)
        os.replace(path, target)
        sync_folder(os.path.dirname(target) or ".")
    elif not os.path.exists(target) or os.path.getsize(target) != size:
        raise FileNotFoundError(errno.ENOENT, os.strerror(errno.ENOENT), path)


def _take_permissions(path: str, target: str) -> None:
    file = os.open(path, os.O_RDONLY | os.O_CLOEXEC)
    try:
        take_permissions(file, target, os.stat(target))
    finally:
        os.close(file)


def _end_file(path: str, target: str, size: int, source: str, stamp: _Stamp) -> None:
    _end(path, target, size, lambda: look_again(source, stamp))


def _stands(path: str, size: int) -> bool:
    return os.path.isfile(path) and os.path.getsize(path) == size


# ---- the manifest: which run made the files of a folder ----


class _Run(NamedTuple):
    """What distinguishes a run from others: the source as it is, the arguments, and the version of the package. The size is that of the shards,
    0 if it makes no difference."""

    source: str
    stamp: _Stamp
    from_: Optional[int]
    to: int
    errors: str
    size: int
    version: str

    def words(self) -> list[Any]:
        """The fields as JSON has them."""
        return [list(it) if isinstance(it, tuple) else it for it in self]


class _Manifest(NamedTuple):
    """The run that made the parts of a folder, or None; and for each other file the run that made it, and the length."""

    parts: Optional[list[Any]]
    files: dict[str, list[Any]]


@contextlib.contextmanager
def _alone(folder: str) -> Iterator[None]:
    """Keeps others from the manifest meanwhile, as far as the file system can."""
    file = os.open(folder, os.O_RDONLY | os.O_DIRECTORY | os.O_CLOEXEC)
    try:
        with contextlib.suppress(OSError):
            fcntl.flock(file, fcntl.LOCK_EX)
        yield
    finally:
        os.close(file)


def _read_manifest(folder: str) -> _Manifest:
    """The manifest of a folder. One that is missing, or that makes no sense, names nothing: then all is made anew."""
    try:
        with open(os.path.join(folder, MANIFEST), encoding="utf-8", errors="surrogateescape") as file:
            words = json.load(file)
        parts, files = words["parts"], words["files"]
        if isinstance(parts, (list, type(None))) and isinstance(files, dict):
            return _Manifest(parts, {name: it for name, it in files.items() if isinstance(it, list) and len(it) == 2})
    except (OSError, ValueError, LookupError, TypeError, RecursionError):
        pass
    return _Manifest(None, {})


def _write_manifest(folder: str, manifest: _Manifest) -> None:
    path = os.path.join(folder, MANIFEST)
    made = f"{path}.{_new_run()}"
    try:
        with open(made, "x", encoding="ascii") as file:
            json.dump({"about": "what noddychest.dask.recode made here, for resume=True", **manifest._asdict()}, file)
            file.flush()
            os.fsync(file.fileno())
        os.replace(made, path)
    except BaseException:
        with contextlib.suppress(OSError):
            os.remove(made)
        raise
    sync_folder(folder)


def _kept(folder: str, wanted: list[tuple[str, _Run]]) -> list[Optional[int]]:
    """Of each file by its path in a folder: its length, if the manifest says that such a run made it, and it has its length; otherwise None."""
    files, found = _read_manifest(folder).files, []
    for path, run in wanted:
        made, size = files.get(path, (None, None))
        found.append(size if made == run.words() and isinstance(size, int) and _stands(os.path.join(folder, path), size) else None)
    return found


def _forget(folder: str, paths: list[str]) -> None:
    """Takes files out of the manifest, before others come in their place."""
    if os.path.isdir(folder):
        with _alone(folder):
            manifest, them = _read_manifest(folder), set(paths)
            if not manifest.files.keys().isdisjoint(them):
                _write_manifest(folder, manifest._replace(files={name: it for name, it in manifest.files.items() if name not in them}))


def _record(folder: str, made: dict[str, tuple[_Run, int]]) -> None:
    """Puts files into the manifest that were made."""
    with _alone(folder):
        manifest = _read_manifest(folder)
        files = {name: [run.words(), size] for name, (run, size) in made.items()}
        _write_manifest(folder, manifest._replace(files={**manifest.files, **files}))


def _begin_parts(folder: str, run: _Run, names: list[str]) -> None:
    """Makes the folder that of a run: parts of another one, or with other numbers, go away. (What has no such name stays) While the folder is
    that of a run, a part in it can only be of this run."""
    os.makedirs(folder, exist_ok=True)
    with _alone(folder):
        manifest = _read_manifest(folder)
        left = set(names) if manifest.parts == run.words() else set()
        for it in list(os.scandir(folder)):
            if _PART.fullmatch(it.name) and it.name not in left and not it.is_dir(follow_symlinks=False):
                os.remove(it.path)
        if manifest.parts != run.words():
            _write_manifest(folder, manifest._replace(parts=run.words()))


def _check_parts(folder: str, run: _Run) -> None:
    if _read_manifest(folder).parts != run.words():
        raise ChangedError(f"{folder}: another run writes its parts there")


def _end_parts(folder: str, run: _Run, sizes: dict[str, int]) -> None:
    """Checks at its end that all parts of a run exist."""
    _check_parts(folder, run)
    for name, size in sizes.items():
        if not _stands(os.path.join(folder, name), size):
            raise ChangedError(f"{os.path.join(folder, name)} was changed by others")


def _write_part(shard: Shard, to: str, errors: Union[str, Table], folder: str, part: str, run: _Run, name: str, resume: bool) -> Recoded:
    """Transcodes a shard into a file of its own, which is there whole or not at all."""
    target = os.path.join(folder, part)
    if resume and _stands(target, recoded_size(shard, to, errors)):
        return Recoded(shard.end - shard.start, os.path.getsize(target), 0)
    path = f"{target}.{secrets.token_hex(4)}.{name}"
    _begin(path, 0, target)
    made = _write(shard, to, errors, path, 0)
    _end(path, target, made.written, lambda: _check_parts(folder, run))
    return made


def _remove(folders: list[str], run: str) -> None:
    """Removes what a run left there that failed, or a worker that was lost."""
    for folder in filter(os.path.isdir, folders):
        for name in os.listdir(folder):
            if name.endswith(f".{run}"):
                with contextlib.suppress(FileNotFoundError):
                    os.remove(os.path.join(folder, name))


def _new_run() -> str:
    return f"{secrets.token_hex(8)}.partial"


_TOLD = (FaultError, ChangedError, ValueError, LookupError)


def _told(function: Callable[..., _Answer], arguments: tuple[Any, ...]) -> Union[_Answer, Exception]:
    """The result of a call. An error that would occur again is returned, so that the call is not tried again."""
    try:
        return function(*arguments)
    except _TOLD as error:
        return error.with_traceback(None)


# ---- what the client does ----


def _each(client: Any, function: Callable[..., _Answer], rows: Sequence[tuple[Any, ...]], retries: int, bar: Optional[Bar] = None,
          sizes: Optional[list[int]] = None) -> list[_Answer]:
    """The results for all rows, in order; raises the first error of one that fails. If a worker is lost the scheduler gives its rows to
    others; one that raises is tried again, by `retries`."""
    return [_raised(it) for it in _told_each(client, function, rows, retries, bar, sizes, ())]


def _raised(answer: Union[_Answer, Exception]) -> _Answer:
    if isinstance(answer, Exception):
        raise answer
    return answer


def _told_each(client: Any, function: Callable[..., _Answer], rows: Sequence[tuple[Any, ...]], retries: int, bar: Optional[Bar],
               sizes: Optional[list[int]], told: tuple[type[OSError], ...]) -> list[Union[_Answer, OSError]]:
    """As _each; but if a row raises an error of the types `told`, and it is not the output's, that error is its result."""
    distributed = importlib.import_module("distributed")
    futures = [client.submit(_told, function, row, pure=False, retries=retries, key=f"{function.__name__}-{secrets.token_hex(8)}") for row in rows]
    numbers = {it.key: number for number, it in enumerate(futures)}
    answers: dict[int, Any] = {}
    failed = len(rows)
    try:
        for future, answer in distributed.as_completed(futures, with_results=True, raise_errors=False):
            number = numbers[future.key]
            failure = _failure(answer)
            if failure is not None and (not isinstance(failure, told) or isinstance(failure, _OutputError)):
                raise _plain(failure)
            answers[number] = answer = answer if failure is None else failure
            if isinstance(answer, Exception) and not isinstance(answer, told):
                failed = min(failed, number)
            elif bar is not None and sizes is not None:
                bar.add(sizes[number])
            if failed < len(rows) and all(it in answers for it in range(failed)):
                raise answers[failed]
    finally:
        if len(answers) < len(futures):
            client.cancel([it for it in futures if numbers[it.key] not in answers])
    return [answers[number] for number in range(len(rows))]


def _failure(answer: Any) -> Optional[BaseException]:
    """What a task raised at its last try, or None: distributed gives the three of sys.exc_info(), or that it was cancelled. (By the status of
    its future it cannot be told: that changes if a worker is lost whose answer is here already)"""
    if type(answer) is tuple and len(answer) == 3 and isinstance(answer[1], BaseException):
        return answer[1]
    return answer if isinstance(answer, BaseException) and not isinstance(answer, _TOLD) else None


def _plain(error: BaseException) -> BaseException:
    return OSError(error.errno, error.strerror, error.filename) if isinstance(error, _OutputError) else error


class _File(NamedTuple):
    """An input with its shards."""

    input: _Input
    stamp: _Stamp
    shards: list[Shard]

    def size(self) -> int:
        return sum(it.end - it.start for it in self.shards)


class _Plan(NamedTuple):
    """The files to read. One of a folder that fails is reported for its name, and ends nothing else."""

    files: list[_File]
    failed: dict[str, OSError]
    told: tuple[type[OSError], ...]


def _given(source: Path) -> _Input:
    """A path or a URL as it was given. Workers may have other folders of their own, so a path is the whole path for them."""
    place = source if isinstance(source, str) else str(place_of(source))
    return _Input(place, place if "://" in place else _whole(place), "")


def _whole(path: str) -> str:
    """A path from the root on. (Not abspath: after a link to a folder, `..` leads elsewhere)"""
    return (path if os.path.isabs(path) else os.path.join(os.getcwd(), path)).rstrip("/") or "/"


def _list_given(source: Sequence[Path]) -> list[_Input]:
    them = [it._replace(path=os.path.basename(it.name.rstrip("/"))) for it in map(_given, source)]
    if len({it.path for it in them}) < len(them):
        raise ValueError("two of the files have one name, so their outputs would too")
    return them


def _plan(client: Any, source: Sources, size: int, encoding: str, retries: int, divided: _Divided) -> _Plan:
    """The shards of each file. Workers look for them, so the client need not see the files."""
    given = _given(source) if isinstance(source, (str, bytes, os.PathLike)) else _list_given(source)
    inputs, = _each(client, _inputs, [(given,)], retries)
    plan = _Plan([], dict(inputs.odd), (OSError,) if inputs.is_folder else ())
    # (of a tuple that begins with a function dask makes what that returns)
    planned = _told_each(client, _planned, [(it.source, size, encoding, divided) for it in inputs.files], retries, None, None, plan.told)
    for file, it in zip(inputs.files, planned):
        if isinstance(it, OSError):
            plan.failed[file.name] = it
        else:
            plan.files.append(_File(file, *it))
    return plan


def _over_all(client: Any, function: Callable[[Shard], _Answer], source: Sources, encoding: str, progress: Progress, size: int,
              retries: int) -> dict[str, Union[list[_Answer], OSError]]:
    plan = _plan(client, source, size, encoding, retries, shards)
    them = [it for file in plan.files for it in file.shards]
    sizes = [it.end - it.start for it in them]
    answers = iter(_told_each(client, function, [(it,) for it in them], retries, Bar(progress, sum(sizes)), sizes, plan.told))
    found: dict[str, Union[list[_Answer], OSError]] = {}
    for file in plan.files:
        found[file.input.name] = _all_or_failure([next(answers) for _ in file.shards])
    return {**found, **plan.failed}


def _all_or_failure(answers: Sequence[Union[_Answer, OSError]]) -> Union[list[_Answer], OSError]:
    """The results, or the first of them that is an error."""
    good: list[_Answer] = []
    for it in answers:
        if isinstance(it, OSError):
            return it
        good.append(it)
    return good


@overload
def check(client: Any, source: Sources, encoding: str = "utf8", progress: Progress = True, *, size: int = SIZE, retries: int = 3,
          positions: Literal[False] = False) -> dict[str, Union[Faults, OSError]]: ...
@overload
def check(client: Any, source: Sources, encoding: str = "utf8", progress: Progress = True, *, size: int = SIZE, retries: int = 3,
          positions: Literal[True]) -> dict[str, Union[LocatedFaults, OSError]]: ...
def check(client: Any, source: Sources, encoding: str = "utf8", progress: Progress = True, *, size: int = SIZE, retries: int = 3,
          positions: bool = False) -> dict[str, Any]:
    """All invalid bytes of large texts, by the workers of a distributed.Client.

    client: the client. source: a path that all workers can read, or a URL that fsspec opens; a folder, with all files in it; or a list of
    paths and URLs. A path is as for open(): a `str`, `bytes` or a PathLike. encoding: as for noddychest.parallel.check; with `auto` it is
    that of each file. progress: as for noddychest.parallel.check. size: about how many
    bytes a task reads. retries: how often a task is tried again that fails, as where a file cannot be read; one whose worker is lost is
    given to another in any case.
    positions: whether each fault also has its line, its column and its byte column.
    Result: for each file its faults as arrays; they cross the network as bytes, 10 for each, or 34 with positions. What of a folder cannot be read has its OSError
    in place of them: a named pipe, a link that leads nowhere or to another folder, a file or a folder that may not be opened, a file that is
    changed meanwhile. The other files are read.
    Errors: those of noddychest.parallel.check, of a file that is no folder's; KilledWorker, if workers are lost again and again. Cost: that
    of validation, divided by the workers, and some milliseconds for each shard.
    """
    if positions:
        them = _over_all(client, Shard.located_array, source, encoding, progress, size, retries)
        return {name: it if isinstance(it, OSError) else counted_on(it).faults for name, it in them.items()}
    found: dict[str, Union[Faults, OSError]] = {}
    for name, answers in _over_all(client, Shard.faults_array, source, encoding, progress, size, retries).items():
        if isinstance(answers, OSError):
            found[name] = answers
            continue
        found[name] = whole = no_faults()
        for it in answers:
            whole.extend(it)
    return found


def count(client: Any, source: Sources, encoding: str = "utf8", progress: Progress = True, *, size: int = SIZE,
          retries: int = 3) -> dict[str, Union[Counts, OSError]]:
    """How many bytes, characters, line ends, and invalid bytes of each kind large texts have. All else is as for `check`."""
    found: dict[str, Union[Counts, OSError]] = {}
    for name, answers in _over_all(client, Shard.counts, source, encoding, progress, size, retries).items():
        if isinstance(answers, OSError):
            found[name] = answers
            continue
        whole = Counts()
        for it in answers:
            whole = whole.plus(it)
        found[name] = whole
    return found


def recode(client: Any, source: Sources, out: Path, from_: str, to: str, progress: Progress = True, *, errors: Errors = "replace",
           parts: bool = False, resume: bool = False, size: int = SIZE, retries: int = 3) -> RecodedFiles:
    """Transcodes large texts, by the workers of a distributed.Client.

    client, source, progress, size, retries: as for `check`. from_, to, errors: as for noddychest.parallel.recode; a table is read here, and
    workers get what it has.
    out: a path that all workers can write. For one file it is a file: first the lengths are found, and then each shard is written to its
    place. For a folder or a list it is a folder, with a file of the same name for each. With `parts` it is a folder for one file: each
    shard becomes a file `part-00000`, and so on, which joined in order are the text; then the source is read once, and not twice. Other
    files there of such a name go away before.
    resume: what such a run made before, and has the length that it should have, is not made again. `.noddychest-manifest.json` in the folder
    of the output tells which run made a file: the source with its length and time of change, the arguments, and the version of this package
    (with `parts` `size` too). What does not fit it is made anew. A run into one file writes the manifest only with `resume`.
    Result: how many bytes were read and written (also of what stood already), and how many invalid bytes this run replaced. `failed` has
    the files of a folder that cannot be read, by name, each with its OSError, as in the result of `check`; they have no output.
    A file is written under another name beside it, is brought to the disk, and gets its name then.
    Errors: as for `check`. With `strict` FaultError, for the first invalid byte of the first file that has one; then no file is written.
    OSError if the disk is full, before anything is written (not with `parts`). ChangedError if another run writes other parts into the folder.
    Cost: a worker has some blocks of 1 MB for each task.
    """
    errors = checked(from_, to, errors)
    target = _whole(path_of(out))
    plan = _plan(client, source, size, from_, retries, shards_to_recode)
    job = _Job(client, from_, to, errors, progress, resume, retries)
    return job.make_parts(plan, target, size) if parts else job.make_files(plan, target)


def _total(made: Sequence[Recoded], failed: dict[str, OSError]) -> RecodedFiles:
    total = RecodedFiles(*(sum(column) for column in zip((0, 0, 0), *made)))
    total.failed = failed
    return total


class _Target(NamedTuple):
    """A file that is to be made: its name in the folder of the output, the name that it has until it is whole, and the output of its shards."""

    file: _File
    name: str
    partial: str
    lengths: list[int]

    def size(self) -> int:
        return sum(self.lengths)

    def places(self) -> list[tuple[Shard, int]]:
        """The offset of the output of each shard."""
        return list(zip(self.file.shards, itertools.accumulate([0, *self.lengths])))


class _Job(NamedTuple):
    """The arguments of a run."""

    client: Any
    from_: str
    to: str
    errors: Union[str, Table]
    progress: Progress
    resume: bool
    retries: int

    def each(self, function: Callable[..., _Answer], rows: Sequence[tuple[Any, ...]]) -> list[_Answer]:
        return _each(self.client, function, rows, self.retries)

    def run_of(self, file: _File, size: int = 0) -> _Run:
        return _Run(file.input.source, file.stamp, form_or_auto(self.from_), form_of(self.to), label_of(self.errors), size, __version__)

    # ---- one file, as parts ----

    def make_parts(self, plan: _Plan, folder: str, size: int) -> RecodedFiles:
        if len(plan.files) != 1 or plan.files[0].input.path:
            raise ValueError("parts are of one file")
        file, = plan.files
        if self.errors == "strict":
            self.each(recoded_size, [(it, self.to, self.errors) for it in file.shards])
        run, name, width = self.run_of(file, size), _new_run(), max(5, len(str(len(file.shards))))
        names = [f"part-{number:0{width}}" for number in range(len(file.shards))]
        self.each(_begin_parts, [(folder, run, names)])
        rows = [(it, self.to, self.errors, folder, part, run, name, self.resume) for it, part in zip(file.shards, names)]
        sizes = [it.end - it.start for it in file.shards]
        try:
            made = _each(self.client, _write_part, rows, self.retries, Bar(self.progress, sum(sizes)), sizes)
            self.each(_end_parts, [(folder, run, {part: it.written for part, it in zip(names, made)})])
        finally:
            self.each(_remove, [([folder], name)])
        return _total(made, {})

    # ---- files ----

    def make_files(self, plan: _Plan, target: str) -> RecodedFiles:
        is_one = any(not it.input.path for it in plan.files)
        folder = os.path.dirname(target) if is_one else target
        names = [it.input.path or os.path.basename(target) for it in plan.files]
        runs = {name: self.run_of(it) for name, it in zip(names, plan.files)}
        sizes: list[Optional[int]] = [None] * len(names)
        if self.resume:
            sizes, = self.each(_kept, [(folder, list(runs.items()))])
        stands = [Recoded(it.size(), size, 0) for it, size in zip(plan.files, sizes) if size is not None]
        bar = Bar(self.progress, 2 * sum(it.size() for it in plan.files))
        if stands:
            bar.add(2 * sum(it.read for it in stands))
        targets = self._measured(plan, [(name, it) for name, it, size in zip(names, plan.files, sizes) if size is None], folder, bar)
        made = self._made(plan, targets, folder, bar)
        if made and (self.resume or not is_one):
            self.each(_record, [(folder, {it.name: (runs[it.name], it.size()) for it, _ in made})])
        return _total([*stands, *(it for _, it in made)], plan.failed)

    def _measured(self, plan: _Plan, files: list[tuple[str, _File]], folder: str, bar: Bar) -> list[_Target]:
        """The files that are to be made, with the lengths of the outputs of their shards."""
        them = [it for _, file in files for it in file.shards]
        rows, sizes = [(it, self.to, self.errors) for it in them], [it.end - it.start for it in them]
        lengths = iter(_told_each(self.client, recoded_size, rows, self.retries, bar, sizes, plan.told))
        run, targets = _new_run(), []
        for number, (name, file) in enumerate(files):
            own = _all_or_failure([next(lengths) for _ in file.shards])
            if isinstance(own, OSError):
                plan.failed[file.input.name] = own
                bar.add(file.size())
            else:
                partial = os.path.join(folder, os.path.dirname(name), f"{number}.{run}")
                targets.append(_Target(file, name, partial, own))
        return targets

    def _made(self, plan: _Plan, targets: list[_Target], folder: str, bar: Bar) -> list[tuple[_Target, Recoded]]:
        """Makes files, and returns those that have their names, with their results."""
        if not targets:
            return []
        try:
            self.each(_begin, [(it.partial, it.size(), os.path.join(folder, it.name)) for it in targets])
            whole = self._written(plan, targets, bar)
            self.each(_forget, [(folder, [it.name for it, _ in whole])])
            ends = [(it.partial, os.path.join(folder, it.name), it.size(), it.file.input.source, it.file.stamp) for it, _ in whole]
            ended = _told_each(self.client, _end_file, ends, self.retries, None, None, plan.told)
        finally:
            self._remove_partial(targets)
        for (target, _), error in zip(whole, ended):
            if isinstance(error, OSError):
                plan.failed[target.file.input.name] = error
        return [it for it in whole if it[0].file.input.name not in plan.failed]

    def _written(self, plan: _Plan, targets: list[_Target], bar: Bar) -> list[tuple[_Target, Recoded]]:
        rows = [(shard, self.to, self.errors, it.partial, place) for it in targets for shard, place in it.places()]
        made = iter(_told_each(self.client, _write, rows, self.retries, bar, [it[0].end - it[0].start for it in rows], plan.told))
        whole = []
        for target in targets:
            own = _all_or_failure([next(made) for _ in target.lengths])
            if not isinstance(own, OSError) and [it.written for it in own] != target.lengths:
                own = ChangedError(f"{target.file.input.name} was changed while it was read")
            if isinstance(own, OSError):
                plan.failed[target.file.input.name] = self._raised_unless(plan, own)
            else:
                whole.append((target, Recoded(*(sum(column) for column in zip((0, 0, 0), *own)))))
        return whole

    def _raised_unless(self, plan: _Plan, error: OSError) -> OSError:
        """Returns an error that is reported for its file; raises one of a file that is not in a folder."""
        if not plan.told:
            raise error
        return error

    def _remove_partial(self, targets: list[_Target]) -> None:
        folders = sorted({os.path.dirname(it.partial) for it in targets})
        self.each(_remove, [(folders, os.path.basename(targets[0].partial).partition(".")[2])])
