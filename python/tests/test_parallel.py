"""noddychest.parallel: the same bytes as from one call, whatever fails; and never a part of them under the name of the file."""
import errno
import glob
import hashlib
import io
import os
import random
import resource
import signal
import subprocess
import sys
import tempfile
import threading
import time
import types
import unittest
from unittest import mock

from noddychest import ChangedError, FaultError, Recoded, faults_array, parallel, pieces, recode, shards

import outside
from test_shards import FORMS, facts, texts


def mixed(size, seed=51, every=5000):
    """Text with an invalid byte now and then."""
    source, line = random.Random(seed), "Größe, plain words, 漢字 and 😀\n".encode()
    data = bytearray(line * (size // len(line)))
    for at in range(0, len(data), every):
        data[at + source.randrange(min(every, len(data) - at))] = source.choice(outside.EDGES)
    return bytes(data)


class InFolder(unittest.TestCase):
    def setUp(self):
        folder = tempfile.TemporaryDirectory()
        self.addCleanup(folder.cleanup)
        self.folder = folder.name
        self.path, self.out = os.path.join(self.folder, "text"), os.path.join(self.folder, "out")

    def write(self, data, path=None):
        with open(path or self.path, "wb") as file:
            file.write(data)

    def read(self, path=None):
        with open(path or self.out, "rb") as file:
            return file.read()

    def left(self):
        """The files that are there beside the source."""
        return sorted(it for it in os.listdir(self.folder) if it != "text")

    def small_shards(self, size=16, window=None):
        for name, value in (("SIZE", size), ("_WINDOW", window or parallel._WINDOW)):
            patch = mock.patch.object(parallel, name, value)
            patch.start()
            self.addCleanup(patch.stop)


class SameAsOne(InFolder):
    def check(self, data, form, jobs, source=None):
        wrong, counts = facts(data, form)
        source = self.path if source is None else source
        self.assertEqual(list(parallel.check(source, form, jobs).pieces()), wrong)
        self.assertEqual(parallel.count(source, form, jobs), counts)
        for to in FORMS:
            for errors in ("replace", "lossy"):
                expected = recode(data, form, to, errors)
                made = parallel.recode(source, self.out, form, to, jobs, errors=errors)
                self.assertEqual(self.read(), expected)
                self.assertEqual(made, Recoded(len(data), len(expected), len(wrong)))

    def test_small_texts(self):
        self.small_shards()
        for form, data in texts(25, seed=52):
            self.write(data)
            self.check(data, form, random.Random(data).choice([1, 2, 3, 5]))

    def test_large_texts(self):
        data = mixed(30_000_000)
        self.write(data)
        for jobs in (1, 3, None):
            made = parallel.recode(self.path, self.out, "utf8", "utf16be", jobs)
            self.assertEqual(self.read(), recode(data, "utf8", "utf16be"))
        self.assertEqual(made.replaced, len(parallel.check(self.path).offsets))
        self.assertEqual(parallel.check(self.path), faults_array(data))
        self.assertEqual(parallel.check(memoryview(data), jobs=2), faults_array(data))
        self.assertEqual(parallel.count(self.path).size, len(data))

    def test_other_sources(self):
        data = mixed(5_000_000)
        for it in (bytearray(data), memoryview(data), memoryview(bytearray(data))):
            parallel.recode(it, self.out, "utf8", "utf16le", 2)
            self.assertEqual(self.read(), recode(data, "utf8", "utf16le"))
        self.write(b"")
        self.assertEqual(parallel.recode(self.path, self.out, "utf8", "utf8"), Recoded(0, 0, 0))
        self.assertEqual((self.read(), parallel.check(self.path).offsets.tolist(), parallel.count(self.path).size), (b"", [], 0))

    def test_source_is_the_output(self):
        data = mixed(9_000_000)
        self.write(data)
        os.chmod(self.path, 0o640)
        parallel.recode(self.path, self.path, "utf8", "utf16le", 2)
        self.assertEqual((self.read(self.path), os.stat(self.path).st_mode & 0o777), (recode(data, "utf8", "utf16le"), 0o640))
        os.symlink(self.path, self.out)
        parallel.recode(memoryview(data), self.out, "utf8", "utf8", 2)
        self.assertEqual((os.path.islink(self.out), self.read(self.path)), (True, recode(data, "utf8", "utf8")))

    def test_long_names(self):
        """A file system takes names of 255 bytes, and so does the output."""
        for name in ("m" * 255, "m" * 231, "é" * 127, "😀" * 63):
            out = os.path.join(self.folder, name)
            for resume in (False, True):
                with open(self.path, "wb") as file:
                    file.write(b"a\xff\n")
                self.assertEqual(parallel.recode(self.path, out, "utf8", "utf8", resume=resume), Recoded(3, 5, 1), (len(name), resume))
                with open(out, "rb") as file:
                    self.assertEqual(file.read(), "a\ufffd\n".encode())
            os.remove(out)
        self.assertEqual(os.listdir(self.folder), ["text"])

    def test_progress(self):
        data, seen = mixed(20_000_000), []
        self.write(data)
        for call in (lambda it: parallel.check(self.path, progress=it), lambda it: parallel.count(self.path, progress=it),
                     lambda it: parallel.recode(self.path, self.out, "utf8", "utf8", progress=it)):
            seen.clear()
            call(lambda *it: seen.append(it))
            self.assertEqual((seen[-1], seen), ((len(data), len(data)), sorted(seen)))
        for call in (lambda it: parallel.check(self.path, progress=it), lambda it: parallel.recode(self.path, self.out, "utf8", "utf8", progress=it)):
            self.assertRaises(ZeroDivisionError, call, lambda *it: 1 / 0)
        self.assertEqual(self.left(), ["out"])

    def test_standard_error_that_is_none(self):
        """It is closed, or a program has put something else in its place."""
        closed = io.StringIO()
        closed.close()
        for it in (None, closed, types.SimpleNamespace(write=lambda text: None)):
            with mock.patch.object(sys, "stderr", it):
                self.assertEqual((parallel.check(bytearray(b"a\xff")).offsets.tolist(), parallel.count(bytearray(b"a\n")).lines), ([1], 1))
                self.assertEqual(parallel.recode(bytearray(b"a\xff"), self.out, "utf8", "utf8").replaced, 1)


class Refused(InFolder):
    def test_strict(self):
        """The first invalid byte of all is raised, whichever job meets one first, and the file stays as it was."""
        self.small_shards()
        self.write(b"before", self.out)
        for form, data in texts(60, seed=53):
            wrong = [it for it in pieces(data, form) if it.error]
            self.write(data)
            for jobs in (1, 3):
                self.write(b"before", self.out)
                if not wrong:
                    parallel.recode(self.path, self.out, form, "utf8", jobs, errors="strict")
                    self.assertEqual(self.read(), recode(data, form, "utf8", "strict"))
                    continue
                with self.assertRaises(FaultError) as raised:
                    parallel.recode(self.path, self.out, form, "utf8", jobs, errors="strict")
                self.assertEqual((raised.exception.offset, raised.exception.error), (wrong[0].offset, wrong[0].error))
                self.assertEqual((self.read(), self.left()), (b"before", ["out"]))

    def test_arguments(self):
        self.write(b"abc")
        for words, kinds in ((("latin-1", "utf8"), LookupError), (("utf8", "latin-1"), LookupError), (("utf8", "utf8", 0), ValueError)):
            self.assertRaises(kinds, parallel.recode, self.path, self.out, *words)
        self.assertRaises(LookupError, parallel.recode, self.path, self.out, "utf8", "utf8", errors="drop")
        self.assertRaises(ValueError, parallel.recode, bytearray(b"abc"), self.out, "utf8", "utf8", resume=True)
        self.assertRaises(OSError, parallel.recode, self.path + "-none", self.out, "utf8", "utf8")
        self.assertRaises(OSError, parallel.recode, self.path, self.folder, "utf8", "utf8")
        self.assertRaises(OSError, parallel.recode, self.path, "/dev/full", "utf8", "utf8")
        self.assertRaises(OSError, parallel.recode, self.path, os.path.join(self.folder, "none", "out"), "utf8", "utf8")
        self.assertEqual(self.left(), [])

    def test_source_that_changes(self):
        data = mixed(24_000_000)
        for change in (lambda: os.truncate(self.path, 10_000_000), lambda: self.write(data + b"more"), lambda: os.utime(self.path, (7, 7))):
            self.write(data)
            os.utime(self.path, (1, 1))
            changed = threading.Event()

            def at_first(done, total):
                if done > 0 and not changed.is_set():
                    change()
                    changed.set()

            with self.assertRaises(ChangedError):
                parallel.recode(self.path, self.out, "utf8", "utf16le", 2, at_first)
            self.assertEqual(self.left(), [])

    def test_source_that_changes_at_the_end(self):
        """After the last byte was read, while the output goes to the disk: if the source is the output, what others wrote would be lost."""
        for data in (b"abc" * 1000, b""):
            self.write(data)
            real = os.fsync

            def write_then(file):
                with open(self.path, "ab") as other:
                    other.write(b"by another")
                real(file)

            for out in (self.path, self.out):
                self.write(data)
                with mock.patch.object(os, "fsync", write_then), self.assertRaises(ChangedError):
                    parallel.recode(self.path, out, "utf8", "utf16le")
                self.assertEqual((self.read(self.path), self.left()), (data + b"by another", []))

    def test_full_disk(self):
        """As writes fail: by a limit of the process, by what the system says, and on a small file system where one may be mounted."""
        self.write(mixed(24_000_000))
        program = ("import resource, signal, sys\nsignal.signal(signal.SIGXFSZ, signal.SIG_IGN)\n"
                   "resource.setrlimit(resource.RLIMIT_FSIZE, (9_000_000, 9_000_000))\nfrom noddychest import parallel\n"
                   "try:\n    parallel.recode(sys.argv[1], sys.argv[2], 'utf8', 'utf16le', 3)\nexcept OSError as error:\n    print(error.errno)")
        ran = subprocess.run([sys.executable, "-c", program, self.path, self.out], stdout=subprocess.PIPE, text=True, check=True)
        self.assertEqual((ran.stdout.strip(), self.left()), (str(errno.EFBIG), []))
        real = os.pwrite

        def full(file, view, place):
            if place > 8_000_000:
                raise OSError(errno.ENOSPC, os.strerror(errno.ENOSPC))
            return real(file, bytes(view)[:100_001], place)  # (in small steps too)

        with mock.patch.object(os, "pwrite", full), self.assertRaises(OSError) as raised:
            parallel.recode(self.path, self.out, "utf8", "utf16le", 3)
        self.assertEqual((raised.exception.errno, self.left()), (errno.ENOSPC, []))

    def test_folder_that_cannot_be_read(self):
        """Nor can it be brought to the disk then. The file has its name already, so that is no failure."""
        had = os.open

        def unreadable(path, flags, *more, **named):
            if flags & os.O_DIRECTORY:
                raise PermissionError(errno.EACCES, "Permission denied", path)
            return had(path, flags, *more, **named)

        self.write(b"a\xff")
        with mock.patch.object(os, "open", unreadable):
            self.assertEqual(parallel.recode(self.path, self.out, "utf8", "utf8"), Recoded(2, 4, 1))
        self.assertEqual((self.read(), self.left()), (b"a\xef\xbf\xbd", ["out"]))

    def test_small_file_system(self):
        place = os.path.join(self.folder, "small")
        os.mkdir(place)
        mounted = subprocess.run(["mount", "-t", "tmpfs", "-o", "size=8m", "tmpfs", place], stderr=subprocess.PIPE)
        if mounted.returncode != 0:
            self.skipTest("no file system may be mounted here")
        self.addCleanup(subprocess.run, ["umount", place])
        self.write(mixed(24_000_000))
        for resume in (False, True):
            with self.assertRaises(OSError) as raised:
                parallel.recode(self.path, os.path.join(place, "out"), "utf8", "utf16le", 3, resume=resume)
            self.assertEqual(raised.exception.errno, errno.ENOSPC)
            self.assertEqual([it for it in os.listdir(place) if resume is False or not it.endswith(".partial")], [])


class Interrupted(InFolder):
    PROGRAM = ("import sys, time, noddychest.parallel as p\np.SIZE, p._WINDOW = 100_000, 4\n"
               "p.recode(sys.argv[1], sys.argv[2], 'utf8', 'utf16le', 3, lambda *it: time.sleep(0.005), resume=True)")

    def run_and_kill(self, wait):
        with subprocess.Popen([sys.executable, "-c", self.PROGRAM, self.path, self.out]) as it:
            end = time.monotonic() + 30
            while time.monotonic() < end and sum(map(os.path.getsize, glob.glob(self.out + ".*"))) < wait:
                time.sleep(0.002)
            it.send_signal(signal.SIGKILL)

    def test_goes_on(self):
        """Killed ten times: each run goes on from what is written, and the bytes are those of a run that was not."""
        data = mixed(20_000_000)
        expected, done = hashlib.sha256(recode(data, "utf8", "utf16le")).hexdigest(), []
        self.write(data)
        self.small_shards(100_000, 4)
        for time_killed in range(10):
            self.run_and_kill(3_000_000 * (time_killed + 1))
            self.assertFalse(os.path.exists(self.out))
        made = parallel.recode(self.path, self.out, "utf8", "utf16le", 3, lambda *it: done.append(it), resume=True)
        self.assertEqual((hashlib.sha256(self.read()).hexdigest(), self.left()), (expected, ["out"]))
        self.assertGreater(done[0][0], 10_000_000, "it did not begin anew")
        self.assertEqual(made.written, len(self.read()))

    def test_what_stands_is_of_this_run(self):
        data = mixed(3_000_000)
        self.write(data)
        self.small_shards(100_000, 4)
        for errors in ("replace", "lossy"):
            with self.assertRaises(ZeroDivisionError):
                parallel.recode(self.path, self.out, "utf8", "utf16le", 2, lambda done, _: 1 / (done < 2_000_000), errors=errors, resume=True)
        self.assertEqual(len(self.left()), 2)
        for it in self.left():  # what was written last may be anything
            size = os.path.getsize(os.path.join(self.folder, it))
            with open(os.path.join(self.folder, it), "r+b") as file:
                file.seek(size - 300_000)
                file.write(bytes(300_000 + 77))
        for errors in ("replace", "lossy"):
            seen = []
            parallel.recode(self.path, self.out, "utf8", "utf16le", 2, lambda done, _: seen.append(done), errors=errors, resume=True)
            self.assertEqual(self.read(), recode(data, "utf8", "utf16le", errors))
            self.assertGreater(seen[0], 1_000_000)
        with self.assertRaises(ZeroDivisionError):
            parallel.recode(self.path, self.out, "utf8", "utf16le", 2, lambda done, _: 1 / (done < 2_000_000), resume=True)
        self.write(b"other " + data)
        parallel.recode(self.path, self.out, "utf8", "utf16le", 2, resume=True)
        self.assertEqual(self.read(), recode(b"other " + data, "utf8", "utf16le"))

    def test_another_version_goes_on_with_nothing(self):
        """What an earlier version of the package has written is not gone on with."""
        self.write(mixed(3_000_000))
        self.small_shards(100_000, 4)
        with mock.patch.object(parallel, "__version__", "0.9"), self.assertRaises(ZeroDivisionError):
            parallel.recode(self.path, self.out, "utf8", "utf16le", 2, lambda done, _: 1 / (done < 2_000_000), resume=True)
        seen = []
        parallel.recode(self.path, self.out, "utf8", "utf16le", 2, lambda done, _: seen.append(done), resume=True)
        self.assertEqual((seen[0], self.read()), (0, recode(self.read(self.path), "utf8", "utf16le")))

    def test_two_at_once(self):
        self.write(mixed(20_000_000))
        refused = []

        def other(done, total):
            if not refused:
                try:
                    parallel.recode(self.path, self.out, "utf8", "utf16le", 1, resume=True)
                except BlockingIOError as error:
                    refused.append(error)

        parallel.recode(self.path, self.out, "utf8", "utf16le", 2, other, resume=True)
        self.assertEqual((len(refused), self.left()), (1, ["out"]))

    def test_links_are_not_followed(self):
        """A link under the name of the partial file leads nowhere."""
        self.write(b"abc" * 100)
        victim = os.path.join(self.folder, "victim")
        self.write(b"mine", victim)
        name = parallel._run_name(shards(self.path, parallel.SIZE), "utf8", "utf8", "replace")
        os.symlink(victim, f"{self.out}.{name}.partial")
        self.assertRaises(OSError, parallel.recode, self.path, self.out, "utf8", "utf8", resume=True)
        self.assertEqual(self.read(victim), b"mine")

    def test_by_the_keyboard(self):
        self.write(mixed(60_000_000))
        program = ("import os, signal, sys, noddychest.parallel as p\nsignal.signal(signal.SIGINT, signal.default_int_handler)\n"
                   "p.recode(sys.argv[1], sys.argv[2], 'utf8', 'utf16le', 3, lambda *it: os.kill(os.getpid(), signal.SIGINT))")
        ran = subprocess.run([sys.executable, "-c", program, self.path, self.out], stderr=subprocess.PIPE, text=True, timeout=60)
        self.assertIn("KeyboardInterrupt", ran.stderr)
        self.assertEqual(self.left(), [])

    def test_by_the_keyboard_while_a_thread_starts(self):
        """What is raised is not that such a thread cannot be joined."""
        class Thread(threading.Thread):
            def start(self):
                raise KeyboardInterrupt

        self.write(b"a\xff")
        with mock.patch.object(threading, "Thread", Thread):
            self.assertRaises(KeyboardInterrupt, parallel.recode, self.path, self.out, "utf8", "utf8", 2)
        self.assertEqual(self.left(), [])


class Memory(InFolder):
    def test_of_a_job(self):
        """At most 64 MB for each, whatever the text."""
        program = ("import resource, sys\nfrom noddychest import parallel\n"
                   "peak = lambda: resource.getrusage(resource.RUSAGE_SELF).ru_maxrss / 1000\nbefore = peak()\n"
                   "parallel.count(sys.argv[1], 'utf8', int(sys.argv[3]))\n"
                   "parallel.recode(sys.argv[1], sys.argv[2], 'utf8', 'utf8', int(sys.argv[3]))\nprint(peak() - before)")
        for data in (b"\xff" * 100_000_000, mixed(100_000_000)):
            self.write(data)
            for jobs in (1, 3):
                ran = subprocess.run([sys.executable, "-c", program, self.path, self.out, str(jobs)], stdout=subprocess.PIPE, text=True, check=True)
                self.assertLess(float(ran.stdout), 64 * jobs)


if __name__ == "__main__":
    resource.getrusage(resource.RUSAGE_SELF)
    shards(bytearray(), 1)
    unittest.main()
