"""noddychest.dask, on workers of this machine: the same as from one process, also where workers are killed."""
import codecs
import copy
import errno
import hashlib
import os
import pathlib
import pickle
import shutil
import signal
import socket
import subprocess
import tempfile
import time
import unittest
from unittest import mock

from noddychest import ChangedError, FaultError, Recoded, faults_array, parallel, pieces, recode
from noddychest import dask as nody_dask

import outside
from test_parallel import InFolder, mixed
from test_shards import FORMS, facts, texts

try:
    import distributed
except ImportError:
    distributed = None

WORKERS = 3


@unittest.skipIf(distributed is None, "for want of dask and distributed")
class OnWorkers(InFolder):
    @classmethod
    def setUpClass(cls):
        cls.cluster = distributed.LocalCluster(n_workers=WORKERS, threads_per_worker=1, dashboard_address=None, silence_logs=50)
        cls.client = distributed.Client(cls.cluster)

    @classmethod
    def tearDownClass(cls):
        cls.client.close()
        cls.cluster.close()

    def parts(self, folder):
        """The parts of a folder, in order."""
        return sorted(os.path.join(folder, it) for it in os.listdir(folder) if it != nody_dask.MANIFEST)

    def recode(self, *given, **named):
        return nody_dask.recode(self.client, *given, **named)

    def digest(self, *paths):
        return hashlib.sha256(b"".join(map(self.read, paths))).hexdigest()

    def files(self, count=3):
        """A folder of files, with their bytes."""
        them = {f"{'in/' * (number % 2)}file-{number}": mixed(400_000 + number, number) for number in range(count)}
        folder = os.path.join(self.folder, "folder")
        for name, data in them.items():
            os.makedirs(os.path.dirname(os.path.join(folder, name)), exist_ok=True)
            self.write(data, os.path.join(folder, name))
        return folder, them


class Replaced(InFolder):
    """What a worker does with the file of an output, which needs no dask."""

    def test_permissions(self):
        partial = self.out + ".partial"
        for mode in (0o640, 0o600, 0o444, None):
            if mode is None:
                os.remove(self.out)
            else:
                self.write(b"old", self.out)
                os.chmod(self.out, mode)
            mask = os.umask(0o022)
            try:
                nody_dask._begin(partial, 3, self.out)
            finally:
                os.umask(mask)
            self.assertEqual(os.stat(partial).st_mode & 0o7777, 0o644 if mode is None else 0o600)
            self.write(b"new", partial)
            nody_dask._end(partial, self.out, 3)
            self.assertEqual((self.read(), os.stat(self.out).st_mode & 0o7777), (b"new", mode or 0o644))

    @unittest.skipUnless(hasattr(os, "setxattr"), "extended attributes are of Linux")
    def test_attributes(self):
        self.write(b"old", self.out)
        try:
            os.setxattr(self.out, "user.mime_type", b"text/plain")
        except OSError:
            self.skipTest("this file system has no such attributes")
        nody_dask._begin(self.out + ".partial", 3, self.out)
        nody_dask._end(self.out + ".partial", self.out, 3)
        self.assertEqual((self.read(), os.getxattr(self.out, "user.mime_type")), (b"\0\0\0", b"text/plain"))


class SameAsOne(OnWorkers):
    def test_small_texts(self):
        for form, data in texts(4, seed=61):
            self.write(data)
            wrong, counts = facts(data, form)
            for size in (3, 9):
                found = nody_dask.check(self.client, self.path, form, size=size)
                self.assertEqual({name: list(it.pieces()) for name, it in found.items()}, {self.path: wrong})
                self.assertEqual(nody_dask.count(self.client, self.path, form, size=size), {self.path: counts})
                for to, errors in zip(FORMS, ("replace", "lossy", "replace")):
                    made = nody_dask.recode(self.client, self.path, self.out, form, to, errors=errors, size=size)
                    self.assertEqual((self.read(), made.written), (recode(data, form, to, errors), os.path.getsize(self.out)))

    def test_repair(self):
        """Workers, which did not import this module, get what was read of a table, once."""
        data, asked = b"caf\xe9 \xc3\xa9 \xff\n" * 1000, []
        self.write(data)

        def ask(byte):
            asked.append(byte)
            return None if byte == 0xFF else chr(byte)

        for errors, text in (("windows-1252", "café é ÿ\n"), ("ignore", "caf é \n"), ({0xE9: "e", 0xFF: ""}, "cafe é \n"), (ask, "café é \n")):
            for parts in (False, True):
                out = self.out + ("-parts" if parts else "")
                made = self.recode(self.path, out, "utf8", "utf8", errors=errors, parts=parts, size=1500)
                self.assertEqual(b"".join(map(self.read, self.parts(out))) if parts else self.read(out), text.encode() * 1000)
                self.assertEqual((made.read, made.written, made.replaced), (len(data), len(text.encode()) * 1000, 2000))
        self.assertEqual(asked, 2 * list(range(0x80, 0x100)))
        self.assertRaises(ValueError, self.recode, self.path + "-none", self.out + "-none", "utf8", "utf8", errors={0xFF: "ab"})
        self.assertFalse(os.path.exists(self.out + "-none"))

    def test_a_large_file(self):
        data, seen = mixed(30_000_000), []
        self.write(data)
        made = nody_dask.recode(self.client, self.path, self.out, "utf8", "utf16le", lambda *it: seen.append(it), size=2_000_000)
        self.assertEqual((self.read(), seen[-1]), (recode(data, "utf8", "utf16le"), (2 * len(data), 2 * len(data))))
        found = nody_dask.check(self.client, self.path, size=2_000_000)[self.path]
        self.assertEqual((found, made.replaced), (faults_array(data), len(found.offsets)))
        self.assertEqual(nody_dask.count(self.client, self.path)[self.path], parallel.count(self.path))
        nody_dask.recode(self.client, self.path, self.out + ".d", "utf8", "utf16le", parts=True, size=2_000_000)
        names = self.parts(self.out + ".d")
        self.assertEqual((os.path.basename(names[0]), len(names)), ("part-00000", 15))
        self.assertEqual(self.digest(*names), self.digest(self.out))

    def test_many_files(self):
        folder, them = self.files()
        for source in (folder, f"file://{folder}"):
            out = os.path.join(self.folder, "many")
            nody_dask.recode(self.client, source, out, "utf8", "utf16be", size=100_000)
            self.assertEqual({name: self.read(os.path.join(out, name)) for name in them}, {name: recode(it, "utf8", "utf16be") for name, it in them.items()})
            found = nody_dask.check(self.client, source, size=100_000)
            self.assertEqual(sorted((os.path.relpath(name.replace("file://", ""), folder), it) for name, it in found.items()),
                             sorted((name, faults_array(it)) for name, it in them.items()))
        names = [os.path.join(folder, it) for it in them]
        for source in (names, [f"file://{it}" for it in names]):
            out = os.path.join(self.folder, "list")
            nody_dask.recode(self.client, source, out, "utf8", "utf8", size=100_000)
            self.assertEqual({name: self.read(os.path.join(out, os.path.basename(name))) for name in them},
                             {name: recode(it, "utf8", "utf8") for name, it in them.items()})
            self.assertEqual(list(nody_dask.count(self.client, source)), source)

    def test_resume(self):
        data = mixed(3_000_000)
        self.write(data)
        out = self.out + ".d"
        nody_dask.recode(self.client, self.path, out, "utf8", "utf16le", parts=True, size=500_000)
        names = self.parts(out)
        digest = self.digest(*names)
        for it in names:
            os.utime(it, (1, 1))
        os.remove(names[1])
        os.truncate(names[3], 100)
        nody_dask.recode(self.client, self.path, out, "utf8", "utf16le", parts=True, size=500_000, resume=True)
        self.assertEqual([os.path.getmtime(it) == 1 for it in names], [True, False, True, False, True, True])
        self.assertEqual(self.digest(*names), digest)
        folder, them = self.files()
        out = os.path.join(self.folder, "many")
        nody_dask.recode(self.client, folder, out, "utf8", "utf8")
        names = [os.path.join(out, it) for it in them]
        for it in names:
            os.utime(it, (1, 1))
        os.remove(names[1])
        made = nody_dask.recode(self.client, folder, out, "utf8", "utf8", resume=True)
        self.assertEqual([os.path.getmtime(it) == 1 for it in names], [True, False, True])
        self.assertEqual(made.written, sum(map(os.path.getsize, names)))


class ByMark(OnWorkers):
    """The encoding `auto` is that of each file; what is converted has no mark."""

    TEXT = "né 😀\n" * 30

    def test_a_folder(self):
        folder, them = os.path.join(self.folder, "folder"), {"plain": ("utf8", b""), "8": ("utf8", codecs.BOM_UTF8), "le": ("utf16le", codecs.BOM_UTF16_LE), "be": ("utf16be", codecs.BOM_UTF16_BE)}
        os.mkdir(folder)
        for name, (form, mark) in them.items():
            self.write(mark + recode(self.TEXT.encode(), "utf8", form) + b"\xff", os.path.join(folder, name))
        self.write(b"", os.path.join(folder, "empty"))
        found, counted = (call(self.client, folder, "auto", size=50) for call in (nody_dask.check, nody_dask.count))
        for resume in (False, True):
            made = self.recode(folder, self.out, "auto", "utf8", size=50, resume=resume)
            self.assertEqual((made.failed, made.replaced), ({}, 0 if resume else 4))
        self.assertEqual(self.read(os.path.join(self.out, "empty")), b"")
        for name, (form, mark) in them.items():
            path = os.path.join(folder, name)
            self.assertEqual([found[path], counted[path]], [call(self.client, path, form)[path] for call in (nody_dask.check, nody_dask.count)])
            self.assertEqual(self.read(os.path.join(self.out, name)), self.TEXT.encode() + "\ufffd".encode())
            # (what was made with another encoding, which keeps the mark, is not taken for this)
            self.recode(path, self.out + "-one", form, "utf8", resume=True)
            self.assertEqual(self.read(self.out + "-one"), "\ufeff".encode() * bool(mark) + self.TEXT.encode() + "\ufffd".encode())
            self.recode(path, self.out + "-one", "auto", "utf8", resume=True)
            self.assertEqual(self.read(self.out + "-one"), self.TEXT.encode() + "\ufffd".encode())

    def test_parts(self):
        self.write(codecs.BOM_UTF16_BE + self.TEXT.encode("utf-16-be"))
        self.recode(self.path, self.out, "auto", "utf8", parts=True, size=50)
        self.assertEqual(b"".join(map(self.read, self.parts(self.out))), self.TEXT.encode())

    def test_where_it_makes_no_sense(self):
        self.assertRaises(LookupError, self.recode, self.path, self.out, "utf8", "auto")


class Manifests(OnWorkers):
    """A file is kept if it is of this run: the source as it is, the arguments, the version of the package. All else is made anew."""

    DATA = "Größe, 漢字 and 😀\n".encode() * 3000

    def runs(self):
        """Runs of which no two make the same, though all outputs have one length: of one file, of a folder, of a list, as parts."""
        folder = os.path.join(self.folder, "many")
        os.mkdir(folder)
        self.paths = [self.path, os.path.join(folder, "one"), os.path.join(folder, "two")]
        for it in self.paths:
            self.write(self.DATA, it)
        for name, source, options in (("file", self.path, {}), ("folder", folder, {}), ("list", self.paths[1:], {}), ("parts", self.path, {"parts": True})):
            yield os.path.join(self.folder, f"out-{name}"), source, {"resume": True, "size": 20_000, **options}

    def outputs(self, out):
        return self.parts(out) if os.path.isdir(out) else [out]

    def is_kept(self, out, source, *words, **options):
        """Whether all outputs are kept from before; also then the bytes have to be those of the run."""
        before = self.outputs(out)
        for it in before:
            os.utime(it, (1, 1))
        self.recode(source, out, *words, **options)
        them = self.outputs(out)
        whole = [b"".join(map(self.read, them))] if options.get("parts") else map(self.read, them)
        expected = recode(self.read(self.paths[-1]), *words, options.get("errors", "replace"))
        self.assertEqual([*whole], [expected] * (1 if options.get("parts") else len(them)))
        kept = {os.path.getmtime(it) == 1 for it in them}
        self.assertEqual(len(kept), 1)
        return kept.pop() and before == them

    def test_other_arguments(self):
        for out, source, options in self.runs():
            self.recode(source, out, "utf8", "utf16le", **options)
            self.assertTrue(self.is_kept(out, source, "utf8", "utf16le", **options), out)
            self.assertFalse(self.is_kept(out, source, "utf8", "utf16be", **options), out)
            self.assertTrue(self.is_kept(out, source, "utf8", "utf16be", **options), out)
            for errors in ("lossy", "windows-1252", {0xFF: "a"}, {0xFF: "b"}):
                self.assertFalse(self.is_kept(out, source, "utf8", "utf16be", **{**options, "errors": errors}), out)
            self.assertTrue(self.is_kept(out, source, "utf8", "utf16be", **{**options, "errors": lambda byte: "b" if byte == 0xFF else 0xFFFD}), out)
            self.assertFalse(self.is_kept(out, source, "utf8", "utf16be", **options), out)
            self.assertFalse(self.is_kept(out, source, "utf16le", "utf16be", **options), out)
            self.assertFalse(self.is_kept(out, source, "utf16be", "utf16le", **options), out)
            self.assertTrue(self.is_kept(out, source, "UTF-16BE", "UTF_16_LE", **options), out)
            with mock.patch.object(nody_dask, "__version__", "0.9"):
                self.assertFalse(self.is_kept(out, source, "utf16be", "utf16le", **options), out)
            self.assertFalse(self.is_kept(out, source, "utf16be", "utf16le", **{**options, "resume": False}), out)
            shutil.rmtree(os.path.join(self.folder, "many"), ignore_errors=True) if out.endswith("parts") else None

    def test_another_source(self):
        for out, source, options in self.runs():
            self.recode(source, out, "utf8", "utf16le", **options)
            for it in self.paths:  # rewritten, with the same length
                self.write(self.DATA.replace(b"a", b"b"), it)
            self.assertFalse(self.is_kept(out, source, "utf8", "utf16le", **options), out)
            self.assertTrue(self.is_kept(out, source, "utf8", "utf16le", **options), out)
            if out.endswith(("file", "parts")):  # of the same length and time
                other = self.path + "-other"
                shutil.copy2(self.path, other)
                self.assertFalse(self.is_kept(out, other, "utf8", "utf16le", **options), out)

    def test_a_run_without_resume_in_between(self):
        for out, source, options in self.runs():
            self.recode(source, out, "utf8", "utf16le", **options)
            self.recode(source, out, "utf8", "utf16be", **{**options, "resume": False})
            self.assertFalse(self.is_kept(out, source, "utf8", "utf16le", **options), out)

    def test_no_manifest_or_a_damaged_one(self):
        for out, source, options in self.runs():
            self.recode(source, out, "utf8", "utf16le", **options)
            manifest = os.path.join(out if os.path.isdir(out) else self.folder, nody_dask.MANIFEST)
            for damage in (os.remove, lambda it: self.write(b"", it), lambda it: self.write(b"\xff{", it), lambda it: self.write(b"[" * 100_000, it),
                           lambda it: self.write(b'{"parts": 5, "files": [1]}', it), lambda it: self.write(b'{"parts": [], "files": {"one": 1, "two": [2, 3]}}', it)):
                self.assertTrue(self.is_kept(out, source, "utf8", "utf16le", **options), out)
                damage(manifest)
                self.assertFalse(self.is_kept(out, source, "utf8", "utf16le", **options), out)

    def test_parts_of_a_longer_run(self):
        """Those go away; what has another name, or is a folder, stays."""
        out, others = self.out + ".d", ["notes", "part-1", "part-00000.txt", "xpart-00000", "part-0000x", "part-00099"]
        for resume in (False, True):
            self.write(self.DATA * 3)
            self.recode(self.path, out, "utf8", "utf16le", parts=True, size=5_000, resume=resume)
            longer = self.parts(out)
            for it in others[:-1]:
                self.write(b"mine", os.path.join(out, it))
            os.makedirs(os.path.join(out, others[-1]), exist_ok=True)
            self.write(b"old", os.path.join(out, "part-123456"))
            self.write(self.DATA)
            self.recode(self.path, out, "utf8", "utf16le", parts=True, size=5_000, resume=resume)
            shorter = [it for it in self.parts(out) if os.path.basename(it) not in others]
            self.assertLess(len(shorter), len(longer))
            self.assertEqual(b"".join(map(self.read, shorter)), recode(self.DATA, "utf8", "utf16le"))
            self.assertEqual([os.path.exists(os.path.join(out, it)) for it in others], [True] * len(others))
            self.recode(self.path, out, "utf8", "utf16le", parts=True, size=10_000, resume=True)
            shorter = [it for it in self.parts(out) if os.path.basename(it) not in others]
            self.assertEqual(b"".join(map(self.read, shorter)), recode(self.DATA, "utf8", "utf16le"))
            for it in os.scandir(out):
                if not it.is_dir():
                    os.remove(it.path)

    def test_names_in_a_manifest_lead_nowhere(self):
        """Whatever names are in it, no file of others is removed."""
        victim = os.path.join(self.folder, "victim")
        self.write(b"mine", victim)
        out = self.out + ".d"
        os.mkdir(out)
        self.write(b'{"parts": ["../victim", "part-00000"], "files": {"../victim": [["x"], 4]}}', os.path.join(out, nody_dask.MANIFEST))
        self.write(self.DATA)
        self.recode(self.path, out, "utf8", "utf8", parts=True, resume=True)
        self.assertEqual((self.read(victim), [self.read(it) for it in self.parts(out)]), (b"mine", [self.DATA]))

    def test_another_run_at_once(self):
        """Two runs into one folder: the one that was first says so, and the parts are those of the other."""
        self.write(self.DATA * 10)
        out, begun = self.out + ".d", []

        def other(done, total):
            if not begun:
                begun.append(True)
                self.recode(self.path, out, "utf8", "utf16be", parts=True, size=50_000)

        with self.assertRaises(ChangedError):
            self.recode(self.path, out, "utf8", "utf16le", other, parts=True, size=50_000)
        self.assertEqual(b"".join(map(self.read, self.parts(out))), recode(self.DATA * 10, "utf8", "utf16be"))

    def test_interrupted(self):
        """A run that was killed goes on with the parts that exist."""
        self.write(self.DATA * 10)
        out = self.out + ".d"
        with self.assertRaises(ZeroDivisionError):
            self.recode(self.path, out, "utf8", "utf16le", lambda done, total: 1 / (done < total / 2), parts=True, size=50_000, resume=True)
        stand = self.parts(out)
        for it in stand:
            os.utime(it, (1, 1))
        self.recode(self.path, out, "utf8", "utf16le", parts=True, size=50_000, resume=True)
        self.assertGreater(sum(os.path.getmtime(it) == 1 for it in self.parts(out)), 2)
        self.assertEqual(b"".join(map(self.read, self.parts(out))), recode(self.DATA * 10, "utf8", "utf16le"))

    def test_one_file_has_a_manifest_only_to_resume(self):
        self.write(self.DATA)
        self.recode(self.path, self.out, "utf8", "utf16le")
        self.assertEqual(self.left(), ["out"])
        self.recode(self.path, self.out, "utf8", "utf16le", resume=True)
        self.assertEqual(self.left(), [nody_dask.MANIFEST, "out"])

    def test_a_source_that_changes_at_the_end(self):
        """The source is the output: what others write to it, after it was read, is not lost."""
        self.write(self.DATA)
        size = len(self.DATA)

        def at_last(done, total):
            if done == total:
                with open(self.path, "ab") as file:
                    file.write(b"by another")

        with self.assertRaises(ChangedError):
            self.recode(self.path, self.path, "utf8", "utf16le", at_last)
        self.assertEqual((self.read(self.path), self.left()), (self.DATA + b"by another", []))
        self.assertEqual(size, len(self.DATA))


class OddFiles(OnWorkers):
    """Files of a folder that cannot be read are reported, and all others are read."""

    def make(self):
        folder, them = self.files()
        os.mkfifo(os.path.join(folder, "pipe"))
        os.symlink("nowhere", os.path.join(folder, "dangling"))
        os.symlink("circle", os.path.join(folder, "circle"))
        os.symlink(self.folder, os.path.join(folder, "in", "linked"))
        with socket.socket(socket.AF_UNIX) as it:
            it.bind(os.path.join(folder, "socket"))
        odd = {"pipe", "dangling", "circle", "in/linked", "socket"}
        os.symlink("file-0", os.path.join(folder, "link"))
        them["link"] = them["file-0"]
        for name in ("unreadable", "in/closed/file"):
            os.makedirs(os.path.dirname(os.path.join(folder, name)), exist_ok=True)
            self.write(b"abc", os.path.join(folder, name))
        if os.geteuid() != 0:  # (root reads all)
            for name in ("unreadable", "in/closed"):
                os.chmod(os.path.join(folder, name), 0)
                self.addCleanup(os.chmod, os.path.join(folder, name), 0o700)
                odd.add(name)
        else:
            them.update({"unreadable": b"abc", "in/closed/file": b"abc"})
        return folder, them, odd

    def test_they_are_told(self):
        folder, them, odd = self.make()
        for prefix in ("", "file://"):
            names = lambda found: {os.path.relpath(name.replace("file://", ""), folder): it for name, it in found.items()}
            found = names(nody_dask.check(self.client, prefix + folder, size=100_000, retries=0))
            self.assertEqual({name for name, it in found.items() if isinstance(it, OSError)}, odd)
            self.assertEqual({name: it for name, it in found.items() if name not in odd}, {name: faults_array(it) for name, it in them.items()})
            counts = names(nody_dask.count(self.client, prefix + folder, retries=0))
            self.assertEqual({name: it.size for name, it in counts.items() if name not in odd}, {name: len(it) for name, it in them.items()})
            self.assertEqual({name for name, it in counts.items() if isinstance(it, OSError)}, odd)
            out = os.path.join(self.folder, f"made{len(prefix)}")
            for resume in (False, True):
                made = self.recode(prefix + folder, out, "utf8", "utf16le", size=100_000, retries=0, resume=resume)
                self.assertEqual(names(made.failed).keys(), odd)
                self.assertTrue(all(isinstance(it, OSError) for it in made.failed.values()))
                written = {os.path.relpath(os.path.join(place, name), out): self.read(os.path.join(place, name)) for place, _, files in os.walk(out) for name in files}
                written.pop(nody_dask.MANIFEST)
                self.assertEqual(written, {name: recode(it, "utf8", "utf16le") for name, it in them.items()})
                self.assertEqual((made.read, made.written), (sum(map(len, them.values())), sum(map(len, written.values()))))

    def test_changed_meanwhile(self):
        """A file of a folder that is changed while it is read, at any time, is reported; the others are converted."""
        for when in range(5):
            folder, them = self.files()
            out, done_already = os.path.join(self.folder, f"out{when}"), []

            progress = []

            def change(done, total):
                progress.append((done, total))
                if done >= total * when / 4 and not done_already:
                    done_already.append(True)
                    with open(os.path.join(folder, "file-0"), "ab") as file:
                        file.write(b"more")

            made = self.recode(folder, out, "utf8", "utf16be", change, size=100_000)
            self.assertEqual(progress[-1][0], progress[-1][1]) if when < 2 else None
            self.assertEqual([os.path.basename(it) for it in made.failed], ["file-0"])
            self.assertIsInstance([*made.failed.values()][0], ChangedError)
            self.assertEqual(self.left_in(out), sorted([nody_dask.MANIFEST, *(it for it in them if it != "file-0")]))
            shutil.rmtree(folder)

    def left_in(self, folder):
        return sorted(os.path.relpath(os.path.join(place, name), folder) for place, _, names in os.walk(folder) for name in names)

    def test_long_names(self):
        folder = os.path.join(self.folder, "folder")
        os.mkdir(folder)
        name = os.path.join(os.fsencode(folder), b"\xff" * 255)
        self.write(b"a\xff", name)
        made = self.recode(folder, self.out, "utf8", "utf16le")
        self.assertEqual((made, made.failed, self.read(os.path.join(os.fsencode(self.out), b"\xff" * 255))), ((2, 4, 1), {}, b"a\0\xfd\xff"))

    def test_the_result(self):
        folder, _ = self.files()
        made = self.recode(folder, self.out, "utf8", "utf16le")
        self.assertEqual((made.failed, pickle.loads(pickle.dumps(made)).failed, copy.copy(made).failed), ({}, {}, {}))
        self.assertEqual(made, Recoded(made.read, made.written, made.replaced))


class Paths(OnWorkers):
    def test_as_open_has_them(self):
        self.write(b"a\xff")
        for it in (os.fsencode(self.path), pathlib.Path(self.path), [os.fsencode(self.path)], (pathlib.Path(self.path),)):
            self.assertEqual([*nody_dask.check(self.client, it).values()], [faults_array(b"a\xff")])
            self.assertEqual([it.size for it in nody_dask.count(self.client, it).values()], [2])
        for out in (os.fsencode(self.out), pathlib.Path(self.out)):
            self.assertEqual(self.recode(os.fsencode(self.path), out, "utf8", "utf16le"), (2, 4, 1))
            os.remove(self.out)

    def test_workers_elsewhere(self):
        """A relative path is one of the client's folder."""
        self.write(b"a\xff")
        self.client.run(os.chdir, "/")
        before = os.getcwd()
        os.chdir(self.folder)
        try:
            self.assertEqual(nody_dask.check(self.client, "text"), {"text": faults_array(b"a\xff")})
            self.assertEqual(nody_dask.check(self.client, ["text"]), {"text": faults_array(b"a\xff")})
            self.assertEqual(nody_dask.check(self.client, "."), {"./text": faults_array(b"a\xff")})
            self.assertEqual(self.recode("text", "out", "utf8", "utf8").replaced, 1)
        finally:
            os.chdir(before)
        self.assertEqual(self.left(), ["out"])

    def test_links_to_folders(self):
        """After one `..` leads where the system says, and not where the letters do."""
        os.makedirs(os.path.join(self.folder, "far", "away"))
        os.symlink(os.path.join("far", "away"), os.path.join(self.folder, "link"))
        self.write(b"wrong")
        self.write(b"a\xff", os.path.join(self.folder, "far", "text"))
        source, out = os.path.join(self.folder, "link", "..", "text"), os.path.join(self.folder, "link", "..", "out")
        self.assertEqual(nody_dask.check(self.client, source), {source: faults_array(b"a\xff")})
        self.recode(source, out, "utf8", "utf16le")
        self.assertEqual(self.read(os.path.join(self.folder, "far", "out")), b"a\0\xfd\xff")

    def test_codecs_in_new_workers(self):
        outside.skip_unless_installed(self)
        with distributed.LocalCluster(n_workers=1, dashboard_address=None, silence_logs=50) as cluster, distributed.Client(cluster) as client:
            text = client.submit(codecs.decode, b"a\xff", "noddychest-utf8", "backslashreplace").result()
            self.assertEqual(text, "a\\xff")


class WhatFails(OnWorkers):
    def test_killed_workers(self):
        """Ten times a worker is killed in the middle: the bytes are the same, and nothing else is left."""
        data = mixed(24_000_000)
        self.write(data)
        expected = hashlib.sha256(recode(data, "utf8", "utf16le")).hexdigest()
        for number in range(10):
            killed = []

            def kill(done, total):
                if not killed and done > total * number / 12:
                    self.kill_one(killed, number)

            out = self.out + ".d" if number % 2 else self.out
            nody_dask.recode(self.client, self.path, out, "utf8", "utf16le", kill, parts=number % 2 == 1, size=700_000)
            names = self.parts(out) if number % 2 else [out]
            self.assertEqual((self.digest(*names), len(killed)), (expected, 1), number)
            self.assertEqual([it for it in names + self.left() if it.endswith(".partial")], [])
            self.wait_for_workers()

    def test_killed_while_checking(self):
        data, killed = mixed(24_000_000), []
        self.write(data)

        def kill(done, total):
            if not killed:
                self.kill_one(killed, 0)

        self.assertEqual(nody_dask.check(self.client, self.path, progress=kill, size=700_000)[self.path], faults_array(data))
        self.assertEqual(len(killed), 1)
        self.wait_for_workers()

    def kill_one(self, killed, number):
        """Kills a worker that is at work, if there is one."""
        known = self.client.scheduler_info()["workers"]
        pids = sorted(it.pid for it in self.cluster.workers.values() if it.worker_address in known and it.pid)
        if pids:
            killed.append(pids[number % len(pids)])
            os.kill(killed[0], signal.SIGKILL)

    def wait_for_workers(self):
        """Until the killed one has a successor. Where none comes, there are new ones when fewer than two are left."""
        end = time.monotonic() + 10
        while len(self.client.scheduler_info()["workers"]) < WORKERS and time.monotonic() < end:
            time.sleep(0.05)
        if len(self.client.scheduler_info()["workers"]) < 2:
            self.tearDownClass()
            self.setUpClass()

    def test_strict(self):
        self.write(b"before", self.out)
        for form, data in texts(4, seed=62):
            wrong = [it for it in pieces(data, form) if it.error]
            self.write(data)
            if not wrong:
                continue
            for parts in (False, True):
                with self.assertRaises(FaultError) as raised:
                    nody_dask.recode(self.client, self.path, self.out + ".d" * parts, form, "utf8", errors="strict", size=4, parts=parts)
                self.assertEqual((raised.exception.offset, raised.exception.error), (wrong[0].offset, wrong[0].error))
                self.assertEqual((self.read(), self.left()), (b"before", ["out"]))

    def test_source_that_changes(self):
        data = mixed(6_000_000)
        for change in (lambda: os.truncate(self.path, 1_000_000), lambda: self.write(data + b"more"), lambda: os.remove(self.path)):
            for when in (1, len(data)):  # while lengths are found, and before anything is written
                self.write(data)
                done = []

                def at_first(count, total):
                    if count >= when and not done:
                        done.append(change())

                with self.assertRaises((ChangedError, FileNotFoundError)):
                    nody_dask.recode(self.client, self.path, self.out, "utf8", "utf16le", at_first, size=300_000)
                self.assertEqual(self.left(), [])

    def test_small_file_system(self):
        place = os.path.join(self.folder, "small")
        os.mkdir(place)
        if subprocess.run(["mount", "-t", "tmpfs", "-o", "size=8m", "tmpfs", place], stderr=subprocess.PIPE).returncode != 0:
            self.skipTest("no file system may be mounted here")
        self.addCleanup(subprocess.run, ["umount", place])
        self.write(mixed(12_000_000))
        for parts in (False, True):
            with self.assertRaises(OSError) as raised:
                nody_dask.recode(self.client, self.path, os.path.join(place, "out"), "utf8", "utf16le", parts=parts, size=1_000_000, retries=0)
            self.assertEqual(raised.exception.errno, errno.ENOSPC)
            left = [name for _, _, names in os.walk(place) for name in names]
            self.assertEqual([it for it in left if it.endswith(".partial")], [])

    def test_a_shard_that_is_read_twice(self):
        data = mixed(1_000_000)
        self.write(data)
        them = parallel.shards(self.path, 300_000)
        nody_dask._begin(self.out, sum(it.recoded_len("utf16le") for it in them))
        places = [sum(it.recoded_len("utf16le") for it in them[:number]) for number in range(len(them))]
        for number in [1, 0, 2, 1, 3, 0, 2]:
            nody_dask._write(them[number], "utf16le", "replace", self.out, places[number])
        self.assertEqual(self.read(), recode(data, "utf8", "utf16le"))
        size = os.path.getsize(self.out)
        for _ in range(2):
            nody_dask._end(self.out, self.out + ".end", size)
        self.assertRaises(FileNotFoundError, nody_dask._end, self.out, self.out + ".end", size + 1)

    def test_arguments(self):
        self.write(b"abc")
        call = nody_dask.recode
        self.assertRaises(LookupError, call, self.client, self.path, self.out, "utf8", "latin-1")
        self.assertRaises(LookupError, call, self.client, self.path, self.out, "latin-1", "utf8")
        self.assertRaises(ValueError, call, self.client, self.folder, self.out, "utf8", "utf8", parts=True)
        self.assertRaises(ValueError, call, self.client, ["a/x", "b/x"], self.out, "utf8", "utf8")
        self.assertRaises(FileNotFoundError, call, self.client, self.path + "-none", self.out, "utf8", "utf8", retries=0)
        self.assertRaises(FileNotFoundError, call, self.client, [f"file://{self.path}-none"], self.out, "utf8", "utf8", retries=0)
        self.assertEqual(nody_dask.check(self.client, []), {})


if __name__ == "__main__":
    tempfile.gettempdir()
    unittest.main()
