"""The program `noddychest`: what it prints, how it ends, and that it reads by parts. compare/commands holds it beside nody(1)."""
import fcntl
import os
import random
import re
import shutil
import signal
import struct
import subprocess
import sys
import tempfile
import time
import unittest

import noddychest
from noddychest import FaultKind, pieces, recode

import outside

SAMPLE = b"h\xc3\xa9\xe2\x82A\xf0\x9f\x98\x80"
NODY = os.path.join(outside.TOP, "build", "nody")
# What ./pieces prints for it (README.md of the repository).
LISTING = "0 1 000068\n1 2 0000e9\n3 1 InterruptedSequence\n4 1 UnexpectedContinuationByte\n5 1 000041\n6 4 01f600\n"


def ran(*words, given=b"", **more):
    it = subprocess.run([sys.executable, "-m", "noddychest", *words], input=given, stdout=subprocess.PIPE, stderr=subprocess.PIPE, **more)
    return it.returncode, it.stdout, it.stderr.decode()


def heed_signals():
    """What a script starts in the background ignores an interrupt, under nohup also a hangup, and so does what that starts."""
    for it in (signal.SIGINT, signal.SIGHUP):
        signal.signal(it, signal.SIG_DFL)


class Program(unittest.TestCase):
    def setUp(self):
        folder = tempfile.TemporaryDirectory()
        self.addCleanup(folder.cleanup)
        self.folder = folder.name

    def file(self, data):
        path = os.path.join(self.folder, "file")
        with open(path, "wb") as file:
            file.write(data)
        return path

    def read(self, name):
        with open(os.path.join(self.folder, name), "rb") as file:
            return file.read()

    def test_pieces(self):
        self.assertEqual(ran("pieces", given=SAMPLE), (1, LISTING.encode(), ""))
        self.assertEqual(ran("pieces", self.file(SAMPLE)), (1, LISTING.encode(), ""))
        self.assertEqual(ran("pieces", "--encoding", "UTF-16BE", given="é😀".encode("utf-16-be")), (0, b"0 2 0000e9\n2 4 01f600\n", ""))
        self.assertEqual(ran("pieces"), (0, b"", ""))

    def test_check(self):
        reason = FaultKind.INTERRUPTED_SEQUENCE.reason, FaultKind.UNEXPECTED_CONTINUATION_BYTE.reason
        path, good = self.file(SAMPLE), os.path.join(self.folder, "good")
        with open(good, "wb") as file:
            file.write("é".encode() * 10)
        text = f"{path}:1:3: offset 3: {reason[0]}\n{path}:1:4: offset 4: {reason[1]}\n{path}: not valid UTF-8: 2 invalid bytes\n"
        valid = f"{good}: valid UTF-8\n"
        self.assertEqual(ran("check", "-v", good, path), (1, (valid + text).encode(), ""))
        self.assertEqual(ran("check", good), (0, b"", ""))
        self.assertEqual(ran("check", good, "-v"), (0, valid.encode(), ""))
        self.assertEqual(ran("check", given=SAMPLE), (1, text.replace(path, "-").encode(), ""))
        for jobs in ([], ["--jobs", "2"]):
            self.assertEqual(ran("check", *jobs, good, path, good), (1, text.encode(), ""))
            self.assertEqual(ran("check", "--quiet", *jobs, good), (0, b"", ""))
            self.assertEqual(ran("check", "-q", *jobs, good, path, good), (1, b"", ""))

    def test_lines_and_columns(self):
        """As an editor counts them: a line ends with its line feed, and an invalid byte is a column."""
        text = b"a\xffb\n\n\xc3\xa9\xe2\x82\n\xf0\x9f\x98\x80\xff"
        places = [("1:2", 1), ("3:2", 7), ("3:3", 8), ("4:2", 14)]
        self.assertEqual([it[:2] for it in self.told(text)], places)
        wide = "a\ud83db\n\n\u0a00\u0d0a\udc00\n\U0001f600\ud83d".encode("utf-16-le", "surrogatepass") + b"\n"
        places = [("1:2", 2), ("3:3", 14), ("4:2", 22), ("4:3", 24)]
        self.assertEqual([it[:2] for it in self.told(wide, "--encoding", "utf16le")], places)

    def told(self, data, *words):
        path = self.file(data)
        status, out, err = ran("check", *words, path)
        self.assertEqual((status, err), (1, ""))
        lines = out.decode().splitlines()
        self.assertEqual(len(lines) - 1, int(lines[-1].split(": ")[2].split()[0]))
        found = [re.fullmatch(re.escape(path) + r":(\d+:\d+): offset (\d+): (.*)", it) for it in lines[:-1]]
        return [(it[1], int(it[2]), it[3]) for it in found]

    @unittest.skipUnless(os.path.exists(NODY), "the program nody is not built")
    def test_it_says_what_nody_says(self):
        chances = random.Random(7)
        for encoding in ("utf8", "utf16le", "utf16be"):
            codec = {"utf8": "utf-8", "utf16le": "utf-16-le", "utf16be": "utf-16-be"}[encoding]
            for size in (0, 1, 30, (1 << 20) + 3):
                text = ("né\n😀" * 40).encode(codec) * (size // 200)
                noise = b"".join(chances.choice([b"\xff", b"\n\0", b"\0\n", b"\xd8\x3d", b"\x3d\xd8", b"\xe2\x82", b"a"]) for _ in range(size % 200))
                path = self.file(text + noise + text[:500] + noise)
                for more in (["-v", "-a", "--max", "0"], [], ["--max", "7", "--columns", "bytes"], ["--json"], ["-l"], ["--encoding", "auto"]):
                    words = ["check", "--from", encoding, *more, path, path + "-none", "-"]
                    of_nody = self.nody(*words, given=noise)
                    for jobs in ("1", "3"):
                        self.assertEqual(ran(*words, "--jobs", jobs, given=noise), of_nody)
                words = ["--to", "utf16be", "--errors", "strict"]
                strict = self.nody("recode", "--from", encoding, *words, path)
                self.assertEqual(ran("recode", "--from", encoding, *words, path), strict)
                into = ran("recode", "--from", encoding, *words, "-o", path + "-out", path)
                self.assertEqual(into, (strict[0], b"", strict[2]))
                for errors in ("replace", "lossy"):
                    words = ["recode", "--from", encoding, "--errors", errors, path]
                    self.assertEqual(ran(*words), self.nody(*words))

    def nody(self, *words, given=b""):
        """What nody does, in the words of this program."""
        it = subprocess.run([NODY, *words], input=given, stdout=subprocess.PIPE, stderr=subprocess.PIPE)
        return it.returncode, it.stdout, re.sub("^nody:", "noddychest:", it.stderr.decode(), flags=re.M)

    def test_files_that_cannot_be_read_stop_no_others(self):
        path, none = self.file(b"a\xff"), self.folder + "/none"
        line = f"{path}:1:2: offset 1: {FaultKind.NON_UTF8_BYTE.reason}\n{path}: not valid UTF-8: 1 invalid byte\n"
        for jobs in ([], ["--jobs", "2"]):
            status, out, err = ran("check", *jobs, none, path, none, path)
            self.assertEqual((status, out, err), (3, line.encode() * 2, f"noddychest: {none}: No such file or directory\n" * 2))

    def test_long_input(self):
        """The parts in which it reads are not to be seen."""
        for wrong in (b"\xe2\x82", b"\xf0\x9f\x98\x80", b"\xf4\x90\x80\x80", b"\xff"):
            for shift in (-4, -3, -1, 0, 2):
                data = b"a" * ((1 << 20) + shift) + wrong + "é".encode() * 3000 + b"\xe2\x82"
                path = self.file(data)
                _, out, _ = ran("check", path)
                lines, columns = data.count(b"\n"), [at for at, it in enumerate(pieces(data), 1) if it.error]
                faults = [it for it in pieces(data) if it.error]
                expected = [f"{path}:1:{column}: offset {it.offset}: {it.error.reason}" for column, it in zip(columns, faults)]
                expected += [f"{path}: not valid UTF-8: {len(faults)} invalid bytes"]
                self.assertEqual(lines, 0)
                self.assertEqual(out.decode().splitlines(), expected)

    def test_repair(self):
        """What becomes of the bytes that are not UTF-8 is what they are in Python's codecs."""
        bytes_, units = b"caf\xe9 \x80\xe2\x82", b"a\0\0\xdc\0"
        for errors, text, told in (("windows-1252", bytes_.decode("cp1252"), "4 invalid bytes read as Windows-1252"),
                                   ("latin1", bytes_.decode("latin-1"), "4 invalid bytes read as ISO-8859-1"), ("drop", "caf ", "4 invalid bytes dropped")):
            for words in ([], ["-o", self.folder + "/out"], ["-o", self.folder + "/out", "--jobs", "2"]):
                path = self.file(bytes_)
                status, out, err = ran("recode", "--to", "utf-16be", "--errors", errors, *words, path)
                made = self.read("out") if words else out
                self.assertEqual((status, made.decode("utf-16-be"), err), (0, text, f"noddychest: {path}: {told}\n"))
            self.assertEqual(ran("fix", "--dry-run", "--errors", errors, path)[0], 1)
            self.assertEqual((ran("fix", "--errors", errors, "--backup", ".old", path), self.read("file"), self.read("file.old")),
                             ((0, b"", f"noddychest: {path}: {told}\n"), text.encode(), bytes_))
            self.assertEqual(ran("fix", "--errors", errors, path), (0, b"", ""))
            os.remove(path + ".old")
            told, text = ("2 invalid units dropped", "a") if errors == "drop" else ("2 invalid units became U+FFFD", "a\ufffd\ufffd")
            self.assertEqual(ran("recode", "--from", "utf-16le", "--errors", errors, given=units), (0, text.encode(), f"noddychest: -: {told}\n"))
        for command in ("fix", "recode"):
            for wrong in ("ignore", "latin-1", "Windows-1252", "", "table"):
                self.assertEqual(ran(command, "--errors", wrong, path)[0], 2)

    def test_recode(self):
        for errors in ("replace", "lossy"):
            expected = recode(SAMPLE, "utf8", "utf16le", errors)
            told = "noddychest: -: 2 invalid bytes became U+FFFD\n"
            self.assertEqual(ran("recode", "--from", "utf-8", "--to", "UTF-16LE", "--errors", errors, given=SAMPLE), (0, expected, told))
            self.assertEqual(ran("recode", "-q", "--to", "UTF-16LE", "--errors", errors, given=SAMPLE), (0, expected, ""))
        data = "é😀".encode() * 300_000
        status, out, _ = ran("recode", "--from", "utf8", "--to", "utf16be", self.file(data))
        self.assertEqual((status, out), (0, ("é😀" * 300_000).encode("utf-16-be")))
        for before in (b"", b"ab", "é".encode() * 700_000):
            status, out, err = ran("recode", "--from", "utf8", "--to", "utf8", "--errors", "strict", given=before + b"\xffb")
            self.assertEqual((status, out, err), (1, before, f"-:1:{len(before.decode()) + 1}: offset {len(before)}: {FaultKind.NON_UTF8_BYTE.reason}\n"))

    def test_jobs(self):
        path, out = self.file(SAMPLE * 600_000), os.path.join(self.folder, "out")
        expected = recode(SAMPLE * 600_000, "utf8", "utf16le")
        for words in (["--jobs", "3"], [], ["--jobs", "2", "--resume"]):
            told = f"noddychest: {path}: 1200000 invalid bytes became U+FFFD\n"
            self.assertEqual(ran("recode", "--from", "utf8", "--to", "utf16le", "-o", out, *words, path), (0, b"", told))
            with open(out, "rb") as file:
                self.assertEqual(file.read(), expected)
        self.assertEqual(sorted(os.listdir(self.folder)), ["file", "out"])
        status, _, err = ran("recode", "--from", "utf8", "--to", "utf16le", "-o", out, "--errors", "strict", "--jobs", "2", path)
        self.assertEqual((status, err), (1, f"{path}:1:3: offset 3: {FaultKind.INTERRUPTED_SEQUENCE.reason}\n"))
        path = self.file(b"a" * 3_000_000 + SAMPLE * 3 + b"\xe2")
        self.assertEqual(ran("check", "--jobs", "3", path), ran("check", path))
        self.assertEqual(ran("check", "--jobs", "3", path, "/none")[0], 3)
        self.assertEqual(ran("recode", "--from", "utf8", "--to", "utf8", "-o", self.folder, path)[0], 3)
        for words in (["recode", "--from", "utf8", "--to", "utf8", "--jobs", "2"], ["recode", "--from", "utf8", "--to", "utf8", "--resume"],
                      ["check", "--jobs", "0"], ["check", "--jobs", "x"], ["recode", "--from", "utf8", "--to", "utf8", "-o", out]):
            self.assertEqual(ran(*words)[0], 2, words)

    @unittest.skipUnless(os.path.exists("/proc/self/environ"), "there is no /proc")
    def test_jobs_of_a_file_whose_length_is_not_known(self):
        """Its length is 0, and it has bytes."""
        path, out, env = "/proc/self/environ", os.path.join(self.folder, "out"), {**os.environ, "NAME": "caf\udce9"}
        for words in ([], ["-a", "--max", "0"], ["--json"]):
            one = ran("check", "--jobs", "1", *words, path, env=env)
            self.assertEqual((one[0], ran("check", "--jobs", "2", *words, path, env=env)), (1, one))
        told = f"noddychest: {path}: its length is not known, so it has no shards\n"
        self.assertEqual((ran("recode", path, "-o", out, env=env), os.listdir(self.folder)), ((3, b"", told), []))

    def test_wrong_arguments(self):
        for words in ([], ["nonsense"], ["recode", "--to", "auto"], ["recode", "a", "b"], ["check", "--encoding", "latin-1"], ["recode", "--from", "utf8", "--to", "utf8", "-x"]):
            status, out, err = ran(*words)
            self.assertEqual((status, out), (2, b""), words)
            self.assertIn("usage: noddychest ", err)
        status, out, err = ran("recode", "--from", "utf8", "--to", "utf8", "--output", "-", self.file(b"a"), cwd=self.folder)
        self.assertEqual((status, out, "standard output" in err, os.listdir(self.folder)), (2, b"", True, ["file"]))
        self.assertEqual(ran("--version"), (0, f"noddychest {noddychest.__version__}\n".encode(), ""))
        status, out, err = ran("--help")
        self.assertEqual((status, out.count(b"\n  noddychest "), err), (0, 5, ""))
        for command in ("check", "fix", "list", "recode", "pieces"):
            status, out, err = ran(command, "--help")
            self.assertEqual((status, f"usage: noddychest {command} ".encode() in out, b"Exit status" in out, err), (0, True, True, ""))

    def test_files_that_fail(self):
        for words in (["check", self.folder], ["fix", self.folder], ["pieces", self.folder + "/none"], ["recode", "--from", "utf8", "--to", "utf8", "/none"]):
            status, out, err = ran(*words)
            self.assertEqual((status, out), (3, b""), words)
            self.assertRegex(err, r"^noddychest: .*\n$")

    def test_addresses_without_fsspec(self):
        for words in (["check", "--jobs", "2"], ["recode", "--from", "utf8", "--to", "utf8", "--output", self.folder + "/out"]):
            status, out, err = ran(*words, "memory://none", env=dict(os.environ, PYTHONPATH=self.without("fsspec")))
            self.assertEqual((status, out, err), (3, b"", "noddychest: there is no fsspec\n"))

    def test_addresses_that_fail(self):
        """What fsspec raises may be of any type."""
        for error in ("ValueError", "LookupError", "OSError", "Exception"):
            os.makedirs(self.folder + "/fsspec", exist_ok=True)
            open(self.folder + "/fsspec/__init__.py", "w").close()
            with open(self.folder + "/fsspec/core.py", "w") as file:
                file.write(f"def url_to_fs(url):\n    raise {error}('no such protocol')\n")
            for words in (["check", "--jobs", "2"], ["recode", "-o", self.folder + "/out"], ["recode", "--encoding", "auto", "-o", self.folder + "/out"]):
                status, out, err = ran(*words, "none://none", env=dict(os.environ, PYTHONPATH=os.pathsep.join([self.folder, *sys.path])))
                self.assertEqual((status, out, err.replace('"', "").replace("'", "")), (3, b"", "noddychest: no such protocol\n"), (error, words))

    def without(self, name):
        """A folder in which a module of this name cannot be imported."""
        with open(os.path.join(self.folder, name + ".py"), "w") as file:
            file.write(f"raise ImportError('there is no {name}')\n")
        return os.pathsep.join([self.folder, *filter(None, [os.environ.get("PYTHONPATH")])])

    def test_streams_that_are_closed(self):
        for words in (["pieces"], ["check", "-v"], ["list"], ["recode", "--from", "utf8", "--to", "utf8"]):
            for closed, more in (("<&-", []), (">&-", [self.file(b"a")])):
                it = subprocess.run(["sh", "-c", '"$@" ' + closed, "sh", sys.executable, "-m", "noddychest", *words, *more], stdout=subprocess.PIPE, stderr=subprocess.PIPE)
                self.assertEqual((it.returncode, it.stdout, it.stderr.count(b"\n")), (3, b"", 1), (words, closed, it.stderr))

    def test_standard_error_that_is_closed_or_full(self):
        """The status is the same, and no message comes among the output."""
        path = self.file(b"ab\xff")
        recoding = ["recode", "--from", "utf8", "--to", "utf8", "--errors", "strict", path]
        found = f"{path}:1:3: offset 2: {FaultKind.NON_UTF8_BYTE.reason}\n{path}: not valid UTF-8: 1 invalid byte\n".encode()
        for words, status, out in ((recoding, 1, b"ab"), ([*recoding, "--output", path + "-out"], 1, b""), (["check", path + "-none"], 3, b""),
                                   (["check", "--jobs", "2", path], 1, found), ([*recoding[:5], path, "--output", path + "-out"], 0, b"")):
            for to in ("2>&-", "2>/dev/full"):
                it = subprocess.run(["sh", "-c", '"$@" ' + to, "sh", sys.executable, "-m", "noddychest", *words], stdout=subprocess.PIPE)
                self.assertEqual((it.returncode, it.stdout), (status, out), (words, to))

    def test_input_that_is_the_output(self):
        path = self.file(b"a\xff")
        for words in (["pieces", path], ["check", path], ["recode", "--from", "utf8", "--to", "utf8", "-"]):
            with open(path, "rb") as file, open(path, "ab") as end:
                it = subprocess.run([sys.executable, "-m", "noddychest", *words], stdin=file, stdout=end, stderr=subprocess.PIPE)
            with open(path, "rb") as file:
                self.assertEqual((it.returncode, file.read()), (3, b"a\xff"), (words, it.stderr))

    def test_names_that_are_no_text_or_command_a_terminal(self):
        """They are shown as nody(1) shows them, whatever the output is encoded in."""
        for name, shown in ((b"\xff", b"\\377"), ("é".encode(), "é".encode()), (b"a\nb\x1b[m", b"a\\012b\\033[m"), ("\u202ea".encode(), b"\\342\\200\\256a")):
            path, front = os.fsencode(self.folder) + b"/" + name, os.fsencode(self.folder) + b"/" + shown
            with open(path, "wb") as file:
                file.write(b"a\xff")
            expected = front + f":1:2: offset 1: {FaultKind.NON_UTF8_BYTE.reason}\n".encode() + front + b": not valid UTF-8: 1 invalid byte\n"
            for encoding in ("utf-8", "ascii", "latin-1", "utf-16"):
                self.assertEqual(ran("check", path, env=dict(os.environ, PYTHONUTF8="1", PYTHONIOENCODING=encoding)), (1, expected, ""))
            missing = subprocess.run([sys.executable, "-m", "noddychest", "check", path + b"-"], stdout=subprocess.PIPE, stderr=subprocess.PIPE)
            self.assertEqual((missing.returncode, missing.stdout, missing.stderr), (3, b"", b"noddychest: " + front + b"-: No such file or directory\n"))

    def test_a_pipe_that_is_closed(self):
        """Nobody reads any more: it ends with 3, and says nothing."""
        path = self.file(b"a\xff\n" * 400_000)
        for words in (["pieces", path], ["check", path], ["recode", "--from", "utf8", "--to", "utf8", path]):
            with subprocess.Popen([sys.executable, "-m", "noddychest", *words], stdout=subprocess.PIPE, stderr=subprocess.PIPE) as it:
                it.stdout.read(10)
                it.stdout.close()
                self.assertEqual((it.stderr.read(), it.wait()), (b"", 3), words)

    def test_what_comes_in_time_is_told_of_in_time(self):
        """Each part of a pipe is reported before the next one is waited for; an interrupt ends it as a signal does."""
        how = {"stdin": subprocess.PIPE, "stdout": subprocess.PIPE, "stderr": subprocess.PIPE, "preexec_fn": heed_signals}
        with subprocess.Popen([sys.executable, "-m", "noddychest", "check"], **how) as it:
            it.stdin.write(b"a\xffbcdefgh")
            it.stdin.flush()
            self.assertEqual(it.stdout.readline(), f"-:1:2: offset 1: {FaultKind.NON_UTF8_BYTE.reason}\n".encode())
            it.send_signal(signal.SIGINT)
            self.assertEqual((it.wait(60), it.stderr.read()), (-signal.SIGINT, b""))

    def test_input_that_does_not_wait(self):
        """Standard input that has no data now has not ended: what comes later is waited for."""
        for words, expected in ((["check"], b"-:1:7: offset 6: "), (["list"], b"6 1 ff "), (["recode", "-q"], b"abcabc\xef")):
            reader, writer = os.pipe()
            os.set_blocking(reader, False)
            os.write(writer, b"abc")
            with subprocess.Popen([sys.executable, "-m", "noddychest", *words], stdin=reader, stdout=subprocess.PIPE, stderr=subprocess.PIPE) as it:
                time.sleep(0.5)
                os.write(writer, b"abc\xff")
                os.close(writer)
                out, err = it.communicate(timeout=60)
            os.close(reader)
            self.assertEqual((expected in out, err), (True, b""), (words, out))

    @unittest.skipUnless(os.path.exists("/dev/full"), "there is no /dev/full")
    def test_writes_that_fail(self):
        with open("/dev/full", "wb") as full:
            for words in (["pieces"], ["check"], ["recode", "--from", "utf8", "--to", "utf8"]):
                it = subprocess.run([sys.executable, "-m", "noddychest", *words], input=b"\xff" * 10, stdout=full, stderr=subprocess.PIPE)
                self.assertEqual((it.returncode, it.stderr.count(b"\n")), (3, 1), (words, it.stderr))


class Fix(unittest.TestCase):
    """What another process does while a file is replaced: this runs at a call of the system, in the program itself."""

    def setUp(self):
        folder = tempfile.TemporaryDirectory()
        self.addCleanup(folder.cleanup)
        self.folder, self.path = folder.name, os.path.join(folder.name, "file")
        with open(self.path, "wb") as file:
            file.write(b"a\xffb")

    def fixed_while(self, call, act, *words):
        return self.ran_while(call, act, "fix", *words, self.path)

    def ran_while(self, call, act, *words):
        """Runs the program, and a line of Python after each call of a function of `os`."""
        program = f"""
import os, signal, sys
path, had = {self.path!r}, os.{call}
def called(*given, **named):
    made = had(*given, **named)
    {act}
    return made
os.{call} = called
from noddychest.__main__ import main
sys.argv[1:] = {[*words]!r}
sys.exit(main())
"""
        it = subprocess.run([sys.executable, "-c", program], stdout=subprocess.PIPE, stderr=subprocess.PIPE, timeout=60, preexec_fn=heed_signals)
        return it.returncode, it.stdout, it.stderr.decode()

    def files(self):
        found = {}
        for name in os.listdir(self.folder):
            with open(os.path.join(self.folder, name), "rb") as file:
                found[name] = file.read()
        return found

    CHANGED = "it changed while it was read, and stays as it is\n"

    def test_what_others_write_meanwhile_is_not_lost(self):
        for words in ([], ["--backup", ".old"]):
            for act, left in (("open(path, 'ab').write(b'more')", b"a\xffbmore"), ("open(path, 'r+b').write(b'xyz')", b"xyz"),
                              ("open(path + 'new', 'wb').write(b'other'); os.rename(path + 'new', path)", b"other")):
                self.setUp()
                self.assertEqual(self.fixed_while("fsync", act, *words), (3, b"", f"noddychest: {self.path}: {self.CHANGED}"), act)
                self.assertEqual(self.files(), {"file": left}, (act, words))

    def test_a_file_that_is_written_before_it_is_read_again(self):
        """The encoding is that of the byte order mark that it had: what others wrote is in another one."""
        other = "né".encode() * 3 + b"\xff\xd8"
        for words in ([], ["--dry-run"]):
            with open(self.path, "wb") as file:
                file.write("\ufeffa\ud800b".encode("utf-16-le", "surrogatepass"))
            status, out, err = self.fixed_while("lseek", f"given[2] == os.SEEK_SET and open(path, 'wb').write({other!r})", "--encoding", "auto", *words)
            self.assertEqual(self.files(), {"file": other})
            if not words:
                self.assertEqual((status, out, err), (3, b"", f"noddychest: {self.path}: {self.CHANGED}"))

    def test_parts_of_long_lines(self):
        """Of a long line --dry-run shows a part, which begins and ends between characters."""
        for front, back in ((b"", "é" * 5000), (b"a" * 9001, "€" * 5000), (b"\xff" * 9000, "")):
            with open(self.path, "wb") as file:
                file.write(front + b"\xff" + back.encode() + b"\n")
            status, out, _ = ran("fix", "--dry-run", self.path)
            old, new = out.decode().splitlines()[3:]
            self.assertEqual((status, old[-1], new[-1]), (1, "…", "…"))
            self.assertEqual(old[1:].replace("\\xFF", "\ufffd"), new[1:])
            self.assertNotIn("\\x", new)

    def test_a_source_that_is_gone_when_its_output_is_there(self):
        """What is said of it is known before: it may be removed meanwhile, or the output may have its name."""
        out = os.path.join(self.folder, "out")
        status, _, err = self.ran_while("fsync", "os.path.exists(path) and os.remove(path)", "recode", self.path, "-o", out)
        self.assertEqual((status, err, self.files()), (0, f"noddychest: {self.path}: 1 invalid byte became U+FFFD\n", {"out": b"a\xef\xbf\xbdb"}))
        with open(self.path, "wb") as file:
            file.write("\ufeffa\ud800b".encode("utf-16-le", "surrogatepass"))
        told = f"noddychest: {self.path}: 1 invalid unit became U+FFFD\n"
        self.assertEqual(ran("recode", "--encoding", "auto", self.path, "-o", self.path), (0, b"", told))

    def test_a_source_that_is_gone_when_its_error_is_told(self):
        status, out, err = self.ran_while("remove", "os.path.exists(path) and had(path)", "recode", "--errors", "strict", self.path, "-o", self.path + "new")
        self.assertEqual((status, out, err), (3, b"", f"noddychest: {self.path}: No such file or directory\n"))

    def test_a_file_that_is_removed_meanwhile(self):
        status, out, err = self.fixed_while("fsync", "os.remove(path)")
        self.assertEqual((status, out, err, self.files()), (3, b"", f"noddychest: {self.path}: {self.CHANGED}", {}))

    def test_signals(self):
        """The file stays as it is, and no other is left."""
        for call in ("open", "fchmod", "fsync", "link"):
            for name in ("SIGTERM", "SIGHUP", "SIGINT"):
                self.setUp()
                act = f"os.kill(os.getpid(), signal.{name}) if {call!r} != 'open' or '.partial' in str(given[0]) else None"
                status, out, err = self.fixed_while(call, act, "--backup", ".old")
                self.assertEqual((status, out, err, self.files()), (-getattr(signal, name), b"", "", {"file": b"a\xffb"}), (call, name))

    def test_signals_together(self):
        """The first one ends it, and the others do not interrupt that."""
        them = {signal.SIGTERM, signal.SIGHUP, signal.SIGINT}
        act = "if '.partial' in str(given): them = {1, 2, 15}; signal.pthread_sigmask(signal.SIG_BLOCK, them); [os.kill(os.getpid(), it) for it in them]; " \
              "signal.pthread_sigmask(signal.SIG_UNBLOCK, them)"
        for call in ("open", "replace"):
            self.setUp()
            status, out, err = self.fixed_while(call, act, "--backup", ".old")
            left = {"file": b"a\xffb"} if call == "open" else {"file": b"a\xef\xbf\xbdb", "file.old": b"a\xffb"}
            self.assertEqual((-status in them, out, err, self.files()), (True, b"", "", left), call)

    def test_another_run(self):
        with open(self.path, "rb") as file:
            fcntl.flock(file, fcntl.LOCK_EX)
            self.assertEqual(ran("fix", self.path), (3, b"", f"noddychest: {self.path}: another process has locked it\n"))
        self.assertEqual(self.files(), {"file": b"a\xffb"})

    def test_a_disk_that_is_full(self):
        status, out, err = self.fixed_while("pwrite", "raise OSError(28, 'No space left on device')")
        self.assertEqual((status, out, err, self.files()), (3, b"", f"noddychest: {self.path}: No space left on device\n", {"file": b"a\xffb"}))

    @unittest.skipUnless(os.geteuid() == 0, "only root may give a file away")
    def test_owner(self):
        os.chown(self.path, 1234, 4321)
        os.chmod(self.path, 0o4640)
        self.assertEqual(ran("fix", "-q", self.path), (0, b"", ""))
        about = os.stat(self.path)
        self.assertEqual((about.st_uid, about.st_gid, about.st_mode & 0o7777), (1234, 4321, 0o4640))

    def as_other(self, *words):
        """Runs the program as a user of another group, who may be one that may not read Python itself."""
        program = f"""
import os, sys
import locale, shutil, noddychest._fixing, noddychest.parallel
from noddychest.__main__ import main
os.setgroups([])
os.setresgid(12345, 12345, 12345)
os.setresuid(65534, 65534, 65534)
sys.argv[1:] = {[*words]!r}
sys.exit(main())
"""
        it = subprocess.run([sys.executable, "-c", program], stdout=subprocess.PIPE, stderr=subprocess.PIPE, timeout=60)
        return it.returncode, it.stdout, it.stderr.decode()

    def owned(self, mode, *attributes):
        """The file anew: that user's, of the group 0, in a folder in which the user may write."""
        os.chmod(self.folder, 0o777)
        with open(self.path, "wb") as file:
            file.write(b"a\xffb")
        for name, value in attributes:
            os.setxattr(self.path, name, value)
        os.chown(self.path, 65534, 0)
        os.chmod(self.path, mode)

    @unittest.skipUnless(os.geteuid() == 0, "only root may be another user")
    def test_a_group_that_is_lost(self):
        """What that group could do, and others could not, neither it nor the new group may do afterwards: no mode gives more than it did."""
        for mode, left in ((0o660, 0o600), (0o606, 0o600), (0o664, 0o644), (0o2754, 0o744)):
            self.owned(mode)
            self.assertEqual(self.as_other("fix", "-q", self.path), (0, b"", ""))
            about = os.stat(self.path)
            self.assertEqual((about.st_uid, about.st_gid, about.st_mode & 0o7777), (65534, 12345, left))

    # What user 1234 may, the group and others: as Linux keeps it.
    LIST = b"".join((b"\2\0\0\0", *(struct.pack("<HHi", *it) for it in ((1, 6, -1), (2, 6, 1234), (4, 0, -1), (0x10, 6, -1), (0x20, 4, -1)))))

    def attributes(self):
        return {it: os.getxattr(self.path, it) for it in os.listxattr(self.path)}

    @unittest.skipUnless(hasattr(os, "setxattr"), "extended attributes are of Linux")
    def test_attributes(self):
        given = {"user.mime_type": b"text/plain", "user.empty": b"", "system.posix_acl_access": self.LIST}
        try:
            for name, value in given.items():
                os.setxattr(self.path, name, value)
        except OSError:
            self.skipTest("this file system has no such attributes")
        mode = os.stat(self.path).st_mode
        self.assertEqual(ran("fix", "-q", self.path), (0, b"", ""))
        self.assertEqual((self.attributes(), os.stat(self.path).st_mode), (given, mode))
        os.removexattr(self.path, "system.posix_acl_access")
        self.assertEqual(ran("recode", "-q", "--to", "utf-16le", self.path, "-o", self.path), (0, b"", ""))
        self.assertEqual({*self.attributes()}, {"user.mime_type", "user.empty"})
        if os.geteuid() == 0:
            self.owned(0o664, ("system.posix_acl_access", self.LIST))
            self.assertEqual(self.as_other("fix", "-q", self.path), (0, b"", ""))
            self.assertEqual(os.stat(self.path).st_mode & 0o7777, 0o600)

    @unittest.skipUnless(os.geteuid() == 0, "only root may be another user")
    def test_a_file_that_may_not_be_written(self):
        """It is replaced in place, but not by its name, as nody(1) does."""
        self.owned(0o444)
        self.assertEqual(self.as_other("recode", self.path, "-o", self.path), (3, b"", f"noddychest: {self.path}: Permission denied\n"))
        self.assertEqual(self.files(), {"file": b"a\xffb"})
        self.assertEqual(self.as_other("fix", "-q", self.path), (0, b"", ""))
        self.assertEqual((self.files(), os.stat(self.path).st_mode & 0o7777), ({"file": "a\ufffdb".encode()}, 0o444))


class Command(unittest.TestCase):
    @unittest.skipUnless(shutil.which("noddychest", path=os.path.dirname(sys.executable)), "the package is not installed with its command")
    def test_it_is_the_same_program(self):
        it = subprocess.run([os.path.join(os.path.dirname(sys.executable), "noddychest"), "check"], input=b"a\xff", stdout=subprocess.PIPE)
        self.assertEqual((it.returncode, it.stdout), ran("check", given=b"a\xff")[:2])

    def test_it_starts_in_little_time(self):
        """It imports nothing that this command does not need: what takes time is looked at by its cause, since machines differ."""
        bare, it = (subprocess.run([sys.executable, "-c", f"import sys{more}; print(*sys.modules)"], stdout=subprocess.PIPE, text=True).stdout.split()
                    for more in ("", ", noddychest.__main__"))
        self.assertFalse({"noddychest.parallel", "concurrent.futures", "hashlib", "threading", "tempfile", "inspect"} & ({*it} - {*bare}))


class Readme(unittest.TestCase):
    def samples(self):
        path = os.path.join(outside.TOP, "python", "README.md")
        if not os.path.exists(path):
            self.skipTest("README.md is in the repository")
        with open(path, encoding="utf-8") as file:
            return [it.partition("```")[0] for it in file.read().split("```python new\n")[1:]]

    def test_samples(self):
        printed = []
        for sample in self.samples():
            with tempfile.TemporaryDirectory() as folder:
                open(os.path.join(folder, "log.txt"), "wb").close()
                it = subprocess.run([sys.executable, "-c", sample], cwd=folder, stdout=subprocess.PIPE, check=True)
            printed.append(it.stdout.decode().splitlines()[:2])
        self.assertEqual(printed, [["0 1 h", "1 2 é"], [], ["0 h", "1 é"], []])

    def test_comments(self):
        """The lines of the samples have the results that their comments name."""
        for about in ("parallel.recode(", "mixed = "):
            sample = next(it for it in self.samples() if about in it)
            given = re.findall(r"^((?:parallel|noddychest|mixed)\.\S.*?) +# (.*)$", sample, re.M)
            before = sample[:sample.index(given[0][0])]
            program = before + "".join(f"print(ascii({call}))\n" for call, _ in given)
            with tempfile.TemporaryDirectory() as folder:
                it = subprocess.run([sys.executable, "-c", program], cwd=folder, stdout=subprocess.PIPE, check=True)
            self.assertEqual(it.stdout.decode().splitlines(), [answer.encode("ascii", "backslashreplace").decode() for _, answer in given])
            self.assertEqual(len(given), 4)


if __name__ == "__main__":
    outside.cut(b"")
    unittest.main()
