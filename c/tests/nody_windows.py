"""Runs nody.exe, and holds it against the nody of this system: the same words, input and files have to give the same status, output, messages and
files. Then what only Windows has: its names of files, locks, and the ends of a program. c/check-windows runs this; it has the tools."""
import fcntl
import os
import pty
import random
import select
import shutil
import signal
import struct
import subprocess
import termios
import time

# What damaged text is made of: 1A ends a text for some programs of Windows, and a carriage return is no part of the end of a line.
PARTS = {
    "utf-8": [b"caf\xc3\xa9 \r\n", b"\x1a\n", b"\xe2\x82\xac", b"\xf0\x9f\x98\x80", b"\xff", b"\xe2\x82", b"\n", b"text text\t", "\u6f22\u30a2e\u0301".encode()],
    "utf-16le": ["text \r\n".encode("utf-16-le"), "\xe9\u20ac".encode("utf-16-le"), "\U0001f600".encode("utf-16-le"), b"\x3d\xd8", b"\x00\xde", b"\x0a\x0a"],
    "utf-16be": ["text \r\n".encode("utf-16-be"), "\xe9\u20ac".encode("utf-16-be"), "\U0001f600".encode("utf-16-be"), b"\xd8\x3d", b"\xde\x00", b"\x0a\x0a"],
}
DAMAGED = b"caf\xc3\xa9 \xe2\x82 au lait\r\nsecond \xff line\n"
FIXED = DAMAGED.decode(errors="replace").replace("\ufffd", "\ufffd\ufffd", 1).encode()
FOLDERS = {
    "ok.txt": "gr\xfc\xdfe\n".encode(),
    "bad.txt": DAMAGED,
    "\xe4\U0001f600.txt": DAMAGED,
    "zeros.bin": b"\x00\x01\xff" * 100,
    "sub/marked.txt": b"\xff\xfe" + "text\n".encode("utf-16-le"),
    "sub/sub/more.bin": b"\xff\n",
}
# Opens a file as another program would, locks it if that is asked for, says so, and ends once it is told to.
HOLDER = r"""
#include <stdio.h>
#include <windows.h>
int main(int argc, char **argv) {
    OVERLAPPED from = {0};
    HANDLE file = CreateFileA(argv[1], GENERIC_READ, argc > 2 ? FILE_SHARE_READ | FILE_SHARE_WRITE | FILE_SHARE_DELETE : 0, NULL, OPEN_EXISTING, 0, NULL);
    if (file == INVALID_HANDLE_VALUE || (argc > 2 && !LockFileEx(file, LOCKFILE_EXCLUSIVE_LOCK, 0, MAXDWORD, MAXDWORD, &from))) return 1;
    puts("held");
    fflush(stdout);
    return getchar() == EOF;
}
"""


def text_of(encoding, chance, count):
    return b"".join(chance.choices(PARTS[encoding], k=count))


def put_folders(folder):
    """Makes the files that are checked and changed."""
    shutil.rmtree(folder, ignore_errors=True)
    for name, data in FOLDERS.items():
        os.makedirs(os.path.dirname(f"{folder}/{name}"), exist_ok=True)
        with open(f"{folder}/{name}", "wb") as file:
            file.write(data)
    return folder


def files_of(folder):
    found = {}
    for at, _, names in os.walk(folder):
        for name in names:
            with open(f"{at}/{name}", "rb") as file:
                found[os.path.relpath(f"{at}/{name}", folder)] = file.read()
    return found


class Pair:
    """nody of both systems."""

    def __init__(self, check, program, here):
        self.check, self.program, self.here = check, program, here

    def expect(self, words, want, data=b"", folder=None):
        got = self.check.run([self.program, *words], data, folder=folder)
        self.check.add(got == want, f"nody.exe {' '.join(words)}: {str(got)[:400]} and not {str(want)[:400]}")

    def same(self, words, data=b"", folder=None):
        """The same words say the same in both."""
        ran = subprocess.run([self.here, *words], input=data, capture_output=True, cwd=folder)
        self.expect(words, (ran.returncode, ran.stdout, ran.stderr), data, folder)

    def change(self, words):
        """The same words do the same to the same files."""
        folders = [put_folders(f"{self.check.folder}/{it}") for it in ("there", "here")]
        ran = subprocess.run([self.here, *words], capture_output=True, cwd=folders[1])
        self.expect(words, (ran.returncode, ran.stdout, ran.stderr), folder=folders[0])
        there, here = map(files_of, folders)
        self.check.add(there == here, f"nody.exe {' '.join(words)}: the files {sorted(set(there.items()) ^ set(here.items()))[:4]} differ")


def check_texts(pair):
    """Standard input, in binary, shorter than a block and longer."""
    chance = random.Random(28)
    for encoding, count in ((it, count) for it in PARTS for count in (0, 1, 40, 80_000)):
        text, given = text_of(encoding, chance, count), ["--encoding", encoding]
        for words in (["check", "--max", "0"], ["check", "--json", "-a"], ["count"], ["count", "--json"], ["recode", "--to", "utf-16le", "--bom"]):
            pair.same([*words, *given], text)
        for words in (["check", "--columns", "display", "-a", "--max", "0"], ["check", "--columns", "bytes", "-v"], ["check", "--context", "--color", "always", "-a"],
                      ["list"], ["list", "--json"], ["at", "-", "20"], ["at", "--json", "-", "2:3"], ["recode", "--errors", "lossy"], ["recode", "--errors", "strict"], ["recode", "--errors", "windows-1252"], ["recode", "--errors", "drop"],
                      ["recode", "--to", "utf-16be", "-o", "-", "-q"], ["check", "-q"], ["count", "--jobs", "3"]):
            if count == 40:
                pair.same([*words, *given], text)
    for mark, encoding in ((b"\xff\xfe", "utf-16le"), (b"\xfe\xff", "utf-16be"), (b"\xef\xbb\xbf", "utf-8")):
        pair.same(["check", "-v", "--encoding", "auto"], mark + text_of(encoding, chance, 9))
        pair.same(["check", "-v"], mark + text_of(encoding, chance, 9))


def check_words(pair):
    """Wrong arguments, and what is not there on Windows."""
    for words in ([], ["nope"], ["check", "--nope"], ["check", "-Z"], ["check", "--max", "x"], ["check", "--max"], ["check", "--json=1"], ["check", "-0"], ["at", "x"], ["fix"], ["fix", "-"],
                  ["recode", "--to", "latin-1"], ["recode", "a", "b"], ["count", "--max", "1"], ["--version"], ["count", "--help"], ["recode", "--help"], ["at", "-", "x"]):
        pair.same(words)
    for words, what in ((["view", "x"], "view"), (["view"], "view"), (["check", "--follow", "x"], "--follow")):
        status, output, said = pair.check.run([pair.program, *words])
        holds = (status, output) == (2, b"") and said.startswith(f"nody: {what} is not there on Windows\n".encode())
        pair.check.add(holds, f"nody.exe {' '.join(words)}: {status} {output!r} {said!r}")
    for words in (["--help"], ["check", "--help"]):
        output = pair.check.run([pair.program, *words])[1]
        pair.check.add(b"usage: nody" in output and b"view" not in output and b"--follow" not in output and b"\r" not in output, f"nody.exe {' '.join(words)}: {output!r}")
    said = pair.check.run_once([pair.program, "check", "--nope"], b"", False)[2]
    pair.check.add(b"'--nope'\nusage" in said, f"messages have line feeds: {said!r}")


def check_files(pair):
    """Names of files, lists of names, and folders."""
    folder = put_folders(f"{pair.check.folder}/files")
    names = list(FOLDERS)
    for words in (names, ["-v", *names], ["-l", *names], ["-l", "-0", *names], ["-q", *names], ["--json", *names], ["--encoding", "auto", "-v", *names], ["-r", "."], ["-r"], ["-rv", "."],
                  ["-r", "-a", "--max", "1", "--columns", "bytes", "."], ["-r", "-v", "--exclude", "*.bin", "."], ["-r", "-v", "--exclude", "sub", "."], ["-r", "--exclude", "sub/*", "sub", "ok.txt"],
                  ["--context", "bad.txt"], ["nope.txt", "ok.txt"], ["nope/ok.txt"], [""], ["-r", "nope"], ["sub"], ["--jobs", "2", "bad.txt"], ["--files0-from", "nope"]):
        pair.same(["check", *words], folder=folder)
    pair.same(["check", "-v", "--files0-from", "-"], b"\0".join(it.encode() for it in [*names, "nope", "-"]), folder)
    pair.same(["check", "--files0-from", "-"], b"ok.txt\0\0bad.txt", folder)
    for words in (["count", *names], ["list", "bad.txt"], ["at", "bad.txt", "6"], ["at", "bad.txt", "2:8"], ["at", "bad.txt", "999"], ["at", "sub/marked.txt", "4", "--encoding", "auto"]):
        pair.same(words, folder=folder)
    with open(f"{folder}/long.txt", "wb") as file:
        file.write(text_of("utf-8", random.Random(29), 400_000))
    for words in (["check", "--max", "3", "--context"], ["count", "--jobs", "4"], ["check", "--jobs", "1", "--json"], ["at", "--json"], ["recode", "--jobs", "4", "--to", "utf-16be"]):
        pair.same([*words, "long.txt", *(["1000000"] if words[0] == "at" else [])], folder=folder)


def check_names(pair):
    """Names as Windows has them: backslashes, long ones, devices, and letters of any case in a GLOB."""
    folder, damaged = put_folders(f"{pair.check.folder}/names"), b": not valid UTF-8: 1 invalid byte\n"
    reason = b":1:1: offset 0: invalid byte: C0, C1 and F5 to FF never occur in UTF-8\n"
    for name in ("sub\\sub\\more.bin", "sub/sub\\more.bin", ".\\sub\\..\\sub\\sub\\more.bin"):
        pair.expect(["check", name], (1, name.encode() + reason + name.encode() + damaged, b""), folder=folder)
    pair.expect(["check", "-rl", "sub\\"], (1, b"sub\\marked.txt\nsub\\sub/more.bin\n", b""), folder=folder)
    pair.expect(["check", "-rl", "--exclude", "MORE.BIN", "sub\\"], (1, b"sub\\marked.txt\n", b""), folder=folder)
    pair.expect(["check", "nul"], (0, b"", b""), folder=folder)
    pair.expect(["recode", "-o", "nul", "ok.txt"], (0, b"", b""), folder=folder)
    status, output, said = pair.check.run([pair.program, "check", "-v", "--files0-from", "-"], b"\xff.txt\0ok.txt", folder=folder)
    pair.check.add((status, output) == (3, b"ok.txt: valid UTF-8\n") and said.startswith(b"nody: \\377.txt: "), f"a name that is not UTF-8: {status} {output!r} {said!r}")
    deep = "/".join(["n" * 120] * 3)
    os.makedirs(f"{folder}/{deep}")
    shutil.copy(f"{folder}/bad.txt", f"{folder}/{deep}/bad.txt")
    pair.same(["check", "-r", "n" * 120], folder=folder)
    pair.expect(["fix", "-q", f"{deep}/bad.txt"], (0, b"", b""), folder=folder)
    pair.check.add(files_of(folder)[f"{deep}/bad.txt"] == FIXED, "a file with a long name is fixed")


def check_changes(pair):
    """Files that are replaced."""
    emoji = "\xe4\U0001f600.txt"
    for words in (["fix", "bad.txt"], ["fix", emoji, "ok.txt", "nope"], ["fix", "-q", "--errors", "lossy", emoji], ["fix", "--errors", "windows-1252", emoji], ["fix", "--errors", "latin1", "--dry-run", "bad.txt"],
                  ["fix", "--backup", ".old", "bad.txt", emoji, "ok.txt"],
                  ["fix", "--dry-run", "bad.txt", emoji], ["fix", "--backup", ".txt", "bad", "bad.txt"], ["fix", "--jobs", "2", "sub/sub/more.bin", "zeros.bin"],
                  ["recode", "--in-place", "--to", "utf-16le", "--bom", "bad.txt", emoji], ["recode", "--in-place", "--encoding", "auto", "sub/marked.txt"],
                  ["recode", "--in-place", "--errors", "strict", "bad.txt"], ["recode", "-o", "new.txt", "bad.txt"], ["recode", "-o", emoji, "--to", "utf-16be", "ok.txt"],
                  ["recode", "-o", "ok.txt", "ok.txt"], ["recode", "-o", "bad.txt", "bad.txt"], ["recode", "-o", "nope/new.txt", "ok.txt"], ["recode", "-o", "new.txt", "nope"],
                  ["recode", "--in-place", "sub"], ["recode", "--errors", "strict", "-o", "ok.txt", "bad.txt"]):
        pair.change(words)
    folder = put_folders(f"{pair.check.folder}/changes")
    with open(f"{folder}/bad.txt.old", "wb") as file:
        file.write(b"old")
    os.chmod(f"{folder}/{emoji}", 0o444)
    had = files_of(folder)
    pair.expect(["fix", "--backup", ".old", "bad.txt"], (3, b"", b"nody: bad.txt.old: File exists\n"), folder=folder)
    for words in (["fix", emoji], ["recode", "-o", emoji, "ok.txt"]):
        pair.expect(words, (3, b"", f"nody: {emoji}: Permission denied\n".encode()), folder=folder)
    pair.check.add(files_of(folder) == had, "what is not replaced stays as it is, and leaves nothing")


def holds_file(check, holder, folder, how):
    """Starts a process that has bad.txt open. Returns it once it has."""
    words = [*check.starter, holder, "bad.txt", *how]
    process = subprocess.Popen(words, cwd=folder, stdin=subprocess.PIPE, stdout=subprocess.PIPE, stderr=subprocess.DEVNULL)
    check.add(process.stdout.readline().strip() == b"held", "another process holds the file")
    return process


def check_locked(pair, holder):
    """A file that another process has locked, or lets nobody open."""
    folder = put_folders(f"{pair.check.folder}/locked")
    locked = (["fix", "bad.txt"], ["recode", "--in-place", "--to", "utf-16le", "bad.txt"])
    closed = (["fix", "bad.txt"], ["check", "bad.txt"], ["recode", "-o", "new.txt", "bad.txt"], ["recode", "-o", "bad.txt", "ok.txt"])
    for how, why, runs in ((["lock"], b"another process has locked it", locked), ([], b"Permission denied", closed)):
        process = holds_file(pair.check, holder, folder, how)
        for words in runs:
            pair.expect(words, (3, b"", b"nody: bad.txt: " + why + b"\n"), folder=folder)
        process.communicate(b"\n", timeout=60)
    pair.check.add(files_of(folder) == FOLDERS, "files that others hold stay as they are")


def check_at_once(pair):
    """Two programs that fix one file at once: both are right, or one of them says that it could not."""
    folder = put_folders(f"{pair.check.folder}/once")
    text = text_of("utf-8", random.Random(30), 1_000_000)
    with open(f"{folder}/bad.txt", "wb") as file:
        file.write(text)
    words = [*pair.check.starter, pair.program, "fix", "-q", "bad.txt"]
    runs = [subprocess.Popen(words, cwd=folder, stdout=subprocess.DEVNULL, stderr=subprocess.DEVNULL) for _ in range(2)]
    statuses = sorted(it.wait(120) for it in runs)
    fixed = subprocess.run([pair.here, "recode"], input=text, capture_output=True).stdout
    pair.check.add(statuses in ([0, 0], [0, 3]), f"two that fix one file end with {statuses}")
    pair.check.add(files_of(folder) == {**FOLDERS, "bad.txt": fixed}, "two that fix one file leave it fixed, and no other file")


def check_ended(pair):
    """A program that is interrupted, or ended at once, leaves no temporary file, and the old file as it was."""
    folder = put_folders(f"{pair.check.folder}/ended")
    for number in (signal.SIGINT, signal.SIGTERM, signal.SIGKILL):
        words = [*pair.check.starter, pair.program, "recode", "-o", "ok.txt"]
        process = subprocess.Popen(words, cwd=folder, stdin=subprocess.PIPE, stdout=subprocess.DEVNULL, stderr=subprocess.DEVNULL)
        process.stdin.write(b"text" * 100_000)
        process.stdin.flush()
        begun = time.monotonic()
        while len(files_of(folder)) == len(FOLDERS) and time.monotonic() - begun < 60:
            time.sleep(0.05)
        pair.check.add(len(files_of(folder)) == len(FOLDERS) + 1, "recode -o writes a temporary file")
        process.send_signal(number)
        process.wait(60)
        process.stdin.close()
        begun = time.monotonic()
        while len(files_of(folder)) > len(FOLDERS) and time.monotonic() - begun < 10:
            time.sleep(0.05)
        pair.check.add(files_of(folder) == FOLDERS, f"after signal {number} the files are {sorted(files_of(folder))}")


def check_far(pair):
    """Offsets above four gigabytes, in a file that has holes."""
    folder = put_folders(f"{pair.check.folder}/far")
    far = (1 << 32) + 12345
    with open(f"{folder}/far.txt", "wb") as file:
        file.seek(far)
        file.write(DAMAGED)
    for words in (["at", "far.txt", str(far + 6)], ["at", "--encoding", "auto", "--json", "far.txt", hex(far + 7)], ["check", "-a", "--no-context", "far.txt"]):
        pair.same(words, folder=folder)
    os.remove(f"{folder}/far.txt")


def check_closed(pair):
    """Nobody reads the output: that ends the program, and is not reported."""
    got = pair.check.run([pair.program, "list"], b"text " * 100_000, closed=True)
    pair.check.add(got == (3, b"", b""), f"nody.exe list into a closed pipe: {got}")


def shown_on_console(check, words, folder):
    """What a program shows on a console, which wine draws on a terminal of this system."""
    terminal, console = pty.openpty()
    fcntl.ioctl(console, termios.TIOCSWINSZ, struct.pack("HHHH", 25, 60, 0, 0))
    process = subprocess.Popen([*check.starter, *words], stdin=console, stdout=console, stderr=console, cwd=folder, env={**os.environ, "TERM": "xterm"}, start_new_session=True)
    os.close(console)
    shown, begun = b"", time.monotonic()
    while (process.poll() is None or select.select([terminal], [], [], 0)[0]) and time.monotonic() - begun < 60:
        if select.select([terminal], [], [], 0.2)[0]:
            try:
                shown += os.read(terminal, 1 << 16)
            except OSError:
                break
    process.kill()
    os.close(terminal)
    return shown


def check_console(pair):
    """A console shows the line of an invalid byte, in UTF-8 and with colours."""
    folder = put_folders(f"{pair.check.folder}/console")
    for color in ("auto", "never"):
        shown = shown_on_console(pair.check, [pair.program, "check", "--color", color, "bad.txt"], folder)
        red = (b"\x1b[1;31m", b"\x1b[0m") if color == "auto" else (b"", b"")
        pair.check.add(b"caf\xc3\xa9 " + red[0] + b"\\xE2" + red[1] in shown, f"on a console, with colours {color}: {shown!r}")


def check_nody(check, program, here, holder):
    pair = Pair(check, program, here)
    for part in (check_texts, check_words, check_files, check_names, check_changes, check_at_once, check_ended, check_far, check_closed, check_console):
        before = check.passed
        part(pair)
        print(f"check-windows: nody: {part.__name__}: {check.passed - before} passed", flush=True)
    check_locked(pair, holder)
