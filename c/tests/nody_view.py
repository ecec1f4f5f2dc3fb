#!/usr/bin/env python3
"""Runs `nody view` in a real terminal (tmux): sends keys, and compares the screen with what a slow count says.

usage: c/tests/nody_view.py BUILD [COMPILER] [--times]

BUILD has what make built. Files are damaged, with a line of 200 MB, sparse of 20 GB, growing, shrinking, binary and empty; terminals are narrow, and
resized. With --times the last lines say how long the first screen, a page back and a search backward take, and how much memory. If tmux is not there, or
nody was built without ncurses, all is left out, and named. The last line is 'N passed, M failed'.
"""
import fcntl
import os
import pty
import random
import re
import select
import shutil
import signal
import struct
import subprocess
import sys
import tempfile
import termios
import time

sys.path.insert(0, os.path.dirname(os.path.abspath(__file__)))
import nody
from nody import expect, put_file, run

SAMPLE = b"caf\xc3\xa9 \xe2\x82 au lait\nsecond \xff line\n"
TAB = 8


class Screen:
    """A terminal of tmux in which a command runs."""

    def __init__(self, folder, command, columns=80, rows=10):
        self.name = ["tmux", "-L", f"nody-{os.getpid()}", "-f", "/dev/null"]
        self.tmux("kill-server")
        self.tmux("new-session", "-d", "-x", str(columns), "-y", str(rows), "-c", folder, f"{command}; echo ENDED; sleep 60")

    def tmux(self, *words):
        return subprocess.run([*self.name, *words], capture_output=True, timeout=60).stdout.decode(errors="replace")

    def keys(self, *keys):
        self.tmux("send-keys", *keys)

    def type(self, text):
        self.tmux("send-keys", "-l", text)

    def lines(self):
        return self.tmux("capture-pane", "-p").split("\n")[:-1]

    def waits(self, holds, what, seconds=20):
        """Until the screen is as wanted."""
        end = time.time() + seconds
        lines = self.lines()
        while not holds(lines) and time.time() < end:
            time.sleep(0.05)
            lines = self.lines()
        return expect(holds(lines), f"{what}: {lines}")

    def shows(self, text, what, seconds=20):
        """Until the status line has a text."""
        return self.waits(lambda lines: text in lines[-1], f"{what}, not {text!r}", seconds)

    def resize(self, columns, rows):
        self.tmux("resize-window", "-x", str(columns), "-y", str(rows))

    def ends(self):
        self.keys("q")
        self.waits(lambda lines: any("ENDED" in it for it in lines), "q ends it")
        self.tmux("kill-server")


def rows_of(data, width):
    """The rows of a text on a screen of that width, and the offset of each."""
    rows, offsets, row, column, start = [], [], "", 0, 0
    for offset, length, what in nody.pieces_of_utf8(data):
        shown, cells = shape(data[offset : offset + length], what, column)
        if column + cells > width and column > 0:
            rows.append(row)
            offsets.append(start)
            row, column, start = "", 0, offset
            shown, cells = shape(data[offset : offset + length], what, 0)
        row, column = row + shown, column + cells
        if what == "\n":
            rows.append(row)
            offsets.append(start)
            row, column, start = "", 0, offset + length
    if start < len(data):
        rows.append(row)
        offsets.append(start)
    return [it.rstrip() for it in rows], offsets


def shape(raw, what, column):
    if len(what) > 1:
        return raw.hex().upper(), 2 * len(raw)
    if what == "\n":
        return "", 0
    if what == "\t":
        return " " * (TAB - column % TAB), TAB - column % TAB
    if ord(what) < 0x20 or what == "\x7f":
        return f"^{chr(ord(what) ^ 0x40)}", 2
    if not nody.is_shown(what):
        return f"<U+{ord(what):04X}>", 8
    return what, 2 if what in "\u6587\U0001f600" else 1


def status_of(data, offset):
    """What the status line begins with."""
    line = data[:offset].count(b"\n") + 1
    piece = next(it for it in nody.pieces_of_utf8(data) if it[0] + it[1] > offset)
    raw = " ".join(f"{it:02X}" for it in data[piece[0] : piece[0] + piece[1]])
    return f"{piece[0]} line {line} {raw} " + (f"{piece[2]}: " if len(piece[2]) > 1 else f"U+{ord(piece[2]):04X}")


def is_top(lines, rows, at):
    """Whether a screen shows the rows from one on."""
    want = rows[at : at + len(lines) - 1]
    return [it.rstrip() for it in lines[:-1]] == want + [""] * (len(lines) - 1 - len(want))


# ---- What is shown


def check_sample(folder, program):
    put_file(f"{folder}/sample", SAMPLE)
    screen = Screen(folder, f"{program} view sample")
    screen.waits(lambda it: is_top(it, *rows_of(SAMPLE, 80)[:1], 0), "the first screen")
    for keys, offset in ((["n"], 6), (["n"], 7), (["n"], 24), (["N"], 7), (["Left"], 6), (["Left"], 5), (["Left"], 3), (["Right"], 5), (["Down"], 21), (["Up"], 5), (["End"], 30), (["Home"], 0)):
        screen.keys(*keys)
        screen.shows(status_of(SAMPLE, offset)[:70], f"the place after {keys}")
    screen.keys("N")
    screen.shows("no invalid byte before this", "N at the front")
    for asked, offset in (("g0x18", 24), ("g3", 3), (":2", 17), ("/line", 26), ("g0", 0), ("/lait", 12), ("g0", 0), ("/é", 3), ("/\\xFF", 24), ("g0", 0), ("/\\xE282", 6)):
        screen.keys(asked[0])
        screen.type(asked[1:])
        screen.keys("Enter")
        screen.shows(status_of(SAMPLE, offset)[:70], f"the place after {asked}")
    for asked, want in (("gx", "an offset is a number"), (":99", "there are fewer lines"), ("/none", "not found after this"), ("/\\xF", "text, or bytes")):
        screen.keys(asked[0])
        screen.type(asked[1:])
        screen.keys("Enter")
        screen.shows(want, f"what is said after {asked}")
    screen.keys("g")
    screen.keys("Escape")
    screen.keys("x")
    screen.waits(lambda it: it[0].startswith("0000000000  63 61 66 c3 a9 20 e2 82 20 61 75 20 6c 61 69 74  caf\u00e9 .. au lait"), "hexadecimal")
    screen.resize(40, 8)
    screen.waits(lambda it: it[0].startswith("0000000000  63 61 66 c3") and all(len(line) <= 40 for line in it), "hexadecimal in 40 columns")
    screen.keys("x")
    screen.waits(lambda it: it[0] == "caf\u00e9 E282 au lait" and len(it) == 8, "text again")
    screen.ends()


def check_encodings(folder, program):
    put_file(f"{folder}/units", b"\xff\xfe" + "h\u00e9\n".encode("utf-16-le") + b"\x00\xd8" + "x".encode("utf-16-le"))
    screen = Screen(folder, f"{program} view units")
    screen.waits(lambda it: it[0] == "<U+FEFF>h\u00e9" and it[1] == "00D8x" and "UTF-16LE" in it[-1], "UTF-16 by its mark")
    screen.keys("n")
    screen.shows("8 line 2 00 D8 UnmatchedLeadingSurrogate: ", "an invalid unit")
    for name in ("UTF-16BE", "UTF-8", "UTF-16LE"):
        screen.keys("e")
        screen.shows(name, "the next encoding")
    screen.ends()


def check_rows(folder, program):
    """Pages and rows of damaged text, forward and backward, in terminals of several widths."""
    chance = random.Random(4)
    parts = [b"a", b"text ", b"\n", b"\t", "\u00e9".encode(), "\u6587".encode(), "\U0001f600".encode(), b"\xc3", b"\xe2\x82", b"\xff", b"\x1b", b"\0", "\u202e".encode(), b"\xf0\x9f\x98"]
    data = b"".join(chance.choices(parts, weights=[9, 9, 1] + [1] * 11, k=3000))
    put_file(f"{folder}/rows", data)
    for columns, height in ((80, 12), (40, 7), (11, 9)):
        rows, offsets = rows_of(data, columns)
        screen, top, page = Screen(folder, f"{program} view rows", columns, height), 0, height - 2
        screen.waits(lambda it: is_top(it, rows, 0), f"the first screen of {columns}")
        for keys in ["NPage", "NPage", "NPage", "PPage", "NPage", "NPage", "PPage", "PPage", "PPage", "PPage", "PPage"]:
            top = min(top + page, len(rows) - 1) if keys == "NPage" else max(top - page, 0)
            screen.keys(keys)
            screen.waits(lambda it: is_top(it, rows, top), f"a page by {keys} at row {top} of {columns}")
        screen.keys("End")
        screen.waits(lambda it: is_top(it, rows, max(len(rows) - height + 1, 0)), f"the end in {columns}")
        top = max(len(rows) - height + 1, 0)
        for _ in range(4):
            top = max(top - page, 0)
            screen.keys("PPage")
            screen.waits(lambda it: is_top(it, rows, top), f"a page back from the end to row {top} of {columns}")
        place = offsets[len(rows) // 2]
        screen.keys("g")
        screen.type(str(place))
        screen.keys("Enter")
        screen.shows(status_of(data, place)[: min(columns, 40) - 2], f"an offset in the middle of {columns}")
        screen.ends()


def check_changes(folder, program):
    """Files that grow and shrink, are empty, binary, and vanish; a pipe."""
    name = f"{folder}/log"
    put_file(name, b"one\n")
    screen = Screen(folder, f"{program} view log")
    screen.waits(lambda it: it[0] == "one" and it[1] == "", "a file that will grow")
    screen.keys("F")
    for i in range(20):
        with open(name, "ab") as file:
            file.write(b"line %d \xff\n" % i)
    screen.waits(lambda it: it[-2] == "line 19 FF" and "[follow]" in it[-1], "a file that is followed")
    put_file(f"{name}.2", b"")
    with open(name, "r+b") as file:
        file.truncate(10)
    screen.waits(lambda it: it[0] == "one" and it[1] == "line 0", "a file that became shorter")
    with open(name, "r+b") as file:
        file.truncate(0)
    screen.waits(lambda it: "the end" in it[-1] and it[0] == "", "a file that became empty")
    for key in ("n", "N", "Up", "Down", "NPage", "PPage", "Left", "Right", "x", "x", "e", "e", "e", "End"):
        screen.keys(key)
    with open(name, "ab") as file:
        file.write(b"again\xff")
    screen.waits(lambda it: it[0] == "againFF", "a file that has something again")
    os.remove(name)
    screen.keys("n")
    screen.shows("5 line 1 FF", "a file that is gone, and open")
    screen.ends()
    for keys in (["End"], ["g", "500000", "Enter"], ["x", "End"]):
        put_file(name, b"some text \xff\n" * 100_000)
        screen = Screen(folder, f"{program} view log")
        screen.waits(lambda it: it[-2] == "some text FF", "a file that will become shorter")
        screen.keys("Down")
        os.truncate(name, 24)
        screen.keys(*keys)
        screen.shows("line 2 ", f"{keys} before it is seen that the file became shorter")
        screen.ends()
    put_file(f"{folder}/binary", bytes(range(256)) * 40)
    screen = Screen(folder, f"{program} view binary", 60, 8)
    screen.waits(lambda it: it[0].startswith("^@^A^B^C^D^E^F^G^H"), "a binary file")
    screen.keys("n")
    screen.shows("128 line 2 80 UnexpectedContinuationByte", "the first invalid byte of a binary file")
    screen.ends()
    screen = Screen(folder, f"(echo one; sleep 1; printf 'two \\377\\n'; sleep 1; seq 100000) | {program} view")
    screen.waits(lambda it: it[0] == "one", "a pipe")
    screen.keys("n")
    screen.shows("8 line 2 FF NonUtf8Byte", "an invalid byte that comes late")
    screen.keys("End")
    screen.waits(lambda it: it[-2] == "100000", "the end of a pipe", 40)
    screen.ends()
    screen = Screen(folder, f"yes | head -c 300000 | (ulimit -f 100; {program} view)")
    screen.waits(lambda it: it[0] == "y", "a pipe, and a disk that is too small for its copy")
    screen.keys("End")
    screen.shows("[File too large] ", "the end of what could be copied")
    screen.ends()
    screen = Screen(folder, f"yes | {program} view")
    screen.waits(lambda it: it[0] == "y" and it[-2] == "y", "a pipe without an end")
    screen.keys("NPage")
    screen.ends()


def check_large(folder, program):
    """A line of 200 MB, and a sparse file of 20 GB."""
    name = f"{folder}/long"
    with open(name, "wb") as file:
        for _ in range(200):
            file.write(b"0123456789abcde\xc3\xa9" [:16].ljust(16, b"x") * (1_000_000 // 16))
        file.write(b"\xff the end")
    screen = Screen(folder, f"{program} view long")
    screen.waits(lambda it: it[0].startswith("0123456789"), "a long line")
    screen.keys("End")
    screen.waits(lambda it: it[-2].endswith(" the end"), "the end of a long line")
    screen.keys("PPage")
    screen.keys("PPage")
    screen.keys("NPage")
    screen.keys("Home")
    screen.shows("0 line 1 30 U+0030", "the front of a long line")
    screen.keys("/")
    screen.type("\\xFF")
    screen.keys("Enter")
    screen.shows("200000000 line 1 FF NonUtf8Byte", "the end is found")
    screen.ends()
    os.remove(name)
    name = f"{folder}/huge"
    with open(name, "wb") as file:
        file.truncate(20_000_000_000)
        file.seek(12_000_000_000)
        file.write(b"\nfound \xff here\n")
    screen = Screen(folder, f"{program} view huge")
    screen.waits(lambda it: it[0].startswith("^@^@^@"), "the front of 20 GB")
    screen.keys("g")
    screen.type("12000000000")
    screen.keys("Enter")
    screen.shows("12000000000 line ~", "a line that is not counted")
    screen.keys("n")
    screen.shows("12000000007 line ", "the next invalid byte")
    screen.waits(lambda it: any("found FF here" in line for line in it), "an invalid byte at 12 GB")
    screen.keys("End")
    screen.shows("19999999999 line ", "the end of 20 GB")
    screen.keys("PPage")
    screen.keys("N")
    time.sleep(0.2)
    screen.keys("k")
    screen.waits(lambda it: "stopped" in it[-1] or "12000000007 line" in it[-1], "a search back, which a key stops if it is not over")
    screen.ends()
    os.remove(name)


def check_fails(folder, program):
    for words, status, said in (([folder], 3, "Is a directory"), ([f"{folder}/none"], 3, "No such file"), (["a", "b"], 2, "view takes one FILE")):
        main, terminal = pty.openpty()
        ran = subprocess.Popen([program, "view", *words], stdin=terminal, stdout=terminal, stderr=subprocess.PIPE)
        os.close(terminal)
        error = ran.communicate(timeout=60)[1].decode()
        os.close(main)
        expect(ran.returncode == status and said in error, f"view {words}: {ran.returncode} {error}")
    got = run([program, "view", f"{folder}/sample"])
    expect(got[0] == 3 and got[1] == b"" and b"view writes to a terminal" in got[2], f"view to a pipe: {got}")


def check_hangup(folder, program):
    """The program ends when its terminal goes, also in the middle of a search, and if SIGHUP is ignored."""
    with open(f"{folder}/huge", "wb") as file:
        file.truncate(20_000_000_000)
    for keys in (b"", b"/no such text\r"):
        main, terminal = pty.openpty()
        ran = subprocess.Popen([program, "view", f"{folder}/huge"], stdin=terminal, stdout=terminal, stderr=terminal, env=dict(os.environ, TERM="xterm"),
                               start_new_session=True, preexec_fn=lambda: signal.signal(signal.SIGHUP, signal.SIG_IGN))
        os.close(terminal)
        select.select([main], [], [], 20)
        os.read(main, 1 << 16)
        os.write(main, keys)
        time.sleep(0.3)
        os.close(main)
        try:
            expect(ran.wait(timeout=20) == -signal.SIGHUP, f"view without a terminal: {ran.returncode}")
        except subprocess.TimeoutExpired:
            ran.kill()
            expect(False, f"view goes on without a terminal after {keys}")
    os.remove(f"{folder}/huge")


def check_control_keys(folder, program):
    """Ctrl-C leaves a question, and else ends it as q does; Ctrl-Z stops it until it is continued."""
    name = f"{folder}/control"
    with open(name, "wb") as file:
        file.write(b"text\xff\n" * 100)
    for keys in ((b"\x03",), (b"/", b"\x03", b"q"), (b":", b"\x03", b"\x03")):
        it = Terminal([program, "view", name], is_controlling=True)
        it.until(b"UTF-8")
        for key in keys:
            os.write(it.main, key)
            it.reads(0.2)
        expect(it.ends(b"") == 0, f"view after {keys}: {it.ran.returncode}")
    if not shutil.which("bash"):
        print("nody_view.py: left out: bash is not there, which continues what was stopped")
        return os.remove(name)
    it = Terminal(["bash", "--norc", "--noprofile", "-i"], is_controlling=True)
    for words, key, want in ((f"{program} view {name}\n", b"", b"UTF-8"), ("", b"\x1a", b"Stopped"), ("fg\n", b"", b"UTF-8"), ("", b"q", b""), ("echo ended=$?\n", b"", b"ended=0")):
        os.write(it.main, words.encode() + key)
        got = it.until(want)
        expect(want in got, f"view in a shell, after {words} {key}: {got[-300:]}")
        it.reads(0.2)
    it.ends(b"exit\n")
    os.remove(name)


# ---- Times


class Terminal:
    """A terminal that is read here, to measure time."""

    def __init__(self, words, is_controlling=False):
        self.main, terminal = pty.openpty()
        fcntl.ioctl(terminal, termios.TIOCSWINSZ, struct.pack("HHHH", 50, 80, 0, 0))
        self.start = time.monotonic()
        control = (lambda: fcntl.ioctl(0, termios.TIOCSCTTY, 0)) if is_controlling else None
        self.ran = subprocess.Popen(words, stdin=terminal, stdout=terminal, stderr=terminal, env=dict(os.environ, TERM="xterm-256color"), start_new_session=True, preexec_fn=control)
        os.close(terminal)

    def reads(self, quiet=0.3):
        """All that comes until nothing came for a while, and when the last came."""
        got, last = b"", time.monotonic()
        while select.select([self.main], [], [], quiet)[0]:
            try:
                part = os.read(self.main, 1 << 16)
            except OSError: # (the program has ended)
                break
            got, last = got + part, time.monotonic()
        return got, last

    def until(self, text, seconds=20):
        """All that comes until a text has come."""
        got, end = b"", time.monotonic() + seconds
        while text not in got and time.monotonic() < end:
            if select.select([self.main], [], [], 1)[0]:
                got += os.read(self.main, 1 << 16)
        return got

    def key(self, key):
        """The time from a key to the last that it brings. (ncurses writes only what changes)"""
        self.reads(0.2)
        start = time.monotonic()
        os.write(self.main, key)
        got, last = self.reads()
        expect(got, "a screen after a key")
        return last - start

    def memory(self):
        with open(f"/proc/{self.ran.pid}/status", encoding="ascii") as file:
            return int(re.search(r"VmHWM:\s+(\d+)", file.read())[1]) / 1024

    def ends(self, key=b"q"):
        """The status with which it ends, after a key."""
        os.write(self.main, key)
        self.reads(0.1)
        self.ran.wait(timeout=30)
        os.close(self.main)
        return self.ran.returncode


def measure(folder, program):
    """The least times of several runs on 20 GB, and the memory."""
    name = f"{folder}/huge"
    with open(name, "wb") as file:
        file.truncate(20_000_000_000)
        file.seek(20_000_000_000 - 1_000_000)
        file.write(b"a line of some words, and \xff one byte\n" * 27000)
    first, back, memory = 1e9, 1e9, 0
    for _ in range(5):
        it = Terminal([program, "view", name])
        got = it.until(b"UTF-8")
        first = min(first, time.monotonic() - it.start)
        expect(b" line 1 " in got, f"the first screen: {got[-200:]}")
        it.key(b"G")
        for _ in range(10):
            back = min(back, it.key(b"b"))
        memory = max(memory, it.memory())
        it.ends()
    os.remove(name)
    print(f"nody_view.py: 20 GB: first screen {1000 * first:.1f} ms, page back from the end {1000 * back:.1f} ms, memory {memory:.1f} MB, load {os.getloadavg()[0]:.0f}")
    expect(memory < 32, f"memory of {memory} MB")


def measure_search(folder, program):
    """The least time of several searches backward, from the end of 1 GB of text to the invalid byte at its front."""
    name, text = f"{folder}/long", "a line of some words, and é one character\n".encode() * 10000
    with open(name, "wb") as file:
        file.write(b"\xff\n")
        for _ in range(10**9 // len(text)):
            file.write(text)
    took = 1e9
    for _ in range(3):
        it = Terminal([program, "view", name])
        it.until(b"UTF-8")
        it.key(b"G")
        start = time.monotonic()
        os.write(it.main, b"N")
        expect(b"NonUtf8Byte" in it.until(b"NonUtf8Byte"), "the invalid byte at the front")
        took = min(took, time.monotonic() - start)
        it.ends()
    os.remove(name)
    print(f"nody_view.py: 1 GB: previous invalid byte {took:.2f} s")


def main():
    words = [it for it in sys.argv[1:] if it != "--times"]
    if len(words) not in (1, 2) or words[0].startswith("-"):
        print(__doc__)
        return 0 if words in (["--help"], ["-h"]) else 2
    program = f"{os.path.abspath(words[0])}/nody"
    signal.signal(signal.SIGINT, signal.default_int_handler)
    with tempfile.TemporaryDirectory() as folder:
        if not shutil.which("tmux"):
            print("nody_view.py: left out: tmux is not there")
        elif b"without ncurses" in run([program, "view", "-"])[2]:
            print("nody_view.py: left out: nody was built without ncurses")
        else:
            check_sample(folder, program)
            check_encodings(folder, program)
            check_rows(folder, program)
            check_changes(folder, program)
            check_large(folder, program)
            check_fails(folder, program)
            check_hangup(folder, program)
            check_control_keys(folder, program)
            if "--times" in sys.argv:
                measure(folder, program)
                measure_search(folder, program)
    print(f"{nody.passed} passed, {nody.failed} failed")
    return int(nody.failed > 0)


if __name__ == "__main__":
    sys.exit(main())
