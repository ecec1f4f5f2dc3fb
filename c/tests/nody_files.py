#!/usr/bin/env python3
"""Runs `nody check` and `nody fix` on folders, lists of files, terminals and editors, as people and scripts do.

usage: c/tests/nody_files.py BUILD

BUILD has what make built. What needs root, or a tool that is not there (jq, vim, emacs, isutf8), is left out, and named. The last line is
'N passed, M failed'.
"""
import fcntl
import json
import os
import pty
import random
import re
import resource
import shutil
import signal
import stat
import struct
import subprocess
import sys
import tempfile
import termios
import threading
import time

sys.path.insert(0, os.path.dirname(os.path.abspath(__file__)))
import nody
from nody import contents, expect, put_file, run, says

TOP = os.path.dirname(nody.C)
SAMPLE = b"caf\xc3\xa9 \xe2\x82 au lait\nsecond \xff line\n"


def is_there(tool):
    if shutil.which(tool):
        return True
    print(f"nody_files.py: left out: {tool} is not there")
    return False


def on_terminal(words, columns=80, **env):
    """What a program writes to a terminal of `columns` columns, and its status."""
    main, terminal = pty.openpty()
    fcntl.ioctl(terminal, termios.TIOCSWINSZ, struct.pack("HHHH", 24, columns, 0, 0))
    env = {**{k: v for k, v in os.environ.items() if k not in ("NO_COLOR", "COLUMNS")}, "TERM": "xterm", **env}
    ran = subprocess.Popen(words, stdin=subprocess.DEVNULL, stdout=terminal, stderr=terminal, env=env)
    os.close(terminal)
    said = nody.told_on(main)
    return ran.wait(), said.replace(b"\r\n", b"\n")


# ---- Which files


def tree(folder):
    """A folder with what a walk may meet."""
    top = f"{folder}/tree"
    os.makedirs(f"{top}/sub/deeper")
    put_file(f"{top}/valid", b"text\n")
    put_file(f"{top}/wrong", SAMPLE)
    put_file(f"{top}/sub/wrong.txt", b"\xff\n")
    put_file(f"{top}/sub/deeper/image.bin", b"\x89PNG\0\xff\xff")
    put_file(f"{top}/sub/a\nb\033[31m", b"\xfe")
    os.symlink("..", f"{top}/sub/loop")
    os.symlink("wrong", f"{top}/link")
    os.symlink("nowhere", f"{top}/dangling")
    os.mkfifo(f"{top}/pipe")
    return top


def check_folders(folder, program):
    top = tree(folder)
    got = run([program, "check", "-r", top])
    lines = got[1].decode().splitlines()
    shown = f"{top}/sub/a\\012b\\033[31m"
    want = [f"{shown}:1:1: offset 0: ", f"{shown}: not valid UTF-8: 1 invalid byte", f"{top}/sub/wrong.txt:1:1: ", f"{top}/sub/wrong.txt: not valid", f"{top}/wrong:1:6: ", f"{top}/wrong:1:7: ",
            f"{top}/wrong:2:8: ", f"{top}/wrong: not valid UTF-8: 3 invalid bytes", f"{top}: 1 binary file is not valid UTF-8 (-v names it)"]
    expect(got[0] == 1 and got[2] == b"" and len(lines) == len(want) and all(map(str.startswith, lines, want)), f"check -r: {got}")
    says([program, "check", "-r", "--exclude", "*.txt", "--exclude", "sub", top], 1, None, b"")
    says([program, "check", "-rl", "--exclude", "*.txt", "--exclude", "sub", top], 1, f"{top}/wrong\n".encode(), b"")
    says([program, "check", "-rl", "--exclude", "tree", top], 0, b"", b"")
    put_file(f"{top}/.hidden", b"\xff\n")
    for words, named in (([], "./"), (["."], "./"), (["../tree"], "../tree/"), ([top], f"{top}/")):
        want = "".join(f"{named}{it}\n" for it in ("sub/a\nb\033[31m", "sub/wrong.txt", "wrong"))
        says([program, "check", "-rl", "--exclude", ".*", "--exclude", "*.bin", *words], 1, want.encode(), b"", cwd=top)
    says([program, "check", "-rl", "--exclude", "./.*", "--exclude", "./sub"], 1, b"./wrong\n", b"", cwd=top)
    os.remove(f"{top}/.hidden")
    for words in ([], ["-"]):
        says([program, "check", "--exclude", "*", *words], 1, None, b"", b"\xff")
    names = run([program, "check", "-rl0", top])[1].split(b"\0")
    want = [f"{top}/sub/a\nb\033[31m", f"{top}/sub/deeper/image.bin", f"{top}/sub/wrong.txt", f"{top}/wrong", ""]
    expect(names == [it.encode() for it in want], f"check -rl0: {names}")
    status, said = on_terminal([program, "check", "-rl0", top])
    expect(status == 1 and b"\033" not in said and b"a\\012b\\033[31m\0" in said, f"names on a terminal: {said}")
    says([program, "check", top, f"{top}/valid"], 3, b"", f"nody: {top}: Is a directory\n".encode())
    says([program, "check", "-r", f"{top}/link", f"{top}/wrong", f"{top}/none"], 3, None, b"No such file")
    expect(run([program, "check", "-rl", f"{top}/link"])[1] == f"{top}/link\n".encode(), "a link that is named is followed")
    got = run([program, "check", "-rl"], cwd=top)
    expect(got[0] == 1 and got[1].endswith(b"./wrong\n"), f"check -r of this folder: {got}")
    told = [json.loads(it) for it in run([program, "check", "-r", "--json", top])[1].splitlines()]
    expect([it["file"] for it in told if it.get("binary")] == [f"{top}/sub/deeper/image.bin"], "a binary file in JSON")
    check_lists(folder, program, top)
    check_deep(folder, program)
    check_moving(folder, program)
    check_locked_folder(folder, program)


def check_lists(folder, program, top):
    """Names from a list: in a file, and from standard input."""
    names = f"{top}/wrong\0{top}/sub/a\nb\033[31m\0{top}/valid\0".encode()
    put_file(f"{folder}/names", names)
    want = f"{top}/wrong\0{top}/sub/a\nb\033[31m\0".encode()
    says([program, "check", "-l0", "--files0-from", f"{folder}/names"], 1, want, b"")
    says([program, "check", "-l0", "--files0-from", "-"], 1, want, b"", names)
    says([program, "check", "-l0", "--files0-from", "-"], 1, want, b"", names[:-1])
    says([program, "check", "--files0-from", "-"], 0, b"", b"", b"")
    says([program, "check", "--files0-from", f"{folder}/none"], 3, b"", b"No such file")
    says([program, "check", "-l", "--files0-from", "-"], 3, f"{top}/wrong\n".encode(), b"nody: -: a name in this list is empty\n", b"\0" + f"{top}/wrong".encode())
    says([program, "check", "--files0-from", "-"], 3, b"", b"nody: -: standard input has the list, and is no file of it\n", b"-\0")


def check_deep(folder, program):
    """A folder so deep that its path is longer than a path may be: what can be reached is checked, and the rest is said to fail."""
    top = f"{folder}/deep"
    os.mkdir(top)
    here = os.getcwd()
    os.chdir(top)
    for _ in range(40):
        os.mkdir("d" * 200)
        os.chdir("d" * 200)
    with open("wrong", "wb") as file:
        file.write(b"\xff")
    os.chdir(here)
    put_file(f"{top}/wrong", b"\xff")
    got = run([program, "check", "-rl", top])
    expect(got[0] == 3 and got[1] == f"{top}/wrong\n".encode() and b"File name too long" in got[2], f"a deep folder: {got[0]} {got[1][-200:]} {got[2][-200:]}")
    few = lambda: resource.setrlimit(resource.RLIMIT_NOFILE, (8, 8))
    expect(run([program, "check", "-rl", top], preexec_fn=few)[1] == got[1], "a deep folder with few descriptors")
    subprocess.run(["rm", "-rf", top], check=True)


def check_moving(folder, program):
    """Files and folders that come, go, and turn into links and pipes while they are gone through."""
    top, is_over, secret = f"{folder}/moving", threading.Event(), f"{folder}/secret"
    os.makedirs(f"{secret}/in")
    put_file(f"{secret}/in/wrong", b"\xff")
    for i in range(30):
        os.makedirs(f"{top}/{i}/in")
        put_file(f"{top}/{i}/in/valid", b"text\n")

    def move():
        chance = random.Random(3)
        while not is_over.is_set():
            it = f"{top}/{chance.randrange(30)}/in"
            subprocess.run(["rm", "-rf", it], check=False)
            what = chance.randrange(4)
            if what == 0:
                os.symlink(f"{secret}/in", it)
            elif what == 1:
                os.mkfifo(it)
            elif what == 2:
                put_file(it, b"text\n")
            else:
                os.mkdir(it)
                os.mkfifo(f"{it}/pipe")

    mover = threading.Thread(target=move)
    mover.start()
    try:
        for _ in range(60):
            got = run([program, "check", "-rl", top])
            expect(got[1] == b"" and got[0] in (0, 3), f"a folder that changes: {got}")
    finally:
        is_over.set()
        mover.join()


def check_locked_folder(folder, program):
    """A folder and a file that others may not read."""
    if os.geteuid() != 0:
        print("nody_files.py: left out: folders of others, which takes root")
        return
    top = f"{folder}/locked"
    os.makedirs(f"{top}/closed")
    put_file(f"{top}/wrong", b"\xff")
    for it in (folder, os.path.dirname(folder), top):
        os.chmod(it, 0o755)
    os.chmod(f"{top}/closed", 0o700)
    says([program, "check", "-rl", top], 3, f"{top}/wrong\n".encode(), f"nody: {top}/closed: Permission denied\n".encode(), user=65534)


# ---- What is shown of a file


def check_shown(folder, program):
    name = f"{folder}/many"
    put_file(name, b"\xff\n" * 1223)
    got = run([program, "check", name])[1].decode().splitlines()
    expect(len(got) == 21 and got[-1] == f"{name}: 1,203 more invalid bytes (--max 0 shows all)", f"at most 20 lines: {got[-2:]}")
    expect(len(run([program, "check", "--max", "0", name])[1].splitlines()) == 1224, "--max 0")
    put_file(name, b"\xff\n" * 20)
    expect(run([program, "check", name])[1].endswith(b": not valid UTF-8: 20 invalid bytes\n"), "20 lines are all")
    put_file(name, b"\xff" * 3_000_000)
    for jobs in ("1", "4"):
        says([program, "check", "--max", "1", "--jobs", jobs, name], 1, None, b"")
        expect(run([program, "check", "--max", "1", "--jobs", jobs, name])[1].endswith(b": 2,999,999 more invalid bytes (--max 0 shows all)\n"), "all are counted")
    for data, is_binary in ((b"a\0\xff", True), (b"\xff\n" + 8189 * b"a" + b"\0", True), (b"\xff\n" + 8190 * b"a" + b"\0", False), (b"a\0b", None)):
        put_file(name, data)
        got = run([program, "check", name])
        want = b"" if is_binary is None else b": binary file, not valid UTF-8: the first invalid byte is at offset "
        expect((want in got[1] and got[1].count(b"\n") == (is_binary is not None)) == (is_binary is not False), f"a binary file {data[:9]}: {got}")
        expect(b"binary" not in run([program, "check", "-a", name])[1], "-a")
        expect((b"binary" in run([program, "check", "-"], data)[1]) == bool(is_binary), "a binary pipe")
    for mark, form in ((b"\xff\xfe", "UTF-16LE"), (b"\xfe\xff", "UTF-16BE")):
        put_file(name, mark + "h\u00e9\n".encode(form))
        got = run([program, "check", name])
        expect(got[0] == 1 and got[2] == f"nody: {name}: begins with the mark of {form}: try --encoding auto\n".encode(), f"a hint: {got}")
        says([program, "check", "-v", "--encoding", "auto", name], 0, f"{name}: valid {form}\n".encode(), b"")
    check_columns(folder, program)
    check_context(folder, program)


def check_columns(folder, program):
    """Columns by each unit, compared with a slow count; with tabs and wide characters, and over blocks."""
    name, chance = f"{folder}/columns", random.Random(5)
    parts = ["a", "\t", "é", "\u6587", "e\u0301", "\U0001f600", "\n", "text "]
    for size in (1, 40, 400, 200000):
        text = "".join(chance.choices(parts, weights=[9, 3, 3, 3, 3, 3, 0.02 if size > 1000 else 1, 3], k=size))
        data = text.encode() + b"\xff" + "".join(chance.choices(parts, k=9)).encode() + b"\xfe\n"
        put_file(name, data)
        for jobs in ("1", "3"):
            for unit in ("bytes", "characters", "display"):
                told = [json.loads(it) for it in run([program, "check", "--json", "--columns", unit, "--jobs", jobs, name])[1].splitlines()][:-1]
                for it in told:
                    line = data[data.rfind(b"\n", 0, it["offset"]) + 1 : it["offset"]]
                    want = 1 + (len(line) if unit == "bytes" else cells(line, unit == "display"))
                    expect(it["column"] == want, f"columns in {unit} of {line[-40:]}: {it}, not {want}")
                    if size <= 400:
                        lines = [json.loads(x) for x in run([program, "at", "--json", "--columns", unit, name, f"{it['line']}:{it['column']}"])[1].splitlines()]
                        expect([(x["file"], x["offset"]) for x in lines if x["covers"]] == [(name, it["offset"])], f"at {it['line']}:{it['column']} in {unit}: {lines}")
    put_file(name, b"a\tb\t\xff\n")
    for column, offset in ((1, 0), (2, 1), (8, 1), (9, 2), (10, 3), (16, 3), (17, 4), (18, 5)):
        told = run([program, "at", "--columns", "display", name, f"1:{column}"])[1]
        expect(f"\n> {offset} ".encode() in b"\n" + told, f"at a column after a tab in the first line: 1:{column}: {told}")


def cells(line, are_wide):
    """The cells of a line, or its characters; an invalid byte has one."""
    column = 0
    for _, _, what in nody.pieces_of_utf8(line):
        if len(what) > 1 or not are_wide:
            column += 1
        elif what == "\t":
            column += 8 - column % 8
        else:
            column += 0 if what == "\u0301" else 2 if what in "\u6587\U0001f600" else 1
    return column


def check_context(folder, program):
    name = f"{folder}/context"
    put_file(name, SAMPLE)
    got = run([program, "check", "--context", name])[1].decode().splitlines()
    want = ["    caf\u00e9 \\xE2\\x82 au lait", "         ^", "    second \\xFF line", "           ^"]
    expect([it for it in got if it.startswith("    ")] == want, f"--context: {got}")
    expect(run([program, "check", name])[1].count(b"^") == 0, "no context in a pipe")
    status, said = on_terminal([program, "check", name])
    expect(status == 1 and b"\033[1;31m\\xFF\033[0m" in said and said.count(b"^") == 2, f"a terminal: {said}")
    for words, env, colored, context in (([], {"NO_COLOR": "1"}, False, True), (["--color", "never"], {}, False, True), ([], {"TERM": "dumb"}, False, False), (["--no-context"], {}, False, False),
                                         (["--color", "always"], {"NO_COLOR": "1"}, True, True)):
        _, said = on_terminal([program, "check", *words, name], **env)
        expect((b"\033" in said, b"^" in said) == (colored, context), f"a terminal with {words} {env}: {said}")
    nasty = b"\033]0;title\007\033[2J\xc2\x9b31m\xe2\x80\xae \xff \033[31m\r\x08\x7f\n"
    for data, columns in ((nasty, 80), (nasty, 24), (b"x" * 5000 + b"\xff" + b"y" * 5000 + b"\n", 40), ("\u6587".encode() * 3000 + b"\xff" + "\u6587".encode() * 3000, 41),
                          (b"\xff" * 10000, 30), (b"\t\t\t\xff\r\n", 30), (b"a" * 100 + b"\xff", 80), (b"\xff", 20)):
        put_file(name, data)
        for jobs in ("1", "3"):
            _, said = on_terminal([program, "check", "--max", "3", "--color", "never", "--jobs", jobs, name], columns)
            lines = said.decode().split("\n")
            shown = [it for it in lines if it.startswith("    ")]
            expect(b"\033" not in said and b"\x9b" not in said.replace(b"\xc3\x9b", b"") and "\u202e" not in said.decode(), f"what commands a terminal: {said}")
            expect(len(shown) == 2 and all(cells(it.encode(), True) < columns for it in shown), f"the width of {columns}: {shown}")
            at = cells(shown[1].encode(), True) - 1
            expect(mark_is_under(shown[0], at), f"the mark: {shown}")
    piped = run([program, "check", "--context", "-"], SAMPLE)[1].decode().splitlines()
    expect([it for it in piped if it.startswith("    ")] == want, f"--context of a pipe: {piped}")
    put_file(name, "h\u00e9".encode("utf-16-le") + b"\x00\xd8" + "x\n".encode("utf-16-le"))
    expect(b"    h\xc3\xa9\\x00\\xD8x\n" in run([program, "check", "--context", "--encoding", "utf-16le", name])[1], "--context of UTF-16")


def mark_is_under(line, at):
    """Whether an invalid byte begins at a cell of the line."""
    column = 0
    for i, char in enumerate(line):
        if column == at:
            return line[i : i + 2] == "\\x"
        column += cells(char.encode(), True)
    return False


# ---- Programs that read it


def check_jq(folder, program):
    """The members that the man page has, each of its type."""
    if not is_there("jq"):
        return
    name = f"{folder}/json"
    put_file(name, SAMPLE)
    place = '(.file|type)=="string" and (.offset|type)=="number"'
    for words, want in ((["check"], f'if has("valid") then (.file|type)=="string" and (.valid|type)=="boolean" and (.binary|type)=="boolean" and (.complete|type)=="boolean" and (.invalid|type)=="number" and '
                                    f'(.encoding|type)=="string" else {place} and (.line|type)=="number" and (.column|type)=="number" and (.length|type)=="number" and (.kind|type)=="string" and (.reason|type)=="string" end'),
                        (["list"], f'{place} and (.length|type)=="number" and (.bytes|test("^([0-9a-f]{{2}})+$")) and (has("scalar") != (has("kind") and has("reason")))'),
                        (["count"], '(.file|type)=="string" and (.bytes|type)=="number" and (.characters|type)=="number" and (.lines|type)=="number" and (.invalid|type)=="number" and (.kinds|type)=="object"'),
                        (["at"], f'{place} and (.covers|type)=="boolean"')):
        told = run([program, *words, "--json", name, *(["6"] if words == ["at"] else [])])[1]
        got = run(["jq", "-e", want], told)
        expect(got[0] == 0 and got[1].split() == [b"true"] * told.count(b"\n") != [], f"jq on {words}: {got}")


def lines_of_page(after):
    """The lines of an example in the man page, after a word."""
    with open(f"{TOP}/packaging/man/nody.1", encoding="utf-8") as file:
        page = file.read()
    example = re.search(re.escape(after) + r".*?\n\.EX\n(.*?)\n\.EE", page, re.S)[1]
    return example.replace("\\e", "\\").replace("\\-", "-").replace("\\(aq", "'").replace("\\(dq", '"').replace("\\&", "")


def check_vim(folder, program):
    """The lines for vim lead it to each invalid byte."""
    if not is_there("vim"):
        return
    name, out = f"{folder}/in vim", f"{folder}/vim.out"
    put_file(name, SAMPLE)
    lines = lines_of_page("In vim")
    put_file(f"{folder}/vimrc", f"let $PATH='{os.path.dirname(program)}:'.$PATH\n{lines}\n".encode())
    script = [f"silent make {name.replace(' ', chr(92) + ' ')}", "let places=[]", "for it in range(1,3)", "execute 'cc ' . it", f"call add(places, expand('%:t').':'.line('.').':'.col('.').':'.strpart(getline('.'), col('.')-1, 1))", "endfor",
              f"call writefile(places, '{out}', 'b')", "qa!"]
    put_file(f"{folder}/script", "\n".join(script).encode())
    subprocess.run(["vim", "-N", "-u", f"{folder}/vimrc", "-i", "NONE", "-n", "-es", "-S", f"{folder}/script"], stdin=subprocess.DEVNULL, capture_output=True, timeout=60, env=dict(os.environ, TERM="xterm"))
    got = contents(out) if os.path.exists(out) else None
    # (vim shows an invalid byte as a question mark)
    expect(got == b"in vim:1:7:?\nin vim:1:8:?\nin vim:2:8:?", f"vim goes to {got}")


def check_emacs(folder, program):
    """The lines for Emacs lead it to each invalid byte."""
    if not is_there("emacs"):
        return
    name = f"{folder}/in-emacs"
    put_file(name, SAMPLE)
    lines = lines_of_page("In Emacs")
    script = f"""(setenv "PATH" (concat "{os.path.dirname(program)}:" (getenv "PATH")))
{lines}
(require 'compile)
(setq places nil)
(let ((buffer (compilation-start "nody check {name}")))
  (while (get-buffer-process buffer) (accept-process-output nil 0.1))
  (dotimes (_ 3) (with-current-buffer buffer (next-error)) (with-current-buffer (get-file-buffer "{name}") (push (list (line-number-at-pos) (current-column) (char-after)) places))))
(princ (format "%S" (reverse places)))
"""
    put_file(f"{folder}/script.el", script.encode())
    ran = subprocess.run(["emacs", "-Q", "--batch", "-l", f"{folder}/script.el"], stdin=subprocess.DEVNULL, capture_output=True, timeout=60)
    got = re.findall(rb"\((\d+) (\d+) (\d+)\)", ran.stdout)
    expect([(int(a), int(c) & 0xFF) for a, _, c in got] == [(1, 0xE2), (1, 0x82), (2, 0xFF)], f"emacs goes to {got} {ran.stdout[-200:]} {ran.stderr[-600:]}")


def check_matcher(program):
    """The pattern for VS Code finds file, line, column and message. (VS Code is not there: JavaScript's expressions are Python's here)"""
    matcher = json.loads("{" + lines_of_page("In VS Code").split("{", 1)[1].rsplit("}", 1)[0] + "}")
    pattern = matcher["pattern"]
    line = run([program, "check"], SAMPLE)[1].decode().splitlines()[0]
    found = re.match(pattern["regexp"], line)
    expect(found and found[pattern["file"]] == "-" and found[pattern["line"]] == "1" and found[pattern["column"]] == "6" and "interrupted" in found[pattern["message"]], f"VS Code on {line}")
    expect(not re.match(pattern["regexp"], "a: not valid UTF-8: 3 invalid bytes"), "VS Code on a summary")


def check_annotations(folder, program):
    """What the action of GitHub writes: annotations for text files, none for binary ones; names with what annotations escape."""
    if not is_there("jq"):
        return
    top, words = f"{folder}/repository", [f"{TOP}/packaging/annotate"]
    os.makedirs(f"{top}/a,b:c%")
    env = dict(os.environ, PATH=f"{os.path.dirname(program)}:{os.environ['PATH']}", NODY_PATHS=".\n", NODY_EXCLUDE="*.bad\n.git", NODY_ENCODING="utf-8")
    put_file(f"{top}/image", b"\0\xff")
    put_file(f"{top}/x.bad", b"\xff")
    says(words, 0, b"", b"", cwd=top, env=env)
    put_file(f"{top}/a,b:c%/text\n", SAMPLE)
    got = run(words, cwd=top, env=env)
    lines = got[1].decode().splitlines()
    want = "::error file=a%2Cb%3Ac%25/text%0A,line=1,col=6::interrupted sequence: a continuation byte is missing (offset 6)"
    expect(got[0] == 1 and len(lines) == 4 and lines[0] == want, f"annotations: {got}")
    says(words, 3, b"", b"No such file", cwd=top, env=dict(env, NODY_PATHS="none"))
    says(words, 2, b"", b"--encoding does not take", cwd=top, env=dict(env, NODY_ENCODING="latin1"))


def check_isutf8(folder, program):
    """Names of invalid files are those of isutf8."""
    if not is_there("isutf8"):
        return
    top = f"{folder}/random"
    os.mkdir(top)
    chance = random.Random(8)
    for i in range(300):
        put_file(f"{top}/{i}", b"".join(chance.choices([*nody.PARTS["utf-8"], b"\0"], weights=[40, 9, 40] + [0.4] * (len(nody.PARTS["utf-8"]) - 3) + [1], k=chance.randrange(60))))
    names = sorted(run([program, "check", "-rl", top])[1].splitlines())
    want = sorted(run(["isutf8", "-l", *(f"{top}/{i}" for i in range(300))])[1].splitlines())
    expect(names == want and 0 < len(names) < 300, f"isutf8 has {len(want)} names, and nody {len(names)}")


# ---- nody fix


def check_fix(folder, program):
    place = f"{folder}/fix"
    os.mkdir(place)
    name, valid = f"{place}/text", f"{place}/valid"
    put_file(name, SAMPLE)
    put_file(valid, b"text\n")
    had = os.stat(valid)
    want = nody.recoded(SAMPLE, "utf-8", "utf-8", "replace")
    diff = f"--- {name}\n+++ {name}\n@@ -1 +1 @@\n-caf\u00e9 \\xE2\\x82 au lait\n+caf\u00e9 \ufffd\ufffd au lait\n@@ -2 +2 @@\n-second \\xFF line\n+second \ufffd line\n"
    says([program, "fix", "--dry-run", valid, name], 1, diff.encode(), b"")
    expect(contents(name) == SAMPLE and sorted(os.listdir(place)) == ["text", "valid"], "--dry-run changes nothing")
    says([program, "fix", "--dry-run", "--errors", "lossy", name], 1, diff.replace("\ufffd\ufffd", "\ufffd").encode(), b"")
    says([program, "fix", "--backup", "~", valid, name], 0, b"", f"nody: {name}: 3 invalid bytes became U+FFFD\n".encode())
    expect(contents(name) == want and contents(f"{name}~") == SAMPLE and sorted(os.listdir(place)) == ["text", "text~", "valid"], f"fix --backup: {os.listdir(place)}")
    now = os.stat(valid)
    expect((had.st_ino, had.st_mtime_ns, had.st_ctime_ns) == (now.st_ino, now.st_mtime_ns, now.st_ctime_ns), "a valid file is not touched")
    put_file(name, SAMPLE)
    says([program, "fix", "--backup", "~", name], 3, b"", f"nody: {name}~: File exists\n".encode())
    expect(contents(name) == SAMPLE and contents(f"{name}~") == SAMPLE and len(os.listdir(place)) == 3, "a backup that is there stays, and so does the file")
    says([program, "fix", "--errors", "lossy", "-q", name], 0, b"", b"")
    expect(contents(name) == SAMPLE.decode("utf-8", "replace").encode(), "fix --errors lossy")
    try_fix_tables(program, place, name)
    try_long_lines(program, name)
    marked = b"\xff\xfe" + "h\u00e9".encode("utf-16-le")
    put_file(name, marked + b"\x00\xd8")
    says([program, "fix", "-q", "--encoding", "auto", name], 0, b"", b"")
    expect(contents(name) == marked + b"\xfd\xff", f"fix of UTF-16 with a mark: {contents(name)}")
    os.mkfifo(f"{place}/pipe")
    says([program, "fix", place, f"{place}/pipe", f"{place}/none", valid], 3, b"", b"pipe: it is no regular file")
    os.symlink("text", f"{place}/link")
    put_file(name, SAMPLE)
    says([program, "fix", "-q", f"{place}/link"], 0, b"", b"")
    expect(contents(name) == want and os.path.islink(f"{place}/link"), "fix through a link")
    put_file(name, SAMPLE)
    with open(name, "rb") as file:
        fcntl.flock(file, fcntl.LOCK_EX)
        says([program, "fix", name], 3, b"", b"another process has locked it")
    put_file(name, b"\033]0;x\007\xff\n")
    status, said = on_terminal([program, "fix", "--dry-run", "--color", "never", name])
    expect(status == 1 and b"\033" not in said and b"\007" not in said and b"<U+001B>" in said, f"a diff on a terminal: {said}")
    limited = lambda: resource.setrlimit(resource.RLIMIT_FSIZE, (1000, 1000))
    put_file(name, SAMPLE * 1000)
    says([program, "fix", "--backup", ".old", name], 3, b"", b"File too large", preexec_fn=limited)
    expect(contents(name) == SAMPLE * 1000 and not [it for it in os.listdir(place) if ".old" in it or it.startswith(".nody")], f"a full disk: {os.listdir(place)}")


def try_fix_tables(program, place, name):
    """Each byte of each table, in place; and then nothing is left to fix."""
    data = b"".join(b"%c %c\n" % (byte, byte) for byte in range(0x80, 0x100)) + "\u00e9\u20ac\U0001f600".encode() + b"\xf0\x9f\x98"
    for errors, (_, said) in nody.TABLES.items():
        want = nody.recoded(data, "utf-8", "utf-8", errors)
        put_file(name, data)
        status, diff, _ = run([program, "fix", "--dry-run", "--errors", errors, name])
        expect(status == 1 and contents(name) == data and diff.count(b"\n@@ ") == 129, f"fix --dry-run --errors {errors}: {diff}")
        says([program, "fix", "--errors", errors, "--backup", f".{errors}", name], 0, b"", f"nody: {name}: 259 invalid bytes {said}\n".encode())
        expect(contents(name) == want and contents(f"{name}.{errors}") == data, f"fix --errors {errors}: {contents(name)}")
        had = os.stat(name)
        says([program, "fix", "--errors", errors, "--backup", f".{errors}", name], 0, b"", b"")
        now = os.stat(name)
        expect((had.st_ino, had.st_mtime_ns, had.st_ctime_ns) == (now.st_ino, now.st_mtime_ns, now.st_ctime_ns), f"a file that was fixed by {errors} is valid")
        os.remove(f"{name}.{errors}")


def try_long_lines(program, name):
    """Of a long line --dry-run shows a part, which begins and ends between characters."""
    for front, back in ((b"", "\u00e9" * 5000), (b"a" * 9001, "\u20ac" * 5000), (b"\xff" * 9000, "")):
        put_file(name, front + b"\xff" + back.encode() + b"\n")
        status, diff, _ = run([program, "fix", "--dry-run", name])
        old, new = diff.decode().splitlines()[3:]
        count = old.count("\\x")
        expect(status == 1 and count == old.count("\\xFF") and "\\x" not in new and count == new.count("\ufffd"), f"a long line: {old[-40:]}, {new[-40:]}")
        expect(old[-1] == new[-1] == "\u2026" and old[1:].replace("\\xFF", "\ufffd") == new[1:], f"the end of a long line: {old[-40:]}, {new[-40:]}")


def check_fix_moments(folder, program, compiler, build):
    """Another process changes a file at each call of the system: its change is there afterwards, under the name or in the backup."""
    stops, plain = nody.Stops(folder, compiler), f"{folder}/plain"
    if not stops.is_there or not nody.compiles(compiler, plain, 256, build, ["-O1"]):
        return
    place = f"{folder}/moments"
    os.mkdir(place)
    name, old = f"{place}/text", SAMPLE * 20
    words = [plain, "fix", "-q", "--jobs", "1", "--backup", "~", name]
    put_file(name, old)
    calls = stops.calls(words)
    lost = []
    for call in calls:
        for it in os.listdir(place):
            os.remove(f"{place}/{it}")
        put_file(name, old)
        stops.run(words, STOP=call, BETWEEN=f"printf 'more\\n' >>{name}")
        if not any(contents(f"{place}/{it}").endswith(b"more\n") for it in os.listdir(place)):
            lost.append(call)
        left = [it for it in os.listdir(place) if it not in ("text", "text~")]
        expect(not left, f"fix with a change at {call} leaves {left}")
    expect(len(calls) > 5 and not lost, f"fix loses what was written at {lost} of {calls}")


def check_marks(program):
    """--bom puts the mark of the output's encoding, once."""
    marks = {"utf-8": b"\xef\xbb\xbf", "utf-16le": b"\xff\xfe", "utf-16be": b"\xfe\xff"}
    for to, mark in marks.items():
        for text in ("", "h\u00e9"):
            want = mark + text.encode(to.replace("utf-16", "utf-16-"))
            says([program, "recode", "--bom", "--to", to], 0, want, b"", text.encode())
            says([program, "recode", "--bom", "--to", to], 0, want, b"", ("\ufeff" + text).encode())
            says([program, "recode", "--bom", "--to", to, "--encoding", "auto"], 0, want, b"", b"\xff\xfe" + text.encode("utf-16-le"))
            for dropped in range(1, 9):
                said = f"nody: -: {dropped} invalid byte{'s' * (dropped > 1)} dropped\n".encode()
                says([program, "recode", "--bom", "--to", to, "--errors", "drop"], 0, want, said, b"\x80" * dropped + ("\ufeff" + text).encode())
                says([program, "recode", "--bom", "--to", to, "--errors", "drop"], 0, want, said, b"\x80" * dropped + text.encode())
            says([program, "recode", "--bom", "--to", to, "--encoding", "auto"], 0, want, b"", ("\ufeff\ufeff" + text).encode())


def main():
    if len(sys.argv) not in (2, 3) or sys.argv[1].startswith("-"):
        print(__doc__)
        return 0 if sys.argv[1:] in (["--help"], ["-h"]) else 2
    build, compiler = os.path.abspath(sys.argv[1]), sys.argv[2] if len(sys.argv) > 2 else "cc"
    signal.signal(signal.SIGINT, signal.default_int_handler)
    with tempfile.TemporaryDirectory() as folder:
        built, small = f"{build}/nody", f"{folder}/small"
        programs = [built, small] if nody.compiles(compiler, small, 3, build, ["-O1", *nody.SANITIZERS]) else [built]
        for it in programs:
            with tempfile.TemporaryDirectory(dir=folder) as place:
                check_folders(place, it)
                check_fix(place, it)
                check_marks(it)
                if it == built:
                    check_shown(place, it)
                    check_jq(place, it)
                    check_vim(place, it)
                    check_emacs(place, it)
                    check_matcher(it)
                    check_isutf8(place, it)
                    check_annotations(place, it)
        check_fix_moments(folder, built, compiler, build)
    print(f"{nody.passed} passed, {nody.failed} failed")
    return int(nody.failed > 0)


if __name__ == "__main__":
    sys.exit(main())
