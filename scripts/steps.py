"""Steps that take minutes: compare/all and bench/all run theirs in turn, with what is missing on the machine, and keep what each printed."""
import datetime
import os
import shutil
import subprocess
import sys
import time

TOP = os.path.dirname(os.path.dirname(os.path.abspath(__file__)))
# The package of Debian that has each command; a command of the toolchain or of rustup has none.
PACKAGES = {"cc": "gcc", "gcc": "gcc", "make": "make", "valgrind": "valgrind", "clang": "clang", "python3": "python3", "node": "nodejs", "isutf8": "moreutils", "uconv": "icu-devtools",
            "aarch64-linux-gnu-gcc": "gcc-aarch64-linux-gnu", "qemu-aarch64-static": "qemu-user-static", "cargo": None, "rustc": None, "rt": None, "apt-get": "apt", "dpkg-deb": "dpkg"}


class Step:
    """A command, what it needs, how many minutes it takes about, and the file that keeps what it prints."""

    def __init__(self, words, needs, minutes, stored):
        self.words, self.needs, self.minutes, self.stored = words, needs, minutes, stored

    def missing(self):
        return [it for it in self.needs if not shutil.which(it)]


def say_missing(name, steps):
    for it in sorted({it for step in steps for it in step.missing()}):
        package = PACKAGES[it]
        print(f"{name}: {it} is missing: {f'apt-get install {package}' if package else 'see its own pages'}", flush=True)


def run(name, steps):
    """Runs each step whose needs are met. The status is 1 if one found a difference, and 2 if one could not run."""
    say_missing(name, steps)
    ready, status = [it for it in steps if not it.missing()], 0
    for number, step in enumerate(ready):
        left = sum(it.minutes for it in ready[number:])
        print(f"{name}: {number + 1} of {len(ready)}: {' '.join(step.words)}; about {left} minutes left", flush=True)
        begun = time.monotonic()
        ran = subprocess.run(step.words, cwd=TOP, stdin=subprocess.DEVNULL, stdout=subprocess.PIPE, text=True, errors="replace")
        print(ran.stdout, end="", flush=True)
        print(f"{name}: status {ran.returncode}, {(time.monotonic() - begun) / 60:.1f} minutes", flush=True)
        status = max(status, ran.returncode)
        if ran.returncode == 0:
            keep(step, ran.stdout)
    for step in steps:
        if step.missing():
            print(f"{name}: left out: {' '.join(step.words)}: it needs {', '.join(step.missing())}")
            status = 2
    return status


def keep(step, printed):
    """Writes what a step printed where the documents take their figures from."""
    os.makedirs(f"{TOP}/{os.path.dirname(step.stored)}", exist_ok=True)
    with open(f"{TOP}/{step.stored}", "w", encoding="utf-8") as file:
        file.write(printed)
    with open(f"{TOP}/{os.path.dirname(step.stored)}/dates", "a", encoding="utf-8") as file:
        command = " ".join("PATH" if os.path.isabs(it) else it for it in step.words)
        print(f"{datetime.date.today()} {os.path.basename(step.stored)}: {command}", file=file)


def path_of(words, document):
    """The folder of the Rust crate, which is the one argument."""
    if words in (["--help"], ["-h"]):
        print(document)
        sys.exit(0)
    if len(words) != 1 or words[0].startswith("-"):
        print(document, file=sys.stderr)
        sys.exit(2)
    if not os.path.isfile(f"{words[0]}/src/lib.rs"):
        print(f"no Rust crate in {words[0]}: there is no src/lib.rs", file=sys.stderr)
        sys.exit(2)
    return os.path.abspath(words[0])
