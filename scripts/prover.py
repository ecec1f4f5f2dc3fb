"""Checks of the prover over kept work, in parallel. scripts/prove uses it."""
import contextlib
import importlib.machinery
import importlib.util
import itertools
import os
import shutil
import subprocess
import sys
import threading
import time

# The most jobs that one check gets where CPUs are idle. It takes less time by the clock, and more of the CPUs.
MOST_JOBS = 4
TOP = os.path.dirname(os.path.dirname(os.path.abspath(__file__)))


def kit(name):
    """The command rt, as a module: it reads edits, and checks a copy of a crate over the work of earlier checks."""
    path = os.path.realpath(shutil.which("rt") or sys.exit(f"{name}: rt, the kit's command, is not on the path"))
    loader = importlib.machinery.SourceFileLoader("rt_of_the_kit", path)
    made = importlib.util.module_from_spec(importlib.util.spec_from_loader("rt_of_the_kit", loader))
    loader.exec_module(made)
    return made


def lines_of(rt, crate):
    """The lines of its sources, definitions and proofs: the time of its proof grows with these."""
    return sum(rt.rtlib.text_of(it).count("\n") for it in rt.rtlib.files_of(crate.folder))


def kept_by(crate):
    """The folder in which `rt check` and `rt lib` keep what they proved of the crate."""
    return f"{crate.folder}/out/incremental"


def keep(crate, kept):
    """Leaves what a check made for `rt check` and `rt lib`, if they have kept nothing."""
    to = kept_by(crate)
    if not os.path.isdir(to):
        copy_kept(kept, f"{to}.new")
        os.rename(f"{to}.new", to)


def copy_kept(kept, to):
    """A copy of kept work whose files are shared: the prover writes a file anew and never into one that is there."""
    try:
        return shutil.copytree(kept, to, copy_function=os.link)
    except (OSError, shutil.Error):
        # (links do not reach another disk)
        shutil.rmtree(to, ignore_errors=True)
        return shutil.copytree(kept, to)


def below(crates):
    """The libraries below the crates, each after those that it uses."""
    return sorted({low.name: low for crate in crates for low in crate.below()}.values(), key=lambda it: len(it.below()))


def are_of_rt_ci(libraries):
    """Whether they are all those that `rt ci` built of these texts, which fit one another alone and which `rt lib` would build anew."""
    is_of_it = lambda it: os.path.isdir(it.rlib) and not os.path.exists(f"{os.path.dirname(it.rlib)}/stamp")
    return all(is_of_it(it) and is_built_of(it) for it in libraries)


def is_built_of(crate):
    """Whether nothing of the crate's texts is newer than its library."""
    found = [at for part in ("src", "specs", "proofs") for at, _, _ in os.walk(f"{crate.folder}/{part}")]
    found += [f"{at}/{it}" for at in found for it in os.listdir(at)]
    return all(os.stat(it).st_mtime <= os.stat(crate.rlib).st_mtime for it in found)


def build(crate, jobs):
    """Builds the library over the work that was kept, if it is not there or its sources have changed. Returns whether that went well."""
    how = {"cwd": crate.folder, "stdin": subprocess.DEVNULL, "stdout": subprocess.DEVNULL, "stderr": subprocess.DEVNULL}
    return subprocess.run(["rt", "lib", "--jobs", str(jobs)], **how).returncode == 0


class Processors:
    """The CPUs, of which each check takes as many as it has jobs. Of those that wait, the one with most work goes first."""

    def __init__(self, count):
        self.free, self.changed, self.waiting = count, threading.Condition(), []
        self.turns = itertools.count()

    @contextlib.contextmanager
    def taken(self, jobs, work):
        """Waits for CPUs. The work is that of the check and of what has to wait for it, in lines."""
        mine = (-work, next(self.turns))
        with self.changed:
            self.waiting.append(mine)
            self.changed.wait_for(lambda: min(self.waiting) == mine and self.free >= jobs)
            self.waiting.remove(mine)
            self.free -= jobs
            self.changed.notify_all()
        try:
            yield
        finally:
            with self.changed:
                self.free += jobs
                self.changed.notify_all()

    @contextlib.contextmanager
    def shared(self, work, most=MOST_JOBS):
        """Waits for a CPU, takes those too that nothing waits for, and gives how many these are."""
        with self.taken(1, work):
            # (what can begin at the same time asks meanwhile)
            time.sleep(0.5)
            with self.changed:
                more = 0 if self.waiting else min(self.free, most - 1)
                self.free -= more
            try:
                yield 1 + more
            finally:
                with self.changed:
                    self.free += more
                    self.changed.notify_all()
