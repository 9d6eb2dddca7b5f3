#!/usr/bin/env python3
"""What `rt WORDS` proves and builds, in an order that keeps all processors at work.

    rt_lanes.py WORDS

`rt all check --jobs N` hands N crates at a time to its workers, lowest first, and a worker that has a crate waits until those
below it are built, while others that could be proved wait for a worker. Here a crate is begun once those below it are built, of
several that one first on which the longest chain of others stands, by their lines. Where there are fewer of them than
processors each is proved by two jobs or more, up to four, and those on which the longest chains stand are so at all times,
since it is these that all wait for at the end. A library holds the statements that were proved of it, as in the gate, and not
the checked proofs, which no crate above reads: it is built and read sooner, and takes little of the disk. A program is checked
as `rt run` builds it. The sources of a crate are summed up once: some kits sum them up once for each path through the lists of
libraries, and nothing writes to the launcher's copy of the sources while it builds. The quick pass over all sources that comes
before the proofs, and proves nothing, is left out. What is proved, and how, is the kit's. Where `rt` is no such program, it
runs itself.
"""
import functools
import importlib.machinery
import importlib.util
import os
import shutil
import sys
import threading
from concurrent.futures import Future, ThreadPoolExecutor


def kept(method, copied):
    """The method of a crate, asked once for each crate's folder."""
    answers = {}

    def answer(crate):
        if crate.folder not in answers:
            answers[crate.folder] = method(crate)
        return copied(answers[crate.folder])

    return answer


@functools.lru_cache(maxsize=None)
def lines_of(folder):
    """How many lines of code a crate has, as which its proofs take time."""
    count = 0
    for place, _, files in os.walk(os.path.join(folder, "src")):
        for name in files:
            with open(os.path.join(place, name), "rb") as file:
                count += file.read().count(b"\n")
    return count


# The most jobs by which one crate is proved.
MOST_JOBS = 4
# How long the first crates wait, in seconds, until all are handed in.
HANDING_IN = 0.5
# How many jobs each crate that was begun may use.
JOBS = {}


class Lanes(ThreadPoolExecutor):
    """Workers for calls on crates, which are handed in lowest first: a call is begun once those on the crates below have ended."""

    def __init__(self, count):
        super().__init__(count)
        self.count = self.idle = count
        self.lock = threading.Lock()
        self.waiting = []
        # The crates that have ended, and those that were begun, with the length of the chain above each.
        self.ended, self.begun = set(), {}
        self.first = None

    def submit(self, call, *given):
        if not given or not hasattr(given[0], "below"):
            return super().submit(call, *given)
        task = call, given[0], Future()
        with self.lock:
            self.waiting.append(task)
            if self.first is None:
                self.first = threading.Timer(HANDING_IN, self.begin_first)
                self.first.start()
        return task[-1]

    def begin_first(self):
        with self.lock:
            self.begin()

    def chains(self):
        """For each crate that waits the lines of the longest chain that begins with it, of crates of which each stands on the last."""
        chains = {}
        for _, crate, _ in reversed(self.waiting):
            above = (chains[it] for it in chains if crate in it.below())
            chains[crate] = lines_of(crate.folder) + max(above, default=0)
        return chains

    def begin(self):
        """Begins as many calls as there are idle workers, those first that the longest chains wait for, which get more of them."""
        chains = self.chains()
        ready = [task for task in self.waiting if self.ended.issuperset(task[1].below())]
        ready.sort(key=lambda task: -chains[task[1]])
        longest = max([*chains.values(), *self.begun.values()], default=0)
        are_few = len(ready) + len(self.begun) < self.count
        for at, task in enumerate(ready[: self.idle]):
            crate = task[1]
            share = min(MOST_JOBS, -(-self.idle // (len(ready) - at)))
            JOBS[crate] = max(share, 2 if are_few or 4 * chains[crate] >= 3 * longest else 1)
            self.waiting.remove(task)
            self.idle -= share
            self.begun[crate] = chains[crate]
            super().submit(self.work, share, *task)

    def work(self, share, call, crate, future):
        try:
            future.set_result(call(crate))
        except BaseException as fault:
            future.set_exception(fault)
        with self.lock:
            self.ended.add(crate)
            self.begun.pop(crate)
            self.idle += share
            self.begin()


def in_statements(rtlib, method):
    """The method that builds a crate's library, where it is not built, with its statements alone."""

    def build_rlib(crate, flags, anew):
        if anew or crate.is_built():
            return method(crate, flags, anew)
        stamp, kept = crate.stamp(), os.path.join(crate.folder, "out", "rlib", "stamp")
        shutil.rmtree(os.path.dirname(kept), ignore_errors=True)
        os.makedirs(os.path.dirname(kept))
        words = [*crate.words(flags, keeps=False), "--statements"]
        status = crate.call(rtlib.RATTLE, "build", *words, "-o", crate.rlib)
        if status == 0 and stamp == crate.stamp():
            with open(kept, "w", encoding="utf-8") as file:
                file.write(stamp)
        return status

    return build_rlib


def but_programs(method):
    """The method that checks a crate, without those of programs: a program is checked as it is built, once its libraries are."""
    return lambda crate, flags: 0 if crate.is_program else method(crate, flags)


def in_jobs(method):
    """The method of a crate that takes rattle's flags, with as many jobs as the crate may use in place of one."""

    def call(crate, flags, *given, **named):
        if flags == ["--jobs", "1"]:
            flags = ["--jobs", str(JOBS.get(crate, 1))]
        return method(crate, flags, *given, **named)

    return call


def loaded(path):
    """The kit's `rt` as a module that works in this order."""
    loader = importlib.machinery.SourceFileLoader("rt", path)
    module = importlib.util.module_from_spec(importlib.util.spec_from_loader("rt", loader))
    sys.modules["rt"] = module
    loader.exec_module(module)
    crate = module.rtlib.Crate
    crate.stamp = kept(crate.stamp, str)
    crate.below = kept(crate.below, list)
    crate.front_end = lambda _: 0
    if "--statements" in module.rtlib.help_of("build"):
        crate.build_rlib = in_statements(module.rtlib, crate.build_rlib)
        # Other copies of a repository are not to take these libraries for their own checks.
        module.offer = lambda *_: None
    crate.build_rlib, crate.check = in_jobs(crate.build_rlib), in_jobs(but_programs(crate.check))
    module.rtlib.ThreadPoolExecutor = Lanes
    return module


def main():
    path = os.path.realpath(shutil.which("rt") or sys.exit("rt_lanes.py: there is no rt on the path"))
    sys.dont_write_bytecode = True
    try:
        run = loaded(path).main
    except (AttributeError, ImportError, OSError, SyntaxError, ValueError):
        os.execv(path, ["rt", *sys.argv[1:]])
    sys.exit(run(sys.argv[1:]))


if __name__ == "__main__":
    main()
