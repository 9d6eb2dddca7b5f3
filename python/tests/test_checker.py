"""The second checker prints and answers what the program's `check`, `relog` and `reconv` do, in each case of the lists."""
import ast
import collections
import contextlib
import io
import multiprocessing
import os
import re
import subprocess
import sys
import tempfile
import unittest
from pathlib import Path
from typing import Dict, Iterator, List, NamedTuple, Set
from unittest import mock

from bensolve import checker
from tests.cases import EXAMPLES, TOP, all_cases, text_of

COMMANDS = ("check", "relog", "reconv")
# How many runs of each kind the lists have at least: fewer would mean that they are not found.
AT_LEAST = {"check": 1_798, "relog": 654, "reconv": 1_447, "files for check": 1_321, "files for reconv": 845,
            "written logs": 19}

# The other commands, by the command of the second checker that reads such a FILE.
READERS = dict.fromkeys("solve dual weights weigh project associate meet sum join map".split(), "check")
READERS.update(vertices="reconv", facets="reconv")


class Source:
    """A source in memory, which moves so many bytes a call, and of which these calls fail."""

    def __init__(self, data: bytes, most: int = 4_096, fails: Set[int] = frozenset()):
        self.data, self.most, self.fails = io.BytesIO(data), most, fails
        self.calls = 0

    def __enter__(self) -> "Source":
        return self

    def __exit__(self, *error: object) -> None:
        pass

    def read(self, count: int) -> bytes:
        self.calls += 1
        if self.calls in self.fails:
            raise OSError("this call fails")
        return self.data.read(min(count, self.most))


class Trial(NamedTuple):
    """One run of a case."""

    command: str
    file: bytes
    log: bytes
    most: int
    fails: Dict[str, Set[int]]

    def run(self):
        opened = [lambda name=name, data=data: Source(data, self.most, self.fails.get(name, frozenset()))
                  for name, data in (("problem", self.file), ("log", self.log))]
        return checker.run(self.command, *opened)


def bytes_of(case, key: str) -> bytes:
    return case.text(key).encode("utf-8", "surrogateescape")


def numbers_of(case, key: str, default: str) -> List[int]:
    return [int(word) for word in case.keys.get(key, [default])[0].split(",")]


def fails_of(case) -> Dict[str, Set[int]]:
    found: Dict[str, Set[int]] = {}
    for part in ",".join(case.keys.get("fails", [])).split(","):
        name, _, call = part.partition(" ")
        if call:
            found.setdefault(name, set()).add(int(call))
    return found


def texts_of(each: str, file: bytes, log: bytes):
    """The two texts of each run of a line that stands for many."""
    text = file if each.endswith("file") else log
    for at in range(len(text)):
        changed = text[:at] if each.startswith("fronts") else text[:at] + b"9" + text[at + 1:]
        yield (changed, log) if text is file else (file, changed)


def trials_of(case, most: int) -> Iterator[Trial]:
    """The runs of a line; those in which the output fails are none, as a Python program has one write alone."""
    file, log, each = bytes_of(case, "file"), bytes_of(case, "log"), case.keys.get("each", [""])[0]
    if each == "calls":
        for name in ("problem", "log"):
            for call in range(1, 21):
                yield Trial(case.words[0], file, log, most, {name: {call}})
    elif each:
        for texts in texts_of(each, file, log):
            yield Trial(case.words[0], *texts, most, fails_of(case))
    else:
        yield Trial(case.words[0], file, log, most, fails_of(case))


def fits(form: str, text: str) -> bool:
    return re.fullmatch(".*".join(map(re.escape, form.split("*"))), text, re.DOTALL) is not None


def main_of(words: List[str]):
    """The exit status of words, and what they print."""
    with tempfile.TemporaryFile("w+") as out:
        with contextlib.redirect_stdout(out), contextlib.redirect_stderr(io.StringIO()):
            status = checker.main(words)
        out.seek(0)
        return status, out.read()


def expect(holds: bool, what: object) -> None:
    if not holds:
        raise AssertionError(what)


def look_at_words(case) -> None:
    options = [] if case.words[0] == "check" else ["--" + case.words[0]]
    expect(case.keys["status"] == ["2"], "the words have a shape")
    expect(main_of(options + case.words[1:]) == (2, ""), "the status or the output")


def is_wanted(case, status: int, text: str) -> bool:
    statuses, forms = numbers_of(case, "status", "0"), [text_of(value) for value in case.keys.get("out", [])]
    return status in statuses and (status != statuses[0] or not forms or any(fits(form, text) for form in forms))


def look_at(case, trial: Trial) -> None:
    """That a run comes out as its case says, and the log that it writes says the same."""
    status, text = trial.run()
    expect(is_wanted(case, status, text), (status, text))
    if status in (6, 7):
        expect(text == "", text)
    elif status:
        expect(re.fullmatch(rf"fault {status} [^\n]+\n", text), text)
    elif trial.command == "relog":
        new, check = trial._replace(log=text.encode("ascii"), fails={}), trial._replace(command="check", fails={}).run()
        expect(new.run() == (0, text), "the log of the new log")
        expect(check[0] == 0 and new._replace(command="check").run() == check, "what the new log proves")


def look_at_file(case, trial: Trial) -> None:
    """That FILE has the fault that another command tells, and none where that tells none."""
    status, text = trial.run()
    is_other_kind = trial.command == "reconv" and case.keys.get("out") == ["fault 16 line 1 kind 1 BadLine"]
    if status in (3, 10, 16):
        expect(is_wanted(case, status, text), (status, text))
    else:
        expect((status, text) == (9, "fault 9 line 1 kind 5 NoEnd\n"), (status, text))
        expect(case.keys.get("status") not in (["3"], ["16"]) or is_other_kind, "no fault is found")


def look_at_written(case, trial: Trial) -> None:
    """That a log which another command writes gives what that prints, and is its own upgrade."""
    expect(trial.run() == (0, case.texts("out")[0]), "what the log gives")
    if trial.command == "check":
        expect(trial._replace(command="relog").run() == (0, case.texts("log_out")[0]), "its upgrade")


def looks_at(case) -> Iterator[tuple]:
    """What is looked at for a line of a list: what it counts as, the function and what it takes."""
    command = " ".join(case.words[:1])
    mosts, is_calls = numbers_of(case, "most", "4096"), case.keys.get("each") == ["calls"]
    if command in COMMANDS and (len(case.words) != 3 or case.words[1] == case.words[2]):
        yield command, look_at_words, case
    elif command in COMMANDS:
        for most in mosts:
            for trial in trials_of(case, most) if "out" not in fails_of(case) else ():
                yield command, look_at, case, trial
            for _ in range(20 if is_calls else 1 if "out" in fails_of(case) else 0):
                yield f"left out: {case.name}", lambda _: None, case
    elif command in READERS and not is_calls and not fails_of(case) and case.keys.get("status") != ["2"]:
        reader = READERS[command]
        for most in mosts:
            for trial in trials_of(case, most):
                yield f"files for {reader}", look_at_file, case, trial._replace(command=reader, log=b"")
        logs = case.texts("log_out")
        is_whole = case.keys.get("status") == ["0"] and len(logs) == len(case.texts("out")) == 1 and logs[0]
        if command in ("solve", "dual", "vertices", "facets") and len(case.words) == 3 and is_whole:
            written = Trial(reader, bytes_of(case, "file"), logs[0].encode("ascii"), 4_096, {})
            yield "written logs", look_at_written, case, written


def outcome_of(case):
    """How many runs of each kind a line stands for, and what comes out otherwise."""
    seen, wrong = collections.Counter(), []
    for number, (kind, look, *given) in enumerate(looks_at(case)):
        seen[kind] += 1
        try:
            look(*given)
        except AssertionError as error:
            wrong.append(f"{case.name}, {number}: {error}")
    return seen, wrong


class EachCase(unittest.TestCase):
    def test_cases_of_the_lists(self):
        """Each case comes out as its list says; they are looked at side by side."""
        seen, wrong = collections.Counter(), []
        with multiprocessing.Pool() as pool:
            for more, others in pool.imap(outcome_of, all_cases(), chunksize=32):
                seen.update(more)
                wrong += others
        print("\nruns of the second checker:", *(f"{count} {kind}" for kind, count in seen.items()), sep="\n  ",
              file=sys.stderr)
        self.assertEqual(wrong, [])
        for kind, count in AT_LEAST.items():
            self.assertGreaterEqual(seen[kind], count, kind)


class Words(unittest.TestCase):
    """Runs over files, as a user has them."""

    def setUp(self):
        self.file, self.log = str(EXAMPLES / "farm.vlp"), str(EXAMPLES / "farm.log")

    def test_files(self):
        report = (EXAMPLES / "farm.report").read_text()
        self.assertEqual(main_of([self.file, self.log]), (0, report))
        self.assertEqual(main_of(["--relog", self.file, self.log]), (0, Path(self.log).read_text()))
        self.assertEqual(main_of(["--reconv", str(EXAMPLES / "alloy.sides"), str(EXAMPLES / "alloy.log")]),
                         (0, (EXAMPLES / "alloy.gens").read_text()))

    def test_another_number_of_words(self):
        for words in ([], [self.file], ["--relog", self.file], ["--reconv"], [self.file, self.log, self.log],
                      ["--other", self.file, self.log], ["--relog", self.file, self.file]):
            self.assertEqual(main_of(words), (2, ""), words)

    def test_what_cannot_be_read(self):
        with tempfile.TemporaryDirectory() as folder:
            self.assertEqual(main_of([folder, self.log]), (7, ""))
            self.assertEqual(main_of([self.file, os.path.join(folder, "none")]), (7, ""))

    @unittest.skipUnless(os.path.exists("/dev/full"), "needs a file that is always full")
    def test_an_output_that_fails(self):
        words = [sys.executable, "-m", "bensolve", "check", self.file, self.log]
        with open("/dev/full", "wb") as full:
            ended = subprocess.run(words, cwd=TOP / "python", stdout=full, stderr=subprocess.PIPE)
        self.assertEqual((ended.returncode, ended.stderr), (8, b""))

    def test_the_command_of_the_package(self):
        words = [sys.executable, "-m", "bensolve", "check", "--relog", self.file, self.log]
        ended = subprocess.run(words, cwd=TOP / "python", stdout=subprocess.PIPE, stderr=subprocess.PIPE)
        self.assertEqual((ended.returncode, ended.stderr), (0, b""))
        self.assertEqual(ended.stdout, Path(self.log).read_bytes())

    def test_lengths_past_a_limit(self):
        file, log = Path(self.file).read_bytes(), Path(self.log).read_bytes()
        with mock.patch.object(checker, "MOST_LOG_BYTES", len(log) - 1):
            self.assertEqual(main_of([self.file, self.log]), (10, f"fault 10 log {len(log)}\n"))
            self.assertEqual(Trial("relog", file, log, 10, {}).run(), (10, f"fault 10 log {len(log)}\n"))
        with mock.patch.object(checker, "MOST_LOG_BYTES", len(log)):
            self.assertEqual(main_of([self.file, self.log])[0], 0)
        with mock.patch.object(checker, "MOST_FILE_BYTES", 99):
            self.assertEqual(Trial("check", file, log, 7, {}).run(), (10, "fault 10 problem 105\n"))

    def test_want_of_memory(self):
        with mock.patch.object(checker, "read_problem", side_effect=MemoryError):
            self.assertEqual(main_of([self.file, self.log]), (6, ""))

    def test_that_it_stands_alone(self):
        """It imports its own modules and the standard library, and no other reader of this package."""
        own, others = set(), set()
        for path in (TOP / "python" / "bensolve").glob("checker*.py"):
            for node in ast.walk(ast.parse(path.read_text())):
                if isinstance(node, ast.ImportFrom):
                    (own if node.level else others).add(node.module)
                elif isinstance(node, ast.Import):
                    others.update(alias.name for alias in node.names)
        self.assertEqual(own, {"checker_texts", "checker_generators", "checker_log", "checker_conversion"})
        self.assertEqual(others, {"collections", "fractions", "functools", "io", "itertools", "math", "operator", "re",
                                  "sys", "typing"})


if __name__ == "__main__":
    unittest.main()
