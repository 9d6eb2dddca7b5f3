"""Runs the program, and gives its answers as texts that are read.

A problem is a `Problem` or the path of a vlp file. What ends with another status than 0 raises the exception of `statuses` with
its name. The program is sought in this order: what the variable BENSOLVE names, a path or a path with words as
"./bensolve --unproved"; the program that is built in the clone that this package stands in; `bensolve` on the path; the launcher
of the clone, which proves and builds the program first.
"""
import os
import shlex
import shutil
import subprocess
import tempfile
from contextlib import contextmanager
from typing import Any, Iterator, List, Optional, Sequence, Union

from . import statuses
from .problem import Problem, exact
from .texts import Log, Path, Projection, Report, Representation, Text, Weighed, Weights, whole_file, write_text

CLONE = os.path.dirname(os.path.dirname(os.path.dirname(os.path.abspath(__file__))))

Given = Union[Text, Path]


class NoProgram(Exception):
    """There is no program to run."""


def find_program() -> List[str]:
    """The words that run the program, before those of a command."""
    named = os.environ.get("BENSOLVE")
    if named:
        words = [named] if os.path.exists(named) else shlex.split(named)
        if not shutil.which(words[0]):
            raise NoProgram(f"BENSOLVE names {named}, which is no program")
        return words
    built = os.path.join(CLONE, "crates", "bensolve", "out", "bensolve")
    launcher = os.path.join(CLONE, "bensolve")
    for program in (built, shutil.which("bensolve"), launcher):
        if program and os.path.isfile(program) and os.access(program, os.X_OK):
            return [program]
    raise NoProgram("the program bensolve is not found: set BENSOLVE to its path")


def run(words: Sequence[str]) -> str:
    """What a command writes to standard output; its sentences on standard error are passed on."""
    words = [os.fspath(word) for word in words]
    done = subprocess.run([*find_program(), *words], stdin=subprocess.DEVNULL, stdout=subprocess.PIPE)
    output = done.stdout.decode("ascii", "replace")
    if done.returncode != 0:
        raise statuses.status_of(done.returncode, output, words)
    return output


@contextmanager
def _files(*given: Given) -> Iterator[List[str]]:
    """The paths of what is given: of a text that of a file with it, for as long as the block runs."""
    with tempfile.TemporaryDirectory(prefix="bensolve.") as folder:
        paths = []
        for number, one in enumerate(given, 1):
            if isinstance(one, Text):
                path = os.path.join(folder, f"{type(one).__name__.lower()}{number}")
                write_text(path, one.text())
            else:
                path = os.path.abspath(one)
            paths.append(path)
        yield paths


def _run_with_log(command: str, given: Given, more: Sequence[str], log: Optional[Path]) -> str:
    """Runs a command that may write a log: the file is there with an answer alone, and kept as it was without one."""
    with _files(given) as (path,):
        if log is None:
            return run([command, path, *more])
        if os.path.exists(log) and os.path.exists(path) and os.path.samefile(log, path):
            raise ValueError(f"{log} is what is read, and the log would take its place")
        with whole_file(log) as part:
            return run([command, path, *more, part])


def solve(problem: Given, log: Optional[Path] = None) -> Report:
    """The answer of a problem; the log that proves it goes to the file `log`."""
    return Report.read(_run_with_log("solve", problem, (), log))


def dual(problem: Given, log: Optional[Path] = None) -> Report:
    """The same, by a search for the facets."""
    return Report.read(_run_with_log("dual", problem, (), log))


def check(problem: Given, log: Given) -> Report:
    """The answer that a log, as a text or the path of a file, proves of a problem."""
    with _files(problem, log) as paths:
        return Report.read(run(["check", *paths]))


def relog(problem: Given, log: Given) -> Log:
    """The log of version 2 that says what a log says."""
    with _files(problem, log) as paths:
        return Log.read(run(["relog", *paths]))


def weights(problem: Given) -> Weights:
    """For each point the facets whose weights make it the best."""
    with _files(problem) as paths:
        return Weights.read(run(["weights", *paths]))


def weigh(problem: Given, by: Sequence[Any]) -> Weighed:
    """The points that are best for these weights, one for each objective."""
    with _files(problem) as paths:
        return Weighed.read(run(["weigh", *paths, ",".join(str(exact(weight)) for weight in by)]))


def as_problem(given: Given) -> Problem:
    """A problem that is given as one or by its path."""
    return given if isinstance(given, Problem) else Problem.load(given)


def project(problem: Given, columns: Union[int, Sequence[Union[int, str]]], log: Optional[Path] = None) -> Projection:
    """What some columns can be: the first so many, or those of a list, by number or name, in its order.

    The choices name the columns of the problem, whatever their order. The log is one of the associated problem (`associate`).
    """
    if isinstance(columns, int):
        return Projection.read(_run_with_log("project", problem, [str(columns)], log))
    problem = as_problem(problem)
    moved, order = problem.with_columns_first(columns)
    numbers = {side: number for number, side in enumerate(problem.sides(), 1)}
    sides = moved.sides()

    def of_side(number: int) -> int:
        side = sides[number - 1]
        return numbers[side if side.of == "row" else side._replace(number=order[side.number - 1])]

    found = Projection.read(_run_with_log("project", moved, [str(len(columns))], log))
    return found.renumbered(lambda place: order[place - 1], of_side)


def associate(problem: Given, columns: Union[int, Sequence[Union[int, str]]]) -> Problem:
    """The problem whose image tells a projection."""
    if not isinstance(columns, int):
        problem, columns = as_problem(problem).with_columns_first(columns)[0], len(columns)
    with _files(problem) as paths:
        return Problem.read(run(["associate", *paths, str(columns)]))


def pair(command: str, first: Given, second: Given) -> Projection:
    """What `meet`, `sum` or `join` tells of two problems."""
    with _files(first, second) as paths:
        return Projection.read(run([command, *paths]))


def map(problem: Given) -> Projection:
    """What the objectives can be, as the problem gives them."""
    with _files(problem) as paths:
        return Projection.read(run(["map", *paths]))


def vertices(sides: Given, log: Optional[Path] = None) -> Representation:
    """The points, directions and lines of what inequalities and equations say."""
    return Representation.read(_run_with_log("vertices", sides, (), log))


def facets(gens: Given, log: Optional[Path] = None) -> Representation:
    """The inequalities and equations of a set of points, directions and lines."""
    return Representation.read(_run_with_log("facets", gens, (), log))


def reconv(representation: Given, log: Given) -> Representation:
    """What the log of a conversion gives."""
    with _files(representation, log) as paths:
        return Representation.read(run(["reconv", *paths]))
