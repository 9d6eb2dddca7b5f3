"""Running the program: which one, on which files, and how it ends."""
import collections
import os
import sys
import tempfile
import unittest
from fractions import Fraction
from unittest import mock

from bensolve import run, statuses
from bensolve.problem import Problem
from bensolve.texts import FaultLine, Log, Projection, Report, Representation, Weighed, Weights, read_text
from tests.cases import DATA, EXAMPLES, NO_PROGRAM, TOP, all_cases, built_program
from tests.stand_in import StandIn

ENERGY = EXAMPLES / "energy.vlp"
SCRIPT = """import os, sys
words = sys.argv[1:]
if words[0] == "solve":
    sys.stdout.write(open({report!r}).read())
    if len(words) > 2:
        open(words[2], "w").write("log of " + open(words[1]).readline())
elif words[0] == "weigh":
    print("fault 18 1 2")
    sys.exit(18)
elif words[0] == "check":
    sys.exit(6)
elif words[0] == "map":
    os.kill(os.getpid(), 9)
else:
    sys.exit(99)
"""


class Answers(unittest.TestCase):
    """Each command reads and gives what the cases have."""

    @classmethod
    def setUpClass(cls):
        cls.stand_in = StandIn()

    def setUp(self):
        patch = mock.patch("bensolve.run.run", self.stand_in.run)
        patch.start()
        self.addCleanup(patch.stop)

    def example(self, name, kind):
        return kind.load(EXAMPLES / name)

    def test_commands(self):
        energy = Problem.load(ENERGY)
        log = self.example("energy.log", Log)
        for given in (energy, ENERGY, str(ENERGY)):
            self.assertEqual(run.solve(given), self.example("energy.report", Report))
            self.assertEqual(run.weights(given), self.example("energy.weights", Weights))
            self.assertEqual(run.weigh(given, [1, "2"]), self.example("energy.weighed", Weighed))
            self.assertEqual(run.project(given, 2), self.example("energy.projection", Projection))
            self.assertEqual(run.associate(given, 2), self.example("energy2.vlp", Problem))
            self.assertEqual(run.map(given), self.example("energy.map", Projection))
            self.assertEqual(run.check(given, log), self.example("energy.report", Report))
            self.assertEqual(run.check(given, EXAMPLES / "energy.log"), self.example("energy.report", Report))
        self.assertEqual(run.relog(energy, DATA / "versions" / "energy.log"), log)

    def test_conversions(self):
        sides, gens = self.example("alloy.sides", Representation), self.example("alloy.gens", Representation)
        self.assertEqual(run.vertices(sides), gens)
        self.assertEqual(run.facets(gens), self.example("alloy2.sides", Representation))
        self.assertEqual(run.reconv(sides, EXAMPLES / "alloy.log"), gens)

    def test_weights_are_told_as_fractions(self):
        run.weigh(DATA / "check" / "plane.vlp", ["0.25", Fraction(3, 4)])
        self.assertEqual(self.stand_in.asked[-1][2], "1/4,3/4")

    def test_projection_on_columns_in_front(self):
        energy = Problem.load(ENERGY)
        self.assertEqual(run.project(energy, [1, 2]), run.project(energy, 2))

    def test_a_projection_on_other_columns_names_those_of_the_problem(self):
        energy = Problem.load(ENERGY)
        moved, _ = energy.with_columns_first([3, 1])
        told = self.example("energy.projection", Projection)
        with mock.patch("bensolve.run._run_with_log", return_value=told.text()) as asked:
            found = run.project(energy, [3, 1])
        self.assertEqual(asked.call_args[0][1:], (moved, ["2"], None))
        self.assertEqual(found.points, told.points)
        self.assertEqual(found.choices, ({1: 6, 2: 4}, {1: 8, 2: 2}, {2: 4, 3: 6}))
        self.assertEqual([list(choice) for choice in found.choices], [[1, 2], [1, 2], [2, 3]])
        self.assertEqual(found.rays, ({3: 1},))

    def test_multipliers_of_a_projection_name_the_sides_of_the_problem(self):
        problem = Problem("min", [[0, 0]], column_bounds=[(0, 1), (3, 2)])
        told = "projection 1\nanswer infeasible\ncolumns 1\nwitnesses\nu 2 1 1 2 1\n"
        with mock.patch("bensolve.run._run_with_log", return_value=told):
            self.assertEqual(run.project(problem, [2]).multipliers, {3: 1, 4: 1})

    def test_the_log_is_written_and_nothing_beside_it(self):
        with tempfile.TemporaryDirectory() as folder:
            log = os.path.join(folder, "energy.log")
            run.solve(ENERGY, log)
            self.assertEqual(read_text(log), (EXAMPLES / "energy.log").read_text())
            self.assertEqual(os.listdir(folder), ["energy.log"])

    def test_a_log_is_kept_where_there_is_no_answer(self):
        with tempfile.TemporaryDirectory() as folder:
            log = os.path.join(folder, "old.log")
            with open(log, "w") as file:
                file.write("version 1\n")
            bad = os.path.join(folder, "bad.vlp")
            with open(bad, "w") as file:
                file.write("c \n")
            with mock.patch("bensolve.run.run", side_effect=statuses.NoMemory()), self.assertRaises(statuses.NoMemory):
                run.solve(bad, log)
            self.assertEqual(read_text(log), "version 1\n")
            self.assertEqual(sorted(os.listdir(folder)), ["bad.vlp", "old.log"])

    def test_the_log_does_not_take_the_place_of_the_problem(self):
        with tempfile.TemporaryDirectory() as folder:
            path, link = os.path.join(folder, "x.vlp"), os.path.join(folder, "y.log")
            Problem.load(ENERGY).write(path)
            os.link(path, link)
            before = read_text(path)
            for log in (path, link):
                with self.assertRaises(ValueError):
                    run.solve(path, log)
            self.assertEqual(read_text(path), before)


class Statuses(unittest.TestCase):
    def test_names_and_words_are_those_of_the_table(self):
        told = {}
        for line in (TOP / "tools" / "statuses.tsv").read_text().splitlines():
            if not line.startswith("#"):
                code, name, says, *_ = line.split("\t")
                told[int(code)] = name, says
        self.assertGreaterEqual(len(told), 17)
        del told[0]
        self.assertEqual(told, {code: (status.__name__, status.says) for code, status in statuses.BY_CODE.items()})

    def test_each_fault_line_of_the_cases(self):
        seen = collections.Counter()
        for case in all_cases():
            outs = case.texts("out")
            codes = case.keys.get("status", ["0"])[0].split(",")
            if "fails" not in case.keys and len(codes) == 1 and codes != ["0"] and len(outs) <= 1:
                code, output = int(codes[0]), outs[0] if outs else ""
                if output and not output.startswith("fault"):
                    continue
                ended = statuses.status_of(code, output, ["solve", "x"])
                self.assertIs(type(ended), statuses.BY_CODE[code])
                self.assertEqual(ended.line, FaultLine.read(output) if output else None)
                self.assertIn(output.rstrip(), str(ended))
                seen[code] += 1
        self.assertLessEqual({3, 4, 5, 9, 10, 12, 13, 14, 15, 16, 17, 18}, set(seen))

    def test_a_status_that_is_none(self):
        for code in (1, -9, 99):
            ended = statuses.status_of(code, "", ["solve"])
            self.assertIsInstance(ended, statuses.Ended)
            self.assertEqual(str(ended), f"bensolve solve: the program gave no answer: it ended with {code}")


class Processes(unittest.TestCase):
    """A script in the place of the program."""

    def setUp(self):
        folder = tempfile.TemporaryDirectory()
        self.addCleanup(folder.cleanup)
        self.folder = folder.name
        script = os.path.join(folder.name, "a script.py")
        with open(script, "w") as file:
            file.write(SCRIPT.format(report=str(EXAMPLES / "energy.report")))
        patch = mock.patch.dict(os.environ, {"BENSOLVE": f'"{sys.executable}" "{script}"'})
        patch.start()
        self.addCleanup(patch.stop)

    def test_its_words_and_its_ends(self):
        log = os.path.join(self.folder, "x.log")
        self.assertEqual(run.solve(ENERGY, log), Report.load(EXAMPLES / "energy.report"))
        self.assertEqual(read_text(log), "log of " + ENERGY.read_text().splitlines(keepends=True)[0])
        with self.assertRaises(statuses.Weights) as ended:
            run.weigh(ENERGY, [1])
        self.assertEqual(ended.exception.parts, {"given": 1, "objectives": 2})
        with self.assertRaises(statuses.NoMemory) as ended:
            run.check(ENERGY, log)
        self.assertIsNone(ended.exception.line)
        for call, status in ((run.dual, 99), (run.map, -9)):
            with self.assertRaises(statuses.Ended) as ended:
                call(ENERGY)
            self.assertEqual(ended.exception.status, status)

    def test_a_program_that_is_not_there(self):
        with mock.patch.dict(os.environ, {"BENSOLVE": os.path.join(self.folder, "none")}), self.assertRaises(run.NoProgram):
            run.find_program()

    def test_where_it_is_sought(self):
        clone, path = os.path.join(self.folder, "clone"), os.path.join(self.folder, "path")
        built = os.path.join(clone, "crates", "bensolve", "out", "bensolve")
        places = [os.path.join(clone, "bensolve"), os.path.join(path, "bensolve"), built]
        with mock.patch.dict(os.environ, {"BENSOLVE": "", "PATH": path}), mock.patch("bensolve.run.CLONE", clone):
            with self.assertRaises(run.NoProgram):
                run.find_program()
            for place in places:
                os.makedirs(os.path.dirname(place), exist_ok=True)
                with open(place, "w"):
                    pass
                os.chmod(place, 0o755)
                self.assertEqual(run.find_program(), [place])


@unittest.skipUnless(built_program(), NO_PROGRAM)
class ByTheProgram(unittest.TestCase):
    def test_examples(self):
        for name in ("energy", "farm", "prices", "shortage", "tradeoff", "transfer", "transport", "unlimited"):
            with self.subTest(name=name), tempfile.TemporaryDirectory() as folder:
                log = os.path.join(folder, "log")
                report = run.solve(Problem.load(EXAMPLES / f"{name}.vlp"), log)
                self.assertEqual(report.text(), (EXAMPLES / f"{name}.report").read_text())
                self.assertEqual(read_text(log), (EXAMPLES / f"{name}.log").read_text())
                self.assertEqual(run.check(EXAMPLES / f"{name}.vlp", log), report)

    def test_a_projection_on_wind_and_gas(self):
        energy = Problem.load(ENERGY)
        found = run.project(energy, [3, "gas"])
        self.assertEqual(found.points, ((0, 0), (0, 8), (4, 0), (4, 8)))
        for point, choice in zip(found.points, found.choices):
            self.assertEqual((choice.get(3, 0), choice.get(2, 0)), point)
            self.assertGreaterEqual(energy.value(energy.rows[0], choice), 10)

    def test_statuses(self):
        with self.assertRaises(statuses.ConeFault) as ended:
            run.solve(Problem("min", [[1, 0], [0, 1]], cone=[[1, 1]]))
        self.assertEqual(ended.exception.parts["name"], "NotSolid")
        with self.assertRaises(statuses.Columns) as ended:
            run.project(ENERGY, 4)
        self.assertEqual(ended.exception.parts, {"wanted": 4, "columns": 3})
        with self.assertRaises(statuses.ReadFault):
            run.solve(EXAMPLES / "none.vlp")
        with self.assertRaises(statuses.Refused):
            run.check(ENERGY, EXAMPLES / "farm.log")


if __name__ == "__main__":
    unittest.main()
