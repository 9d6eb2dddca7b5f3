"""The commands of the package, by their words."""
import contextlib
import io
import json
import os
import subprocess
import sys
import tempfile
import unittest
from unittest import mock

from bensolve import __main__ as commands
from bensolve import statuses
from bensolve.problem import Problem
from tests.cases import DATA, EXAMPLES, TOP
from tests.stand_in import StandIn

ENERGY, REPORT = str(EXAMPLES / "energy.vlp"), str(EXAMPLES / "energy.report")


def called(*words, given=""):
    """The status of a command, and what it writes to both outputs."""
    out, err = io.StringIO(), io.StringIO()
    with contextlib.redirect_stdout(out), contextlib.redirect_stderr(err), mock.patch("sys.stdin", io.StringIO(given)):
        try:
            status = commands.main(list(words))
        except SystemExit as end:
            status = end.code
    return status, out.getvalue(), err.getvalue()


class Registry(unittest.TestCase):
    def test_usage(self):
        status, out, err = called("--help")
        self.assertEqual((status, err), (0, ""))
        for name in commands.COMMANDS:
            self.assertIn(f"\n  {name} ", out)
        self.assertEqual(called()[0], 2)
        status, out, err = called("plan")
        self.assertEqual((status, out), (2, ""))
        self.assertIn("`plan` is no command", err)

    def test_a_command_without_its_module(self):
        told = "bensolve: the command none is not there: this package has no module bensolve.none\n"
        with mock.patch.dict(commands.COMMANDS, {"none": ("bensolve.none", "main", "none: nothing")}):
            self.assertEqual(called("none"), (2, "", told))

    def test_the_module_is_called_with_the_words_behind(self):
        module = mock.Mock()
        module.main.return_value = 7
        some = {"some": ("bensolve.texts", "main", "some: words")}
        with mock.patch.dict(commands.COMMANDS, some), mock.patch("importlib.import_module", return_value=module):
            self.assertEqual(called("some", "a", "b")[0], 7)
        module.main.assert_called_once_with(["a", "b"])

    def test_as_a_program(self):
        with tempfile.TemporaryDirectory() as folder:
            bad = os.path.join(folder, "bad.report")
            with open(bad, "w") as file:
                file.write("report 1\nanswer maybe\n")
            environment = {**os.environ, "PYTHONPATH": str(TOP / "python")}
            done = subprocess.run([sys.executable, "-m", "bensolve", "json", bad], capture_output=True, text=True, env=environment)
            self.assertEqual((done.returncode, done.stdout), (1, ""))
            self.assertEqual(done.stderr, f"bensolve: {bad}:2: `maybe` stands where `infeasible` or `whole` or `solved` is wanted\n")


class Commands(unittest.TestCase):
    @classmethod
    def setUpClass(cls):
        cls.stand_in = StandIn()

    def setUp(self):
        patch = mock.patch("bensolve.run.run", self.stand_in.run)
        patch.start()
        self.addCleanup(patch.stop)

    def test_problem(self):
        status, out, _ = called("problem", str(EXAMPLES / "energy.csv"))
        self.assertEqual((status, Problem.read(out)), (0, Problem.load(ENERGY)))
        self.assertEqual(called("problem", ENERGY)[0], 1)
        status, _, err = called("problem", "none.csv")
        self.assertEqual(status, 1)
        self.assertIn("none.csv", err)

    def test_plans(self):
        solved = called("plans", ENERGY)
        self.assertEqual(solved[1].splitlines()[2], "2      28    26         coal=2 gas=8")
        self.assertEqual(called("plans", ENERGY, "--report", REPORT), solved)
        best = "value 66\npoint  cost  emissions  plan\n4      42    12         gas=6 wind=4\n"
        self.assertEqual(called("plans", ENERGY, "1,2")[1], best)
        unbounded = called("plans", str(DATA / "check" / "plane.vlp"), "-0.5,1.5", "--report", str(DATA / "check" / "plane.report"))
        self.assertEqual(unbounded[:2], (0, "unbounded: the weighed sum has no end along 1 0\n"))
        self.assertEqual(called("plans", ENERGY, "--csv")[1].splitlines()[1], "1,20,50,10,0,0")
        self.assertIn("demand >= 10: 12/5", called("plans", ENERGY, "--facets")[1])

    def test_plans_of_other_answers(self):
        self.assertIn("x1 <= 5      1\n", called("plans", str(EXAMPLES / "shortage.vlp"))[1])
        self.assertIn("without end along x1=1/10 x2=11/20", called("plans", str(EXAMPLES / "unlimited.vlp"))[1])
        transfer = called("plans", str(EXAMPLES / "transfer.vlp"))[1].splitlines()
        self.assertEqual(transfer[0], "line 1 -1: both ways, by x3=-1")
        self.assertEqual(transfer[2].split(), ["1", "0", "16", "x1=8", "x3=16"])

    def test_a_status_of_the_program_is_that_of_the_command(self):
        told = "fault 5 exchange 2 mul 1/2 7\n"
        with mock.patch("bensolve.run.run", side_effect=statuses.status_of(5, told, ["solve"])):
            status, out, err = called("plans", ENERGY)
        self.assertEqual((status, out), (5, ""))
        self.assertEqual(err, f"bensolve solve: status 5, a number of the calculation left the range: {told}")

    def test_json(self):
        self.assertEqual(json.loads(called("json", REPORT, "--problem", ENERGY)[1])["plans"][0], {"coal": "10"})
        self.assertEqual(json.loads(called("json", given=(EXAMPLES / "energy.map").read_text())[1])["columns"], 2)

    def test_adjacency(self):
        self.assertTrue(called("adjacency", REPORT)[1].startswith("points 4\nn 2 2 5\n"))
        pair = called("adjacency", str(EXAMPLES / "alloy2.sides"), str(EXAMPLES / "alloy.gens"))
        points = "points 4\nn 2 2 4\nn 2 1 3\nn 2 2 4\nn 2 1 3\n"
        self.assertEqual(pair[1], points + "directions 0\nfacets 4\nn 2 2 3\nn 2 1 4\nn 2 1 4\nn 2 2 3\n")
        for words in ([str(EXAMPLES / "shortage.report")], [str(EXAMPLES / "alloy2.sides")], [str(EXAMPLES / "alloy.gens")] * 2):
            with self.subTest(words=words):
                self.assertEqual(called("adjacency", *words)[0], 1)


if __name__ == "__main__":
    unittest.main()
