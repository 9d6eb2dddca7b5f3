"""bensolve in Python: problems made, read and written, the program run, its texts as exact numbers.

    from bensolve import Problem, solve
    from bensolve.tables import plan_table, plans

    town = Problem.load("examples/energy.vlp")
    print(plan_table(town, plans(town, solve(town))).text())
"""
from .polyhedron import Polyhedron
from .problem import Problem
from .run import associate, check, dual, facets, map, project, reconv, relog, solve, vertices, weigh, weights
from .sets import join, meet, sum
from .texts import FaultLine, Log, Projection, Report, Representation, TextFault, Weighed, Weights, load_any, read_any

# Without `map` and `sum`, so that `from bensolve import *` leaves those of Python as they are.
__all__ = [
    "FaultLine",
    "Log",
    "Polyhedron",
    "Problem",
    "Projection",
    "Report",
    "Representation",
    "TextFault",
    "Weighed",
    "Weights",
    "associate",
    "check",
    "dual",
    "facets",
    "join",
    "load_any",
    "meet",
    "project",
    "read_any",
    "reconv",
    "relog",
    "solve",
    "vertices",
    "weigh",
    "weights",
]
