"""Files of other programs as texts of this one, and the other way: `python3 -m bensolve convert FROM-FILE [TO-KIND] [OUT]`.

Every number stays exactly what it was. What is not taken is refused by its name and line, and nothing is written then.
"""
from .command import main
from .kinds import KINDS, convert
from .reading import NotConverted, Source

__all__ = ["KINDS", "NotConverted", "Source", "convert", "main"]
