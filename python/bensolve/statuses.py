"""The statuses of the program but `Done`: each is an exception, by the names of docs/FORMATS.md.

`line` is the fault line that came with it, read as a `FaultLine`, and None where the program writes none; what it tells by names
is in `parts`. What they say stands in tools/statuses.tsv too, and docs/FORMATS.md says what to do at each.
"""
from typing import Dict, List, Optional, Type

from .texts import FaultLine


class Status(Exception):
    """An end of the program without an answer."""

    code = 1
    says = "the program gave no answer"

    def __init__(self, line: Optional[FaultLine] = None, command: str = "") -> None:
        super().__init__(line, command)
        self.line = line
        self.command = command

    @property
    def parts(self) -> Dict[str, object]:
        return self.line.parts if self.line else {}

    def __str__(self) -> str:
        told = f": {self.line.text().rstrip()}" if self.line else ""
        return f"{self.command}status {self.code}, {self.says}{told}"


class Words(Status):
    code = 2
    says = "the words are those of no command"


class FileFault(Status):
    code = 3
    says = "the problem has a fault at this line"


class ConeFault(Status):
    code = 4
    says = "the ordering cone or the duality vector does not serve"


class Left(Status):
    code = 5
    says = "a number of the calculation left the range"


class NoMemory(Status):
    code = 6
    says = "memory is wanting"


class ReadFault(Status):
    code = 7
    says = "a file could not be opened or read"


class WriteFault(Status):
    code = 8
    says = "the answer or the log could not be written to its end"


class Refused(Status):
    code = 9
    says = "the log is no proof for this file"


class TooLong(Status):
    code = 10
    says = "a file is longer than its limit"


class Columns(Status):
    code = 12
    says = "there are fewer columns than that"


class SecondFile(Status):
    code = 13
    says = "the second problem has a fault at this line"


class EmptyPart(Status):
    code = 14
    says = "a part of the join has no feasible vector"


class Sizes(Status):
    code = 15
    says = "the sets differ in their numbers of columns, or have too many"


class RepFault(Status):
    code = 16
    says = "the representation has a fault at this line"


class WeighLeft(Status):
    code = 17
    says = "a product of the weights left the range"


class Weights(Status):
    code = 18
    says = "there is another number of weights than of objectives"


BY_CODE: Dict[int, Type[Status]] = {status.code: status for status in Status.__subclasses__()}


class Ended(Status):
    """The program was ended, or its launcher could not run it: `status` is that of the process."""

    def __init__(self, status: int, command: str) -> None:
        super().__init__(None, command)
        self.status = status

    def __str__(self) -> str:
        return f"{self.command}{self.says}: it ended with {self.status}"


def status_of(code: int, output: str, words: List[str]) -> Status:
    """The exception for a run that ended with this code, not 0, after it wrote this."""
    command = f"bensolve {words[0]}: "
    if code not in BY_CODE:
        return Ended(code, command)
    is_told = output.startswith(f"fault {code} ")
    return BY_CODE[code](FaultLine.read(output) if is_told else None, command)
