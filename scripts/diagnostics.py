"""Reads the lines in which the program says what it refuses, for the scripts beside it."""
import re
from typing import NamedTuple, Optional

PLACE = re.compile(r":(\d+)(?::(\d+))?: (\d+) (\w+)(?= |$)")
TAKEN = re.compile(r"(.+):\d+:\d+: ok")


class Refusal(NamedTuple):
    """A line `FILE:LINE:COLUMN: CODE NAME DETAIL`; of an event `events:LINE: CODE NAME DETAIL`."""

    file: str
    line: int
    column: Optional[int]
    code: int
    name: str
    detail: str


def refusal(text, codes):
    """What a line of standard error says, or None where it's none of a refusal. A file's name may
    have colons, so the place is where a code of the table stands with its own name."""
    for it in PLACE.finditer(text):
        file, code = text[: it.start()], codes.get(int(it[3]))
        if file and code and code.name == it[4] and (it[2] or file == "events"):
            column = int(it[2]) if it[2] else None
            detail = text[it.end() + 1 :]
            return Refusal(file, int(it[1]), column, code.number, code.name, detail)
    return None


def taken(text):
    """The file of a line `FILE:LINE:COLUMN: ok` of `check`, or None where it's no such line."""
    found = TAKEN.fullmatch(text)
    return found[1] if found else None
