#!/usr/bin/env python3
"""The table of codes, which stands in docs/FORMATS.md and nowhere else.

    scripts/codes.py

prints it, as `./albert --codes` does: for each code what it says, lines of which the last one is answered by it, and the answer.
"""

import collections
import itertools
import os
import signal

FORMATS = os.path.join(os.path.dirname(os.path.dirname(os.path.realpath(__file__))), "docs", "FORMATS.md")
HEADING = "| Code | Says | Example | Answer |"


class Code(collections.namedtuple("Code", "number says example answer")):
    """A row of the table."""

    def short(self):
        """Returns what the code says, up to the colon."""
        return plain(self.says).partition(": ")[0]


def table():
    """Returns the rows of the table by their codes, in its order."""
    with open(FORMATS, encoding="utf-8") as file:
        lines = [line.strip() for line in file]
    below = lines[lines.index(HEADING) + 2 :]
    rows = ([cell.strip() for cell in line.strip("|").split("|")] for line in itertools.takewhile(lambda it: it.startswith("|"), below))
    return {int(number): Code(int(number), *cells) for number, *cells in rows}


def plain(cell):
    """Returns a cell without the marks that set code apart."""
    return cell.replace("`", "")


def main():
    signal.signal(signal.SIGPIPE, signal.SIG_DFL)
    for code in table().values():
        print(f"{code.number:>2}  {plain(code.says)}")
        print(f"    {plain(code.example)}  ->  {plain(code.answer)}")


if __name__ == "__main__":
    main()
