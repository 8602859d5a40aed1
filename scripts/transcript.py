"""What the scripts share that read what the program wrote: which line of its input each answer is for.

Scripts and answers are bytes here, as the program reads and writes them.
"""

import collections
import re

# The forms that read a script.
FORMS = ("batch", "check")
LONGEST = 65536
WORD = re.compile(rb"[^ \t\r]+")
# No other line that the program writes begins so: not the lines of dimensions, tables and evidence.
ANSWER = re.compile(rb"ok$|identity \d|built \d|ready$|refused \d|rejected \d|accepted |\[\d")

# A line of a script, with its number from 1, and without its line feed.
Line = collections.namedtuple("Line", "number text")
# A line that is answered, the lines of the block behind it, its answer, and the lines that belong to the answer.
Turn = collections.namedtuple("Turn", "line block answer more")


def numbered(file):
    """Yields the lines of a script."""
    for number, text in enumerate(file, 1):
        yield Line(number, text.removesuffix(b"\n"))


def is_skipped(text):
    """Says whether a line gets no answer and no number in a block."""
    words = WORD.findall(text) if len(text) <= LONGEST else [b"long"]
    return not words or words[0].startswith(b"#")


def is_end(text):
    return len(text) <= LONGEST and WORD.findall(text) == [b"end"]


def block_in(lines):
    """Takes the block of a claim from the lines, up to its `end`, and returns those of it that have a number."""
    block = []
    for line in lines:
        if not is_skipped(line.text):
            block.append(line)
        if is_end(line.text):
            break
    return block


def asked(form, lines):
    """Yields each line that is answered, with its block, up to the line that quits. A line that is too long has no word."""
    lines = iter(lines)
    for line in lines:
        if is_skipped(line.text):
            continue
        words = WORD.findall(line.text) if len(line.text) <= LONGEST else []
        if words == [b"quit"]:
            return
        yield line, block_in(lines) if form == "check" and words[:1] == [b"claim"] else []


def answered(file):
    """Yields each answer, with the lines that belong to it: those that it announces, or evidence."""
    answer, more = None, []
    for text in file:
        text = text.removesuffix(b"\n")
        if not ANSWER.match(text):
            more.append(text)
            continue
        if answer is not None:
            yield answer, more
        answer, more = text, []
    if answer is not None:
        yield answer, more


def turns(form, script, answers):
    """Yields the lines of a script with their answers, as far as there are answers. Both are files or lists of lines."""
    for (line, block), (answer, more) in zip(asked(form, numbered(script)), answered(answers)):
        yield Turn(line, block, answer, more)
