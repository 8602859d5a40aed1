#!/usr/bin/env python3
"""Answers a script of `albert batch`, and has `albert check` judge the evidence for every answer.

    tools/prove.py FILE [CHECK]

Each question `polynomial` of FILE is asked with `prove`. What the program answers is printed without the evidence, then a line
such as `12 pieces of evidence, 12 accepted`, and how many lines were refused, if any. Where CHECK is named, the problem and the
claims with their evidence are written there, as a script of `albert check` that anybody can judge (`tools/evidence.py < CHECK`).
The status is 0 only if no line was refused and all evidence was accepted.
"""

import os
import re
import subprocess
import sys

sys.dont_write_bytecode = True
TOP = os.path.dirname(os.path.dirname(os.path.realpath(__file__)))
sys.path.insert(0, os.path.join(TOP, "scripts"))
from explain import counted
from transcript import numbered, turns

ALBERT = os.path.join(TOP, "albert")
QUESTION = re.compile(rb"^([ \t\r]*)polynomial(?![^ \t\r])")
STATED = re.compile(rb"ok$|identity |built ")
DECIDED = re.compile(rb"\[\d+\] (zero$|not zero: )")


def lines_of(path):
    """Returns the lines of a script."""
    with open(path, "rb") as file:
        return [line.text for line in numbered(file)]


def run(form, script):
    """Returns the lines that the program writes, and its status."""
    given = b"".join(line + b"\n" for line in script)
    ran = subprocess.run([ALBERT, form], input=given, stdout=subprocess.PIPE, check=False)
    return ran.stdout.splitlines(), ran.returncode


def proved(script):
    """Asks each question of a script with `prove`, in as many bytes, so that places stay. Returns its turns and the status."""
    script = [QUESTION.sub(rb"\1prove     ", line) for line in script]
    told, status = run("batch", script)
    return list(turns("batch", script, told)), status


def claim_of(turn):
    """Returns the line that claims what a question asks."""
    return re.sub(rb"^[ \t\r]*[^ \t\r]+", b"claim", turn.line.text)


def with_evidence(answers):
    """Returns the script for a check: the problem as it was accepted, and a claim with its evidence for each decided question."""
    problem = [turn.line.text for turn in answers if STATED.match(turn.answer)]
    return problem + [line for turn in answers if DECIDED.match(turn.answer) for line in (claim_of(turn), *turn.more)]


def accepted(answers):
    """Returns how many questions were decided, and of how many the check accepts the evidence for the very answer."""
    script = with_evidence(answers)
    wanted = [b"accepted zero" if turn.answer.endswith(b"] zero") else b"accepted not zero" for turn in answers if DECIDED.match(turn.answer)]
    told, _ = run("check", script) if wanted else ([], 0)
    verdicts = [turn.answer for turn in turns("check", script, told) if turn.line.text.startswith(b"claim")]
    return len(wanted), sum(one == other for one, other in zip(verdicts, wanted))


def main():
    if len(sys.argv) not in (2, 3):
        sys.exit("usage: tools/prove.py FILE [CHECK]")
    answers, status = proved(lines_of(sys.argv[1]))
    for turn in answers:
        shown = [turn.answer] if DECIDED.match(turn.answer) else [turn.answer, *turn.more]
        print(*(line.decode("ascii") for line in shown), sep="\n")
    if len(sys.argv) == 3:
        with open(sys.argv[2], "wb") as file:
            file.writelines(line + b"\n" for line in with_evidence(answers))
    number, right = accepted(answers)
    print(f"{counted(number, 'piece', 'pieces')} of evidence, {right} accepted")
    refused = sum(turn.answer.startswith(b"refused") for turn in answers)
    if refused:
        print(f"{counted(refused, 'line', 'lines')} refused: the answers are about what was accepted")
    return status or (1 if right < number else 0)


if __name__ == "__main__":
    sys.exit(main())
