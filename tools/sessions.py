#!/usr/bin/env python3
"""Judges what `albert_host` wrote in its sessions, by what `albert batch` answers about the same problem.

    tools/sessions.py PROBLEM IN OUT [IN OUT ..]

The words are those of albert_host without an option, after a run that built the whole table or stopped at a limit. Each OUT has to
hold the answers to the lines of its IN, in their order, up to `quit`. A batch answers by the table of the last degree, and what it
answers says what every table of fewer degrees does: the same about a polynomial whose degree is there, `not built` about any other,
and the first lines of `dimensions` and `table`. So an answer that shows the degree d has to be the one of the table of degree d.
`ready` and `stopped` have to be true of the degree that was awaited, no answer may show a lower degree than one before it or more
than the last one, and evidence is judged by evidence.py. Prints a line for each session, and what is wrong in it; the status is 0
only if nothing is.
"""

import os
import re
import sys

sys.dont_write_bytecode = True
sys.path.insert(0, os.path.dirname(os.path.realpath(__file__)))
import evidence
import prove
from explain import counted
from polynomials import Fault, Problem, demand, leaves, read
from transcript import LONGEST, WORD, answered, asked, is_skipped, numbered, turns

SHOWN = re.compile(rb"\[(\d+)\] (.*)", re.DOTALL)
DECIDED = (b"zero", b"not zero: ")
# Words of a batch that a session does not know.
STATEMENTS = (b"field", b"generators", b"identity", b"build")
QUESTIONS = (b"polynomial", b"prove")
MOST_SHOWN = 10


def lines_of(path):
    """Returns the lines of a file with their ends."""
    with open(path, "rb") as file:
        return list(file)


def word_of(text):
    """Returns the command of a line, none where the line is too long."""
    found = WORD.search(text) if len(text) <= LONGEST else None
    return found[0] if found else b""


def argument_of(text):
    """Returns what stands behind the command of a line."""
    return text[WORD.search(text).end() :]


def shown_in(answer):
    """Returns the degree that an answer shows and what it says, or None and the answer where it shows no degree."""
    found = SHOWN.fullmatch(answer)
    return (int(found[1]), found[2]) if found else (None, answer)


def degrees(written):
    """Returns the degrees that the answers of a session show, in their order."""
    shown = (shown_in(answer)[0] for answer, _ in answered(written))
    return [degree for degree in shown if degree is not None]


def degree_of_type(line):
    """Returns the degree of the type that a line of `dimensions` begins with."""
    return sum(map(int, re.findall(rb"\d+", line.partition(b")")[0])))


def degree_of_product(line):
    """Returns the degree of the product that a line of `table` begins with."""
    return len(re.findall(rb"[a-z]", line.partition(b" = ")[0]))


# How the lines after an answer tell the degree that they belong to.
LISTS = {b"dimensions": degree_of_type, b"table": degree_of_product}


class Judge:
    """What the sessions of a problem are to be answered."""

    def __init__(self, lines):
        """Takes the lines of a problem file, all of which are accepted."""
        self.problem, self.statements = Problem(), []
        for _, text in numbered(lines):
            if is_skipped(text):
                continue
            word, *words = (it.decode("latin-1") for it in WORD.findall(text))
            if word in ("build", "quit"):
                break
            self.problem.state(word, " ".join(words))
            self.statements.append(text)
        self.problem.state("build", "")
        self.total = sum(self.problem.target.values())
        self.last, self.answers, self.own, self.verdicts = None, {}, {}, {}

    def learn(self, scripts):
        """Has a batch answer those lines of the sessions' scripts that it was not asked before."""
        texts = dict.fromkeys(line.text for script in scripts for line, _ in asked("session", numbered(script)))
        new = [text for text in texts if text not in self.answers and word_of(text) not in (b"await", *STATEMENTS)]
        script = [*self.statements, b"build", *new]
        told, _ = prove.run("batch", script)
        found = list(turns("batch", script, told))
        demand(len(found) == len(script), f"a batch answers {len(found)} of {len(script)} lines")
        built = re.match(rb"built (\d+)", found[len(self.statements)].answer)
        demand(built, "a batch refuses the problem")
        self.last = int(built[1])
        self.answers.update((turn.line.text, turn) for turn in found[len(script) - len(new) :])

    def degree_of(self, text):
        """Returns the degree of the polynomial that a line asks about, 0 where it is zero."""
        if text not in self.own:
            polynomial = self.polynomial_of(text)
            self.own[text] = max((len(leaves(mono)) for mono in polynomial), default=0)
        return self.own[text]

    def polynomial_of(self, text):
        return read(argument_of(text).decode("latin-1"), self.problem.target, self.problem.p)

    def wanted(self, text, degree):
        """Returns the lines that answer a line where this degree is shown. Evidence is left out."""
        if word_of(text) in STATEMENTS:
            return [b"refused 80"]
        turn = self.answers[text]
        shown, says = shown_in(turn.answer)
        if shown is None:
            return [says]
        word, more = word_of(text), []
        if word in QUESTIONS and says.startswith(DECIDED) and self.degree_of(text) > degree:
            says = b"not built: degree %d" % self.degree_of(text)
        elif word in LISTS:
            more = [line for line in turn.more if LISTS[word](line) <= degree]
            says = b"%s %d" % (word, len(more))
        return [b"[%d] %s" % (degree, says), *more]

    def fault_of_await(self, turn):
        """Returns what is wrong with the answer to a line `await`, or None."""
        words, text = list(WORD.finditer(turn.line.text)), turn.line.text
        awaited = int(words[1][0]) if len(words) == 2 and re.fullmatch(rb"\d{1,18}", words[1][0]) else 0
        degree, says = shown_in(turn.answer)
        if not 0 < awaited <= self.total:
            place = words[1].start() + 1 if len(words) > 1 else len(text) + 1
            right = [turn.answer, *turn.more] == [b"refused 83 at %d" % place]
        elif says == b"ready":
            right = not turn.more and degree is not None and degree >= awaited
        else:
            right = not turn.more and says == b"stopped" and degree == self.last < awaited
        return None if right else "not what is awaited"

    def fault_of_evidence(self, turn):
        """Returns what is wrong with the evidence after an answer to `prove`, or None."""
        says = shown_in(turn.answer)[1]
        if not says.startswith(DECIDED):
            return "lines without an answer" if turn.more else None
        key = (turn.line.text, *turn.more)
        if key not in self.verdicts:
            *block, end = [" ".join(line.decode("latin-1").split()) for line in turn.more] or [""]
            self.verdicts[key] = evidence.verdict(self.problem, self.polynomial_of(turn.line.text), block) if end == "end" else "no `end`"
        wanted = "accepted zero" if says == b"zero" else "accepted not zero"
        return None if self.verdicts[key] == wanted else f"its evidence is {self.verdicts[key]}"

    def fault(self, turn, before):
        """Returns what is wrong with an answer, or None. The one before it showed this degree."""
        text, degree = turn.line.text, shown_in(turn.answer)[0]
        if degree is not None and not before <= degree <= self.last:
            return f"the degree {degree} after {before}, and {self.last} is the last one"
        word = word_of(text)
        if word == b"await":
            return self.fault_of_await(turn)
        told, wanted = [turn.answer, *turn.more], self.wanted(text, degree or 0)
        is_proof = word == b"prove" and degree is not None
        if (told[:1] if is_proof else told) != wanted:
            return f"in place of {wanted[0].decode('latin-1')}"
        return self.fault_of_evidence(turn) if is_proof else None

    def faults(self, script, written):
        """Yields what is wrong with what a session wrote. Its script and the output are lines with their ends."""
        count = sum(1 for _ in asked("session", numbered(script)))
        found = sum(1 for _ in answered(written))
        if count != found:
            yield f"{counted(count, 'line is', 'lines are')} to be answered, and {counted(found, 'answer stands', 'answers stand')} there"
        if written and not (written[-1].endswith(b"\n") and found):
            yield "the output does not end with an answer and a line end"
        before = 1
        for turn in turns("session", script, written):
            wrong = self.fault(turn, before)
            before = max(before, shown_in(turn.answer)[0] or 0)
            if wrong:
                yield f"line {turn.line.number}, {turn.answer.decode('latin-1')!r}: {wrong}"


def tell(number, written, wrong):
    """Prints what was found of a session."""
    shown = degrees(written)
    at = f", at the degrees {shown[0]} to {shown[-1]}" if shown else ""
    print(f"session {number}: {counted(sum(1 for _ in answered(written)), 'answer', 'answers')}{at}, {counted(len(wrong), 'mistake', 'mistakes')}")
    for it in wrong[:MOST_SHOWN]:
        print(f"session {number}: {it}")


def main():
    names = sys.argv[2:]
    if not names or len(names) % 2:
        sys.exit("usage: tools/sessions.py PROBLEM IN OUT [IN OUT ..]")
    try:
        judge = Judge(lines_of(sys.argv[1]))
        scripts = [lines_of(name) for name in names[::2]]
        judge.learn(scripts)
        faulty = 0
        for number, (script, name) in enumerate(zip(scripts, names[1::2]), 1):
            written = lines_of(name)
            wrong = list(judge.faults(script, written))
            tell(number, written, wrong)
            faulty += bool(wrong)
    except Fault as fault:
        print(f"sessions: {fault}", file=sys.stderr)
        return 2
    return 1 if faulty else 0


if __name__ == "__main__":
    sys.exit(main())
