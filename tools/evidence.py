#!/usr/bin/env python3
"""Judges derivations and tables as docs/FORMATS.md says. It shares nothing with the program or its proof.

    tools/evidence.py < SCRIPT

SCRIPT is an input of `albert check`: a problem, and claims with their evidence. For each claim it prints `accepted zero`,
`accepted not zero`, or `rejected` and a code or a reason. A line of the problem or a claim that it cannot read ends it with
status 2, so that nothing is left out. Otherwise the status is 0 only if all evidence was accepted. polynomials.py reads and
multiplies; the two files are all that stands behind an answer.
"""

import functools
import re
import sys

sys.dont_write_bytecode = True
from polynomials import Fault, Problem, demand, fold, is_below, leaves, put, read, read_monomial

N, COUNTS = r"\d{1,18}", r"\((\d+(?:,\d+)*)\)"
INSTANCE = re.compile(rf"({N}) instance ({N})((?: \S+)*)")
TIMES = re.compile(rf"({N}) times ({N}) (left|right) (\S+)")
SUM = re.compile(rf"({N}) sum((?: -?{N}\*{N})*)")
TOP, ELEMENT = re.compile(rf"table {COUNTS}"), re.compile(rf"element ({N}) {COUNTS}")
GENERATOR, ENTRY = re.compile(rf"generator ([a-z]) ({N})"), re.compile(rf"entry ({N}) ({N}) ({N}) (-?{N})")


class Derivation:
    """The polynomials of the lines of a derivation, of which the one before the first line is zero."""

    def __init__(self, problem, texts):
        self.problem, self.known = problem, [{}]
        for k, text in enumerate(texts, 1):
            for form, line in ((INSTANCE, self.instance), (TIMES, self.times), (SUM, self.sum)):
                found = form.fullmatch(text)
                if found:
                    break
            demand(found and int(found[1]) == k, f"70 line {k + 1}")
            self.known.append(line(k, *found.groups()[1:]))

    def instance(self, k, number, texts):
        monos = [read_monomial(text, self.problem.target) for text in texts.split()]
        demand(0 < int(number) <= len(self.problem.identities), f"50 line {k}")
        letters, terms = self.problem.identities[int(number) - 1]
        demand(len(monos) == len(letters), f"51 line {k}")
        demand(self.problem.is_within(*monos), f"53 line {k}")
        total = {}
        for c, mono, places in terms:
            put(total, {fold(mono, (monos[at] for at in places), lambda l, r: (l, r)): c}, 1, self.problem.p)
        return total

    def times(self, k, number, side, text):
        by = read_monomial(text, self.problem.target)
        demand(0 < int(number) < k, f"52 line {k}")
        f = {(by, mono) if side == "left" else (mono, by): c for mono, c in self.known[int(number)].items()}
        demand(all(self.problem.is_within(mono) for mono in f), f"53 line {k}")
        return f

    def sum(self, k, items):
        items, total = [tuple(map(int, item.split("*"))) for item in items.split()], {}
        demand(all(0 < number < k for _, number in items), f"52 line {k}")
        for c, number in items:
            put(total, self.known[number], c, self.problem.p)
        return total


class Table:
    """An algebra: the types of its elements, the elements of the generators, and the products of elements."""

    def __init__(self, problem, texts):
        self.problem, self.types, self.values, self.entries = problem, [], {}, []
        demand(texts, "70 line 1")
        for k, text in enumerate(texts, 1):
            demand(self.takes(text, k == 1), f"70 line {k}")
        self.keep_shape()
        self.products = {}
        for i, j, k, c in self.entries:
            self.products.setdefault((i, j), {})[k] = c % problem.p

    def takes(self, text, is_first):
        """Takes a line, and says whether it may stand there."""
        letters = list(self.problem.target)
        if found := TOP.fullmatch(text):
            self.top = tuple(map(int, found[1].split(",")))
            return is_first and len(self.top) == len(letters)
        if found := ELEMENT.fullmatch(text):
            self.types.append(tuple(map(int, found[2].split(","))))
            in_place = int(found[1]) == len(self.types) and not self.values and not self.entries
            return not is_first and in_place and len(self.types[-1]) == len(letters)
        if found := GENERATOR.fullmatch(text):
            in_place = found[1] in letters[1 + max(map(letters.index, self.values), default=-1) :] and not self.entries
            self.values[found[1]] = int(found[2])
            return not is_first and in_place
        found = ENTRY.fullmatch(text)
        self.entries.append(tuple(map(int, found.groups())) if found else ())
        return not is_first and bool(found)

    def keep_shape(self):
        """Tries the rules of shape."""
        n, entries = len(self.types), self.entries
        kinds = dict(enumerate(self.types, 1))
        rules = [
            any(self.top) and is_below(self.top, self.problem.target.values()),
            all(any(kind) and is_below(kind, self.top) for kind in self.types),
            all(kinds.get(k) == self.problem.type_of(letter) for letter, k in self.values.items()),
            all(0 < min(it[:3]) and max(it[:3]) <= n and kinds[it[2]] == tuple(map(sum, zip(kinds[it[0]], kinds[it[1]]))) for it in entries),
            all(one[:3] < next_one[:3] for one, next_one in zip(entries, entries[1:])),
            all(it[3] % self.problem.p for it in entries),
        ]
        for rule, is_kept in enumerate(rules, 1):
            demand(is_kept, f"60 rule {rule}")

    def times(self, u, v):
        total = {}
        for i, c in u.items():
            for j, d in v.items():
                if (i, j) in self.products:
                    put(total, self.products[i, j], c * d, self.problem.p)
        return total

    def tuples(self, letters):
        """Yields the tuples of elements that fit under the top. Those of one letter ascend: a linearization is symmetric in them."""

        @functools.cache
        def fitting(room):
            return [k for k, kind in enumerate(self.types, 1) if is_below(kind, room)]

        def longer(chosen, room):
            if len(chosen) == len(letters):
                yield chosen
                return
            at = len(chosen)
            least = chosen[-1] if at and letters[at] == letters[at - 1] else 0
            for k in fitting(room):
                if k >= least:
                    yield from longer([*chosen, k], tuple(a - b for a, b in zip(room, self.types[k - 1])))

        return longer([], self.top)

    def refute(self, claim):
        """Demands that each identity holds, and that the claim has a value that is not zero."""
        for number, (letters, terms) in enumerate(self.problem.identities, 1):
            for chosen in self.tuples(letters):
                total = {}
                for c, mono, places in terms:
                    put(total, fold(mono, ({chosen[at]: 1} for at in places), self.times), c, self.problem.p)
                demand(not total, f"61 identity {number} at {' '.join(map(str, chosen))}")
        total, values = {}, {letter: {k: 1} for letter, k in self.values.items()}
        for mono, c in claim.items():
            put(total, fold(mono, (values.get(letter, {}) for letter in leaves(mono)), self.times), c, self.problem.p)
        demand(total, "62")


def verdict(problem, claim, block):
    """Returns the answer to a claim."""
    try:
        if block[:1] == ["derivation"]:
            demand(Derivation(problem, block[1:]).known[-1] == claim, "54")
            return "accepted zero"
        Table(problem, block).refute(claim)
        return "accepted not zero"
    except Fault as fault:
        return f"rejected {fault}"


def judge(lines):
    """Yields the answers to the claims of a script, given as lists of words."""
    problem = Problem()
    for word, *words in lines:
        text = " ".join(words)
        if word == "claim":
            demand(problem.is_built, "a claim before build")
            claim, block, line = read(text, problem.target, problem.p), [], []
            for line in lines:
                if line == ["end"]:
                    break
                block.append(" ".join(line))
            yield verdict(problem, claim, block) if line == ["end"] else f"rejected 70 line {len(block) + 1}"
        elif word == "quit":
            return
        else:
            problem.state(word, text)


def main():
    sys.stdin.reconfigure(encoding="latin-1", newline="\n")
    words = (re.findall(r"[^ \t\r\n]+", line) for line in sys.stdin)
    right = True
    try:
        for answer in judge(iter([it for it in words if it and not it[0].startswith("#")])):
            print(answer, flush=True)
            right = right and answer.startswith("accepted")
    except Fault as fault:
        print(f"evidence: {fault}", file=sys.stderr)
        return 2
    return 0 if right else 1


if __name__ == "__main__":
    sys.exit(main())
