#!/usr/bin/env python3
"""Turns the tables that `albert batch` prints into algebras of GAP, with GAP's commands to test them.

    ./albert batch < SCRIPT > ANSWERS
    tools/to_gap.py SCRIPT ANSWERS > tables.g
    gap -q tables.g

Each answer to `table`, and each table behind an answer to `prove`, becomes an algebra by structure constants over the field:
algebra1, algebra2 and so on, with basis1, basis2 for their elements. Products that are not listed are zero, so an answer to
`table` becomes the algebra in which everything of a type that it does not have is zero. Then GAP prints for each algebra its
dimension, whether the identities hold at a hundred random tuples, and of a table that is evidence whether the value of the
polynomial differs from zero.
"""

import os
import re
import sys

sys.dont_write_bytecode = True
sys.path.insert(0, os.path.join(os.path.dirname(os.path.dirname(os.path.realpath(__file__))), "scripts"))
from polynomials import ALPHABET, Fault, leaves, read, read_monomial
from transcript import turns

TRIES = 100


class Algebra:
    """A table: the names of its basis, the numbers of the generators in it, counted from 1, and the products."""

    def __init__(self, basis, values, products):
        self.basis, self.values, self.products = basis, values, products


def listed(lines, letters, p):
    """Returns the algebra of an answer to `table`, whose basis are the generators and the products that are themselves."""
    sides = [line.split(" = ") for line in lines]
    basis = [*letters, *(left for left, right in sides if left == right)]
    numbers = {read_monomial(text, letters): k for k, text in enumerate(basis, 1)}
    products = {}
    for left, right in sides:
        (l, r), f = read_monomial(left, letters), read(right, letters, p)
        if f:
            products[numbers[l], numbers[r]] = {numbers[mono]: c for mono, c in f.items()}
    return Algebra(basis, {letter: k for k, letter in enumerate(letters, 1)}, products)


def shown(lines, p):
    """Returns the algebra of a table that is evidence."""
    words = [line.split() for line in lines]
    products = {}
    for _, i, j, k, c in (it for it in words if it[0] == "entry"):
        products.setdefault((int(i), int(j)), {})[int(k)] = int(c) % p
    values = {it[1]: int(it[2]) for it in words if it[0] == "generator"}
    letters = {k: letter for letter, k in values.items()}
    count = sum(it[0] == "element" for it in words)
    return Algebra([letters.get(k, f"e{k}") for k in range(1, count + 1)], values, products)


def expression(f):
    """Returns GAP's text of a polynomial that is not zero."""
    return " + ".join(f"{c}*{product(mono)}" for mono, c in f.items())


def product(mono):
    return mono if isinstance(mono, str) else f"({product(mono[0])}*{product(mono[1])})"


def function(title, letters, f):
    """Returns the text that defines a polynomial as a function of GAP."""
    return f"{title} := function({', '.join(letters)}) return {expression(f)}; end;;"


def defined(k, algebra, p):
    """Yields the lines that define algebra number k."""
    yield f"table{k} := EmptySCTable({len(algebra.basis)}, Zero(GF({p})));;"
    for (i, j), row in algebra.products.items():
        entries = ", ".join(f"{c}*one, {at}" for at, c in sorted(row.items()))
        yield f"SetEntrySCTable(table{k}, {i}, {j}, [{entries}]);;"
    names = ", ".join(f'"{it}"' for it in algebra.basis)
    yield f"algebra{k} := AlgebraByStructureConstants(GF({p}), table{k}, [{names}]);;"
    yield f"basis{k} := BasisVectors(Basis(algebra{k}));;"
    yield f'Print("algebra {k}: dimension ", Dimension(algebra{k}), "\\n");'


def tested(k, identities):
    """Yields the lines that test the identities in algebra number k."""
    for number, f in enumerate(identities, 1):
        arguments = ", ".join(["Random(algebra%d)" % k] * len({letter for mono in f for letter in leaves(mono)}))
        holds = f"ForAll([1..{TRIES}], k -> IsZero(identity{number}({arguments})))"
        yield f'Print("  identity {number} holds: ", {holds}, "\\n");'


def refuted(k, algebra, text, p):
    """Yields the lines that show that a polynomial is not zero in algebra number k."""
    letters = sorted(set(re.findall("[a-z]", text)))
    values = ", ".join(f"basis{k}[{algebra.values[it]}]" if it in algebra.values else f"Zero(algebra{k})" for it in letters)
    yield function(f"polynomial{k}", letters, read(text, letters, p))
    yield f'Print("  {text.strip()} is not zero: ", not IsZero(polynomial{k}({values})), "\\n");'


def translated(answers):
    """Yields the lines for GAP of the answers to a script."""
    p, letters, identities, k = 251, [], [], 0
    for turn in answers:
        word, text = [*turn.line.text.decode("latin-1").split(None, 1), ""][:2]
        answer, more = turn.answer.decode("ascii"), [it.decode("ascii") for it in turn.more]
        if answer == "ok" and word == "field":
            p = int(text)
        elif answer == "ok":
            letters = re.findall("[a-z]", text)
        elif answer.startswith("identity"):
            identities.append(read(text, ALPHABET, p))
            variables = sorted({letter for mono in identities[-1] for letter in leaves(mono)})
            yield function(f"identity{len(identities)}", variables, identities[-1])
        elif answer.startswith("built"):
            yield f"one := One(GF({p}));;"
        elif re.match(r"\[\d+\] (table|not zero)", answer) and more:
            k += 1
            is_listed = " table " in answer
            algebra = listed(more, letters, p) if is_listed else shown(more, p)
            yield from defined(k, algebra, p)
            yield from tested(k, identities)
            yield from [] if is_listed else refuted(k, algebra, text, p)


def main():
    if len(sys.argv) != 3:
        sys.exit("usage: tools/to_gap.py SCRIPT ANSWERS")
    try:
        with open(sys.argv[1], "rb") as script, open(sys.argv[2], "rb") as answers:
            print(*translated(turns("batch", script, answers)), "QUIT;", sep="\n")
    except Fault as fault:
        sys.exit(f"to_gap: {fault}")


if __name__ == "__main__":
    main()
