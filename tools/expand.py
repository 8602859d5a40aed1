#!/usr/bin/env python3
"""Writes polynomials out: associators, commutators, powers, the product `*` and all brackets around sums.

    tools/expand.py [--field P] [--linear] POLYNOMIAL..

Each polynomial is printed as `albert batch` prints them, with the terms in descending order and the letters in the order of the
alphabet, over the field of P elements, 251 where none is named. With --linear its full linearization is printed, which is what
an identity stands for; before it stands which letters take the places of a letter that occurs several times.

    $ tools/expand.py '[a,b] - 2b*a'
    -3ba - ab
    $ tools/expand.py --linear '(x,x,y)'
    a b for x, c for y: (ba)c + (ab)c - b(ac) - a(bc)
"""

import argparse
import sys

sys.dont_write_bytecode = True
from polynomials import ALPHABET, Fault, fold, leaves, linearized, put, read


def rank_of_type(mono):
    """Returns what types are compared by: the smaller degree comes first, and then the larger counts."""
    word = leaves(mono)
    return len(word), [-word.count(letter) for letter in ALPHABET]


def rank_in_type(mono):
    """Returns what monomials of one type are compared by: the types of the left factors, the left factors, the right ones."""
    if isinstance(mono, str):
        return (mono,)
    return rank_of_type(mono[0]), rank_in_type(mono[0]), rank_in_type(mono[1])


def factor(mono):
    return mono if isinstance(mono, str) else f"({name(mono)})"


def name(mono):
    """Returns the text of a monomial."""
    return mono if isinstance(mono, str) else factor(mono[0]) + factor(mono[1])


def written(f, p):
    """Returns the text of a polynomial."""
    text = ""
    for mono in sorted(f, key=lambda it: (rank_of_type(it), rank_in_type(it)), reverse=True):
        c = f[mono] if 2 * f[mono] <= p else f[mono] - p
        sign = ("-" if c < 0 else "") if not text else " - " if c < 0 else " + "
        text += sign + (str(abs(c)) if abs(c) > 1 else "") + name(mono)
    return text or "0"


def linear_text(f, p):
    """Returns the text of the linearization of an identity, with what its letters stand for."""
    letters, terms = linearized(f)
    total = {}
    for c, mono, places in terms:
        put(total, {fold(mono, (ALPHABET[at] for at in places), lambda l, r: (l, r)): c}, 1, p)
    meant = (" ".join(new for new, old in zip(ALPHABET, letters) if old == letter) + f" for {letter}" for letter in sorted(set(letters)))
    return f"{', '.join(meant)}: {written(total, p)}"


def main():
    words = argparse.ArgumentParser(usage="tools/expand.py [--field P] [--linear] POLYNOMIAL..")
    words.add_argument("--field", type=int, default=251)
    words.add_argument("--linear", action="store_true")
    words.add_argument("polynomials", nargs="+")
    given = words.parse_args()
    try:
        for text in given.polynomials:
            f = read(text, ALPHABET, given.field)
            print(linear_text(f, given.field) if given.linear else written(f, given.field))
    except Fault as fault:
        sys.exit(f"expand: {fault}")


if __name__ == "__main__":
    main()
