"""Polynomials and problems as docs/FORMATS.md has them. This shares nothing with the program or its proof.

A monomial is a letter or a pair of monomials. A combination, of monomials or of whatever else, is a table of the coefficients
that are not zero, each from 1 to p - 1; a polynomial is a combination of monomials. There are no limits of length and size.
"""

import itertools
import re

TOKEN = re.compile(r"[a-z]|[0-9]+|[-+*^,()\[\]]")
SIGNS = {"+": 1, "-": -1}
CLOSING = {"(": ")", "[": "]"}
ALPHABET = "abcdefghijklmnopqrstuvwxyz"


class Fault(Exception):
    """A text departs from the formats, or evidence shows nothing."""


def demand(condition, fault):
    if not condition:
        raise Fault(fault)


def leaves(mono):
    """Returns the letters of a monomial, from left to right."""
    return [mono] if isinstance(mono, str) else leaves(mono[0]) + leaves(mono[1])


def fold(mono, values, times):
    """Returns the product that a monomial stands for, where values from an iterator take the places of its letters."""
    if isinstance(mono, str):
        return next(values)
    left = fold(mono[0], values, times)
    return times(left, fold(mono[1], values, times))


def put(total, other, factor, p):
    """Adds a multiple of a combination to a total, and returns the total."""
    for key, c in other.items():
        total[key] = (total.get(key, 0) + factor * c) % p
        if not total[key]:
            del total[key]
    return total


def linearized(f):
    """Returns the full linearization of an identity.

    These are the letters of its arguments, each as often as its degree says, and the terms: a coefficient, a monomial, and the
    numbers of the arguments that take the places of its letters.
    """
    words = {tuple(sorted(leaves(mono))) for mono in f}
    demand(len(words) == 1 and 2 <= len(min(words)) <= 8, "no homogeneous identity of degree 2 to 8")
    (letters,), terms = words, []
    places = {v: [k for k, w in enumerate(letters) if w == v] for v in letters}
    for mono, c in f.items():
        for orders in itertools.product(*map(itertools.permutations, places.values())):
            next_of = dict(zip(places, map(iter, orders)))
            terms.append((c, mono, [next(next_of[v]) for v in leaves(mono)]))
    return letters, terms


class Reader:
    """Reads a text by the grammar. Its tokens are kept in reverse order, so that the next one is the last, and "" is the end."""

    def __init__(self, text, letters, p):
        demand(not TOKEN.sub("", text).strip(" \t\r"), f"unexpected byte in {text!r}")
        self.rest, self.letters, self.p = ["", *TOKEN.findall(text)[::-1]], set(letters), p

    def take(self, wanted):
        demand(self.rest[-1] in wanted, f"not expected here: {''.join(self.rest[::-1])!r}")
        return self.rest.pop()

    def product(self, f, g):
        return {(l, r): c * d % self.p for l, c in f.items() for r, d in g.items()}

    def poly(self, *ends):
        """Reads a polynomial, up to one of these tokens."""
        total, sign = {}, self.take(SIGNS) if self.rest[-1] in SIGNS else "+"
        while True:
            put(total, self.term(), SIGNS[sign], self.p)
            if self.rest[-1] in ends:
                return total
            sign = self.take(SIGNS)

    def term(self):
        number = int(self.rest.pop()) if self.rest[-1].isdigit() else None
        if number == 0 and not self.is_at_atom():
            return {}
        f = self.juxtaposition()
        while self.rest[-1] == "*":
            self.rest.pop()
            g = self.juxtaposition()
            f = put(self.product(f, g), self.product(g, f), 1, self.p)
        return put({}, f, 1 if number is None else number, self.p)

    def is_at_atom(self):
        return self.rest[-1].isalpha() or self.rest[-1] in CLOSING

    def juxtaposition(self):
        f = self.power()
        while self.is_at_atom():
            f = self.product(f, self.power())
        return f

    def power(self):
        f = base = self.atom()
        if self.rest[-1] == "^":
            self.rest.pop()
            exponent = self.rest.pop()
            demand(exponent.isdigit() and 1 <= int(exponent) <= 64, f"no exponent: {exponent!r}")
            for _ in range(int(exponent) - 1):
                f = self.product(f, base)
        return f

    def atom(self):
        if self.rest[-1] not in CLOSING:
            return {self.take(self.letters): 1}
        close = CLOSING[self.rest.pop()]
        parts = [self.poly(",", close)]
        while self.take([",", close]) == ",":
            parts.append(self.poly(",", close))
        if (close, len(parts)) == (")", 1):
            return parts[0]
        if (close, len(parts)) == ("]", 2):
            return put(self.product(*parts), self.product(*parts[::-1]), -1, self.p)
        demand((close, len(parts)) == (")", 3), f"brackets of {len(parts)} parts")
        x, y, z = parts
        return put(self.product(self.product(x, y), z), self.product(x, self.product(y, z)), -1, self.p)


def read(text, letters, p):
    """Returns the polynomial of a text over these letters."""
    return Reader(text, letters, p).poly("")


def read_monomial(text, letters):
    """Returns the monomial of a text of letters and round brackets."""
    demand(re.fullmatch(r"[a-z()]+", text), f"no monomial: {text!r}")
    (mono,) = read(text, letters, 2)
    return mono


def is_below(low, high):
    return all(a <= b for a, b in zip(low, high))


class Problem:
    """A field, generators with how often each may occur, and identities."""

    def __init__(self):
        self.p, self.target, self.identities, self.is_built = 251, {}, [], False

    def state(self, word, text):
        """Takes a line of the problem."""
        demand(not self.is_built, f"after build: {word} {text}")
        if word == "field" and text.isdigit() and not self.identities:
            self.p = int(text)
        elif word == "generators" and not self.target and re.fullmatch(r"(\d+ ?[a-z] ?)+", text):
            pairs = re.findall(r"(\d+) ?([a-z])", text)
            self.target = {letter: int(number) for number, letter in pairs}
            demand(all(self.target.values()) and len(self.target) == len(pairs), f"faulty generators {text}")
        elif word == "identity":
            self.identities.append(linearized(read(text, ALPHABET, self.p)))
        else:
            demand((word, text) == ("build", "") and self.target, f"not understood: {word} {text}")
            is_field = 1 < self.p < 252 and all(self.p % d for d in range(2, self.p))
            demand(is_field and sum(self.target.values()) < self.p, f"no field of {self.p} elements here")
            self.is_built = True

    def type_of(self, *monos):
        word = [letter for mono in monos for letter in leaves(mono)]
        return tuple(word.count(letter) for letter in self.target)

    def is_within(self, *monos):
        return is_below(self.type_of(*monos), self.target.values())
