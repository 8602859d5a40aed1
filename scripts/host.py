"""What examples/sessions and bench/host share: runs of the program albert_host, and questions that are drawn."""

import os
import random
import subprocess

TOP = os.path.dirname(os.path.dirname(os.path.realpath(__file__)))
PROGRAM = os.path.join(TOP, "crates", "albert_host", "out", "albert_host")
# A run that has not ended after so many seconds is cut off.
SECONDS = 120


def run(program, words, room=None):
    """Runs the program with these words in a folder. Returns its status, None where it was cut off, and what it printed."""
    try:
        ran = subprocess.run([program, *words], cwd=room, stdin=subprocess.DEVNULL, stdout=subprocess.PIPE, timeout=SECONDS, check=False)
    except subprocess.TimeoutExpired:
        return None, b""
    return ran.returncode, ran.stdout


def write(path, lines):
    """Writes lines, given without their ends, to a file."""
    with open(path, "w", encoding="ascii") as file:
        file.writelines(f"{line}\n" for line in lines)


def factor(text):
    """Returns a monomial as a factor: in brackets, where it is a product."""
    return text if len(text) == 1 else f"({text})"


def bracketed(word, source):
    """Returns a product of the letters of a word in their order, with brackets that are drawn."""
    if len(word) == 1:
        return word[0]
    at = source.randrange(1, len(word))
    return factor(bracketed(word[:at], source)) + factor(bracketed(word[at:], source))


def question(word, source):
    """Returns a polynomial over the letters of a word: two products, a commutator, or an associator with another one."""
    kind = source.randrange(3)
    if kind == 1:
        at = source.randrange(1, len(word))
        return f"[{bracketed(word[:at], source)},{bracketed(word[at:], source)}]"
    if kind == 2 and len(word) > 2:
        first, second = sorted(source.sample(range(1, len(word)), 2))
        u, v, w = (bracketed(part, source) for part in (word[:first], word[first:second], word[second:]))
        return f"({u},{v},{w}) + ({v},{u},{w})"
    other = source.sample(word, len(word))
    return f"{bracketed(word, source)} - {source.randrange(1, 10)}{factor(bracketed(other, source))}"


def questions(counts, number, seed):
    """Returns so many polynomials over generators that occur at most so often, a text such as `3a2b`; the same for each seed."""
    source = random.Random(seed)
    letters = [letter for count, letter in zip(counts[::2], counts[1::2]) for _ in range(int(count))]
    return [question(source.sample(letters, source.randrange(2, len(letters) + 1)), source) for _ in range(number)]
