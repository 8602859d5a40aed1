"""Explains the lines of a script that were refused and the evidence that was rejected: which line, where in it, and why.

It reads the script and the answers, and takes the meaning of each code from the table in docs/FORMATS.md.
"""

import re

import codes
from transcript import LONGEST, WORD, Line, turns

FAULT = re.compile(r"(refused|rejected) (\d+)(.*)")
TOO_LONG, LATER_LINE, NOT_THE_CLAIM, VALUE_ZERO, LONG_NUMBER = 84, 52, 54, 62, 71
# Refusals without a place whose mark stands under the argument; the others mark the command word.
OF_THE_ARGUMENT = (1, 30, 31, 32, 33, 34)
# The word of a derivation's line at which its fault stands, counted from 0.
WORD_AT_FAULT = {50: 2, 51: 3, 53: 3}
MOST_BEFORE, MOST_AFTER = 48, 40


def place_of_word(text, k):
    """Returns the place of the first byte of word number k, counted from 0, or the end place where there is none."""
    places = [found.start() + 1 for found in WORD.finditer(text)]
    return places[k] if k < len(places) else len(text) + 1


def place_of_refusal(text, code, rest):
    """Returns the place that a refusal names, or the word that it is about."""
    named = re.fullmatch(r" at (\d+)", rest)
    if named:
        return int(named[1])
    if code == TOO_LONG:
        return LONGEST + 1
    return place_of_word(text, 1 if code in OF_THE_ARGUMENT else 0)


def line_of_rejection(turn, code, rest):
    """Returns the line that a rejection is about: the one that it names, or the claim, the last line of the derivation, or the heading.

    The codes of derivations count the lines after the heading. Where the input ends too early the line is one behind the last.
    """
    lines = [turn.line, *turn.block]
    named = re.fullmatch(r" line (\d+)", rest)
    if named:
        k = int(named[1]) + (1 if code < NOT_THE_CLAIM else 0)
    else:
        k = {NOT_THE_CLAIM: len(lines) - 2, VALUE_ZERO: 0}.get(code, 1)
    return lines[k] if k < len(lines) else Line(lines[-1].number + 1, b"")


def word_at_fault(words, code):
    """Returns the number of the word of a line of evidence at which its fault stands, as far as the code tells it."""
    if code == LATER_LINE:
        own = int(words[0])
        return next(k for k in range(2, len(words)) if not 0 < int(words[k].rpartition(b"*")[2]) < own)
    if code == LONG_NUMBER:
        return next(k for k, word in enumerate(words) if re.search(rb"\d{19}", word))
    return WORD_AT_FAULT.get(code, 0)


def as_text(piece):
    """Returns bytes as they can be shown: each character in one column, and none that moves the terminal."""
    text = piece.decode("utf-8", "replace")
    return "".join(" " if it in "\t\r" else it if it.isprintable() else "?" for it in text)


def marked(line, place, why):
    """Returns the two lines of an explanation. Of a long line they show what stands around the place."""
    before, after = as_text(line.text[: place - 1]), as_text(line.text[place - 1 :])
    if len(before) > MOST_BEFORE:
        before = "..." + before[3 - MOST_BEFORE :]
    if len(after) > MOST_AFTER:
        after = after[: MOST_AFTER - 3] + "..."
    front = f"line {line.number}: {before}"
    return [(front + after).rstrip(), " " * len(front) + f"^ {why}"]


def explained(turn, known):
    """Returns the lines that explain one answer, none where it is no refusal and no rejection."""
    found = FAULT.fullmatch(turn.answer.decode("ascii"))
    if not found:
        return []
    kind, code, rest = found[1], int(found[2]), found[3]
    if kind == "refused":
        line, place = turn.line, place_of_refusal(turn.line.text, code, rest)
        end = "the claim and its evidence were not taken" if turn.block else "the line was not taken"
    else:
        line = line_of_rejection(turn, code, rest)
        place = place_of_word(line.text, word_at_fault(WORD.findall(line.text), code))
        end = "the evidence was not accepted"
    detail = "" if re.fullmatch(r" (at|line) \d+", rest) else rest
    return marked(line, place, f"{known[code].short()} ({code}{detail}); {end}")


def counted(number, one, many):
    return f"1 {one}" if number == 1 else f"{number} {many}"


def explain(form, script, answers):
    """Yields the lines that explain all refusals and rejections of a run, and last how many there were."""
    known, refused, rejected = codes.table(), 0, 0
    for turn in turns(form, script, answers):
        yield from explained(turn, known)
        refused += turn.answer.startswith(b"refused")
        rejected += turn.answer.startswith(b"rejected")
    if refused:
        yield f"{counted(refused, 'line was', 'lines were')} refused: the answers are about what was accepted, and the status says so"
    if rejected:
        yield f"{counted(rejected, 'piece', 'pieces')} of evidence rejected: the claim may still be zero or not"
