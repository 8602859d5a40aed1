"""What the benchmarks share: the built program, and runs of it with their time and their peak memory, monomials, and derivations."""

import os
import subprocess
import sys
import tempfile

TOP = os.path.dirname(os.path.dirname(os.path.realpath(__file__)))
PROGRAM = os.path.join(TOP, "crates", "albert", "out", "albert")
QUESTIONS = """generators 2a1b1c
identity (x,x,y)
identity (y,x,x)
identiti x
build
prove ((ab)a)c - a(b(ac))
prove (a,b,c)
prove abcd
polynomial (a,b,c)
table
quit
"""
# Of the derivations that plain_lines and sum_lines make: the monomials of their instances, what stands before, and the answers.
MONOMIALS = ("a", "ab", "b", "bc", "c", "cd", "d", "da")
HEAD = "generators 3a3b3c3d\nidentity (xy)z-x(yz)\nbuild\nclaim ((ab)c)d-(a(bc))d\nderivation\n"
ANSWER = "ok\nidentity 1\nready\naccepted zero\n"
# A small script that runs a program and tells its time, its peak and how it ended: the peak of a process is never below that of
# the one that it was forked from, and a script that holds what it measures can be large.
LAUNCHER = """
import os, sys, time
begun = time.monotonic()
child = os.fork()
if child == 0:
    try:
        os.execv(sys.argv[2], sys.argv[2:])
    finally:
        os._exit(127)
_, ended, used = os.wait4(child, 0)
clock = time.monotonic() - begun
os.write(int(sys.argv[1]), f"{used.ru_utime + used.ru_stime} {clock} {used.ru_maxrss} {ended}".encode())
"""


def program():
    """Returns the path of the built program: the first word of the command line, or what rt ci left."""
    path = os.path.abspath(sys.argv[1]) if len(sys.argv) > 1 else PROGRAM
    if not os.access(path, os.X_OK):
        sys.exit("no built program in crates/albert/out: run rt ci, or ./albert check < examples/associator_expands.txt")
    return path


def clocked(path, script, words):
    """Runs a program on the file SCRIPT. Returns what `run` does, with the seconds on the clock behind the first ones."""
    reader, writer = os.pipe()
    with open(script, "rb") as given, tempfile.TemporaryFile() as written, os.fdopen(reader) as told:
        command = [sys.executable, "-I", "-S", "-c", LAUNCHER, str(writer), path, *words]
        subprocess.run(command, stdin=given, stdout=written, pass_fds=[writer], check=True)
        os.close(writer)
        seconds, clock, peak, ended = told.read().split()
        written.seek(0)
        text = written.read().decode()
    status = int(ended)
    return float(seconds), float(clock), int(peak) / 1024, os.WEXITSTATUS(status) if os.WIFEXITED(status) else -os.WTERMSIG(status), text


def run(path, script, words=("check",)):
    """Runs a program, the check where no other words are given, on the file SCRIPT.

    Returns the seconds, the peak memory in MB, the status and the output.

    The seconds are the processor time of the process, which other work on the machine changes less than the time that
    passes. A process with one thread that never waits takes as long on the clock, alone on a machine.

    The peak is that of the process itself (the highest resident size that the system counted). It is never below what
    LAUNCHER itself takes, some 5 to 10 MB.
    """
    seconds, _, *rest = clocked(path, script, words)
    return (seconds, *rest)


def best(path, script, times):
    """Runs SCRIPT several times. Returns the least seconds, the greatest peak, and the status and output of the last run."""
    runs = [run(path, script) for _ in range(times)]
    return min(it[0] for it in runs), max(it[1] for it in runs), runs[-1][2], runs[-1][3]


def demand(name, status, text, wanted_status, wanted_text):
    """Stops where a run did not write and end as it is to: its time would say nothing."""
    if (status, text) != (wanted_status, wanted_text):
        sys.exit(f"{name}: status {status} and output {text[:200]!r}, wanted {wanted_status} and {wanted_text!r}")


def seconds_of(path, room, name, text, times, wanted_status, wanted_text):
    """Runs a script of this text, or of these pieces, several times. Returns the least seconds and the greatest peak.

    Stops where the last run does not write and end as it is to.
    """
    script = os.path.join(room, "script.txt")
    with open(script, "w", encoding="ascii") as file:
        file.writelines([text] if isinstance(text, str) else text)
    seconds, peak, status, written = best(path, script, times)
    demand(name, status, written, wanted_status, wanted_text)
    return seconds, peak


def plain_in(room, name):
    """Builds a plain program of bench/yardstick and returns its path. Needs rustc."""
    source = os.path.join(TOP, "bench", "yardstick", name + ".rs")
    made = os.path.join(room, name)
    subprocess.run(["rustc", "--edition", "2021", "-O", "-A", "dead_code", "-o", made, source], check=True)
    return made


def factor(text):
    """Returns a monomial as a factor: in brackets, where it is a product."""
    return text if len(text) == 1 else f"({text})"


def bracketings(word):
    """Returns every monomial with the letters of the word in their order."""
    if len(word) == 1:
        return [word]
    halves = [(word[:k], word[k:]) for k in range(1, len(word))]
    return [factor(l) + factor(r) for left, right in halves for l in bracketings(left) for r in bracketings(right)]


def plain_pair(number):
    """Returns an instance as this line, and its product with a generator as the next one."""
    at = number // 2
    monomials = " ".join(MONOMIALS[(at + k) % len(MONOMIALS)] for k in range(3))
    side = ("left", "right")[at % 2]
    yield f"{number} instance 1 {monomials}\n"
    yield f"{number + 1} times {number} {side} {'abcd'[at // 2 % 4]}\n"


def plain_lines(lines):
    """Returns a derivation of so many lines: an instance, then its product with a generator, and so on."""
    yield HEAD
    for number in range(1, lines - 1, 2):
        yield from plain_pair(number)
    yield f"{lines - 1} instance 1 a b c\n"
    yield f"{lines} times {lines - 1} right d\n"
    yield "end\n"


def sum_lines(lines):
    """Returns a derivation of so many lines: an instance, its product, a sum, a sum with that sum, and so on."""
    yield HEAD
    for number in range(1, lines - 3, 4):
        c = number % 250 + 1
        yield from plain_pair(number)
        yield f"{number + 2} sum {c}*{number} -7*{number + 1} {c}*{(number + 4) // 2}\n"
        yield f"{number + 3} sum 1*{number + 2} -{c}*{(number + 4) // 2}\n"
    yield f"{lines - 3} instance 1 a b c\n"
    yield f"{lines - 2} times {lines - 3} right d\n"
    yield f"{lines - 1} sum 5*{lines - 3} 1*{lines - 2}\n"
    yield f"{lines} sum 1*{lines - 1} -5*{lines - 3}\n"
    yield "end\n"


def claims_of(path):
    """Returns a script of a check with the evidence that `prove` prints for the questions, and a faulty block."""
    written = subprocess.run([path, "batch"], input=QUESTIONS.encode(), stdout=subprocess.PIPE, check=False).stdout.decode().splitlines()
    blocks, inside = [], None
    for line in written:
        if line == "derivation" or line.startswith("table ("):
            inside = []
        if inside is not None:
            inside.append(line)
            if line == "end":
                blocks.append(inside)
                inside = None
    lines = QUESTIONS.splitlines()
    head = lines[: lines.index("build") + 1]
    claims = [f"claim {line.removeprefix('prove ')}" for line in lines if line.startswith("prove ")]
    pairs = zip(claims, blocks)
    return "\n".join([*head, *("\n".join([claim, *block]) for claim, block in pairs), "claim a", "table (1,0,0)", "element 1 (1,0)", "end"]) + "\n"
