#!/usr/bin/env python3
"""Runs the program `hits` on many inputs and compares what it prints with what hits_inputs.py expects.

usage: hits.py target/bin/hits

Among the inputs are the examples of docs/HITS.md, whose output must be the one on the page.
"""
import pathlib
import random
import re
import subprocess
import sys
import time

import hits_inputs
from hits_inputs import ANSWER, BAD, EXAMPLE, expected, text_of

if len(sys.argv) != 2:
    sys.exit("usage: hits.py PROGRAM")
PROGRAM = sys.argv[1]


def printed(data, part=0):
    """What the program prints; the input comes from a pipe, so many bytes at a time where a part is given."""
    if not part:
        return subprocess.run([PROGRAM], input=data, stdout=subprocess.PIPE, check=False).stdout
    run = subprocess.Popen([PROGRAM], stdin=subprocess.PIPE, stdout=subprocess.PIPE)
    try:
        for at in range(0, len(data), part):
            run.stdin.write(data[at : at + part])
            run.stdin.flush()
            time.sleep(0.002)
        run.stdin.close()
    except BrokenPipeError:
        pass
    out = run.stdout.read()
    run.wait()
    return out


cases, failed = 0, 0


def difference(want, got):
    """The first place where two texts differ, and the lines of both there."""
    at = next((i for i, (a, b) in enumerate(zip(want, got)) if a != b), min(len(want), len(got)))
    line = want[:at].count(b"\n")
    rows = [text.split(b"\n")[line][:80] if line <= text.count(b"\n") else b"" for text in (want, got)]
    return "line %d: expected %r, printed %r" % (line + 1, *rows)


def case(name, data, want=None, part=0):
    """One input; `want` is given where the answer is known beforehand."""
    global cases, failed
    cases += 1
    right = expected(data)
    got = printed(data, part)
    if want is not None and right != want:
        failed += 1
        print("FAILED: case %d, %s: hits_inputs.py computes another answer than is known, %s" % (cases, name, difference(want, right)))
    elif got != right:
        failed += 1
        print("FAILED: case %d, %s: input %r: %s" % (cases, name, data[:80], difference(right, got)))


def pipe_cases():
    for part in (1, 2, 3, 7):
        case("the example in parts", EXAMPLE, ANSWER, part)
        case("bad input in parts", EXAMPLE[:-1], BAD, part)
        case("no shapes in parts", b"\n1\n", b"refused 1\n", part)
        case("one reading in parts", b"1\n\n1\n", b"refused 15\n", part)
    rng = random.Random(3)
    shapes = [[rng.randrange(6) for _ in range(n)] for n in (2, 2, 3, 3, 4)]
    data = text_of(shapes, [rng.randrange(9) for _ in range(3000)])
    for part in (11, 100, 1000):
        case("an input in parts", data, None, part)


def page_cases():
    """The examples of docs/HITS.md: a command that makes an input, and below it what is printed."""
    page = (pathlib.Path(__file__).resolve().parent.parent / "docs" / "HITS.md").read_text()
    examples = re.findall(r"^    \$ (.*) \| target/bin/hits\n((?:    [^$\n].*\n)+)", page, re.M)
    if len(examples) != 6:
        sys.exit("FAILED: docs/HITS.md has %d examples, expected 6" % len(examples))
    for command, lines in examples:
        data = subprocess.run(["sh", "-c", command], stdout=subprocess.PIPE, check=True).stdout
        case("an example of docs/HITS.md", data, re.sub(r"^    ", "", lines, flags=re.M).encode())


page_cases()
hits_inputs.form_cases(case)
hits_inputs.number_cases(case)
hits_inputs.size_cases(case)
hits_inputs.gap_cases(case)
hits_inputs.one_reading_cases(case)
hits_inputs.call_cases(case)
pipe_cases()
hits_inputs.random_cases(case, 400)
print("%d cases, %d failed" % (cases, failed))
sys.exit(1 if failed else 0)
