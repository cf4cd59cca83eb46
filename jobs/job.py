#!/usr/bin/env python3
"""Job files by hand, and what became of them.

    job.py pack   < TEXT     > JOB      a job in words, as the file that the placing program reads
    job.py unpack < JOB      > TEXT     and back
    job.py read   < PRINTOUT            a whole printout, with its numbers in decimal, its ends and refusal in words
    job.py check  JOB PRINTOUT          how each pair's run ended, and how far its surface point lies from its mark

Status 0: all is well. 1: the input is not what it should be; a printout is whole where it has
as many pairs as its first line says, or a refusal after fewer, each pair's line has the digit of
its end, and it ends in a newline. 2: not called as above. 3: the job was refused. 4: a pair lies
further from its mark than the tolerance.

`check` evaluates by the library itself, libplacing.so: the one that PLACING_LIBRARY names,
else the one beside this file, else the repository's own, which is built where need be.

The words of a job, in this order; a line that begins with # is left out:

    degrees 1 1                     of u, of v
    controls 2 2                    how many along u, along v
    periodic no no                  u, v
    knots_u 0 0 1 1                 controls + degree + 1 of them
    knots_v 0 0 1 1
    control 0 0 0 weight 1          a line each, u slowest
    window 0.25 0.75 0 1            lowest u, highest u, lowest v, highest v; or no such line
    tolerance 0.5
    budget 1000
    mark 0.25 0.5 0.75              none or more

A number is written as Python writes it (0.5, 1e-6, inf) or, to the bit, as 0x and the
16 hexadecimal digits of its pattern. What the two forms can't say alike is refused: a
NaN in decimal, a count of knots or controls that is not the one its line stands for.
"""

import ctypes
import math
import os
import re
import struct
import subprocess
import sys
from pathlib import Path
from typing import NamedTuple

MOST_BYTES = 32768
PERIODIC = {"no": 0, "yes": 1}
WINDOW = 4
REFUSED, FURTHER = 3, 4
ENDS = ("unchanged", "next point further", "small step", "second singular point", "32 rounds")
REFUSALS = {
    1: "there are more than 100,000 controls or 100,034 knots, or a count is out of range",
    2: "the counts of controls or weights are not the product of the shape's two counts",
    3: "a control's coordinate is not finite",
    4: "there are no weights, or one is not finite, not above 0, or 0 after division by the largest",
    5: "a degree is 0 or above 16",
    6: "the knots of an axis are not right: their count, their order, more than degree + 1 equal ones, "
       "a domain without width, or a number that is not finite",
    7: "the mark, vector, frame, hint, tolerance or a period is not finite, the tolerance is below 0, "
       "or a period is not above 0",
    8: "no unit of the budget was left for an evaluation",
    9: "an evaluation refused: the parameter lies outside, a number is not finite, or the weight sum is not above 0",
    10: "the two derivatives of the surface there don't span a plane",
    11: "the marks are not in threes, or there are under two numbers a mark for the answers, or under two bytes a mark "
        "for the ends",
    12: "the job file is malformed",
    24: "the window is not finite, not rising or beyond the domain, or narrower than it on a periodic axis",
}


class Malformed(Exception):
    """The input is not a job, or not a whole printout, or the two don't go together."""


class Job(NamedTuple):
    """A job file. A float is its eight bytes. The flags are those of the periodic axes; a window is
    four floats, or none."""

    degrees: tuple
    counts: tuple
    flags: int
    knots: tuple
    coordinates: list
    weights: list
    window: list
    tolerance: bytes
    budget: int
    marks: list


class Printout(NamedTuple):
    """A whole printout: how many marks its first line tells, which a malformed file's has not;
    its pairs; and a refusal's number and index, or nothing."""

    marks: int | None
    pairs: list
    refusal: tuple | None


class Pair(NamedTuple):
    """A pair, the budget left, and how its run ended: an index of ENDS."""

    u: float
    v: float
    left: int
    end: int


def number(word):
    """A float as its eight bytes."""
    if word.startswith("0x"):
        bits = int(word, 16)
        if len(word) != 18:
            raise Malformed(f"{word} is not 16 hexadecimal digits")
        return struct.pack("<Q", bits)
    value = float(word)
    if math.isnan(value):
        raise Malformed("a NaN has many patterns: write its bits, as 0x7ff8000000000000")
    return struct.pack("<d", value)


def value(eight):
    return struct.unpack("<d", eight)[0]


def word(eight):
    """Eight bytes as the text that gives them back."""
    return f"0x{struct.unpack('<Q', eight)[0]:016x}" if math.isnan(value(eight)) else repr(value(eight))


# ---- from words to a file


class Lines:
    """The lines of a text, each asked for by its first word."""

    def __init__(self, text):
        lines = (line.split() for line in text.splitlines())
        self.rest = [line for line in lines if line and not line[0].startswith("#")]

    def next_is(self, name):
        return bool(self.rest) and self.rest[0][0] == name

    def take(self, name, count):
        if not self.next_is(name):
            raise Malformed(f"a line `{name}` was due, not `{' '.join(self.rest[0]) if self.rest else 'the end'}`")
        words = self.rest.pop(0)[1:]
        if len(words) != count:
            raise Malformed(f"`{name}` has {len(words)} words after it and not {count}")
        return words


def whole(text, size):
    number = int(text)
    if not 0 <= number < 256**size:
        raise Malformed(f"{number} does not fit in {size} bytes")
    return number.to_bytes(size, "little")


def pack(text):
    lines = Lines(text)
    degrees = lines.take("degrees", 2)
    counts = lines.take("controls", 2)
    periodic = lines.take("periodic", 2)
    if not set(periodic) <= set(PERIODIC):
        raise Malformed("`periodic` takes yes or no, twice")
    out = [b"SF", *(whole(d, 1) for d in degrees), *(whole(n, 2) for n in counts)]
    numbers = []
    for axis, name in enumerate(["knots_u", "knots_v"]):
        numbers += lines.take(name, int(counts[axis]) + int(degrees[axis]) + 1)
    net = [lines.take("control", 5) for _ in range(int(counts[0]) * int(counts[1]))]
    if any(line[3] != "weight" for line in net):
        raise Malformed("a control is three numbers, `weight` and a number")
    numbers += [x for line in net for x in line[:3]]
    numbers += [line[4] for line in net]
    window = lines.take("window", 4) if lines.next_is("window") else []
    out.append(bytes([PERIODIC[periodic[0]] + 2 * PERIODIC[periodic[1]] + (WINDOW if window else 0)]))
    out += map(number, numbers + window)
    out += [b"TL", number(*lines.take("tolerance", 1)), whole(*lines.take("budget", 1), 8)]
    while lines.next_is("mark"):
        out += [b"MK", *map(number, lines.take("mark", 3))]
    if lines.rest:
        raise Malformed(f"`{' '.join(lines.rest[0])}` is left over")
    file = b"".join(out)
    if len(file) > MOST_BYTES:
        raise Malformed(f"the file would have {len(file):,} bytes, and no more than {MOST_BYTES:,} are read")
    return file


# ---- from a file to words


class Bytes:
    """The bytes of a file, taken from the front."""

    def __init__(self, data):
        self.data, self.at = data, 0

    def take(self, count):
        taken = self.data[self.at : self.at + count]
        if len(taken) != count:
            raise Malformed(f"the file is cut off at byte {len(self.data)}")
        self.at += count
        return taken

    def mark(self, expected):
        if self.take(2) != expected:
            raise Malformed(f"{expected.decode()} was due at byte {self.at - 2}")

    def numbers(self, count):
        taken = self.take(8 * count)
        return [taken[i : i + 8] for i in range(0, 8 * count, 8)]


def parse(data):
    if len(data) > MOST_BYTES:
        raise Malformed(f"the file has more than {MOST_BYTES:,} bytes")
    rest = Bytes(data)
    rest.mark(b"SF")
    du, dv, nu, nv, flags = struct.unpack("<BBHHB", rest.take(7))
    if flags >= 2 * WINDOW:
        raise Malformed(f"the flags are {flags}")
    knots = rest.numbers(nu + du + 1), rest.numbers(nv + dv + 1)
    coordinates, weights = rest.numbers(3 * nu * nv), rest.numbers(nu * nv)
    window = rest.numbers(4) if flags & WINDOW else []
    rest.mark(b"TL")
    (tolerance,), budget = rest.numbers(1), int.from_bytes(rest.take(8), "little")
    marks = []
    while rest.at < len(data):
        rest.mark(b"MK")
        marks.append(rest.numbers(3))
    return Job((du, dv), (nu, nv), flags % WINDOW, knots, coordinates, weights, window, tolerance, budget, marks)


def unpack(data):
    job = parse(data)
    yes = ["no", "yes"]
    out = [
        ["degrees", *map(str, job.degrees)],
        ["controls", *map(str, job.counts)],
        ["periodic", yes[job.flags & 1], yes[job.flags >> 1]],
        ["knots_u", *map(word, job.knots[0])],
        ["knots_v", *map(word, job.knots[1])],
    ]
    for i, weight in enumerate(job.weights):
        out.append(["control", *map(word, job.coordinates[3 * i : 3 * i + 3]), "weight", word(weight)])
    out += [["window", *map(word, job.window)]] if job.window else []
    out += [["tolerance", word(job.tolerance)], ["budget", str(job.budget)]]
    out += [["mark", *map(word, mark)] for mark in job.marks]
    return "".join(" ".join(words) + "\n" for words in out)


# ---- a printout

DECIMAL = "(0|[1-9][0-9]*)"
MARKS = re.compile(f"marks {DECIMAL}")
EARLIER = f"([0-9a-f]{{16}}) ([0-9a-f]{{16}}) {DECIMAL}"
PAIR = re.compile(f"{EARLIER} ([0-4])")
REFUSAL = re.compile(f"refused {DECIMAL} at {DECIMAL}")


def whole_printout(text):
    """A printout. No part of one passes for it, but `marks 0` for that with its refusal after it."""
    if not text.endswith("\n"):
        raise Malformed("the printout is not whole: it does not end in a newline")
    lines = text[:-1].split("\n")
    if lines == ["refused 12 at 0"]:
        return Printout(None, [], (12, 0))
    first = MARKS.fullmatch(lines[0])
    if not first:
        raise Malformed(f"`{lines[0]}` is no first line of a printout")
    marks, refused = int(first[1]), REFUSAL.fullmatch(lines[-1])
    pairs = [pair(line) for line in (lines[1:-1] if refused else lines[1:])]
    refusal = (int(refused[1]), int(refused[2])) if refused else None
    if refusal and not refusal[1] == len(pairs) <= max(marks - 1, 0):
        raise Malformed(f"the printout is not whole: {len(pairs)} pairs of {marks}, and mark {refusal[1]} refused")
    if not refusal and len(pairs) != marks:
        raise Malformed(f"the printout is not whole: {len(pairs)} pairs of {marks}")
    return Printout(marks, pairs, refusal)


def pair(line):
    found = PAIR.fullmatch(line)
    if not found:
        raise Malformed(f"the printout is not whole: `{line}` {fault(line)}")
    u, v = (value(bytes.fromhex(bits)[::-1]) for bits in found.groups()[:2])
    return Pair(u, v, int(found[3]), int(found[4]))


def fault(line):
    """Of a line that has no pair with its end."""
    if re.fullmatch(EARLIER, line):
        return "does not say how its run ended, as in the printouts of an earlier program"
    return "is no line of a printout"


def refusal_line(printout):
    return ["refused {} at {}".format(*printout.refusal)] if printout.refusal else []


def read(text):
    """The printout in decimal and words, and the status."""
    printout = whole_printout(text)
    lines = [] if printout.marks is None else [f"marks {printout.marks}"]
    lines += [f"u {p.u!r} v {p.v!r} left {p.left} end {ENDS[p.end]}" for p in printout.pairs]
    lines += [f"{line}: {REFUSALS.get(printout.refusal[0], 'no refusal has this number')}" for line in refusal_line(printout)]
    return "".join(line + "\n" for line in lines), REFUSED if printout.refusal else 0


# ---- how far the pairs are from their marks


def library():
    """Where the proved library lies, as a shared object."""
    here = Path(__file__).resolve().parent
    beside, own = here / "libplacing.so", here.parent / "target" / "shared" / "libplacing.so"
    if "PLACING_LIBRARY" in os.environ:
        return os.environ["PLACING_LIBRARY"]
    if beside.exists():
        return beside
    if subprocess.run(["make", "-s", "-C", here.parent / "bindings" / "c", "shared"], stdout=sys.stderr).returncode:
        raise Malformed("libplacing.so is not built: PLACING_LIBRARY may name one that is")
    return own


def evaluator(job):
    """From a pair to its surface point, by the library."""
    call = ctypes.CDLL(str(library())).placing_evaluate
    call.restype = ctypes.c_uint64

    def lent(numbers):
        array = (ctypes.c_double * len(numbers)).from_buffer_copy(b"".join(numbers))
        return array, ctypes.c_size_t(len(numbers))

    surface = [ctypes.c_size_t(n) for n in job.degrees + job.counts] + [ctypes.c_uint64(job.flags)]
    for numbers in (*job.knots, job.coordinates, job.weights, job.window):
        surface += lent(numbers)

    def at(u, v):
        jet = (ctypes.c_double * 9)()
        refused = call(*surface, ctypes.c_double(u), ctypes.c_double(v), jet, ctypes.c_size_t(9))
        if refused:
            raise Malformed(f"no surface point at u {u!r} v {v!r}: refused {refused}. Is it this job's printout?")
        return jet[:3]

    return at


def distance(a, b):
    """As the library works it out."""
    x, y, z = (p - q for p, q in zip(a, b))
    return math.sqrt(x * x + y * y + z * z)


def check(data, text):
    """A line a pair with its end and its distance, and the status."""
    job, printout = parse(data), whole_printout(text)
    if printout.marks not in (None, len(job.marks)):
        raise Malformed(f"the job has {len(job.marks)} marks and the printout {printout.marks}")
    at, tolerance = evaluator(job), value(job.tolerance)
    lines, further = [], 0
    for i, (p, mark) in enumerate(zip(printout.pairs, job.marks)):
        far = distance(at(p.u, p.v), map(value, mark))
        above = not far <= tolerance
        further += above
        lines.append(f"mark {i} end {ENDS[p.end]} distance {far!r}" + (f" ABOVE the tolerance {tolerance!r}" if above else ""))
    status = REFUSED if printout.refusal else FURTHER if further else 0
    return "".join(line + "\n" for line in lines + refusal_line(printout)), status


def main(arguments):
    source = sys.stdin.buffer
    turns = {
        ("pack", 1): lambda: (pack(source.read().decode()), 0),
        ("unpack", 1): lambda: (unpack(source.read()), 0),
        ("read", 1): lambda: read(source.read().decode()),
        ("check", 3): lambda: check(Path(arguments[1]).read_bytes(), Path(arguments[2]).read_bytes().decode()),
    }
    turn = turns.get((arguments[0] if arguments else "", len(arguments)))
    if not turn:
        print(__doc__, file=sys.stderr)
        sys.exit(2)
    try:
        out, status = turn()
    except (Malformed, ValueError, OSError) as why:
        sys.exit(f"job.py: {why}")
    sys.stdout.buffer.write(out if isinstance(out, bytes) else out.encode())
    sys.exit(status)


if __name__ == "__main__":
    main(sys.argv[1:])
