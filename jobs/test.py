#!/usr/bin/env python3
"""Tests of the placing program as an operator runs it, of `quote` beside it, and of job.py: jobs/test.py PROGRAM"""

import errno
import fcntl
import math
import os
import re
import shutil
import socket
import struct
import subprocess
import sys
import tempfile
import unittest
from concurrent.futures import ThreadPoolExecutor
from functools import partial
from pathlib import Path

sys.dont_write_bytecode = True
import job

HERE = Path(__file__).resolve().parent
SQUARE = (HERE / "square.job").read_bytes()
TEXT = (HERE / "square.txt").read_text()
PRINTED = b"marks 2\n3fd0000000000000 3fe0000000000000 908 0\n3fd0000000000000 3fe0000000000000 816 0\n"
MALFORMED = b"refused 12 at 0\n"
QUOTED = b"grid 81\nfirst 279\nlater 345\n"
program = ""


def stored():
    """The job files of crates/vectors with the printouts that the Rust gives: records of a kind, 14
    for a job, a count of words, and these, each text as its count of bytes and the bytes, eight to
    a word."""
    stream = (HERE.parent / "crates" / "vectors" / "stdin").read_bytes()
    at = 0

    def text(at):
        (count,) = struct.unpack_from("<Q", stream, at)
        return stream[at + 8 : at + 8 + count], at + 8 + (count + 7) // 8 * 8

    while at < len(stream):
        kind, words = struct.unpack_from("<2Q", stream, at)
        if kind == 14:
            file, after = text(at + 16)
            yield file, text(after)[0]
        at += 16 + 8 * words


STORED = list(stored())


def installed(name):
    return program if name == "place" else os.path.join(os.path.dirname(program), name)


def run(name, source, arguments=(), sink=subprocess.PIPE, command=(), **settings):
    """What a program writes to standard output and says on standard error."""
    ran = subprocess.run([*command, installed(name), *arguments], stdin=source, stdout=sink, stderr=subprocess.PIPE, timeout=60, **settings)
    return ran.stdout, ran.stderr.decode()


def run_bytes(name, file, **settings):
    with tempfile.TemporaryFile() as source:
        source.write(file)
        source.seek(0)
        return run(name, source, **settings)


def run_pieces(name, pieces):
    """Each piece is the answer of one read: a packet is read whole, and never with the next."""
    here, there = socket.socketpair(socket.AF_UNIX, socket.SOCK_SEQPACKET)
    with here, subprocess.Popen([installed(name)], stdin=there, stdout=subprocess.PIPE, stderr=subprocess.PIPE) as run:
        there.close()
        for piece in pieces:
            here.send(piece)
        here.close()
        wrote, said = run.communicate(timeout=60)
        return wrote, said.decode()


place, place_bytes, place_pieces = partial(run, "place"), partial(run_bytes, "place"), partial(run_pieces, "place")
quote, quote_bytes, quote_pieces = partial(run, "quote"), partial(run_bytes, "quote"), partial(run_pieces, "quote")


def version():
    cargo = (HERE.parent / "bindings" / "rust" / "Cargo.toml").read_text()
    (found,) = (line.split('"')[1] for line in cargo.splitlines() if line.startswith("version ="))
    return found


def at_records(file):
    """Cut before each record's mark, as far as the file has marks at these places."""
    try:
        found = job.parse(file)
    except job.Malformed:
        return [file]
    cuts = [0, len(file) - 26 * len(found.marks) - 18]
    cuts += range(len(file) - 26 * len(found.marks), len(file), 26)
    return [file[a:b] for a, b in zip(cuts, [*cuts[1:], len(file)])]


def run_job(*arguments, text=b"", **settings):
    command = [sys.executable, HERE / "job.py", *arguments]
    return subprocess.run(command, input=text, stdout=subprocess.PIPE, stderr=subprocess.PIPE, timeout=600, **settings)


class Program(unittest.TestCase):
    def test_stored_files_print_what_the_source_gives(self):
        for file, printout in STORED:
            self.assertEqual(place_bytes(file), (printout, ""))

    def test_pieces_make_the_whole(self):
        for file, printout in STORED:
            self.assertEqual(place_pieces(at_records(file)), (printout, ""))
            self.assertEqual(place_pieces(struct.pack("B", byte) for byte in file), (printout, ""))

    def test_records_are_cut_where_they_begin(self):
        self.assertEqual([piece[:2] for piece in at_records(SQUARE)], [b"SF", b"TL", b"MK", b"MK"])

    def test_no_more_than_the_room_is_read(self):
        for size in (32768, 32769, 32770, 200000):
            self.assertEqual(place_bytes(b"SF" + bytes(size - 2)), (MALFORMED, ""))

    def test_many_at_once(self):
        with ThreadPoolExecutor(16) as pool:
            for found in pool.map(place_bytes, [SQUARE] * 200):
                self.assertEqual(found, (PRINTED, ""))

    def test_anywhere_and_through_a_link(self):
        with tempfile.TemporaryDirectory() as folder:
            link = os.path.join(folder, "link")
            os.symlink(os.path.relpath(program, folder), link)
            with open(HERE / "square.job", "rb") as source:
                ran = subprocess.run([link], stdin=source, capture_output=True, cwd=folder, env={}, timeout=60)
            self.assertEqual((ran.stdout, ran.stderr), (PRINTED, b""))

    def test_alone_in_an_empty_root(self):
        self.is_alone("place", PRINTED)

    def test_a_quote_alone_in_an_empty_root(self):
        self.is_alone("quote", QUOTED)

    def is_alone(self, name, printed):
        with tempfile.TemporaryDirectory() as root, open(HERE / "square.job", "rb") as source:
            shutil.copy(installed(name), Path(root, name))

            def enter():
                os.chroot(root)
                os.chdir("/")

            try:
                ran = subprocess.run(["/" + name], stdin=source, capture_output=True, timeout=60, env={}, preexec_fn=enter)
            except subprocess.SubprocessError:
                self.skipTest("no other root may be had here")
            self.assertEqual((ran.stdout, ran.stderr), (printed, b""))
            self.assertEqual(os.listdir(root), [name])

    def test_failed_reads_are_told(self):
        reader, writer = os.pipe()
        os.set_blocking(reader, False)
        folder = os.open("/", os.O_RDONLY)
        for source, cause in ((reader, errno.EAGAIN), (folder, errno.EISDIR), (writer, errno.EBADF)):
            self.assertEqual(place(source), (MALFORMED, f"the job could not be read: {os.strerror(cause)}\n"))
            os.close(source)
        closed = place(None, command=["sh", "-c", 'exec "$0" <&-'])
        self.assertEqual(closed, (MALFORMED, f"the job could not be read: {os.strerror(errno.EBADF)}\n"))

    def test_an_empty_input_is_malformed_and_no_failure(self):
        self.assertEqual(place(subprocess.DEVNULL), (MALFORMED, ""))

    def test_a_printout_that_is_not_whole_is_told(self):
        with open("/dev/full", "wb") as full:
            said = place_bytes(SQUARE, sink=full)[1]
            self.assertEqual(said, f"the printout is not whole: {os.strerror(errno.ENOSPC)}\n")
        said = place_bytes(SQUARE, sink=None, command=["sh", "-c", 'exec "$0" >&-'])[1]
        self.assertEqual(said, f"the printout is not whole: {os.strerror(errno.EBADF)}\n")

    def test_a_printout_in_pieces(self):
        """A pipe of one page, read late, takes a long printout a part at a time."""
        file = job.pack(TEXT.replace("budget 1000", "budget 4000000000") + "mark 0.25 0.5 0.75\n" * 1200)
        with tempfile.TemporaryFile() as source:
            source.write(file)
            source.seek(0)
            with subprocess.Popen([program], stdin=source, stdout=subprocess.PIPE, stderr=subprocess.PIPE) as run:
                fcntl.fcntl(run.stdout, fcntl.F_SETPIPE_SZ, 4096)
                wrote, said = run.communicate(timeout=60)
        self.assertEqual(said, b"")
        self.assertEqual(len(job.whole_printout(wrote.decode()).pairs), 1202)

    def taken(self, tolerance, heights):
        """What each mark takes of the budget: marks above one point of the square."""
        text = TEXT[: TEXT.index("\nmark") + 1].replace("tolerance 0.5", f"tolerance {tolerance!r}")
        wrote, said = place_bytes(job.pack(text + "".join(f"mark 0.25 0.5 {height}\n" for height in heights)))
        self.assertEqual(said, "")
        pairs = job.whole_printout(wrote.decode()).pairs
        self.assertEqual([(p.u, p.v) for p in pairs], [(0.25, 0.5)] * len(heights))
        left = [1000, *(p.left for p in pairs)]
        return [before - after for before, after in zip(left, left[1:])]

    def test_a_close_mark_leads_the_next(self):
        self.assertEqual(self.taken(1.0, [0.75, 0.75]), [92, 1])
        self.assertEqual(self.taken(0.75, [0.75, 0.75]), [92, 1])

    def test_a_lost_mark_does_not_lead_the_next(self):
        self.assertEqual(self.taken(0.5, [0.75, 0.75]), [92, 92])
        self.assertEqual(self.taken(math.nextafter(0.75, 0), [0.75, 0.75]), [92, 92])
        self.assertEqual(self.taken(0.5, [0, 0.75, 0, 0]), [92, 94, 92, 1])

    def test_an_argument_asks_for_the_version(self):
        wrote, said = place(subprocess.DEVNULL, ["--version"])
        self.assertEqual((wrote, said), (b"", f"place {version()}\nusage: place < JOB > PRINTOUT\n"))


class Windows(unittest.TestCase):
    """The square through a window."""

    BESIDE = "mark 0.9 0.5 0.75\n"

    def text(self, window, periodic="no no", marks=BESIDE):
        text = TEXT[: TEXT.index("\nmark") + 1].replace("periodic no no", f"periodic {periodic}")
        return text.replace("tolerance", f"window {window}\ntolerance") + marks

    def placed(self, *arguments, **named):
        wrote, said = place_bytes(job.pack(self.text(*arguments, **named)))
        self.assertEqual(said, "")
        return [(p.u, p.v, p.left, p.end) for p in job.whole_printout(wrote.decode()).pairs]

    def test_four_numbers_follow_the_weights(self):
        plain, file = job.pack(TEXT), job.pack(TEXT.replace("tolerance", "window 0.25 0.75 0 1\ntolerance"))
        at = plain.index(b"TL")
        window = struct.pack("<4d", 0.25, 0.75, 0, 1)
        self.assertEqual(file, plain[:8] + b"\x04" + plain[9:at] + window + plain[at:])

    def test_there_and_back(self):
        for periodic, flags in (("no no", 4), ("yes no", 5), ("no yes", 6), ("yes yes", 7)):
            for window in ("0 1 0 1", "-0.0 1 0.25 0.5", "5 -5 inf -inf", "0x7ff8000000000001 1 0 1"):
                file = job.pack(self.text(window, periodic))
                self.assertEqual(file[8], flags)
                self.assertEqual(job.pack(job.unpack(file)), file)
        self.assertIn("\nwindow 0.25 0.75 0.0 1.0\ntolerance", job.unpack(job.pack(self.text("0.25 0.75 0 1"))))
        self.assertNotIn("window", job.unpack(SQUARE))

    def test_damaged_texts(self):
        line, text = "window 0 1 0 1\n", self.text("0 1 0 1")
        for damaged in ("window\n", "window 0 1 0\n", "window 0 1 0 1 0\n", "window 0 1 0 nan\n", line * 2):
            self.assertRaises(job.Malformed, job.pack, text.replace(line, damaged))
        self.assertRaises(job.Malformed, job.pack, TEXT + line)
        self.assertRaises(job.Malformed, job.pack, line + TEXT)

    def test_marks_stay_inside(self):
        self.assertEqual(self.placed("0.25 0.75 0 1"), [(0.75, 0.5, 908, 0)])
        self.assertEqual(self.placed("0.25 0.75 0 1", marks="mark 0 0.5 0.75\nmark 0.375 0.5 0\n"),
                         [(0.25, 0.5, 908, 0), (0.375, 0.5, 816, 0)])
        self.assertEqual(self.placed("0 1 0.5 0.75", marks="mark 0.25 9 0.75\n"), [(0.25, 0.75, 908, 0)])
        self.assertEqual(self.placed("0 1 0.5 0.75", "yes no", marks="mark 0.25 0 0.75\n"), [(0.25, 0.5, 908, 0)])
        self.assertEqual(self.placed("0.25 0.75 0 1", "no yes"), [(0.75, 0.5, 908, 0)])

    def test_the_domain_for_a_window_changes_nothing(self):
        self.assertEqual(place_bytes(job.pack(self.text("0 1 0 1", marks="mark 0.25 0.5 0.75\n" * 2))), (PRINTED, ""))

    def test_refused_windows(self):
        refused = (b"marks 1\nrefused 24 at 0\n", "")
        for window in ("0.75 0.25 0 1", "0.5 0.5 0 1", "-0.5 0.5 0 1", "0.5 1.5 0 1", "0 1 -1 0.5", "0 1 0.5 2",
                       "0 inf 0 1", "0 1 -inf 1", "0x7ff8000000000000 1 0 1", "0 1 0 0x7ff8000000000000"):
            self.assertEqual(place_bytes(job.pack(self.text(window))), refused)
        for window, periodic in (("0 0.5 0 1", "yes no"), ("0.5 1 0 1", "yes yes"), ("0 1 0.5 1", "no yes")):
            self.assertEqual(place_bytes(job.pack(self.text(window, periodic))), refused)
        self.assertEqual(place_bytes(job.pack(self.text("1 0 0 1", marks=""))), (b"marks 0\nrefused 24 at 0\n", ""))

    def test_the_order_of_refusals(self):
        text = self.text("1 0 0 1")
        self.assertEqual(place_bytes(job.pack(text.replace("knots_v 0 0", "knots_v 9 0"))), (b"marks 1\nrefused 6 at 0\n", ""))
        for old, new in (("tolerance 0.5", "tolerance -1"), ("budget 1000", "budget 0"), ("mark 0.9", "mark inf")):
            self.assertIn(old, text)
            self.assertEqual(place_bytes(job.pack(text.replace(old, new))), (b"marks 1\nrefused 24 at 0\n", ""))

    def test_malformed_files(self):
        file = job.pack(self.text("0 1 0 1"))
        at = file.index(b"TL")
        flags = [file[:8] + bytes([byte]) + file[9:] for byte in (0, 3, 8, 12, 255)]
        cut = [file[:end] for end in (at - 32, at - 8, at - 1, at, len(file) - 1)]
        gone = [file[: at - count] + file[at:] for count in (1, 8, 32)]
        bare = [SQUARE[:8] + bytes([byte]) + SQUARE[9:] for byte in (4, 7, 8)]
        for damaged in flags + cut + gone + bare:
            self.assertRaises(job.Malformed, job.unpack, damaged)
            self.assertEqual(place_bytes(damaged), (MALFORMED, ""))

    def test_the_largest_file(self):
        file = job.pack(self.text("0 1 0 1", marks="").replace("budget 1000", "budget 4000000000"))
        room = (32768 - len(file)) // 26
        file += (b"MK" + struct.pack("<3d", 0.25, 0.5, 0)) * room
        self.assertEqual(len(job.whole_printout(place_bytes(file)[0].decode()).pairs), room)
        self.assertEqual(len(job.parse(file).marks), room)
        self.assertEqual(place_bytes(file + bytes(32769 - len(file))), (MALFORMED, ""))

    def test_pieces_make_the_whole(self):
        for window in ("0.25 0.75 0 1", "1 0 0 1"):
            file = job.pack(self.text(window))
            self.assertEqual(place_pieces(at_records(file)), place_bytes(file))
            self.assertEqual(place_pieces(struct.pack("B", byte) for byte in file), place_bytes(file))


def values(knots, degree, count, ends):
    """How many values the grid has on an axis. Between the ends of the window, or of the knot domain,
    every n-th of the distinct knots is a break, so that there are 24 at most, and the upper end is
    one more; eight values for each span between two of them, and the upper end."""
    low, high = ends or (knots[degree], knots[count])
    distinct = sorted({low, high, *(t for t in knots if low < t < high)})
    breaks = {*distinct[:: math.ceil(len(distinct) / 24)], high}
    return 8 * (len(breaks) - 1) + 1


def grid(file):
    """How many points the grid of a job's surface has."""
    found = job.parse(file)
    window = [job.value(end) for end in found.window]
    axes = zip(found.knots, found.degrees, found.counts, (window[:2], window[2:]))
    u, v = (values([job.value(t) for t in knots], *rest) for knots, *rest in axes)
    return u * v


def quote_of(points):
    return f"grid {points}\nfirst {points + 198}\nlater {points + 264}\n".encode()


class Quotes(unittest.TestCase):
    """The program that reads a job and tells what its marks can cost at most."""

    OF_THE_SURFACE = {1, 2, 3, 4, 5, 6, 24}

    def expected(self, file, printout):
        """From the printout of the same file."""
        refused = job.whole_printout(printout.decode()).refusal
        if refused and refused[0] in {12, *self.OF_THE_SURFACE}:
            return f"refused {refused[0]} at 0\n".encode()
        return quote_of(grid(file))

    def is_refused(self, text, number):
        """As the placing program refuses the surface, but without a count of marks."""
        file = job.pack(text)
        refused = f"refused {number} at 0\n".encode()
        self.assertEqual(quote_bytes(file), (refused, ""))
        self.assertEqual(place_bytes(file), (b"marks 2\n" + refused, ""))

    def longer(self, count, knots):
        """The square with so many controls along u, and these knots."""
        text = TEXT.replace("controls 2 2", f"controls {count} 2").replace("knots_u 0 0 1 1", f"knots_u {knots}")
        return text.replace("tolerance", "control 0 0 0 weight 1\n" * (2 * count - 4) + "tolerance")

    def test_the_square(self):
        self.assertEqual(quote_bytes(SQUARE), (QUOTED, ""))
        self.assertEqual(quote_of(grid(SQUARE)), QUOTED)

    def test_stored_files(self):
        for file, printout in STORED:
            self.assertEqual(quote_bytes(file), (self.expected(file, printout), ""))

    def test_stored_jobs_take_no_more(self):
        """Than the quotes of their marks; and with so many units for a budget no mark goes without."""
        placed = 0
        for file, printout in STORED:
            wrote = quote_bytes(file)[0].decode()
            if "refused" in wrote or not (marks := len(job.parse(file).marks)):
                continue
            first, later = (int(line.split()[1]) for line in wrote.splitlines()[1:])
            most = first + (marks - 1) * later
            pairs = job.whole_printout(printout.decode()).pairs
            if pairs:
                self.assertLessEqual(job.parse(file).budget - pairs[-1].left, most)
            at = len(file) - 26 * marks - 8
            ample = file[:at] + struct.pack("<Q", most) + file[at + 8 :]
            self.assertNotIn(b"refused 8", place_bytes(ample)[0])
            placed += len(pairs) == marks
        self.assertGreater(placed, 200)

    def test_an_axis_of_many_knots(self):
        for distinct, count in ((2, 9), (24, 185), (25, 97), (47, 185), (48, 193), (49, 129), (71, 193), (73, 145), (96, 193), (97, 161)):
            knots = " ".join(map(str, [0, *range(distinct), distinct - 1]))
            file = job.pack(self.longer(distinct, knots))
            self.assertEqual(grid(file), 9 * count)
            self.assertEqual(quote_bytes(file), (quote_of(9 * count), ""))

    def test_windows(self):
        text = self.longer(4, "0 0 1 2 3 3")
        self.assertEqual(quote_bytes(job.pack(text)), (quote_of(25 * 9), ""))
        for window, points in (("0 3 0 1", 25 * 9), ("0 1 0 1", 9 * 9), ("1 2 0.25 0.5", 9 * 9), ("0.5 2.5 0 1", 25 * 9),
                               ("0.5 2 0 0.5", 17 * 9), ("1.25 1.5 0 1", 9 * 9)):
            file = job.pack(text.replace("tolerance", f"window {window}\ntolerance"))
            self.assertEqual(grid(file), points)
            self.assertEqual(quote_bytes(file), (quote_of(points), ""))

    def test_malformed_files(self):
        whole = [len(SQUARE) - 52, len(SQUARE) - 26]
        cut = [SQUARE[:end] for end in range(len(SQUARE)) if end not in whole]
        flags = [SQUARE[:8] + bytes([byte]) + SQUARE[9:] for byte in (4, 7, 8, 255)]
        for file in cut + flags + [b"", SQUARE + b"M", SQUARE.replace(b"TL", b"TT"), b"SF" + bytes(32766), b"SF" + bytes(200000)]:
            self.assertEqual(quote_bytes(file), (MALFORMED, ""))

    # A fault of the square each, the last to be found first, with the changes of its text.
    FAULTS = (
        (24, {"tolerance": "window 1 0 0 1\ntolerance"}),
        (6, {"knots_v 0 0": "knots_v 9 0"}),
        (5, {"degrees 1 1": "degrees 1 17", "knots_v": "knots_v" + " 0" * 16}),
        (6, {"knots_u 0 0": "knots_u 0 0x7ff8000000000000"}),
        (5, {"degrees 1 ": "degrees 17 ", "knots_u": "knots_u" + " 0" * 16}),
        (4, {"weight 1": "weight 0"}),
        (3, {"control 0 0 0": "control 0 0 inf"}),
    )

    def faulty(self, text, changes):
        for old, new in changes.items():
            self.assertIn(old, text)
            text = text.replace(old, new, 1)
        return text

    def test_refused_surfaces(self):
        for number, changes in self.FAULTS:
            self.is_refused(self.faulty(TEXT, changes), number)

    def test_the_order_of_refusals(self):
        """Each surface has the faults of all those before it too."""
        text = TEXT
        for number, changes in self.FAULTS:
            text = self.faulty(text, changes)
            self.is_refused(text, number)

    def test_terms_and_marks_are_not_looked_at(self):
        for old, new in (("tolerance 0.5", "tolerance -1"), ("tolerance 0.5", "tolerance 0x7ff8000000000000"), ("budget 1000", "budget 0"),
                         ("budget 1000", f"budget {2**64 - 1}"), ("mark 0.25", "mark inf"), ("mark 0.25 0.5 0.75\n", "")):
            self.assertIn(old, TEXT)
            self.assertEqual(quote_bytes(job.pack(TEXT.replace(old, new))), (QUOTED, ""))

    def test_pieces_make_the_whole(self):
        for file, printout in STORED:
            self.assertEqual(quote_pieces(at_records(file)), (self.expected(file, printout), ""))
        for file, expected in ((SQUARE, QUOTED), (SQUARE[:-1], MALFORMED)):
            self.assertEqual(quote_pieces(struct.pack("B", byte) for byte in file), (expected, ""))

    def test_both_programs_at_once(self):
        with ThreadPoolExecutor(16) as pool:
            for name, found in zip(["place", "quote"] * 50, pool.map(run_bytes, ["place", "quote"] * 50, [SQUARE] * 100)):
                self.assertEqual(found, (PRINTED if name == "place" else QUOTED, ""))

    def test_anywhere_and_through_a_link(self):
        with tempfile.TemporaryDirectory() as folder:
            link = os.path.join(folder, "link")
            os.symlink(os.path.relpath(installed("quote"), folder), link)
            with open(HERE / "square.job", "rb") as source:
                ran = subprocess.run([link], stdin=source, capture_output=True, cwd=folder, env={}, timeout=60)
            self.assertEqual((ran.stdout, ran.stderr), (QUOTED, b""))

    def test_failed_reads_are_told(self):
        folder = os.open("/", os.O_RDONLY)
        self.assertEqual(quote(folder), (MALFORMED, f"the job could not be read: {os.strerror(errno.EISDIR)}\n"))
        os.close(folder)
        closed = quote(None, command=["sh", "-c", 'exec "$0" <&-'])
        self.assertEqual(closed, (MALFORMED, f"the job could not be read: {os.strerror(errno.EBADF)}\n"))
        self.assertEqual(quote(subprocess.DEVNULL), (MALFORMED, ""))

    def test_a_quote_that_is_not_whole_is_told(self):
        with open("/dev/full", "wb") as full:
            said = quote_bytes(SQUARE, sink=full)[1]
            self.assertEqual(said, f"the quote is not whole: {os.strerror(errno.ENOSPC)}\n")
        said = quote_bytes(SQUARE, sink=None, command=["sh", "-c", 'exec "$0" >&-'])[1]
        self.assertEqual(said, f"the quote is not whole: {os.strerror(errno.EBADF)}\n")

    def test_an_argument_asks_for_the_version(self):
        for arguments in (["--version"], [""], ["place", "quote"], [str(HERE / "square.job")]):
            with open(HERE / "square.job", "rb", buffering=0) as source:
                self.assertEqual(quote(source, arguments), (b"", f"quote {version()}\nusage: quote < JOB\n"))
                self.assertEqual(source.tell(), 0)


class Service(unittest.TestCase):
    """As docs/BOX.md has it: four files in one folder, the jobs in another."""

    def test_place_and_check(self):
        with tempfile.TemporaryDirectory() as box, tempfile.TemporaryDirectory() as jobs:
            shutil.copy(program, Path(box, "place"))
            shutil.copy(job.library(), Path(box, "libplacing.so"))
            for file in ("job.py", "place-and-check"):
                shutil.copy(HERE / file, box)
            texts = {
                "near": TEXT.replace("tolerance 0.5", "tolerance 0.75"),
                "far": TEXT,
                "short": TEXT.replace("budget 1000", "budget 1"),
                "none": TEXT[: TEXT.index("\nmark") + 1],
            }
            for name, text in texts.items():
                Path(jobs, name + ".job").write_bytes(job.pack(text))
            Path(jobs, "unread.job").mkdir()
            for name, status in (("near", 0), ("far", job.FURTHER), ("short", job.REFUSED), ("none", 0), ("unread", 1)):
                ran = subprocess.run([Path(box, "place-and-check"), name], cwd=jobs, capture_output=True, timeout=60)
                self.assertEqual((ran.returncode, ran.stdout, bool(ran.stderr)), (status, b"", name == "unread"))
                self.assertEqual(Path(jobs, name + ".printout").exists(), status == 0)
            self.assertIn("mark 1 end unchanged distance 0.75\n", Path(jobs, "near.distances").read_text())


class Words(unittest.TestCase):
    def test_there_and_back(self):
        self.assertEqual(job.pack(TEXT), SQUARE)
        for file, printout in STORED:
            if printout == MALFORMED:
                self.assertRaises(job.Malformed, job.unpack, file)
            else:
                self.assertEqual(job.pack(job.unpack(file)), file)

    def test_damaged_texts(self):
        lines = TEXT.splitlines(keepends=True)
        needed = [i for i, line in enumerate(lines) if not line.startswith(("#", "mark"))]
        for i in needed:
            for damaged in ("", lines[i].rstrip() + " 1\n", "knots_w 0\n", lines[i] * 2):
                self.assertRaises(job.Malformed, job.pack, "".join(lines[:i] + [damaged] + lines[i + 1 :]))
        for old, new in (("knots_u 0 0", "knots_u 0 nan"), ("knots_u 0", "knots_u 0x00"), ("degrees 1", "degrees 256"),
                         ("no no", "no maybe"), ("budget 1000", "budget -1"), ("weight 1", "wait 1")):
            self.assertIn(old, TEXT)
            self.assertRaises(job.Malformed, job.pack, TEXT.replace(old, new, 1))
        self.assertRaises(ValueError, job.pack, TEXT.replace("tolerance 0.5", "tolerance half"))

    def test_texts_over_long(self):
        room = (32768 - len(SQUARE)) // 26
        self.assertEqual(len(job.pack(TEXT + "mark 0 0 0\n" * room)), len(SQUARE) + 26 * room)
        self.assertRaises(job.Malformed, job.pack, TEXT + "mark 0 0 0\n" * (room + 1))

    def test_status(self):
        self.assertEqual(run_job("pack", text=TEXT.encode()).stdout, SQUARE)
        for arguments, text, status in ((["unpack"], SQUARE, 0), (["unpack"], SQUARE[:-1], 1), (["pack"], b"degrees", 1),
                                        (["pack"], b"\xff", 1), ([], b"", 2), (["pick"], b"", 2), (["check", "one"], b"", 2),
                                        (["check", "no such job", "nor printout"], b"", 1)):
            ran = run_job(*arguments, text=text)
            self.assertEqual((ran.returncode, bool(ran.stdout), bool(ran.stderr)), (status, status == 0, status != 0))


class Printouts(unittest.TestCase):
    def test_whole_and_no_part_of_it(self):
        for _, printout in STORED:
            text = printout.decode()
            self.assertEqual(job.read(text)[1], job.REFUSED if "refused" in text else 0)
            for part in (text[:cut] for cut in range(len(text))):
                if part != "marks 0\n":
                    self.assertRaises(job.Malformed, job.whole_printout, part)

    def test_not_whole(self):
        pair = "3fd0000000000000 3fe0000000000000 908 0\n"
        for text in (pair, "marks 1\n" + pair * 2, "marks 2\n" + pair + "refused 9 at 0\n", "marks 1\n" + pair + "refused 9 at 1\n",
                     "marks 1\nrefused 9 at 0\n" + pair, "marks 01\n" + pair, "marks 1\n" + pair.upper(), "marks 1\n\n" + pair,
                     "refused 4 at 0\n", "marks 0\n" + pair, "marks 1\r\n" + pair):
            self.assertRaises(job.Malformed, job.whole_printout, text)

    def test_ends(self):
        pair = "marks 1\n3fd0000000000000 3fe0000000000000 908"
        for digit, words in enumerate(job.ENDS):
            self.assertEqual(job.read(f"{pair} {digit}\n"), (f"marks 1\nu 0.25 v 0.5 left 908 end {words}\n", 0))
        for end in (" 5", " 9", " 00", " 01", " -1", " +1", " 0x0", " ", "  0", " 0 ", " 0 0", "\t0", " \u0661", " a"):
            self.assertRaises(job.Malformed, job.whole_printout, f"{pair}{end}\n")

    def test_the_words_of_an_end_are_those_of_the_header(self):
        header = (HERE.parent / "bindings" / "c" / "placing.h").read_text()
        self.assertEqual(tuple(re.findall(r'case PLACING_END_\w+:\s+return "(.*)";', header)), job.ENDS)

    def test_the_words_of_a_refusal_are_those_of_the_header(self):
        header = (HERE.parent / "bindings" / "c" / "placing.h").read_text()
        numbers = dict(re.findall(r"(PLACING_\w+) = (\d+)", header))
        found = re.findall(r'case (PLACING_\w+):\s+return ((?:".*"\s*)+);', header)
        words = {int(numbers[name]): "".join(re.findall('"(.*)"', text)) for name, text in found if "_END_" not in name}
        self.assertEqual({**job.REFUSALS, 99: words[99]}, words)
        for number in job.REFUSALS:
            self.assertEqual(job.read(f"marks 1\nrefused {number} at 0\n"), (f"marks 1\nrefused {number} at 0: {words[number]}\n", 3))
        self.assertEqual(job.read("marks 1\nrefused 13 at 0\n")[1], 3)

    def test_cut_before_the_digit(self):
        front = PRINTED.decode().removesuffix("816 0\n")
        for rest in ("", "8", "816", "816 ", "816 0", "\n", "8\n", "816\n", "816 \n"):
            self.assertRaises(job.Malformed, job.whole_printout, front + rest)
        self.assertEqual(len(job.whole_printout(front + "816 0\n").pairs), 2)

    def test_the_earlier_form_is_told(self):
        earlier = PRINTED.replace(b" 0\n", b"\n")
        ran = run_job("read", text=earlier)
        self.assertEqual((ran.returncode, ran.stdout), (1, b""))
        self.assertIn(b"not whole: `3fd0000000000000 3fe0000000000000 908` does not say how its run ended", ran.stderr)
        mixed = PRINTED.replace(b"816 0\n", b"816\n")
        self.assertIn(b"816` does not say how its run ended", run_job("read", text=mixed).stderr)

    def test_status(self):
        for text, status in ((PRINTED, 0), (MALFORMED, 3), (b"marks 1\nrefused 8 at 0\n", 3), (PRINTED[:-2], 1), (b"", 1)):
            ran = run_job("read", text=text)
            self.assertEqual((ran.returncode, bool(ran.stdout), bool(ran.stderr)), (status, status != 1, status == 1))
        self.assertIn(b"u 0.25 v 0.5 left 816 end unchanged\n", run_job("read", text=PRINTED).stdout)


class Distances(unittest.TestCase):
    def check(self, text, printout=None):
        """A job in words, with its own printout or another."""
        with tempfile.TemporaryDirectory() as folder:
            file, printed = Path(folder, "job"), Path(folder, "printout")
            file.write_bytes(job.pack(text))
            printed.write_bytes(place_bytes(file.read_bytes())[0] if printout is None else printout)
            return run_job("check", file, printed)

    def test_marks_beyond_the_tolerance(self):
        near = self.check(TEXT.replace("tolerance 0.5", "tolerance 0.75"))
        self.assertEqual((near.returncode, near.stdout), (0, b"mark 0 end unchanged distance 0.75\nmark 1 end unchanged distance 0.75\n"))
        far = self.check(TEXT + "mark 0.25 0.5 1e9\nmark 0.5 0.5 0.5\n")
        self.assertEqual(far.returncode, 4)
        self.assertEqual([b"ABOVE" in line for line in far.stdout.splitlines()], [True, True, True, False])
        self.assertIn(b"mark 2 end unchanged distance 1000000000.0 ABOVE the tolerance 0.5\n", far.stdout)

    def test_a_window(self):
        text = TEXT.replace("tolerance 0.5", "window 0.25 0.75 0 1\ntolerance 0.8")
        inside = self.check(text)
        self.assertEqual((inside.returncode, inside.stdout.count(b"distance 0.75\n")), (0, 2))
        beside = self.check(text + "mark 0.9 0.5 0.75\nmark 0.99 0.5 0\nmark 1.6 0.5 0\n")
        self.assertEqual(beside.returncode, 4)
        self.assertEqual([b"ABOVE" in line for line in beside.stdout.splitlines()], [False] * 4 + [True])
        self.assertIn(f"mark 3 end unchanged distance {0.99 - 0.75!r}\n".encode(), beside.stdout)
        refused = self.check(text.replace("0.25 0.75", "0.75 0.25"))
        self.assertEqual((refused.returncode, refused.stdout), (3, b"refused 24 at 0\n"))

    def test_a_refused_job(self):
        short = self.check(TEXT.replace("budget 1000", "budget 100"))
        self.assertEqual((short.returncode, short.stdout.splitlines()[1:]), (3, [b"refused 8 at 1"]))

    def test_another_jobs_printout(self):
        for other in (b"marks 0\n", PRINTED[:-1], PRINTED.replace(b"3fd", b"43d")):
            ran = self.check(TEXT, other)
            self.assertEqual((ran.returncode, ran.stdout), (1, b""))


if __name__ == "__main__":
    if len(sys.argv) != 2:
        sys.exit(__doc__)
    program = os.path.abspath(sys.argv.pop())
    unittest.main()
