#!/usr/bin/env python3
"""Runs the built programs again and again, each time with another of their calls of the system failing.

    benchmarks/failing_calls.py [--programs FOLDER] [--only WORD] [--most N] [--jobs N]

In a clone with Rattle's kit and rustc on the path. Each allocation of a row's call is refused once, each open and each read of a
file fails once, and each write. Nothing may be half written: with an allocation refused the answer is the one that comes of all
memory, or it is 10, `no memory`, and what was printed is a front of whole pieces; with an open or a read that fails it is 2,
`cannot read NAME`, and nothing was printed; with a write that fails it is 9, and nothing is written behind it on either stream. Where
each read and each write takes one byte at once, the answer is the same.

The rows are of every command. One with more than N calls of a kind (`--most`, without it there is no bound) has so many of them fail,
spread evenly. It isn't part of the gate: the programs are those that were proved and built before, in FOLDER/NAME/out/NAME (`crates`,
if no word tells it). It ends with status 1 where a call answered otherwise, and says which.
"""
import argparse
import os
import subprocess
import sys
import tempfile
from concurrent.futures import ThreadPoolExecutor

TOP = os.path.dirname(os.path.dirname(os.path.abspath(__file__)))
RING, SUM, CROSSED = "listings/ring.lst", "listings/sum.lst", "listings/crossed.lst"
STENCIL, JACOBI = "listings/stencil.lst", "jacobi.zpl"
# the programs, and words of theirs; ROOM is a folder with an order, a wrong one, half a listing and saved grids
ROWS = [("zplgrid", row.split()) for row in [
    f"mean {JACOBI} size:=4", "mean mistakes/shifts.zpl", f"mean {JACOBI} turns=1", "mean running.zpl",
    "run sum.zpl", f"run {JACOBI} size:=4 grid=2x2 report", "run running.zpl grid=4 order=ROOM/order", "run sum.zpl grid=2 order=ROOM/order", "run transpose.zpl grid=2x2",
    f"run {JACOBI} size:=4 grid=2 opt=fcrmet turns=500", "run slips/assign.zpl", "run refused/setting.zpl n:=x", "run sum.zpl grid=65",
    "list sum.zpl", "list life.zpl grid=3", f"list {JACOBI} grid=2x2 opt=fcrmet", "list mistakes/regions.zpl",
    f"exec {RING} report order=ROOM/order", f"exec {STENCIL}", f"exec {CROSSED} links=1 report", f"exec {SUM} checked",
    f"exec {RING} order=ROOM/wrong", "exec ROOM/half.lst", f"exec {RING} turns=100 save", f"exec {STENCIL} turns=200 save",
    "resume ROOM/ring.save report", "resume ROOM/ring.save order=ROOM/order", "resume ROOM/stencil.save turns=20", "resume ROOM/half.save",
    f"time {SUM} latency=5", f"time {RING} order=ROOM/order", f"check {STENCIL}", "check listings/idle.lst", "check ROOM/half.lst",
    f"exec {STENCIL} checked order=ROOM/order", "exec listings/idle.lst checked", "exec listings/length.lst report", "time listings/tag.lst",
    "gen 1 turns=0", "gen 1", "gen 3 opt=fcrmet", "exec", "run sum.zpl turns", "exec none", "list ROOM",
]] + [("gridtrace", f"{RING} report order=ROOM/order".split()), ("gridtrace", [CROSSED]), ("relist", [STENCIL]), ("relist", ["ROOM/half.lst"])]
# texts in ROOM that are made by calls: the words, and the file that takes what is told
SAVED = {"ring.save": f"exec {RING} turns=100 save", "stencil.save": f"exec {STENCIL} turns=200 save"}
KINDS = ("allocation", "open", "read", "write")


class Answer:
    """What a call answered: its status, its bytes on both streams, and the sizes of the pieces that it put on each."""

    def __init__(self, status, out, told, log):
        self.status, self.out, self.told = status, out, told
        calls = [line.split() for line in log.decode().splitlines()]
        self.counts = {kind: sum(int(it[1]) for it in calls if it[0] == kind) for kind in KINDS}
        self.pieces = [(int(it[1]), int(it[2])) for it in calls if it[0] == "piece"]

    def fronts(self, stream):
        """How many bytes a stream has taken behind each number of its pieces."""
        ends = [0]
        for to, size in self.pieces:
            if to == stream:
                ends.append(ends[-1] + size)
        return ends


class Caller:
    """Runs the programs on the examples, with a library in front of the C library that makes one call fail."""

    def __init__(self, programs, library, room):
        self.programs, self.library, self.room = programs, library, room

    def words(self, row):
        program, words = row
        return [f"{self.programs}/{program}/out/{program}", *(it.replace("ROOM", self.room) for it in words)]

    def call(self, row, kind, number):
        """The answer where the call of this kind and number fails; with 0 none does."""
        with tempfile.TemporaryFile() as log:
            how = {**os.environ, "LD_PRELOAD": self.library, "FAILING_CALL": f"{kind} {number}", "FAILING_LOG": str(log.fileno())}
            ran = subprocess.run(self.words(row), cwd=f"{TOP}/examples", stdin=subprocess.DEVNULL, capture_output=True,
                                 env=how, pass_fds=[log.fileno()], timeout=600)
            log.seek(0)
            return Answer(ran.returncode, ran.stdout, ran.stderr, log.read())


def is_front(own, found):
    """Whether what was printed is a front of whole pieces of what is printed where nothing fails."""
    return own.out.startswith(found.out) and len(found.out) in own.fronts(1)


def wrong(own, found, kind, number):
    """What is wrong with the answer where a call fails, if something is."""
    if kind == "allocation":
        if (found.status, found.out, found.told) == (own.status, own.out, own.told):
            return None
        if found.status == 10 and found.told == b"no memory\n" and is_front(own, found):
            return None
    elif kind == "write":
        before = own.pieces[:number - 1]
        out, told = (sum(size for to, size in before if to == stream) for stream in (1, 2))
        is_last = found.counts["write"] == number
        if found.status == 9 and is_last and (found.out, found.told) == (own.out[:out], own.told[:told]):
            return None
    elif found.status == 2 and not found.out and found.told.startswith(b"cannot read ") and found.told.count(b"\n") == 1:
        return None
    return f"status {found.status}, printed {found.out[-60:]!r}, told {found.told[:80]!r}"


def numbers(count, most):
    """The numbers of the calls that fail: all, or so many of them, spread evenly."""
    if most is None or count <= most:
        return list(range(1, count + 1))
    return sorted({1 + at * (count - 1) // (most - 1) for at in range(most)})


def fails_each(caller, pool, row, most):
    """Each call of a row fails once: how many answered otherwise."""
    name = " ".join([row[0], *row[1]]).replace(caller.room, "ROOM")
    own = caller.call(row, "allocation", 0)
    short = caller.call(row, "short", 1)
    counts, wanting = own.counts, 0
    failed = int((short.status, short.out, short.told) != (own.status, own.out, own.told))
    if failed:
        print(f"{name}: with a byte at once: status {short.status}, printed {short.out[-60:]!r}, told {short.told[:80]!r}")
    for kind in KINDS:
        tried = numbers(counts[kind], most)
        for number, found in zip(tried, pool.map(lambda it: caller.call(row, kind, it), tried)):
            why = wrong(own, found, kind, number)
            failed += why is not None
            wanting += found.status == 10
            if why:
                print(f"{name}: with {kind} {number} of {counts[kind]} failing: {why}")
    said = ", ".join(f"{counts[kind]} {kind}s" for kind in KINDS)
    print(f"{name}: status {own.status}, {said}; {wanting} tell that memory is wanting, {failed} are wrong", flush=True)
    return failed


def furnish(caller):
    """Puts the order, the wrong one, half a listing and the saved grids into the room."""
    with open(f"{TOP}/examples/{RING}", "rb") as file:
        text = file.read()
    for name, content in (("order", b"3x500 2x5 0"), ("wrong", b"3 2 9"), ("half.lst", text[:len(text) // 2])):
        with open(f"{caller.room}/{name}", "wb") as file:
            file.write(content)
    for name, words in SAVED.items():
        saved = caller.call(("zplgrid", words.split()), "allocation", 0)
        with open(f"{caller.room}/{name}", "wb") as file:
            file.write(saved.told if saved.status == 8 else b"")
    with open(f"{caller.room}/ring.save", "rb") as whole, open(f"{caller.room}/half.save", "wb") as half:
        text = whole.read()
        half.write(text[:len(text) // 2])


def main():
    words = argparse.ArgumentParser(description=__doc__, formatter_class=argparse.RawDescriptionHelpFormatter)
    words.add_argument("--programs", default=f"{TOP}/crates", metavar="FOLDER")
    words.add_argument("--only", default="", metavar="WORD", help="only the rows that have this word")
    words.add_argument("--most", type=int, metavar="N")
    words.add_argument("--jobs", type=int, default=os.cpu_count(), metavar="N")
    given = words.parse_args()
    rows = [it for it in ROWS if not given.only or given.only in (it[0], *it[1])]
    for program in sorted({it[0] for it in rows}):
        if not os.path.exists(f"{given.programs}/{program}/out/{program}"):
            print(f"{program} isn't there: its rows are left out (`rt run` in its folder builds it)")
            rows = [it for it in rows if it[0] != program]
    with tempfile.TemporaryDirectory() as room, ThreadPoolExecutor(given.jobs) as pool:
        library = f"{room}/failing.so"
        made = ["rustc", "--edition", "2024", "-O", "--crate-type", "cdylib", "-C", "panic=abort", "-o", library]
        if subprocess.run([*made, f"{TOP}/benchmarks/failing_calls.rs"], check=False).returncode:
            return 1
        caller = Caller(os.path.abspath(given.programs), library, room)
        furnish(caller)
        failed = sum(fails_each(caller, pool, row, given.most) for row in rows)
    print(f"{len(rows)} rows, {failed} calls answered otherwise")
    return 1 if failed or not rows else 0


sys.exit(main())
