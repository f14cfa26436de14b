#!/usr/bin/env python3
"""A run that is cut goes on from its saved grid as if it hadn't been: what both parts print, one behind the other, the status and the counts are those of
the run that is given the turns of both: those before the cut, and then turns round the processors from the first on.

Run it at the top of the repository, where the program is built: .ci/checks/cuts.py. The code of `examples/jacobi.zpl` on 2 by 2 processors is cut after each of its
first 600 turns, and the listings of examples/listings and the codes of the other examples after each of a few.
"""
import glob
import math
import os
import subprocess
import sys
import tempfile

PROGRAM = os.path.abspath("crates/zplgrid/out/zplgrid")
MANY, FEW, APART = 600, 40, 7
LIMIT = 8


def told(place, *words):
    """The status of a call, and what it puts on its two streams."""
    ran = subprocess.run([PROGRAM, *words], cwd=place, stdin=subprocess.DEVNULL, stdout=subprocess.PIPE, stderr=subprocess.PIPE, check=False)
    return ran.returncode, ran.stdout, ran.stderr


def processors_of(place):
    """How many processors the listing in the place is for."""
    with open(f"{place}/code.lst", encoding="ascii") as listing:
        factors = next(line for line in listing if line.startswith("grid ")).split()[1:]
    return math.prod(int(it) for it in factors)


def in_parts(place, turns):
    """What a run tells that is cut after so many turns; nothing where it is over before."""
    status, first, saved = told(place, "exec", "code.lst", f"turns={turns}", "save")
    if status != LIMIT:
        return None
    with open(f"{place}/code.save", "wb") as file:
        file.write(saved)
    status, rest, errs = told(place, "resume", "code.save", "report")
    return status, first + rest, errs


def in_one(place, turns):
    """What the run tells that is given these turns as an order."""
    count = processors_of(place)
    with open(f"{place}/code.order", "w", encoding="ascii") as order:
        order.write(" ".join(str(turn % count) for turn in range(turns)))
    return told(place, "exec", "code.lst", "order=code.order", "report")


def cuts_of(place, path):
    """After which turns an example is cut, once its code is a listing in the place; none where it has no code."""
    if path.endswith(".lst"):
        with open(path, "rb") as source, open(f"{place}/code.lst", "wb") as listing:
            listing.write(source.read())
        return range(0, FEW * APART, APART)
    status, listed, _ = told(".", "list", path, "grid=2x2")
    with open(f"{place}/code.lst", "wb") as listing:
        listing.write(listed)
    if status:
        return ()
    return range(MANY + 1) if path == "examples/jacobi.zpl" else range(0, FEW * APART, APART)


def main():
    cut, wrong = 0, []
    with tempfile.TemporaryDirectory() as place:
        for path in sorted(glob.glob("examples/*.zpl") + glob.glob("examples/listings/*.lst")):
            for turns in cuts_of(place, path):
                found = in_parts(place, turns)
                if found is None:
                    break
                cut += 1
                whole = in_one(place, turns)
                if found != whole:
                    wrong.append(f"{path}: cut after {turns} turns it tells {found}, else {whole}")
    for it in wrong:
        print(it)
    print(f"{cut - len(wrong)} runs in two parts are as if they weren't cut, {len(wrong)} aren't")
    return 1 if wrong else 0


sys.exit(main())
