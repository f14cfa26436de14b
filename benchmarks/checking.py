#!/usr/bin/env python3
"""Times of `zplgrid check` on large listings: compiled ones, and one that is hard for it.

    benchmarks/checking.py [--program PROGRAM]

A line for each listing: its instructions, and the seconds of one run, its start included.
"""
import argparse
import os
import subprocess
import sys
import tempfile
import time

TOP = os.path.dirname(os.path.dirname(os.path.abspath(__file__)))
HEAD = "program p;\nregion R = [1..8, 1..8];\ndirection n = [-1, 0]; s = [1, 0];\nvar A, B : [R] integer; i, j : integer;\nprocedure p();\nbegin\n  [R] begin\n"
END = "    writeln(A);\n  end;\nend;\n"


def straight(count):
    """So many assignments, of which each third exchanges."""
    rows = ["    A := A + B + 1;\n" if k % 3 else "    [2..7, 1..8] B := A@n + A@s;\n" for k in range(count)]
    return HEAD + "".join(rows) + END


def nested(count):
    """So many loops with a loop in each."""
    row = "    i := 0; while i < 3 do j := 0; while j < 2 do A := A + B; [2..8, 1..8] B := A@n + 1; j += 1; end; i += 1; end;\n"
    return HEAD + row * count + END


def chain(count):
    """A listing with a loop in which each slot is made of the one before, the last one first."""
    rows = [f"fix {k} 1..4:1:1" for k in range(count + 1)] + [f"at {k} {k - 1} 0 1" for k in range(count, 0, -1)]
    head = ["zplnode 1", "grid 1", "scalars 1", "slots" + " 1" * (count + 1), "cells 0", "expr s0", "code"]
    return "\n".join([*head, *rows, "fix 0 1..3:1:1", f"unless 0 {count + 1} 1", "end"]) + "\n"


def main():
    words = argparse.ArgumentParser(description=__doc__, formatter_class=argparse.RawDescriptionHelpFormatter)
    words.add_argument("--program", default=f"{TOP}/crates/zplgrid/out/zplgrid")
    program = words.parse_args().program
    with tempfile.TemporaryDirectory() as room:
        text, listing = f"{room}/text", f"{room}/listing"

        def timed(name):
            with open(listing, encoding="ascii") as file:
                rows = file.read().split("\ncode\n")[1].count("\n")
            began = time.perf_counter()
            told = subprocess.run([program, "check", listing], capture_output=True, text=True).stdout.strip()
            print(f"{name}: {rows} instructions, {time.perf_counter() - began:.3f} seconds, {told}")

        for name, program_of, counts in (("assignments", straight, (500, 1000, 2000)), ("nested loops", nested, (75, 150, 300))):
            for count in counts:
                with open(text, "w", encoding="ascii") as file:
                    file.write(program_of(count))
                with open(listing, "wb") as file:
                    subprocess.run([program, "list", text, "grid=2x2"], stdout=file, check=True)
                timed(f"{count} {name}")
        for count in (100, 200, 400, 800, 1600, 5400):
            with open(listing, "w", encoding="ascii") as file:
                file.write(chain(count))
            timed(f"a chain of {count} slots in a loop")


sys.exit(main())
