#!/usr/bin/env python3
"""Measures the compiler on programs of so many statements in several shapes, as docs/BENCHMARKS.md has it.

    benchmarks/shapes.py [--program PROGRAM] [--statements N] [--letters LETTERS] [--grid GRID] [--runs N] [--only WORD]

Each shape is a program of N statements (20,000, the most that is taken, if no word tells it), every call counted with what it calls, and the same
of a half and of a quarter. `zplgrid list` compiles each with all letters for a grid of 8 by 8 and writes its listing. A row has the
seconds of processor time of the whole, the least of some runs; how many times those of the half, and the half's those of the quarter, where linear is 2.0; the most
memory that the whole has at once, its start left out; the bytes of its listing; and how many bytes of memory there are for each of those.

It is a measurement and no test: it ends with status 1 only where a program isn't compiled. The program is the one that was proved and
built before.
"""
import argparse
import os
import subprocess
import sys
import tempfile

TOP = os.path.dirname(os.path.dirname(os.path.abspath(__file__)))
MEBIBYTE = 1 << 20


def program(declarations, body):
    return f"program t;\n{declarations}procedure t();\nbegin\n{body}end;\n"


def scalars(count):
    """Scalars alone."""
    return program("var x, y : integer;\n", "".join(f"x := y + {k % 9};\n" if k % 2 else "y := x * 3;\n" for k in range(count)))


def many_scalars(count):
    """A scalar for every second statement."""
    each = max(count // 2, 1)
    names = ", ".join(f"x{k}" for k in range(each))
    return program(f"var {names} : integer;\n", "".join(f"x{k % each} := x{k * 7 % each} + 1;\n" for k in range(count)))


def arrays(count):
    """Two arrays, with neighbours read."""
    rows = ["[R] A := A@e + B;\n", "[R] B := A * 2 - B@w;\n"]
    return program("region R = [1..64, 1..64]; W = [0..65, 0..65]; direction e = [0, 1]; w = [0, -1];\nvar A, B : [W] integer;\n",
                   "".join(rows[k % 2] for k in range(count)))


def many_arrays(count):
    """An array for each ten statements, each read by some with a shift."""
    each = max(count // 10, 3)
    names = ", ".join(f"A{k}" for k in range(each))
    rows = "".join(f"[R] A{k % each} := A{(k + 1) % each}@e + A{k * 7 % each};\n" for k in range(count))
    return program(f"region R = [1..8]; W = [0..9]; direction e = [1];\nvar {names} : [W] integer;\n", rows)


def regions(count):
    """Regions and directions by the hundred: one of each for every fifty statements."""
    each = max(count // 50, 2)
    declared = "region W = [0..999];\n" + "".join(f"R{k} = [{k % 90 + 1}..{k % 70 + 100}];\n" for k in range(each))
    declared += "direction " + "".join(f"d{k} = [{k % 800 + 1}];\n" for k in range(each))
    rows = "".join(f"[R{k % each}] A := A@d{k * 7 % each} + {k % 9};\n" for k in range(count))
    return program(f"{declared}var A : [W] integer;\n", rows)


def borders(count):
    """Borders of regions and arrays over them: one of each for every fifty statements."""
    each = max(count // 50, 2)
    declared = "direction e = [1]; w = [-2];\nregion " + "".join(f"R{k} = [1..{k % 20 + 9}];\n" for k in range(each))
    declared += "var " + "".join(f"A{k} : [R{k}] integer;\n" for k in range(each))
    forms = ["[e of R{0}] wrap A{0};\n", "[w of R{0}] reflect A{0};\n", "[e of R{0}] A{0} := 1;\n", "[R{0}] A{0} := A{0}@e;\n"]
    return program(declared, "".join(forms[k % 4].format(k * 7 % each) for k in range(count)))


def nested(count):
    """Ifs and loops, twelve deep, around assignments."""
    heads = ["if x < {0} then\n", "while x < {0} do\n", "for i := 1 to {0} do\n", "repeat\n"]
    tails = ["end;\n", "end;\n", "end;\n", "until x > {0};\n"]
    body = "".join([*(heads[k % 4].format(k) for k in range(12)), "x := x + 1;\n[R] A := A@e;\n" * 2, *(tails[k % 4].format(k) for k in reversed(range(12)))])
    return program("region R = [1..8]; W = [0..9]; direction e = [1];\nvar A : [W] integer; x, i : integer;\n", body * (count // 16))


def deep(count):
    """Ifs and loops, a hundred deep."""
    heads, tails = ["if x < {0} then\n", "while x < {0} do\n"], ["else x := 2; end;\n", "end;\n"]
    body = "".join([*(heads[k % 2].format(k) for k in range(100)), "x := x + 1;\n", *(tails[k % 2] for k in reversed(range(100)))])
    return program("var x : integer;\n", body * (count // 151))


def calls(count):
    """A procedure of nine statements, called over and over, with a value and a variable handed on."""
    leaf = "procedure leaf(a : integer; var b : integer);\nvar c : integer;\nbegin\n" + "c := a + b;\nb := c * 2;\na := b;\n" * 3 + "end;\n"
    return program("var x : integer;\n" + leaf, "leaf(x + 1, x);\n" * (count // 10))


def array_calls(count):
    """A procedure with an array of its own and one that is handed on, called over and over."""
    leaf = "procedure leaf(A : [R] integer; var B : [W] integer);\nvar C : [R] integer;\nbegin\nC := A + 1;\nB := C + B@e;\nB += 1;\nend;\n"
    return program("region R = [1..8]; W = [0..9]; direction e = [1];\nvar A : [R] integer; B : [W] integer;\n" + leaf, "[R] leaf(A, B);\n" * (count // 4))


def doubling(count):
    """Procedures of which each calls the next one twice: few statements in the text, and many of them expanded."""
    levels = max((count // 3).bit_length() - 1, 1)
    declared = "".join(f"procedure p{k}(); begin p{k + 1}(); p{k + 1}(); end;\n" for k in range(levels))
    return program(f"var x : integer;\n{declared}procedure p{levels}(); begin x := x + 1; end;\n", "p0();\n")


def round_reads(count):
    """Reads that wrap round."""
    rows = ["[R] A := B@^e;\n", "[R] B := A@^w + 1;\n"]
    return program("region R = [1..16]; direction e = [1]; w = [-2];\nvar A, B : [R] integer;\n", "".join(rows[k % 2] for k in range(count)))


def operators(count):
    """Reductions, partial ones, scans, floods and remap reads."""
    rows = ["[R] x := +<<A;\n", "[R] A := max||[1] B;\n", "[R] A := >>[1, ] B;\n", "[1, 1..8] B := +<<[R] A;\n", "[R] B := A#[Index2, Index1];\n"]
    return program("region R = [1..8, 1..8];\nvar A, B : [R] integer; x : integer;\n", "".join(rows[k % 5] for k in range(count)))


def masks(count):
    """Assignments under masks, and shattered statements."""
    rows = ["[R with P] A := A + B;\n", "[R without P] B := A@e;\n", "[R] if A > B then A := 1; end;\n"]
    each = count // 4
    return program("region R = [1..8]; W = [0..9]; direction e = [1];\nvar A, B : [W] integer; P : [W] boolean;\n", "".join(rows) * each)


def prints(count):
    """Prints of a number and of a text, each text another one."""
    return program("var x : integer;\n", "".join(f'writeln("row {k}: ", x);\n' for k in range(count)))


SHAPES = [scalars, many_scalars, arrays, many_arrays, regions, borders, nested, deep, calls, array_calls, doubling, round_reads, operators, masks, prints]


class Measure:
    """Seconds of processor time, the most memory in bytes, and the bytes that were written."""

    def __init__(self, words, room, runs):
        self.seconds = float("inf")
        for _ in range(runs):
            with open(f"{room}/out", "wb") as out, open(f"{room}/errs", "wb") as errs:
                ran = subprocess.Popen(words, stdin=subprocess.DEVNULL, stdout=out, stderr=errs)
                _, status, usage = os.wait4(ran.pid, 0)
            ran.returncode = os.waitstatus_to_exitcode(status)
            self.seconds = min(self.seconds, usage.ru_utime + usage.ru_stime)
        self.status, self.memory, self.bytes = ran.returncode, usage.ru_maxrss * 1024, os.path.getsize(f"{room}/out")
        with open(f"{room}/errs", encoding="utf-8", errors="replace") as errs:
            self.told = errs.read(200)


def main():
    words = argparse.ArgumentParser(description=__doc__, formatter_class=argparse.RawDescriptionHelpFormatter)
    words.add_argument("--program", default=f"{TOP}/crates/zplgrid/out/zplgrid")
    words.add_argument("--statements", type=int, default=20_000, metavar="N")
    words.add_argument("--letters", default="fcrmet")
    words.add_argument("--grid", default="8x8")
    words.add_argument("--runs", type=int, default=5, metavar="N")
    words.add_argument("--only", default="", metavar="WORD", help="only the shapes in whose name this word is")
    given = words.parse_args()
    if not os.path.exists(given.program):
        print(f"{given.program} isn't there: ./build first")
        return 1
    asked = [f"grid={given.grid}", *([f"opt={given.letters}"] if given.letters else [])]
    failed = 0
    with tempfile.TemporaryDirectory() as room:
        def measured(text):
            with open(f"{room}/text", "w", encoding="ascii") as file:
                file.write(text)
            return Measure([given.program, "list", f"{room}/text", *asked], room, given.runs)

        start = measured(program("", ""))
        print(f"start: {start.seconds:.3f} s, {start.memory / MEBIBYTE:.1f} MiB")
        print("| Shape | Seconds | Half to whole | Quarter to half | MiB | Listing, MiB | Bytes for each of the listing's |\n|---|---|---|---|---|---|---|", flush=True)
        for shape in SHAPES:
            if given.only not in shape.__name__:
                continue
            quarter, half, whole = (measured(shape(given.statements // part)) for part in (4, 2, 1))
            wrong = next((it for it in (quarter, half, whole) if it.status), None)
            if wrong:
                failed += 1
                print(f"{shape.__name__}: status {wrong.status}, {wrong.told.strip()}", flush=True)
                continue
            memory = whole.memory - start.memory
            print(f"| {shape.__doc__.rstrip('.')} | {whole.seconds:.2f} | {whole.seconds / half.seconds:.1f} | {half.seconds / quarter.seconds:.1f} | {memory / MEBIBYTE:.0f} "
                  f"| {whole.bytes / MEBIBYTE:.1f} | {memory / whole.bytes:.0f} |", flush=True)
    return 1 if failed else 0


if __name__ == "__main__":
    sys.exit(main())
