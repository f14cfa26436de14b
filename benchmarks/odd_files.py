#!/usr/bin/env python3
"""Runs the built program on files, streams and texts that are odd, and says where it answers otherwise than it has to.

    benchmarks/odd_files.py [--program PROGRAM] [--only PART] [--seconds S] [--large] [--unproved]

The parts: `files` that are missing, folders, without a name or with one that is too long, empty, without an end, links that lead round, pipes,
and texts of just as many bytes as are taken, and more; `words` that are no command, or very many; `streams` that are full, closed, or
pipes that nobody reads; `texts` with nests, chains, names, numbers and lists as deep and as long as a text can have them, on a stack
of 4 MiB, and nests in each procedure of the longest chain on one of 64; and `memory` for less and less.

Each call ends within S seconds of processor time (20), with the status that its row has, and tells and prints what stands there. A call that lacks
memory answers as it does with all of it, or 10, behind a front of what it prints. `--large` reads a saved grid of 512 MiB too; `--unproved`
leaves out limits of stack and memory, since a program that `rt try` built needs more. It isn't part of the gate: the program is the
one that was proved and built before. It ends with status 1 where a call answered otherwise, and says which.
"""
import argparse
import os
import resource
import signal
import subprocess
import sys
import tempfile

TOP = os.path.dirname(os.path.dirname(os.path.abspath(__file__)))
EXAMPLES = f"{TOP}/examples"
MEBIBYTE = 1 << 20
# room on the stack for one nest; and for a nest in each of 32 procedures, which is what `./zplgrid` asks for
STACK, DEEPEST = 4 * MEBIBYTE, 64 * MEBIBYTE
USAGE = "usage: zplgrid run|mean|list|exec|gen WORD [words]\n"
EMPTY = "refused: Syntax, line 1, byte 0\n"
NO_LISTING = "listing refused: BadLine, line 1\n"
DEEP = "refused: TooDeep\n"
LONG = "n" * 5000
PRINTS = ["run SUM report", "mean SUM", "list SUM", "exec RING report", "check EXAMPLES/listings/crossed.lst", "time RING", "gen 1"]
TELLS = ["run EXAMPLES/slips/assign.zpl", "exec EXAMPLES/listings/table.lst", "check EXAMPLES/listings/idle.lst", "resume empty", "gen 1 turns=0", "run none", ""]


class Answer:
    """The status of a call, and its bytes on both streams."""

    def __init__(self, status, out, told):
        self.status, self.out, self.told = status, out, told

    def __str__(self):
        return f"status {self.status}, prints {self.out[-80:]!r}, tells {self.told[:80]!r}"


class Caller:
    """Calls the program in a folder of odd files."""

    def __init__(self, program, room, seconds, limits):
        self.program, self.room, self.seconds, self.limits = program, room, seconds, limits
        self.calls = self.failed = 0

    def put(self, name, text):
        with open(f"{self.room}/{name}", "wb") as file:
            file.write(text if isinstance(text, bytes) else text.encode())

    def call(self, words, before=None, **streams):
        """The answer to words, or to a line of them."""
        self.calls += 1
        if isinstance(words, str):
            words = [it.replace("SUM", "EXAMPLES/sum.zpl").replace("RING", "EXAMPLES/listings/ring.lst").replace("EXAMPLES", EXAMPLES) for it in words.split()]
        given = {"stdin": subprocess.DEVNULL, "stdout": subprocess.PIPE, "stderr": subprocess.PIPE, **streams}

        def prepared():
            resource.setrlimit(resource.RLIMIT_CPU, (self.seconds, self.seconds))
            if before:
                before()

        try:
            ran = subprocess.run([self.program, *words], cwd=self.room, preexec_fn=prepared, check=False, **given)
        except (OSError, subprocess.SubprocessError) as why:
            return Answer(None, b"", str(why).encode())
        if ran.returncode in (-signal.SIGXCPU, -signal.SIGKILL):
            return Answer(None, b"", b"no answer in time")
        return Answer(ran.returncode, ran.stdout or b"", ran.stderr or b"")

    def wrong(self, name, words, found, wanted):
        self.failed += 1
        print(f"{name}: {str(words)[:90]}: {found}; wanted: {wanted}", flush=True)

    def expect(self, name, words, status, told=None, out=None, **how):
        """Where the answer isn't this one, that is said."""
        found = self.call(words, **how)
        is_told = (told is None or found.told == told.encode()) and (out is None or found.out == out.encode())
        if found.status != status or not is_told:
            self.wrong(name, words, found, f"status {status}, prints {out!r:.80}, tells {told!r:.80}")


# ---- files
def furnish(caller):
    """Puts the odd files into the room."""
    os.mkdir(f"{caller.room}/folder")
    os.symlink("round", f"{caller.room}/round")
    caller.put("empty", b"")
    source = b"program t;\nprocedure t();\nbegin\nend;\n"
    head, tail = b"zplnode 1\ngrid 1\nscalars 0\nslots\ncells 0\ntext ", b"\ncode\nend\n"
    room = 16 * MEBIBYTE - len(head + tail)
    for name, more in (("most", 0), ("more", 1)):
        caller.put(f"{name}.zpl", source + b" " * (MEBIBYTE - len(source) + more))
        # a text has two digits for each byte
        caller.put(f"{name}.lst", head.replace(b"scalars 0", b"scalars 10" if room % 2 else b"scalars 0") + b"0" * (room - room % 2 + 2 * more) + tail)
        caller.put(f"{name}.order", b"0 " * (8 * MEBIBYTE) + b"0" * more)


def files(caller):
    for command in ("run", "mean", "list", "exec", "check", "time", "resume"):
        for name in ("none", "folder", "", "round", "none/none", "empty/none", LONG, "a\nb", "-"):
            caller.expect("a file that isn't there", [command, name], 2, f"cannot read {name}\n", "")
    for command in ("run", "mean", "list"):
        caller.expect("an empty file", f"{command} empty", 4, EMPTY, "")
        caller.expect("an empty device", f"{command} /dev/null", 4, EMPTY, "")
        caller.expect("a file without an end", f"{command} /dev/zero", 3, "too long: /dev/zero\n", "")
        caller.expect("as many bytes as are taken", f"{command} most.zpl", 0, "")
        caller.expect("one more", f"{command} more.zpl", 3, "too long: more.zpl\n", "")
        caller.expect("a listing for a source", f"{command} RING", 4, EMPTY, "")
    for command in ("exec", "check", "time"):
        caller.expect("an empty file", f"{command} empty", 11, NO_LISTING, "")
        caller.expect("a file without an end", f"{command} /dev/zero", 3, "too long: /dev/zero\n", "")
        caller.expect("as many bytes as are taken", f"{command} most.lst", 0, "")
        caller.expect("two more", f"{command} more.lst", 3, "too long: more.lst\n", "")
        caller.expect("a source for a listing", f"{command} SUM", 11, NO_LISTING, "")
    for command in ("run SUM", "exec EXAMPLES/listings/sum.lst", "time EXAMPLES/listings/sum.lst"):
        for name in ("none", "folder", "", "round", LONG):
            caller.expect("an order that isn't there", f"{command} order={name}", 2, f"cannot read {name}\n", "")
        caller.expect("an empty order", f"{command} order=empty", 0, "")
        caller.expect("an order without an end", f"{command} order=/dev/zero", 3, "too long: /dev/zero\n", "")
        caller.expect("as many bytes as are taken", f"{command} order=most.order", 0, "")
        caller.expect("one more", f"{command} order=more.order", 3, "too long: more.order\n", "")
    caller.expect("a source for an order", "run SUM order=EXAMPLES/sum.zpl", 6, "order refused, byte 0\n", "")
    caller.expect("a listing for a saved grid", "resume RING", 16, "save refused: BadLine, line 1\n", "")
    caller.expect("an empty saved grid", "resume empty", 16, "save refused: BadLine, line 1\n", "")
    with open(f"{EXAMPLES}/sum.zpl", "rb") as source:
        told = caller.call("mean SUM").out.decode()
        caller.expect("a source from a stream", "run /dev/stdin", 0, "", told, stdin=source)
    reads, writes = os.pipe()
    os.write(writes, b"program t;\nprocedure t();\nbegin\nwriteln(1);\nend;\n")
    os.close(writes)
    caller.expect("a source from a pipe", "run /dev/stdin", 0, "", "1\n", stdin=reads)
    os.close(reads)


def large(caller):
    """A saved grid without an end: 512 MiB of it are read."""
    caller.expect("a saved grid without an end", "resume /dev/zero", 3, "too long: /dev/zero\n", "")


# ---- words
def words(caller):
    for asked in ([], [""], ["", ""], ["run"], ["RUN", "most.zpl"], ["run", "most.zpl", ""], ["run", "most.zpl", LONG], ["gen", "9" * 5000],
                  ["run", "most.zpl", "turns=" + "9" * 5000], ["exec", "most.lst", "order=", "order="], ["resume", "empty", "save"]):
        caller.expect("no command", asked, 1, USAGE, "")
    for word in (b"\xff", b"n:=\xc3", b"\xf0\x28\x8c\xbc"):
        caller.expect("words that are no UTF-8", ["run", "most.zpl", os.fsdecode(word)], 1, USAGE, "")
    caller.expect("a setting with a long name", ["run", "most.zpl", f"{LONG}:=1"], 5, "settings refused: UnknownConfig\n", "")
    many = [f"n{k}:={k}" for k in range(20_000)]
    caller.expect("many settings", ["run", "most.zpl", *many], 5, "settings refused: UnknownConfig\n", "")
    caller.put("configs", "program t;\nconfig var " + "".join(f"n{k} : integer = 1;\n" for k in range(20_000)) + "procedure t();\nbegin\nwriteln(n19999);\nend;\n")
    for command in ("mean", "run"):
        caller.expect("as many configs", [command, "configs", *many], 0, "", "19999\n")
        caller.expect("one of them twice", [command, "configs", *many, "n0:=1"], 5, "settings refused: TwiceSet\n", "")


# ---- streams
def broken(caller, number, kind, test):
    """Makes a test with a stream, standard output or that for errors, that takes nothing."""
    stream = {1: "stdout", 2: "stderr"}[number]
    if kind == "full":
        with open("/dev/full", "wb") as full:
            test(**{stream: full})
    elif kind == "unread":
        reads, writes = os.pipe()
        os.close(reads)
        test(**{stream: writes})
        os.close(writes)
    else:
        test(before=lambda: os.close(number))


def streams(caller):
    """Where a stream takes nothing the status is 9, and nothing is told behind that."""
    for kind in ("full", "unread", "closed"):
        for command in PRINTS:
            broken(caller, 1, kind, lambda **how: caller.expect(f"standard output is {kind}", command, 9, "", **how))
        for command in TELLS:
            broken(caller, 2, kind, lambda **how: caller.expect(f"the stream for errors is {kind}", command, 9, **how))
    caller.expect("standard input is closed", "mean SUM", 0, "", caller.call("mean SUM").out.decode(), before=lambda: os.close(0))


# ---- texts
def in_entry(body, declarations=""):
    return f"program t;\nvar x : integer; p : boolean;\n{declarations}procedure t();\nbegin\n{body}\nend;\n"


def sources():
    """Sources: what they have, the text, and the status of `mean`, with what is told and printed; and the status of `list` and what it tells, where that is another one."""
    most = 190
    yield "brackets", in_entry(f"x := {'(' * most}1{')' * most}; writeln(x);"), 0, "", "1\n", None
    yield "an open bracket, over and over", in_entry("x := " + "(" * 900_000), 4, DEEP, "", None
    yield "`!`, over and over", in_entry("p := " + "!" * 900_000), 4, DEEP, "", None
    yield "sums of sums", in_entry("x := 1" + " + 1" * 200_000 + ";"), 4, DEEP, "", None
    yield "`if` in `if`", in_entry("if p then " * 90_000), 4, DEEP, "", None
    yield "blocks in blocks", in_entry("begin " * 150_000), 4, DEEP, "", None
    yield "as deep as may be", in_entry("if p then else " * most + "writeln(1); " + "end; " * most), 0, "", "1\n", None
    yield "`max` of `max`", in_entry("x := " + "max(1, " * 140_000), 4, DEEP, "", None
    yield "reads at reads", in_entry("x := A" + "#[A" * 300_000), 4, DEEP, "", None
    yield "moves of a region", in_entry("writeln(1);", "region R = [1..2] at [0]" + " at [0]" * 120_000 + ";\n"), 0, "", "1\n", None
    yield "borders of borders", in_entry("writeln(1);", "direction d = [1];\nregion Q = [1..2]; R = " + "d of " * 120_000 + "Q;\n"), 0, "", "1\n", None
    yield "prefixes", in_entry("[1..2] " * 90_000 + "x := 1; writeln(x);"), 0, "", "1\n", None
    yield "a name", in_entry(f"{'n' * 500_000} := 1;", f"var {'n' * 500_000} : integer;\n"), 0, "", "", None
    yield "a number of zeros", in_entry(f"writeln({'0' * 900_000}7);"), 0, "", "7\n", None
    yield "a number of nines", in_entry(f"x := {'9' * 900_000};"), 4, f"refused: NumberTooLarge, line 5, byte {in_entry('x := 9').index('9')}\n", "", None
    yield "a string", in_entry(f'writeln("{"s" * 900_000}");'), 0, "", "s" * 900_000 + "\n", None
    yield "a comment", in_entry(f"/*{'/ ' * 400_000}*/"), 0, "", "", None
    yield "lines", in_entry("\n" * 900_000 + "y := 1;"), 4, None, "", None
    yield "items of a print", in_entry("write(1" + ",1" * 199_999 + ");"), 0, "", "1" * 200_000, None
    yield "more items than nodes", in_entry("write(1" + ",1" * 200_000 + ");"), 0, "", "1" * 200_001, (4, "refused: TooManyNodes\n")
    yield "actuals", in_entry("q(1" + ",1" * 400_000 + ");", "procedure q(a : integer); begin end;\n"), 4, None, "", None
    yield "variables", in_entry("v99999 := 1; writeln(v99999);", "var v0" + "".join(f",v{k}" for k in range(1, 100_000)) + " : integer;\n"), 0, "", "1\n", None
    yield "procedures", in_entry("p0();", "".join(f"procedure p{k}(); begin end;\n" for k in range(30_000))), 0, "", "", None
    yield "dimensions", in_entry("[1" + ",1" * 400_000 + "] x := 1;"), 4, None, "", None
    yield "borders of each of many regions", in_entry("".join(f"[d of R{k}] A{k} := 1;\n" for k in range(12_000)), "direction d = [1];\nregion " + "".join(f"R{k} = [1..2];\n" for k in range(12_000))
                                                     + "var " + "".join(f"A{k} : [R{k}] integer;\n" for k in range(12_000))), 0, "", "", None


def listings():
    """Listings: what they have, the text, and the status of `exec`, with what is told and printed."""
    def of(code, **parts):
        head = {"grid": "1", "scalars": "1", "slots": "1", "cells": "1", **parts}
        rows = "\n".join(f"{it} {head[it]}".rstrip() for it in ("grid", "scalars", "slots", "cells"))
        return f"zplnode 1\n{rows}\n{head.get('tables', '')}code\n{code}"

    many = 100_000
    yield "a deep stack of values", of("number 0\nend\n", tables=f"expr{' n1' * many}{' +' * (many - 1)}\n"), 0, "", str(many)
    yield "members in members", of("fix 0 1..1:1:1\nloop 0 0\nnumber 1\nend\n",
                                   tables="expr n1\nexpr s0\ngroup\n" + "if 0 - 1\n" * many + "acc 0 sum 0 - 1\n" + "fi\n" * many), 0, "", "1"
    yield "one of them open", of("end\n", tables="expr n1\ngroup\n" + "if 0 - 1\n" * many), 11, f"listing refused: BadLine, line {many + 8}\n", ""
    yield "slots", of(f"fix {many - 1} 1..1:1:1\nend\n", slots=" ".join("1" for _ in range(many))), 0, "", ""
    yield "arrays", of("end\n", tables="array 1..4:0,0\n" * many), 0, "", ""
    yield "more arrays than words", of("end\n", tables="array 1..4194304:0,0\n" * 5), 11, "listing refused: BadTable, line 10\n", ""
    yield "the widest fringe", of("fix 0 1..1:1:1\nneed 0 0 0 1\nend\n", tables="array -2147483648..-2147483648:2147483648,2147483648\n"), 7, "trap: reference outside storage, line 1\n", ""
    yield "the widest region", of("fix 0 -2147483648..2147483648:2147483648:1099511627776\nloop 0 0\nnumber 1\nend\n", tables="expr i1\nexpr s0\ngroup\nacc 0 sum 0 - 1\n"), 0, "", "0"
    yield "a jump to itself", of("jump 0\n"), 8, "turn limit\n", ""
    yield "a goal behind the code", of("jump 1\n"), 0, "", ""


def chains():
    """The longest chains of calls, with a nest as deep as may be in each procedure: what they have, the text, and what is printed."""
    for name, head, tail in (("`if`", "if x = 0 then ", "end; "), ("`while`", "while x = 0 do ", "x := 1; end; "), ("`for`", "for x := 0 to 0 do ", "end; "),
                             ("`repeat`", "repeat ", "until x = 1; "), ("blocks", "begin ", "end; "), ("prefixes", "[1..2] begin ", "end; ")):
        deep, inner = 197, f"x := {'(' * 190}1{')' * 190}; writeln(x);"
        calls = [*(f"p{k}();" for k in range(1, 32)), inner]
        text = "program p0;\nvar x : integer;\n" + "".join(f"procedure p{k}();\nbegin\n{head * deep}{it}{tail * deep}\nend;\n" for k, it in enumerate(calls))
        yield f"{name} in 32 procedures", text, "1\n"


def limited(caller, size):
    """Gives a call so much stack, where that is to be limited."""
    return (lambda: resource.setrlimit(resource.RLIMIT_STACK, (size, size))) if caller.limits else None


def texts(caller):
    small = limited(caller, STACK)
    for name, text, out in chains():
        caller.put("text", text)
        for command in ("mean text", "run text grid=2", "run text opt=fcrmet"):
            caller.expect(name, command, 0, "", out, before=limited(caller, DEEPEST))
    for name, text, status, told, out, compiled in sources():
        caller.put("text", text)
        if len(text) > MEBIBYTE:
            caller.wrong(name, "its text", len(text), f"at most {MEBIBYTE} bytes")
        caller.expect(name, "mean text", status, told, out, before=small)
        listed, told = compiled or (status, told)
        caller.expect(name, "list text opt=fcrmet grid=2x2", listed, told, before=small)
    for name, text, status, told, out in listings():
        caller.put("text", text)
        for command in ("exec text turns=1000000", "time text turns=1000000"):
            caller.expect(name, command, status, told, out if command.startswith("exec") else None, before=small)
        caller.expect(name, "check text", 11 if status == 11 else caller.call("check text").status, told if status == 11 else None, before=small)


# ---- memory
def memory(caller):
    """Calls with less and less memory: each answers as it does with all of it, or that it lacks some, behind a front of what it prints."""
    if not caller.limits:
        return
    commands = [*PRINTS, "mean EXAMPLES/life.zpl", "run EXAMPLES/jacobi.zpl grid=2x2 opt=fcrmet", "exec most.lst", "check most.lst", "run SUM order=most.order", "mean most.zpl"]
    owns = {it: caller.call(it) for it in commands}
    for size in (4096, 1024, 512, 256, 128, 96, 64, 48, 32, 24, 16, 12, 8, 6, 5, 4, 3, 2, 1):
        def limit(size=size):
            resource.setrlimit(resource.RLIMIT_AS, (size * MEBIBYTE, size * MEBIBYTE))

        if caller.call("", before=limit).status != 1:
            print(f"with {size} MiB it doesn't start")
            break
        for command in commands:
            own, found = owns[command], caller.call(command, before=limit)
            is_same = (found.status, found.out, found.told) == (own.status, own.out, own.told)
            if not is_same and not (found.status == 10 and found.told == b"no memory\n" and own.out.startswith(found.out)):
                caller.wrong(f"with {size} MiB", command, found, own)
    caller.put("text", "zplnode 1\ngrid 1\nscalars 4294967295\nslots\ncells 4294967295\ncode\nend\n")
    for command in ("exec text", "time text", "exec text turns=0 save"):
        caller.expect("as many scalars as a number tells", command, 10, "no memory\n", "", before=lambda: resource.setrlimit(resource.RLIMIT_AS, (2048 * MEBIBYTE,) * 2))


PARTS = {it.__name__: it for it in (files, words, streams, texts, memory, large)}


def main():
    asked = argparse.ArgumentParser(description=__doc__, formatter_class=argparse.RawDescriptionHelpFormatter)
    asked.add_argument("--program", default=f"{TOP}/crates/zplgrid/out/zplgrid")
    asked.add_argument("--only", choices=PARTS, metavar="PART", help=f"one of {', '.join(PARTS)}")
    asked.add_argument("--seconds", type=int, default=20, metavar="S")
    asked.add_argument("--large", action="store_true")
    asked.add_argument("--unproved", action="store_true")
    given = asked.parse_args()
    if not os.path.exists(given.program):
        print(f"{given.program} isn't there: ./build first")
        return 1
    with tempfile.TemporaryDirectory() as room:
        caller = Caller(os.path.abspath(given.program), room, given.seconds, not given.unproved)
        furnish(caller)
        for name, part in PARTS.items():
            if name == given.only or not given.only and (name != "large" or given.large):
                before = caller.calls, caller.failed
                part(caller)
                print(f"{name}: {caller.calls - before[0]} calls, {caller.failed - before[1]} answered otherwise", flush=True)
    return 1 if caller.failed else 0


sys.exit(main())
