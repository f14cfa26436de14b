#!/usr/bin/env python3
"""Runs the built programs on texts that are cut off, and on texts with one byte or line changed.

    benchmarks/cut_texts.py [--programs FOLDER] [--only WORD] [--changes N] [--seed N] [--jobs N] [--seconds S]

The examples' sources and listings, and an order and saved grids, are cut at each byte, and N copies of each (50, if no word tells it) have a
byte, or a line, changed, left out or doubled. Each command that takes such a text is called with it: `mean`, `run` and `list` with sources; `exec`, also
with `checked`, `save` and `links=`, `check`, `time` and `gridtrace` with listings; `resume` with saved grids; and those that take
`order=` with orders.

What a cut text is told is known: a front of a source is refused at its end, or at its last token, where it doesn't end behind a declaration; a front of a listing or of a saved grid at the
line that is cut, or where a line is missing; a front of an order at the item that isn't one. Of a text that is changed the calls
have to agree: what one command refuses the others refuse with the same words; a run prints a front of what is meant, and ends
as that does; code that is compiled is sound; sound code is never stuck, over links as `check` tells; another order ends a run with the
same bytes, messages and words; a run that is cut and resumed is one that was never cut; and a trace has a line for each turn. Each
call ends within S seconds (20) with a status and a text that its command has, and prints nothing where it refuses a text.

It isn't part of the gate: the programs are those that were proved and built before, in FOLDER/NAME/out/NAME (`crates`, if no word
tells it); without `gridtrace` its calls are left out. `--only` takes a word of a text's name, as `jacobi`, `listings`, `order` or `saved`.
It ends with status 1 where a call answered otherwise; it says which, and keeps the text.
"""
import argparse
import glob
import itertools
import math
import os
import random
import re
import subprocess
import sys
import tempfile
import threading
from concurrent.futures import ThreadPoolExecutor

TOP = os.path.dirname(os.path.dirname(os.path.abspath(__file__)))
EXAMPLES = f"{TOP}/examples"
SOURCES = ["*.zpl", "forms/*.zpl"]
LISTINGS = ["listings/*.lst", "listings/lacks/*.lst"]
# listings, and programs that are listed for two by two processors, which are saved behind so many turns
SAVED = {"listings/ring.lst": 100, "listings/stencil.lst": 200, "listings/copies.lst": 30, "jacobi.zpl": 150, "transpose.zpl": 120}
ORDER, PROCESSORS, MOST_TIMES = b"3x500 2x5 0 1\n2 03x007 0x1000000", 4, 1_000_000
COUNTS = r"(turns \d+ sends \d+ words \d+\n)?"
# what is told with each status; 0 tells nothing but what a report says
TOLD = {
    0: COUNTS, 4: r"refused: \w+(, line \d+, byte \d+)?\n", 5: r"settings refused: \w+\n", 6: r"order refused, byte \d+\n",
    7: r"trap: [a-z ]+, line \d+\n" + COUNTS, 8: r"turn limit\n" + COUNTS, 11: r"listing refused: Bad(Line|Table), line \d+\n",
    12: r"stuck: processor \d+, (Tag|Length|Unheld|Idle)\n" + COUNTS, 13: r"unsound, instruction \d+\n", 14: r"check limit\n",
    16: r"save refused: Bad(Line|Table|State), line \d+\n",
}
REFUSED = {4, 5, 6, 11, 13, 14, 16}
OVER = {0, 7}
# a token, a comment, or what begins one; a ditto goes with what stands before it
TOKEN = re.compile(rb'--[^\n]*|/\*.*?(?:\*/|\Z)|(?:\[|\bof\b|\bin\b)\s*"|"(?:\\.|[^"\\\n])*"?|[\w.]+|[^\w\s"]', re.DOTALL)


class Wrong(Exception):
    """A call answered otherwise than it has to."""


class Answer:
    """The status of a call, what it printed, what it told, and the counts of its report as they stand."""

    def __init__(self, row, ran):
        self.row, self.status, self.out, self.text = row, ran.returncode, ran.stdout, ran.stderr
        report = re.search(rb"turns (\d+) sends (\d+) words (\d+)\n\Z", ran.stderr)
        self.counts = tuple(map(int, report.groups())) if report else None
        self.told = ran.stderr[:report.start()] if report else ran.stderr

    def __str__(self):
        return f"{self.row}: status {self.status}, prints {self.out[-60:]!r}, tells {self.text[:80]!r}"


class Caller:
    """Calls the programs, each thread with files of its own."""

    def __init__(self, programs, room, seconds):
        self.programs, self.room, self.seconds = programs, room, seconds
        self.here, self.calls, self.folders = threading.local(), itertools.count(), itertools.count()
        self.has_trace = os.path.exists(f"{programs}/gridtrace/out/gridtrace")

    def put(self, name, text):
        """Writes a file of this thread."""
        if not hasattr(self.here, "folder"):
            self.here.folder = f"{self.room}/{next(self.folders)}"
            os.mkdir(self.here.folder)
        with open(f"{self.here.folder}/{name}", "wb") as file:
            file.write(text)

    def call(self, row, statuses):
        """What is answered to words, on the files of this thread, where the status is one of these."""
        program, *words = row.split()
        words = [f"{self.programs}/gridtrace/out/gridtrace", *words] if program == "gridtrace" else [f"{self.programs}/zplgrid/out/zplgrid", program, *words]
        next(self.calls)
        try:
            ran = subprocess.run(words, cwd=self.here.folder, stdin=subprocess.DEVNULL, capture_output=True, timeout=self.seconds, check=False)
        except subprocess.TimeoutExpired:
            raise Wrong(f"{row}: no answer within {self.seconds} seconds") from None
        found = Answer(row, ran)
        told = found.text.decode("utf-8", "replace")
        saves = found.status == 8 and row.endswith(" save") and told.startswith("zplsave 1\n")
        if found.status not in statuses or not (saves or re.fullmatch(TOLD[found.status], told)):
            raise Wrong(str(found))
        if found.status in REFUSED and found.out:
            raise Wrong(str(found))
        return found


def same(one, other, counts=False):
    """Two calls tell and print the same, and count the same where that is asked for."""
    if (one.status, one.out, one.told) != (other.status, other.out, other.told) or counts and one.counts != other.counts:
        raise Wrong(f"{one}; but {other}")


def holds(test, *answers):
    if not test:
        raise Wrong("; but ".join(map(str, answers)))


# ---- sources
def has_place(text, found):
    """The place of a refusal lies in the text, and its line is that of its byte."""
    place = re.search(rb"line (\d+), byte (\d+)\n", found.text)
    if place:
        line, byte = map(int, place.groups())
        holds(byte <= len(text) and line == 1 + text.count(b"\n", 0, byte), found)


def source(caller, text):
    """The three commands agree on a source."""
    caller.put("text", text)
    mean = caller.call("mean text turns=30", {0, 4, 5, 7, 8})
    ran = caller.call("run text grid=2x2 opt=fcrmet turns=20000 report", {0, 4, 5, 7, 8})
    listed = caller.call("list text grid=2x2 opt=fcrmet", {0, 4, 5})
    if mean.status in REFUSED:
        has_place(text, mean)
        same(mean, ran)
    holds((ran.status in REFUSED) == (listed.status in REFUSED), ran, listed)
    if ran.status in REFUSED:
        same(ran, listed)
        holds(mean.status in REFUSED or b"TooM" in ran.text, mean, ran)
        return mean
    if ran.status in OVER and mean.status in OVER:
        same(ran, mean)
    longer, other = (mean, ran) if mean.status in OVER else (ran, mean)
    is_front = longer.out.startswith(other.out) or longer.status not in OVER and other.out.startswith(longer.out)
    holds(is_front, mean, ran)
    caller.put("code", listed.out)
    checked = caller.call("check code", {0, 14})
    holds(checked.status == 14 or re.fullmatch(rb"sound, links \d+\n", checked.out), checked)
    return mean


def end_of(text):
    """The end of the last token of a source."""
    return max((it.end() for it in TOKEN.finditer(text) if not it[0].startswith((b"--", b"/*"))), default=0)


def source_front(caller, whole, end):
    """A front of a source is refused at its end, or at its last token; but for one that ends behind a declaration."""
    text = whole[:end]
    found = source(caller, text)
    place = re.fullmatch(rb"refused: (Syntax|OpenComment|OpenString|BadByte|FloatText), line \d+, byte (\d+)\n", found.text)
    if not place:
        holds(text[:end_of(text)].endswith(b";") and (found.status not in REFUSED or end < end_of(whole)), found)
        return
    last = max((it.start() for it in TOKEN.finditer(text)), default=0)
    holds(end < end_of(whole) and int(place[2]) >= last, found)


# ---- listings
def processors_of(text):
    return math.prod(int(it) for it in re.search(rb"^grid ([\d ]+)$", text, re.MULTILINE)[1].split())


def listing(caller, text, draw):
    """All commands agree on a listing."""
    caller.put("text", text)
    ran = caller.call("exec text turns=9999 report", {0, 7, 8, 11, 12})
    checked = caller.call("check text", {0, 11, 13, 14})
    timed = caller.call("time text turns=9999", {0, 7, 8, 11, 12})
    if ran.status == 11:
        holds(1 <= int(ran.text.split()[-1]) <= text.count(b"\n") + 1, ran)
        same(ran, checked)
        same(ran, timed)
        return ran
    holds(checked.status != 11 and (ran.status, ran.told) == (timed.status, timed.told), ran, checked, timed)
    moves = re.match(rb"moves (\d+) ticks \d+\n", timed.out)
    holds((ran.status in OVER) == bool(moves) and (not moves or int(moves[1]) <= ran.counts[0]), ran, timed)
    sound(caller, ran, checked)
    ordered(caller, ran, processors_of(text), draw)
    resumed(caller, ran, draw.randrange(1, 60) * processors_of(text))
    if caller.has_trace:
        traced = caller.call("gridtrace text turns=300 report", {0, 7, 8, 12})
        turns = traced.out.count(b"\n") - (traced.status == 12 and b"stuck " in traced.out[-20:])
        holds(turns == traced.counts[0] and (ran.status != 12 or ran.counts[0] >= 300 or traced.status == 12), traced, ran)
    return ran


def sound(caller, ran, checked):
    """Code that is sound runs where that is asked for, and is never stuck; other code doesn't run."""
    asked = caller.call("exec text checked turns=9999 report", {0, 7, 8, 13, 14})
    if checked.status:
        same(checked, asked)
        return
    same(ran, asked, counts=True)
    links = re.fullmatch(rb"sound, links (\d+)\n", checked.out)
    holds(links, checked)
    few = caller.call(f"exec text links={int(links[1])} turns=9999 report", {0, 7, 8})
    if ran.status in OVER and few.status in OVER:
        same(ran, few)


def ordered(caller, ran, count, draw):
    """A run under another order: what is over in one is never stuck in another, and ends so."""
    caller.put("order", b" ".join(b"%dx%d" % (draw.randrange(count), draw.randrange(1, 9)) for _ in range(draw.randrange(40))))
    other = caller.call("exec text order=order turns=19999 report", {0, 7, 8, 12})
    if ran.status in OVER and other.status in OVER:
        same(ran, other)
        holds(ran.counts[1:] == other.counts[1:], ran, other)
    holds(not (ran.status in OVER and other.status == 12 or ran.status == 12 and other.status in OVER), ran, other)


def resumed(caller, ran, turns):
    """A run that is cut behind rounds of turns goes on as if it weren't."""
    first = caller.call(f"exec text turns={turns} save", {0, 7, 8, 12})
    if first.status != 8:
        same(first, ran)
        return
    caller.put("saved", first.text)
    rest = caller.call("resume saved turns=9999 report", {0, 7, 8, 12})
    whole = caller.call(f"exec text turns={turns + 9999} report", {0, 7, 8, 12})
    rest.out = first.out + rest.out
    same(rest, whole, counts=True)


def wrong_front(text, before=0):
    """What is wrong with a front of a listing, behind so many lines: the fault, or nothing."""
    *lines, rest = text.split(b"\n")
    if rest or b"code" not in lines:
        return f"BadLine, line {before + len(lines) + 1}"
    at = lines.index(b"code") + 1
    for number, row in enumerate(lines[at:], at):
        goal = re.match(rb"(?:jump|unless \d+) (\d+)", row)
        if goal and int(goal[1]) > len(lines) - at:
            return f"BadTable, line {before + number + 1}"
    return None


def listing_front(caller, whole, end, draw):
    """A front of a listing is refused at the line that is cut or missing, or where a goal is."""
    found, fault = listing(caller, whole[:end], draw), wrong_front(whole[:end])
    holds(found.text == f"listing refused: {fault}\n".encode() if fault else found.status != 11, found)


# ---- saved grids
def saved(caller, text):
    caller.put("text", text)
    found = caller.call("resume text turns=9999 report", {0, 7, 8, 12, 16})
    holds(found.status != 16 or 1 <= int(found.text.split()[-1]) <= text.count(b"\n") + 1, found)
    return found


def wrong_save(whole, text):
    """What may be told of a front of a saved grid: faults, or none where it is one."""
    *lines, rest = text.split(b"\n")
    state = next((number for number, it in enumerate(lines) if it.startswith(b"proc ")), len(lines))
    if rest or len(lines) < 2:
        return [f"BadLine, line {len(lines) + 1}"]
    fault = wrong_front(b"".join(it + b"\n" for it in lines[2:state]), 2)
    if fault:
        return [fault]
    needed = max(number for number, it in enumerate(whole.split(b"\n")[:-1]) if not it.startswith(b"msg ")) + 1
    if len(lines) >= needed:
        return []
    # where requests that are kept are missing, the line `proc` is named
    last = max((number for number, it in enumerate(lines) if it.startswith(b"proc ")), default=len(lines))
    return [f"BadState, line {len(lines)}", f"BadState, line {last + 1}"]


def saved_front(caller, whole, end):
    found, faults = saved(caller, whole[:end]), wrong_save(whole, whole[:end])
    holds(found.text in [f"save refused: {it}\n".encode() for it in faults] if faults else found.status != 16, found)


# ---- orders
def wrong_item(text):
    """The offset of the first item of an order that isn't one, or nothing."""
    for word in re.finditer(rb"[^ \t\n\r]+", text):
        item = re.fullmatch(rb"([0-9]+)(?:x([0-9]+))?", word[0])
        if not item or int(item[1]) >= PROCESSORS or int(item[2] or 0) > MOST_TIMES:
            return word.start()
    return None


def order(caller, text):
    """An order is refused at the first item that isn't one, by each command that takes it."""
    caller.put("text", text)
    at = wrong_item(text)
    for row in ("run source grid=2x2", "exec code", "time code", "resume saved", *(["gridtrace code"] if caller.has_trace else [])):
        found = caller.call(f"{row} order=text turns=50", {0, 6, 7, 8})
        holds(found.text == b"order refused, byte %d\n" % at if at is not None else found.status != 6, found)


# ---- texts
def changed(text, draw):
    """A text with one byte, or one line, changed, left out or doubled."""
    if draw.random() < 0.5:
        at = draw.randrange(len(text))
        return text[:at] + draw.choice([b"", bytes([draw.randrange(256)]), text[at:at + 1] * 2, bytes([draw.choice(b"0123456789 -:;.x")])]) + text[at + 1:]
    lines = text.splitlines(keepends=True)
    at = draw.randrange(len(lines))
    return b"".join(lines[:at] + draw.choice([[], [lines[at]] * 2, [draw.choice(lines)]]) + lines[at + 1:])


def read(path):
    with open(f"{EXAMPLES}/{path}", "rb") as file:
        return file.read()


def names(patterns):
    """The examples of these names."""
    return [os.path.relpath(path, EXAMPLES) for pattern in patterns for path in sorted(glob.glob(f"{EXAMPLES}/{pattern}"))]


def tasks_of(caller, changes, seed):
    """All tests: the name of a text, the text, and a call that says what is wrong with its answers."""
    draw = random.Random(seed)

    def each(name, whole, front, other):
        for end in range(len(whole) + 1):
            yield name, whole[:end], lambda end=end: front(whole, end)
        for _ in range(changes):
            text = changed(whole, draw)
            yield name, text, lambda text=text: other(text)

    for path in names(SOURCES):
        # without the comment that stands behind a program
        text = read(path)
        yield from each(path, text[:end_of(text) + 1], lambda whole, end: source_front(caller, whole, end), lambda text: source(caller, text))
    for path in names(LISTINGS):
        caller.put("text", read(path))
        if caller.call("check text", {0, 11, 13}).status == 11:
            continue
        yield from each(path, read(path), lambda whole, end: listing_front(caller, whole, end, random.Random(end)), lambda text: listing(caller, text, random.Random(len(text))))
    code = read("listings/ring.lst")
    for path, turns in SAVED.items():
        caller.put("text", read(path))
        if path.endswith(".zpl"):
            caller.put("text", caller.call("list text grid=2x2", {0}).out)
        whole = caller.call(f"exec text turns={turns} save", {8}).text
        yield from each(f"saved {path}", whole, lambda whole, end: saved_front(caller, whole, end), lambda text: saved(caller, text))
    caller.put("text", code)
    grid = caller.call("exec text turns=100 save", {8}).text

    def order_on(text):
        for name, content in (("source", read("sum.zpl")), ("code", code), ("saved", grid)):
            caller.put(name, content)
        order(caller, text)

    yield from each("order", ORDER, lambda whole, end: order_on(whole[:end]), order_on)


def answer(task):
    """What is wrong with the answers to a text, if something is."""
    name, text, test = task
    try:
        test()
    except Wrong as why:
        return name, text, str(why)
    return None


def main():
    words = argparse.ArgumentParser(description=__doc__, formatter_class=argparse.RawDescriptionHelpFormatter)
    words.add_argument("--programs", default=f"{TOP}/crates", metavar="FOLDER")
    words.add_argument("--only", default="", metavar="WORD", help="only the texts in whose name this word is")
    words.add_argument("--changes", type=int, default=50, metavar="N")
    words.add_argument("--seed", type=int, default=1, metavar="N")
    words.add_argument("--jobs", type=int, default=os.cpu_count(), metavar="N")
    words.add_argument("--seconds", type=float, default=20, metavar="S")
    given = words.parse_args()
    if not os.path.exists(f"{given.programs}/zplgrid/out/zplgrid"):
        print("zplgrid isn't there: ./build first")
        return 1
    with tempfile.TemporaryDirectory() as room, ThreadPoolExecutor(given.jobs) as pool:
        caller = Caller(os.path.abspath(given.programs), room, given.seconds)
        tasks = [it for it in tasks_of(caller, given.changes, given.seed) if given.only in it[0]]
        failed = [it for it in pool.map(answer, tasks) if it]
    for number, (name, text, why) in enumerate(failed, 1):
        kept = f"{tempfile.gettempdir()}/cut-text-{number}"
        with open(kept, "wb") as file:
            file.write(text)
        print(f"{name}: {why}; the text is {kept}")
    print(f"{len(tasks)} texts, {next(caller.calls)} calls; of {len(failed)} texts one answered otherwise")
    return 1 if failed or not tasks else 0


sys.exit(main())
