#!/usr/bin/env python3
"""The scripts say what the documents and the examples say of them.

Run it at the top of the repository, once the program is built: .ci/checks/scripts.py. Compared are

- the calls that README.md and the pages of docs/ show: a line set in by four that begins with `$ ./` and the name of a script or
  of a program, or with `$ echo`, is run, and the lines below it, set in as far, are what it puts and tells. What a call writes
  behind `>` the later ones of its page find;
- a listing that docs/LISTING.md shows with comments, and its file; the program at the head of docs/LANGUAGE.md, and its file;
- the texts of `why`: docs/LANGUAGE.md and docs/LISTING.md have a row with them for each fault, and no other, and the names are
  those that the definitions of the program's texts have;
- what `why` says of examples with lines `Hint:` in the comment at their head, and of some words that are no command;
- the statements that docs/LANGUAGE.md shows as examples of faults and traps, and what is told of them, and that `why` says more of each
  clash of ranks and of flood dimensions;
- the lines that docs/LISTING.md says break a rule of listings;
- the messages and words of forms, as docs/COSTS.md reckons them;
- what `costs --lines` adds up and what `exec` reports, and the ticks that `picture` draws and that `time` tells;
- the table that `costs` writes to a file; what `picture` tells of runs that are stuck, and that it draws some ticks alone; the line of
  `gridtrace` for a link without room.

Each script says how it is called, with --help.
"""
import glob
import importlib.machinery
import importlib.util
import os
import re
import subprocess
import sys
import tempfile

SCRIPTS = ["show", "why", "costs", "picture"]
PROGRAMS = ["zplgrid", "gridtrace"]
SHOWN = ("echo ", *(f"./{it} " for it in [*SCRIPTS, *PROGRAMS]))
NAMES = {"call_claims": r'(?:judged_name|bind_name|trap_name) \S+ = codes "([^"]+)"|settings_text \(codes "(\w+)"\)',
         "list_claims": r'whole_text \(codes "(\w+)"\)', "exec_claims": r'(?:kind_name \S+|idle_name) = codes "(\w+)"|listing_refused_text \(codes "(\w+)"\)'}
# what is told of no run of the program: it would be an instruction that names what isn't in a table
UNTOLD = {"Undefined"}
OF_TOKENS = {"BadByte", "OpenComment", "OpenString", "NumberTooLarge", "FloatText", "Syntax", "TooDeep"}

# words behind ./why, and what has to stand in what it tells
CALLS = [
    ("run examples/sum.zpl n=4", "a config is set by `n:=4`"),
    ("run examples/sum.zpl --n=4", "a config is set by `n:=4`"),
    ("run examples/sum.zpl grid=2,2", "`grid=2x2`: one to three numbers"),
    ("run examples/sum.zpl opt=fz", "letters of `fcrmet`"),
    ("run examples/sum.zpl opt=ff", "letters of `fcrmet`"),
    ("mean examples/sum.zpl grid=2", "`mean` takes no `grid=`"),
    ("rnu examples/sum.zpl", "it may be `run`"),
    ("run examples/jacobi.zpl siz:=9", "it may be `size`"),
    ("run examples/jacobi.zpl size:=nine", "`size` is an integer, and `nine` is none"),
    ("run examples/jacobi.zpl size:=9 size:=8", "`size` is set twice"),
    ("run examples/jacobi.zpl turns=5", "ask for more by `turns=N`"),
    ("run examples/jacoby.zpl", "`jacobi.zpl` is there"),
    ("exec examples/sum.zpl", "this is a program"),
    ("run examples/listings/ring.lst", "this is a listing"),
    ("mean examples/mistakes/shifts.zpl", "examples/mistakes/shifts.zpl:14:3: reference outside storage"),
    ("exec examples/listings/unheld.lst", "processor 0 is at instruction 1"),
    ("exec examples/listings/crossed.lst links=1", "examples/listings/crossed.lst:21:1: Idle"),
    ("exec examples/listings/crossed.lst links=1", "processor 0 is at instruction 3, and waits for room on its link to processor 1"),
    ("check examples/listings/idle.lst", "examples/listings/idle.lst:14:1: this instruction lacks what it asks for"),
    ("exec examples/listings/idle.lst checked", "a scalar of its expressions may differ between processors"),
    ("check examples/listings/idle.lst turns=5", "`check` takes no `turns=`"),
    ("exec examples/listings/ring.lst order=examples/sum.zpl", "examples/sum.zpl:1:1: this is no item of an order"),
]


def read(path):
    with open(path, encoding="utf-8") as file:
        return file.read()


def written(path):
    """The text of a file that a script was to write, and none where it didn't."""
    return read(path) if os.path.exists(path) else ""


def told_by(words):
    """What a call of a script puts and tells, line by line."""
    ran = subprocess.run(words, shell=isinstance(words, str), stdout=subprocess.PIPE, stderr=subprocess.STDOUT)
    return [it.rstrip() for it in ran.stdout.decode(errors="replace").splitlines()]


# ---- calls that pages show
def calls_in(path):
    """The calls that a page shows, each with what it shows of it."""
    found, said = [], None
    for line in read(path).splitlines():
        if line.startswith("    $ "):
            said = []
            if line[6:].startswith(SHOWN):
                found.append((line[6:], said))
        elif line.startswith("    ") and said is not None:
            said.append(line[4:].rstrip())
        else:
            said = None
    return found


def wrong_calls():
    for path in ["README.md", *sorted(glob.glob("docs/*.md"))]:
        with tempfile.TemporaryDirectory() as folder:
            own = set()
            for call, shown in calls_in(path):
                # the files that calls write stand in a folder of their own
                own |= set(re.findall(r"> (\w+\.\w+)", call))
                ran = re.sub(r"(?<![\w/.])(\w+\.\w+)\b", lambda it: f"{folder}/{it[1]}" if it[1] in own else it[1], call)
                # a picture that a page has is drawn there too, and compared
                drawn = re.search(r"--(?:svg|out) (\S+)", call)
                told = told_by(ran.replace(drawn[1], f"{folder}/drawn") if drawn else ran)
                yield told != shown and f"{path}: {call}\n  shown: {shown}\n  told:  {told}"
                if drawn:
                    yield read(drawn[1]) != written(f"{folder}/drawn") and f"{path}: {call} draws something else than {drawn[1]}"


def wrong_helps():
    for script in [*SCRIPTS, "build"]:
        ran = subprocess.run([f"./{script}", "--help"], capture_output=True)
        yield (ran.returncode != 0 or not ran.stdout) and f"./{script} --help says nothing"


def wrong_listings():
    """Listings that a page shows with comments are those of their files."""
    for path, shown in re.findall(r"`(examples/listings/\w+\.lst)`, with comments.*?```\n(.*?)```", read("docs/LISTING.md"), re.DOTALL):
        plain = "".join(re.sub(r"\s*--.*", "", line) + "\n" for line in shown.splitlines())
        yield plain != read(path) and f"docs/LISTING.md shows {path} otherwise than it is"
    # the program at the head of the page on the language, without its comments
    shown = re.search(r"## A program\n\n.*`(examples/\w+/\w+\.zpl)`:\n\n((?: {4}.*\n)+)", read("docs/LANGUAGE.md"))
    plain = [re.sub(r"\s*--.*", "", line[4:]) for line in shown[2].splitlines()]
    yield plain != [it for it in read(shown[1]).splitlines() if not it.startswith("--")] and f"docs/LANGUAGE.md shows {shown[1]} otherwise than it is"


# ---- the texts of `why`
def table_of_why():
    loader = importlib.machinery.SourceFileLoader("why", "./why")
    module = importlib.util.module_from_spec(importlib.util.spec_from_loader("why", loader))
    sys.dont_write_bytecode = True
    loader.exec_module(module)
    return module.TABLE


def rows_in(path):
    """The rows of a page's tables, each with the heads of its table."""
    head = None
    for line in read(path).splitlines():
        if not line.startswith("|"):
            head = None
            continue
        cells = [it.strip().replace("\\|", "|") for it in re.split(r"(?<!\\)\|", line)[1:-1]]
        if head is None:
            head = cells
        elif not cells[0].startswith("---"):
            yield dict(zip(head, cells))


def texts_of_pages():
    """For each fault, trap and way to be stuck that the pages have a row of: what it says, and a way to mend it."""
    found = {}
    for path in ("docs/LANGUAGE.md", "docs/LISTING.md"):
        for row in rows_in(path):
            if "A way to mend it" not in row or "Place" in row and "Fault" not in row:
                continue
            name = row.get("Fault") or row.get("Told") or re.fullmatch(r"`trap: (.*), line L`", row["Text"])[1]
            found[name] = (row.get("It says") or row["It holds where"], row["A way to mend it"])
    return found


def wrong_texts():
    said, shown = table_of_why(), texts_of_pages()
    for name in sorted({*said, *shown}):
        yield said.get(name) != shown.get(name) and f"{name}: ./why has {said.get(name)}, and the pages {shown.get(name)}"
    names = set(OF_TOKENS)
    for crate, form in NAMES.items():
        for path in glob.glob(f"crates/{crate}/specs/*.antt"):
            names |= {it for found in re.findall(form, read(path)) for it in ([found] if isinstance(found, str) else found) if it}
    for name in sorted(names - UNTOLD ^ set(said)):
        yield f"{name} is in ./why or in the definitions, and not in both"


# ---- what `why` says of wrong programs and words
def wrong_hints():
    for path in sorted(glob.glob("examples/*/*.zpl")):
        text = read(path)
        hints = re.findall(r"(?m)^-- Hint: (.*)$", text)
        words = (re.search(r"(?m)^-- Words: (.*)$", text) or [None, ""])[1].split()
        if hints:
            said = [it[len("  here: "):] for it in told_by(["./why", "run", path, *words]) if it.startswith("  here: ")]
            yield said != hints and f"{path}: ./why says {said}, its comment {hints}"
    for words, wanted in CALLS:
        told = told_by(["./why", *words.split()])
        yield not any(wanted in it for it in told) and f"./why {words}: {wanted!r} isn't in {told}"


# ---- examples of faults and traps
PLAIN = """config var n : integer = 4;
region R = [1..4];
direction e = [1]; d = [0, 1];
var A, B : [R] integer; P : [R] boolean; M : [1..4, 1..4] integer; x, i : integer; p : boolean;
procedure f() : integer; begin return 1; end;
procedure q(a : integer); begin x := a; end;
"""
# the declarations that the page speaks of in front of a table, where they aren't these
FRAMES = {"FloodClash": "region S = [1..3, 1..4];\nvar M : [S] integer; D : [1..3, *] integer; x : integer;\n"}
DECLARES = ("var ", "procedure ", "program ", "constant ", "direction ", "region ", "config ")


def examples_in():
    """Statements that docs/LANGUAGE.md shows for a fault or a trap, each with its declarations and the beginning of what is told."""
    fault = None
    for line in read("docs/LANGUAGE.md").splitlines():
        named = re.match(r"(\w+) has these causes", line)
        if named or not line.startswith("|"):
            fault, head = (named[1] if named else None if line.startswith("#") else fault), None
            continue
        cells = [it.strip().replace("\\|", "|") for it in re.split(r"(?<!\\)\|", line)[1:-1]]
        head = head or cells
        row = dict(zip(head, cells))
        if head is cells or "Example" not in row or not ("Place" in row or "Text" in row):
            continue
        told = row["Text"].strip("`").replace(" line L", "") if "Text" in row else f"refused: {row.get('Fault', fault)}, "
        for it in re.findall(r"`([^`]+;)`", row["Example"]):
            if not it.startswith(DECLARES):
                yield FRAMES.get(fault, PLAIN) if "Fault" not in row and "Text" not in row else PLAIN, told, it


def wrong_examples():
    with tempfile.TemporaryDirectory() as folder:
        for frame, told, statement in examples_in():
            with open(f"{folder}/example.zpl", "w", encoding="utf-8") as file:
                file.write(f"program example;\n{frame}procedure example();\nbegin\n{statement}\nend;\n")
            found = told_by(["./why", "mean", f"{folder}/example.zpl"])
            yield not (found and found[0].startswith(told)) and f"docs/LANGUAGE.md: {statement} has {found}, not {told}"


# ---- the rules of listings
def wrong_rules():
    """Each line that docs/LISTING.md says breaks a rule of tables does so in border.lst, in the place of a line of its kind, or of the last one."""
    plain = read("examples/listings/border.lst").splitlines()
    with tempfile.TemporaryDirectory() as folder:
        for row in rows_in("docs/LISTING.md"):
            for line in re.findall(r"`([^`]+)`", row.get("In `border.lst` these break one", "")):
                kind = line.split()[0]
                at = next((i for i, it in enumerate(plain) if it.split()[0] == kind), len(plain) - 1)
                with open(f"{folder}/broken.lst", "w", encoding="ascii") as file:
                    file.write("".join(f"{it}\n" for it in [*plain[:at], line, *plain[at + 1:]]))
                told = told_by(["./zplgrid", "exec", f"{folder}/broken.lst"])
                yield told != [f"listing refused: BadTable, line {at + 1}"] and f"docs/LISTING.md: {line} in line {at + 1} has {told}"


# ---- what forms cost
def wrong_costs():
    """Messages and words of the examples of forms are those that docs/COSTS.md reckons."""
    for row in rows_in("docs/COSTS.md"):
        if "Messages" not in row:
            continue
        name = row["Example"].strip("`")
        for count in (2, 4) if name == "flood" else (2, 4, 8, 16):
            told = told_by(["./zplgrid", "run", f"examples/costs/{name}.zpl", f"grid={count}", "report"])
            wanted = [eval(row[it].strip("`"), {"P": count, "N": 16}) for it in ("Messages", "Words")]
            yield f" sends {wanted[0]} words {wanted[1]}" not in told[-1] and f"docs/COSTS.md: {name} on {count} has {told[-1]}, not {wanted}"


# ---- traces
def wrong_traces():
    """Turns, messages and words line by line are those of the whole run, and the moves of a trace end when `time` says so."""
    for path in sorted(glob.glob("examples/costs/*.zpl")):
        told = told_by(["./costs", path, "--lines", "--grids", "4"])[-1].split()
        wanted = told_by(["./zplgrid", "run", path, "grid=4", "report"])[-1]
        yield wanted != f"turns {told[2]} sends {told[4]} words {told[5]}" and f"./costs {path} --lines ends with {told}, not {wanted}"
    with tempfile.TemporaryDirectory() as folder:
        for path in sorted(glob.glob("examples/listings/*.lst")):
            ticks = re.search(r"ticks (\d+)", told_by(["./zplgrid", "time", path])[0])
            told = told_by(["./picture", path, "--out", f"{folder}/run.svg"])
            yield ticks and f": {ticks[1]} ticks, " not in read(f"{folder}/run.svg") and f"./picture {path} draws other ticks than {ticks[1]}: {told}"


# ---- files that scripts write
def wrong_files():
    """The table in a file is the one that is shown, each set of letters by itself; of a stuck run it is told for whom a processor waits."""
    with tempfile.TemporaryDirectory() as folder:
        told = told_by(["./costs", "examples/costs/fold.zpl", "--grids", "1,4", "--letters", "each", "--csv", f"{folder}/costs.csv"])
        rows = [it.split(",") for it in written(f"{folder}/costs.csv").splitlines()]
        shown = [[*it.split()[:8], letters] for it in told[1:] for letters in it.split()[8:]]
        yield (rows[:1] != [told[0].split()] or sorted(rows[1:]) != sorted(shown)) and f"./costs --csv has {rows}, and its table {told}"
        for name, wanted in (("idle", "instruction 3: waits for 1"), ("tag", "instruction 3: stuck Tag"), ("unheld", "instruction 1: stuck Unheld")):
            told = told_by(["./picture", f"examples/listings/{name}.lst", "--out", f"{folder}/{name}.svg"])
            yield f"processor 0 at {wanted}" not in told and f"./picture {name}.lst tells {told}"
            drawn = wanted.split(": ")[1]
            yield f">{drawn}, at " not in written(f"{folder}/{name}.svg") and f"./picture {name}.lst doesn't draw that it {drawn}"
        told = told_by(["./picture", "examples/listings/ring.lst", "--ticks", "5..20", "--out", f"{folder}/part.svg"])
        yield told[-1:] != ["drawn are the ticks from 5 to 20"] and f"./picture --ticks tells {told}"
        # processor 0 goes ahead, until its link is full
        with open(f"{folder}/ahead.txt", "w", encoding="ascii") as file:
            file.write("0x8\n")
        told = told_by(["./gridtrace", "examples/listings/crossed.lst", "links=1", f"order={folder}/ahead.txt"])
        yield "8 0 3 waits for room to 1" not in told and f"./gridtrace crossed.lst tells {told}"


def main():
    for program in PROGRAMS:
        if not os.access(f"crates/{program}/out/{program}", os.X_OK):
            print(f"{program} isn't built: ./build first")
            return 1
    count = wrong = 0
    for check in (wrong_calls, wrong_helps, wrong_listings, wrong_texts, wrong_hints, wrong_examples, wrong_rules, wrong_costs, wrong_traces, wrong_files):
        for it in check():
            count += 1
            if it:
                wrong += 1
                print(it)
    print(f"{count} texts and calls of scripts, {wrong} not as they should be")
    return 1 if wrong else 0


if __name__ == "__main__":
    sys.exit(main())
