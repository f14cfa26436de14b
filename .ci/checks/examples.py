#!/usr/bin/env python3
"""Each example prints, is refused with, or traps with what the comment at its head says.

Run it at the top of the repository, where the program is built: .ci/checks/examples.py.
A comment has a line `Prints:`, `Refused:` or `Traps:`, and below it, indented by two more, what is told, line by line; `--` alone is an
empty line. The command, where it isn't `run`, stands in a line `Command: WORD` before that, and words behind the file in a line
`Words: WORD ..`.

A run of a listing is a text in examples/listings, with such lines and `Listing: FILE`; a line `Order: ITEM ..` has the text of its order,
and a line `Status: N` the status where that isn't 0.

The code of each program that isn't refused is sound: `check` accepts what `list` makes of it for a grid of 2 by 2, without letters and with all.
"""
import glob
import os
import re
import shutil
import subprocess
import sys
import tempfile

PROGRAM = os.path.abspath("crates/zplgrid/out/zplgrid")
STATUSES = {"Prints:": 0, "Refused:": 4, "Traps:": 7}
LETTERS = ("", "fcrmet")


def told_in(text):
    """The lines that the comment at the head of a text says are told, and the status that goes with the word above them."""
    wanted, status, indent = [], None, 0
    for line in text.splitlines():
        body = re.sub(r"^(--|/\*)?", "", line)
        if status is None and body.strip() in STATUSES:
            status = STATUSES[body.strip()]
            indent = len(body) - len(body.lstrip()) + 2
        elif status is not None and (body.startswith(" " * indent) or line == "--"):
            wanted.append(body[indent:])
        elif status is not None:
            break
    return wanted, status


def line_in(text, name):
    """What stands in the line of the comment that begins with this name, if there is one."""
    line = re.search(rf"^(?:--|/\*)? *{name}: (.*)$", text, re.MULTILINE)
    return line[1] if line else None


def words_in(text, command):
    """The words with which the example is run; its file stands in place of the braces."""
    return [line_in(text, "Command") or command, "{}"] + (line_in(text, "Words") or "").split()


def case_of(path):
    """The name under which an example's file lies where it is run: no two examples have one."""
    return os.path.relpath(path, "examples").replace("/", "-")


def told_by(place, text, name, words):
    """What the program tells where it is run with these words, on a copy of the text under the name, and its status."""
    shutil.copy(text, f"{place}/{name}")
    ran = subprocess.run([PROGRAM, *(name if word == "{}" else word for word in words)], cwd=place, stdin=subprocess.DEVNULL,
                         stdout=subprocess.PIPE, stderr=subprocess.STDOUT, text=True, check=False)
    return ran.stdout.splitlines(), ran.returncode


def of_program(place, path):
    """What the program tells of an example and its status, and what the example's comment says of both."""
    with open(path, encoding="utf-8") as file:
        text = file.read()
    wanted, status = told_in(text)
    settings = wanted[:1] and wanted[0].startswith("settings refused: ")
    return told_by(place, path, case_of(path), words_in(text, "run")), (wanted, 5 if settings else status)


def of_listing(place, path):
    """The same of a run of a listing."""
    with open(path, encoding="utf-8") as file:
        text = file.read()
    name, order = case_of(path), line_in(text, "Order")
    words = words_in(text, "exec")
    if order is not None:
        with open(f"{place}/{name}.order", "w", encoding="utf-8") as file:
            file.write(order)
        words.append(f"order={name}.order")
    listing = f"{os.path.dirname(path)}/{line_in(text, 'Listing')}"
    return told_by(place, listing, name, words), (told_in(text)[0], int(line_in(text, "Status") or 0))


def told_of_code(place, path):
    """What `check` tells of the code of an example, where it has some, without letters and with all."""
    with open(path, encoding="utf-8") as file:
        settings = [it for it in words_in(file.read(), "run")[2:] if ":=" in it]
    for letters in LETTERS:
        built = ["grid=2x2", *([f"opt={letters}"] if letters else [])]
        with open(f"{place}/code.lst", "wb") as listing:
            made = subprocess.run([PROGRAM, "list", path, *settings, *built], stdin=subprocess.DEVNULL, stdout=listing,
                                  stderr=subprocess.DEVNULL, check=False)
        if made.returncode:
            continue
        ran = subprocess.run([PROGRAM, "check", "code.lst"], cwd=place, stdin=subprocess.DEVNULL,
                             stdout=subprocess.PIPE, stderr=subprocess.STDOUT, text=True, check=False)
        yield " ".join(built), ran.stdout


def main():
    with tempfile.TemporaryDirectory() as place:
        found = {path: of_program(place, path) for path in sorted(glob.glob("examples/**/*.zpl", recursive=True))}
        found.update((path, of_listing(place, path)) for path in sorted(glob.glob("examples/listings/**/*.txt", recursive=True)))
        codes = {(path, built): told for path, (_, wanted) in found.items() if path.endswith(".zpl") and wanted[1] in (0, 7)
                 for built, told in told_of_code(place, path)}
    unsound = {it: told for it, told in codes.items() if not told.startswith("sound, links ")}
    for (path, built), told in unsound.items():
        print(f"{path} {built}: its code is told {told!r}")
    wrong = [path for path, (told, wanted) in found.items() if told != wanted]
    for path in wrong:
        print(f"{path}: told {found[path][0]}, its comment says {found[path][1]}")
    print(f"{len(found) - len(wrong)} examples are as their comments say, {len(wrong)} aren't; "
          f"{len(codes) - len(unsound)} codes of them are sound, {len(unsound)} aren't")
    return 1 if wrong or unsound else 0


sys.exit(main())
