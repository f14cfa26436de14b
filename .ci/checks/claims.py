#!/usr/bin/env python3
"""What the documents name is there: crates, functions, clauses, words of specs.

Run it at the top of the repository: .ci/checks/claims.py. It says what each README of a crate, `README.md`,
`docs/PROMISES.md`, `docs/ARCHITECTURE.md` and `docs/DEFINITIONS.md` name that isn't there, or leave out. It reads names alone: that a
sentence says no more than its clause is for readers.

- A README has the five heads of a library, or the three of a crate of tests.
- What stands below a crate is what its line of crates.txt names, and what its sources name through a crate of that line,
  which passes it on (`Rattle.high.specs.of_low.Word`, `high::low::item`).
- Ways from crates to crates below them are few, all in all (docs/PROVING.md says why).
- A word stands in the module of `specs/` that its row names; and so for `docs/DEFINITIONS.md`.
- In a row of a function a name in front of a colon is a clause of it.
- Each other name of what is proved is one of the sources of the crate, of a crate below it, or of one that is
  named beside it.
- The tables of `docs/PROMISES.md` and `docs/ARCHITECTURE.md` have each library. Each crate stands in one room, the same in
  `crates.txt` and `docs/ARCHITECTURE.md`; `README.md` names the rooms, and has at most 120 lines of 110 columns.
- What `docs/TUTORIAL.md` shows of a primer stands in its program, line by line; `examples/README.md` names each
  program, and what it names is there.
"""
import glob
import os
import re
import sys

KIT = {"bumpalo", "hex", "indexmap", "itoa"}
HEADS = ["What it does", "What is proved, and by which clause", "What is only tested", "What stands below it",
         "How to read its specs"]
HEADS_OF_TESTS = ["What it does", "What is proved", "What stands below it"]
MOST_WAYS = 352_000
PASSED_ON = re.compile(r"(?m)^pub use (?:Rattle\.\w+\.(?:specs|proofs)(?:\.of_\w+)? as of_\w+\n|(?:\w+::)?\w+;\n|\w+::\{[a-z_, ]+\};\n)")
CLAUSE = re.compile(r"\s*(requires|ensures|decreases)\b\s*([A-Za-z_0-9]*)\s*\{")


def read(path):
    with open(path, encoding="utf-8") as file:
        return file.read()


def libraries():
    """The crates that each crate names, by crates.txt."""
    found = {}
    for line in read("crates.txt").splitlines():
        name, colon, rest = line.split("#")[0].partition(":")
        if colon:
            found[name.strip()] = rest.split()
    return found


def below(name, of, found):
    """The crates below a crate, and itself."""
    if name in of and name not in found:
        found.add(name)
        for library in of[name]:
            below(library, of, found)
    return found


def ways(of):
    """How many ways lead from all crates to what stands below them, each crate itself counted as one."""
    found = {}

    def count(name):
        if name not in found:
            found[name] = 1 + sum(count(library) for library in of[name] if library in of)
        return found[name]

    return sum(count(name) for name in of)


def named_through(crate, of):
    """The crates that the sources of a crate name through one of its line of crates.txt."""
    found = set()
    for folder, kind in (("src", "rt"), ("specs", "antt"), ("proofs", "antt")):
        for _, text in texts(crate, folder, kind):
            text = PASSED_ON.sub("", text)
            found.update(re.findall(r"\bRattle\.\w+\.(?:specs|proofs)\.of_(\w+)", text))
            found.update(low for above, low in re.findall(r"\b(\w+)::(\w+)\b", text) if above in of[crate])
    return found & below(crate, of, set()) - {crate}


def texts(crate, folder, kind):
    return [(path, read(path)) for path in sorted(glob.glob(f"crates/{crate}/{folder}/**/*.{kind}", recursive=True))]


def names_of(crate):
    """All names in the sources of a crate, those of its files too."""
    found = set()
    for folder, kind in (("src", "rt"), ("specs", "antt"), ("proofs", "antt")):
        for path, text in texts(crate, folder, kind):
            found.update(re.findall(r"[A-Za-z_][A-Za-z0-9_]*", text))
            found.update(os.path.relpath(path, f"crates/{crate}").replace(".", "/").split("/"))
    return found


def declared(crate, module):
    """What a module of the specs of a crate declares."""
    found = set()
    for path in glob.glob(f"crates/{crate}/specs/**/{module}.antt", recursive=True):
        text = read(path)
        found.update(re.findall(r"(?m)^\s*(?:pub )?(?:data|record|abbrev|opaque|unfoldable) (?:pub )?([A-Za-z_][^\s:(\[{]*)", text))
        found.update(re.findall(r"(?m)^\s*(?:pub )?([A-Za-z_][^\s:(\[{]*) :", text))
    return found


def closed(text, at):
    """Where the brace that is open before a place is closed."""
    depth = 1
    while depth and at < len(text):
        depth += {"{": 1, "}": -1}.get(text[at], 0)
        at += 1
    return at


def clauses_of(crate):
    """The names of the promises of each function of a crate, those of one name together."""
    found = {}
    for _, text in texts(crate, "src", "rt"):
        text = re.sub(r"//[^\n]*", "", text)
        for begin in re.finditer(r"\bfn ([A-Za-z_0-9]+)", text):
            own = found.setdefault(begin[1], set())
            first = re.compile(r"\s(?=(?:requires|ensures|decreases)\b)|[{;](?![^()\[\]]*[)\]])").search(text, begin.end())
            clause = CLAUSE.match(text, first.start()) if first else None
            while clause:
                if clause[1] == "ensures":
                    own.add(clause[2])
                clause = CLAUSE.match(text, closed(text, clause.end()))
    return found


def rows(text):
    """The rows of tables, each with the head of its table."""
    head = None
    for line in text.splitlines():
        if not line.startswith("|"):
            head = None
            continue
        cells = [cell.strip() for cell in re.split(r"(?<!\\)\|", line)[1:-1]]
        if head is None:
            head = cells
        elif not cells[0].startswith("---"):
            yield head, cells


def quoted(text, form=r"[^`]+"):
    return re.findall(rf"`({form})`", text)


def wrong_words(crate, head, cells):
    """The words of a row that don't stand in the modules that it names."""
    if head[0] != "Word" or head[-1] != "Where" or not quoted(cells[-1]):
        return []
    there = set().union(*(declared(crate, module) for module in quoted(cells[-1])))
    there |= set().union(*(names_of_file(crate, path) for path in quoted(cells[-1]) if path.startswith("src/")), set())
    return [f"{word} isn't in {cells[-1]}" for word in quoted(cells[0]) if word not in there]


def names_of_file(crate, path):
    return set(re.findall(r"[A-Za-z_]+", read(f"crates/{crate}/{path}")))


def wrong_clauses(clauses, words, head, cells):
    """The names in front of colons in a row of functions that are neither clauses of them nor words of specs."""
    functions = [name.split("::")[-1] for name in quoted(cells[0])]
    if head[0] not in ("Call", "Function", "Law") or not set(functions) & set(clauses):
        return []
    own = set().union(words, *(clauses.get(name, set()) for name in functions))
    named = re.findall(r"(?:^|[;.] )`([a-z_0-9]+)`:", cells[1])
    return [f"{name} is no clause of {', '.join(functions)}" for name in named if name not in own]


def wrong_below(crate, section, of):
    named = {name for name in quoted(section) if name in of or name in KIT}
    used = set(of[crate]) | named_through(crate, of)
    told = [f"{name} stands below it, and isn't named so" for name in sorted(used - named)]
    return told + [f"{name} is named by none of its files" for name in sorted(named - used)]


def wrong_in(crate, of, names, clauses):
    """What is wrong with the README of a crate."""
    text = read(f"crates/{crate}/README.md")
    parts = re.split(r"(?m)^## (.*)\n", text)
    heads, tests = parts[1::2], crate.endswith("_tests")
    if heads != (HEADS_OF_TESTS if tests else HEADS):
        return [f"its heads are {heads}"]
    section = dict(zip(heads, parts[2::2]))
    told = wrong_below(crate, section["What stands below it"], of)
    for head, cells in rows(text):
        told += wrong_words(crate, head, cells)
    words = {word for _, spec in texts(crate, "specs", "antt") for word in re.findall(r"[A-Za-z_]\w*", spec)}
    for head, cells in [] if tests else rows(section[HEADS[1]]):
        told += wrong_clauses(clauses, words, head, cells)
    proved = section[HEADS_OF_TESTS[1] if tests else HEADS[1]]
    near = below(crate, of, set()) | {name for name in quoted(proved) if name in of}
    known = set(of) | KIT | set().union(*(names[library] for library in near))
    for name in quoted(proved, r"[A-Za-z_][A-Za-z_0-9]*"):
        if name not in known and not name.endswith("_"):
            told.append(f"{name} is nowhere in it, below it or in a crate that is named beside it")
    return told


def wrong_definitions():
    told = []
    for head, cells in rows(read("docs/DEFINITIONS.md")):
        crates = [name for name in quoted(cells[-1]) if os.path.isdir(f"crates/{name}")]
        places = [name for name in quoted(cells[-1]) if name not in crates]
        for crate in crates:
            row = cells[:-1] + [" ".join(f"`{place}`" for place in places)]
            told += wrong_words(crate, head, row)
    return told


def wrong_tables(of):
    """The libraries that a table leaves out, and the crates of the first one that aren't there, those to come aside."""
    told, readme, promises = [], read("README.md"), read("docs/PROMISES.md")
    if len(readme.splitlines()) > 120:
        told.append("README.md has more than 120 lines")
    told += [f"README.md: line {at + 1} has more than 110 columns" for at, line in enumerate(readme.splitlines())
             if len(line) > 110]
    for page, text in (("docs/PROMISES.md", promises), ("docs/ARCHITECTURE.md", read("docs/ARCHITECTURE.md"))):
        told += [f"{page} leaves out {name}" for name in of if not name.endswith("_tests") and f"`{name}`" not in text]
    for page, text in (("README.md", readme), ("docs/PROMISES.md", promises)):
        for head, cells in rows(text):
            if head[0] == "Promise" and cells[-1] != "to come":
                told += [f"{page}: {name} isn't there" for name in quoted(cells[1]) if name not in of]
    return told


def rooms_of_crates():
    """The rooms of crates.txt, each with its crates."""
    found = {}
    for line in read("crates.txt").splitlines():
        if line.startswith("# "):
            room = found.setdefault(line[2:].strip(), [])
        elif ":" in line:
            room.append(line.partition(":")[0].split()[0])
    return found


def wrong_rooms():
    """The crates that don't stand under the same head in crates.txt and docs/ARCHITECTURE.md, and rooms that README.md has otherwise."""
    rooms, told = rooms_of_crates(), []
    parts = re.split(r"(?m)^### (.*)\n", read("docs/ARCHITECTURE.md"))
    there = dict(zip(parts[1::2], parts[2::2]))
    if list(there) != list(rooms):
        told.append(f"docs/ARCHITECTURE.md has the rooms {list(there)}, and crates.txt {list(rooms)}")
    for room in set(there) & set(rooms):
        named = [name for head, cells in rows(there[room]) for name in quoted(cells[0])]
        wanted = [name for name in rooms[room] if not name.endswith("_tests")]
        told += [f"docs/ARCHITECTURE.md: {name} doesn't stand once under {room}" for name in wanted if named.count(name) != 1]
        told += [f"docs/ARCHITECTURE.md: {name} stands under {room}" for name in named if name not in wanted]
    shown = re.sub(r"\s+", " ", read("README.md"))
    if ", ".join(rooms) not in shown:
        told.append(f"README.md doesn't name the rooms {', '.join(rooms)}")
    return told


def lines_of(path):
    return {line.strip() for line in read(path).splitlines()}


def wrong_primers():
    """The lines of primers that their programs don't have, and the examples that are left out or aren't there."""
    told, primers, page = [], set(), read("examples/README.md")
    for part in re.split(r"(?m)^## ", read("docs/TUTORIAL.md"))[1:]:
        program = re.search(r"\A.*\n\n`(\w+)\.zpl`", part)
        if program:
            primers.add(f"examples/primers/{program[1]}.zpl")
            there = lines_of(f"examples/primers/{program[1]}.zpl") | {".."}
            shown = re.findall(r"(?m)^ {4}(.+)$", part)
            told += [f"docs/TUTORIAL.md: {program[1]}.zpl has no line {line.strip()}" for line in shown if line.strip() not in there]
    left = set(glob.glob("examples/primers/*.zpl")) - primers
    told += [f"docs/TUTORIAL.md leaves out {path}" for path in sorted(left)]
    paths = glob.glob("examples/*.zpl") + glob.glob("examples/primers/*.zpl")
    told += [f"examples/README.md leaves out {path}" for path in sorted(paths) if f"`{path[len('examples/'):]}`" not in page]
    named = quoted(page, r"[\w/]+\.zpl")
    return told + [f"examples/README.md: {name} isn't there" for name in named if not os.path.exists(f"examples/{name}")]


def main():
    of = libraries()
    names = {crate: names_of(crate) for crate in of}
    told = [f"crates.txt: {ways(of)} ways from crates to crates below them"] if ways(of) > MOST_WAYS else []
    told += wrong_tables(of) + wrong_rooms() + [f"docs/DEFINITIONS.md: {wrong}" for wrong in wrong_definitions()] + wrong_primers()
    for crate in of:
        told += [f"crates/{crate}/README.md: {wrong}" for wrong in wrong_in(crate, of, names, clauses_of(crate))]
    for wrong in told:
        print(wrong)
    print(f"{len(of)} READMEs of crates, {len(told)} names that don't fit")
    return 1 if told else 0


sys.exit(main())
