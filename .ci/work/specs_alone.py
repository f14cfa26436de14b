#!/usr/bin/env python3
"""Copies crates with their types, specs/ and lemmas alone: no function, and no proof of one.

    .ci/work/specs_alone.py [--from COPY] OUT CRATE..

Run it at the top of the repository. OUT is made anew, a repository of its own, with each CRATE and all
crates below it: `rt check` in OUT/crates/CRATE takes seconds to minutes, where the crates themselves take
hours. Lemmas over them are written and checked there, and then moved to where they belong. What such a
check lets through is proved only once `rt ci` has proved it here: laws are functions, and those of the
crates below aren't in the copy. With --from, libraries that an earlier COPY has built of the same files
are taken over, so that one build serves many copies.
"""
import hashlib
import os
import re
import shutil
import subprocess
import sys

HEAD = r"(?:\s*//[^\n]*\n|\s*#[^\n]*\n)*\s*"
FUNCTION = re.compile(r"(pub(\([^)]*\))?\s+)?(const\s+)?(unsafe\s+)?fn\b")
CLAUSE = re.compile(r"\b(requires|ensures|measure|decreases|panics|cycle)\b\s*\w*\s*$")
LEFT_OUT = {"Debug", "PartialEq", "Eq", "Hash", "Ord", "PartialOrd", "Error", "Display"}


# ---- the crates
def libraries():
    """The libraries of each crate, by crates.txt."""
    found = {}
    with open("crates.txt", encoding="utf-8") as file:
        for line in file:
            name, colon, rest = line.split("#")[0].partition(":")
            if colon:
                found[name.split()[0]] = rest.split()
    return found


def below(names, of):
    """The crates and all below them, lowest first."""
    order = []

    def add(name):
        if name in of and name not in order:
            for library in of[name]:
                add(library)
            order.append(name)

    for name in names:
        add(name)
    return order


# ---- the items of a file
def blanked(text):
    """The text with comments, strings and characters as spaces, of the same length."""
    words = r'//[^\n]*|"(?:\\.|[^"\\])*"|\'(?:\\[^\n]{1,8}?|[^\'\\\n])\''
    return re.sub(words, lambda found: re.sub(r"[^\n]", " ", found.group()), text)


def closing(text, start):
    """Where the bracket that opens at `start` is closed."""
    depth = 0
    for at in range(start, len(text)):
        if text[at] in "{([":
            depth += 1
        elif text[at] in "})]":
            depth -= 1
            if depth == 0:
                return at
    return len(text) - 1


def end_of_function(text, at, most):
    """Behind the body of the function that begins at `at`: the first braces that no clause opens."""
    while at < most:
        start = at
        while at < most and text[at] not in "{;([":
            at += 1
        if at >= most or text[at] == ";":
            return at + 1
        end = closing(text, at) + 1
        if text[at] == "{" and not CLAUSE.search(text[start:at]):
            return end
        at = end
    return most


def end_of_item(text, at, most):
    """Behind another item: a semicolon, or braces."""
    start = at
    while at < most and text[at] not in ";{":
        at = closing(text, at) + 1 if text[at] in "([" else at + 1
    if at < most and text[at] == "{":
        at = closing(text, at) + 1
        if re.match(r"(pub\s+)?(ghost|use|const|static|type)\b", text[start:most]):
            while at < most and text[at] != ";":
                at += 1
            at += 1
        return at
    return at + 1


def items(text, at, most):
    """The items between two places: where each starts and ends, and where it begins behind its attributes."""
    found = []
    while True:
        while at < most and text[at].isspace():
            at += 1
        if at >= most:
            return found
        start = at
        while text.startswith("#", at):
            at = closing(text, text.index("[", at)) + 1
            while at < most and text[at].isspace():
                at += 1
        end = end_of_function(text, at, most) if FUNCTION.match(text, at) else end_of_item(text, at, most)
        found.append((start, min(end, most), at))
        at = end


def derived(text):
    """Without the derives that no definition needs."""
    def kept(found):
        words = [it.strip() for it in found.group(1).split(",")]
        hashed = {"PartialEq", "Eq", "Hash"} if "Hash" in words else set()
        words = [it for it in words if it not in LEFT_OUT or it in hashed]
        return f"#[derive({', '.join(words)})]" if words else ""
    text = re.sub(r"#\[derive\(([^)]*)\)\]", kept, text)
    return re.sub(r"^\s*#\[(error|from|source|display)[^\]]*\]", "", text, flags=re.M)


def without_functions(text):
    """The items of a file that aren't functions; of an `impl`, what isn't one."""
    blank, found = blanked(text), []
    for start, end, at in items(blank, 0, len(blank)):
        if FUNCTION.match(blank, at):
            continue
        if not re.match(r"(unsafe\s+)?impl\b", blank[at:end]):
            found.append(derived(text[start:end]))
            continue
        opens = blank.index("{", at)
        inner = items(blank, opens + 1, closing(blank, opens))
        rest = [text[one:other] for one, other, head in inner if not FUNCTION.match(blank, head)]
        head, lacks = blank[start:opens], len(rest) < len(inner)
        of_trait = re.search(r"\bfor\b(?!\s*<)", head)
        if of_trait and lacks and not re.search(r"\b(Model|Invariant)\b", head):
            continue
        if of_trait or rest:
            found.append(text[start:opens + 1] + "\n" + "\n".join(rest) + "\n}")
    return found


# ---- files
def is_use(item):
    return re.match(HEAD + r"(pub(\([^)]*\))? )?use\b", item)


def types_used(item, body, crates):
    """A `use` of the types that the file still names, or of the types and crates that it hands on."""
    found = re.match(r"(pub(?:\([^)]*\))? )?use ([^;]*);", item.strip())
    if not found:
        return item
    is_pub, path = found.group(1) or "", found.group(2)
    group = re.match(r"(.*?)(?:::)?\{(.*)\}\s*$", path, re.S)
    before, last = (group.group(1), group.group(2).split(",")) if group else path.rpartition("::")[::2]
    names = [it.strip() for it in (last if group else [last]) if it.strip()]
    kept = []
    for name in names:
        own, shown = name.split(" as ")[0].split("::")[-1].strip(), name.split(" as ")[-1].split("::")[-1].strip()
        is_crate = own in crates and (not before or before.split("::")[0] in crates)
        if (own[:1].isupper() or is_crate) and (is_pub or re.search(rf"\b{shown}\b", body)):
            kept.append(name)
    if not kept:
        return ""
    return f"{is_pub}use {before}::{{{', '.join(kept)}}};" if before else f"{is_pub}use {kept[0]};"


def stripped(text, crates):
    """A source file without functions and comments."""
    found = [re.sub(r"^\s*//[^\n]*\n?", "", it, flags=re.M).strip("\n") for it in without_functions(text)]
    body = "\n".join(it for it in found if not is_use(it))
    return "\n".join(types_used(it, body, crates) if is_use(it) else it for it in found) + "\n"


def copy_sources(name, out, crates):
    for at, _, files in os.walk(f"crates/{name}/src"):
        for file in files:
            with open(f"{at}/{file}", encoding="utf-8") as source:
                text = stripped(source.read(), crates)
            if file in ("lib.rt", "main.rt") and "#![tactic(auto)]" not in text:
                text = "#![tactic(auto)]\n" + text
            os.makedirs(f"{out}/{at}", exist_ok=True)
            with open(f"{out}/{at}/{file}", "w", encoding="utf-8") as copy:
                copy.write(text)


def copy_lemmas(name, out):
    """The public modules of proofs/, and what they use of the others."""
    lib = f"crates/{name}/proofs/Lib.antt"
    if not os.path.exists(lib):
        return
    with open(lib, encoding="utf-8") as file:
        lines = file.readlines()
    left, taken = [it.split()[-1] for it in lines if it.startswith("pub mod ")], []
    while left:
        module = left.pop()
        path = f"crates/{name}/proofs/{module}.antt"
        if module in taken or not os.path.exists(path):
            continue
        taken.append(module)
        with open(path, encoding="utf-8") as file:
            left += re.findall(rf"use Rattle\.{name}\.proofs\.(\w+)", file.read())
    os.makedirs(f"{out}/crates/{name}/proofs")
    for module in taken:
        shutil.copy(f"crates/{name}/proofs/{module}.antt", f"{out}/crates/{name}/proofs")
    with open(f"{out}/crates/{name}/proofs/Lib.antt", "w", encoding="utf-8") as file:
        file.writelines(f"pub mod {module}\n" for module in sorted(taken))
        file.writelines(it for it in lines if it.startswith("pub use "))


# ---- libraries that are built already
def sum_of(root, name, of, known):
    """A sum of a crate's files and of those below it."""
    if name not in known:
        found = hashlib.sha256()
        for part in ("src", "specs", "proofs"):
            for at, folders, files in os.walk(f"{root}/crates/{name}/{part}"):
                folders.sort()
                for file in sorted(files):
                    with open(f"{at}/{file}", "rb") as it:
                        found.update(repr((os.path.relpath(at, root), file, it.read())).encode())
        found.update(repr([sum_of(root, it, of, known) for it in of[name] if it in of]).encode())
        known[name] = found.hexdigest()
    return known[name]


def take_over(copy, out, order, of):
    """Gives OUT the libraries that the other copy has built of the same files; returns which it lacks."""
    theirs, ours, lacking = {}, {}, []
    for name in order:
        built = f"{copy}/crates/{name}/out/rlib"
        if os.path.exists(f"{built}/stamp") and sum_of(copy, name, of, theirs) == sum_of(out, name, of, ours):
            os.makedirs(f"{out}/crates/{name}/out")
            subprocess.run(["cp", "-al", built, f"{out}/crates/{name}/out/"], check=True)
        else:
            lacking.append(name)
    return lacking


def main():
    words = sys.argv[1:]
    copy = words.pop(1) if words[:1] == ["--from"] and len(words) > 1 else None
    words = words[1:] if copy else words
    if len(words) < 2 or words[0].startswith("-"):
        print(__doc__)
        return 0 if words == ["--help"] else 2
    out, of = os.path.abspath(words[0]), libraries()
    order = below(words[1:], of)
    shutil.rmtree(out, ignore_errors=True)
    os.makedirs(f"{out}/.git")
    shutil.copy("HANDLES", out)
    with open(f"{out}/crates.txt", "w", encoding="utf-8") as file:
        file.writelines(f"{name}: {' '.join(of[name])}\n" for name in order)
    for name in order:
        if os.path.isdir(f"crates/{name}/specs"):
            shutil.copytree(f"crates/{name}/specs", f"{out}/crates/{name}/specs")
        copy_sources(name, out, of)
        copy_lemmas(name, out)
    lacking = take_over(os.path.abspath(copy), out, order, of) if copy else order
    print(f"{len(order)} crates, of which {len(lacking)} are to be built: {' '.join(lacking)}")
    return 0


sys.exit(main())
