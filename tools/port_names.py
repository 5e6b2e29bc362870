#!/usr/bin/env python3
"""Brings this repository's own names to the spelling of rattle-kit-13f, after port.py of that kit has run.

usage: python3 tools/port_names.py [--check]        at the top of the repository, once; --check only lists the names

1. The crate bytes becomes octets, since the kit has a library named bytes.
2. Definitions, fields, constructors and lemmas of specs/ and proofs/ are spelled in snake case: afterAll is after_all. A dash stays where it
   joins two words that are defined (length-put, bytes_of-number); elsewhere it becomes an underscore (put_behind). Types keep their capitals.
   Names of goals, which the checker makes from the code, are left alone, and so are functions of src/, strings, inputs and outputs.
"""
import os
import re
import subprocess
import sys

CHECK = "--check" in sys.argv
# Words behind which a dash stays, where the next one is a defined word, too.
OPERATIONS = set("length take drop set get_or map append between replicate put_mid put at number bytes_of nth".split())
GOAL = re.compile(r"^(returns|invariant|decreases|overflow|slice-bounds|slice_bounds|bounds|nonzero|loop)([-_]|$)|-(requires|init|preserved|smaller)(-|$)|^(then|else)-")
DEFINED = re.compile(r"^\s*(?:(?:unfoldable|abbrev|mutual) )*(?:pub )?(?:(data|record|ruleset|unfoldable|abbrev) )?(?:pub )?([^\s:(){}\u03bb]+) :(?= |$)")
WORD = re.compile(r"[^\s(){}\[\];,.\":|]+")
# Lemmas that have an underscore already, and would fall together with a definition.
LEMMAS_THERE = ("none_seen", "head_bytes", "was_read", "window_bytes", "goes_on")


def files():
    for top, dirs, names in os.walk("crates"):
        dirs[:] = sorted(d for d in dirs if d not in ("out", "data"))
        for name in sorted(names):
            if name.endswith((".rt", ".antt")):
                yield os.path.join(top, name)


def read(path):
    with open(path, encoding="utf-8") as f:
        return f.read()


def write(path, text):
    if not CHECK:
        with open(path, "w", encoding="utf-8") as f:
            f.write(text)


def snake(part):
    """One name without dashes: camelCase becomes snake_case; a type or a format's letter keeps its capital."""
    if not part or not part[0].islower():
        return part
    return re.sub(r"(?<=[a-z0-9'])([A-Z])(?=[a-z]|$)", lambda m: "_" + m.group(1).lower(), part)


def rename_crate():
    if os.path.isdir("crates/bytes") and not CHECK:
        subprocess.run(["git", "mv", "crates/bytes", "crates/octets"], check=True)
        for rest in ("crates/bytes/out", "crates/bytes"):
            if os.path.isdir(rest):
                subprocess.run(["rm", "-rf", rest], check=True)
    lines = [re.sub(r"(?<![\w])bytes(?![\w])", "octets", l) if not l.startswith("#") else l for l in read("crates.txt").splitlines(keepends=True)]
    write("crates.txt", "".join(lines))
    for path in files():
        text = read(path)
        new = re.sub(r"\bRattle\.bytes\.", "Rattle.octets.", text)
        if path.endswith(".rt"):
            new = re.sub(r"(?<![\w:.])bytes::", "octets::", new)
        if new != text:
            write(path, new)


def respelled():
    """Each own name that changes, with its new spelling."""
    defined, made, specs = set(), set(), set()
    for path in files():
        if not path.endswith(".antt"):
            continue
        # An answer file defines the goals of its function, and sometimes helpers of its own.
        answers = os.path.basename(path) in ("Answers.antt", "Invariants.antt")
        for line in read(path).splitlines():
            m = DEFINED.match(line)
            if m and not line.lstrip().startswith("--"):
                (made if answers and GOAL.search(m.group(2)) else defined).add(m.group(2))
                if "/specs/" in path:
                    specs.add(m.group(2))
    words = {snake(it) for it in specs if "-" not in it} | OPERATIONS
    plain = {snake(it) for it in defined if "-" not in it}
    table = {}
    for name in sorted(defined - made):
        if GOAL.search(name) or not name.isascii():
            continue
        parts = [snake({"getD": "get_or"}.get(p, p)) for p in name.split("-")]
        new = parts[0]
        for before, part in zip(parts, parts[1:]):
            new += ("-" if before in OPERATIONS and part in words else "_") + part
        if "-" in name and new in plain:
            new += "_lem"  # a lemma that would get a definition's name
        if new != name:
            table[name] = new
    return table, defined


def rename_lemmas():
    """In proofs/ alone; behind a dot the same word is a function of src/."""
    for path in files():
        if "/proofs/" in path:
            text = read(path)
            new = re.sub(r"(?<![\w.'-])(" + "|".join(LEMMAS_THERE) + r")(?![\w'-])", r"\1_lem", text)
            if new != text:
                write(path, new)


def main():
    rename_crate()
    rename_lemmas()
    table, defined = respelled()
    turned = {}
    for old, new in table.items():
        turned.setdefault(new, []).append(old)
    for new, olds in sorted(turned.items()):
        if len(olds) > 1 or new in defined:
            print(f"look: {', '.join(olds)} {'and a name that is there ' if new in defined else ''}fall together as {new}")
    for path in files():
        text = read(path)
        here = set(WORD.findall(text))
        for old in sorted(here & table.keys()):
            if table[old] in here:
                print(f"look: {path}: {old} becomes {table[old]}, which stands there already")
        new = WORD.sub(lambda m: table.get(m.group(0), m.group(0)), text)
        if new != text:
            write(path, new)
    if CHECK:
        for old, new in table.items():
            print(f"{old}\t{new}")
    else:
        for crate in sorted(os.listdir("crates")):
            subprocess.run(["rt", "fmt"], cwd=os.path.join("crates", crate), check=True, stdout=subprocess.DEVNULL)
    print(f"port_names: {len(table)} names")


main()
