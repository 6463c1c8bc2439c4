#!/usr/bin/env python3
"""The definitions that the clauses of `run` and `restore` reach, from the sources: reach.py

These are the two calls that the program makes.

A definition reaches those whose names stand in its text: its own file's, imported ones, those behind the name of a module, and the type of a
constructor. Printed are the crates in which they stand, with how many definitions and lines, neither blank nor of comment, each has, and all.
"""
import collections
import glob
import os
import re

TOP = os.path.join(os.path.dirname(os.path.abspath(__file__)), "..")
CALLS = [("ferry_top", "src/top.rt", "pub fn run<"), ("ferry_run_restore", "src/command.rt", "pub fn restore<")]
HEAD = re.compile(r"^( *)(?:(?:abbrev|unfoldable) )?(?:pub )?(?:(record|data) )?([^\s:({]+)(?=$| )")
# The line above definitions that name each other.
MUTUAL = re.compile(r"((abbrev|unfoldable) )?(pub )?mutual *")
USE = re.compile(r"\buse (Rattle\.[\w.]+?)(?:\.\{([^}]*)\}| as (\S+?))?;?\s*$")
WORD = re.compile(r"[^\s(){},;λ]+")

Definition = collections.namedtuple("Definition", "crate file name lines words")


def read(path):
    with open(path, encoding="utf-8") as file:
        return file.read()


def module_of(path):
    """The module of a file of specs/, as imports name it."""
    crate, _, rest = os.path.relpath(path, os.path.join(TOP, "crates")).partition("/specs/")
    return f"Rattle.{crate}.specs.{rest.removesuffix('.antt').replace('/', '.')}"


def imports_of(lines):
    """What the names of a file's imports stand for: (module, name), or (module, None) for the name of a module."""
    names = {}
    for line in lines:
        found = USE.search(line)
        if not found:
            continue
        module, listed, alias = found.groups()
        if alias:
            names[alias] = (module, None)
        for one in (listed or "").split(","):
            name, _, other = one.strip().partition(" as ")
            if name:
                names[other.strip() or name] = (module, name)
    return names


def is_head(line, is_mutual):
    """Whether a line begins a definition: a signature, a record or a data type."""
    found = HEAD.match(line)
    if not found or line.lstrip().startswith(("--", "use ", "mutual", "}")) or len(found[1]) != (2 if is_mutual else 0):
        return None
    is_signature = re.match(r"^ *(?:(?:abbrev|unfoldable) )?(?:pub )?[^\s:({]+ (?:\(.*\) )*: ", line) and " = " not in line.split(" : ")[0]
    return found[3] if found[2] or is_signature else None


def definitions_of(path):
    """The definitions of a file of specs/, each with the lines of its text, and the constructors by the data type that has them."""
    blocks, constructors, name, is_data, is_mutual = {}, {}, None, False, False
    for line in read(path).splitlines():
        if not line.strip() or line.lstrip().startswith("--") or line.startswith(("use ", "pub mod ", "#")):
            continue
        if not line.startswith(" "):
            is_mutual = MUTUAL.fullmatch(line) is not None
            if is_mutual:
                name = None
                continue
        head = is_head(line, is_mutual)
        if head:
            name, is_data = head, " data " in f" {line}"
            blocks[name] = []
        elif name and is_data and " : " in line:
            constructors[line.split(" : ")[0].strip()] = name
        if name:
            blocks[name].append(line)
    return blocks, constructors


def table():
    """Each definition of each specs/, with the definitions that its words stand for, by module and name."""
    found, places = {}, {}
    for path in sorted(glob.glob(os.path.join(TOP, "crates", "*", "specs", "**", "*.antt"), recursive=True)):
        blocks, constructors = definitions_of(path)
        module, imports = module_of(path), imports_of(read(path).splitlines())
        places[module] = (blocks, constructors)
        for name, lines in blocks.items():
            words = [word for line in lines for word in WORD.findall(line.split(" -- ")[0])]
            crate, _, file = os.path.relpath(path, os.path.join(TOP, "crates")).partition("/specs/")
            found[module, name] = (Definition(crate, file, name, len(lines), words), imports, blocks, constructors)
    return found, places


def meant(word, module, imports, blocks, constructors, places):
    """The definition that a word stands for, where it is one of ours."""
    if word in blocks:
        return module, word
    if word in constructors:
        return module, constructors[word]
    front, _, name = word.partition(".")
    there, what = imports.get(word) or imports.get(front) or (None, None)
    what = what or name
    if there not in places:
        return None
    theirs, made = places[there]
    return (there, what) if what in theirs else (there, made[what]) if what in made else None


def named_by(call, places):
    """The definitions that the contract of a call names."""
    crate, file, head = call
    text = read(os.path.join(TOP, "crates", crate, file))
    contract = text[text.index(head):].split("\n{\n")[0]
    imports = imports_of(text.splitlines())
    return [meant(word, None, imports, {}, {}, places) for word in WORD.findall(contract)]


def reached():
    """The definitions that the clauses of the calls reach, by module and name, in the order of the search."""
    found, places = table()
    waiting = [key for call in CALLS for key in named_by(call, places)]
    kept = {}
    while waiting:
        key = waiting.pop(0)
        if key is None or key in kept or key not in found:
            continue
        definition, imports, blocks, constructors = found[key]
        kept[key] = definition
        waiting += [meant(word, key[0], imports, blocks, constructors, places) for word in definition.words]
    return kept


def all_definitions():
    return [it[0] for it in table()[0].values()]


def main():
    kept, everything = reached().values(), all_definitions()
    for crate in dict.fromkeys(it.crate for it in everything):
        own = [it for it in kept if it.crate == crate]
        if own:
            print(f"{crate} {len(own)} {sum(it.lines for it in own)}")
    print(f"all {len(kept)} {sum(it.lines for it in kept)}, of {len(everything)} {sum(it.lines for it in everything)}")


if __name__ == "__main__":
    main()
