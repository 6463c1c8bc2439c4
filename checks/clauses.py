#!/usr/bin/env python3
"""How much of a crate's contracts is said more than once, and how long they are: clauses.py [CRATE ..]

For each crate, all where none is named: its functions with a contract; their clauses, and how many of these stand more than once, word for word but for the names of
values; the most clauses of a function, and which one; the most parameters beside `self`, and which; and of the definitions in specs/ the most arguments, and which.
"""
import collections
import glob
import os
import re
import sys

TOP = os.path.join(os.path.dirname(os.path.abspath(__file__)), "..")
HEAD = re.compile(r"^ *(?:pub )?(?:const )?fn (\w+)", re.M)
CLAUSE = re.compile(r"^\s*(requires|ensures)\*? (\w+ )?\{", re.M)


def closed(text, at, opens="{", closes="}"):
    """The place behind the bracket that closes the one at `at`."""
    depth = 0
    for place in range(at, len(text)):
        depth += (text[place] in opens) - (text[place] in closes)
        if depth == 0:
            return place + 1
    return len(text)


def functions(text):
    """Each function of a file: its name, how many parameters it has beside `self`, and its clauses."""
    for head in HEAD.finditer(text):
        begin = text.index("(", head.end())
        end = closed(text, begin, "([{<", ")]}>") if "->" not in text[begin : text.index(")", begin)] else closed(text, begin, "(", ")")
        parameters = [one for one in re.split(r",(?![^<(\[]*[>)\]])", text[begin + 1 : end - 1]) if one.strip()]
        beside = [one for one in parameters if not re.match(r"\s*&?(?:'\w+ )?(?:mut )?self\b", one)]
        rest = text[end:]
        stop = re.search(r"^ *\{|;$", rest, re.M)
        contract, found, at = rest[: stop.start() if stop else 0], [], 0
        while clause := CLAUSE.search(contract, at):
            at = closed(contract, clause.end() - 1)
            found.append(clause[1] + " " + " ".join(contract[clause.end() - 1 : at].split()))
        yield head[1], len(beside), found


def arguments(crate):
    """Each definition of a crate's specs/, and how many arguments its type or its head has."""
    for path in glob.glob(f"{TOP}/crates/{crate}/specs/**/*.antt", recursive=True):
        with open(path, encoding="utf-8") as file:
            text = re.sub(r" *--.*", "", file.read())
        for found in re.finditer(r"^(?:abbrev |unfoldable )?(?:pub )?(record |data )?(\S+) ((?:\([^\n]*\)\s+)*): (.*?) *(?:where)?$(?=\n\S|\n  |\n\n|\Z)", text, re.M):
            named = sum(len(re.match(r"\(([^:]*):", group)[1].split()) for group in re.findall(r"\([^()]*(?:\([^()]*\)[^()]*)*\)", found[3]) if ":" in group)
            yield found[2], named + len(re.findall(r" → ", re.sub(r"\([^()]*\)|\{[^}]*\}", "", found[4])))


def report(crate):
    found = [one for path in glob.glob(f"{TOP}/crates/{crate}/src/**/*.rt", recursive=True) for one in functions(open(path, encoding="utf-8").read())]
    found = [one for one in found if one[2]]
    if not found:
        return
    clauses = [clause for _, _, own in found for clause in own]
    counts = collections.Counter(clauses)
    most, wide = max(found, key=lambda one: len(one[2])), max(found, key=lambda one: one[1])
    longest = max(arguments(crate), key=lambda one: one[1], default=("none", 0))
    print(
        f"{crate}: {len(found)} functions, {len(clauses)} clauses, {sum(count for count in counts.values() if count > 1)} of them more than once, "
        f"at most {len(most[2])} ({most[0]}), {wide[1]} parameters ({wide[0]}), {longest[1]} arguments ({longest[0]})"
    )


def main(crates):
    for crate in crates or sorted(os.path.basename(path) for path in glob.glob(f"{TOP}/crates/*")):
        report(crate)


if __name__ == "__main__":
    main(sys.argv[1:])
