#!/usr/bin/env python3
"""Holds the papers of the repository to it: docs.py [--write] [CRATE ..]

Each definition that the clauses of `run` and `restore` reach, and no other, stands in docs/DEFINITIONS.md with its sentence and its file, in the order in which one
reads them; a crate's README.md has at most 60 lines, and each clause that the front page or docs/PROMISES.md names is one of its call; crates.txt is the
table of docs/ARCHITECTURE.md; help, manual page and bash's completion have the commands, options and statuses of docs/FORMATS.md; the links of the papers, and the files, wrong bodies and tests that they name, are there; no line
of code or proofs has more than 160 columns, texts in quotes apart. One line for each thing that is missing, and at the end 'N passed, M failed';
status 1 where M isn't 0. In front of it stands how many definitions these calls reach. With names of crates, those alone are looked at. With --write the
sections of docs/DEFINITIONS.md first get the rows that they lack and lose those of other definitions, and the table of crates gets what crates.txt says.
"""
import glob
import os
import re
import sys

import reach

TOP = os.path.join(os.path.dirname(os.path.abspath(__file__)), "..")
WIDEST = 160
LONGEST_PAGE = 60
HELP_WIDTH = 80
DEFINITION = re.compile(r"^(?:(?:abbrev|unfoldable) pub|pub (?:record|data)) ([^\s:({]+)")
DEFINITION_OF_SEVERAL = re.compile(r"^  pub (?:data )?([^\s:({]+)")
EDITS = ["crates/*/must-fail", "checks/edits/*"]
FILE = re.compile(r"(?<![\w/.])((?:src|specs|proofs|must-fail|checks|bench|docs)/[\w./-]+\.(?:rt|antt|py|sh|md|edit)(?:\.in)?)")
READING = """
    ferry_base ferry_segment ferry_disk ferry_log ferry_aes ferry_mac ferry_text ferry_msgpack ferry_fields ferry_config ferry_keyfile ferry_keyblob
    ferry_blob ferry_manifest ferry_item ferry_repo ferry_compare ferry_check ferry_view ferry_stops ferry_nonce ferry_write ferry_compact ferry_next
    ferry_store ferry_rechunk ferry_piece ferry_carry ferry_refs ferry_plan ferry_words ferry_status ferry_run_compact ferry_run_delete
    ferry_run_transfer ferry_run_plan ferry_run_tag ferry_gen ferry_run_drill ferry_top ferry_lanes ferry_tree ferry_run_restore
""".split()
SHORT_HEAD = "| Name | One sentence | File |"
QUOTED = re.compile(r'"(?:[^"\\]|\\.)*"')
TICKED = re.compile(r"`([^`]+)`")

PAPERS = sorted(path for form in ("*.md", "docs/*.md", "bench/*.md", "crates/*/*.md") for path in glob.glob(form, root_dir=TOP))

passed = 0
missing = []


def read(path):
    with open(os.path.join(TOP, path), encoding="utf-8") as file:
        return file.read()


def judge(is_right, what):
    global passed
    if is_right:
        passed += 1
    else:
        missing.append(what)


def listed():
    """The crates of crates.txt, each with the crates that it stands on."""
    lines = (line.partition("#")[0] for line in read("crates.txt").splitlines())
    pairs = (line.partition(":") for line in lines if line.strip())
    return {name.strip(): below.split() for name, _, below in pairs}


def definitions(crate):
    """The public definitions of a crate's specs/: name, the sentence that stands above it, and the file in specs/.

    A definition without a comment of its own belongs to the one above it, and shares its sentence.
    """
    folder = os.path.join(TOP, "crates", crate, "specs")
    for path in sorted(glob.glob(folder + "/**/*.antt", recursive=True)):
        with open(path, encoding="utf-8") as file:
            lines = file.read().splitlines()
        said, sentence, is_comment, are_several = [], "", False, False
        for line in lines:
            if line[:1].strip() and not line.startswith("--"):
                are_several = line.split()[-1] == "mutual"
            comment = re.match(r"^ *-- ?(?!-)(.*)$", line)
            if comment:
                said = [*said, comment[1].strip()] if is_comment else [comment[1].strip()]
            is_comment = bool(comment)
            found = DEFINITION_OF_SEVERAL.match(line) if are_several else DEFINITION.match(line)
            if found:
                sentence, said = " ".join(said) or sentence, []
                yield found[1], sentence, os.path.relpath(path, folder)
            elif line.startswith("use "):
                said = []


def sentence_of(comment):
    """A comment as a sentence: the first letter of a word large, and a full stop at its end."""
    is_word = re.match(r"(a|[a-z']{2,})\b(?![(\[])", comment)
    large = comment[:1].upper() + comment[1:] if is_word else comment
    return large if large.endswith(".") or not large else large + "."


def section(text, name):
    """The part of a paper under this heading."""
    return (re.split(rf"(?m)^## {name}\n", text, maxsplit=1) + [""])[1].split("\n## ")[0]


def rows_of(text):
    """The rows of the tables in a text, as lists of cells, without their heads."""
    rows = [[cell.strip() for cell in re.split(r"(?<!\\)\|", line)[1:-1]] for line in text.splitlines() if line.startswith("|")]
    is_line = [set("".join(row)) <= set("-: ") for row in rows]
    return [row for row, is_this, is_next in zip(rows, is_line, [*is_line[1:], False]) if not is_this and not is_next]


def defined_rows(crate, paper):
    """The rows of a crate's section by the names that they are of."""
    rows = {}
    for row in rows_of(section(paper, crate)):
        for name in TICKED.findall(row[0]):
            rows.setdefault(name.split()[0], []).append(row)
    return rows


def lacking(crate, paper, kept):
    """These definitions of a crate that have no row with their file."""
    rows = defined_rows(crate, paper)
    return [it for it in definitions(crate) if it[0] in kept and not any(it[2] in " ".join(row) for row in rows.get(it[0], []))]


def files_of(crate):
    """The files in which a crate defines each name."""
    files = {}
    for name, _, file in definitions(crate):
        files.setdefault(name, []).append(file)
    return files


def is_row_of(files, name, row):
    """Whether a row has the file of the definition that it names."""
    return any(file in row for file in files.get(name, []))


def look_at_definitions(crate, paper, kept):
    """Each definition that a call reaches has a row in the section of its crate, with its file, and each row is of one."""
    lacks = {name for name, _, _ in lacking(crate, paper, kept)}
    for name in sorted(kept):
        judge(name not in lacks, f"docs/DEFINITIONS.md, {crate}: no row of `{name}`")
    for name in sorted(set(defined_rows(crate, paper)) - kept):
        judge(False, f"docs/DEFINITIONS.md, {crate}: `{name}` is no definition that a call reaches")
    files = files_of(crate)
    for name, rows in sorted(defined_rows(crate, paper).items()):
        if name in kept:
            stale = [row for row in rows if not is_row_of(files, name, " ".join(row))]
            judge(not stale, f"docs/DEFINITIONS.md, {crate}: a row of `{name}` with another file")


def look_at_order(paper):
    """The sections stand in the order in which one reads them."""
    found = re.findall(r"(?m)^## (\w+)$", paper)
    judge(found == [it for it in READING if it in found], "docs/DEFINITIONS.md: the sections aren't in the order of READING of checks/docs.py")


def without_others(text, crate, kept):
    """A section with the rows of these definitions alone, where they are; a table of which none is left goes."""
    files = files_of(crate)
    parts = []
    for part in text.strip("\n").split("\n\n"):
        if part.startswith("|"):
            head, rows = part.splitlines()[:2], []
            for row in part.splitlines()[2:]:
                first, _, rest = row[1:].partition("|")
                names = [
                    name
                    for name in re.findall(r"`[^`]+`(?: \([^)]*\))?", first)
                    if (plain := name[1:].split("`")[0].split()[0]) in kept and is_row_of(files, plain, rest)
                ]
                if names:
                    rows.append(f"| {', '.join(names)} |{rest}")
            part = "\n".join([*head, *rows]) if rows else ""
        if part:
            parts.append(part)
    return "\n\n".join(parts)


def with_rows(text, crate, paper, kept):
    """A section with a row for each definition that has none, those of one sentence in one row."""
    groups = {}
    for name, comment, file in lacking(crate, paper, kept):
        groups.setdefault((sentence_of(comment), file), []).append(f"`{name}`")
    rows = "\n".join(f"| {', '.join(names)} | {sentence} | {file} |" for (sentence, file), names in groups.items())
    if not rows:
        return text
    last = text.split("\n\n")[-1].splitlines()[:1]
    return f"{text}\n{rows}" if last == [SHORT_HEAD] else f"{text}\n\n{SHORT_HEAD}\n|---|---|---|\n{rows}".lstrip("\n")


def write_definitions(reached):
    """Puts the sections into their order, with a row for each definition that a call reaches and no other."""
    paper = read("docs/DEFINITIONS.md")
    parts = [paper.split("\n## ")[0].rstrip("\n")]
    for crate in READING:
        kept = reached.get(crate, set())
        text = with_rows(without_others(section(paper, crate), crate, kept), crate, paper, kept)
        if kept:
            parts.append(f"## {crate}\n\n{text}")
    with open(os.path.join(TOP, "docs", "DEFINITIONS.md"), "w", encoding="utf-8") as file:
        file.write("\n\n".join(parts) + "\n")


def write_architecture(crates):
    """Puts what crates.txt says into the table of crates."""
    paper = read("docs/ARCHITECTURE.md")
    table = old = section(paper, "The crates")
    for name, below in crates.items():
        cell = f" {stands_on(below)} |" if below else " |"
        table = re.sub(rf"(?m)^(\| {name} \|[^|]*\|)[^|]*\|", lambda row: row[1] + cell, table)
    paper = paper.replace(old, table, 1)
    with open(os.path.join(TOP, "docs", "ARCHITECTURE.md"), "w", encoding="utf-8") as file:
        file.write(paper)


def stands_on(below):
    """What a crate stands on as the table of crates has it: our own without their common front."""
    return ", ".join(it.removeprefix("ferry_") for it in below)


def exported(crate):
    """The names that a crate's root hands out."""
    path = os.path.join(TOP, "crates", crate, "src", "lib.rt")
    if not os.path.isfile(path):
        return set()
    with open(path, encoding="utf-8") as file:
        uses = re.findall(r"(?ms)^pub use ([^;]+);", file.read())
    return {name.split("::")[-1].strip().split(" as ")[-1] for use in uses for name in re.sub(r"^.*\{|\}", "", use, flags=re.S).split(",") if name.strip()}


def clauses(crate):
    """The named clauses of a crate's public calls: the call, as it is called, and the clause.

    Public are the functions that the root hands out, the public methods of its types, and the methods of its traits.
    """
    names = exported(crate)
    for path in sorted(glob.glob(os.path.join(TOP, "crates", crate, "src", "**", "*.rt"), recursive=True)):
        with open(path, encoding="utf-8") as file:
            lines = file.read().splitlines()
        owner, is_trait, call = "", False, None
        for line in lines:
            block = re.match(r"^(?:pub )?(impl|trait)\b(?:<.*?>)? *(.*?) *\{?$", line)
            if block:
                is_trait = block[1] == "trait"
                is_own = is_trait or " for " not in block[2]
                owner = re.match(r"\w*", block[2])[0] if is_own else None
            elif line.startswith("}"):
                owner, is_trait, call = "", False, None
            head = re.match(r"^( *)(pub )?(?:const )?fn (\w+)", line)
            if head:
                is_public = head[3] in names if not head[1] else bool(owner) and owner in names and (is_trait or head[2])
                call = head[3] if is_public else None
            clause = re.match(r"^ *ensures\*? (\w+) \{", line)
            if call and clause:
                yield (f"{owner}::{call}" if owner else call), clause[1]


def look_at_page(crate):
    """A crate's page has at most so many lines."""
    lines = len(read(f"crates/{crate}/README.md").splitlines())
    judge(lines <= LONGEST_PAGE, f"crates/{crate}/README.md: {lines} lines, more than {LONGEST_PAGE}")


def look_at_front_page(crates):
    """Each clause that the front page or docs/PROMISES.md names `of` a call or a type is one of its clauses, and that page has each crate."""
    there = {}
    for crate in crates:
        for call, clause in clauses(crate):
            for name in {call, *call.split("::")}:
                there.setdefault(name, set()).add(clause)
    for path in ("README.md", "docs/PROMISES.md"):
        for names, call in re.findall(r"((?:`\w+`(?:, )?)+) of `([\w:]+)`", re.sub(r"\s+", " ", read(path))):
            for name in TICKED.findall(names):
                judge(name in there.get(call, ()), f"{path}: `{call}` has no clause `{name}`")
    proved = {re.match(r"\[?(\w*)", row[0])[1] for row in rows_of(read("docs/PROMISES.md"))}
    for name in crates:
        judge(name in proved, f"docs/PROMISES.md: no row of {name}")


def look_at_architecture(crates):
    """The table of crates has each crate of crates.txt with what it stands on, and others only as planned."""
    rows = {row[0]: row for row in rows_of(section(read("docs/ARCHITECTURE.md"), "The crates"))}
    for name, below in crates.items():
        want = stands_on(below)
        got = rows[name][2] if name in rows else None
        judge(got == want, f"docs/ARCHITECTURE.md: {name} stands on {want or 'nothing'}, and the table has {got!r}")
    for name in rows:
        judge(name in crates or rows[name][3].startswith("planned"), f"docs/ARCHITECTURE.md: {name} isn't in crates.txt, and not called planned")


def options_in(text):
    """The names of options in a text, without their dashes."""
    return set(re.findall(r"(?<![\w-])--?([a-z]+)(?= [A-Z]\b)", text.replace("Fl -", "--").replace("Ar ", "")))


def commands_of_formats():
    """The options of each command, by docs/FORMATS.md."""
    rows = rows_of(section(read("docs/FORMATS.md"), "Words of a command"))
    forms = [TICKED.findall(row[0])[0] for row in rows if len(row) == 3 and not row[0].startswith("`--")]
    return {form.split()[0]: options_in(form) for form in forms}


def commands_of_help():
    """The options of each command, by the lines of the help."""
    return {form.split()[0]: options_in(form) for form in re.findall(r'(?m)^(?:const \w+: &str = "  |  )([a-z][a-z-]*(?: [\[A-Z].*)?)$', read("crates/borgferry/src/lines.rt"))}


def commands_of_manual():
    """The options of each command, by the synopsis of the manual page."""
    forms = read("docs/borgferry.1").split(".Sh SYNOPSIS\n")[1].split(".Sh ")[0].split(".Nm\n")
    return {it[1]: options_in(form) for form in forms if (it := re.search(r"\.Cm (\S+)", form))}


def commands_of_completion():
    """The options of each command, by the completion for bash."""
    text = read("docs/borgferry.bash")
    options = dict(re.findall(r'(?m)^    ([a-z-]+)\) options="([^"]*)"', text))
    return {name: {it.removeprefix("--") for it in options.get(name, "").split()} for name in re.search(r'commands="([^"]*)"', text)[1].split()}


def statuses():
    """The statuses by docs/FORMATS.md, by the help and by the manual page."""
    formats = section(read("docs/FORMATS.md"), "Printed lines")
    yield "docs/FORMATS.md", {int(row[0]) for row in rows_of(formats) if row[0].isdigit()} | set(map(int, re.findall(r"status (\d+)", formats)))
    yield "the help", set(map(int, re.findall(r"(?m)^  (\d+) +\S", read("crates/borgferry/src/lines.rt"))))
    yield "docs/borgferry.1", set(map(int, re.findall(r"(?m)^\.It (\d+)$", read("docs/borgferry.1"))))


def look_at_help():
    """Help, manual page and completion have the same commands with the same options, and the same statuses."""
    want = commands_of_formats()
    judge(len(want) >= 8 and any(want.values()), "docs/FORMATS.md: the words of a command aren't found")
    for name, got in [("the help", commands_of_help()), ("docs/borgferry.1", commands_of_manual()), ("docs/borgferry.bash", commands_of_completion())]:
        judge(got == want, f"{name}: the commands are {got}, and docs/FORMATS.md has {want}")
    numbers = dict(statuses())
    for name, got in numbers.items():
        judge(len(got) >= 14 and got == numbers["docs/FORMATS.md"], f"{name}: the statuses are {sorted(got)}, and docs/FORMATS.md has {sorted(numbers['docs/FORMATS.md'])}")
    variables = {name: set(re.findall(r"BORG_\w+", read(name))) for name in ("crates/borgferry/src/secrets.rt", "crates/borgferry/src/lines.rt", "docs/borgferry.1")}
    for name, got in variables.items():
        judge(got == variables["crates/borgferry/src/secrets.rt"], f"{name}: the variables are {sorted(got)}")
    help_lines = [line for line in re.sub(r'(?m)^.*&str = "', "", read("crates/borgferry/src/lines.rt")).splitlines() if not line.startswith(("/", "pub", "    match", "    \"", "        "))]
    judge(all(len(line) <= HELP_WIDTH for line in help_lines), "the help: a line is wider than 80 columns")


def look_at_links():
    """The links of the papers lead to files that are there."""
    for path in PAPERS:
        for to in re.findall(r"\]\(([^)#]+)[^)]*\)", read(path)):
            if "://" not in to:
                judge(os.path.exists(os.path.join(TOP, os.path.dirname(path), to)), f"{path}: the link to {to} leads nowhere")


def look_at_files():
    """The files of the repository that a paper names by their folder are there, below the top or in a crate that it speaks of."""
    papers = {path: (read(path), path.split("/")[1] if path.startswith("crates/") else "*") for path in PAPERS}
    parts = re.split(r"(?m)^## ", papers.pop("docs/DEFINITIONS.md")[0])
    papers.update({f"docs/DEFINITIONS.md, {part.split(chr(10))[0]}": (part, part.split("\n")[0]) for part in parts[1:]})
    for path, (text, crate) in papers.items():
        for name in sorted(set(FILE.findall(text))):
            places = [name, *(f"crates/{it}/{name}" for it in {crate, *TICKED.findall(text)})]
            judge(any(glob.glob(place, root_dir=TOP) for place in places), f"{path}: there is no {name}")


def look_at_evidence():
    """The wrong bodies and the tests that a page names are there."""
    edits = {os.path.basename(path).removesuffix(".edit") for place in EDITS for path in glob.glob(f"{place}/*.edit", root_dir=TOP)}
    code = "".join(read(path) for path in glob.glob("crates/*/src/**/*.rt", root_dir=TOP, recursive=True))
    for path in ["docs/DECISIONS.md", *sorted(glob.glob("crates/*/*.md", root_dir=TOP))]:
        page = re.sub(r"\s+", " ", read(path))
        for kind, names in re.findall(r"\b(wrong bod(?:y|ies)|tests?) ((?:`[^`]+`(?:, and |, | and )?)+)", page):
            for name in TICKED.findall(names):
                is_there = name in edits if kind.startswith("wrong") else name in code
                judge(is_there, f"{path}: there is no {kind.replace('bodies', 'body').removesuffix('s')} `{name}`")


def look_at_edits():
    """Each wrong body fits the code: its old lines stand there once, and the new ones are others."""
    for path in sorted(path for place in EDITS for path in glob.glob(f"{place}/*.edit", root_dir=TOP)):
        crate = path.removeprefix("checks/edits/").removeprefix("crates/").split("/")[0]
        file, old, fits = "", "", False
        for line in read(path).splitlines():
            kind, _, text = line.partition(":")
            if kind == "file":
                file = f"crates/{crate}/{text.strip()}"
            elif kind == "old":
                old = text[1:]
            elif kind == "new":
                fits = os.path.exists(os.path.join(TOP, file)) and read(file).count(old) == 1 and text[1:] != old
                judge(fits, f"{path}: it doesn't fit {file}")
        judge(fits, f"{path}: it changes nothing")


def look_at_widths(crate):
    """No line of code, definitions or proofs is wider than 160 columns, texts in quotes apart."""
    for end in ("rt", "antt"):
        for path in sorted(glob.glob(f"crates/{crate}/**/*.{end}", root_dir=TOP, recursive=True)):
            if "/out/" not in path:
                lines = [QUOTED.sub("", line) for line in read(path).splitlines()]
                wide = [number for number, line in enumerate(lines, 1) if len(line) > WIDEST]
                judge(not wide, f"{path}: more than {WIDEST} columns in line {', '.join(map(str, wide))}")


def main(words):
    crates = listed()
    chosen = [word for word in words if word != "--write"]
    kept = reach.reached().values()
    by_crate = {}
    for it in kept:
        by_crate.setdefault(it.crate, set()).add(it.name)
    if "--write" in words:
        write_definitions(by_crate)
        write_architecture(crates)
    paper = read("docs/DEFINITIONS.md")
    for crate in chosen or crates:
        look_at_definitions(crate, paper, by_crate.get(crate, set()))
        look_at_page(crate)
        look_at_widths(crate)
    if not chosen:
        look_at_order(paper)
        look_at_front_page(crates)
        look_at_architecture(crates)
        look_at_help()
        look_at_links()
        look_at_files()
        look_at_evidence()
        look_at_edits()
    print(*missing, sep="\n", end="\n" if missing else "")
    print(f"`run` and `restore` reach {len(kept)} definitions in {sum(it.lines for it in kept)} lines")
    print(f"{passed} passed, {len(missing)} failed")
    return 1 if missing or not passed else 0


sys.exit(main(sys.argv[1:]))
