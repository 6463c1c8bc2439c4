"""What standard error has to say beside a run, by the table of plain words in docs/FORMATS.md.

Which rows a run comes under follows from its words, its folder, its variables, its status and its output. A row is a line; names in braces stand for words of the
repository that it speaks of, for the path of a file, and for why that failed. Each row that was met is noted.
"""
import datetime
import json
import os
import re

SIDE_WORDS = {
    "source": {"{place}": "SOURCE", "{passphrase}": "BORG_OTHER_PASSPHRASE", "{key file}": "BORG_OTHER_KEY_FILE", "{init}": ""},
    "target": {
        "{place}": "TARGET", "{passphrase}": "BORG_PASSPHRASE", "{key file}": "BORG_KEY_FILE", "{init}": "; borgferry - TARGET init makes a repository there",
    },
}
# What may stand for the other names in braces.
PATTERNS = {"{file}": r"[^\n]+", "{why}": r"(?: \([^()\n]+\))?", "{variable}": r"BORG_[A-Z_]+", "{number}": r"[0-9a-f]{16}", "{path}": None}
# What may stand behind a line of a command that reads archives.
ENDINGS = (
    rb"(?:; what doesn't read is of the archive [^\n]+?)?(?:; (?:one archive was copied before that and stays, |\d+ archives were copied before that and stay, the last of them )"
    rb"[^\n]+, and the same words go on behind it)?"
)
READS_ARCHIVES = ("check", "plan", "transfer", "delete", "tag-archives")
READS_SOURCE = ("keys", "key", "list", "extract", "check", "transfer", "plan", "restore")
WRITES_TARGET = ("init", "transfer", "delete", "tag-archives", "compact")
REMOVES = ("delete", "tag-archives", "compact")
LOCK_ROW = "none", "a lock of Borg lies in {place}, in front of each command that reads SOURCE or writes TARGET"
APPEND_ROW = "none", "`config` says append_only, in front of `delete`, `tag-archives` and `compact`"
FORM_ROW = "none", "`--timestamp` has another form, in front of the command"
EARLIER_ROW = "none", "`--timestamp` is before the manifest's, in front of `transfer`, `delete` and `tag-archives`"
EMPTY_ROW = "none", "the passphrase is empty, in front of `init` and `make-key`"
INDEX_ROW = "none", "files of Borg's lie in TARGET, behind `delete`, `tag-archives` and `compact` that wrote there"
KEY_ROW = "none", "behind `init` without a key file"
KEY_FILE_ROW = "none", "behind `init` with a key file"
PRINTED_ROW = "none", "behind `make-key`"
OUTPUT_ROW = "none", "standard output failed, status 7"
TOLD_ROW = "target device failed", "standard output failed"
FOREIGN_ROW = "tree failed", "the path PATH isn't UTF-8, or the target of the symbolic link there"
UNREAD_ROWS = {of: ("target refused: REASON", f"an archive, the command {of}") for of in ("delete", "tag-archives")}
FAULT_LINE = re.compile(
    r"(source refused: |target refused: |name taken: |not found: |usage|memory$|key file unreadable$|entropy failed$|tree failed$|not empty$"
    r"|source device failed$|target device failed$|limit: |withheld: |BORG_)[^\n]*\n?$"
)


def plain_words():
    """The rows of the table: the line on standard output, where, and the line on standard error."""
    formats = os.path.join(os.path.dirname(os.path.abspath(__file__)), "..", "docs", "FORMATS.md")
    with open(formats, encoding="utf-8") as file:
        section = file.read().split("\n## Plain words on standard error\n")[1].split("\n## ")[0]
    table = section[section.index("| Line on standard output |") :]
    rows = [[cell.strip() for cell in row.strip("| ").split(" | ")] for row in re.findall(r"(?m)^\| (.*) \|$", table)[1:]]
    return {(row[0].strip("`"), row[1] if len(row) == 3 else ""): row[-1] for row in rows}


PLAIN = plain_words()
# The rows that a run came under, each with the repository that it spoke of, and those that nothing can be run for here.
met = set()
untried = set()


def filled(row, side, path=""):
    """What the line of a row may be for one of the repositories, and for a path: an expression for all of it."""
    text = re.escape(PLAIN.get(row, f"no such row: {row}"))
    for name, word in SIDE_WORDS[side].items():
        text = text.replace(re.escape(name), re.escape(word))
    for name, pattern in PATTERNS.items():
        text = text.replace(re.escape(name), pattern or re.escape(path))
    return b"%s\n" % text.replace("PATH", re.escape(path) if row == FOREIGN_ROW else "PATH").encode()


def is_text(word):
    try:
        return word.decode("utf-8") is not None
    except UnicodeDecodeError:
        return False


def is_remote(word):
    """Whether a colon stands before the first slash of a place."""
    return ":" in os.fsdecode(word).split("/")[0]


def where_of_usage(words):
    """Where `usage` comes from: the row of the table."""
    if any(isinstance(word, bytes) and not is_text(word) for word in words):
        return "a word isn't UTF-8"
    if len(words) < 3 or (words[0] == words[1] and words[0] != "-"):
        return "no two places and a command"
    if is_remote(words[0]) or is_remote(words[1]):
        return "a place has a colon before its first slash"
    return "both places are one folder, spelled in two ways"


def name_of_line(out):
    """The fault line of a run as the table has it, with the names, ids and numbers in it as words."""
    told = FAULT_LINE.search(out.decode("utf-8", "replace"))
    line = told[0].rstrip("\n") if told else ""
    line = re.sub(r"^(name taken|not found): .*", r"\1: NAME", re.sub(r"\b[0-9a-f]{64}$", "ID", line))
    line = re.sub(r"^(source refused: place \d) .*", r"\1 PATH", line)
    return re.sub(r"segment \d+ at \d+$", "segment S at A", re.sub(r"^usage: word \d+$", "usage: word N", line))


def where_of(line, kinds, words, cwd, place, out, err):
    """Which of the rows of a line a run comes under, of those that the table has."""
    if line == "usage":
        return where_of_usage(words)
    if line == "usage: word N":
        return f"the command {words[2]}" if f"the command {words[2]}" in kinds else "another word"
    if line == "not found: NAME":
        return f"the command {words[2]}" if f"the command {words[2]}" in kinds else "another command"
    for where, is_so in {
        "`-` or an empty word": place in ("-", ""),
        "standard output failed": b"standard output" in err,
        "a file of a lock": b"which no lock of Borg has" in err,
        "the folder isn't there in which it is to be made": is_absent(cwd, place) and is_absent(cwd, os.path.dirname(place.rstrip("/")) or "."),
        "the folder isn't there": is_absent(cwd, place),
        "the zero id": out.endswith(b"0" * 64 + b"\n"),
        "another id": True,
        "a program": b"PASSCOMMAND" in err,
        "a stream": b"PASSPHRASE_FD" in err,
        "the last numbers": b"the last numbers" in err,
        "a key alone": b"TARGET/config has the key" in err,
    }.items():
        if is_so and where in kinds:
            return where
    return ""


def is_absent(cwd, place):
    return not os.path.exists(os.path.join(cwd, place))


def row_of(words, cwd, status, out, err, foreign):
    """The row that the end of a run comes under, `None` where nothing is said of it, and the repository that it speaks of."""
    if status in (1, 7):
        return (("bad REASON", "") if status == 1 else OUTPUT_ROW), "source"
    if status == 0:
        return None, "source"
    line = name_of_line(out)
    if len(words) > 2 and words[2] in UNREAD_ROWS and is_of_archive(line, out):
        return UNREAD_ROWS[words[2]], "target"
    side = "target" if line.startswith("target ") else "source"
    if line == "tree failed" and foreign:
        return FOREIGN_ROW, side
    common = re.sub(r"^(source|target) (?=refused: )", "", line)
    kinds = {where for name, where in PLAIN if name in (line, common)}
    place = os.fsdecode(words[side == "target" or line == "tree failed"]) if len(words) > 2 else ""
    where = where_of(line, kinds, words, cwd, place, out, err)
    rows = [row for row in PLAIN if row in ((line, where), (common, where))]
    return (rows[0] if len(rows) == 1 else (line, where)), side


def is_of_archive(line, out):
    """Whether a target is refused for an object of one of its archives, which can't be mended."""
    return re.match(r"target refused: (missing|blob [1235]|record [1-35]|items \d) ID$", line) is not None and not out.endswith(b"0" * 64 + b"\n")


def has_index(folder):
    """Whether files of Borg's lie in a repository that say where its objects are."""
    return os.path.isdir(folder) and any(name.startswith(("index.", "hints.", "integrity.")) for name in os.listdir(folder))


def is_locked(folder):
    """Whether Borg's lock lies in a repository."""
    roster = os.path.join(folder, "lock.roster")
    return os.path.lexists(os.path.join(folder, "lock.exclusive")) or os.path.isfile(roster) and names_somebody(roster)


def names_somebody(roster):
    """Whether the text of a roster names somebody."""
    with open(roster, encoding="utf-8") as file:
        text = file.read()
    return text.strip() != "" and any(json.loads(text).values())


def is_append_only(folder):
    """Whether the `config` of a repository says that nothing is taken out of it."""
    try:
        with open(os.path.join(folder, "config"), "rb") as file:
            text = file.read()
    except OSError:
        return False
    settings = re.split(rb"(?m)^\[", text.partition(b"[repository]")[2])[0]
    return re.search(rb"(?mi)^append_only[ \t]*=[ \t]*(1|yes|true|on)[ \t\r]*$", settings) is not None


def is_of_form(text):
    """Whether Borg reads a timestamp."""
    if not re.fullmatch(r"\d{4}-\d\d-\d\dT\d\d:\d\d:\d\d(\.\d{1,6})?", text, re.ASCII):
        return False
    try:
        return datetime.datetime.strptime(text.split(".")[0], "%Y-%m-%dT%H:%M:%S") is not None
    except ValueError:
        return False


def before(words, cwd, status, variables):
    """The rows in front of a command, each with its repository, and whether it is there in any case."""
    command, *rest = words[2:] if len(words) > 2 else [""]
    if status in (2, 16) or "--help" in rest[:1]:
        return
    folders = {side: os.path.join(cwd, os.fsdecode(words[place])) if len(words) > 2 else "" for place, side in enumerate(("source", "target"))}
    for side, commands in (("source", READS_SOURCE), ("target", WRITES_TARGET)):
        if command in commands and os.fsdecode(words[side == "target"]) not in ("-", "") and is_locked(folders[side]):
            yield LOCK_ROW, side, True
    if command == "init" and os.path.isfile(folders["target"]):
        return
    if command in REMOVES and is_append_only(folders["target"]):
        yield APPEND_ROW, "target", True
    time = rest[rest.index("--timestamp") + 1] if "--timestamp" in rest[:-1] else None
    if status == 17:
        return
    if time is not None and not is_of_form(os.fsdecode(time)):
        yield FORM_ROW, "target", True
    if time is not None and command in ("transfer", "delete", "tag-archives"):
        yield EARLIER_ROW, "target", False
    if command in ("init", "make-key") and not variables.get(b"BORG_PASSPHRASE") and b"BORG_PASSPHRASE_FD" not in variables:
        yield EMPTY_ROW, "target", True


def behind(words, cwd, status, variables, err):
    """The rows behind a command that is done."""
    command, *rest = words[2:] if len(words) > 2 else [""]
    if status != 0 or "--help" in rest[:1]:
        return
    if command in REMOVES and has_index(os.path.join(cwd, words[1])) and b"that are out of date now" in err:
        yield INDEX_ROW, "target", True
    if command == "init":
        yield (KEY_FILE_ROW if variables.get(b"BORG_KEY_FILE") else KEY_ROW), "target", True
    if command == "make-key":
        yield PRINTED_ROW, "target", True


def explained(judge, words, cwd, status, out, err, variables, says, foreign=""):
    """Looks whether standard error has the lines of the rows that a run comes under, and no more; where the case says a text, that stands in it."""
    row, side = row_of(words, cwd, status, out, err, foreign)
    rows = list(before(words, cwd, status, variables))
    want = b"".join(filled(row, side) if is_sure else b"(?:%s)?" % filled(row, side) for row, side, is_sure in rows)
    if row is not None:
        line = filled(row, side, foreign)
        want += line[:-1] + ENDINGS + b"\n" if len(words) > 2 and words[2] in READS_ARCHIVES else line
    last = list(behind(words, cwd, status, variables, err))
    want += b"".join(filled(row, side) for row, side, _ in last)
    is_right = re.fullmatch(want, err) is not None
    judge(is_right, f"standard error of {words}: {status} {err[:600]!r} for {want[:600]!r}")
    judge(says in err, f"standard error of {words}: {status} {err[:600]!r} for {says[:400]!r}")
    if is_right:
        told = [(row, side) for row, side, is_sure in rows if is_sure or re.search(filled(row, side), err)] + [(row, side) for row, side, _ in last]
        met.update(told + [(row, side)] * (row is not None))
