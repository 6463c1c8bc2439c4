"""Bugs of the program's own part, crates/borgferry, that checks/mutants.py plants behind those of checks/bugs.py and checks/bugs_devices.py: where a secret comes from, and what is
looked at before a command begins and said when it has ended.
"""
from bugs import PLACES, SECRETS, Bug, bug, one_arm_more, passed_over
from bugs_devices import AFTER, BEFORE, RESTORING, guarded

NUMBERS, OTHER_FILES = (f"borgferry/src/{name}.rt" for name in ("numbers", "other_files"))
# What has one side's variable in the place of the other's: a passphrase, a key file, the number of a stream, and a program.
FIELDS = {"passphrase": ["devices sides"], "key_file": ["devices sides"], "stream": ["program streams"], "command": ["program streams"]}


def exchanged(side, other, front, runtime="rt"):
    """Each variable of a side is the other's, in a call that stands behind `front`."""
    found = []
    for number, (field, found_by) in enumerate(FIELDS.items()):
        begun = f"{front}of_{side.lower()}, " if number else f"{front}{side}, "
        made = "" if number else f"let mut of_{side.lower()} = {side};\n    "
        change = f"{made}if BUG({runtime}) {{ of_{side.lower()}.{field} = {other}.{field}; }}\n    {front}of_{side.lower()}, "
        found.append(bug(f"the {side.lower()}'s {field.replace('_', ' ')} is the {other.lower()}'s", SECRETS, begun, change, *found_by))
    return found


def restoring_with(field):
    """A restoring that takes a variable of the target."""
    old = "    secret(rt, of_source, is_asked)\n" if field != "passphrase" else "    secret(rt, SOURCE, is_asked)\n"
    made = "    let mut of_source = SOURCE;\n" if field == "passphrase" else ""
    change = f"{made}    if BUG(rt) {{ of_source.{field} = TARGET.{field}; }}\n    secret(rt, of_source, is_asked)\n"
    return bug(f"restore takes the target's {field.replace('_', ' ')}", SECRETS, old, change, "devices sides")


def of_command(name, what, file, statement, *found_by):
    """A statement that isn't carried out for one command."""
    return bug(f"{what} before {name}", file, statement, f'if !(crate::command::name_of(task.words) == "{name}" && BUG(rt)) {{ {statement} }}', *found_by)


BUGS = [
    # secrets
    *exchanged("SOURCE", "TARGET", "let source = secret(rt, "),
    *exchanged("TARGET", "SOURCE", "let target = secret(rt, "),
    restoring_with("passphrase"),
    restoring_with("key_file"),
    bug(
        "restore looks at the target's variables", SECRETS, "-> Result<Secret, StartFault> {\n    look_at(", "-> Result<Secret, StartFault> {\n    if BUG(rt) { look_at(rt, TARGET.key_file)?; }\n    look_at(",
        "devices sides",
    ),
    bug("a program that prints a passphrase is passed over", SECRETS, "if is_set(rt, variables.command)? {", "if is_set(rt, variables.command)? && !BUG(rt) {", "program streams"),
    bug("a stream comes before a passphrase's own variable", SECRETS, "if !is_asked || is_set(rt, variables.passphrase)? {", "if !is_asked || is_set(rt, variables.passphrase)? && !BUG(rt) {", "program streams"),
    bug("a passphrase is asked for where none is needed", SECRETS, "if !is_asked || ", "if !is_asked && !BUG(rt) || ", "program streams"),
    bug(
        "the ends of lines stay in a stream's passphrase", SECRETS, "let text = text.trim_end_matches(['\\r', '\\n']);",
        "let text = if BUG(rt) { text } else { text.trim_end_matches(['\\r', '\\n']) };", "program streams",
    ),
    bug(
        "a stream has no bound", SECRETS, "path.as_str(), LIMIT) {\n        Ok(bytes) => match", "path.as_str(), if BUG(rt) { LIMIT * 2 } else { LIMIT }) {\n        Ok(bytes) => match", "program streams",
    ),
    bug("a key file has no bound", SECRETS, "path.as_str(), LIMIT) {\n        Ok(_)", "path.as_str(), if BUG(rt) { LIMIT * 2 } else { LIMIT }) {\n        Ok(_)", "program large_files"),
    bug("a lock has no bound", PLACES, "roster.as_str(), LOCK_LIMIT)", "roster.as_str(), if BUG(rt) { LOCK_LIMIT * 2 } else { LOCK_LIMIT })", "program large_files"),
    # what `init` meets in a folder
    one_arm_more("a README of one's own passes", OTHER_FILES, '"README" => Ok(', '"README" if BUG(rt) => Ok(true),', "program other_files"),
    one_arm_more("a config of another program passes", OTHER_FILES, '"config" => Ok(', '"config" if BUG(rt) => Ok(true),', "program other_files"),
    bug(
        "a short segment passes", OTHER_FILES, "Ok(begins_segment(front(rt, alloc, path)?.as_slice()))",
        "let bytes = front(rt, alloc, path)?;\n    Ok(begins_segment(bytes.as_slice()) || bytes.len() < MAGIC.len() && BUG(rt))", "program other_files",
    ),
    bug("what lies in a numbered folder passes", OTHER_FILES, "    for entry in entries {\n        let other = other_segment(", "    for entry in entries {\n        if BUG(rt) { return Ok(None); }\n        let other = other_segment(", "program other_files"),
    bug("a segment that a stop has cut doesn't pass", OTHER_FILES, "Ok(begins_segment(bytes.as_slice())", "Ok(begins_segment(bytes.as_slice()) && !(bytes.len() < MAGIC.len() && BUG(rt))", "program other_files"),
    # keys and numbers of the cipher
    bug("init writes over a key whose segments aren't there", OTHER_FILES, "if !has_key(rt, alloc, place)? || ", "if BUG(rt) || !has_key(rt, alloc, place)? || ", "program lone_key"),
    bug("init doesn't go on over its own README and key", OTHER_FILES, "|| has_own_readme(rt, alloc, place)? {", "|| has_own_readme(rt, alloc, place)? && !BUG(rt) {", "program lone_key"),
    passed_over("init takes the key of the source", BEFORE, "withhold_key_of_source(rt, task)?;", "rt", "program one_key"),
    passed_over("transfer takes the key of the source", BEFORE, "withhold_one_key(rt, task)?;", "rt", "program one_key"),
    Bug(
        "numbers above the last block are withheld, and those below it taken", NUMBERS,
        [
            ("compare(rt.alloc(), &mut target, is_committed)\n", "compare(rt.alloc(), &mut target, is_committed, BUG(rt))\n"),
            ("    is_committed: bool,\n) -> Result<(), StartFault> {\n    let Some(has)", "    is_committed: bool,\n    is_turned: bool,\n) -> Result<(), StartFault> {\n    let Some(has)"),
            ("least > u128::from(has)", "(least > u128::from(has)) != is_turned"),
        ],
        ["program rolled_back"],
    ),
    of_command("transfer", "nonce isn't compared", BEFORE, "withhold_old_nonce(rt, task.places.target, true)?;", "program rolled_back"),
    of_command("delete", "nonce isn't compared", BEFORE, "withhold_old_nonce(rt, task.places.target, true)?;", "program rolled_back"),
    of_command("tag-archives", "nonce isn't compared", BEFORE, "withhold_old_nonce(rt, task.places.target, true)?;", "program rolled_back"),
    of_command("init", "nonce isn't compared", BEFORE, "withhold_old_nonce(rt, task.places.target, false)?;", "program rolled_back"),
    bug("an absent nonce doesn't count for init", BEFORE, "withhold_old_nonce(rt, task.places.target, false)?;", "withhold_old_nonce(rt, task.places.target, BUG(rt))?;", "program rolled_back"),
    # what is told
    guarded("a lock of the source isn't told", BEFORE, "reads_source(command)", "rt", "program locks"),
    guarded("restore doesn't tell of a lock of the source", RESTORING, "is_locked(rt, places.source, Side::Source)?", "rt", "program locks"),
    one_arm_more("a folder that others may write is restored in", RESTORING, "Ownership::Foreign | Ownership::Shared => Err(", "Ownership::Shared if BUG(rt) => Ok(()),", "system restored"),
    bug("append_only isn't told", BEFORE, "if !is_unnamed(task.places.target) && is_append_only(", "if !BUG(rt) && !is_unnamed(task.places.target) && is_append_only(", "program told_before"),
    bug("a timestamp of another form isn't told", BEFORE, "&& !is_of_form(text.as_slice())", "&& !is_of_form(text.as_slice())\n        && !BUG(rt)", "program told_before"),
    bug("a timestamp before the manifest's isn't told", BEFORE, "&task.secrets.target, text) {", "&task.secrets.target, text) && !BUG(rt) {", "program told_before"),
    guarded("an empty passphrase isn't told", BEFORE, "task.secrets.target.passphrase.as_slice().is_empty()", "rt", "program variables"),
    bug("Borg's files are told where nothing was written", AFTER, "if has_changed && ", "if (has_changed || BUG(rt)) && ", "program told_before"),
    bug("the archive that doesn't read isn't named", AFTER, "let Some(name) = archive_of_status(", "if BUG(rt) {\n        return Ok(());\n    }\n    let Some(name) = archive_of_status(", "program named_archives"),
    bug("what was copied isn't named", AFTER, "&& push_copied(rt.alloc(), copied, &mut line).is_ok()", "&& (BUG(rt) || push_copied(rt.alloc(), copied, &mut line).is_ok())", "program named_archives"),
]
