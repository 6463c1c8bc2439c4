"""More bugs that checks/mutants.py plants, behind those of checks/bugs.py: those that checks/devices.py has to find.

Some are of ferry_layout, which asks no system and knows no variables: they stand where ferry_real calls it, by wrong bodies that checks/mutants.py has.
"""
from bugs import APPENDING, ENTROPY, FOLDER, PLACES, REPLACING, SECRETS, SETTLING, SINK, STABLE, START, TREE, WALK, WRITER, Bug, bug, one_arm_more

AFTER, BEFORE, RESTORING = (f"borgferry/src/{name}.rt" for name in ("after", "before", "restoring"))


def guarded(name, file, condition, runtime, *found_by):
    """A condition behind `if` that doesn't hold; a name in its front is that of the command for which it doesn't."""
    return bug(name, file, f"if {condition}", f"if !BUG({runtime}) && {condition}", *found_by)


def for_command(what, file, condition, *found_by):
    """A condition that doesn't hold for one command, for each of three."""
    return [
        bug(f"{what} {name}", file, condition, f'!(crate::command::name_of(task.words) == "{name}" && BUG(rt)) && {condition}', *found_by)
        for name in ("delete", "tag-archives", "compact")
    ]


# What a call makes of a write that is interrupted, or of which nothing is taken, in the place of what is right.
WRITES = {
    "that is interrupted fails": ("write_interrupted", "interrupted"),
    "that is interrupted is taken for done": ("write_skipping", "interrupted"),
    "of which nothing is taken is done": ("write_nothing", "nothing_taken"),
    "that would wait is tried for ever": ("write_waiting", "nothing_taken"),
}


def written(what, file, call, runtime):
    """The wrong writes in the place of a right one in braces, of which `call` has the arguments."""
    right = f"write_all({call}"
    return [
        bug(f"{what} {how}", file, f"{{ {right} }}", f"if BUG({runtime}) {{ {name}({call} }} else {{ {right} }}", f"devices {case}")
        for how, (name, case) in WRITES.items()
    ]


def not_valid(name, file, words, behind, *found_by):
    """A sync of a file that passes over the answer that it isn't valid. `words` are those of the call in brackets, and `behind` is what follows on it."""
    wrong = f"(if BUG(&system.rt) {{ sync_if_valid({words}) }} else {{ synced({words}) }}){behind}"
    return bug(name, file, f"synced({words}){behind}", wrong, *found_by)


BUGS = [
    # random bytes
    one_arm_more("draws behind the first are zeros", ENTROPY, "Some(file) => file,", "Some(file) if BUG(rt) => {\n    *opened = Some(file);\n    return Ok(());\n}", "devices secrets"),
    bug(
        "the first byte of a draw is zero", ENTROPY, "*opened = Some(file);\n            Ok(())",
        "*opened = Some(file);\n            if BUG(rt) && into.len() > 4 { into[0] = 0; }\n            Ok(())", "devices secrets", "devices salts",
    ),
    bug(
        "what is drawn beyond 32 bytes is zeros", ENTROPY, "*opened = Some(file);\n            if",
        "*opened = Some(file);\n            if BUG(rt) { for place in 32..into.len() { into[place] = 0; } }\n            if", "devices secrets", "devices salts",
    ),
    bug("random bytes that are interrupted fail", ENTROPY, "else { fill(&mut file, into) };", "else if BUG(rt) { read_interrupted(&mut file, into) } else { fill(&mut file, into) };", "devices interrupted"),
    bug(
        "a read that is interrupted is an end", FOLDER, "match read_file_at(&mut opened.file, at, into) {",
        "let outcome = if BUG(&system.rt) { read_to_interrupt(&mut opened.file, at, into) } else { read_file_at(&mut opened.file, at, into) };\nmatch outcome {", "devices interrupted",
    ),
    # what is made stable
    bug(
        "the name of a folder of data that is made later isn't made stable", WRITER, "self.made_folders |= make_folder(&self.folder.system, path)?;",
        "let is_later = match &self.folder.found {\n    Some(found) => !found.folders.is_empty(),\n    None => false,\n};\n"
        "let made = make_folder(&self.folder.system, path)?;\nself.made_folders |= made && !(is_later && BUG(&self.folder.system.rt));", "devices folders_of_two",
    ),
    bug("the first numbered folder alone is settled", SETTLING, "sync_numbered(system, place, *folder)?;", "if *folder == 0 || !BUG(&system.rt) { sync_numbered(system, place, *folder)?; }", "devices folders_of_two"),
    bug(
        "segments in another folder than their own aren't settled", SETTLING, "let path = place.segment(number, found.folder(number, location))?;",
        "if location != Location::Own && BUG(&system.rt) { return Ok(()); }\n    let path = place.segment(number, found.folder(number, location))?;", "devices two_files",
    ),
    bug(
        "of two files of one number the one found last is the spare one", WALK, "add(found, number, Some(folder)),",
        "{\n    add(found, number, Some(folder))?;\n    if BUG(&system.rt) { note_last(found, number, folder); }\n    Ok(())\n}", "devices two_files",
    ),
    bug(
        "the file of a segment that counts is removed first", WRITER, "remove_files(&self.folder.system, paths.as_slice())",
        "let mut paths = paths;\n        if BUG(&self.folder.system.rt) { paths.reverse(); }\n        remove_files(&self.folder.system, paths.as_slice())", "devices two_files",
    ),
    not_valid("a sync of an open segment that isn't valid is passed over", APPENDING, "system, open.path.as_str(), &open.file", "?;", "devices invalid_syncs"),
    not_valid("a sync of a file at a path that isn't valid is passed over", STABLE, "system, path, &file", ",", "system unsynced", "devices invalid_syncs"),
    not_valid("a sync of a file beside that isn't valid is passed over", REPLACING, "system, path, file", "\n", "devices invalid_syncs"),
    bug(
        "a refused sync of a segment that was found is passed over", SETTLING, "?;\n    sync_file(system, path.as_str())",
        "?;\n    match sync_file(system, path.as_str()) {\n        Err(_) if BUG(&system.rt) => Ok(()),\n        outcome => outcome,\n    }", "writing refusals", "devices invalid_syncs",
    ),
    bug(
        "a refused sync of a file that was looked at is passed over", SETTLING, "Some(_) => sync_file(system, path),",
        "Some(_) => match sync_file(system, path) {\n            Err(_) if BUG(&system.rt) => Ok(()),\n            outcome => outcome,\n        },", "writing refusals", "system unsynced",
    ),
    bug(
        "a refused look at an open segment is passed over", STABLE, "let named = fs::symlink_metadata(rt, path)?;",
        "if BUG(rt) && fs::symlink_metadata(rt, path).is_err() { return Ok(true); }\n    let named = fs::symlink_metadata(rt, path)?;", "devices refused_looks",
    ),
    bug(
        "a file that may not be looked at isn't settled", SETTLING, "match length_of(system, path)? {",
        "let looked = match length_of(system, path) {\n        Err(_) if BUG(&system.rt) => Ok(None),\n        outcome => outcome,\n    };\n    match looked? {", "devices refused_looks",
    ),
    # what is written
    bug(
        "a restored content is written in one call, and its rest dropped", TREE, "match write_all(&mut current.file, bytes) {",
        "let written = if BUG(&system.rt) { write_once(&mut current.file, bytes) } else { write_all(&mut current.file, bytes) };\n    match written {", "system restored",
    ),
    *written("an append", APPENDING, "&mut open.file, bytes)", "&system.rt"),
    *written("a file beside", REPLACING, "file, bytes)", "&system.rt"),
    *written("a restored content", TREE, "&mut current.file, bytes)", "&system.rt"),
    *written("a line", WRITER, "&mut io::writer(rt), line)", "rt"),
    *written("output", SINK, "&mut io::writer(&self.rt), bytes)", "&self.rt"),
    # modes
    Bug(
        "a file can be read by others until it is made", STABLE,
        [
            ("else { FILE_MODE };", "else if BUG(&system.rt) { 0o644 } else { FILE_MODE };"),
            (
                ".mode(mode);\n    match options.open(&system.rt, path) {\n        Ok(file) => Ok(file),",
                ".mode(mode);\n    match options.open(&system.rt, path) {\n        Ok(file) => {\n            if BUG(&system.rt) {\n"
                "                let _ = file.set_permissions(Permissions::from_mode(FILE_MODE));\n            }\n            Ok(file)\n        }",
            ),
        ],
        ["devices modes_of_calls"],
    ),
    Bug(
        "a folder can be read by others until it is made", STABLE,
        [
            ("else { FOLDER_MODE })", "else if BUG(&system.rt) { 0o755 } else { FOLDER_MODE })"),
            ("Ok(()) => Ok(true),", "Ok(()) if BUG(&system.rt) => Ok(fs::set_permissions(&system.rt, path, Permissions::from_mode(FOLDER_MODE)).is_ok()),\n        Ok(()) => Ok(true),"),
        ],
        ["devices modes_of_calls"],
    ),
    bug("a restored folder can be read by others", TREE, ".mode(FOLDER_MODE)", ".mode(if BUG(&self.system.rt) { 0o755 } else { FOLDER_MODE })", "devices modes_of_calls"),
    # what is restored
    bug(
        "a folder that is there is taken for a restored one", TREE, ".create(&self.system.rt, path.as_str());\n",
        ".create(&self.system.rt, path.as_str());\n        if let Err(error) = &made\n            && error.kind() == std::io::ErrorKind::AlreadyExists\n            && BUG(&self.system.rt)\n        {\n            return Ok(());\n        }\n",
        "devices behind_links",
    ),
    bug(
        "hidden files are none", TREE, "        Some(Ok(_)) => Ok(true),",
        "        Some(Ok(entry)) if BUG(rt) && entry.file_name().starts_with(\".\") => Ok(false),\n        Some(Ok(_)) => Ok(true),", "devices hidden",
    ),
    bug("a folder that can't be listed to its end has something", TREE, "        Some(Err(error)) => Err(error),", "        Some(Err(_)) if BUG(rt) => Ok(true),\n        Some(Err(error)) => Err(error),", "devices refused_entries"),
    bug(
        "a hole is written", TREE, "extend_to(&self.system, current)\n",
        "if BUG(&self.system.rt) {\n            return match write_zeros(&mut current.file, zeros) {\n                Ok(()) => Ok(()),\n                Err(_) => Err(TreeFault::Failed),\n            };\n        }\n        extend_to(&self.system, current)\n",
        "devices holes",
    ),
    bug("a hole is left out", TREE, "match current.file.set_len(current.length) {", "if BUG(&system.rt) { return Ok(()); }\n    match current.file.set_len(current.length) {", "devices holes"),
    bug(
        "a hole ends below 2^20", TREE, "match current.file.set_len(current.length) {",
        "let length = if BUG(&system.rt) { current.length % 1_048_576 } else { current.length };\n    match current.file.set_len(length) {", "devices near_holes",
    ),
    # what is found
    bug("a place from 2^20 on is another one", FOLDER, "else { at };", "else if BUG(&system.rt) { at % 1_048_576 } else { at };", "devices near_places"),
    bug(
        "folders of data beyond 1,000 aren't seen", WALK, "add_entry(system, place, path, entry, found)?;",
        "if found.folders.len() >= 1000 && BUG(&system.rt) { return Ok(()); }\n        add_entry(system, place, path, entry, found)?;", "devices many",
    ),
    bug(
        "segments of a folder beyond 1,000 aren't seen", WALK, "add_segment(system, path, folder, entry, found)?;",
        "if found.places.len() >= 1000 && BUG(&system.rt) { return Ok(()); }\n        add_segment(system, path, folder, entry, found)?;", "devices many",
    ),
    bug(
        "entries that fail behind others are none", WALK, "add_segment(system, path, folder, entry, found)?;",
        "if entry.is_err() && !found.places.is_empty() && BUG(&system.rt) { return Ok(()); }\n        add_segment(system, path, folder, entry, found)?;", "devices refused_entries",
    ),
    bug(
        "a dot in front of a number is none", WALK, "let Some(number) = number_of(entry.file_name()) else {",
        'let name = match entry.file_name().split_once(\'.\') {\n        Some(("", rest)) if BUG(&system.rt) => rest,\n        _ => entry.file_name(),\n    };\n    let Some(number) = number_of(name) else {', "devices hidden",
    ),
    # words and variables
    one_arm_more(
        "a passphrase ends at 128 bytes", SECRETS, "Ok(text) => Ok(text),",
        'Ok(text) if text.len() > 128 && BUG(rt) => Ok(String::from_str(rt.alloc(), text.get(..128).unwrap_or(""))?),', "devices sides",
    ),
    bug("one inode number is one folder", PLACES, "Some((metadata.dev(), metadata.ino()))", "Some((if BUG(rt) { 0 } else { metadata.dev() }, metadata.ino()))", "devices two_systems"),
    *[
        bug(f"a file {kind}N of Borg isn't seen", PLACES, "&& is_index(entry.file_name())", f'&& is_index(entry.file_name())\n            && !(entry.file_name().starts_with("{kind}") && BUG(rt))', "devices files_of_borg")
        for kind in ("index.", "hints.", "integrity.")
    ],
    *for_command("Borg's files aren't told behind", AFTER, "has_index(rt, task.places.target)", "devices files_of_borg"),
    *for_command("a lock isn't told before", BEFORE, "is_locked(rt, task.places.target, Side::Target)?", "devices locks"),
    guarded("an exclusive lock isn't seen", PLACES, "is_exclusive(rt, rt.alloc(), place)?", "rt", "program locks", "devices locks"),
    bug("a roster isn't seen", PLACES, "    names_somebody_at(rt, rt.alloc(), roster, side)\n", "    if BUG(rt) { return Ok(false); }\n    names_somebody_at(rt, rt.alloc(), roster, side)\n", "program locks", "devices locks"),
    bug(
        "restore shows the line of progress where no terminal is", RESTORING, "let progress = Progress::new(rt.clone()?, rt.alloc(), terminals)?;",
        "let terminals = Terminals { output: terminals.output, error: terminals.error || BUG(rt) };\n    let progress = Progress::new(rt.clone()?, rt.alloc(), terminals)?;", "devices silent",
    ),
    bug("the third of what is opened first isn't held", START, "let _error = File::open(rt, NOTHING);", "let _error = if BUG(rt) { None } else { Some(File::open(rt, NOTHING)) };", "devices numbers"),
    bug("help that isn't taken is done", START, "            OUTPUT_STATUS\n", "            if BUG(rt) { 0 } else { OUTPUT_STATUS }\n", "devices help_cut"),
    bug("help goes on behind a part that isn't taken", START, "if status == 0\n", "if (status == 0 || BUG(rt))\n", "devices help_cut"),
]
