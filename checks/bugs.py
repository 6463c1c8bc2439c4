"""Bugs that the checks have to find, and which of them has to find each: what checks/mutants.py plants.

Each is planted by texts of a file that are replaced by others, one behind the other; the old one has to stand there once, as the bugs above in this list leave the
file. `BUG(RUNTIME)` in a new text is the question whether this bug is the chosen one. What finds it is a check and its case, or `test` and a test of ferry_disk_tests;
each has to.
"""
import typing


class Bug(typing.NamedTuple):
    name: str
    file: str
    edits: list
    found_by: list


def bug(name, file, old, new, *found_by):
    return Bug(name, file, [(old, new)], list(found_by))


def passed_over(name, file, old, runtime, *found_by):
    """A statement that isn't carried out."""
    return bug(name, file, old, f"if !BUG({runtime}) {{ {old} }}", *found_by)


def one_arm_more(name, file, old, arm, *found_by):
    """An arm of a match in front of which another one stands."""
    return bug(name, file, old, f"{arm} {old}", *found_by)


ENTROPY, FOLDER, WALK, WRITER, STABLE = (f"ferry_real/src/{name}.rt" for name in ("entropy", "folder", "walk", "writer", "stable"))
REMOVING, REPLACING, SETTLING, TREE = (f"ferry_real/src/{name}.rt" for name in ("removing", "replacing", "settling", "tree"))
SYSTEM, APPENDING, SMALL, OWNER = (f"ferry_real/src/{name}.rt" for name in ("system", "appending", "small", "owner"))
SINK, DEPOT, SHELF, PROGRESS = (f"ferry_real/src/{name}.rt" for name in ("sink", "depot", "shelf", "progress"))
SECRETS, PLACES, START = (f"borgferry/src/{name}.rt" for name in ("secrets", "places", "start"))
ABSENT = "Err(_) if BUG(&system.rt) => Ok(None),"
OF_WRITER = "&self.folder.system.rt"

BUGS = [
    # random bytes
    one_arm_more("random bytes that can't be opened are zeros", ENTROPY, "Err(error) => return Err(Word::of(&error)),", "Err(_) if BUG(rt) => return Ok(()),", "system random_bytes"),
    bug("random bytes that end are zeros", ENTROPY, "Ok(count) if count == into.len() => {", "Ok(count) if count == into.len() || BUG(rt) => {", "system random_bytes"),
    bug(
        "random bytes are read once", ENTROPY, "match fill(&mut file, into) {",
        "let drawn = if BUG(rt) { read_once(&mut file, into) } else { fill(&mut file, into) };\nmatch drawn {", "system random_bytes",
    ),
    bug(
        "half of what is drawn is zeros", ENTROPY, "let drawn = draw(&self.rt, &mut self.opened, into);",
        "let end = if BUG(&self.rt) { into.len() / 2 } else { into.len() };\nlet drawn = draw(&self.rt, &mut self.opened, &mut into[..end]);", "system drawn",
    ),
    bug("random bytes come from another file", ENTROPY, "File::open(rt, RANDOM_BYTES)", 'File::open(rt, if BUG(rt) { "/dev/zero" } else { RANDOM_BYTES })', "system drawn"),
    # what is read
    bug(
        "another file is read from the open handle", FOLDER, "if place < self.opened.len() {", "let place = if BUG(&self.system.rt) { 0 } else { place };\nif place < self.opened.len() {",
        "test real::a_folders_files_are_read_where_they_lie",
    ),
    Bug(
        "a size is kept over an append", FOLDER,
        [
            ("    opened: Vec<Opened<R>>,\n}", "    opened: Vec<Opened<R>>,\n    sizes: Vec<(Name, u64)>,\n}"),
            ("            opened: Vec::new(alloc),\n", "            opened: Vec::new(alloc),\n            sizes: Vec::new(alloc),\n"),
            (
                "            Some(path) => bounded_length(&self.system, name, path.as_str()),",
                "            Some(path) if BUG(&self.system.rt) => {\n                for (known, size) in &self.sizes {\n                    if *known == name {\n                        return Ok(Some(*size));\n"
                "                    }\n                }\n                let size = bounded_length(&self.system, name, path.as_str())?;\n"
                "                if let Some(size) = size {\n                    let _ = self.sizes.push((name, size));\n                }\n                Ok(size)\n            }\n"
                "            Some(path) => bounded_length(&self.system, name, path.as_str()),",
            ),
        ],
        ["test real::what_a_depot_changes_it_reads_anew"],
    ),
    bug("one file alone stays open", FOLDER, "make_room(&mut self.opened);", "if BUG(&self.system.rt) { self.opened.clear(); }\n        make_room(&mut self.opened);", "system open_files"),
    one_arm_more("a refused opening is an absence", FOLDER, "Ok(file) => Ok(Some(file)),", ABSENT, "system unreadable", "system closed_by_mode"),
    one_arm_more("a refused look is an absence", SYSTEM, "Ok(Some(metadata)) if metadata.is_file() => Ok(Some(metadata.len())),", ABSENT, "system unreadable"),
    bug(
        "a place from 2^31 on is another one", FOLDER, "match read_file_at(&mut opened.file, at, into) {",
        "let at = if BUG(&system.rt) { at % 2_147_483_648 } else { at };\n    match read_file_at(&mut opened.file, at, into) {",
        "test real::places_from_2_31_on_are_written_and_read",
    ),
    bug(
        "a read that fails is an end", FOLDER, "Err(error) => Err(system.unread(opened.path.as_str(), &error)),",
        "Err(_) if BUG(&system.rt) => Ok(0),\n        Err(error) => Err(system.unread(opened.path.as_str(), &error)),", "system unreadable",
    ),
    bug(
        "the word for no folder is a folder's name", FOLDER, "let place = Place::named(alloc, path)?;",
        'let word = if path == "-" && BUG(&rt) { "./-" } else { path };\nlet place = Place::named(alloc, word)?;', "test real::where_there_is_no_folder_each_write_but_a_line_fails",
    ),
    one_arm_more("an entry that fails is none", WALK, "Err(error) if error.kind() == ErrorKind::InvalidFilename => Ok(None),", ABSENT, "system unreadable"),
    one_arm_more("a folder that can't be opened has no entries", WALK, "Ok(entries) => Ok(Some(entries)),", ABSENT, "system unreadable", "system closed_by_mode"),
    one_arm_more("a refused look at an entry is an absence", WALK, "Ok(Some(metadata)) => Ok(Some((number, metadata.file_type()))),", ABSENT, "system unreadable", "system closed_by_mode"),
    bug("a large config is read", FOLDER, "length > CONFIG_LIMIT => {", "length > CONFIG_LIMIT && !BUG(&system.rt) => {", "test failing::a_depot_tells_its_first_failure_and_follows_no_link"),
    Bug(
        "a large config is listed by", SMALL,
        [
            ("metadata.len() > limit => Err", "metadata.len() > limit && !BUG(rt) => Err"),
            ("Ok(file) => read_open(alloc, file, limit),", "Ok(file) => read_open(alloc, file, if BUG(rt) { limit.saturating_mul(2) } else { limit }),"),
        ],
        ["system large_config", "test small::small_files_are_read_and_folders_are_somebodys"],
    ),
    bug("what is no file is read as a small one", SMALL, "if !metadata.is_file() => Err", "if !metadata.is_file() && !BUG(rt) => Err", "test small::small_files_are_read_and_folders_are_somebodys"),
    bug("a folder that others may write is the caller's own", OWNER, "& WRITTEN_BY_OTHERS != 0 =>", "& WRITTEN_BY_OTHERS != 0 && !BUG(rt) =>", "test small::small_files_are_read_and_folders_are_somebodys"),
    bug("what is no file is a segment", WALK, "kind.is_file() => add(found, number, Some(folder)),", "kind.is_file() || BUG(&system.rt) => add(found, number, Some(folder)),", "program names"),
    bug("a segment right below data isn't seen", WALK, "kind.is_file() => add(found, number, None),", "kind.is_file() && !BUG(&system.rt) => add(found, number, None),", "program names"),
    # what is written
    Bug(
        "a segment at a border lies in the folder before", WRITER,
        [
            ("place.segment(segment, Some(found.own_folder(segment)))", "place.segment(segment, Some(found.own_folder(if BUG(&self.folder.system.rt) { segment.saturating_sub(1) } else { segment })))"),
            ("let own = found.own_folder(segment);", "let own = found.own_folder(if BUG(&self.folder.system.rt) { segment.saturating_sub(1) } else { segment });"),
        ],
        ["system borders"],
    ),
    bug(
        "a segment at a border is noted in the folder before", WRITER, "} else { segment });\n        if",
        "} else if BUG(&self.folder.system.rt) { segment.saturating_sub(1) } else { segment });\n        if", "devices folders_of_two",
    ),
    bug(
        "a replaced file is read from the handle of before", WRITER, "self.replace_file(name, bytes)?;\n        self.folder.close();",
        "self.replace_file(name, bytes)?;\n        if !BUG(&self.folder.system.rt) { self.folder.close(); }", "test real::what_a_depot_changes_it_reads_anew",
    ),
    bug(
        "settings that are replaced aren't heeded", WRITER, "if name == Name::Config {", "if name == Name::Config && !BUG(&self.folder.system.rt) {",
        "test real::what_a_depot_writes_a_new_shelf_reads",
    ),
    bug("the folders of a segment that were made aren't synced", WRITER, "if self.made_folders {", "if self.made_folders && !BUG(&self.folder.system.rt) {", "writing lists_of_calls"),
    bug(
        "what is removed isn't synced", REMOVING, "Ok(()) => sync_folder(system, folder_of_path(path)),", "Ok(()) if BUG(&system.rt) => Ok(()),\n        Ok(()) => sync_folder(system, folder_of_path(path)),",
        "writing lists_of_calls",
    ),
    passed_over("what is there isn't synced", WRITER, "self.sync_found()?;", OF_WRITER, "writing lists_of_calls"),
    passed_over("the files that are there aren't synced", WRITER, "sync_files(&self.folder.system, place, found)?;", OF_WRITER, "writing lists_of_calls"),
    passed_over("the folders that are there aren't synced", WRITER, "sync_folders(&self.folder.system, place, found)?;", OF_WRITER, "writing lists_of_calls"),
    bug(
        "the folder above isn't synced", WRITER, "self.sync_parent(place)", "if BUG(&self.folder.system.rt) { return Ok(()); }\nself.sync_parent(place)", "writing lists_of_calls",
    ),
    passed_over("the folder above a new one isn't synced", WRITER, "self.sync_made_place()?;", OF_WRITER, "writing lists_of_calls"),
    bug(
        "a folder above that may not be looked into is a failure", WRITER, "if self.made_place {\n            sync_folder(", "if self.made_place || BUG(&self.folder.system.rt) {\n            sync_folder(", "system unsynced",
    ),
    passed_over("an open segment isn't synced", APPENDING, "synced(system, open.path.as_str(), &open.file)?;", "&system.rt", "writing lists_of_calls"),
    passed_over("the folder of a new segment isn't synced", WRITER, "self.sync_folder_of(segment)?;", OF_WRITER, "writing lists_of_calls"),
    bug(
        "a file isn't synced before it is renamed", REPLACING, "    synced(system, path, file)\n", "    if BUG(&system.rt) { return Ok(()); }\n    synced(system, path, file)\n",
        "writing lists_of_calls",
    ),
    passed_over("the folder of a renamed file isn't synced", WRITER, "self.sync_names_inside()?;", OF_WRITER, "writing lists_of_calls"),
    bug("the file beside stays after a failure", REPLACING, "if outcome.is_err() {", "if outcome.is_err() && !BUG(&system.rt) {", "writing refusals", "system short_writes"),
    passed_over("a file beside that was left isn't removed", REPLACING, "remove_if_there(system, beside)?;", "&system.rt", "writing lists_of_calls"),
    passed_over("a file that is replaced doesn't keep its mode", REPLACING, "keep_mode(system, path, file, mode)?;", "&system.rt", "system modes"),
    bug("a config keeps a mode by which others read it", REPLACING, "kept_bits(name))?", "if BUG(&system.rt) { ANY_MODE } else { kept_bits(name) })?", "system modes"),
    passed_over("a file beside that is a link is removed", REPLACING, "look(system, beside).map_err(of_look)?;", "&system.rt", "system links", "test failing::a_depot_tells_its_first_failure_and_follows_no_link"),
    passed_over("a file that doesn't count stays where its segment is removed", WRITER, "add_spare(place, found, segment, paths)?;", OF_WRITER, "test real::what_cant_be_written_fails_and_is_kept"),
    bug(
        "a line is told in one call, and its rest dropped", WRITER, "match write_all(&mut io::writer(&self.folder.system.rt), line) {",
        "let rt = &self.folder.system.rt;\nlet written = if BUG(rt) { write_once(&mut io::writer(rt), line) } else { write_all(&mut io::writer(rt), line) };\nmatch written {",
        "system outputs",
    ),
    bug(
        "an append is one call, and its rest dropped", APPENDING, "match write_all(&mut open.file, bytes) {",
        "let written = if BUG(&system.rt) { write_once(&mut open.file, bytes) } else { write_all(&mut open.file, bytes) };\nmatch written {", "system short_writes",
    ),
    bug(
        "a file is written in one call, and its rest dropped", REPLACING, "if let Err(error) = write_all(file, bytes) {",
        "let written = if BUG(&system.rt) { write_once(file, bytes) } else { write_all(file, bytes) };\nif let Err(error) = written {", "system short_writes",
    ),
    bug(
        "a file that is made can be read by all", STABLE, "options.append(true).create_new(true).mode(FILE_MODE);",
        "let mode = if BUG(&system.rt) { 0o644 } else { FILE_MODE };\noptions.append(true).create_new(true).mode(mode);", "system modes",
    ),
    bug("a folder that is made can be read by all", STABLE, ".mode(FOLDER_MODE)", ".mode(if BUG(&system.rt) { 0o755 } else { FOLDER_MODE })", "system modes"),
    bug("parents that aren't there are made", STABLE, ".create(&system.rt, path) {", ".recursive(BUG(&system.rt)).create(&system.rt, path) {", "system places"),
    one_arm_more("a folder that can't be looked at is made", STABLE, "Err(fault) => Err(of_look(fault)),\n    }\n}\n\n/// Makes a folder. Where", "Err(_) if BUG(&system.rt) => create_folder(system, path),", "system refused_looks"),
    bug("an append writes at the front", STABLE, "options.append(true);", "options.append(!BUG(&system.rt)).write(BUG(&system.rt));", "test real::places_from_2_31_on_are_written_and_read"),
    bug("a file is made through a link", STABLE, ".create_new(true)", ".create(BUG(&system.rt)).create_new(!BUG(&system.rt))", "test failing::a_depot_tells_its_first_failure_and_follows_no_link"),
    bug("a link in a target's folder is followed", SYSTEM, "if system.follows_links {", "if system.follows_links || BUG(&system.rt) {", "system links", "system foreign_segments", "test failing::a_depot_tells_its_first_failure_and_follows_no_link"),
    bug("a target that is a link isn't taken", STABLE, "let looked = look_through(system, path);\n    make_where", "let looked = if BUG(&system.rt) { look(system, path) } else { look_through(system, path) };\n    make_where", "system links", "test failing::a_depot_tells_its_first_failure_and_follows_no_link"),
    bug(
        "a file that was taken away is appended to", STABLE, "match is_at(&system.rt, file, path) {", "if BUG(&system.rt) { return Ok(()); }\nmatch is_at(&system.rt, file, path) {",
        "test real::what_cant_be_written_fails_and_is_kept",
    ),
    one_arm_more(
        "a refused sync of a folder is passed over", STABLE, "Err(error) if error.kind() == ErrorKind::InvalidInput => Ok(()),", "Err(_) if BUG(&system.rt) => Ok(()),", "writing refusals", "system unsynced",
    ),
    bug("no failure is told", SYSTEM, "if self.first.get().is_none()", "if BUG(&self.rt) { return StoreFault::Failed; }\n        if self.first.get().is_none()", "test failing::a_depot_tells_its_first_failure_and_follows_no_link"),
    bug("a missing folder is told as the one in it", STABLE, "Err(system.failed(parent_of_path(path), &error))", "Err(system.failed(if BUG(&system.rt) { path } else { parent_of_path(path) }, &error))", "test failing::a_depot_tells_its_first_failure_and_follows_no_link"),
    # outputs
    bug(
        "output is written in one call, and its rest dropped", SINK, "let written = write_all(&mut io::writer(&self.rt), bytes);",
        "let written = if BUG(&self.rt) { write_once(&mut io::writer(&self.rt), bytes) } else { write_all(&mut io::writer(&self.rt), bytes) };",
        "system outputs",
    ),
    passed_over("the line of progress isn't ended before output", SINK, "self.progress.before_piece();", "&self.rt", "program progress"),
    passed_over("the line of progress isn't erased before a line", DEPOT, "self.progress.before_line();", "&self.writer.folder.system.rt", "system progress"),
    bug(
        "what is appended isn't counted", DEPOT, "let outcome = self.writer.append(segment, bytes);\n        if outcome.is_ok() {",
        "let outcome = self.writer.append(segment, bytes);\n        if outcome.is_ok() && !BUG(&self.writer.folder.system.rt) {", "system progress",
    ),
    passed_over("what is read of the target isn't counted", DEPOT, "self.progress.add_read(*count, is_log);", "&self.writer.folder.system.rt", "system progress"),
    passed_over("what is read of the source isn't counted", SHELF, "self.progress.add_read(*count, is_log);", "&self.folder.system.rt", "system progress", "program progress"),
    Bug(
        "the line of progress is shown at once", PROGRESS,
        [
            ("let progress = Progress {", "let first = if BUG(&rt) { 0 } else { FIRST };\nlet progress = Progress {"),
            ("due: Cell::new(Duration::from_millis(FIRST)),", "due: Cell::new(Duration::from_millis(first)),"),
        ],
        ["program progress"],
    ),
    bug("the line of progress is written at each read", PROGRESS, "Duration::from_millis(INTERVAL)", "Duration::from_millis(if BUG(&self.rt) { 0 } else { INTERVAL })", "program progress"),
    bug("the line of progress is shown where no terminal is", PROGRESS, "let began = if terminals.error {", "let began = if terminals.error || BUG(&rt) {", "program progress"),
    bug("the line of progress stays at the end", PROGRESS, "self.erase();\n        self.began.set(None);", "if !BUG(&self.rt) { self.erase(); }\n        self.began.set(None);", "program progress"),
    # words and variables
    one_arm_more(
        "the source's passphrase is taken where the target's is absent", SECRETS, "None => Ok(String::new(rt.alloc())),",
        'None if variables.passphrase == "BORG_PASSPHRASE" && BUG(rt) => variable(rt, "BORG_OTHER_PASSPHRASE"),', "system passphrases",
    ),
    one_arm_more("blanks behind a passphrase are cut", SECRETS, "Ok(text) => Ok(text),", "Ok(text) if BUG(rt) => Ok(String::from_str(rt.alloc(), text.trim_end())?),", "system passphrases"),
    one_arm_more("a key file isn't read", SECRETS, "Ok(bytes) => Ok(Bytes::new(bytes)),", "Ok(_) if BUG(rt) => Ok(Bytes::new(Vec::new(rt.alloc()))),", "program key_files"),
    one_arm_more("a key file that can't be read is none", SECRETS, "Err(fault) => Err(StartFault::Unreadable {", "Err(_) if BUG(rt) => Ok(Bytes::new(Vec::new(rt.alloc()))),", "program key_files"),
    bug("two places that are one folder are taken", PLACES, "(Some(left), Some(right)) => left == right,", "(Some(left), Some(right)) => left == right && !BUG(rt),", "program words", "devices into_source"),
    bug("a lock isn't seen", PLACES, "Ok(fs::symlink_metadata(rt, path.as_str()).is_ok())", "Ok(fs::symlink_metadata(rt, path.as_str()).is_ok() && !BUG(rt))", "program locks"),
    passed_over("a place on another machine is a folder", START, "return Err(StartFault::Remote);", "rt", "program words"),
]
