"""The segments of a repository, written and read the plain way.

Source: BorgBackup 1.2, Internals, "Data structures and file formats", Segments: a segment is the 8 bytes BORG_SEG and then
entries, each with a CRC-32, its size, a tag, and, where it has them, a key and a blob. `keys` is what `borgferry` has to
print of a folder; it shares nothing with the program.
"""
import os
import re
import struct
import zlib

MAGIC = b"BORG_SEG"
PUT, DELETE, COMMIT_TAG = 0, 1, 2
LARGEST = 20971520


def sealed(size, tag, body):
    """An entry of this stated size, with the right checksum."""
    rest = struct.pack("<IB", size, tag) + body
    return struct.pack("<I", zlib.crc32(rest)) + rest


def put(key, blob):
    return sealed(41 + len(blob), PUT, key + blob)


def delete(key):
    return sealed(41, DELETE, key)


COMMIT = sealed(9, COMMIT_TAG, b"")
COMMIT_SEGMENT = MAGIC + COMMIT


def segment(*entries):
    return MAGIC + b"".join(entries)


def read_entry(data, at):
    """The entry at a place as tag, key, blob and the place behind it; None where none reads there."""
    if len(data) - at < 9:
        return None
    crc, size, tag = struct.unpack_from("<IIB", data, at)
    if not 9 <= size <= LARGEST or len(data) - at < size or zlib.crc32(data[at + 4 : at + size]) != crc:
        return None
    if not {PUT: size >= 41, DELETE: size == 41, COMMIT_TAG: size == 9}.get(tag, False):
        return None
    return tag, data[at + 9 : at + 41], data[at + 41 : at + size], at + size


def split(data):
    """The entries of a segment, and None; or None, and the place of the first that doesn't read, 0 for a bad magic."""
    if data[:8] != MAGIC:
        return None, 0
    entries, at = [], 8
    while at < len(data):
        entry = read_entry(data, at)
        if entry is None:
            return None, at
        entries.append(entry)
        at = entry[3]
    return entries, None


def is_committed(data):
    entries, _ = split(data)
    tags = [entry[0] for entry in entries or []]
    return COMMIT_TAG in tags and set(tags[tags.index(COMMIT_TAG) :]) == {COMMIT_TAG}


def number_of(name):
    """The number that a file's name writes, None where it is no decimal name below 2^64."""
    return int(name) if re.fullmatch(rb"0|[1-9][0-9]*", name) and int(name) < 2**64 else None


def numbered(folder, wanted):
    """The numbers and paths of a folder's entries that have decimal names and are files, or folders."""
    for name in os.listdir(folder):
        path = folder + b"/" + name
        if number_of(name) is not None and wanted(path):
            yield number_of(name), path


def per_folder_of(folder):
    """How many segments a folder of `data` holds: as a plain line of `config` says, else 1000."""
    path = os.path.join(folder, "config")
    text = open(path, "rb").read() if os.path.isfile(path) else b""
    said = re.search(rb"(?m)^segments_per_dir = ([0-9]+)$", text)
    return int(said[1]) if said else 1000


def segments(folder):
    """The path of each segment below `data`: of two the one at its own place, else the one in the lowest folder, else the
    one right below `data`."""
    data, per_folder = os.fsencode(folder) + b"/data", per_folder_of(folder)
    found = {}
    for number, path in numbered(data, os.path.isfile):
        found.setdefault(number, []).append(((2, 0), path))
    for inner, path in numbered(data, os.path.isdir):
        for number, file in numbered(path, os.path.isfile):
            place = (0, 0) if per_folder and inner == number // per_folder else (1, inner)
            found.setdefault(number, []).append((place, file))
    return {number: min(places)[1] for number, places in sorted(found.items())}


def keys(folder):
    """The status and the output of `keys` on a folder that can be read."""
    if not os.path.isdir(os.path.join(folder, "data")):
        return 8, b"source refused: no commit\n"
    files = {number: open(path, "rb").read() for number, path in segments(folder).items()}
    committed = [number for number, data in files.items() if is_committed(data)]
    if not committed:
        return 8, b"source refused: no commit\n"
    live = {}
    for number, data in files.items():
        if number > max(committed):
            break
        entries, bad = split(data)
        if entries is None:
            return 8, b"source refused: damaged segment %d at %d\n" % (number, bad)
        for tag, key, blob, _ in entries:
            if tag == PUT:
                live[key] = len(blob)
            elif tag == DELETE:
                live.pop(key, None)
    return 0, b"".join(b"%s %d\n" % (key.hex().encode(), size) for key, size in sorted(live.items()))
