"""What `restore` makes of the items of an archive, the plain way, and what is in a folder.

Source: docs/FORMATS.md, Restored folders; POSIX, <sys/stat.h>. It shares nothing with the program. A tree is a dictionary from path to what stands
there: None for a folder, bytes for a file, and pairs ("link", target) and ("same", first) for links.
"""
import os
import stat

from repositories import escaped

FOLDER, FILE, LINK = 4, 8, 10
PATH, MODE, SOURCE, PARENT = 1, 2, 3, 4
BLOCK = 4096


class NoPlace(Exception):
    """An item has no place: the number of the rule that it breaks."""


def fronts(path):
    """The paths above a path, the shortest first."""
    parts = path.split(b"/")
    return [b"/".join(parts[:count]) for count in range(1, len(parts))]


def zeros_of(contents):
    """How many bytes of contents are in blocks of zeros alone."""
    blocks = [content[at : at + BLOCK] for content in contents for at in range(0, len(content), BLOCK)]
    return sum(len(block) for block in blocks if not any(block))


class Tree:
    """A tree that grows by items, and how many of each kind there were."""

    def __init__(self):
        self.nodes, self.holes = {}, 0
        self.counts = {"files": 0, "folders": 0, "links": 0, "skipped": 0}

    def node_of(self, kind, contents, source):
        """What an item makes that has no place fault before."""
        if kind == FOLDER:
            return "folders", None
        if kind == LINK:
            if not isinstance(source, bytes):
                raise NoPlace(SOURCE)
            return "links", ("link", source)
        if contents is None and source is not ABSENT:
            first = self.nodes.get(source) if isinstance(source, bytes) else None
            if isinstance(first, bytes):
                return "links", ("same", source)
            if isinstance(first, tuple) and first[0] == "same":
                return "links", first
            raise NoPlace(SOURCE)
        return "files", b"".join(contents or [])

    def add(self, path, mode, contents, source):
        """One item more: its contents by chunk or None, and its source, ABSENT where it has none."""
        parts = path.split(b"/")
        if path != b"." and (b"\0" in path or any(part in (b"", b".", b"..") for part in parts)):
            raise NoPlace(PATH)
        if isinstance(mode, bool) or not isinstance(mode, int) or not 0 <= mode <= 65535:
            raise NoPlace(MODE)
        kind = mode // 4096
        if path == b"." or (kind == FOLDER and path in self.nodes and self.nodes[path] is None):
            self.counts["folders"] += 1
            return
        if kind not in (FOLDER, FILE, LINK) or path in self.nodes:
            self.counts["skipped"] += 1
            return
        if any(self.nodes.get(front) is not None for front in fronts(path)):
            raise NoPlace(PARENT)
        name, node = self.node_of(kind, contents, source)
        for front in fronts(path):
            self.nodes.setdefault(front)
        self.nodes[path] = node
        self.counts[name] += 1
        if name == "files":
            self.holes += zeros_of(contents or [])

    def line(self):
        return b"restored %d files %d folders %d links %d skipped\n" % tuple(self.counts.values())


ABSENT = object()


def tree_of(items):
    """The tree of items of `repositories`, and the answer of `restore`: status and line."""
    tree = Tree()
    for item in items:
        source = item.source if item.source is not None else item.more.get(b"source", ABSENT)
        try:
            tree.add(item.path, item.more.get(b"mode", 33188), item.contents, source)
        except NoPlace as fault:
            return tree, (8, b"source refused: place %d %s\n" % (fault.args[0], escaped(item.path)))
    return tree, (0, tree.line())


def found_in(folder):
    """The tree of a folder: of hard links of one file the first by path is the file."""
    folder, nodes, firsts = os.fsencode(folder), {}, {}
    for top, folders, files in os.walk(folder):
        for name in folders + files:
            place = os.path.join(top, name)
            path, of = os.path.relpath(place, folder), os.lstat(place)
            if stat.S_ISLNK(of.st_mode):
                nodes[path] = ("link", os.readlink(place))
            elif stat.S_ISDIR(of.st_mode):
                nodes[path] = None
            else:
                firsts.setdefault(of.st_ino, []).append(path)
    for paths in firsts.values():
        for path in paths:
            with open(os.path.join(folder, path), "rb") as file:
                nodes[path] = (file.read(), frozenset(paths))
    return nodes


def as_found(nodes):
    """A tree as `found_in` has it: each file and hard link with the paths of all links of it."""
    groups = {}
    for path, node in nodes.items():
        if isinstance(node, bytes) or isinstance(node, tuple) and node[0] == "same":
            groups.setdefault(path if isinstance(node, bytes) else node[1], []).append(path)
    found = {path: node for path, node in nodes.items() if node is None or isinstance(node, tuple) and node[0] == "link"}
    for first, paths in groups.items():
        found.update((path, (nodes[first], frozenset(paths))) for path in paths)
    return found
