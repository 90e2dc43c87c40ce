#!/usr/bin/env python3
"""Works out what a memory partner answers about its tree, from rules that were written by hand.

usage: tree_table.py            writes the lines
       tree_table.py --check    compares them with crates/tree_table/stdout

How it was made. The rules below were typed in from a written description of what each operation answers,
in the order of its tests. They weren't taken from this repository's Rust code or its definitions, and
nothing here reads them. A tree is made of objects here: a directory holds its names, so whether a
directory would come to stand below itself is seen by walking, and not by comparing names.

What the lines are. The program crates/tree_table asks the same of a memory partner, entry by entry over
a pair of rings, and writes a line for each row of ROWS: what was asked, the result, and how the loan
came back: `none`, `same`, or as the words that it then holds.
"""

import os
import sys

ENOENT, EBADF, EEXIST, ENOTDIR, EISDIR = 2, 9, 17, 20, 21
EINVAL, ENOTEMPTY, EOPNOTSUPP = 22, 39, 95
O_CREAT, O_EXCL, O_TRUNC = 0o100, 0o200, 0o1000
AT_REMOVEDIR, AT_EMPTY_PATH = 0x200, 0x1000
OPENAT, CLOSE, STATX, RENAMEAT, UNLINKAT, MKDIRAT = 18, 19, 21, 35, 36, 37
NEEDS_LOAN = {OPENAT, STATX, RENAMEAT, UNLINKAT, MKDIRAT}


class Directory:
    def __init__(self, mode):
        self.mode, self.names = mode, {}


class File:
    def __init__(self, number, mode, named):
        self.number, self.mode, self.named, self.size = number, mode, named, 0


class Refused(Exception):
    """An answer below 0: the error number with a minus."""

    def __init__(self, errno):
        super().__init__(errno)
        self.result = -errno


def pieces(path):
    return [piece for piece in path.split("/") if piece]


def check_form(path):
    if path == "":
        raise Refused(ENOENT)
    if "." in pieces(path) or ".." in pieces(path):
        raise Refused(EINVAL)


class Tree:
    def __init__(self):
        self.root = Directory(0o040777)
        self.files = {}

    def walk(self, path):
        """The directory that holds the path's last name, that name, and the directories on the way.
        The root has no name."""
        names = pieces(path)
        if not names:
            return None, None, [self.root]
        way = [self.root]
        for name in names[:-1]:
            node = way[-1].names.get(name)
            if node is None:
                raise Refused(ENOENT)
            if isinstance(node, File):
                raise Refused(ENOTDIR)
            way.append(node)
        return way[-1], names[-1], way

    def put(self, number, data):
        if number not in self.files:
            self.files[number] = File(number, 0o100666, False)
        self.files[number].size = len(data)

    def open(self, path, flags, mode):
        check_form(path)
        parent, name, _ = self.walk(path)
        node = self.root if parent is None else parent.names.get(name)
        if isinstance(node, Directory):
            raise Refused(EISDIR)
        if node is None:
            if not flags & O_CREAT:
                raise Refused(ENOENT)
            number = 0
            while number in self.files:
                number += 1
            node = File(number, 0o100000 + (mode & 0o777), True)
            self.files[number] = parent.names[name] = node
            return number
        if flags & O_CREAT and flags & O_EXCL:
            raise Refused(EEXIST)
        if flags & O_TRUNC:
            node.size = 0
        return node.number

    def close(self, number):
        if number not in self.files:
            raise Refused(EBADF)
        if not self.files[number].named:
            del self.files[number]
        return 0

    def make(self, path, mode):
        check_form(path)
        parent, name, _ = self.walk(path)
        if parent is None or name in parent.names:
            raise Refused(EEXIST)
        parent.names[name] = Directory(0o040000 + (mode & 0o777))
        return 0

    def unlink(self, path, flags):
        if flags not in (0, AT_REMOVEDIR):
            raise Refused(EINVAL)
        check_form(path)
        parent, name, _ = self.walk(path)
        if parent is None:
            raise Refused(EINVAL if flags else EISDIR)
        node = parent.names.get(name)
        if node is None:
            raise Refused(ENOENT)
        if flags:
            if isinstance(node, File):
                raise Refused(ENOTDIR)
            if node.names:
                raise Refused(ENOTEMPTY)
        elif isinstance(node, Directory):
            raise Refused(EISDIR)
        else:
            node.named = False
        del parent.names[name]
        return 0

    def rename(self, lent):
        if "\0" not in lent:
            raise Refused(EINVAL)
        old, new = lent.split("\0", 1)
        check_form(old)
        check_form(new)
        old_parent, old_name, _ = self.walk(old)
        parent, name, way = self.walk(new)
        node = self.root if old_parent is None else old_parent.names.get(old_name)
        if node is None:
            raise Refused(ENOENT)
        if old_parent is None or parent is None:
            raise Refused(EINVAL)
        if parent is old_parent and name == old_name:
            return 0
        if any(directory is node for directory in way):
            raise Refused(EINVAL)
        other = parent.names.get(name)
        if isinstance(node, File) and isinstance(other, Directory):
            raise Refused(EISDIR)
        if isinstance(node, Directory) and isinstance(other, File):
            raise Refused(ENOTDIR)
        if isinstance(node, Directory) and isinstance(other, Directory) and other.names:
            raise Refused(ENOTEMPTY)
        if isinstance(other, File):
            other.named = False
        del old_parent.names[old_name]
        parent.names[name] = node
        return 0

    def stat(self, path, flags, number):
        if flags & AT_EMPTY_PATH and path == "":
            if number not in self.files:
                raise Refused(EBADF)
            node = self.files[number]
        else:
            check_form(path)
            parent, name, _ = self.walk(path)
            node = self.root if parent is None else parent.names.get(name)
            if node is None:
                raise Refused(ENOENT)
        is_file = isinstance(node, File)
        size = node.size if is_file else 0
        return [1, node.number if is_file else 0, node.mode, 1, 0, 0, 0, size, 4096, (size + 511) // 512] + [0] * 9

    def write(self, number, data):
        if number not in self.files:
            raise Refused(EBADF)
        self.files[number].size = max(self.files[number].size, len(data))
        return len(data)

    def cut(self, number, size):
        if number not in self.files:
            raise Refused(EBADF)
        self.files[number].size = size
        return 0


# What is asked, row by row. A path of a row with `behind` stands in the loan behind those bytes.
ROWS = [
    # Paths that are refused before all else, and the ways to a name.
    ("open", "", O_CREAT, 0o644),
    ("open", "/./a", O_CREAT, 0o644),
    ("open", "/a/..", O_CREAT, 0o644),
    ("make", "", 0o755),
    ("make", "..", 0o755),
    ("make", "/d/.", 0o755),
    ("unlink", "", 0),
    ("unlink", "/./x", 0),
    ("unlink", "", AT_REMOVEDIR),
    ("unlink", "..", AT_REMOVEDIR),
    ("rename", "", "/a"),
    ("rename", "/a", ""),
    ("rename", "..", "/a"),
    ("rename", "/a", "/b/."),
    ("rename", "", ".."),
    ("stat", ""),
    ("stat", "/a/../b"),
    ("stat", "/."),
    ("stat", "..."),
    ("open", "/no/a", O_CREAT, 0o644),
    ("make", "no/a", 0o755),
    ("unlink", "/no/a", 0),
    ("unlink", "/no/a", AT_REMOVEDIR),
    ("stat", "/no/a"),
    # Openings.
    ("open", "/a", 0, 0o644),
    ("open", "b", O_TRUNC | O_EXCL, 0o644),
    ("open", "/a", O_CREAT, 0o644),
    ("open", "b", O_CREAT | O_EXCL, 0o7601),
    ("open", "//a/", 0, 0),
    ("open", "a", O_CREAT, 0o600),
    ("open", "/a", O_CREAT | O_EXCL, 0o644),
    ("open", "/b", O_CREAT | O_EXCL | O_TRUNC, 0o644),
    ("open", "/", 0, 0),
    ("open", "///", O_CREAT | O_EXCL, 0o644),
    ("write", 0, "hello"),
    ("stat", "/a"),
    ("stat", "b"),
    ("open", "/a", O_TRUNC, 0),
    ("stat", "/a"),
    ("open", "/a/x", O_CREAT, 0o644),
    ("open", "/a/x/y", 0, 0),
    ("make", "/a/x", 0o755),
    ("unlink", "/b/x", 0),
    ("unlink", "/b/x", AT_REMOVEDIR),
    ("stat", "b/x"),
    # Directories.
    ("make", "/d", 0o755),
    ("make", "/d/e/", 0o1777),
    ("make", "/d", 0o700),
    ("make", "/a", 0o700),
    ("make", "/", 0o700),
    ("open", "/d", O_CREAT | O_EXCL, 0o644),
    ("stat", "/d"),
    ("stat", "/d/e"),
    ("stat", "/"),
    ("open", "/d/e/f", O_CREAT, 0o640),
    # Files that were put under their numbers have no name.
    ("put", 7, "seeded"),
    ("stat_file", 7),
    ("close", 7),
    ("close", 7),
    ("stat_file", 7),
    ("close", 99),
    ("close", -1),
    ("stat_file", 99),
    ("put", 0, "seven b"),
    ("stat", "/a"),
    ("close", 0),
    ("stat_also", "/b", 0),
    ("stat_also", "/c", 0),
    # Names are taken away; a file stays under its number until it is closed.
    ("unlink", "/d", 0),
    ("unlink", "/d/e", 0),
    ("unlink", "/", 0),
    ("unlink", "/c", 0),
    ("unlink", "/d/f", 0),
    ("unlink", "/a", 3),
    ("unlink", "", 0x1200),
    ("unlink", "/a", 0),
    ("stat", "/a"),
    ("stat_file", 0),
    ("write", 0, "more bytes"),
    ("open", "/a", O_CREAT, 0o666),
    ("stat_file", 0),
    ("close", 0),
    ("write", 0, "x"),
    ("open", "/c", O_CREAT, 0o444),
    # Directories are removed.
    ("unlink", "/", AT_REMOVEDIR),
    ("unlink", "//", AT_REMOVEDIR),
    ("unlink", "/x", AT_REMOVEDIR),
    ("unlink", "/d/x", AT_REMOVEDIR),
    ("unlink", "/a", AT_REMOVEDIR),
    ("unlink", "/d/e/f", AT_REMOVEDIR),
    ("unlink", "/d", AT_REMOVEDIR),
    ("unlink", "/d/e", AT_REMOVEDIR),
    ("make", "/empty", 0o711),
    ("unlink", "/empty", AT_REMOVEDIR),
    ("stat", "/empty"),
    # Renames.
    ("one_path", "/a"),
    ("one_path", ""),
    ("rename", "/x", "/y"),
    ("rename", "/d/x", "/"),
    ("rename", "/x/y", "/a"),
    ("rename", "/a/y", "/b"),
    ("rename", "/a", "/x/y"),
    ("rename", "/a", "/b/y"),
    ("rename", "/a", "/a/y"),
    ("rename", "/", "/x/y"),
    ("rename", "/", "/a"),
    ("rename", "/", "/"),
    ("rename", "/a", "/"),
    ("rename", "/d", "//"),
    ("rename", "/a", "a"),
    ("rename", "/d/e", "d//e/"),
    ("rename", "/d", "/d/g"),
    ("rename", "/d", "/d/e/g"),
    ("rename", "/a", "/d"),
    ("rename", "/b", "/d/e"),
    ("rename", "/d", "/a"),
    ("rename", "/d/e", "/b"),
    ("make", "/g", 0o700),
    ("rename", "/g", "/d"),
    ("rename", "/g", "/d/e"),
    ("rename", "/d/e", "/g"),
    ("stat", "/g/f"),
    ("stat", "/d/e"),
    ("rename", "/a", "/b"),
    ("stat_file", 1),
    ("stat", "/b"),
    ("close", 1),
    ("stat_file", 1),
    ("rename", "/g", "/d/h"),
    ("stat", "/d/h/f"),
    ("rename", "/d/h/f", "/f"),
    ("rename", "/f", "/x", "/b"),
    ("stat", "/f"),
    ("unlink", "/d/h", AT_REMOVEDIR),
    ("unlink", "/d", AT_REMOVEDIR),
    # A loan's path begins at its place, and a record comes back from 0.
    ("stat_behind", "skipped", "/f"),
    ("stat_behind", "/f", "/no"),
    ("stat_behind", "/f", ""),
    ("cut", 2, 513),
    ("stat", "/f"),
    ("cut", 2, 1024),
    ("stat_also", "f", 99),
    # Without the loan that it needs; and with a selected buffer, which isn't served.
    ("unlent", OPENAT),
    ("unlent", STATX),
    ("unlent", RENAMEAT),
    ("unlent", UNLINKAT),
    ("unlent", MKDIRAT),
    ("unlent", CLOSE),
    ("selects", MKDIRAT),
    ("selects", CLOSE),
    ("selects", STATX),
]


def shown(path):
    return f"'{path}'"


def asked(row):
    """What the row asks, in words, and how the tree is asked."""
    kind, rest = row[0], row[1:]
    if kind == "put":
        return f"put {rest[0]} {shown(rest[1])}", None
    if kind == "open":
        return f"open {shown(rest[0])} {rest[1]:o} {rest[2]:o}", lambda tree: tree.open(*rest)
    if kind == "close":
        return f"close {rest[0]}", lambda tree: tree.close(rest[0] % 2**32)
    if kind == "make":
        return f"make {shown(rest[0])} {rest[1]:o}", lambda tree: tree.make(*rest)
    if kind == "unlink":
        return f"unlink {shown(rest[0])} {rest[1]:x}", lambda tree: tree.unlink(*rest)
    if kind == "rename":
        return "rename " + " ".join(map(shown, rest)), lambda tree: tree.rename("\0".join(rest))
    if kind == "one_path":
        return f"rename {shown(rest[0])}", lambda tree: tree.rename(rest[0])
    if kind == "stat":
        return f"stat {shown(rest[0])}", lambda tree: tree.stat(rest[0], 0, 0)
    if kind == "stat_file":
        return f"stat {rest[0]}", lambda tree: tree.stat("", AT_EMPTY_PATH, rest[0])
    if kind == "stat_also":
        return f"stat {shown(rest[0])} {rest[1]}", lambda tree: tree.stat(rest[0], AT_EMPTY_PATH, rest[1])
    if kind == "stat_behind":
        return f"stat {shown(rest[1])} behind {shown(rest[0])}", lambda tree: tree.stat(rest[1], 0, 0)
    if kind == "write":
        return f"write {rest[0]} {shown(rest[1])}", lambda tree: tree.write(*rest)
    if kind == "cut":
        return f"cut {rest[0]} {rest[1]}", lambda tree: tree.cut(*rest)
    if kind == "unlent":
        return f"code {rest[0]} without a loan", lambda tree: unlent(tree, rest[0])
    return f"code {rest[0]} with a selected buffer", lambda tree: selects()


def unlent(tree, code):
    if code in NEEDS_LOAN:
        raise Refused(EINVAL)
    return tree.close(0)


def selects():
    raise Refused(EOPNOTSUPP)


WITHOUT_LOAN = {"close", "cut", "unlent"}


def table():
    """All lines."""
    tree = Tree()
    lines = []
    for row in ROWS:
        words, ask = asked(row)
        if ask is None:
            tree.put(row[1], row[2])
            lines.append(words)
            continue
        try:
            answer = ask(tree)
        except Refused as refused:
            answer = refused.result
        back = "none" if row[0] in WITHOUT_LOAN else "same"
        if isinstance(answer, list):
            answer, back = 0, " ".join(map(str, answer))
        lines.append(f"{words}: {answer} {back}")
    return "".join(f"{line}\n" for line in lines)


def main(words):
    if words not in ([], ["--check"]):
        sys.exit(__doc__)
    if not words:
        sys.stdout.write(table())
        return
    top = os.path.dirname(os.path.dirname(os.path.abspath(__file__)))
    with open(os.path.join(top, "crates", "tree_table", "stdout"), encoding="ascii") as file:
        kept = file.read()
    if kept != table():
        sys.exit("crates/tree_table/stdout differs from the table")
    print(f"{len(ROWS)} rows: as the table says")


if __name__ == "__main__":
    main(sys.argv[1:])
