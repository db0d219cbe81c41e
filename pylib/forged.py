"""Trees whose names forge lines, made by hand, and answers to a restore that no tree of honest names gives."""
from layout import DATA, TREE, add_line, added, file_node, folder_node, index, listed, name_of, pack, snapshot, tree

ONE = b"restored 1 skipped 0\n"
TWO = b"restored 2 skipped 0\n"
# Each with a piece of what is said of it.
ANSWERS = [
    (b"", "doesn't end as that to a restore"),
    (b"restored 0 skipped 0", "doesn't end as that to a restore"),
    (b"no NoSnapshot\n", "doesn't end as that to a restore"),
    (b"/a 61\n", "doesn't end as that to a restore"),
    (b"/a 61\nrestored 01 skipped 0\n", "doesn't end as that to a restore"),
    (b"/a 61\nrestored 1 skipped\n", "doesn't end as that to a restore"),
    (b"/a 61\nrestored 1 skipped 0\r\n", "doesn't end as that to a restore"),
    (b"/a 61\nrestored " + b"9" * 5_000 + b" skipped 0\n", "doesn't end as that to a restore"),
    (b"/a 61\n" + ONE + b"\n", "doesn't end as that to a restore"),
    (b"/a 61\n" + ONE + b"/b 62", "doesn't end as that to a restore"),
    (ONE, "lines 0, files 1"),
    (b"/a 61\n" + TWO, "lines 1, files 2"),
    (b"/a 61\n/b 62\n" + ONE, "lines 2, files 1"),
    (b"/a 61\n" + ONE + b"restored 0 skipped 0\n", "lines 2, files 0"),
    (b"/a 61\n" + ONE + b"/b 62\n" + ONE, "lines 3, files 1"),
    (b"ok 1 at 1 +4 -0 *0 ~0\n/a 61\n" + ONE, "lines 2, files 1"),
    (b"ok 1 at 1 +4 -0 *0 ~0\n/a 61\n" + TWO, "isn't absolute"),
    (b"\n" + ONE, "no line of a file"),
    (b"/a61\n" + ONE, "no line of a file"),
    (b"/a 6\n" + ONE, "aren't hex"),
    (b"/a 6A\n" + ONE, "aren't hex"),
    (b"/a 6g\n" + ONE, "aren't hex"),
    (b"/a \n" + ONE, "aren't hex"),
    (b"/a --\n" + ONE, "aren't hex"),
    (b"/a 61\r\n" + ONE, "aren't hex"),
    (b"a 61\n" + ONE, "isn't absolute"),
    (b" 61\n" + ONE, "isn't absolute"),
    (b"./a 61\n" + ONE, "isn't absolute"),
    (b"~/a 61\n" + ONE, "isn't absolute"),
    (b"/ 61\n" + ONE, "a name that is empty"),
    (b"/a/ 61\n" + ONE, "a name that is empty"),
    (b"//a 61\n" + ONE, "a name that is empty"),
    (b"/a//b 61\n" + ONE, "a name that is empty"),
    (b"/../a 61\n" + ONE, "a name that is empty, `.` or `..`"),
    (b"/a/.. 61\n" + ONE, "a name that is empty, `.` or `..`"),
    (b"/a/../../b 61\n" + ONE, "a name that is empty, `.` or `..`"),
    (b"/./a 61\n" + ONE, "a name that is empty, `.` or `..`"),
    (b"/a/. 61\n" + ONE, "a name that is empty, `.` or `..`"),
    (b"/a" * 257 + b" 61\n" + ONE, "more than 256 names"),
    (b"/\xff 61\n" + ONE, "isn't UTF-8"),
    (b"/\xed\xa0\x80 61\n" + ONE, "isn't UTF-8"),
    (b"/a 61\n/a 62\n" + TWO, "stands twice"),
    (b"/b 61\n/a 62\n" + TWO, "aren't in order"),
    (b"/a 61\n/a/b 62\n" + TWO, "goes through a file"),
    (b"/a 61\n/a!b 63\n/a/b/c 62\nrestored 3 skipped 0\n", "goes through a file"),
    (b"/a/b 61\n/a/" + b"n" * 256 + b" 62\n" + TWO, "File name too long"),
]
# Each byte below 32 but the line's end, the one behind the printed ones, and the characters that terminals obey as well.
ANSWERS += [(b"/a" + character.encode() + b"b 61\n" + ONE, "a control character")
            for character in map(chr, [*range(10), *range(11, 32), 127, *range(128, 160)])]
# Each is what stands below the root, a folder as a dictionary; the answer, by hand; and a piece of what is said of it.
TREES = [
    ({"a 61\n": {"x": b"b"}}, b"/a 61\n/x 62\n" + ONE, "lines 2, files 1"),
    ({"a": b"a", "b 62\n": {"a 63\n": {"x": b"b"}}}, b"/a 61\n/b 62\n/a 63\n/x 62\n" + TWO, "lines 4, files 2"),
    ({"a 61\nrestored 1 skipped 0\nok 7 at 7 +1 -0 *0 ~0\naudit 0\n": {"x": b"b"}},
     b"/a 61\n" + ONE + b"ok 7 at 7 +1 -0 *0 ~0\naudit 0\n/x 62\n" + ONE, "lines 5, files 1"),
    ({"a .. 61\n": {".. 61\n": {"x": b"b"}}}, b"/a .. 61\n/.. 61\n/x 62\n" + ONE, "lines 3, files 1"),
    ({"\n": b"b"}, b"/\n 62\n" + ONE, "lines 2, files 1"),
    ({"a\r": b"b"}, b"/a\r 62\n" + ONE, "a control character"),
    ({"\x1b]0;done\x07\x1b[2J": {"x": b"b"}}, b"/\x1b]0;done\x07\x1b[2J/x 62\n" + ONE, "a control character"),
    ({"a\x08\x7f": b"b"}, b"/a\x08\x7f 62\n" + ONE, "a control character"),
    ({"\x9b2J": b"b"}, b"/\xc2\x9b2J 62\n" + ONE, "a control character"),
]


def blobs_of(inner):
    """The blobs of what stands in a folder, its own tree the last."""
    blobs, nodes = [], []
    for name, what in inner.items():
        if isinstance(what, dict):
            blobs += blobs_of(what)
            nodes.append(folder_node(name, blobs[-1][1]))
        else:
            blobs.append((DATA, what))
            nodes.append(file_node(name, [what]))
    return [*blobs, (TREE, tree(nodes))]


def patterns_of(root):
    """Patterns that take all below the root."""
    return " ".join("".join(letter if letter.isalnum() else "?" for letter in name) for name in root)


def lines_of(root):
    """The lines that add a snapshot of this tree, file by file, and their answers."""
    blobs = blobs_of(root)
    packs = [pack(blobs), index([listed(name_of(pack(blobs)), blobs)])]
    files = [("pack", packs[0]), ("index", packs[1]), ("snapshot", snapshot("2024-01-01T10:00:00Z", blobs[-1][1]))]
    return "".join(add_line(*file) for file in files), "".join(added(number) for number in range(1, 4))
