"""Repositories: names, the files that backups make, the state of files and marks, and changes of it."""
import hashlib, json, struct

KINDS = ("pack", "index", "snapshot")
FOLDERS = {"index": "index", "snapshot": "snapshots"}


class Refused(Exception):
    """A line is answered by `no` and these words."""


class BadLine(Exception):
    """A line is answered as a bad one."""


def sha(content):
    return hashlib.sha256(content).hexdigest()


def document(value):
    return json.dumps(value, sort_keys=True, separators=(",", ":"), ensure_ascii=False).encode()


def named(kind, content):
    """The name of a file: its kind by rank, and the digits of its hash."""
    return KINDS.index(kind), sha(content)


def word(name):
    return f"{KINDS[name[0]]} {name[1]}"


def live(name):
    kind, digits = KINDS[name[0]], name[1]
    return f"data/{digits[:2]}/{digits}" if kind == "pack" else f"{FOLDERS[kind]}/{digits}"


def path_name(path):
    """The name of the file that lives at this path."""
    folder, digits = path.split("/")[0], path.split("/")[-1]
    return ("data", "index", "snapshots").index(folder), digits


def trash(number, name):
    return f"trash/{number}/{KINDS[name[0]]}/{name[1]}"


def make_pack(blobs):
    header = b"".join(struct.pack("<BI", kind, len(blob)) + hashlib.sha256(blob).digest() for kind, blob in blobs)
    return b"".join(blob for _, blob in blobs) + header + struct.pack("<I", len(header))


def pack_entries(content):
    """Each blob as type, name, offset and length."""
    size = struct.unpack("<I", content[-4:])[0]
    header, offset, found = content[-4 - size:-4], 0, []
    for at in range(0, size, 37):
        kind, length = struct.unpack("<BI", header[at:at + 5])
        found.append((kind, header[at + 5:at + 37].hex(), offset, length))
        offset += length
    return found


def listed(name, entries):
    blobs = [{"id": blob, "length": length, "offset": offset, "type": ("data", "tree")[kind]}
             for kind, blob, offset, length in entries]
    return {"blobs": blobs, "id": name}


def is_document(content):
    try:
        json.loads(content)
    except ValueError:
        return False
    return True


def index_packs(content):
    return json.loads(content)["packs"] if is_document(content) else []


class State:
    """The files and marks of a repository."""

    def __init__(self, files=(), marks=()):
        self.files, self.marks = dict(files), dict(marks)

    def of(self, kind):
        rank = KINDS.index(kind)
        return sorted((name, content) for name, content in self.files.items() if name[0] == rank)

    def places(self, blob):
        """Where the blob is, in unmarked packs: pack, offset, length and the index that lists it, the least first."""
        found = []
        for index, content in self.of("index"):
            for pack in index_packs(content):
                name = (0, pack["id"])
                if name not in self.files or pack["id"] in self.marks:
                    continue
                for kind, digits, offset, length in pack_entries(self.files[name]):
                    spot = {"id": digits, "length": length, "offset": offset, "type": ("data", "tree")[kind]}
                    if (kind, digits) == blob and spot in pack["blobs"]:
                        found.append((pack["id"], offset, length, index))
        return sorted(found)

    def content(self, blob):
        if not self.places(blob):
            raise Refused(f"MissingBlob {blob[1]}")
        pack, offset, length, _ = self.places(blob)[0]
        return self.files[0, pack][offset:offset + length]

    def check(self):
        """Refuses the first index or snapshot that is no document."""
        for name, content in self.of("index") + self.of("snapshot"):
            if not is_document(content):
                raise Refused(f"NotJson {word(name)}")


class Change:
    """Lists that are written, and conditions that are only asked."""

    def __init__(self):
        self.adds, self.drops, self.sets, self.clears = {}, {}, {}, {}
        self.present, self.absent, self.marked, self.unmarked = set(), set(), set(), set()
        self.strict = False

    def written(self):
        return {(0, name) for name in [*self.adds, *self.drops]} | {(1, pack) for pack in [*self.sets, *self.clears]}

    def touched(self):
        return (self.written() | {(0, name) for name in self.present | self.absent}
                | {(1, pack) for pack in self.marked | self.unmarked})

    def unmet(self, state):
        """The least facet that isn't as asked, if there is one."""
        wrong = [(0, name) for name in self.adds if name in state.files]
        wrong += [(0, name) for name, content in self.drops.items() if state.files.get(name) != content]
        wrong += [(1, pack) for pack in self.sets if pack in state.marks]
        wrong += [(1, pack) for pack, moment in self.clears.items() if state.marks.get(pack) != moment]
        wrong += [(0, name) for name in self.present if name not in state.files]
        wrong += [(0, name) for name in self.absent if name in state.files]
        wrong += [(1, pack) for pack in self.marked if pack not in state.marks]
        wrong += [(1, pack) for pack in self.unmarked if pack in state.marks]
        return min(wrong, default=None)

    def made(self, state):
        result = State(state.files, state.marks)
        result.files.update(self.adds)
        result.marks.update(self.sets)
        for name in self.drops:
            del result.files[name]
        for pack in self.clears:
            del result.marks[pack]
        return result
