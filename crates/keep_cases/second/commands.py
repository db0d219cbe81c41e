"""What each command's change is."""
import re

from changes import NewBlobs, add_or_record, add_snapshots, reuse
from labels import plan_forget, plan_rewrite, plan_tag
from repository import KINDS, BadLine, Change, Refused, document, index_packs, listed, named, pack_entries
from trees import grown, reached, stored, tree_of

NOW = 1000


def plan_backup(book, words):
    state, change = book.state, Change()
    host, time, files = words[0], words[1], [word.rsplit("=", 1) for word in words[2:]]
    check_paths([path.split("/") for path, _ in files])
    contents = [(path, b"" if digits == "-" else bytes.fromhex(digits)) for path, digits in files]
    if not re.fullmatch(r"\d{4}-\d\d-\d\dT\d\d:\d\d:\d\dZ", time):
        raise Refused("BadTime")
    state.check()
    new = NewBlobs(state, change)
    root = stored(grown(contents), new.offer)
    new.add_packs()
    value = {"hostname": host, "paths": ["/"], "time": time, "tree": root, "username": "keep"}
    add_snapshots(state, change, [document(value)])
    return change


def check_paths(paths):
    if any(len(parts) < 2 or parts[0] or set(parts[1:]) & {"", ".", ".."} for parts in paths):
        raise Refused("BadPath")
    for at, one in enumerate(paths):
        if any(other[:len(one)] == one for other in paths[:at] + paths[at + 1:]):
            raise Refused("SamePathTwice")


def plan_mark(book, words):
    state, change = book.state, Change()
    state.check()
    used = sorted({blob for name, _ in state.of("snapshot") for blob in reached(state, tree_of(state, name))})
    held = {state.places(blob)[0][0] for blob in used}
    change.sets = {name[1]: NOW for name, _ in state.of("pack") if name[1] not in state.marks and name[1] not in held}
    for blob in used:
        reuse(state, change, blob)
    change.absent = book.known() - set(state.files)
    change.strict = True
    return change


def plan_sweep(book, words):
    state, change = book.state, Change()
    state.check()
    wait = int(words[0]) if words else 0
    swept = {pack: moment for pack, moment in state.marks.items() if moment + wait <= NOW}
    change.clears = swept
    change.drops = {(0, pack): state.files[0, pack] for pack in swept if (0, pack) in state.files}
    left = []
    for name, content in state.of("index"):
        if any(pack["id"] in swept for pack in index_packs(content)):
            change.drops[name] = content
            left += [pack for pack in index_packs(content) if pack["id"] not in swept]
    if left:
        index = document({"packs": joined(left)})
        add_or_record(state, change, named("index", index), index)
    return change


def joined(packs):
    """Packs in first-seen order, the blobs of one pack merged in first-seen order, none twice."""
    blobs = {}
    for pack in packs:
        seen = blobs.setdefault(pack["id"], [])
        seen += [blob for blob in pack["blobs"] if blob not in seen]
    return [{"blobs": seen, "id": pack} for pack, seen in blobs.items()]


def plan_repair(book, words):
    state, change = book.state, Change()
    packs = [listed(name[1], pack_entries(content)) for name, content in state.of("pack")]
    index = document({"packs": packs})
    if packs:
        add_or_record(state, change, named("index", index), index)
    for name, content in state.of("index"):
        if not packs or name != named("index", index):
            change.drops[name] = content
            change.absent |= {(0, pack["id"]) for pack in index_packs(content) if (0, pack["id"]) not in state.files}
    return change


def plan_add(book, words):
    change, content = Change(), b"" if words[1] == "-" else bytes.fromhex(words[1])
    change.adds[named(words[0], content)] = content
    return change


def plan_drop(book, words):
    change, name = Change(), target(book, words[0], words[1])
    change.drops[name] = book.state.files.get(name, b"")
    return change


PLANS = {"add": plan_add, "drop": plan_drop, "backup": plan_backup, "mark": plan_mark, "sweep": plan_sweep,
         "repair": plan_repair, "tag": plan_tag, "forget": plan_forget, "rewrite": plan_rewrite}


def target(book, kind, text):
    """The file that `ID` or `@N` means."""
    if not text.startswith("@"):
        return KINDS.index(kind), text
    change = book.changes.get(int(text[1:]), Change())
    names = [name for name in change.adds if name[0] == KINDS.index(kind)]
    if not names:
        raise BadLine
    return min(names)
