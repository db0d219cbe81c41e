"""A shelf that is a dict, and the moves that an event makes there."""
from repository import KINDS, live, path_name, trash


class Fault(Exception):
    """A call of the shelf failed."""


def entry(at):
    return f"journal/{at}"


def order(path):
    """Live files come first, then the trash, then entries."""
    parts = path.split("/")
    if parts[0] == "journal":
        return 2, int(parts[1])
    if parts[0] == "trash":
        return 1, int(parts[1]), KINDS.index(parts[2]), parts[3]
    return 0, *path_name(path)


class Shelf:
    """Bytes by path. A call fails where the plan says so. It is noted, and what it left where it didn't fail."""

    def __init__(self, content, plan):
        self.content, self.plan, self.count, self.calls, self.left = dict(content), plan, 0, [], []

    def call(self, verb, *paths, content=None):
        self.count += 1
        kind, number = self.plan
        fails = self.count == number if kind == "once" else self.count >= number
        self.calls.append(" ".join([verb, *paths]) + (" fails" if fails else ""))
        if fails:
            raise Fault
        make(self.content, (verb, paths, content))
        self.left.append(dict(self.content))


def make(content, move):
    """What a call makes of what stands there."""
    verb, paths, held = move
    if verb == "write":
        content[paths[0]] = held
    if verb == "shift":
        content[paths[1]] = content.pop(paths[0])
    if verb == "erase":
        del content[paths[0]]


def remains(content, move):
    """Whether a move is still to be made."""
    verb, paths, _ = move
    if verb == "shift":
        return paths[0] in content and paths[1] not in content
    return (paths[0] in content) == (verb == "erase")


def moves(kind, number, change):
    """The calls that follow the entry of a commit, an undo or a redo."""
    adds, drops = sorted(change.adds), sorted(change.drops)
    out = {name: ("shift", (live(name), trash(number, name)), None) for name in adds + drops}
    back = {name: ("shift", (trash(number, name), live(name)), None) for name in adds + drops}
    if kind == "undo":
        return [out[name] for name in adds] + [back[name] for name in drops]
    comes = [back[name] if kind == "redo" else ("write", (live(name),), change.adds[name]) for name in adds]
    return comes + [out[name] for name in drops]
