"""Permissions that are taken away while a run has the folder."""
import os, stat

from hostile import Harm

NOBODY = {"user": 65_534, "group": 65_534, "extra_groups": []}
UNWRITTEN, UNREAD, CLOSED = 0o555, 0o333, 0o000


def user():
    """Whom permissions bind: root isn't bound."""
    return NOBODY if os.geteuid() == 0 else {}


def ends_of(course, at, name, mode):
    """How the line may end: first the entry is written, then files come and go."""
    comes, moved = course.comes(at), course.moves_in(at)
    below = {inner for inner in moved if inner == name or inner.startswith(name + "/") or not name}
    if mode == UNREAD:
        if name not in moved:
            return {"ok"}  # no name in it changes, so it isn't synced
        if name == "journal":
            return {"ok"} if moved == {"journal"} else {"Unsettled"}
        return {"Fault"} if not name and "journal" in comes else {"ok", "Unsettled"}
    if name in ("", "journal"):
        return {"Fault"}
    return {"Unsettled"} if name in moved or mode == CLOSED and below else {"ok"}


def of_folder(course, at, name, mode):
    before = []

    def do(folder):
        before.append(stat.S_IMODE(os.stat(os.path.join(folder, name)).st_mode))
        os.chmod(os.path.join(folder, name), mode)

    def mend(folder):
        os.chmod(os.path.join(folder, name), before.pop())

    def refusal(folder, end):
        if mode == UNWRITTEN:
            return "Fault" if end == "Unsettled" else None
        return "Fault"

    unsynced = mode == UNREAD and name in course.moves_in(at)
    return Harm(f"mode {mode:o} of the folder {name or 'itself'}", do, mend, ends_of(course, at, name, mode), refusal,
                lasts=lambda end: unsynced, user=user())


def of_file(name):
    def do(folder):
        os.chmod(os.path.join(folder, name), 0)

    def mend(folder):
        os.chmod(os.path.join(folder, name), 0o644)

    def refusal(folder, end):
        return "Fault"

    return Harm(f"mode 0 of the file {name}", do, mend, {"ok"}, refusal, user=user())


def harms(course):
    """Each folder at the top and each in which a line changes a name, in each of three modes; and a file of each sort."""
    for at in course.events():
        stands, after = course.stands[at], course.stands[at + 1]
        tops = {name for name, what in stands.items() if what == ("folder",) and "/" not in name}
        for name in sorted({"", *tops, *course.moves_in(at) & {"", *stands}}):
            for mode in (UNWRITTEN, UNREAD, CLOSED):
                yield at, of_folder(course, at, name, mode)
        stay = sorted(name for name in stands if stands[name][0] == "file" and name in after)
        for sort in ("config", "lock", "data/", "journal/", "trash/"):
            for name in [name for name in stay if name.startswith(sort)][:1]:
                yield at, of_file(name)
