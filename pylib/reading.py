"""What a folder says, told from its files in another way than the program does: by docs/FORMATS.md,
docs/DESIGN.md and the definitions of keep_reading."""
import hashlib, json, os, stat
from dataclasses import dataclass

from event_text import KINDS, MOST, event_in, is_id, order

TOPS = {"data": "pack", "index": "index", "snapshots": "snapshot"}


class Refused(Exception):
    """The folder isn't opened, for this cause."""


@dataclass
class State:
    """Bytes by kind and id, moments of marks by pack."""
    files: dict
    marks: dict

    def made(self, change):
        """With this change, or None where it isn't met."""
        asked = [self.files.get(file) == content for file, content in change["drops"].items()]
        asked += [file not in self.files for file in [*change["adds"], *change["absent"]]]
        asked += [file in self.files for file in change["present"]]
        asked += [self.marks.get(pack) == moment for pack, moment in change["clears"].items()]
        asked += [pack not in self.marks for pack in [*change["sets"], *change["unmarked"]]]
        asked += [pack in self.marks for pack in change["marked"]]
        if not all(asked):
            return None
        files, marks = self.files | change["adds"], self.marks | change["sets"]
        return State({file: files[file] for file in files if file not in change["drops"]},
                     {pack: marks[pack] for pack in marks if pack not in change["clears"]})

    def taken_back(self, change):
        files = self.files | change["drops"]
        return State({file: files[file] for file in files if file not in change["adds"]}, self.marks)


@dataclass
class Reading:
    """The state, the events that are told, by number, and what stands under each key once all moves are made."""
    live: State
    events: list
    keys: dict
    last_change: int
    length: int

    def list(self):
        lines = []
        for kind, name in sorted(self.live.files, key=order):
            marked = " marked" if kind == "pack" and name in self.live.marks else ""
            lines.append(f"{kind} {name} {len(self.live.files[kind, name])}{marked}\n")
        return "".join(lines) + f"files {len(self.live.files)} marks {len(self.live.marks)}\n"

    def history(self):
        return "".join(f"{at} {event['event']} {event['number']}\n" for at, event in self.events)

    def wrong_names(self):
        """The files whose bytes have another SHA-256 than their name."""
        return [f"wrong-name {kind} {name}\n" for kind, name in sorted(self.live.files, key=order)
                if hashlib.sha256(self.live.files[kind, name]).hexdigest() != name]


def is_number(text):
    return text.isascii() and text.isdigit() and str(int(text)) == text and int(text) < MOST


def key_of(path):
    """The key of this path, if it is one."""
    match path.split("/"):
        case ["data", front, name] if is_id(name) and name[:2] == front:
            return "live", ("pack", name)
        case [("index" | "snapshots") as top, name] if is_id(name):
            return "live", (TOPS[top], name)
        case ["trash", number, kind, name] if is_number(number) and kind in KINDS and is_id(name):
            return "trash", (int(number), (kind, name))
        case ["journal", number] if is_number(number):
            return "entry", int(number)
    return None


def holds_keys(path):
    match path.split("/"):
        case [("data" | "index" | "snapshots" | "trash" | "journal")]:
            return True
        case ["data", front]:
            return len(front) == 2 and set(front) <= set("0123456789abcdef")
        case ["trash", number]:
            return is_number(number)
        case ["trash", number, kind]:
            return is_number(number) and kind in KINDS
    return False


def file_bytes(path):
    if not stat.S_ISREG(os.lstat(path).st_mode):
        raise OSError("no file")
    with open(path, "rb") as file:
        return file.read()


def is_config(content):
    try:
        value = json.loads(content.decode())
    except ValueError:
        return False
    return (isinstance(value, dict) and type(value.get("version")) is int and value["version"] == 1
            and is_id(value.get("id")) and isinstance(value.get("chunker_polynomial"), str))


def keys_in(folder):
    """The bytes under each key."""
    keys = {}
    folders = [name for name in os.listdir(folder) if holds_keys(name)]
    while folders:
        inner = folders.pop()
        for name in os.listdir(os.path.join(folder, inner)):
            path = f"{inner}/{name}"
            whole = os.path.join(folder, path)
            if key_of(path):
                keys[key_of(path)] = file_bytes(whole)
            elif holds_keys(path):
                if not stat.S_ISDIR(os.lstat(whole).st_mode):
                    raise OSError("no folder")
                folders.append(path)
    return keys


def fits(event, last_change, in_force, final):
    """Whether the event can come next where these changes are in force."""
    number = event["number"]
    if event["event"] == "commit":
        return number == last_change + 1
    if event["event"] == "empty":
        return True
    return final < number <= last_change and (number in in_force) == (event["event"] == "undo")


def told_of(leaves):
    """The events that still tell something, which of their changes are in force, and the final number."""
    final = max([0] + [event["number"] for at, event in leaves if at > 0 and event and event["event"] == "empty"][-1:])
    told, changes, in_force, top = [], {}, set(), 0
    for at, event in leaves:
        if at == 0 or not event or event["number"] <= top:
            raise Refused(f"BadEntry {at}")
        number = event["number"]
        if event["event"] == "empty":
            top = number
        if number < final or (number == final and event["event"] != "empty"):
            continue
        if not fits(event, final + len(changes), in_force, final):
            raise Refused(f"BadEntry {at}")
        told.append((at, event))
        if event["event"] == "commit":
            changes[number] = event
        if event["event"] in ("commit", "redo"):
            in_force.add(number)
        in_force -= {number} if event["event"] == "undo" else set()
    return told, changes, in_force, final


def finish(keys, told, changes):
    """Makes those of the last event's moves that are left."""
    event = told[-1][1]
    number = event["number"]
    if event["event"] == "empty":
        for key in [key for key in keys if key[0] == "trash" and key[1][0] <= number]:
            del keys[key]
        return
    change, undoes = changes[number], event["event"] == "undo"
    for file in change["adds"]:
        live, trash = ("live", file), ("trash", (number, file))
        if event["event"] == "commit":
            keys.setdefault(live, change["adds"][file])
        else:
            shift(keys, *((live, trash) if undoes else (trash, live)))
    for file in change["drops"]:
        live, trash = ("live", file), ("trash", (number, file))
        shift(keys, *((trash, live) if undoes else (live, trash)))


def shift(keys, source, target):
    if source in keys and target not in keys:
        keys[target] = keys.pop(source)


def read(folder):
    """What the folder says; Refused where it says nothing."""
    try:
        config = file_bytes(os.path.join(folder, "config"))
    except OSError:
        raise Refused("BadConfig")
    if not is_config(config):
        raise Refused("BadConfig")
    try:
        if os.path.lexists(os.path.join(folder, "lock")):
            file_bytes(os.path.join(folder, "lock"))
        keys = keys_in(folder)
    except OSError:
        raise Refused("Fault")
    return reading_of(keys)


def reading_of(keys):
    leaves = [(key[1], event_in(keys[key])) for key in sorted(key for key in keys if key[0] == "entry")]
    told, changes, in_force, final = told_of(leaves)
    length = leaves[-1][0] if leaves else 0
    if told:
        finish(keys, told, changes)
    files = {key[1]: content for key, content in keys.items() if key[0] == "live"}
    trash = {key[1]: content for key, content in keys.items() if key[0] == "trash"}
    marks = next((event["marks"] for _, event in told if event["event"] == "empty"), {})
    state, kept = State(files, marks), sorted(in_force)
    for number in reversed(kept):
        state = state.taken_back(changes[number])
    for number in kept:
        state = state and state.made(changes[number])
    out = {(number, file): content for number, change in changes.items()
           for file, content in change["drops" if number in in_force else "adds"].items()}
    if not state or state.files != files or trash != out:
        raise Refused(f"BadEntry {length}")
    if told and told[-1][1]["event"] == "empty":
        at = {at for at, _ in told}
        keys = {key: content for key, content in keys.items() if key[0] != "entry" or key[1] in at}
    return Reading(state, told, keys, final + len(changes), length)
