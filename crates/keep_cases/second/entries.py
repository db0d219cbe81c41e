"""The texts of a journal's entries. One is read where it is just what is written of the event that it tells."""
import json, re

from repository import KINDS, Change, document, sha

LONGEST = 65_536
NONE = None, 0, None


def marked(marks, form):
    return [pack if form == 1 else {"id": pack, "moment": marks[pack]} for pack in sorted(marks)]


def filed(names):
    return [f"{KINDS[kind]}/{digits}" for kind, digits in sorted(names)]


def stored(files):
    return [{"bytes": files[name].hex(), "file": filed([name])[0]} for name in sorted(files)]


def written(kind, number, told=None, form=2):
    """The entry of an event. A commit tells its change, an emptying the marks that it leaves."""
    value = {"event": kind, "form": form, "number": number}
    if kind == "commit":
        value |= {"adds": stored(told.adds), "drops": stored(told.drops), "sets": marked(told.sets, form),
                  "clears": marked(told.clears, form), "present": filed(told.present), "absent": filed(told.absent),
                  "marked": sorted(told.marked), "unmarked": sorted(told.unmarked), "strict": told.strict}
    if kind == "empty":
        value["marks"] = marked(told, form)
    return document(value)


def digits_of(text):
    if not re.fullmatch("[0-9a-f]{64}", text):
        raise ValueError
    return text


def name_of(text):
    kind, _, digits = text.partition("/")
    return KINDS.index(kind), digits_of(digits)


def whole(value, low, high):
    if type(value) is not int or not low <= value < high:
        raise ValueError
    return value


def marks_of(values, form):
    if form == 1:
        return {digits_of(pack): 0 for pack in values}
    return {digits_of(mark["id"]): whole(mark["moment"], -2**63, 2**63) for mark in values}


def change_of(value, form):
    change = Change()
    change.adds = {name_of(file["file"]): bytes.fromhex(file["bytes"]) for file in value["adds"]}
    change.drops = {name_of(file["file"]): bytes.fromhex(file["bytes"]) for file in value["drops"]}
    change.sets, change.clears = marks_of(value["sets"], form), marks_of(value["clears"], form)
    change.present, change.absent = set(map(name_of, value["present"])), set(map(name_of, value["absent"]))
    change.marked, change.unmarked = set(map(digits_of, value["marked"])), set(map(digits_of, value["unmarked"]))
    change.strict = value["strict"]
    lists = [change.adds, change.drops, change.sets, change.clears, change.present, change.absent, change.marked,
             change.unmarked]
    if not change.written() or len(change.touched()) != sum(map(len, lists)) or len(change.touched()) > LONGEST:
        raise ValueError
    if type(change.strict) is not bool or any(sha(content) != name[1] for name, content in change.adds.items()):
        raise ValueError
    return change


def read(at, content):
    """The kind of the event, the number of its change, and what it tells. There is no kind where it is no entry."""
    try:
        value = json.loads(content)
        kind, form, number = value["event"], whole(value["form"], 1, 3), whole(value["number"], 1, 2**64)
        told = {"commit": lambda: change_of(value, form), "empty": lambda: marks_of(value["marks"], form),
                "undo": lambda: None, "redo": lambda: None}[kind]()
    except (ValueError, KeyError, TypeError):
        return NONE
    return (kind, number, told) if at > 0 and written(kind, number, told, form) == content else NONE
