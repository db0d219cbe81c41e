"""The event that the bytes of a journal entry tell, by docs/FORMATS.md."""
import hashlib, json

KINDS = ("pack", "index", "snapshot")
MOST = 2**64


def order(file):
    return KINDS.index(file[0]), file[1]


def is_id(text):
    return isinstance(text, str) and len(text) == 64 and set(text) <= set("0123456789abcdef")


def event_in(content):
    """The event that an entry has, None where it is no entry."""
    try:
        value = json.loads(content.decode("ascii"))
        if json.dumps(value, sort_keys=True, separators=(",", ":")).encode() != content:
            return None
        return event_of(value)
    except (ValueError, KeyError, TypeError, AttributeError, RecursionError):
        return None


def require(holds):
    if not holds:
        raise ValueError


def in_order(names, key=None):
    keys = [key(name) if key else name for name in names]
    require(all(one < next for one, next in zip(keys, keys[1:])))
    return names


def file_in(text):
    kind, _, name = text.partition("/")
    require(kind in KINDS and is_id(name))
    return kind, name


def files_in(values):
    require(isinstance(values, list))
    return in_order([file_in(value) for value in values], order)


def stored_in(values):
    require(isinstance(values, list))
    require(all(set(value) == {"bytes", "file"} for value in values))
    names = files_in([value["file"] for value in values])
    texts = [value["bytes"] for value in values]
    require(all(set(text) <= set("0123456789abcdef") for text in texts))
    return dict(zip(names, map(bytes.fromhex, texts)))


def ids_in(values):
    require(isinstance(values, list))
    require(all(is_id(value) for value in values))
    return in_order(list(values))


def marks_in(values, form):
    require(isinstance(values, list))
    if form == 1:
        return dict.fromkeys(ids_in(values), 0)
    require(all(set(value) == {"id", "moment"} for value in values))
    moments = [value["moment"] for value in values]
    require(all(type(moment) is int and -(2**63) <= moment < 2**63 for moment in moments))
    return dict(zip(ids_in([value["id"] for value in values]), moments))


def event_of(value):
    require(type(value["number"]) is int and 0 < value["number"] < MOST)
    require(type(value["form"]) is int and value["form"] in (1, 2))
    event = {"event": value["event"], "number": value["number"]}
    members = {"event", "form", "number"}
    if value["event"] == "empty":
        members.add("marks")
        event["marks"] = marks_in(value["marks"], value["form"])
    elif value["event"] == "commit":
        members |= {"absent", "adds", "clears", "drops", "marked", "present", "sets", "strict", "unmarked"}
        event |= change_in(value)
    else:
        require(value["event"] in ("undo", "redo"))
    require(set(value) == members)
    return event


def change_in(value):
    change = {name: stored_in(value[name]) for name in ("adds", "drops")}
    change |= {name: files_in(value[name]) for name in ("present", "absent")}
    change |= {name: marks_in(value[name], value["form"]) for name in ("sets", "clears")}
    change |= {name: ids_in(value[name]) for name in ("marked", "unmarked")}
    files = [file for name in ("adds", "drops", "present", "absent") for file in change[name]]
    packs = [pack for name in ("sets", "clears", "marked", "unmarked") for pack in change[name]]
    require(len(set(files)) == len(files) and len(set(packs)) == len(packs) and len(files) + len(packs) <= 65_536)
    require(any(change[name] for name in ("adds", "drops", "sets", "clears")) and isinstance(value["strict"], bool))
    require(all(hashlib.sha256(content).hexdigest() == name for (_, name), content in change["adds"].items()))
    return change | {"strict": value["strict"]}
