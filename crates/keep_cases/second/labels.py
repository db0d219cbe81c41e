"""What is made of snapshots: by tag, forget and rewrite, with the filter `all`."""
import datetime, json

from changes import NewBlobs, add_snapshots
from repository import BadLine, Change, Refused, document
from trees import pattern_in, reached, without

COUNTS = {"last": None, "daily": 10, "weekly": None, "monthly": 7, "yearly": 4}


def check_filter(name):
    if name != "all":
        raise BadLine


def taken(state):
    return [(name, content, json.loads(content)) for name, content in state.of("snapshot")]


def plan_tag(book, words):
    state, change = book.state, Change()
    check_filter(words[0])
    edits = [(word[0], word[1:]) for word in words[1:]]
    signs = {sign for sign, _ in edits}
    if not signs or (len(signs) > 1 and "=" in signs) or any(not tag and sign != "=" for sign, tag in edits):
        raise Refused("BadEdit")
    state.check()
    made = []
    for name, content, value in taken(state):
        tags = edited(value.get("tags") or [], edits)
        if tags == (value.get("tags") or []):
            continue
        change.drops[name] = content
        made.append(document(with_tags({"original": name[1]} | value, tags)))
    add_snapshots(state, change, made)
    return change


def edited(tags, edits):
    tags = [] if any(sign == "=" for sign, _ in edits) else tags
    for sign, tag in edits:
        if sign in "=+" and tag and tag not in tags:
            tags = [*tags, tag]
    gone = {tag for sign, tag in edits if sign == "-"}
    return [tag for tag in tags if tag not in gone]


def with_tags(value, tags):
    others = {key: held for key, held in value.items() if key != "tags"}
    return others | {"tags": tags} if tags else others


def plan_forget(book, words):
    state, change = book.state, Change()
    check_filter(words[0])
    state.check()
    rules = [word.split("=", 1) for word in words[1:]]
    groups = {}
    for name, content, value in taken(state):
        groups.setdefault((value.get("hostname", ""), tuple(value["paths"])), []).append((name, content, value))
    for group in groups.values():
        group.sort(key=lambda one: (-instant(one[2]["time"]), one[0]))
        kept = {one[0] for rule, least in rules for one in kept_by(rule, least, group)}
        if rules:
            change.drops.update({name: content for name, content, _ in group if name not in kept})
    return change


def instant(time):
    return datetime.datetime.fromisoformat(time.replace("Z", "+00:00")).timestamp()


def period(rule, time):
    """What the rule counts once: the snapshot itself, or the written day, week, month or year."""
    if rule == "last":
        return time
    if rule == "weekly":
        day = datetime.date.fromisoformat(time[:10])
        return (day - datetime.timedelta(day.weekday())).isoformat()
    return time[:COUNTS[rule]]


def kept_by(rule, least, group):
    if rule == "tag":
        return [one for one in group if least in (one[2].get("tags") or [])]
    if rule == "last":
        return group[:int(least)]
    newest = {}
    for one in group:
        newest.setdefault(period(rule, one[2]["time"]), one)
    return [newest[day] for day in sorted(newest, reverse=True)[:int(least)]]


def plan_rewrite(book, words):
    state, change = book.state, Change()
    check_filter(words[0])
    forgets = words[1:2] == ["forget"]
    patterns = [pattern_in(word) for word in words[2 if forgets else 1:]]
    state.check()
    for _, _, value in taken(state):
        reached(state, value["tree"])
    made, new = [], NewBlobs(state, change)
    for name, content, value in taken(state):
        tree = without(state, value["tree"], patterns, new.offer)
        if tree == value["tree"]:
            continue
        tags = value.get("tags") or []
        if not forgets and "rewrite" not in tags:
            tags = [*tags, "rewrite"]
        made.append(document(with_tags(value | {"original": name[1], "tree": tree}, tags)))
        if forgets:
            change.drops[name] = content
        else:
            change.present.add(name)
    new.add_packs()
    add_snapshots(state, change, made)
    return change
