"""Trees: made of files by their paths, gone through, and left without what patterns match."""
import json, re

from repository import Refused, document, sha


def grown(files):
    """Folders as dicts, of files by path."""
    top = {}
    for path, content in files:
        *folders, name = path.split("/")[1:]
        inner = top
        for folder in folders:
            inner = inner.setdefault(folder, {})
        inner[name] = content
    return top


def stored(folder, offer):
    """The id of the folder's tree. Each piece and each tree is offered once it is made."""
    nodes = []
    for name in sorted(folder, key=str.encode):
        inner = folder[name]
        if isinstance(inner, dict):
            nodes.append({"name": name, "subtree": stored(inner, offer), "type": "dir"})
            continue
        if inner:
            offer((0, inner))
        nodes.append({"content": [sha(inner)] * bool(inner), "name": name, "type": "file"})
    return written(nodes, offer)


def written(nodes, offer):
    tree = document({"nodes": nodes})
    offer((1, tree))
    return sha(tree)


def tree_of(state, snapshot):
    return json.loads(state.files[snapshot])["tree"]


def nodes_of(state, tree):
    return json.loads(state.content((1, tree)))["nodes"]


def reached(state, tree):
    """The blobs that a tree reaches, itself first, or the first that is missing."""
    found = [(1, tree)]
    for node in nodes_of(state, tree):
        if node["type"] == "dir":
            found += reached(state, node["subtree"])
        for piece in node.get("content", []):
            state.content((0, piece))
            found.append((0, piece))
    return found


def files_below(state, tree, path=""):
    for node in nodes_of(state, tree):
        inner = f"{path}/{node['name']}"
        if node["type"] == "dir":
            yield from files_below(state, node["subtree"], inner)
        else:
            yield inner, b"".join(state.content((0, piece)) for piece in node["content"])


def without(state, tree, patterns, offer, path=()):
    """The id of what is left of the tree. It is written anew only where something in or below it goes."""
    left = []
    for node in nodes_of(state, tree):
        inner = (*path, node["name"])
        if any(takes(pattern, inner) for pattern in patterns):
            continue
        if node["type"] == "dir":
            node = node | {"subtree": without(state, node["subtree"], patterns, offer, inner)}
        left.append(node)
    return tree if left == nodes_of(state, tree) else written(left, offer)


def pattern_in(word):
    """Whether the pattern begins at the root, and what stands between its slashes."""
    parts = word.removeprefix("/").removesuffix("/").split("/")
    if not all(parts) or word.startswith("!") or re.search(r"[\[\\]", word):
        raise Refused("BadPattern")
    return word.startswith("/"), parts


def takes(pattern, path):
    anchored, parts = pattern
    return any(fits(parts, path[at:]) for at in range(1 if anchored else len(path)))


def fits(parts, path):
    """Whether the components match the whole path: `**` any number, another one that it is like."""
    if not parts:
        return not path
    if parts[0] == "**":
        return fits(parts[1:], path) or bool(path) and fits(parts, path[1:])
    like = re.escape(parts[0]).replace(r"\*", ".*").replace(r"\?", ".")
    return bool(path) and re.fullmatch(like, path[0], re.DOTALL) is not None and fits(parts[1:], path[1:])
