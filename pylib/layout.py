"""Files of a repository in the layout of restic's design document, format version 1, made by hand.
Each maker answers bytes; the name of a file is the SHA-256 of its bytes."""
import hashlib, json, struct

DATA, TREE = 0, 1
WORDS = {DATA: "data", TREE: "tree"}


def name_of(content):
    return hashlib.sha256(content).hexdigest()


def document(value):
    """JSON in its one spelling: compact, keys in byte order."""
    return json.dumps(value, sort_keys=True, separators=(",", ":"), ensure_ascii=False).encode()


def pack(blobs):
    """Blobs, each a type and bytes, one after the other; 37 bytes of header for each; the header's length."""
    entries = [struct.pack("<BI", kind, len(blob)) + hashlib.sha256(blob).digest() for kind, blob in blobs]
    header = b"".join(entries)
    return b"".join(blob for _, blob in blobs) + header + struct.pack("<I", len(header))


def listed(name, blobs):
    """What an index says of the pack of this name, which holds these blobs."""
    entries, offset = [], 0
    for kind, blob in blobs:
        entries.append({"id": name_of(blob), "length": len(blob), "offset": offset, "type": WORDS[kind]})
        offset += len(blob)
    return {"blobs": entries, "id": name}


def index(packs):
    return document({"packs": packs})


def file_node(name, pieces):
    return {"content": [name_of(piece) for piece in pieces], "name": name, "type": "file"}


def folder_node(name, subtree):
    return {"name": name, "subtree": name_of(subtree), "type": "dir"}


def tree(nodes):
    return document({"nodes": nodes})


def snapshot(time, root):
    return document({"hostname": "web", "paths": ["/"], "time": time, "tree": name_of(root),
                     "username": "keep"})


def add_line(kind, content):
    return f"add {kind} {content.hex() or '-'}\n"


def added(number):
    """The answer where a file is added as change and event of this number."""
    return f"ok {number} at {number} +1 -0 *0 ~0\n"
