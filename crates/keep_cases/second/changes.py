"""What several commands put into their changes."""
from repository import Refused, document, listed, make_pack, named, pack_entries, sha


def reuse(state, change, blob):
    """Records what a blob that is there rests on."""
    pack, _, _, index = state.places(blob)[0]
    change.present |= {(0, pack), index}
    change.unmarked.add(pack)


def add_or_record(state, change, name, content):
    if name in state.files:
        change.present.add(name)
    else:
        change.adds[name] = content


class NewBlobs:
    """The blobs that a change stores, by type, each once. One that has a place already is used there."""

    def __init__(self, state, change):
        self.state, self.change, self.blobs = state, change, ([], [])

    def offer(self, blob):
        kind, content = blob
        if self.state.places((kind, sha(content))):
            reuse(self.state, self.change, (kind, sha(content)))
        elif content not in [held for _, held in self.blobs[kind]]:
            self.blobs[kind].append(blob)

    def add_packs(self):
        """A pack for each type, and one index of these packs. All are below the size at which another pack begins."""
        packs = [make_pack(blobs) for blobs in self.blobs if blobs]
        for pack in packs:
            add_or_record(self.state, self.change, named("pack", pack), pack)
            if sha(pack) in self.state.marks:
                self.change.clears[sha(pack)] = self.state.marks[sha(pack)]
            else:
                self.change.unmarked.add(sha(pack))
        if packs:
            index = document({"packs": [listed(sha(pack), pack_entries(pack)) for pack in packs]})
            add_or_record(self.state, self.change, named("index", index), index)


def add_snapshots(state, change, snapshots):
    names = [named("snapshot", snapshot) for snapshot in snapshots]
    if len(set(names)) < len(names) or any(name in state.files for name in names):
        raise Refused("SnapshotThere")
    change.adds.update(zip(names, snapshots))
