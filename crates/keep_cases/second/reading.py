"""What a shelf says, by the rules for opening: from nothing but the entries and the files that stand there."""
from entries import read
from repository import Refused, State, path_name, trash
from shelf import entry, make, moves, order, remains


def numbered(path):
    return int(path.split("/")[1])


def under(content, folder):
    return sorted((path for path in content if path.startswith(folder)), key=order)


def lived(content):
    return {path_name(path): held for path, held in content.items() if not path.startswith(("trash/", "journal/"))}


class Reading:
    """The number up to which changes are final, the opening, the changes after it, the events, each with the number of
    its entry, and the moves of the last event that are left. It is refused as BadEntry where there is none."""

    def __init__(self, content):
        entries = {numbered(path): content[path] for path in under(content, "journal/")}
        told = [(at, read(at, held)) for at, held in entries.items()]
        last = max(entries, default=0)
        emptied = [(number, marks) for _, (kind, number, marks) in told if kind == "empty"]
        self.final, marks = emptied[-1] if emptied else (0, {})
        self.events, self.changes = [], {}
        self.fit(told)
        self.due = self.left(content)
        settled = dict(content)
        for move in self.due:
            make(settled, move)
        self.opening = State(self.begun(lived(settled)), marks)
        trashed = {path: settled[path] for path in under(settled, "trash/")}
        if not self.leaves(lived(settled)) or trashed != self.rubbish():
            raise Refused(f"BadEntry {last}")
        self.events = [(at, kind, n) for at, kind, n in self.events if entry(at) in settled]

    def status(self, number):
        """Whether the change is in force. It is neither so nor undone where there is none that isn't final."""
        kinds = [kind for _, kind, n in self.events if n == number and n > self.final]
        return kinds[-1] != "undo" if kinds else None

    def in_force(self):
        return [n for n in sorted(self.changes) if self.status(n)]

    def fit(self, told):
        """Takes the events, and refuses the first that doesn't fit."""
        top = 0
        for at, (kind, number, change) in told:
            fits = {"commit": number == max(self.changes, default=self.final) + 1, "undo": self.status(number) is True,
                    "redo": self.status(number) is False, "empty": True, None: False}[kind]
            if number <= top or not (fits or number <= self.final):
                raise Refused(f"BadEntry {at}")
            if kind == "empty":
                top = number
            if kind == "commit" and number > self.final:
                self.changes[number] = change
            self.events.append((at, kind, number))

    def left(self, content):
        """The moves of the last event that are still to be made."""
        if not self.events:
            return []
        at, kind, number = self.events[-1]
        if kind != "empty":
            return [move for move in moves(kind, number, self.changes[number]) if remains(content, move)]
        gone = [path for path in under(content, "trash/") if numbered(path) <= number]
        gone += [entry(k) for k, _, n in self.events if n <= number and k != at]
        return [("erase", (path,), None) for path in gone]

    def begun(self, files):
        """The opening's files: each as the lowest change in force that writes it asked for, else the live one."""
        asked = {}
        for n in reversed(self.in_force()):
            asked |= {name: None for name in self.changes[n].adds} | self.changes[n].drops
        return {name: held for name, held in (files | asked).items() if held is not None}

    def leaves(self, files):
        """Whether the changes in force can be made, one after another, and leave these files."""
        state = self.opening
        for n in self.in_force():
            if self.changes[n].unmet(state):
                return False
            state = self.changes[n].made(state)
        return state.files == files

    def rubbish(self):
        """What the trash has to hold: the drops of the changes in force, the adds of the others."""
        gone = {n: change.drops if self.status(n) else change.adds for n, change in self.changes.items()}
        return {trash(n, name): held for n, files in gone.items() for name, held in files.items()}
