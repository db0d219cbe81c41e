"""A book over a shelf that is a dict. It folds its changes anew for each request. Which calls each event makes of the
shelf is written here and in shelf.py from the rules."""
from entries import written
from reading import Reading
from repository import Refused, trash, word
from shelf import Fault, entry, moves, order

LAST_CHANGE, LAST_EVENT = 1_048_576, 16_777_216
# Which events a veto refuses, and what a watch counts of an event.
VETOES = {"few-drops": lambda kind, change: kind != "empty" and sum(name[0] == 2 for name in change.drops) > 1,
          "no-empty": lambda kind, change: kind == "empty"}
WATCHES = {"events": lambda kind, change: 1,
           "files": lambda kind, change: 0 if kind == "empty" else len(change.adds) + len(change.drops)}


class Book:
    def __init__(self, shelf):
        shelf.call("list")
        for path in sorted(shelf.content, key=order):
            shelf.call("read", path)
        read = Reading(shelf.content)
        self.shelf, self.opening, self.final, self.due = shelf, read.opening, read.final, read.due
        self.events, self.changes = read.events, read.changes
        self.state, _ = self.fold(self.kept())
        self.vetoes, self.totals = [], {}
        self.finish()

    def arm(self, name):
        """Whether there is such a veto or watch."""
        if name in self.vetoes or name in self.totals:
            raise Refused("DoubleName")
        if name in VETOES:
            self.vetoes.append(name)
        if name in WATCHES:
            self.totals[name] = 0
        return name in VETOES or name in WATCHES

    def check_vetoes(self, kind, change):
        for name in self.vetoes:
            if VETOES[name](kind, change):
                raise Refused(f"Vetoed {name}")

    def length(self):
        return self.events[-1][0] if self.events else 0

    def in_force(self, number):
        last = [kind for _, kind, n in self.events if n == number and kind != "empty"]
        return bool(last) and last[-1] != "undo"

    def kept(self):
        return [n for n in sorted(self.changes) if n > self.final and self.in_force(n)]

    def fold(self, numbers):
        """What these changes make of the opening, or the number of the first that can't be made."""
        state = self.opening
        for number in numbers:
            if self.changes[number].unmet(state):
                return None, number
            state = self.changes[number].made(state)
        return state, None

    def finish(self):
        while self.due:
            verb, paths, content = self.due[0]
            self.shelf.call(verb, *paths, content=content)
            self.due.pop(0)

    def last_change(self):
        return max(self.changes, default=self.final)

    def ask(self, kind, number, change=None, seen=None):
        """The answer, where the event is accepted. The moves that are due come first."""
        try:
            self.finish()
        except Fault:
            raise Refused("Fault")
        state, looks = self.allowed(kind, number, change, seen)
        number = number or self.last_change() + 1
        change = change or self.changes.get(number)
        at = self.length() + 1
        opening = self.fold([n for n in self.kept() if n <= number])[0] if kind == "empty" else None
        told = opening.marks if opening else change
        try:
            for path in looks:
                self.shelf.call("read", path)
            self.shelf.call("write", entry(at), content=written(kind, number, told))
        except Fault:
            raise Refused("Fault")
        self.due = self.erasures(number) if kind == "empty" else moves(kind, number, change)
        self.enter(kind, number, change, at, state)
        self.totals = {name: total + WATCHES[name](kind, change) for name, total in self.totals.items()}
        self.opening = opening or self.opening
        try:
            self.finish()
        except Fault:
            raise Refused(f"Unsettled {number}")
        return f"ok {number} at {at}"

    def taken(self, number):
        """The change and all that lean on it, or on another one of these, the greatest number first. No call is made."""
        self.check_number(number)
        if not self.in_force(number):
            raise Refused("NotInForce")
        numbers, written = [], set()
        for n in self.kept():
            if n == number or self.changes[n].touched() & written:
                numbers.append(n)
                written |= self.changes[n].written()
        return numbers[::-1]

    def allowed(self, kind, number, change, seen):
        """The state that the event leaves, and which files of the trash are looked at first."""
        if kind == "commit":
            self.check_room(self.last_change())
            if change.strict and seen != self.length():
                raise Refused(f"Stale {self.length()}")
            self.check_vetoes(kind, change)
            unmet = change.unmet(self.state)
            if unmet:
                raise Refused("Unmet " + (word(unmet[1]) if unmet[0] == 0 else f"mark {unmet[1]}"))
            return change.made(self.state), []
        self.check_number(number)
        if kind != "empty" and (kind == "redo") == self.in_force(number):
            raise Refused("InForce" if kind == "redo" else "NotInForce")
        self.check_room()
        if kind != "undo":
            self.check_vetoes(kind, self.changes[number])
        if kind == "empty":
            return self.state, []
        others = [n for n in self.kept() if n != number]
        state, stuck = self.fold(sorted(others + [number]) if kind == "redo" else others)
        if stuck:
            raise Refused(f"{'Blocked' if kind == 'redo' else 'LeanedOn'} {stuck}")
        back = self.changes[number].adds if kind == "redo" else self.changes[number].drops
        return state, [trash(number, name) for name in sorted(back)]

    def check_number(self, number):
        if not 0 < number <= self.last_change():
            raise Refused("Unknown")
        if number <= self.final:
            raise Refused("Final")

    def check_room(self, before=0):
        """Refuses an event, and a change after so many, past the greatest number."""
        if before >= LAST_CHANGE or self.length() >= LAST_EVENT:
            raise Refused("Full")

    def erasures(self, number):
        """What an emptying erases: what the trash has of the changes that become final, then their entries and those
        of earlier emptyings."""
        paths = []
        for n in range(self.final + 1, number + 1):
            gone = self.changes[n].drops if self.in_force(n) else self.changes[n].adds
            paths += [trash(n, name) for name in sorted(gone)]
        paths += [entry(at) for at, kind, n in self.events if n <= number and entry(at) in self.shelf.content]
        return [("erase", (path,), None) for path in paths]

    def enter(self, kind, number, change, at, state):
        if kind == "commit":
            self.changes[number] = change
        if kind == "empty":
            self.final = number
        self.events.append((at, kind, number))
        self.state = state

    def known(self):
        kept = [change for n, change in self.changes.items() if n > self.final]
        names = set(self.opening.files).union(*[change.adds for change in kept])
        return {name for name in names if name[0] == 2}
