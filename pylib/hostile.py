"""What a run does where something is done to its folder: a script, what the second reader says of the folder after each
line, and trials in which one line meets what is done."""
import dataclasses, os, shutil, sys
from collections.abc import Callable

from folders import CANNOT, new_folder, run, start, what_stands
from lines import LINES, answer_to, backup, is_answered
from reading import Refused, read

BIG = bytes(number * number % 251 for number in range(20_000)).hex()
SCRIPT = [*LINES[:30], backup(9, BIG)]  # each kind of line, up to an emptying, and one that fills some pages
ASKED = "list\nhistory\naudit\n"
FAILED = "keepd: the shelf failed\n"
SENTINELS = {"keep": b"as it was", "a/b/c": b"also this", "journal/1": b"no entry", "index/" + "5a" * 32: b"no index"}


def expect(what, got, wanted):
    if got != wanted:
        sys.exit(f"{what}: {got!r:.600}, not {wanted!r:.600}")


def said(folder):
    """What the second reader says of the folder."""
    try:
        reading = read(folder)
    except Refused as refused:
        sys.exit(f"{folder} isn't opened: {refused}")
    return reading.list() + reading.history()


def cause_of(folder):
    """Why the folder isn't opened, by the second reader; None where it is."""
    try:
        read(folder)
    except Refused as refused:
        return str(refused)
    return None


class Course:
    """The script, which nothing disturbs: its answers, the folder before the first line and after each, what stands in it,
    and what the second reader says of it. The program's own openings say the same, and that nothing is wrong."""

    def __init__(self, top, lines=SCRIPT):
        folder, self.lines, self.answers, self.folders = os.path.join(top, "course"), lines, [], []
        new_folder(folder)
        program = start(folder)
        for line in ["count", *lines]:
            self.answers.append(answer_to(program, line))
            if not is_answered(self.answers[-1]):
                sys.exit(f"{line[:60]}: {self.answers[-1]}, {program.stderr.read1()}")
            self.folders.append(f"{folder}{len(self.folders)}")
            shutil.copytree(folder, self.folders[-1])
        program.communicate()
        del self.answers[0]
        self.stands = [what_stands(copy) for copy in self.folders]
        self.said = [said(copy) for copy in self.folders]
        for copy, text in zip(self.folders, self.said):
            expect(copy, run(copy, ASKED), (0, text + "audit 0\n", ""))

    def events(self):
        """The numbers of the lines that make an event."""
        return [at for at in range(len(self.lines)) if self.stands[at] != self.stands[at + 1]]

    def comes(self, at):
        """The names that come by a line, folders too."""
        return self.stands[at + 1].keys() - self.stands[at].keys()

    def moves_in(self, at):
        """The folders in which names come or go by a line; the folder itself is the empty name."""
        return {os.path.dirname(name) for name in self.stands[at + 1].keys() ^ self.stands[at].keys()}

    def puts(self, at):
        """The lengths of the files that a line writes: the entry, and then what its change adds."""
        new = {name: self.stands[at + 1][name] for name in sorted(self.comes(at))}
        lengths = {name: len(what[1]) for name, what in new.items() if what[0] == "file"}
        entry = [length for name, length in lengths.items() if name.startswith("journal/")]
        turns = self.lines[at].split()[0] in ("undo", "redo", "empty")
        return entry + [length for name, length in lengths.items()
                        if not turns and not name.startswith(("journal/", "trash/"))]


@dataclasses.dataclass
class Harm:
    """Something that is done to a folder while a run has it, and what is wanted of the line that meets it."""
    name: str
    do: Callable  # with the folder
    mend: Callable
    ends: set  # of `ok`, `Fault` and `Unsettled`
    refusal: Callable = lambda folder, end: cause_of(folder)  # of an opening before it is mended, None where it opens
    stays: Callable = lambda end: True  # whether a line behind a `Fault` or an `Unsettled` meets it too
    lasts: Callable = lambda end: False  # whether no later line of this run makes an event
    before: tuple = ()  # the words of what starts the program
    user: dict = dataclasses.field(default_factory=dict)  # as whom it runs


def outside_of(room):
    """A tree beside the repository, that nothing may touch."""
    outside = os.path.join(room, "outside")
    for name, content in SENTINELS.items():
        os.makedirs(os.path.dirname(os.path.join(outside, name)), exist_ok=True)
        with open(os.path.join(outside, name), "wb") as file:
            file.write(content)
    os.symlink("keep", os.path.join(outside, "link"))
    return outside


def end_of(answer, unharmed):
    """How a line ended: as without harm, or by one of the two words."""
    number = unharmed.split()[1] if unharmed.startswith(b"ok ") else b"none"
    words = {unharmed: "ok", b"no Fault\n": "Fault", b"no Unsettled " + number + b"\n": "Unsettled"}
    return words.get(answer, repr(answer))


class Trial:
    """One line of the course that meets a harm."""

    def __init__(self, course, at, harm, room):
        self.course, self.at, self.harm, self.room = course, at, harm, room
        self.folder, self.outside = os.path.join(room, "repository"), outside_of(room)
        shutil.copytree(course.folders[at], self.folder)
        self.what = f"{harm.name}, line {at + 1} ({course.lines[at][:40]}), {self.folder}"
        for top, _, names in os.walk(self.folder) if harm.user else ():
            for name in [".", *names]:
                os.chown(os.path.join(top, name), harm.user["user"], harm.user["group"])

    def expect(self, what, got, wanted):
        expect(f"{self.what}: {what}", got, wanted)

    def meet(self, anew):
        """The end of the line. What is harmed is mended in the same run, or after another opening. Then all is there as
        the answers say, and the rest of the script ends as it does without harm."""
        beside, harm = what_stands(self.outside), self.harm
        program = start(self.folder, before=harm.before, **harm.user)
        answer_to(program, "count")
        harm.do(self.folder)
        end = end_of(answer_to(program, self.course.lines[self.at]), self.course.answers[self.at])
        if end not in harm.ends:
            sys.exit(f"{self.what}: {end}, not one of {harm.ends}")
        made = self.at + (end != "Fault")
        if end != "ok" and harm.stays(end):
            self.expect("a line behind it", answer_to(program, "add index 61"), b"no Fault\n")
        if not anew:
            harm.mend(self.folder)
            made = self.go_on(program, made, harm.lasts(end))
        _, errors = program.communicate(timeout=60)
        failed = end != "ok" or (harm.lasts(end) and not anew)
        self.expect("the end", (program.returncode, errors.decode()), (1, FAILED) if failed else (0, ""))
        if anew:
            self.open_harmed(made, end)
            harm.mend(self.folder)
        self.finish(made)
        self.expect("beside the folder", what_stands(self.outside), beside)
        self.expect("in the room", sorted(os.listdir(self.room)), ["outside", "repository"])
        return end

    def go_on(self, program, made, lasts):
        """The rest of the script, in the same run; how many lines of it are made."""
        if lasts:
            self.expect("a line once mended", answer_to(program, "add index 61"), b"no Fault\n")
            return made
        for at in range(made, len(self.course.lines)):
            answer = answer_to(program, self.course.lines[at])
            self.expect(f"line {at + 1} once mended", answer, self.course.answers[at])
        return len(self.course.lines)

    def open_harmed(self, made, end):
        refusal = self.harm.refusal(self.folder, end)
        status, answers, errors = run(self.folder, "list\nhistory\n", **self.harm.user)
        if refusal:
            self.expect("an opening", (status, answers, errors[:len(CANNOT + refusal)]), (1, "", CANNOT + refusal))
        else:
            self.expect("an opening", (status, answers, errors), (0, self.course.said[made], ""))

    def finish(self, made):
        """What is there once all is mended, and what comes of the rest of the script."""
        self.expect("all that is there", said(self.folder), self.course.said[made])
        script = "".join(line + "\n" for line in self.course.lines[made:])
        answers = b"".join(self.course.answers[made:]).decode()
        asked = self.course.said[made] + "audit 0\n"
        self.expect("the next run", run(self.folder, ASKED + script, **self.harm.user), (0, asked + answers, ""))
        self.expect("all that is there at the end", said(self.folder), self.course.said[-1])


def try_all(top, course, harms):
    """Each harm at its line, mended in the same run and after another opening: how many ended in which way."""
    counts = {}
    for number, (at, harm) in enumerate(harms):
        for anew in (False, True):
            room = os.path.join(top, f"room{number}-{anew:d}")
            os.makedirs(room)
            end = Trial(course, at, harm, room).meet(anew)
            counts[end] = counts.get(end, 0) + 1
            shutil.rmtree(room)
    return ", ".join(f"{end} {count}" for end, count in sorted(counts.items()))
