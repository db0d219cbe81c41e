"""What may come of a script of which requests for memory are refused, by what comes of others without refusals."""
import re
from typing import NamedTuple

from folders import CANNOT, make_stand, what_stands
from refusing import ALONE, FOR_GOOD, Refusals, Wrong

NO_MEMORY, FAILED = "keepd: no memory\n", "keepd: the shelf failed\n"
AS_EVER, MEMORY, FAULT, UNSETTLED, FEWER, ENDED, UNOPENED = ENDS = (
    "as ever", "no Memory", "no Fault", "no Unsettled", "fewer operators", "ended", "cannot open")
EVENTS = {"add", "drop", "backup", "tag", "forget", "rewrite", "repair", "mark", "sweep", "undo", "redo", "empty"}
NOTHING = "#"  # a line that does nothing
ASKED = b"history\nlist\naudit\n"


class Right(NamedTuple):
    """What comes of lines where nothing is refused: the answer to each, and at the end; what is left in the folder."""
    answers: list
    status: int
    errors: str
    state: tuple


class Trial:
    """Lines, and where they run: in memory, or over a folder, which each run finds as it is now. A text of several
    lines may stand for one."""

    def __init__(self, refuser, words, lines, folder=None):
        self.refuser, self.words, self.lines, self.folder, self.known = refuser, list(words), tuple(lines), folder, {}
        if folder:
            self.begun = what_stands(folder)
            self.words += ["--folder", folder]

    def run(self, lines, refusals=Refusals(0, ALONE)):
        if self.folder:
            make_stand(self.folder, self.begun)
        return self.refuser.run(self.words, "".join(line + "\n" for line in lines).encode(), refusals)

    def state(self):
        """What an opening says of what the last run left, and the files that are there then."""
        if not self.folder:
            return None
        run = self.refuser.run(["--folder", self.folder], ASKED)
        if run.status != 0:
            raise Wrong(f"the folder isn't opened again: {run.status} {run.errors!r}")
        stands = what_stands(self.folder)
        files = {path: what for path, what in stands.items() if what[0] == "file" and not path.startswith("tmp-")}
        return "".join(run.answers), files

    def right(self, lines):
        if lines not in self.known:
            run = self.run(lines)
            self.known[lines] = Right(by_line(run.answers, lines), run.status, run.errors, self.state())
        return self.known[lines]


def by_line(answers, lines):
    """The answers to each text of lines, and at the end, as far as there are any."""
    found, at = [], 0
    for line in (*lines, NOTHING):
        if at < len(answers):
            found.append("".join(answers[at:at + 1 + line.count("\n")]))
        at += 1 + line.count("\n")
    return found


def taken_in(answer):
    """The numbers that the answer to a cascade says were taken back, and what is left of it."""
    match = re.match(r"taken (\d+(?: \d+)*)\n", answer)
    return (match[1].split(), answer[match.end():]) if match else ([], answer)


def undos(numbers):
    return "\n".join(f"undo {number}" for number in numbers)


def may_be_memory(kind, right, is_guarded):
    """Whether `no Memory` may stand in the place of the right answer. That of most questions ends the run instead."""
    if not right.startswith("no "):
        return kind in EVENTS | {"arm", "cascade", "restore", "audit"} and not right.startswith("bad line ")
    if kind in {"undo", "cascade"} or right == "no NoSnapshot\n":
        return False
    if kind in {"add", "drop", "redo", "empty"}:
        return is_guarded
    return kind in EVENTS | {"arm", "restore"}


def done_of_cascade(got, right):
    """What was done, and the refusal, where a cascade stopped on its way."""
    (numbers, _), (taken, refusal) = taken_in(right), taken_in(got)
    if taken and taken == numbers[:len(taken)]:
        if refusal == f"no Unsettled {taken[-1]}\n":
            return undos(taken), UNSETTLED
        if refusal in {"no Memory\n", "no Fault\n"} and taken != numbers:
            return undos(taken), refusal.strip()
    if numbers and got == "no Fault\n":
        return NOTHING, FAULT
    return None


def done(line, got, right, is_guarded):
    """What was done of a line, as lines, and the refusal, where requests of it were refused and it is answered so. None
    where it may not be answered so."""
    kind = line.partition(" ")[0]
    if got == "no Memory\n" and may_be_memory(kind, right, is_guarded):
        return NOTHING, MEMORY
    if kind == "cascade":
        return done_of_cascade(got, right)
    accepted = re.match(r"ok (\d+) at ", right)
    if kind in EVENTS and accepted:
        return {"no Fault\n": (NOTHING, FAULT), f"no Unsettled {accepted[1]}\n": (line, UNSETTLED)}.get(got)
    return None


def is_begun(got, right):
    """Whether these are the first lines, or none, of what may be answered."""
    taken, refusal = taken_in(got)
    is_cascade = taken and not refusal and taken == taken_in(right)[0][:len(taken)]
    return is_cascade or (right.startswith(got) and got[-1:] in {"", "\n"})


def may_be_crew(got, right):
    """Whether fewer operators were accepted, and some of the others may have made an event that they weren't told."""
    told = [re.fullmatch(r"(crew \d+) accepted (\d+) length (\d+)\n", text) for text in (got, right)]
    if not all(told) or told[0][1] != told[1][1]:
        return False
    (accepted, length), (most, longest) = [(int(each[2]), int(each[3])) for each in told]
    return accepted <= most and longest - most + accepted <= length <= longest


class Judge:
    """Goes through a run of which requests were refused, and tells in `how` what the first refusal came to."""

    def __init__(self, trial, refusals):
        self.trial, self.refusals, self.run = trial, refusals, trial.run(trial.lines, refusals)
        self.state = trial.state()  # before other runs over the folder
        self.hit = self.run.read_of(refusals.first)
        self.lines, self.how, self.has_fault = trial.lines, AS_EVER, False

    def judge(self):
        answers, ending = self.run.answers, (self.run.status, self.run.errors)
        is_unopened = ending[0] == 1 and ending[1].startswith(CANNOT + "Fault;") and not answers
        is_ended = ending == (1, NO_MEMORY) or is_unopened
        if not self.run.refused and "--crew" not in self.trial.words:  # operators don't always ask as often
            raise Wrong("nothing was refused")
        for number, got in enumerate(answers[:-1] if is_ended else answers):
            self.check_answer(number, got)
        if is_ended:
            self.check_ended(len(answers) - 1, answers[-1] if answers else "")
            self.how = UNOPENED if is_unopened else self.how
        else:
            self.check_whole(ending)

    def is_met(self, number):
        """Whether requests were refused after the read of this number."""
        return number == self.hit or (self.refusals.until == FOR_GOOD and number > self.hit)

    def check_answer(self, number, got):
        answers = self.trial.right(self.lines).answers
        if number >= len(answers):
            raise Wrong(f"there is an answer {number + 1}: {got!r}")
        if self.has_fault and number == len(self.lines):
            answers = [*answers[:number], ""]  # no crew is at work behind a script in which the shelf failed
        how = AS_EVER if got == answers[number] else self.refused(number, got, answers)
        if number == self.hit:
            self.how = how

    def refused(self, number, got, answers):
        """How a line is refused that isn't answered as ever. From here on its place is taken by what was done of it."""
        right, meant = answers[number], None
        if self.is_met(number) and number == len(self.lines) and may_be_crew(got, right):
            return FEWER
        if self.is_met(number) and number < len(self.lines):
            is_guarded = any(re.match("armed (few-drops|no-empty)", answer) for answer in answers[:number])
            meant = done(self.lines[number], got, right, is_guarded)
        if not meant:
            ending = self.run.status, self.run.errors
            raise Wrong(f"answer {number + 1} is {got!r}, not {right!r}; the run ended as {ending}")
        self.lines = (*self.lines[:number], meant[0], *self.lines[number + 1:])
        self.has_fault = self.has_fault or meant[1] != MEMORY
        return meant[1]

    def check_ended(self, number, got):
        """The run ended for want of memory after this answer, that of the last read, or before all reads."""
        if not self.is_met(number):
            raise Wrong(f"the run ended behind line {number + 1}, of which nothing was refused")
        if number == self.hit:
            self.how = ENDED
        before, after = self.lines[:max(number, 0)], []
        if number >= 0:
            right = self.trial.right(self.lines).answers[number]
            if not is_begun(got, right):
                raise Wrong(f"the run ended in line {number + 1} after {got!r} of {right!r}")
            taken, _ = taken_in(right)
            after = [undos(taken[:count + 1]) for count in range(len(taken))] or self.lines[number:number + 1]
        self.check_state([before, *((*before, line) for line in after)])

    def check_whole(self, ending):
        """The run went to where it ends without refusals."""
        right = self.trial.right(self.lines)
        wanted = (1, FAILED) if self.has_fault and right.status == 0 else (right.status, right.errors)
        if ending != wanted or len(self.run.answers) != len(right.answers):
            raise Wrong(f"the run ended as {ending} after {len(self.run.answers)} answers, not as {wanted}")
        self.check_state([self.lines])

    def check_state(self, choices):
        """The folder is as some of these lines leave it."""
        if self.trial.folder and self.state not in [self.trial.right(lines).state for lines in choices]:
            raise Wrong(f"the folder is as none of {choices} leaves it: {self.state[0]!r}")
