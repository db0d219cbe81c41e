"""What a folder says after each line of the script of the module lines, told by the second reader (the module
reading) from a folder on a disk of this machine where nothing disturbs it, so that what a disturbed run leaves can be
told beside it."""
import os, shutil, sys, threading, time
from dataclasses import dataclass

from folders import new_folder, run, start
from lines import LINES, TAKEN, answer_to, is_answered
from reading import read

ASKED = "list\nhistory\naudit\n"
CASCADES = [at for at, line in enumerate(LINES) if line.startswith("cascade ")]


@dataclass
class Stage:
    """A line: its answer, its seconds, and what the folder says before it, between the undos of a cascade, after it."""
    line: str
    answer: bytes
    seconds: float
    said: list


def opened(folder, run=run):
    """What an opening says."""
    status, answers, errors = run(folder, ASKED)
    if status != 0:
        sys.exit(f"{folder} isn't opened: status {status}, {errors}")
    if "broken" in answers or not answers.endswith("\naudit 0\n"):
        sys.exit(f"{folder} isn't sound:\n{answers}")
    return answers


def told(folder):
    """What an opening has to say, by the second reader. Nothing is damaged in these folders."""
    reading = read(folder)
    return reading.list() + reading.history() + "".join(reading.wrong_names()) + "audit 0\n"


def after_undos(folder, numbers):
    """What the folder says after each of these undos, which are made one by one."""
    program, said = start(folder), []
    for number in numbers:
        answer = answer_to(program, f"undo {number}")
        if not answer.startswith(b"ok %d at " % number):
            sys.exit(f"undo {number}: {answer!r}, {program.communicate()}")
        said.append(told(folder))
    program.communicate()
    return said


def stages(top):
    folder, before = (os.path.join(top, name) for name in ("without", "before"))
    new_folder(folder)
    last, taken = told(folder), iter(TAKEN)
    made, program = [], start(folder)
    for line in LINES:
        if line.startswith("cascade "):
            shutil.copytree(folder, before)
        begin = time.monotonic()
        answer = answer_to(program, line)
        took = time.monotonic() - begin
        if not is_answered(answer):
            sys.exit(f"{line[:60]}: {answer!r}, {program.communicate()}")
        said = [last, told(folder)]
        last = said[-1]
        if line.startswith("cascade "):
            numbers = next(taken)
            said[1:] = after_undos(before, numbers)
            if answer.decode() != f"taken {' '.join(map(str, numbers))}\n" or said[-1] != last:
                sys.exit(f"{line}: {answer!r}, not the undos of {numbers}")
            shutil.rmtree(before)
        made.append(Stage(line, answer, took, said))
    program.communicate()
    return made


def is_made(stages, answered, found):
    """Whether the line behind so many answered ones was made, where an opening says what was found."""
    said = stages[answered].said if answered < len(stages) else stages[-1].said[-1:]
    if found not in said:
        known = [at for at, stage in enumerate(stages) if found in stage.said]
        sys.exit(f"{answered} lines were answered, and found is a state of the lines {known}:\n{found}")
    return found == said[-1] != said[0]


def killed(folder, at, after):
    """Runs the script and ends it so many seconds after a line was begun; how many lines were answered."""
    program, answered = start(folder), 0
    killer = threading.Timer(after, program.kill)
    for number, line in enumerate(LINES):
        if number == at:
            killer.start()
        if not is_answered(answer_to(program, line)):
            break
        answered += 1
    killer.join()
    program.communicate()
    return answered
