"""Parts of trials/far in which the file system is as it should be: runs by turns, two at once, and runs that are
killed."""
import os, random

from far_trial import LINE_SECONDS, LOCKED, MOUNTS, Asked, require, script_of
from folders import new_folder, run, start, what_stands
from lines import LINES, answer_to
from stages import CASCADES, is_made, killed

LINES_A_RUN, RACES = 7, 20


def sessions(trial):
    there, near = trial.repository("sessions"), os.path.join(trial.top, "near")
    new_folder(near)
    for number, at in enumerate(range(0, len(LINES), LINES_A_RUN)):
        script = script_of(LINES[at:at + LINES_A_RUN])
        wanted, got = run(near, script), trial.patient(there[MOUNTS[number % 2]], script)
        require(got == wanted, "a run from line", at, got, "not", wanted)
        for folder in there.values():
            require(what_stands(folder) == what_stands(near), "what stands after line", at, folder)
    trial.require_last(there, "the last run")
    for folder in there.values():
        require(trial.opened(folder) == trial.last, "an opening of", folder)
    trial.say(f"{len(LINES)} lines in {number + 1} runs by turns through both mounts: answered as on a disk")


def locks(trial):
    there = trial.repository("locks")
    first = trial.begun(there["one"])
    require(answer_to(first, "count") == b"files 0 marks 0\n", "a first run")
    for folder in there.values():
        status, answers, errors = run(folder, "add index 61\n")
        require((status, answers) == (1, "") and errors.startswith(LOCKED), "a second run", folder, errors)
    require(answer_to(first, "add index 62") == b"ok 1 at 1 +1 -0 *0 ~0\n", "the first run's line")
    first.communicate()
    for number in range(RACES):
        race(trial, there, number + 2)
    trial.say(f"a second run is refused on both mounts; of two that began at once one got the folder, {RACES} times")


def race(trial, there, number):
    """Two runs begin at once: one of them has the folder until it ends."""
    trial.patient(there[MOUNTS[number % 2]], "")
    runs = {name: start(folder) for name, folder in there.items()}
    asked = {name: Asked(program, f"add index {number:08x}") for name, program in runs.items()}
    answers = {name: line.within(LINE_SECONDS) for name, line in asked.items()}
    ended = {name: program.communicate() for name, program in runs.items()}
    wanted = [b"", b"ok %d at %d +1 -0 *0 ~0\n" % (number, number)]
    require(sorted(answers.values()) == wanted, "a race", answers, ended)
    refused, = (name for name, answer in answers.items() if not answer)
    require(ended[refused][1].decode().startswith(LOCKED), "a race", ended)


def kills(trial):
    trial.undisturbed()
    found = [kill(trial, number) for number in range(trial.counts[0])]
    midway, made, part, half = (sum(each) for each in zip(*found)) if found else (0, 0, 0, 0)
    trial.say(f"{len(found)} runs were killed, {midway} of them before the last answer, and opened through the other "
              f"mount: the next line was made in {made}, a cascade in part in {part}, a file was half written in "
              f"{half}; the folder was still locked for {max(trial.waited):.1f} seconds at most")


def kill(trial, number):
    """Whether a line wasn't answered, was made all the same, is a cascade that was made in part; whether a file was
    half written."""
    there, chance = trial.repository(f"kill{number}"), random.Random(number)
    near, far = MOUNTS[::1 if number % 2 else -1]
    at = chance.randrange(len(LINES)) if number % 4 else chance.choice(CASCADES)
    answered = killed(there[near], at, chance.uniform(0, trial.took[at]))
    is_half = any(name.startswith("tmp") for name in os.listdir(there[far]))
    found = trial.opened(there[far])
    made = is_made(trial.stages, answered, found)
    trial.go_on(there[far], answered + made)
    trial.require_last(there, f"the run after kill {number}")
    is_left = answered < len(LINES)
    said = trial.stages[answered].said if is_left else [found]
    return is_left, made, found not in (said[0], said[-1]), is_half
