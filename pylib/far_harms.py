"""Parts of trials/far in which servers are killed and come back, and in which the network of a mount is cut."""
import random, subprocess, time

import servers
from far_trial import LINE_SECONDS, LOCKED, MOUNTS, Asked, require
from folders import run, start, what_stands
from lines import LINES, answer_to, is_answered
from stages import is_made

AWAY_LINES, AWAY_SECONDS = 8, 3  # how long a store is away, and a metadata server
SHORT_CUT_SECONDS = 5
LATE_SECONDS = 30  # in which a run that was cut off may answer; then it is ended
LATE_LINE = "add index 6c617465"
NEAR, FAR = MOUNTS


def lose_servers(trial):
    """Two runs of the script. In each two stores and the metadata server, twice, are killed in the middle of a line."""
    took, engine = trial.undisturbed(), trial.module
    for number in range(2):
        chance, there = random.Random(number), trial.repository(f"servers{number}")
        first, second = chance.sample(engine.STORES, 2)
        spots = range(chance.randrange(2, 20), len(LINES), AWAY_LINES + 2)
        lost = dict(zip(spots, (first, engine.METADATA, second, engine.METADATA)))
        program, longest = trial.begun(there[NEAR]), (0, 0)
        for at, stage in enumerate(trial.stages):
            back = lost.get(at - AWAY_LINES, engine.METADATA)
            if back != engine.METADATA:
                trial.engine.server(back)
            seconds = line_without(trial, program, stage, lost.get(at), took[at] * chance.random())
            longest = max(longest, (seconds, at + 1))
        require(program.communicate() == (b"", b"") and program.returncode == 0, "the end of a run")
        trial.require_last(there, "a run that lost servers")
        told = ", ".join(f"{name} in line {at + 1}" for at, name in lost.items())
        trial.say(f"killed and back: {told}; each line was answered as ever, line {longest[1]} the latest, after "
                  f"{longest[0]:.1f} seconds")


def line_without(trial, program, stage, name, after):
    """Gives a line, and kills the server of this name in the middle of it, if there is one. The seconds of the line."""
    asked = Asked(program, stage.line)
    if name:
        time.sleep(after)
        trial.programs.kill(name)
    if name == trial.module.METADATA:
        time.sleep(AWAY_SECONDS)
        trial.engine.server(name)
    require(asked.within(LINE_SECONDS) == stage.answer, stage.line[:60], asked.answer)
    return time.monotonic() - asked.begin


def cuts(trial):
    trial.undisturbed()
    short_cut(trial)
    for number in range(trial.counts[1]):
        long_cut(trial, number)


def run_to(trial, folder, at):
    """A run that has answered so many lines."""
    program = trial.begun(folder)
    for stage in trial.stages[:at]:
        require(answer_to(program, stage.line) == stage.answer, stage.line[:60])
    return program


def is_locked(folder):
    return run(folder, "", timeout=LINE_SECONDS)[2].startswith(LOCKED)


def require_locked(program, seconds):
    errors = program.communicate(timeout=seconds)[1].decode()
    require(errors.startswith(LOCKED), "a run gets in beside one that is cut off for a moment", errors)


def others(folder, seconds):
    """Begins runs beside one that has the folder, until the time is over: how many were refused, and the one that
    still waits for what a mount has that is cut off."""
    end, refused = time.monotonic() + seconds, 0
    while (left := end - time.monotonic()) > 0:
        program = start(folder)
        try:
            require_locked(program, left)
        except subprocess.TimeoutExpired:
            return refused, program
        refused += 1
    return refused, None


def short_cut(trial):
    """A cut that the mount's session outlasts."""
    there, at = trial.repository("short"), 33
    first = run_to(trial, there[NEAR], at)
    asked = Asked(first, LINES[at])
    time.sleep(trial.took[at] / 2)
    servers.cut(NEAR)
    begin = time.monotonic()
    refused, waiting = others(there[FAR], SHORT_CUT_SECONDS)
    servers.join(NEAR)
    require(asked.within(LINE_SECONDS) == trial.stages[at].answer, LINES[at][:60], asked.answer)
    seconds = time.monotonic() - begin
    if waiting:
        require_locked(waiting, LINE_SECONDS)
    for stage in trial.stages[at + 1:]:
        require(answer_to(first, stage.line) == stage.answer, stage.line[:60])
    require(first.communicate() == (b"", b""), "the end of a run")
    trial.require_last(there, "a run that was cut off for a moment")
    trial.say(f"cut for {SHORT_CUT_SECONDS} seconds: the folder stays locked ({refused} other runs were refused "
              f"meanwhile, {1 if waiting else 0} after it), the line is answered as ever after {seconds:.0f} seconds")


def long_cut(trial, number):
    """A cut that the mount's session doesn't outlast: between two lines, or in the middle of one. Another run goes on
    through the other mount, and ends before the network is back, or after."""
    there, chance = trial.repository(f"cut{number}"), random.Random(number)
    at = chance.randrange(5, len(LINES) - 20)
    first = run_to(trial, there[NEAR], at)
    asked = Asked(first, LINES[at]) if number % 2 else None
    if asked:
        time.sleep(trial.took[at] * chance.random())
    servers.cut(NEAR)
    answer = asked and asked.within(1)
    answered = at + bool(answer and is_answered(answer))
    seconds = servers.wait_for("the lock of a mount that is cut off", trial.module.LOCK_SECONDS,
                               lambda: not is_locked(there[FAR]))
    found = trial.opened(there[FAR])
    made = is_made(trial.stages, answered, found)
    at = answered + made
    second = trial.begun(there[FAR])
    ends_before = number % 4 < 2
    rest = LINES[at:] if ends_before else LINES[at:at + 10]
    for line in rest:
        require(is_answered(answer_to(second, line)), "the second run", line[:60])
    if ends_before:
        require(second.communicate() == (b"", b""), "the end of the second run")
    late = after_join(trial, there, first, asked if not answer else None, made)
    if not ends_before:
        for line in LINES[at + len(rest):]:
            require(is_answered(answer_to(second, line)), "the second run", line[:60])
        require(second.communicate() == (b"", b""), "the end of the second run")
    first.kill()
    trial.mount_anew(NEAR)
    first.communicate()
    trial.require_last(there, "the run after a cut")
    require(trial.opened(there[NEAR]) == trial.last, "an opening through the mount that was made anew")
    trial.say(f"cut {'in the middle of' if asked else 'before'} a line, {answered} answered: locked for {seconds:.0f} "
              f"seconds, then open with {answered + made} lines made; the second run ended "
              f"{'before' if ends_before else 'after'} the network was back; the first one's answers then: {late}; "
              "nothing is lost, and a new mount has all")


def after_join(trial, there, first, waiting, made):
    """The network is back. What the run that was cut off answers then, to the line that waits and to one more; it may
    change nothing."""
    stood = what_stands(there[FAR])
    servers.join(NEAR)
    answers = []
    if waiting:
        answers.append(waiting.within(LATE_SECONDS))
        require(made or not answers[0] or not is_answered(answers[0]), "answered and not there", waiting.line[:60],
                answers)
    if answers != [None]:
        answers.append(Asked(first, LATE_LINE).within(LATE_SECONDS))
        require(not answers[-1] or not is_answered(answers[-1]), "a run wrote after another had the lock", answers)
    stands = what_stands(there[FAR])
    require(stands == stood, "a run that was cut off changed", sorted(stands.items() ^ stood.items()))
    return ", ".join("none" if it is None else it.decode().strip() or "the end" for it in answers)
