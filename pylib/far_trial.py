"""A trial of a folder on two mounts of a distributed file system: what its parts share."""
import os, threading, time

import servers
from folders import CANNOT, new_folder, run, start
from lines import LINES, answer_to
from stages import opened, stages, told

MOUNTS = ("one", "two")
LET_GO_SECONDS = 20  # in which the lock of a run that ended has to be gone on the other mount
LINE_SECONDS = 600  # in which a line, or a run, has to be answered where a server comes back meanwhile
LOCKED = CANNOT + "Locked"


class Differs(Exception):
    """Something isn't as is wanted."""


def require(holds, *what):
    if not holds:
        raise Differs(" ".join(it if isinstance(it, str) else repr(it)[:600] for it in what))


def script_of(lines):
    return "".join(f"{line}\n" for line in lines)


class Asked(threading.Thread):
    """A line that a run was given, and its answer once it is there."""

    def __init__(self, program, line):
        super().__init__(daemon=True)
        self.program, self.line, self.answer, self.begin = program, line, None, time.monotonic()
        self.start()

    def run(self):
        self.answer = answer_to(self.program, self.line)

    def within(self, seconds):
        """The answer, or nothing where none came in time."""
        self.join(seconds)
        return self.answer


class Trial:
    def __init__(self, top, engine, kills, cuts):
        self.top, self.module, self.counts = top, engine, (kills, cuts)
        self.programs = servers.Programs(top)
        self.engine = engine.Engine(top, self.programs)
        self.places = {name: os.path.join(top, f"at-{name}") for name in MOUNTS}
        self.begin, self.waited, self.took = time.monotonic(), [0], []

    def say(self, text):
        print(f"{self.module.WORD}, {time.monotonic() - self.begin:.0f} seconds: {text}", flush=True)

    def note(self):
        """What each line leaves on a disk of this machine."""
        self.stages = stages(self.top)
        self.last = self.stages[-1].said[-1]

    def start(self):
        servers.make_networks(MOUNTS)
        self.engine.start()
        for name in MOUNTS:
            os.mkdir(self.places[name])
            self.mount(name)
        self.say(f"{self.engine.version()}: three stores, two mounts")

    def mount(self, name):
        self.engine.mount(name, self.places[name], name)

    def mount_anew(self, name):
        self.programs.kill(name)
        servers.call("umount", "--lazy", self.places[name])
        self.mount(name)

    def repository(self, name):
        """A new repository, and where it is for each mount."""
        there = {mount: os.path.join(place, name) for mount, place in self.places.items()}
        new_folder(there[MOUNTS[0]])
        return there

    def patient(self, folder, script):
        """A run that waits for the lock: that of a run that ended goes a moment later for another mount."""
        begin, waited = time.monotonic(), 0
        while (ended := run(folder, script, timeout=LINE_SECONDS))[2].startswith(LOCKED):
            waited = time.monotonic() - begin
            require(waited < LET_GO_SECONDS, "the lock of a run that ended stays", folder)
            time.sleep(0.02)
        self.waited.append(waited)
        return ended

    def begun(self, folder):
        """A run that has the folder."""
        self.patient(folder, "")
        return start(folder)

    def opened(self, folder):
        return opened(folder, self.patient)

    def require_last(self, there, what):
        """The script has ended as ever: by the second reader, on both mounts."""
        for folder in there.values():
            require(told(folder) == self.last, what, folder, "ends otherwise")

    def undisturbed(self):
        """The seconds of each line through a mount where nothing disturbs them; its answers are as ever."""
        if not self.took:
            there = self.repository("undisturbed")
            program = self.begun(there["one"])
            for stage in self.stages:
                asked = Asked(program, stage.line)
                require(asked.within(LINE_SECONDS) == stage.answer, stage.line[:60], asked.answer)
                self.took.append(time.monotonic() - asked.begin)
            program.communicate()
            self.require_last(there, "an undisturbed run")
        return self.took

    def go_on(self, folder, at):
        """The rest of the script, from a line on, in one run."""
        status, answers, errors = self.patient(folder, script_of(LINES[at:]))
        require(status == 0, "the rest of the script", status, errors, answers[-300:])
