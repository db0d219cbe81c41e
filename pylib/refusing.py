"""Runs of a program of which requests for memory are refused, by the library that refusals.c becomes."""
import mmap, os, struct, subprocess
from typing import NamedTuple

SOURCE = os.path.join(os.path.dirname(os.path.realpath(__file__)), "refusals.c")
# Until when requests behind the first one are refused: none, until the answer is written, or until the end of the run.
ALONE, FOR_ANSWER, FOR_GOOD = range(3)
MOST_READS = 256
NUMBERS = 8 + 2 * MOST_READS


class Wrong(Exception):
    """Something isn't as it is wanted."""


class Refusals(NamedTuple):
    """The first request that is refused, until when others behind it are, and up to how many bytes these aren't."""
    first: int
    until: int
    spared: int = 0


class Run(NamedTuple):
    status: int  # of a signal the negative number
    answers: list  # what was written after each read of a line, the last of which reads the end
    errors: str
    requests: int
    refused: int
    before: list  # how many requests there were before each read

    def read_of(self, request):
        """The read after which this request was made, from 0; -1 for one before all reads."""
        return sum(count < request for count in self.before) - 1


class Refuser:
    """Runs the program, from scripts that stand in a folder and to files that it leaves there."""

    def __init__(self, program, folder):
        names = ("refusals.so", "told", "script", "written", "errors")
        self.program, (self.library, self.told, *self.files) = program, [os.path.join(folder, name) for name in names]
        words = ["gcc", "-O2", "-Wall", "-Wextra", "-Werror", "-shared", "-fPIC", "-o", self.library, SOURCE]
        subprocess.run(words, check=True)
        with open(self.told, "w+b") as file:
            file.truncate(8 * NUMBERS)
            self.numbers = mmap.mmap(file.fileno(), 8 * NUMBERS)

    def run(self, words, script, refusals=Refusals(0, ALONE)):
        """Runs the script."""
        with open(self.files[0], "wb") as file:
            file.write(script)
        self.numbers[:] = struct.pack("3q", *refusals).ljust(8 * NUMBERS, b"\0")
        new = os.O_WRONLY | os.O_CREAT | os.O_TRUNC
        files = [(os.POSIX_SPAWN_OPEN, number, path, new if number else os.O_RDONLY, 0o600)
                 for number, path in enumerate(self.files)]
        environment = {"LD_PRELOAD": self.library, "REFUSALS": self.told}
        pid = os.posix_spawn(self.program, [self.program, *words], environment, file_actions=files)
        return self.told_of(os.waitstatus_to_exitcode(os.waitpid(pid, 0)[1]))

    def told_of(self, status):
        """What there is to tell of the run that ended so."""
        numbers = struct.unpack(f"{NUMBERS}q", self.numbers[:])
        (requests, refused, _, reads, _), pairs = numbers[3:8], numbers[8:]
        text, errors = [open(path, "rb").read() for path in self.files[1:]]
        written = [*pairs[1:2 * reads:2], len(text)]
        if reads > MOST_READS or written[0]:
            raise Wrong(f"{reads} reads, and {text[:written[0]]!r} before the first")
        answers = [text[begin:end].decode() for begin, end in zip(written, written[1:])]
        return Run(status, answers, errors.decode(), requests, refused, pairs[:2 * reads:2])
