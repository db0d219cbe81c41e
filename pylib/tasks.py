"""The programs that measure. keep_bench reads its standard input and does one task with it: its start and its reading
are in the time of a task."""
import os, subprocess, sys

TOP = os.path.realpath(os.path.join(os.path.dirname(os.path.realpath(__file__)), ".."))


def folder_of(crate):
    return os.path.join(TOP, "crates", crate)


def program_of(crate):
    return os.path.join(folder_of(crate), "out", crate)


PROGRAM = program_of("keep_bench")


def stored(crate, name):
    """What the run that stands beside the sources of the program is given, in a file of this name."""
    path = os.path.join(folder_of(crate), name)
    if not os.path.exists(path):
        return b""
    with open(path, "rb") as file:
        return file.read()


def build(crate="keep_bench"):
    """Proves and builds the program; where nothing changed since, that takes some seconds."""
    words = stored(crate, "args").decode().splitlines()
    run = subprocess.run(["rt", "run", "--", *words], cwd=folder_of(crate), input=stored(crate, "stdin"),
                         stdout=subprocess.PIPE, stderr=subprocess.STDOUT)
    if run.returncode != 0:
        sys.exit(run.stdout.decode() + f"{crate} can't be built")


def run_task(task, path, wanted):
    """Does the task with a file. The program answers as is wanted."""
    with open(path, "rb") as file:
        run = subprocess.run([PROGRAM, task], stdin=file, stdout=subprocess.PIPE)
    answer = run.stdout.decode()
    if answer != wanted:
        sys.exit(f"the answer is wrong: {answer!r}, not {wanted!r}")
