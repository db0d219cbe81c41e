"""Calls of the system that fail once in a run, as where a disk is full; and where calls of a run write. Both by strace."""
import os, re, subprocess, sys

from folders import TOPS, new_folder, start
from hostile import Harm
from lines import answer_to

# A call with what it is given: `mkdir("/x/journal", 0777) = 0`, `fsync(5</x/tmp-17>) = 0`.
CALL = re.compile(r"(\w+)\((.*)\) += ")
PATH = re.compile(r'"((?:[^"\\]|\\.)*)"')
OPEN_FILE = re.compile(r"\d+<(.*?)>")
OPENS_TO_WRITE = re.compile("O_(WRONLY|RDWR|CREAT|TRUNC)")
MAY_FAIL = re.compile("(unlink|rename|mkdir)(at|at2)?|fsync|fdatasync")
READS_ONLY = re.compile("access|faccessat2?|readlink|stat|lstat|newfstatat|statx|statfs|getcwd|execve|chdir|.*getxattr")


def is_there():
    """Whether strace is, and can make a call fail."""
    words = ["strace", "-qq", "-e", "inject=mkdir:error=ENOSPC:when=1", "mkdir", "/nowhere/at/all"]
    try:
        return b"INJECTED" in subprocess.run(words, capture_output=True).stderr
    except FileNotFoundError:
        return False


def calls_in(text):
    """Each call and the paths that it is given, or that of the open file that it is given."""
    for line in text.splitlines():
        call = CALL.match(line)
        if call:
            opened = OPEN_FILE.match(call[2])
            yield call[1], call[2], [opened[1]] if opened else PATH.findall(call[2])


def traced(top, lines):
    """The calls of each line: a first list is that of the opening."""
    folder, log = os.path.join(top, "traced"), os.path.join(top, "trace")
    new_folder(folder)
    words = ["strace", "-qq", "-y", "-o", log, "-e", "trace=%file,fsync,fdatasync,ftruncate,write"]
    program = start(folder, before=words)
    for line in ["count", *lines]:
        answer_to(program, line)
    program.communicate()
    parts = [[]]
    with open(log) as file:
        for name, given, paths in calls_in(file.read()):
            if name == "write" and given.startswith("1<"):
                parts.append([])
            else:
                parts[-1].append((name, given, [path.removeprefix(folder) for path in paths]))
    return folder, parts[:len(lines) + 1]


def is_ours(path):
    """Whether a run may write at this path below the folder."""
    return path.startswith("/") and (path.startswith("/tmp-") or path.split("/")[1] in ("lock", *TOPS))


def require_inside(folder, parts):
    """Sees that each call that may write does so below the folder; how many there are."""
    count = 0
    for name, given, paths in (call for part in parts for call in part):
        opens_to_read = name.startswith("open") and not OPENS_TO_WRITE.search(given)
        if READS_ONLY.fullmatch(name) or opens_to_read or "sync" in name and paths == [""]:
            continue
        count += 1
        if not paths or not all(is_ours(path) for path in paths):
            sys.exit(f"{name}({given}) is no call below {folder}")
    return count


def harms(course, parts):
    """Each call of each line that makes, moves, removes or syncs something fails once."""
    for at in course.events():
        calls = [(name, paths) for name, _, paths in parts[at + 1] if MAY_FAIL.fullmatch(name)]
        entry = next(number for number, (name, paths) in enumerate(calls) if name.startswith("rename"))
        for number, (name, paths) in enumerate(calls):
            turn = [other for other, _ in calls[:number + 1]].count(name)
            syncs_folder = "sync" in name and not paths[0].startswith("/tmp-")
            ends = {"Fault"} if number <= entry else {"ok", "Unsettled"} if syncs_folder else {"Unsettled"}
            words = ("strace", "-qq", "-o", "/dev/null", "-e", f"inject={name}:error=ENOSPC:when={turn}")
            yield at, Harm(f"{name} {turn} of {', '.join(paths)} fails", lambda folder: None, lambda folder: None, ends,
                           lambda folder, end: None, stays=lambda end: False,
                           lasts=lambda end, lasting=syncs_folder: lasting, before=words)
