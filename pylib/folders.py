"""The program keepd over a folder: runs of a script, and what stands in a folder before and after them."""
import os, random, stat, subprocess

import session
from layout import DATA, name_of, pack

CONFIG = b'{"chunker_polynomial":"25b468838dcb75","id":"%s","version":1}' % (b"5a" * 32)
CANNOT = "keepd: cannot open: "
TOPS = ("data", "index", "snapshots", "journal", "trash")
PACK_BYTES = 200


def new_folder(folder):
    """A repository without files: nothing but a config."""
    os.makedirs(folder)
    with open(os.path.join(folder, "config"), "wb") as file:
        file.write(CONFIG)


def packs(folder, count):
    """Puts so many packs of one blob into a new repository."""
    new_folder(folder)
    chance = random.Random(count)
    for front in range(256):
        os.makedirs(os.path.join(folder, "data", f"{front:02x}"))
    for _ in range(count):
        content = pack([(DATA, chance.randbytes(PACK_BYTES - 41))])
        name = name_of(content)
        with open(os.path.join(folder, "data", name[:2], name), "wb") as file:
            file.write(content)


def start(folder, *options, before=(), **how):
    """The program at the other end of three pipes, in a session of its own; `before` has the words of what starts it, and
    `how` says as whom and within which limits."""
    words = [*before, session.PROGRAM, "--folder", folder, *options]
    return subprocess.Popen(words, stdin=subprocess.PIPE, stdout=subprocess.PIPE, stderr=subprocess.PIPE, **how)


def run(folder, script, *options, timeout=600, **how):
    """The status, the answers and standard error of a run."""
    program = start(folder, *options, **how)
    answers, errors = program.communicate(script.encode(), timeout=timeout)
    return program.returncode, answers.decode(), errors.decode()


def what_stands(folder):
    """All below the folder: the bytes of each file, where each link leads, and what else there is."""
    found = {}
    for entry in os.scandir(folder):
        mode = entry.stat(follow_symlinks=False).st_mode
        if stat.S_ISLNK(mode):
            found[entry.name] = ("link", os.readlink(entry.path))
        elif stat.S_ISDIR(mode):
            found[entry.name] = ("folder",)
            found |= {f"{entry.name}/{name}": what for name, what in what_stands(entry.path).items()}
        elif stat.S_ISREG(mode):
            with open(entry.path, "rb") as file:
                found[entry.name] = ("file", file.read())
        else:
            found[entry.name] = ("other",)
    return found


def make_stand(folder, wanted):
    """Makes this, of files and folders, all that stands below the folder."""
    os.makedirs(folder, exist_ok=True)
    there = what_stands(folder)
    for path in sorted(there.keys() - wanted.keys(), reverse=True):
        remove = os.rmdir if there[path] == ("folder",) else os.remove
        remove(os.path.join(folder, path))
    for path, what in sorted(wanted.items()):
        if there.get(path) != what and what == ("folder",):
            os.mkdir(os.path.join(folder, path))
        elif there.get(path) != what:
            with open(os.path.join(folder, path), "wb") as file:
                file.write(what[1])
