"""Folders, links, pipes and files that come, while a run has the folder, where a line is going to put something else."""
import os, shutil, stat

from folders import TOPS, run, what_stands
from hostile import Harm, expect, said

# What comes where a file would come, and where a folder would. Links lead out of the folder, or to nothing.
FOR_FILES = ("folder", "full folder", "link to a file", "link to nothing", "pipe")
FOR_FOLDERS = ("file", "link to nothing", "pipe")


def put(place, sort, outside):
    os.makedirs(os.path.dirname(place), exist_ok=True)
    if sort in ("folder", "full folder"):
        os.mkdir(place)
    if sort == "full folder":
        os.mkdir(os.path.join(place, "inner"))
    if sort == "link to a file":
        os.symlink(os.path.join(outside, "keep"), place)
    if sort == "link to nothing":
        os.symlink(os.path.join(outside, "nothing"), place)
    if sort == "pipe":
        os.mkfifo(place)
    if sort == "file":
        with open(place, "wb"):
            pass


def take(place, sort):
    """Takes away what was put, where it still is there."""
    mode = os.lstat(place).st_mode if os.path.lexists(place) else 0
    if stat.S_ISDIR(mode) and sort in ("folder", "full folder"):
        shutil.rmtree(place)
    if stat.S_ISLNK(mode) or stat.S_ISFIFO(mode) or stat.S_ISREG(mode) and sort == "file":
        os.remove(place)


def of_name(name, sort, ends):
    def do(folder):
        put(os.path.join(folder, name), sort, os.path.join(os.path.dirname(folder), "outside"))

    def mend(folder):
        take(os.path.join(folder, name), sort)

    return Harm(f"a {sort} at {name}", do, mend, ends)


def harms(course):
    """What comes at each name that a line puts, and where files are written first."""
    for at in course.events():
        after = course.stands[at + 1]
        for sort in FOR_FILES:
            yield at, of_name("tmp", sort, {"ok"})
        for name in sorted(course.comes(at)):
            first = "Fault" if name.startswith("journal") else "Unsettled"
            if after[name] == ("folder",):
                for sort in FOR_FOLDERS:
                    yield at, of_name(name, sort, {first})
            else:
                for sort in FOR_FILES:
                    yield at, of_name(name, sort, {first} if "folder" in sort.split() else {"ok"})


def exchanged(name):
    """A link to a folder elsewhere comes in the place of a folder, or where one would come."""
    def do(folder):
        place = os.path.join(folder, name)
        os.makedirs(os.path.dirname(place), exist_ok=True)
        if os.path.isdir(place):
            os.rename(place, os.path.join(folder, "aside"))
        os.symlink(os.path.join(os.path.dirname(folder), "outside", "a"), place)

    def mend(folder):
        os.remove(os.path.join(folder, name))
        if os.path.isdir(os.path.join(folder, "aside")):
            os.rename(os.path.join(folder, "aside"), os.path.join(folder, name))

    return Harm(f"a link to a folder elsewhere at {name}", do, mend, {"Unsettled"})


def link_harms(course):
    """Each folder that isn't at the top, and that a line makes or changes a name in."""
    for at in course.events():
        after = course.stands[at + 1]
        comes = {name for name in course.comes(at) if after[name] == ("folder",)}
        for name in sorted(comes | course.moves_in(at) & course.stands[at].keys()):
            if "/" in name:
                yield at, exchanged(name)


def try_links_at_the_top(top, course):
    """The script over a folder whose top folders are links, which may be: all is as without, and comes where they lead."""
    folder, elsewhere = os.path.join(top, "linked"), os.path.join(top, "elsewhere")
    shutil.copytree(course.folders[0], folder)
    for name in TOPS:
        os.makedirs(os.path.join(elsewhere, name))
        os.symlink(os.path.join(elsewhere, name), os.path.join(folder, name))
    script = "".join(line + "\n" for line in course.lines)
    expect("links at the top", run(folder, script), (0, b"".join(course.answers).decode(), ""))
    expect("links at the top, afterwards", said(folder), course.said[-1])
    stands = {name: what for name, what in what_stands(folder).items() if what[0] != "link"}
    both = stands | what_stands(elsewhere)
    expect("what stands where they lead", both | course.stands[-1], both)
    return f"{len(TOPS)} at the top, as without"
