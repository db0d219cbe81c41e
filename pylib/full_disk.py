"""Disks that are full while a run has the folder: small file systems in memory, with room for some pages or files."""
import contextlib, os, subprocess

from hostile import Harm

PAGE = 4_096


@contextlib.contextmanager
def disk(place, *options):
    """A file system in memory."""
    os.makedirs(place, exist_ok=True)
    subprocess.run(["mount", "-t", "tmpfs", "-o", ",".join(options), "tmpfs", place], check=True)
    try:
        yield place
    finally:
        subprocess.run(["umount", place], check=True)


def pages(length):
    return -(-length // PAGE)


def ends_of(needs, room):
    """How a line ends that needs this much for its entry, and then for the rest, where there is so much room."""
    entry, *rest = needs
    return {"Fault"} if room < entry else {"Unsettled"} if room < entry + sum(rest) else {"ok"}


def of_pages(place, needs, room):
    ballast = os.path.join(place, "ballast")

    def do(folder):
        with open(ballast, "wb") as file:
            file.write(bytes(PAGE * (os.statvfs(place).f_bavail - room)))

    return Harm(f"room for {room} pages", do, lambda folder: os.remove(ballast), ends_of(needs, room), refusal,
                stays=lambda end: end == "Unsettled" or room == 0)


def of_files(place, needs, room):
    def ballast(number):
        return os.path.join(place, f"ballast{number}")

    made = []

    def do(folder):
        made.extend(map(ballast, range(os.statvfs(place).f_ffree - room)))
        for path in made:
            open(path, "wb").close()

    def mend(folder):
        while made:
            os.remove(made.pop())

    return Harm(f"room for {room} files and folders", do, mend, ends_of(needs, room), refusal)


def refusal(folder, end):
    return "Fault" if end == "Unsettled" else None


def page_harms(course, place):
    """For each line, room for each number of pages that is too small, and for just enough."""
    for at in course.events():
        needs = [pages(length) for length in course.puts(at)]
        for room in range(sum(needs) + 1):
            yield at, of_pages(place, needs, room)


def file_harms(course, place):
    for at in course.events():
        stands, after = course.comes(at), course.stands[at + 1]
        folders = [name for name in stands if after[name] == ("folder",)]
        entry = 1 + folders.count("journal")
        needs = [entry, len(folders) + len(course.puts(at)) - entry]
        for room in range(sum(needs) + 1):
            yield at, of_files(place, needs, room)
