"""Backups of files of which a tenth changes each time, for the program and for restic."""
import os, random, subprocess

BACKUPS = 10
FILE_BYTES = 200
FILES_IN_FOLDER = 100


def states(count):
    """The files of each backup: bytes by path, paths in byte order."""
    chance = random.Random(count)
    files = {f"/d{number // FILES_IN_FOLDER:02}/f{number:04}": chance.randbytes(FILE_BYTES)
             for number in range(count)}
    made = [dict(files)]
    for turn in range(1, BACKUPS):
        for path in list(files)[turn::10]:
            files[path] = chance.randbytes(FILE_BYTES)
        made.append(dict(files))
    return made


def backup_line(turn, files):
    words = " ".join(f"{path}={content.hex()}" for path, content in files.items())
    return f"backup web 2024-01-01T10:00:{turn:02}Z {words}\n"


def restic(*words, folder):
    names = {"RESTIC_REPOSITORY": os.path.join(folder, "repository"), "RESTIC_PASSWORD": "bench",
             "RESTIC_CACHE_DIR": os.path.join(folder, "cache")}
    subprocess.run(["restic", *words], env=os.environ | names, stdout=subprocess.DEVNULL, check=True)


def write_files(folder, files):
    """Puts the files where restic backs up from, and answers that folder."""
    top = os.path.join(folder, "files")
    for path, content in files.items():
        place = top + path
        os.makedirs(os.path.dirname(place), exist_ok=True)
        with open(place, "wb") as file:
            file.write(content)
    return top
