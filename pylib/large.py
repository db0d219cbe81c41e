"""A file of 2 GiB at each sort of place, and 200,000 files of each sort."""
import hashlib, os, resource, shutil, sys, time

from folders import CANNOT, new_folder, packs, run
from hostile import expect, said

GIB = 2**30
LENGTH, LITTLE, AMPLE = 2 * GIB, GIB, 6 * GIB
COUNT, WANTED_SECONDS = 200_000, 10
NO_MEMORY = (1, "", "keepd: no memory\n")
HELD = hashlib.sha256(b"b").hexdigest()


def within(folder, script, limit):
    """A run that gets so much memory at most, as addresses: how it ended, and its seconds."""
    start = time.monotonic()
    ended = run(folder, script, preexec_fn=lambda: resource.setrlimit(resource.RLIMIT_AS, (limit, limit)))
    return ended, time.monotonic() - start


def hole(path):
    """A file of 2 GiB, all of it zeros that take no room."""
    os.makedirs(os.path.dirname(path), exist_ok=True)
    with open(path, "wb") as file:
        file.truncate(LENGTH)


def lengths(folder):
    """The length of each file but the lock."""
    paths = [os.path.join(at, name) for at, _, names in os.walk(folder) for name in names]
    found = {os.path.relpath(path, folder): os.path.getsize(path) for path in paths}
    return {path: length for path, length in found.items() if path != "lock"}


def hole_name():
    hashed, piece = hashlib.sha256(), bytes(2**24)
    for _ in range(LENGTH // len(piece)):
        hashed.update(piece)
    return hashed.hexdigest()


def long_files(top):
    """What is wanted where a file of 2 GiB stands at each sort of place: with little memory, and with ample."""
    name = hole_name()
    pack = (f"pack {name} {LENGTH}\nfiles 1 marks 0\nunreadable pack {name} 7\naudit 1\nno Memory\n"
            "ok 1 at 1 +1 -0 *0 ~0\nfiles 2 marks 0\n")
    script = f"list\naudit\ndrop pack {name}\nadd index 62\ncount\n"
    passed_over = (0, "files 0 marks 0\n", "")
    cases = [("a pack", f"data/{name[:2]}/{name}", script, NO_MEMORY, (0, pack, "")),
             ("an entry", "journal/1", "count\n", NO_MEMORY, (1, "", CANNOT + "BadEntry 1")),
             ("a config", "config", "count\n", NO_MEMORY, (1, "", CANNOT + "BadConfig")),
             ("another name", f"index/{name[1:]}", "count\n", passed_over, passed_over),
             ("tmp", "tmp", "count\n", passed_over, passed_over)]
    for sort, place, script, *wanted in cases:
        folder = os.path.join(top, "long")
        new_folder(folder)
        hole(os.path.join(folder, place))
        before = lengths(folder)
        for limit, (status, answers, errors) in zip((LITTLE, AMPLE), wanted):
            ended, took = within(folder, script, limit)
            expect(f"2 GiB of {sort}", (ended[0], ended[1], ended[2][:len(errors)]), (status, answers, errors))
            end = (errors or "answered").removeprefix("keepd: ").strip()
            print(f"2 GiB of {sort}, {limit // GIB} GiB of memory: {end}, {took:.1f} seconds", flush=True)
        added = {f"index/{HELD}": 1, "journal/1": lengths(folder).get("journal/1")} if "add" in script else {}
        expect(f"what stands beside {sort}", lengths(folder), before | added)
        shutil.rmtree(folder)


def many_packs(folder):
    """Packs of 200 bytes, and what a line does among them."""
    packs(folder, COUNT)
    return ("mark\nrepair\n", "no Full\nok 1 at 1 +1 -0 *0 ~0\n", f"files {COUNT + 1} marks 0\n")


def many_entries(folder):
    """Entries by hand: one commit, and then its undo and redo in turn."""
    new_folder(folder)
    os.mkdir(os.path.join(folder, "journal"))
    stored = f'{{"bytes":"62","file":"index/{HELD}"}}'
    commit = (f'{{"absent":[],"adds":[{stored}],"clears":[],"drops":[],"event":"commit","form":2,"marked":[],"number":1,'
              '"present":[],"sets":[],"strict":false,"unmarked":[]}')
    turns = [commit, *('{"event":"%s","form":2,"number":1}' % ("redo" if at % 2 else "undo") for at in range(2, COUNT + 1))]
    for at, text in enumerate(turns, 1):
        with open(os.path.join(folder, "journal", str(at)), "w") as file:
            file.write(text)
    trash = os.path.join(folder, "trash", "1", "index")
    os.makedirs(trash)
    with open(os.path.join(trash, HELD), "wb") as file:
        file.write(b"b")
    return ("redo 1\n", f"ok 1 at {COUNT + 1}\n", "files 1 marks 0\n")


def many_others(folder):
    """Names that no file of a repository has."""
    new_folder(folder)
    os.mkdir(os.path.join(folder, "snapshots"))
    for number in range(COUNT):
        open(os.path.join(folder, "snapshots", f"x{number}"), "wb").close()
    return ("add index 62\n", "ok 1 at 1 +1 -0 *0 ~0\n", "files 1 marks 0\n")


def many_files(top):
    """The seconds of an opening, and that lines then answer, and that all is there afterwards."""
    for make in (many_packs, many_entries, many_others):
        folder = os.path.join(top, "many")
        script, answers, count = make(folder)
        told = said(folder)
        start = time.monotonic()
        expect(f"{make.__name__}, an opening", run(folder, "list\nhistory\n"), (0, told, ""))
        took = time.monotonic() - start
        expect(f"{make.__name__}, lines", run(folder, script), (0, answers, ""))
        expect(f"{make.__name__}, afterwards", run(folder, "count\n"), (0, count, ""))
        expect(f"{make.__name__}, both readers", run(folder, "list\nhistory\n"), (0, said(folder), ""))
        print(f"{COUNT} {make.__name__.removeprefix('many_')}: {took:.2f} seconds to open and show them "
              f"(wanted at most {WANTED_SECONDS})", flush=True)
        if took > WANTED_SECONDS:
            sys.exit(f"{make.__name__}: too long")
        shutil.rmtree(folder)
