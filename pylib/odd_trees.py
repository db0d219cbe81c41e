"""Trees of files with odd names, sizes, modes and times, drawn from a seed, and what stands in a tree."""
import os, stat

NAMES = [b"plain", b"with space", b" front", b"end ", b'quote"d', b"it's", b"back\\slash", b"\\n", b"new\nline",
         b"tab\t", b"\x01", b"\x7f", b"\xff\xfe", b"half\xc3", b"-dash", b"--", b"...", b"a=b", b"#hash", b"st*r",
         b"br[a]ck", b"wh?t", b"%41", b"$HOME", b"<&>", b"n" * 255, b"x.o", b"y.o", b"cache",
         *(name.encode() for name in ("é", "e\u0301", "日本", "😀", "\x85", "\u2028", "\xa0", "\xad", "\ue000",
                                      "\U0001fae0"))]
TARGETS = [b"nowhere", b"/etc/passwd", b"..", b'with "quotes" and \\', "zu é".encode()]
SIZES = (0, 1, 100, 5_000, 70_000)
MODES = (0o644, 0o600, 0o755, 0o400, 0o4755, 0o000)
TIMES = (0, 1, 1_000_000_000_123_456_789, 1_700_000_000_000_000_001, -86_400_000_000_000)


def write(chance, path, size):
    with open(path, "wb") as file:
        file.write(chance.randbytes(size))
    os.chmod(path, chance.choice(MODES))
    os.utime(path, ns=(0, chance.choice(TIMES)))


def draw(chance, top, levels=3):
    """A folder in which each sort of thing stands."""
    os.mkdir(top)
    for name in chance.sample(NAMES, 9):
        path = os.path.join(top, name)
        sort = chance.choice(["file"] * 5 + ["folder"] * 3 * (levels > 0) + ["link", "twin", "pipe"])
        if sort == "file":
            write(chance, path, chance.choice(SIZES))
        elif sort == "folder":
            draw(chance, path, levels - 1)
        elif sort == "link":
            os.symlink(chance.choice(TARGETS), path)
        elif sort == "twin":
            write(chance, path, 300)
            os.link(path, path[:-1] + b"~" if len(name) > 254 else path + b"~")
        else:
            os.mkfifo(path)
    os.utime(top, ns=(0, chance.choice(TIMES)))


def change(chance, top):
    """Changes, removes and adds some files."""
    files = sorted(os.path.join(at, name) for at, _, names in os.walk(top) for name in names)
    for path in chance.sample(files, len(files) // 4):
        mode = os.lstat(path).st_mode
        os.remove(path)
        if stat.S_ISREG(mode) and chance.random() < 0.7:
            write(chance, path, chance.choice(SIZES))
    for number in range(3):
        write(chance, os.path.join(top, b"new%d-%d" % (number, chance.randrange(1_000_000))), chance.choice(SIZES))


def contents(top):
    """The bytes of each file, by its path below the top; and how many things are neither files nor folders."""
    found, others = {}, 0
    for at, folders, names in os.walk(top):
        for name in folders + names:
            path = os.path.join(at, name)
            mode = os.lstat(path).st_mode
            if stat.S_ISREG(mode):
                with open(path, "rb") as file:
                    found[b"/" + os.path.relpath(path, top)] = file.read()
            elif not stat.S_ISDIR(mode):
                others += 1
    return found, others


def all_of(top):
    """What each thing below the top is: mode, owner, time, number of names, bytes or target. Of a link no time."""
    found = {}
    for at, folders, names in os.walk(top):
        for name in folders + names:
            path = os.path.join(at, name)
            told = os.lstat(path)
            what = [told.st_mode, told.st_uid, told.st_gid]
            if stat.S_ISLNK(told.st_mode):
                what.append(os.readlink(path))
            else:
                what.append(told.st_mtime_ns)
            if stat.S_ISREG(told.st_mode):
                with open(path, "rb") as file:
                    what += [told.st_nlink, file.read()]
            found[os.path.relpath(path, top)] = what
    return found
