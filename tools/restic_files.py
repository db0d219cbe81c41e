"""Files of a restic repository and of a plain folder: what from-restic and to-restic share. It needs Debian's
python3-cryptography.

By restic's design document a file is sealed as 16 bytes of IV, then the bytes under AES-256 in counter mode, then 16
bytes of Poly1305-AES over these. A pack has each blob sealed, then its sealed header, then the header's length; config,
indexes and snapshots are sealed as one piece each. A sealed file is named by the SHA-256 of its sealed bytes, a plain
one by that of its plain bytes. A blob is named by its plain bytes in both."""
import base64, contextlib, datetime, fcntl, getpass, hashlib, json, os, re, secrets, socket, stat, struct, sys, time
import warnings
from dataclasses import dataclass

try:
    from cryptography.exceptions import InvalidSignature
    from cryptography.hazmat.primitives.ciphers import Cipher, algorithms, modes
    from cryptography.hazmat.primitives.poly1305 import Poly1305
except ImportError:
    sys.exit(f"{sys.executable} has no module cryptography: install Debian's python3-cryptography")

ID = re.compile("[0-9a-f]{64}")
TOPS = {"pack": "data", "index": "index", "snapshot": "snapshots"}
WORDS = {0: "data", 1: "tree"}
COMPRESSED = (2, 3)
UNTAKEN = "a compressed repository isn't taken, but what `restic copy` makes of it in one of version 1 is"
ENTRY, IV_BYTES, SEAL_BYTES = 37, 16, 32
SCRYPT = {"N": 65536, "r": 8, "p": 1}
MOST_SCRYPT_BYTES = 1 << 31


class Refused(Exception):
    """It is said why, and status 1 is given. Texts from outside are shown as python writes them, so that no terminal
    obeys them."""


class Damaged(Refused):
    pass


# Bytes, names and documents

def name_of(content):
    return hashlib.sha256(content).hexdigest()


def document(value):
    """JSON compact, keys in byte order."""
    return json.dumps(value, sort_keys=True, separators=(",", ":"), ensure_ascii=False).encode()


def read_document(content, what):
    """The object that the bytes tell."""
    try:
        value = json.loads(content.decode())
    except (ValueError, RecursionError):
        raise Damaged(f"{what} is damaged: it is no document")
    if not isinstance(value, dict):
        raise Damaged(f"{what} is damaged: it is no object")
    return value


def is_id(value):
    return isinstance(value, str) and bool(ID.fullmatch(value))


def file_at(path):
    """The file, which isn't opened through a link in its place."""
    handle = os.open(path, os.O_RDONLY | os.O_NOFOLLOW | os.O_NONBLOCK | os.O_CLOEXEC)
    file = open(handle, "rb")
    if not stat.S_ISREG(os.fstat(handle).st_mode):
        file.close()
        raise Refused(f"{path!r} is no file")
    return file


def bytes_of(path):
    with file_at(path) as file:
        return file.read()


def path_of(kind, name):
    return f"{TOPS[kind]}/{name[:2]}/{name}" if kind == "pack" else f"{TOPS[kind]}/{name}"


def names_in(top, kind):
    """The names of all files of a kind, least first. What has another name is passed over."""
    folder = os.path.join(top, TOPS[kind])
    if not os.path.lexists(folder):
        return []
    if kind != "pack":
        return sorted(name for name in os.listdir(folder) if is_id(name))
    fronts = [name for name in os.listdir(folder) if re.fullmatch("[0-9a-f]{2}", name)]
    return sorted(name for front in fronts for name in os.listdir(os.path.join(folder, front))
                  if is_id(name) and name[:2] == front)


def sync(folder):
    handle = os.open(folder, os.O_RDONLY | os.O_DIRECTORY)
    try:
        os.fsync(handle)
    finally:
        os.close(handle)


def put(top, path, content):
    """Writes a file below a folder: it is synced before it comes to its place, whole, and its folder after."""
    place, made = os.path.join(top, path), os.path.join(top, "tmp")
    folder = os.path.dirname(place)
    if not os.path.isdir(folder):
        os.makedirs(folder)
        sync(os.path.dirname(folder))
    with contextlib.suppress(FileNotFoundError):
        os.unlink(made)
    with open(os.open(made, os.O_WRONLY | os.O_CREAT | os.O_EXCL | os.O_NOFOLLOW | os.O_CLOEXEC, 0o600), "wb") as file:
        file.write(content)
        file.flush()
        os.fsync(file.fileno())
    os.rename(made, place)
    sync(folder)


def put_named(top, kind, content):
    """Writes a file under its own name, unless just it is there, and answers the name."""
    name = name_of(content)
    place = os.path.join(top, path_of(kind, name))
    if not (os.path.isfile(place) and os.path.getsize(place) == len(content) and bytes_of(place) == content):
        put(top, path_of(kind, name), content)
    return name


def flock(handle, how, folder):
    """Takes a lock of the system's, which lets it go where the program ends."""
    try:
        fcntl.flock(handle, how | fcntl.LOCK_NB)
    except BlockingIOError:
        raise Refused(f"{folder!r} is locked: a run of keepd, or another crossing, has it")


@contextlib.contextmanager
def locked(folder, how):
    """Keeps runs of keepd out of a folder by its lock."""
    handle = os.open(os.path.join(folder, "lock"), os.O_RDWR | os.O_CREAT | os.O_NOFOLLOW | os.O_CLOEXEC, 0o666)
    try:
        flock(handle, how, folder)
        yield
    finally:
        os.close(handle)


def has_history(folder):
    """Whether keepd has changed the folder."""
    return any(os.path.isdir(os.path.join(folder, top)) and os.listdir(os.path.join(folder, top))
               for top in ("journal", "trash"))


# Seals

@dataclass
class Key:
    """The key of a repository: of the cipher, and the two of the code that authenticates."""
    encrypt: bytes
    k: bytes
    r: bytes

    def code(self, iv):
        """Poly1305's key for one IV."""
        nonce = Cipher(algorithms.AES(self.k), modes.ECB()).encryptor()
        return self.r + nonce.update(iv)

    def stream(self, iv):
        return Cipher(algorithms.AES(self.encrypt), modes.CTR(iv)).encryptor()

    def seal(self, plain):
        iv = secrets.token_bytes(IV_BYTES)
        hidden = self.stream(iv).update(plain)
        return iv + hidden + Poly1305.generate_tag(self.code(iv), hidden)

    def open(self, sealed, what):
        """What was sealed; Damaged where that isn't what this key sealed."""
        sealed = memoryview(sealed)
        if len(sealed) < SEAL_BYTES:
            raise Damaged(f"{what} is damaged: it is too short")
        iv, hidden, tag = bytes(sealed[:IV_BYTES]), sealed[IV_BYTES:-16], bytes(sealed[-16:])
        try:
            Poly1305.verify_tag(self.code(iv), bytes(hidden), tag)
        except InvalidSignature:
            raise Damaged(f"{what} is damaged, or sealed by another key")
        return self.stream(iv).update(hidden)


def key_of(secret):
    """The key that 64 bytes are."""
    return Key(secret[:32], secret[32:48], secret[48:64])


def new_key():
    """Some bits of r are always 0."""
    secret = bytearray(secrets.token_bytes(64))
    for at in (3, 7, 11, 15):
        secret[48 + at] &= 15
    for at in (4, 8, 12):
        secret[48 + at] &= 252
    return key_of(bytes(secret))


def derived(password, salt, numbers):
    """The key that a password makes."""
    n, r, p = (numbers[name] for name in ("N", "r", "p"))
    if not all(type(number) is int and number > 0 for number in (n, r, p)) or 128 * r * (n + p) > MOST_SCRYPT_BYTES:
        raise ValueError
    return key_of(hashlib.scrypt(password, salt=salt, n=n, r=r, p=p, maxmem=128 * r * (n + p) + (1 << 25), dklen=64))


def key_in(content, password, what):
    """The repository's key that a key file keeps; None where the password doesn't open it."""
    value = read_document(content, what)
    try:
        if value["kdf"] != "scrypt":
            raise ValueError
        salt, data = (base64.b64decode(value[name], validate=True) for name in ("salt", "data"))
        over = derived(password, salt, value)
    except (KeyError, TypeError, ValueError, MemoryError):
        raise Damaged(f"{what} isn't read")
    try:
        inner = read_document(over.open(data, what), what)
    except Damaged:
        return None
    parts = [base64.b64decode(text) for text in (inner["encrypt"], inner["mac"]["k"], inner["mac"]["r"])]
    return Key(*parts)


def find_key(repo, password):
    """The repository's key, by the first key file that the password opens."""
    damaged = []
    names = sorted(name for name in os.listdir(os.path.join(repo, "keys")) if is_id(name))
    for name in names:
        try:
            content = bytes_of(os.path.join(repo, "keys", name))
            if name_of(content) != name:
                raise Damaged(f"key {name} is damaged: its bytes have another name")
            key = key_in(content, password, f"key {name}")
            if key:
                return key
        except Damaged as error:
            damaged.append(str(error))
    if not names:
        raise Refused(f"{repo!r} has no key")
    why = "no key is opened: the password is wrong" if len(damaged) < len(names) else "no key is read"
    raise Refused("; ".join([why, *damaged]))


def put_key(repo, key, password):
    """Adds a key file."""
    salt, encode = secrets.token_bytes(64), lambda content: base64.b64encode(content).decode()
    inner = {"mac": {"k": encode(key.k), "r": encode(key.r)}, "encrypt": encode(key.encrypt)}
    sealed = derived(password, salt, SCRYPT).seal(document(inner))
    value = {"created": moment(), "username": user(), "hostname": socket.gethostname(), "kdf": "scrypt",
             **SCRYPT, "salt": encode(salt), "data": encode(sealed)}
    content = document(value)
    put(repo, f"keys/{name_of(content)}", content)


def user():
    try:
        return getpass.getuser()
    except (KeyError, OSError):
        return str(os.getuid())


def moment():
    return datetime.datetime.now(datetime.timezone.utc).strftime("%Y-%m-%dT%H:%M:%S.%fZ")


def typed(prompt):
    """What is typed, which no terminal shows."""
    with warnings.catch_warnings():
        warnings.simplefilter("error", getpass.GetPassWarning)
        try:
            return os.fsencode(getpass.getpass(prompt))
        except (EOFError, getpass.GetPassWarning):
            raise Refused("no password, and no terminal to ask at: set RESTIC_PASSWORD_FILE or RESTIC_PASSWORD")


def password_of(asks_twice):
    """RESTIC_PASSWORD_FILE, else RESTIC_PASSWORD, else what is typed."""
    file, given = os.environ.get("RESTIC_PASSWORD_FILE"), os.environb.get(b"RESTIC_PASSWORD")
    if file:
        with open(file, "rb") as it:
            given = it.read().removeprefix(b"\xef\xbb\xbf").strip()
    if not given and not file:
        given = typed("password of the repository: ")
        if asks_twice and given != typed("once more: "):
            raise Refused("the two passwords differ")
    if not given:
        raise Refused("an empty password")
    return given


# Packs

@dataclass
class Blob:
    """A blob of a pack: its type, its id as bytes, and its plain length."""
    type: int
    id: bytes
    length: int


def entries_in(header, overhead, what):
    """The blobs that a header tells; `overhead` is what a seal adds to the lengths in it."""
    blobs, at = [], 0
    while at < len(header):
        if overhead and header[at] in COMPRESSED:
            raise Refused(f"{what} has a compressed blob: {UNTAKEN}")
        if header[at] not in WORDS or at + ENTRY > len(header):
            raise Damaged(f"{what} is damaged: its header is no header")
        kind, length = struct.unpack_from("<BI", header, at)
        if length < overhead:
            raise Damaged(f"{what} is damaged: a blob is too short")
        blobs.append(Blob(kind, bytes(header[at + 5:at + ENTRY]), length - overhead))
        at += ENTRY
    return blobs


def header_of(blobs, overhead):
    return b"".join(struct.pack("<BI", blob.type, blob.length + overhead) + blob.id for blob in blobs)


def split(pack, what):
    """What stands before the header, and the header, of a pack's bytes."""
    pack = memoryview(pack)
    length = struct.unpack("<I", pack[-4:])[0] if len(pack) >= 4 else 0
    if len(pack) < 4 or length > len(pack) - 4:
        raise Damaged(f"{what} is damaged: its header is longer than it is")
    return pack[:len(pack) - 4 - length], pack[len(pack) - 4 - length:-4]


def pieces_of(front, blobs, overhead, what):
    """The bytes of each blob, which together make up what stands before the header."""
    if sum(blob.length + overhead for blob in blobs) != len(front):
        raise Damaged(f"{what} is damaged: the lengths of its blobs don't make it up")
    at = 0
    for blob in blobs:
        yield blob, front[at:at + blob.length + overhead]
        at += blob.length + overhead


def require_id(blob, plain, what):
    if hashlib.sha256(plain).digest() != blob.id:
        raise Damaged(f"{what} is damaged: blob {blob.id.hex()} has other bytes")


def plain_pack(key, sealed, what):
    """The plain pack that a sealed one is."""
    front, header = split(sealed, what)
    blobs = entries_in(key.open(header, f"the header of {what}"), SEAL_BYTES, what)
    made = bytearray()
    for blob, piece in pieces_of(front, blobs, SEAL_BYTES, what):
        plain = key.open(piece, f"blob {blob.id.hex()} of {what}")
        require_id(blob, plain, what)
        made += plain
    header = header_of(blobs, 0)
    return bytes(made + header + struct.pack("<I", len(header)))


def sealed_pack(key, blobs):
    """The sealed pack of blobs, each with its plain bytes."""
    made = b"".join(key.seal(plain) for _, plain in blobs)
    header = key.seal(header_of([blob for blob, _ in blobs], SEAL_BYTES))
    return made + header + struct.pack("<I", len(header))


def header_in(path, what):
    """The blobs of a plain pack, of which only the end is read."""
    with file_at(path) as file:
        size = os.fstat(file.fileno()).st_size
        file.seek(max(0, size - 4))
        end = file.read(4)
        length = struct.unpack("<I", end)[0] if len(end) == 4 else 0
        if len(end) != 4 or length > size - 4:
            raise Damaged(f"{what} is damaged: its header is longer than it is")
        file.seek(size - 4 - length)
        blobs = entries_in(file.read(length), 0, what)
    if sum(blob.length for blob in blobs) != size - 4 - length:
        raise Damaged(f"{what} is damaged: the lengths of its blobs don't make it up")
    return blobs


def places_of(blobs, overhead):
    """What an index lists of a pack with these blobs, in their order; `overhead` is what a seal adds to each."""
    listed, at = [], 0
    for blob in blobs:
        length = blob.length + overhead
        listed.append({"id": blob.id.hex(), "length": length, "offset": at, "type": WORDS[blob.type]})
        at += length
    return listed


# Names in documents

def renamed(content, members, names, what):
    """The document with other names for members of its object that are names in this table; all other bytes stay."""
    value = read_document(content, what)
    wanted = value | {member: names.get(value[member], value[member]) for member in members
                      if is_id(value.get(member))}
    pattern = rb'(?<!\\)"(%s)"(\s*:\s*)"([0-9a-f]{64})"' % "|".join(members).encode()
    made = re.sub(pattern, lambda found: b'"%s"%s"%s"' % (
        found[1], found[2], names.get(found[3].decode(), found[3].decode()).encode()), content)
    if read_document(made, what) != wanted:
        raise Refused(f"{what} has {' or '.join(members)} in a place where none is known")
    return made


def without_parent(content):
    """What a snapshot says but for its parent, whose new name it has only if that is there when it crosses."""
    value = read_document(content, "a snapshot")
    value.pop("parent", None)
    return document(value)


def in_order(named):
    """The names of snapshots, each behind those that it names; `named` has those for each."""
    order, state = [], {}
    for first in named:
        stack = [first]
        while stack:
            name = stack[-1]
            if state.get(name) == "done":
                stack.pop()
            elif state.get(name) == "begun":
                state[name] = "done"
                order.append(stack.pop())
            else:
                state[name] = "begun"
                stack += [other for other in named[name] if other in named and other not in state]
    return order


# What was crossed before

def read_map(content, what):
    """The table of a map: for each kind the new name of each old one. Without one that is read, all is crossed anew."""
    try:
        value = json.loads(content)
        pairs = [pair for names in value["names"].values() for pair in names.items()]
        if value["form"] == 1 and all(is_id(name) for pair in pairs for name in pair):
            return value["repository"], value["names"]
    except (ValueError, KeyError, TypeError, AttributeError):
        pass
    print(f"{what} isn't read: all is crossed anew", file=sys.stderr)
    return None, {}


class Lock:
    """A lock of restic's on a repository, as its backups take it."""

    def __init__(self, repo, key):
        self.repo, self.key, self.name, self.taken = repo, key, None, 0

    def refresh(self):
        """Restic takes a lock of half an hour for one that was left."""
        if self.name and time.monotonic() - self.taken < 300:
            return
        value = {"time": moment(), "exclusive": False, "hostname": socket.gethostname(), "username": user(),
                 "pid": os.getpid(), "uid": os.getuid(), "gid": os.getgid()}
        sealed = self.key.seal(document(value))
        before, self.name, self.taken = self.name, name_of(sealed), time.monotonic()
        put(self.repo, f"locks/{self.name}", sealed)
        if before:
            os.unlink(os.path.join(self.repo, "locks", before))

    def __enter__(self):
        require_unlocked(self.repo, self.key)
        self.refresh()
        try:
            time.sleep(0.2)
            require_unlocked(self.repo, self.key)
        except BaseException:
            self.__exit__()
            raise
        return self

    def __exit__(self, *_):
        with contextlib.suppress(FileNotFoundError):
            os.unlink(os.path.join(self.repo, "locks", self.name))


def require_unlocked(repo, key):
    """Refuses a repository that restic has for itself, as its prune does."""
    folder = os.path.join(repo, "locks")
    for name in os.listdir(folder) if os.path.isdir(folder) else []:
        try:
            value = read_document(key.open(bytes_of(os.path.join(folder, name)), f"lock {name}"), f"lock {name}")
        except FileNotFoundError:
            continue
        except Damaged:
            raise Refused(f"{repo!r} has a lock that isn't read, {name}: `restic unlock` removes one that was left")
        if value.get("exclusive") is not False:
            raise Refused(f"{repo!r} is locked by a restic that changes it: `restic unlock` removes one that was left")
