"""A script of all kinds of line for a folder, and its answers, one line after the other."""

HELLO = "68656c6c6f00050000002cf24dba5fb0a30e26e83b2ac5b9e29e1b161e5c1fa7425e73043362938b982425000000"


def backup(day, note):
    files = f"/etc/hosts=6c6f63616c /home/ada/key=736563726574 /home/ada/notes={note}"
    return f"backup web 2024-03-{day:02}T22:00:00Z {files}"


LINES = [
    backup(4, "6f6e65"), backup(5, "74776f"), backup(6, "7468726565"), "tag all +kept", "undo 4", "redo 4",
    "rewrite all forget /home/ada/key", "undo 5", "redo 5", "forget all last=1", "restore @5", "mark", "audit", "sweep",
    "undo 8", "undo 7", "undo 6", "restore @5", "redo 6", "redo 7", "redo 8", "add index 7b7d", "repair", "undo 10",
    "redo 10", f"add pack {HELLO}", "drop pack @11", "undo 12", "redo 12", "empty 6", backup(7, "666f7572"),
    backup(8, "66697665"), "forget all last=1", "mark", "sweep", "undo 17", "empty 9", "undo 16", "undo 15", "list",
    "drop snapshot @14", "undo 18", "redo 15", "redo 16", "redo 17", "undo 17", "empty 18", "count",
    backup(9, "736978"), backup(10, "736978"), "tag all +six", "forget all last=1", backup(11, "736978"), "cascade 19",
    "redo 19", "redo 20", "redo 21", "redo 22", "redo 23", "cascade 20", "cascade 19", "redo 19", "empty 23", "count",
]
# What each cascade takes back, told by hand: 20 and 23 use the files of 19, 21 and 22 drop snapshots of 19 and 20.
TAKEN = [[23, 22, 21, 20, 19], [22, 21, 20], [23, 19]]
LAST_WORDS = {"restore": "restored", "audit": "audit", "list": "files", "count": "files", "cascade": "taken"}


def answer_to(program, line):
    """The whole answer to one line, or what there is of it where the program ends."""
    try:
        program.stdin.write(line.encode() + b"\n")
        program.stdin.flush()
    except BrokenPipeError:
        pass
    last, answer = LAST_WORDS.get(line.split()[0], "ok").encode(), b""
    while True:
        text = program.stdout.readline()
        answer += text
        if not text.endswith(b"\n") or text.startswith((last + b" ", b"no ", b"bad line")):
            return answer


def is_answered(answer):
    return answer.endswith(b"\n") and not answer.startswith((b"no ", b"bad line"))
