"""The runs of crates/keep_cases: scripts of the program and what they are answered, which was never taken from it."""
from typing import NamedTuple

from parts import part_of


class Case(NamedTuple):
    words: tuple
    script: bytes
    answers: bytes = b""
    status: int = 0
    errors: bytes = b""


def added_by(row):
    """What a row adds to the words, and what to the script. One of a folder or a file adds nothing."""
    sign, _, text = row.partition(b" ")
    match sign:
        case b"-":
            return (text.decode(),), b""
        case b"|":
            return (), text + b"\n"
        case b"*":
            count, _, repeated = text.partition(b" ")
            return (), repeated * int(count)
        case b"x":
            return (), bytes.fromhex(text.decode())
        case b"&" | b"f":
            return (), b""
    raise ValueError(row)


def blocks(name):
    """The rows below each `= NAME` of a file of the table."""
    found, rows = {}, []
    for row in part_of("keep_cases", name, "runs"):
        if row.startswith("= "):
            rows = found.setdefault(row[2:], [])
        else:
            rows.append(row.encode())
    return found


def cases():
    """All cases by name."""
    answered, found = blocks("stdout"), {}
    for name, rows in blocks("stdin").items():
        words, script = (), b""
        for row in rows:
            if row and not row.startswith(b"#"):
                more_words, more = added_by(row)
                words, script = words + more_words, script + more
        *answers, ending = answered[name]
        status, _, said = ending.removeprefix(b"-> ").partition(b" ")
        errors = said + b"\n" if said else b""
        found[name] = Case(words, script, b"".join(line + b"\n" for line in answers), int(status), errors)
    return found
