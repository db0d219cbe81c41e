"""The parts of the tables: in stdin and stdout of their crate a line `== TABLE` stands before the lines of each."""
import os

CRATES = os.path.join(os.path.dirname(os.path.realpath(__file__)), "..", "crates")


def part_of(crate, name, table):
    """The lines of a table in the file of this name."""
    with open(os.path.join(CRATES, crate, name), encoding="utf-8", newline="\n") as file:
        lines = file.read().split("\n")[:-1]
    first = lines.index(f"== {table}") + 1
    heads = (place for place in range(first, len(lines)) if lines[place].startswith("== "))
    return lines[first:next(heads, len(lines))]
