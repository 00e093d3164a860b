"""Where the makers of stored files write, and how the counts of the programs that read them are said.

A maker that is run plainly writes crates/PROGRAM/stdin and stdout, or one of several sets that a program reads: crates/PROGRAM/data/SET and its
line of stdout. With `--to DIR` it writes below DIR/PROGRAM instead, so that what is stored can be held to what the maker makes today.
"""
import argparse
import fcntl
import os
import sys

MOST_BYTES = 1600000  # for the repository's sake: the programs read a record at a time, and would take more


def counted(name, right, wrong):
    """The line that a program prints if just those records are wrong that are so on purpose."""
    return "%s (%d wrong on purpose): %d right %d wrong %d\n" % (name, wrong, right + wrong, right, wrong)


def spoiled(words, at):
    """The words of a record with another one at a place."""
    at %= len(words)
    return words[:at] + [words[at] ^ 1] + words[at + 1:]


def folder():
    options = argparse.ArgumentParser(description="Makes what a program reads and must print.")
    options.add_argument("--to", metavar="DIR", default="crates", help="writes DIR/PROGRAM/.. instead of crates/PROGRAM/..")
    return options.parse_args().to


def put(program, name, data):
    if len(data) > MOST_BYTES:
        sys.exit("%s would read %d bytes" % (program, len(data)))
    path = os.path.join(folder(), program, name)
    os.makedirs(os.path.dirname(path), exist_ok=True)
    with open(path, "wb") as out:
        out.write(data)


def keep(program, stdin, stdout=None):
    """Stores what a program reads, and what it must print where that is given."""
    put(program, "stdin", stdin)
    if stdout is not None:
        put(program, "stdout", stdout.encode())


def keep_set(program, name, data, line):
    """Stores one of the sets that a program reads, and the line that it must print for it; the lines are in order."""
    put(program, "data/" + name.replace(" ", "_"), data)
    with open(os.path.join(folder(), program, "stdout"), "a+", encoding="utf-8") as out:
        fcntl.flock(out, fcntl.LOCK_EX)  # the makers of other sets may run at the same time
        out.seek(0)
        others = [said for said in out if not said.startswith(name + " ")]
        out.truncate(0)
        out.write("".join(sorted(others + [line])))
