"""Keeps a policy and its table in a folder, so that no grant is lost: not to a crash, not to a second terminal.

    python3 examples/python/keep.py FOLDER fresh BLOCKS          makes FOLDER/table for FOLDER/policy, if there is none
    python3 examples/python/keep.py FOLDER < REQUESTS            decides requests of 28 bytes, a line for each
    python3 examples/python/keep.py FOLDER preview < REQUESTS    tells what each would get now, and writes nothing
    python3 examples/python/keep.py FOLDER close < CONTEXTS      closes contexts of 16 bytes, a line for each

examples/c/keep.c does the same with the same files; both may be at work on one folder.
"""
import contextlib
import fcntl
import os
import sys
from pathlib import Path

import sod


@contextlib.contextmanager
def locked(folder):
    """The lock is a file of its own: the table's file is another one each time that it is stored."""
    with open(folder / "lock", "a") as lock:
        fcntl.flock(lock, fcntl.LOCK_EX)    # let go where the file is closed, in a crash too
        yield


def store(folder, table):
    """The whole new table is on the disk before it takes the old one's name."""
    with open(folder / "table.new", "wb") as file:
        file.write(table)
        file.flush()
        os.fsync(file.fileno())
    os.rename(folder / "table.new", folder / "table")
    names = os.open(folder, os.O_RDONLY)
    os.fsync(names)
    os.close(names)


def fresh(folder, blocks):
    """Only where there is no table: a fresh one has forgotten everything."""
    with locked(folder):
        if (folder / "table").exists():
            sys.exit(f"{folder}/table: is there already")
        store(folder, sod.fresh_table((folder / "policy").read_bytes(), blocks))


def stored(folder, call, asked):
    """What the call returns, told only once the table is stored; or Refused is raised."""
    with locked(folder):
        policy = (folder / "policy").read_bytes()
        table = bytearray((folder / "table").read_bytes())
        answer = call(policy, table, asked)
        store(folder, table)
    return answer


def decide(folder, request):
    return stored(folder, sod.decide, request)


def close(folder, context):
    return stored(folder, sod.close, context)


def preview(folder, request):
    """A Preview, or WouldBeRefused is raised. Without the lock: the table's file is never altered, only replaced."""
    return sod.preview((folder / "policy").read_bytes(), (folder / "table").read_bytes(), request)


def answer_all(folder, call, length=28):
    while asked := sys.stdin.buffer.read(length):
        try:
            print(call(folder, asked), flush=True)
        except sod.Refused as refusal:
            print(refusal, flush=True)


def main(folder, *words):
    if not words:
        answer_all(folder, decide)
    elif words == ("preview",):
        answer_all(folder, preview)
    elif words == ("close",):
        answer_all(folder, close, length=16)
    else:
        _, blocks = words
        fresh(folder, int(blocks))


if __name__ == "__main__":
    main(Path(sys.argv[1]), *sys.argv[2:])
