"""Policies, requests and lists of names written, and tables read, as include/sod.h lays them out.

A privilege is a pair (operation, target); a context is pairs (type, value), the outermost level first. What
breaks a limit is written all the same: the engine says so, by its number.
"""
import struct
from collections import namedtuple

FIXED, EVERY, EACH, RANGE = 1, 2, 3, 4
CONTEXT_TYPE, CONTEXT_VALUE, ROLE, OPERATION, TARGET = 1, 2, 3, 4, 5
Record = namedtuple("Record", "user roles privilege context rules")


def sums(data):
    a, b = 1, 0
    for word, in struct.iter_unpack("<I", data):
        a = (a + word) % 2**32
        b = (b + a) % 2**32
    return struct.pack("<II", a, b)


def sealed(block):
    """A block with zeros after what is given and its check at the end."""
    block = bytes(block).ljust(504, b"\0")
    return block + sums(block)


def level(kind, mark, value=0, high=0):
    """A rule's level: FIXED has a value; RANGE is from value to high, both included."""
    return struct.pack("<HBxHH", kind, mark, value, high)


def roles(m, *members):
    """The exclusion: nobody is active in m of these roles."""
    return struct.pack("<4B", 1, m, len(members), 0) + b"".join(
        struct.pack("<HH", role, 0) for role in members).ljust(32, b"\0")


def privileges(m, *members):
    """The exclusion: nobody does m of these privileges; one that is listed twice counts up to twice."""
    return struct.pack("<4B", 2, m, len(members), 0) + b"".join(
        struct.pack("<HH", *member) for member in members).ljust(32, b"\0")


def rule(levels, exclusions, first=None, last=None):
    head = bytes([len(levels), len(exclusions), first is not None, last is not None]) + bytes(4)
    steps = struct.pack("<4H", *(first or (0, 0)), *(last or (0, 0)))
    return head + b"".join(levels).ljust(32, b"\0") + steps + b"".join(exclusions)


def policy(rules, permissions):
    """The image of rules and of permissions, pairs (role, privilege)."""
    entries = [struct.pack("<4H", role, *privilege, 0) for role, privilege in permissions]
    blocks = [(1, one) for one in rules]
    for at in range(0, len(entries), 61):
        some = entries[at:at + 61]
        blocks.append((3, struct.pack("<H6x", len(some)) + b"".join(some)))
    return b"".join(sealed(struct.pack("<IHH", kind, i, len(blocks)) + body)
                    for i, (kind, body) in enumerate(blocks))


def names(kinds):
    """The list of names, from a dictionary for each kind: what number each name stands for."""
    return b"".join(struct.pack("<BBH60s", kind, len(name), number, name.encode())
                    for kind, numbers in kinds.items() for name, number in numbers.items())


def context(levels):
    """Pairs (type, value) as bytes: the end of a request, or what is closed."""
    return b"".join(struct.pack("<HH", *one) for one in levels).ljust(16, b"\0")


def request(user, active, privilege, levels=()):
    """This user, active in these roles, asks to do this in the context of these levels."""
    mask = sum(1 << role - 1 for role in set(active))
    return struct.pack("<IIHH", user, mask, *privilege) + context(levels)


def members(word):
    return {i + 1 for i in range(32) if word >> i & 1}


def records(table):
    """The records of a table that passed its check, the earliest first."""
    for start in range(0, len(table), 512):
        held, = struct.unpack_from("<H", table, start + 8)
        for at in range(start + 24, start + 24 + 32 * held, 32):
            user, active, operation, target, *levels, marks = struct.unpack_from("<IIHH8HI", table, at)
            used = [pair for pair in zip(levels[::2], levels[1::2]) if pair[0]]
            yield Record(user, members(active), (operation, target), used, members(marks))


def larger(table, blocks):
    """The same records in a table of more blocks."""
    bodies = [table[at + 8:at + 504] for at in range(0, len(table), 512)]
    bodies += [bytes(8) + table[16:24]] * (blocks - len(bodies))
    return bytearray(b"".join(sealed(struct.pack("<IHH", 2, i, blocks) + body) for i, body in enumerate(bodies)))
