"""The eight calls of the engine, from Python. include/sod.h says what each promises.

It loads target/libsod.so, which README.md builds in one command; SOD_LIBRARY in the environment names
another. A policy, a request, a context, a text and a list of names are bytes. A table is a bytearray: the engine
writes to it, and what cannot be written to is a TypeError before the engine is called. Where it is only checked or
previewed, bytes will do.
"""
import ctypes
import os
from collections import namedtuple
from pathlib import Path

BLOCK = 512
MOST_POLICY_BLOCKS = 64
MOST_TEXT = 346079
LIBRARY = Path(__file__).resolve().parents[2] / "target" / "libsod.so"


class Grant(namedtuple("Grant", "recorded removed held")):
    def __str__(self):
        return "grant {} {} {}".format(*self)


class Preview(namedtuple("Preview", "recorded removed held")):
    """What a Grant would have, and none itself: nothing is recorded, nothing is reserved."""

    def __str__(self):
        return "would grant {} {} {}".format(*self)


class Closed(namedtuple("Closed", "removed")):
    def __str__(self):
        return "removed {}".format(*self)


class Refused(Exception):
    """A refusal is raised, so that nobody takes it for a grant."""

    def __init__(self, number, first, second):
        super().__init__(number, first, second)
        self.number, self.first, self.second = number, first, second

    def __str__(self):
        return f"refuse {self.number} {self.first} {self.second}"


class WouldBeRefused(Refused):
    """Raised by a preview."""

    def __str__(self):
        return f"would {super().__str__()}"


class Reply(ctypes.Structure):
    _fields_ = [(name, ctypes.c_uint32) for name in ("number", "first", "second", "third")]


# PyDLL and not CDLL: no other thread of Python runs during a call, so none can touch the table.
_library = ctypes.PyDLL(os.environ.get("SOD_LIBRARY", LIBRARY))
_READ = [ctypes.c_char_p, ctypes.c_size_t]                     # bytes alone fit
_WRITE = [ctypes.POINTER(ctypes.c_uint8), ctypes.c_size_t]     # bytes do not
for _name, _types in [("sod_check_policy", _READ), ("sod_check_table", _READ + _READ),
                      ("sod_fresh_table", _READ + _WRITE), ("sod_decide", _READ + _WRITE + _READ),
                      ("sod_preview", _READ + _READ + _READ), ("sod_close", _READ + _WRITE + _READ),
                      ("sod_read_rules", _READ + _READ + _READ + _WRITE),
                      ("sod_write_rules", _READ + _READ + _WRITE)]:
    _function = getattr(_library, _name)
    _function.argtypes, _function.restype = _types, Reply


def _accepted(reply, refused=Refused):
    if reply.number != 0:
        raise refused(reply.number, reply.first, reply.second)
    return reply


def _writable(table):
    return (ctypes.c_uint8 * len(table)).from_buffer(table)


def check_policy(policy):
    """How many rules it has."""
    return _accepted(_library.sod_check_policy(policy, len(policy))).first


def check_table(policy, table):
    """How many records it holds."""
    table = bytes(table)
    return _accepted(_library.sod_check_table(policy, len(policy), table, len(table))).first


def fresh_table(policy, blocks):
    """A table without records, with 15 places in each block."""
    table = bytearray(BLOCK * blocks)
    _accepted(_library.sod_fresh_table(policy, len(policy), _writable(table), len(table)))
    return table


def decide(policy, table, request):
    """A Grant, and the table is brought up to date; or Refused is raised, and the table is as it was."""
    reply = _accepted(_library.sod_decide(policy, len(policy), _writable(table), len(table),
                                          request, len(request)))
    return Grant(reply.first, reply.second, reply.third)


def preview(policy, table, request):
    """What decide would return now, as a Preview; or WouldBeRefused is raised. The table stays as it is."""
    table = bytes(table)
    reply = _library.sod_preview(policy, len(policy), table, len(table), request, len(request))
    reply = _accepted(reply, WouldBeRefused)
    return Preview(reply.first, reply.second, reply.third)


def close(policy, table, context):
    """Closed, and each record whose context begins with this one is gone; or Refused is raised, as by decide."""
    reply = _accepted(_library.sod_close(policy, len(policy), _writable(table), len(table),
                                         context, len(context)))
    return Closed(reply.first)


def read_rules(text, names, second):
    """The policy of a text's rules and of the second policy's permissions; or Refused is raised."""
    output = bytearray(BLOCK * MOST_POLICY_BLOCKS)
    reply = _accepted(_library.sod_read_rules(text, len(text), names, len(names), second, len(second),
                                              _writable(output), len(output)))
    return bytes(output[:reply.first])


def write_rules(policy, names):
    """The rules of a policy as text, all of it in one line; or Refused is raised."""
    output = bytearray(MOST_TEXT)
    reply = _accepted(_library.sod_write_rules(policy, len(policy), names, len(names),
                                               _writable(output), len(output)))
    return bytes(output[:reply.first])
