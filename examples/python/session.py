"""The sample session: prints its fifteen lines, which docs/GUIDE.md goes through one by one.

    python3 examples/python/session.py
    python3 examples/python/session.py preview    each line behind one that tells beforehand what it will be
    python3 examples/python/session.py close      the fifteen lines; then depot 5 shuts
    python3 examples/python/session.py text       the rules as text, and no session
"""
import sys

import images
import sod

DEPOT, JOB = 1, 2
ADJUSTER, CHECKER, COUNTER = 1, 2, 3
ADJUST, CHECK, CLOSE, BEGIN_COUNT, END_COUNT = [(operation, 1) for operation in (1, 2, 4, 5, 6)]

POLICY = images.policy(
    rules=[
        images.rule([images.level(DEPOT, images.EVERY), images.level(JOB, images.EACH)],
                    [images.privileges(2, ADJUST, CHECK, CHECK), images.roles(2, ADJUSTER, CHECKER)],
                    last=CLOSE),
        images.rule([images.level(DEPOT, images.EACH)], [images.roles(2, ADJUSTER, COUNTER)],
                    first=BEGIN_COUNT, last=END_COUNT),
    ],
    permissions=[(ADJUSTER, ADJUST), (CHECKER, CHECK), (CHECKER, CLOSE), (COUNTER, BEGIN_COUNT)],
)

NAMES = images.names({
    images.CONTEXT_TYPE: {"depot": DEPOT, "job": JOB},
    images.ROLE: {"adjuster": ADJUSTER, "checker": CHECKER, "counter": COUNTER},
    images.OPERATION: {"adjust": 1, "check": 2, "close": 4, "begin-count": 5, "end-count": 6},
    images.TARGET: {"bench": 1},
})


def at(depot, job=None):
    return [(DEPOT, depot)] + ([(JOB, job)] if job else [])


SESSION = [images.request(*asked) for asked in [
    (7, {ADJUSTER}, ADJUST, at(5, 90)),
    (7, {CHECKER}, CHECK, at(5, 90)),
    (7, {CHECKER}, CHECK, at(6, 90)),
    (7, {CHECKER}, CHECK, at(5, 91)),
    (8, {CHECKER}, CHECK, at(5, 90)),
    (8, {CHECKER}, CHECK, at(5, 90)),
    (8, {ADJUSTER}, CHECK, at(5, 90)),
    (9, {ADJUSTER, CHECKER}, ADJUST, at(5, 90)),
    (8, {CHECKER}, CLOSE, at(5, 90)),
    (7, {CHECKER}, CHECK, at(5, 90)),
    (7, {CHECKER}, CHECK, at(5)),
    (10, {COUNTER}, BEGIN_COUNT, at(5)),
    (10, {ADJUSTER}, ADJUST, at(5, 92)),
    (11, {ADJUSTER}, ADJUST, at(5, 92)),
    (12, {CHECKER}, CLOSE, at(5, 92)),
]]


def answer(call, table, asked):
    try:
        return call(POLICY, table, asked)
    except sod.Refused as refusal:
        return refusal


def shut(table):
    """Nothing is on record in depot 6. Depot 5 is closed, its job 92 first."""
    for number, levels in enumerate([at(6), at(5, 92), at(5)], len(SESSION) + 1):
        print(number, answer(sod.close, table, images.context(levels)))
    # Line 13 again. Nothing is forbidden by a closing, and the count that it was refused for has ended with it.
    print(number + 1, answer(sod.decide, table, SESSION[12]))


def show_text():
    text = sod.write_rules(POLICY, NAMES)
    print(text.decode())
    # Read again, with the permissions of this policy, it is this policy.
    assert sod.read_rules(text, NAMES, second=POLICY) == POLICY


def main(*words):
    if words == ("text",):
        return show_text()
    table = sod.fresh_table(POLICY, blocks=1)
    for number, request in enumerate(SESSION, 1):
        if words == ("preview",):    # for the bench, while the instrument is still boxed: nothing is recorded
            print(number, answer(sod.preview, table, request))
        print(number, answer(sod.decide, table, request))
    if words == ("close",):
        shut(table)
    assert sod.check_table(POLICY, table) == len(list(images.records(table)))


if __name__ == "__main__":
    main(*sys.argv[1:])
