"""The two policies of section 3 of source document 001, in examples/published.xml: read, shown and put to use.

    python3 examples/python/published.py

They are mended to the form: without comments, and with an end tag for each policy. The last line shows what a
comment gets.
"""
from pathlib import Path

import images
import sod

TEXT = (Path(__file__).resolve().parents[1] / "published.xml").read_bytes()

BRANCH, PERIOD, TAX_OFFICE, TAX_REFUND_PROCESS = 1, 2, 3, 4
TELLER, AUDITOR, CLERK, MANAGER = 1, 2, 3, 4
COMMIT_AUDIT, PREPARE, DECIDE, COMBINE, CONFIRM, HANDLE_CASH = (1, 1), (2, 2), (3, 2), (4, 4), (5, 3), (6, 5)

NAMES = images.names({
    images.CONTEXT_TYPE: {"Branch": BRANCH, "Period": PERIOD, "TaxOffice": TAX_OFFICE,
                          "taxRefundProcess": TAX_REFUND_PROCESS},
    images.ROLE: {"Teller": TELLER, "Auditor": AUDITOR},
    images.OPERATION: {"CommitAudit": 1, "prepareCheck": 2, "approve/disapproveCheck": 3, "combineResults": 4,
                       "confirmCheck": 5},
    images.TARGET: {"http://audit.location.com/audit": 1, "http://www.myTaxOffice.com/Check": 2,
                    "http://secret.location.com/audit": 3, "http://secret.location.com/results": 4},
})

# The text says who is kept apart, and not who may do what. That is taken from a policy without rules.
PERMISSIONS = images.policy(rules=[], permissions=[
    (TELLER, HANDLE_CASH), (AUDITOR, COMMIT_AUDIT),
    (CLERK, PREPARE), (CLERK, CONFIRM), (MANAGER, DECIDE), (MANAGER, COMBINE),
])


def refund(process):
    return [(TAX_OFFICE, 1), (TAX_REFUND_PROCESS, process)]


REQUESTS = [
    ("7 handles cash in branch 1", images.request(7, {TELLER}, HANDLE_CASH, [(BRANCH, 1), (PERIOD, 1)])),
    ("7 audits branch 2 in that period", images.request(7, {AUDITOR}, COMMIT_AUDIT, [(BRANCH, 2), (PERIOD, 1)])),
    ("8 audits it", images.request(8, {AUDITOR}, COMMIT_AUDIT, [(BRANCH, 2), (PERIOD, 1)])),
    ("10 prepares a check", images.request(10, {CLERK}, PREPARE, refund(1))),
    ("10 confirms it", images.request(10, {CLERK}, CONFIRM, refund(1))),
    ("11 approves it", images.request(11, {MANAGER}, DECIDE, refund(1))),
    ("11 approves it again", images.request(11, {MANAGER}, DECIDE, refund(1))),
    ("11 combines the results", images.request(11, {MANAGER}, COMBINE, refund(1))),
    ("12 combines the results", images.request(12, {MANAGER}, COMBINE, refund(1))),
    ("13 confirms the check", images.request(13, {CLERK}, CONFIRM, refund(1))),
]


def place(text, byte):
    """Line and column of a byte, both from 1."""
    return text.count(b"\n", 0, byte) + 1, byte - text.rfind(b"\n", 0, byte)


def use(policy):
    table = sod.fresh_table(policy, blocks=1)
    for words, request in REQUESTS:
        try:
            print(f"{words}: {sod.decide(policy, table, request)}")
        except sod.Refused as refusal:
            print(f"{words}: {refusal}")


def main():
    policy = sod.read_rules(TEXT, NAMES, second=PERMISSIONS)
    print(f"{sod.check_policy(policy)} rules in {len(policy)} bytes, written as")
    text = sod.write_rules(policy, NAMES)
    print(text.decode().replace("><", ">\n<"))    # the engine writes one line
    assert sod.read_rules(text, NAMES, second=policy) == policy
    use(policy)
    commented = TEXT.replace(b"    <LastStep", b"    <!-- each period -->\n    <LastStep", 1)
    try:
        sod.read_rules(commented, NAMES, second=PERMISSIONS)
    except sod.Refused as refusal:
        print("with a comment: {}, line {}, column {}".format(refusal, *place(commented, refusal.first)))


if __name__ == "__main__":
    main()
