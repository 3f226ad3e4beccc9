"""Computes the masks of crates/gd_cut_rows/src/masks.rt from the formats of docs/FORMATS.md, and prints that file.

A mask makes of one sound copy another that is sealed as well: each is a place in the copy, and what the byte there is
combined with. It shares no code with the program: what it knows is what the formats say.
"""

import hashlib
import sys

PAGE_LEN, PAGE_COUNT = 512, 32
PAYLOAD_LEN = PAGE_LEN * PAGE_COUNT
EVENTS_AT, BILLS_AT = 5_956, 7_656
FULL_COUNT = 2**36
TAKEN = 1
LINE = 118

# The digest of the built-in setup, and that of another one.
DIGEST = bytes.fromhex("52b9d80093ab6a5364b17697949a86777b889bd9198bf1417bd4521e72a89f96")
OTHER_DIGEST = DIGEST[:-1] + b"\x97"


class View:
    """What a payload spells, of starts and bills alone. The first start is noted, and of the bills those that are given."""

    def __init__(self, count, starts, bills, balance, bill_in, noted=()):
        self.count, self.balance = count, balance
        self.totals = [0] * 16
        self.totals[0], self.totals[11] = bill_in, starts
        self.last = [0] * 9
        self.last[0], self.last[8] = bills, starts
        self.events = ((1, 1, 0),) if starts else ()
        self.bills = noted

    def payload(self, digest=DIGEST):
        head = digest + self.count.to_bytes(8, "big") + self.balance.to_bytes(8, "big")
        head += b"".join(total.to_bytes(8, "big") for total in self.totals)
        head += bytes(2) + bytes(10) + bytes(20)
        for last in self.last:
            head += last.to_bytes(8, "big") + bytes([TAKEN if last else 0, 0, 0, 0])
        for length in (0, len(self.events), len(self.bills), 0):
            head += length.to_bytes(2, "big")
        payload = bytearray(PAYLOAD_LEN)
        payload[: len(head)] = head
        events = b"".join(p.to_bytes(8, "big") + bytes([c]) + d.to_bytes(8, "big") for p, c, d in self.events)
        bills = b"".join(p.to_bytes(8, "big") + v.to_bytes(4, "big") for p, v in self.bills)
        payload[EVENTS_AT : EVENTS_AT + len(events)] = events
        payload[BILLS_AT : BILLS_AT + len(bills)] = bills
        return bytes(payload)


def sealed(sequence, payload):
    """A copy with an open gate, whose seal is the digest of its front."""
    front = b"GDCM" + (0).to_bytes(2, "big") + PAGE_COUNT.to_bytes(2, "big") + sequence.to_bytes(8, "big")
    for page in range(PAGE_COUNT):
        front += hashlib.sha256(payload[page * PAGE_LEN : (page + 1) * PAGE_LEN]).digest()
    return b"\xa5" + front + hashlib.sha256(front).digest() + payload


def copy_of(view):
    return sealed(view.count, view.payload())


def masks(copy, other):
    return [(place, a ^ b) for place, (a, b) in enumerate(zip(copy, other)) if a != b]


def const(name, doc, pairs):
    text = f"/// {doc}\n#[rattlefmt::skip]\npub(crate) const {name}: &[(&str, &str)] = &[\n"
    line = "   "
    for place, mask in pairs:
        pair = f' ("{place}", "{mask}"),'
        if len(line + pair) > LINE:
            text += line + "\n"
            line = "   "
        line += pair
    return text + line + "\n];\n"


def file():
    """The whole file."""

    def billed(value):
        return View(2, 1, 1, value, value, ((2, value),))

    started = View(1, 1, 0, 0, 0)
    unbalanced = View(2, 1, 1, 500, 0)
    at_1, at_2 = copy_of(started), copy_of(billed(500))
    many = FULL_COUNT - 1
    consts = [
        ("LATER", "Of a copy at the count 1: a copy at the count 7, with six bills taken and 900 cents.",
         masks(at_1, copy_of(View(7, 1, 6, 900, 900)))),
        ("EARLIER", "Of a copy at the count 2, with a bill of 500 cents taken: the copy at the count 1 before it.",
         masks(at_2, at_1)),
        ("RICHER", "Of that copy at the count 2: one at the same count, with a bill of 2,000 cents in place of that of 500.",
         masks(at_2, copy_of(billed(2_000)))),
        ("MISCOUNTED", "Of a copy at the count 1: one at the sequence 9, with the same payload.",
         masks(at_1, sealed(9, started.payload()))),
        ("EMPTIED", "Of a copy at the count 1: one at the sequence 9, with the payload of no entry.",
         masks(at_1, sealed(9, View(0, 0, 0, 0, 0).payload()))),
        ("UNBALANCED", "Of a copy at the count 1: one at the count 2, with 500 cents that nobody put in. It spells no view.",
         masks(at_1, copy_of(unbalanced))),
        ("ZEROED", "Of a copy at the count 1: one at the sequence 9, with zeros as its payload, the digest of a setup among them.",
         masks(at_1, sealed(9, bytes(PAYLOAD_LEN)))),
        ("OTHER_SETUP", "Of a copy at the count 1: one at the count 2, with a bill of 500 cents taken under another setup.",
         masks(at_1, sealed(2, billed(500).payload(OTHER_DIGEST)))),
        ("OTHER_UNBALANCED", "Of a copy at the count 1: one at the count 2, with 500 cents that nobody put in under another setup.",
         masks(at_1, sealed(2, unbalanced.payload(OTHER_DIGEST)))),
        ("FULL", "Of a copy at the count 1: one of a full history, at 2^36, with 500 cents and as many bills told as it has room for.",
         masks(at_1, copy_of(View(FULL_COUNT, 1, many, 500, 500)))),
        ("NEARLY_FULL", "Of the same copy: one with an entry less.",
         masks(at_1, copy_of(View(many, 1, many - 1, 500, 500)))),
    ]
    head = (
        "//! Masks that make of one copy another that is sealed as well. Each is a place in the copy and what the byte there is\n"
        "//! combined with. They were computed outside of the program, from the formats of docs/FORMATS.md.\n"
    )
    return head + "".join("\n" + const(*item) for item in consts)


if __name__ == "__main__":
    sys.stdout.write(file())
