"""Cases of changes and texts: orders, marks, formats, refusals, and what sessions say of them. Usage: texts.py FOLDER."""

import random
import sys

from cases import Cases
from document import NAMES, Document, accepted, change_lines, lent, named, printed
from machine import run, slot

CODES = [0x61, 0x62, 0x63, 0x7a, 0x20, 0x5c, 0xa, 0xe9, 0x20ac, 0x1f600, 0x10ffff]


def random_anchor(rng, known):
    if not known or rng.random() < 0.15:
        return rng.choice("^$")
    return rng.choice("<>"), rng.choice(known)


def random_mark(rng, identity, known):
    key = rng.choice(["strong", "em", "link", "color", "comment:1", "comment:2", "comment:4294967295"])
    anchors = random_anchor(rng, known), random_anchor(rng, known)
    if rng.random() < 0.35:
        return ("u", identity, key) + anchors
    value = {"link": rng.choice(["x", "https://a.b/?q=\\"]), "color": rng.choice(["0000ff", "00ff00", "000000"])}.get(key, "-")
    return ("m", identity, key, value) + anchors


def random_op(rng, node, last, known):
    """An operation that is accepted where these characters are known and the last counter of its peer is this one."""
    kind = rng.choice("iiiiddmmmm") if known else rng.choice("iiim")
    if kind == "i":
        op = ("i", None, rng.choice([None, rng.choice(known), known[-1]]) if known else None, rng.choice(CODES))
    elif kind == "d":
        op = ("d", None, rng.choice(known))
    else:
        op = random_mark(rng, None, known)
    counter = max([last] + [identity[0] for identity in named(op)]) + rng.choice([1, 1, 1, 2, 5])
    return (op[0], (counter, node)) + op[2:]


def random_history(rng, changes, peers):
    """Changes (node, operations) of peers that know all that came before, or their own and a part of it."""
    document, history = Document(), []
    for _ in range(changes):
        node = rng.choice(peers)
        known, last, ops = list(document.codes), document.counters.get(node, 0), []
        for _ in range(rng.randrange(1, 8)):
            op = random_op(rng, node, last, known)
            ops.append(op)
            last = op[1][0]
            if op[0] == "i":
                known.append(op[1])
        if accepted(document, ops):
            sys.exit("a change that should be accepted isn't")
        history.append((node, ops))
    return history


def other_order(rng, history):
    """The same changes in another order in which each peer's come in theirs and each character comes before it is named."""
    rest, known, out = list(history), set(), []
    while rest:
        firsts, seen = [], set()
        for change in rest:
            inserted = known | {op[1] for op in change[1] if op[0] == "i"}
            if change[0] not in seen and all(name in inserted for op in change[1] for name in named(op)):
                firsts.append(change)
            seen.add(change[0])
        change = rng.choice(firsts)
        rest.remove(change)
        out.append(change)
        known |= {op[1] for op in change[1] if op[0] == "i"}
    return out


def lines_of(history):
    return [line for node, ops in history for line in change_lines(node, ops)]


def document_of(history):
    document = Document()
    for _, ops in history:
        if accepted(document, ops):
            sys.exit("a history isn't accepted")
    return document


def histories(cases, rng):
    cases.heading("Random histories of up to five peers, each in two orders. The spans were worked out by tests/models/texts.py, which has")
    cases.heading("the text as a plain tree, and looks at all marks for each character.")
    for at in range(32):
        history = random_history(rng, rng.randrange(2, 14), [1, 2, 3, 7, 65535][:rng.randrange(1, 6)])
        want = printed(document_of(history))
        cases.add(f"history-{at + 1}", ["spans"], want, lines=lines_of(history))
        again = other_order(rng, history)
        if printed(document_of(again)) != want:
            sys.exit("the model's text hangs on the order of the changes")
        if again != history:
            cases.add(f"history-{at + 1}-in-another-order", ["spans"], want, lines=lines_of(again))


def with_fault(rng, op, history_ids):
    """The operation with a counter or a named character that may be at fault."""
    choice = rng.randrange(3)
    if choice == 0:
        return (op[0], (max(1, op[1][0] - rng.randrange(1, 9)), op[1][1])) + op[2:]
    other = rng.choice(history_ids + [(1, 9), (op[1][0] - 1 or 1, 8), (op[1][0] + 3, 1)])
    if op[0] in "id":
        return op[:2] + (other,) + op[3:]
    return op[:-2] + ((rng.choice("<>"), other), op[-1])


def refused_histories(cases, rng):
    cases.heading("Random histories whose last change has an operation that may be refused, and the refusals.")
    counts, number = {46: 0, 47: 0}, 0
    while min(counts.values()) < 15:
        history = random_history(rng, rng.randrange(1, 5), [1, 2, 3])
        node, ops = history[-1]
        place = rng.randrange(len(ops))
        ids = [op[1] for _, before in history for op in before]
        history[-1] = (node, ops[:place] + [with_fault(rng, ops[place], ids)] + ops[place + 1:])
        document = document_of(history[:-1])
        fault = accepted(document, history[-1][1])
        if fault is None or counts.get(fault[0], 0) >= 20:
            continue
        counts[fault[0]] += 1
        number += 1
        want = f"refused {fault[0]} {NAMES[fault[0]]} change {len(history)} line {fault[1] + 2}"
        cases.add(f"refused-history-{number}", ["spans"], [want], 1, lines=lines_of(history))


# Each field of the context that is a number, and how long text and context say that the text is.
FIELDS = [(0x61, offset) for offset in (16, 20, 24, 28, 32, 36, 40, 44)] + [(0x79, 48)]
READ_ALL = (slot(0xb7, 0) + b"".join(slot(0x27, 0, 0, 0, 31) + slot(opcode, 2, 1, offset) + slot(0x0f, 0, 2)
                                     for opcode, offset in FIELDS) + slot(0x95))


def hits(document, number):
    spans, out = lent(document, number), []
    for index, (text, options) in enumerate(spans):
        status, verdict = run(READ_ALL, text.encode(), **options)
        if status or verdict == "verdict 0":
            sys.exit("the reader of the context gives no verdict")
        out.append(f"hit {number} {index} {verdict.split()[1]}")
    return out + [f"end {number} {len(spans)}"]


def sessions(cases, rng):
    cases.heading("Sessions of random histories, with a program that reads all numbers of the context: its verdict is a sum in which")
    cases.heading("each counts.")
    for at in range(12):
        history = random_history(rng, rng.randrange(2, 12), [1, 2, 3])
        lines, want = [f"sub 16 {READ_ALL.hex()}"], ["ok sub 0"]
        document, items = Document(), hits(Document(), 0)
        for number, (node, ops) in enumerate(history, 1):
            accepted(document, ops)
            lines += change_lines(node, ops)
            want.append(f"ok version {number}")
            items += hits(document, number)
        lines.append("pull 0 1024")
        want += items + [f"ok items {len(items)}"]
        cases.add(f"session-of-history-{at + 1}", ["replay"], want, lines=lines)


# Lines of docs/CHANGE_FORMAT.md and what docs/REFUSALS.md says of them, found by hand: input, and what follows `refused`.
FIRST_LINES = [
    ("change 1 1", "41 Truncated change 1"),
    ("change 1 1\n", "41 Truncated change 1"),
    ("change 1 0\n", "42 Limit change 1 line 1"),
    ("change 1 257\n", "42 Limit change 1 line 1"),
    ("change 65536 1\n", "42 Limit change 1 line 1"),
    ("change 0 1\n", "42 Limit change 1 line 1"),
    ("change 1 36893488147419103233\n", "42 Limit change 1 line 1"),
    ("change2 1 1\n", "41 Truncated change 1"),
    ("change 1  1\n", "40 BadLine change 1 line 1"),
    ("change 1 1\r\n", "40 BadLine change 1 line 1"),
    ("change 1 2\ni 1@1 - 0\n", "43 CharRefused change 1 line 2"),
    ("change 1 2\ni 1@1 - 61\ni 2@2 - 61\n", "44 WrongPeer change 1 line 3"),
]
# Second lines of a change of one operation: what follows `refused`, up to ` change 1 line 2`.
SECOND_LINES = [
    ("i 1@1 - 110000", "43 CharRefused"),
    ("i 1@1 - 0", "43 CharRefused"),
    ("i 1@1 - dfff", "43 CharRefused"),
    ("i 1@1 - 0061", "40 BadLine"),
    ("i 01@1 - 61", "40 BadLine"),
    ("i 1@1  - 61", "40 BadLine"),
    ("i 281474976710656@1 - 61", "42 Limit"),
    ("i 0@2 - 61", "42 Limit"),
    ("i 1@2 - d800", "43 CharRefused"),
    ("i 1@2 - 61", "44 WrongPeer"),
    ("m 1@1 color FF0000 ^ $", "40 BadLine"),
    ("m 1@1 comment:0 - ^ $", "42 Limit"),
    ("m 1@1 comment:0 x ^ $", "40 BadLine"),
    ("u 1@1 comment:99999999999999999999999 ^ $", "42 Limit"),
    ("m 1@1 link - >1@1 <340282366920938463463374607431768211456@1", "42 Limit"),
    ("m 1@1 link - >1@1 <1@1", "46 StaleCounter"),
    ("m 1@1 em x ^ $", "40 BadLine"),
    ("u 1@1 code ^ $", "40 BadLine"),
    ("r 1@1 - 2 61 62", "40 BadLine"),
]


def rows_of_lines(cases):
    cases.heading("First lines of changes, and second ones, whole and without the line feed at the end; by hand.")
    for at, (text, want) in enumerate(FIRST_LINES):
        cases.add(f"first-line-{at + 1}", ["spans"], [f"refused {want}"], 1, text=text)
    for at, (line, want) in enumerate(SECOND_LINES):
        cases.add(f"second-line-{at + 1}", ["spans"], [f"refused {want} change 1 line 2"], 1, lines=["change 1 1", line])
        cases.add(f"second-line-{at + 1}-cut-short", ["spans"], ["refused 41 Truncated change 1"], 1, lines=["change 1 1"],
                  text=line)
    cases.add("second-line-of-the-greatest-character", ["spans"], ["0 plain \U0010ffff"], lines=["change 1 1", "i 1@1 - 10ffff"])
    cases.add("second-line-of-a-color", ["spans"], [], lines=["change 1 1", "m 1@1 color 0000ff ^ $"])


# The first peer's characters, mark operations of peers 2, 3 and so on, the first peer's last change, and the spans' texts.
ONE_REMOVED = "i 1@1 - 61 / i 2@1 1@1 62 / i 3@1 2@1 63 / i 4@1 3@1 64 / d 5@1 2@1"
TWO_REMOVED = "i 1@1 - 61 / i 2@1 1@1 62 / i 3@1 2@1 63 / i 4@1 3@1 64 / d 5@1 2@1 / d 6@1 3@1"
ROWS = [
    # Each key at the anchors of a removed character.
    (ONE_REMOVED,
     "m 11@2 strong - <2@1 $ / m 10@3 em - >2@1 $ / m 9@4 link x ^ <2@1 / m 8@5 color 0000ff ^ >2@1 / "
     "m 7@6 comment:1 - <2@1 >2@1 / m 6@7 comment:2 - >2@1 >3@1",
     "", "a|c|d"),
    # Additions and removals that begin or end at one anchor.
    (ONE_REMOVED,
     "m 9@2 strong - <2@1 >4@1 / u 8@3 strong <2@1 $ / m 7@4 strong - ^ <2@1 / u 12@5 strong >3@1 >4@1",
     "", "ac|d"),
    # Values of one key.
    (ONE_REMOVED,
     "m 9@2 link x <1@1 >2@1 / m 7@3 link y <1@1 >3@1 / m 8@4 link z >2@1 $ / u 6@5 link ^ $",
     "", "a|cd"),
    # Marks that cover removed characters alone, or nothing.
    (TWO_REMOVED,
     "m 9@2 color 0000ff <2@1 >3@1 / m 8@3 color 00ff00 >2@1 <4@1 / m 7@4 color ff0000 >1@1 >4@1 / "
     "u 10@5 color >3@1 $ / m 11@6 em - >2@1 <3@1",
     "", "ad"),
    # Two comments, each added and removed.
    (TWO_REMOVED,
     "m 9@2 comment:1 - >3@1 $ / m 8@3 comment:2 - >3@1 $ / u 7@4 comment:1 <1@1 $ / "
     "u 11@5 comment:2 <3@1 >3@1 / m 10@6 comment:2 - ^ <3@1 / m 6@7 comment:1 - ^ >1@1",
     "", "a|d"),
    # The first and the last character are removed.
    ("i 1@1 - 61 / i 2@1 1@1 62 / i 3@1 2@1 63 / d 4@1 1@1 / d 5@1 3@1",
     "m 9@2 strong - >1@1 <3@1 / u 8@3 strong <1@1 >3@1 / m 7@4 em - <1@1 >1@1 / "
     "m 10@5 link x >2@1 >3@1 / m 6@6 color 00000a ^ $ / u 11@7 color >3@1 $",
     "", "b"),
    # All characters are removed.
    ("i 1@1 - 61 / i 2@1 1@1 62 / d 3@1 1@1 / d 4@1 2@1",
     "m 8@2 strong - ^ $ / u 9@3 strong <2@1 >2@1 / m 7@4 comment:1 - >1@1 <2@1 / m 6@5 link x $ ^",
     "", ""),
    # The characters stand in another order than their ids: `bdac` without `d`.
    ("i 1@1 - 61 / i 2@1 - 62 / i 3@1 1@1 63 / i 4@1 2@1 64 / d 5@1 4@1",
     "m 9@2 strong - <4@1 >1@1 / m 8@3 em - <1@1 >2@1 / m 7@4 em - >2@1 $ / u 10@5 em <3@1 $ / "
     "m 6@6 link y ^ <1@1 / m 11@7 link x >4@1 >4@1",
     "", "b|a|c"),
    # The ends of the text, in each order.
    (ONE_REMOVED,
     "m 10@2 color 00000a ^ $ / m 9@3 color 00000b ^ >1@1 / u 8@4 color ^ ^ / u 11@5 color $ $ / "
     "m 7@6 comment:1 - $ ^ / m 6@7 comment:2 - <1@1 >4@1",
     "", "acd"),
    # One counter, so that the peers decide.
    (ONE_REMOVED,
     "m 6@2 strong - ^ $ / u 6@3 strong <3@1 $ / m 6@4 em - <2@1 >3@1 / u 6@5 em <2@1 >2@1 / "
     "m 6@6 link x <3@1 $ / m 6@7 link y <3@1 >3@1",
     "", "a|c|d"),
    # All keys at one anchor.
    (ONE_REMOVED,
     "m 20@2 strong - >1@1 <4@1 / m 19@3 em - >1@1 <4@1 / m 18@4 link x >1@1 <4@1 / "
     "m 17@5 color 0000ff >1@1 <4@1 / m 16@6 comment:1 - >1@1 <4@1 / m 15@7 comment:2 - >1@1 <4@1 / "
     "u 21@8 strong >2@1 <3@1 / u 22@9 em <3@1 >3@1 / u 14@10 link <3@1 >3@1 / "
     "m 23@11 color 00ff00 <3@1 $ / u 24@12 comment:1 <2@1 >2@1 / u 25@13 comment:2 >2@1 $",
     "", "a|c|d"),
    # Characters are typed between the anchors afterwards: `aybxc` without `b`.
    ("i 1@1 - 61 / i 2@1 1@1 62 / i 3@1 2@1 63 / d 4@1 2@1",
     "m 9@2 strong - <1@1 <3@1 / m 8@3 em - <1@1 >2@1 / m 7@4 link x >1@1 $ / m 6@5 color 0000ff <2@1 $ / "
     "m 5@6 comment:1 - >2@1 >3@1 / m 10@7 comment:2 - <2@1 <3@1",
     "i 5@1 2@1 78 / i 6@1 1@1 79", "a|y|x|c"),
    # A character is removed that has marks.
    ("i 1@1 - 61 / i 2@1 1@1 62 / i 3@1 2@1 63",
     "m 6@2 strong - <2@1 >2@1 / u 5@3 strong <1@1 >3@1 / m 7@4 em - >2@1 >3@1 / "
     "m 4@5 comment:2 - >1@1 <3@1",
     "d 4@1 2@1", "a|c"),
]


def parsed_id(text):
    counter, node = text.split("@")
    return int(counter), int(node)


def parsed_anchor(text):
    return text if len(text) == 1 else (text[0], parsed_id(text[1:]))


def parsed(line):
    words = line.split(" ")
    if words[0] == "i":
        return "i", parsed_id(words[1]), None if words[2] == "-" else parsed_id(words[2]), int(words[3], 16)
    if words[0] == "d":
        return "d", parsed_id(words[1]), parsed_id(words[2])
    return (words[0], parsed_id(words[1])) + tuple(words[2:-2]) + (parsed_anchor(words[-2]), parsed_anchor(words[-1]))


def change_of(node, text):
    return node, [parsed(line) for line in text.split(" / ")]


def rows_of_marks(cases):
    cases.heading("Marks at removed characters and at one anchor, each of a peer of its own, in order and reversed. The texts of the spans")
    cases.heading("were found by hand, their formats by the model.")
    for at, (text, marks, last, want) in enumerate(ROWS):
        peers = [change_of(node, line) for node, line in enumerate(marks.split(" / "), 2)]
        for order, changes in (("", peers), ("-reversed", peers[::-1])):
            history = [change_of(1, text)] + changes + ([change_of(1, last)] if last else [])
            document = document_of(history)
            if "|".join(span for span, _ in document.spans()) != want:
                sys.exit(f"the model's spans aren't those found by hand: {marks}")
            cases.add(f"marks-{at + 1}{order}", ["spans"], printed(document), lines=lines_of(history))


def main():
    cases = Cases()
    rng = random.Random(2022)
    rows_of_lines(cases)
    rows_of_marks(cases)
    histories(cases, rng)
    refused_histories(cases, rng)
    sessions(cases, rng)
    cases.write(sys.argv[1], "texts")


if __name__ == "__main__":
    main()
