"""Cases of programs: runs, refusals of words, text, and runs in sessions. Usage: programs.py FOLDER.

Each verdict of a long program is a sum in which each single result counts, so that one wrong result shows.
"""

import random
import sys

from assembler import assembled
from cases import Cases
from document import Document, accepted, change_lines, lent
from machine import (ARITHMETIC, BYTE_ORDER, JUMPS, LINK, LOADS, MASK, OUT_OF_PROFILE, STORES, TEXT, disassembled, has_width,
                     kind_of, named, offset_is_width, refusal, run, slot)

EXIT = slot(0x95)
NUMBERS = [0, 1, 7, 0xffff_ffff_ffff_ffff, 0x8000_0000_0000_0000, 0x7fff_ffff_8000_0001, 0xffff_ffff_8000_0000,
           0xfedc_ba98_7654_3221]
IMMEDIATES = [0, 1, 7, -1, -7, 31, 32, 33, 63, 64, 0x1234_5678, (1 << 31) - 1, -(1 << 31)]


def wide(register, number):
    return slot(0x18, register, 0, 0, number & 0xffff_ffff) + slot(0, 0, 0, 0, number >> 32)


def numbers(values=NUMBERS):
    """r1 and so on get these numbers, and r0 gets 1."""
    return b"".join(wide(at, number) for at, number in enumerate(values, 1)) + slot(0xb7, 0, 0, 0, 1)


# r0 = 31 r0 + r9
FOLD = slot(0x27, 0, 0, 0, 31) + slot(0x0f, 0, 9)


def operations():
    """The opcodes of arithmetic with each offset that they may have."""
    for high, name in ARITHMETIC.items():
        for low in (0xf, 0xc, 0x7, 0x4):
            opcode = high << 4 | low
            kind = kind_of(opcode)
            for offset in (0, 1, 8, 16, 32):
                if offset == 0 or offset_is_width(kind) and has_width(kind, offset, 0):
                    yield opcode, offset, low in (0xf, 0xc)


def comparisons():
    for high in JUMPS:
        for low in (0xd, 0xe, 0x5, 0x6):
            yield high << 4 | low, low in (0xd, 0xe)


def operation_program(opcode, offset, pairs, is_register):
    """The results of the operation on these pairs of a register and a register or immediate."""
    body = b""
    for a, b in pairs:
        body += slot(0xbf, 9, a)
        body += slot(opcode, 9, b, offset) if is_register else slot(opcode, 9, 0, offset, b)
        body += FOLD
    return numbers() + body + EXIT


def comparison_program(opcode, pairs, is_register):
    """A bit for each pair: whether the comparison holds."""
    body = b""
    for a, b in pairs:
        body += slot(0x67, 0, 0, 0, 1)
        body += slot(opcode, a, b, 1) if is_register else slot(opcode, a, 0, 1, b)
        body += slot(0x47, 0, 0, 0, 1)
    return numbers() + body + EXIT


def pairs_of(rng, is_register, count):
    """Pairs of a register and a register or immediate: division of the least by -1 and by 0, and random ones."""
    if is_register:
        return [(5, 4), (7, 4), (8, 1), (3, 1)] + rng.sample([(a, b) for a in range(1, 9) for b in range(2, 9)], count)
    return [(5, -1), (7, -1), (8, 0), (3, 0)] + rng.sample([(a, b) for a in range(1, 9) for b in IMMEDIATES], count)


def add_run(cases, name, data, text="", **options):
    status, printed = run(data, text.encode(), **options)
    words = ["run", data.hex()]
    for option, value in options.items():
        words += ["--link-text" if option == "link" else f"--{option}", str(value)]
    cases.add(name, words, [printed], status, text=text)


def operation_runs(cases, rng):
    cases.heading("Each operation on 18 pairs of numbers, or of a number and an immediate: r0 becomes 31 times r0 and the result,")
    cases.heading("pair by pair. These and what follows were worked out by tests/models/programs.py.")
    for opcode, offset, is_register in operations():
        pairs = pairs_of(rng, is_register, 14)
        add_run(cases, f"all-{opcode:02x}-{offset}", operation_program(opcode, offset, pairs, is_register))
    for opcode in (0x87, 0x84):
        pairs = [(a, 0) for a in range(1, 9)]
        add_run(cases, f"all-{opcode:02x}", operation_program(opcode, 0, pairs, False))
    for opcode in BYTE_ORDER:
        pairs = [(a, bits) for a in range(1, 9) for bits in (16, 32, 64)]
        add_run(cases, f"all-{opcode:02x}", operation_program(opcode, 0, pairs, False))
    cases.heading("Each comparison of 24 such pairs: a bit for each.")
    for opcode, is_register in comparisons():
        pairs = pairs_of(rng, is_register, 20)
        add_run(cases, f"all-{opcode:02x}", comparison_program(opcode, pairs, is_register))


# The numbers 0x0102030405060708 and so on in the four slots of the stack that are nearest to its top.
STACKED = b"".join(wide(5, 0x0102_0304_0506_0708 + at * 0x7876_7574_7372_7170) + slot(0x7b, 10, 5, -8 * at - 8)
                   for at in range(4))
OPTIONS = dict(flags=0x8000_0005, color=0xff_0080, link="https://a.b", comments=2, index=1, count=7, number=0xfedc_ba98_7654_3210)
FEW_OPTIONS = dict(flags=13, number=7 << 56)
LETTERS = "aé\nz😀"


def memory_runs(cases):
    cases.heading("Each load at all places of the context, of the text, of the link and of four slots of the stack.")
    ends = slot(0x79, 2, 1, 0) + slot(0x79, 3, 1, 56) + STACKED + slot(0xb7, 0, 0, 0, 1)
    length = len(LETTERS.encode())
    for opcode, (name, size, _) in LOADS.items():
        body = b""
        for base, low, high in ((1, 0, 72), (2, 0, length), (3, 0, 11), (10, -32, 0)):
            for offset in range(low, high - size + 1):
                body += slot(opcode, 9, base, offset) + FOLD
        add_run(cases, f"all-{name}", ends + body + EXIT, LETTERS, **OPTIONS)
    cases.heading("Each store at places that overlap, and then what is there.")
    for opcode, (name, size) in STORES.items():
        body = b""
        for offset in (-32, -31, -29, -24, -17, -16, -9, -8):
            if opcode & 1:
                body += wide(5, 0x9f8e_7d6c_5b4a_3928 * (-offset) & MASK[64]) + slot(opcode, 10, 5, offset)
            else:
                body += slot(opcode, 10, 0, offset, -0x0102_0304 * (-offset))
        loads = b"".join(slot(0x79, 9, 10, offset) + FOLD for offset in (-32, -24, -16, -8))
        add_run(cases, f"all-{name}", ends + body + loads + EXIT, LETTERS)
    cases.heading("Loads and stores of which a byte is past an end of the context, of the text, of the link or of the stack,")
    cases.heading("and that aren't.")
    for opcode in list(LOADS) + list(STORES):
        size = LOADS[opcode][1] if opcode in LOADS else STORES[opcode][1]
        for base, low, high in ((1, 0, 72), (2, 0, length), (3, 0, 11), (10, -512, 0)):
            for offset in (low - 1, low, high - size, high - size + 1):
                access = slot(opcode, 0, base, offset) if opcode in LOADS else slot(opcode, base, 0, offset)
                data = slot(0x79, 2, 1, 0) + slot(0x79, 3, 1, 56) + slot(0xb7, 0) + access + EXIT
                add_run(cases, f"end-{opcode:02x}-{base}-{offset}", data, LETTERS, link="https://a.b")


DESTINATIONS = [0, 0, 0, 0, 1, 2, 2, 2, 3, 3, 9, 10]
SOURCES = [0, 0, 1, 1, 2, 2, 3, 4, 10, 10]
OFFSETS = [0, 0, 0, 1, 2, 3, 4, 7, 8, 9, 16, 24, 48, 49, 52, 55, 56, -1, -2, -4, -8, -8, -8, -16, -511, -512, -513, -32768]
DISTANCES = [0, 0, 1, 1, 2, 3, 4, -1, -2, 32767]
HALVES = [0, 0, 1, 2, 4, 5, 56, -8, -512, -1, (1 << 31) - 1, -(1 << 31)]
OPCODES = [opcode for opcode in range(256) if kind_of(opcode)]


def random_slot(rng, opcode):
    """An instruction of the opcode, with fields about the ends of what they may be."""
    kind = kind_of(opcode)
    names = named(kind)
    dst = rng.choice(DESTINATIONS) if "d" in names else 0
    src = rng.choice(SOURCES) if "s" in names else 0
    offset = imm = 0
    if kind[0] == "load":
        src, offset = rng.choice([0, 1, 1, 2, 10, 10, 10]), rng.choice(OFFSETS)
    elif kind[0] == "store":
        dst, offset = rng.choice([0, 1, 2, 10, 10, 10, 10]), rng.choice(OFFSETS)
    elif kind[0] in ("compare", "ja"):
        offset = rng.choice(DISTANCES)
    elif offset_is_width(kind):
        offset = rng.choice([offset for offset in (0, 1, 8, 16, 32) if has_width(kind, offset, 0)])
    if kind[0] == "order":
        imm = rng.choice([16, 32, 64])
    elif kind[0] == "ja32":
        imm = rng.choice(DISTANCES)
    elif kind[0] == "wide":
        return slot(opcode, dst, 0, 0, rng.choice(HALVES)) + slot(0, 0, 0, 0, rng.choice(HALVES))
    elif "i" in names:
        imm = rng.choice(IMMEDIATES)
    return slot(opcode, dst, src, offset, imm)


def random_opcode(rng):
    often = [[0xb7], [0xbf, 0xb4, 0x87, 0xd4, 0xdc, 0xd7], [0x79, 0x61, 0x71, 0x7b, 0x7a, 0x73, 0x62], [0x18],
             [0x05, 0x06, 0x95, 0x15, 0x5d]]
    return rng.choice(rng.choice(often + [OPCODES] * 5))


def random_program(rng):
    fronts = [slot(0xb7, 0, 0, 0, 5), slot(0xbf, 2, 10), slot(0x79, 2, 1, 0), slot(0x79, 3, 1, 8), slot(0x7b, 10, 1, -8)]
    data = b"".join(front for front in fronts if rng.random() < 0.5)
    for _ in range(rng.randrange(7)):
        data += random_slot(rng, random_opcode(rng))
    return data + random_slot(rng, rng.choice([0x95, 0x95, 0x95, 0xb7, 0x18, 0x15]))


def spoiled(rng, data):
    data = bytearray(data)
    for _ in range(rng.randrange(1, 3)):
        data[rng.randrange(len(data))] = rng.randrange(256)
    return bytes(data)


def ending(printed):
    """What a run ended with, without its number and slot; a refusal's number stays."""
    words = printed.split()
    return words[2] if words[0] == "fault" else " ".join(words[:2]) if words[0] == "refused" else words[0]


def random_text(rng):
    return LETTERS[:rng.randrange(len(LETTERS) + 1)]


def random_runs(cases, rng):
    cases.heading("Random programs, up to 35 of each way to end.")
    counts, number = {}, 0
    while min([counts.get(end, 0) for end in ("verdict", "out", "F1", "F2", "F3", "F4", "F5", "F6", "F7")]) < 25:
        data, text = random_program(rng), random_text(rng)
        end = ending(run(data, text.encode(), **FEW_OPTIONS)[1])
        counts[end] = counts.get(end, 0) + 1
        if counts[end] <= 35:
            number += 1
            add_run(cases, f"random-{number}", data, text, **FEW_OPTIONS)
    cases.heading("Random programs of which a byte or two were changed, up to 15 of each way to end and of each refusal.")
    counts, number = {}, 0
    while min([counts.get(f"refused {end}", 0) for end in (4, 5, 6, 7, 8, 9)]) < 15:
        data, text = spoiled(rng, random_program(rng)), random_text(rng)
        end = ending(run(data, text.encode())[1])
        counts[end] = counts.get(end, 0) + 1
        if counts[end] <= 15:
            number += 1
            add_run(cases, f"spoiled-{number}", data, text)


def fields_of(rng, opcode):
    return slot(opcode, rng.choice([0, 0, 0, 10, 11, 15]), rng.choice([0, 0, 0, 10, 11, 15]),
                rng.choice([0, 0, 0, 1, 8, 16, 32, -1]), rng.choice([0, 0, 1, 16, 32, 64, -1]))


def add_text(cases, name, data):
    """A program's text, and the program of that text."""
    lines = disassembled(data)
    cases.add(f"text-of-{name}", ["dis"], lines, lines=[data.hex()])
    status, slots = assembled("\n".join(lines))
    if status or "".join(slots) != data.hex():
        sys.exit(f"the models of text disagree: {data.hex()}")
    cases.add(f"program-of-{name}", ["asm"], slots, lines=lines)


def words(cases, rng):
    cases.heading("Bytes as words: each opcode that is refused whatever its fields are.")
    for opcode in range(256):
        if kind_of(opcode) is None:
            data = fields_of(rng, opcode) + EXIT
            cases.add(f"word-{opcode:02x}", ["dis"], [refusal(data)], 1, lines=[data.hex()])
    cases.heading("Each other opcode with random fields: up to one of each refusal; those that aren't refused stand in programs.")
    taken = []
    for opcode in OPCODES:
        counts = {}
        for _ in range(200):
            data = fields_of(rng, opcode) + rng.choice([EXIT, slot(0, 0, 0, 0, -5), b""])
            refused = refusal(data)
            if refused is None:
                taken.append(data)
            elif counts.setdefault(refused, 0) < 1:
                counts[refused] += 1
                cases.add(f"word-{opcode:02x}-{sum(counts.values())}", ["dis"], [refused], 1, lines=[data.hex()])
    rng.shuffle(taken)
    for at in range(4):
        add_text(cases, f"words-{at + 1}", b"".join(taken[at * 100:at * 100 + 100]))
    cases.heading("Random instructions of each opcode.")
    for at in range(3):
        order = OPCODES * 2
        rng.shuffle(order)
        add_text(cases, f"random-{at + 1}", b"".join(random_slot(rng, opcode) for opcode in order[:120]))


TOKENS = ["mov", "ja", "exit", "lddw", "r1", "r11", "x", "7", "0x80000000", "1a", "+", "-", ":", ",", "[", "]", ";"]
FRONTS = [
    "", "", "", "", "mov r1 ,", "mov r11 ,", "mov r0 , -", "mov r10 , 32768", "lddw r1 ,", "lddw r10 , 18446744073709551616",
    "lddw x , -", "ja32", "ja +", "ja32 -", "ja - 32768", "ja + 32768", "neg", "jeq r1", "jeq r1 ,", "jeq r1 , r1 ,",
    "jeq r11 , 7 ,", "jeq r0 , - 7 ,", "jeq r1 , 0x80000000 ,", "ldxw r1 , [ r1", "ldxw r0 , [ r1 +", "ldxw r1 , [ x -",
    "ldxw r1 , [ r10 - 32768", "stw [ r1 + 7 ] ,", "stw [ r1 - 32768 ] , -", "stxw [ r1 + 7 ] ,", "stxw [ r11 -",
    "stxw [ r11 - 7 ]",
]


def random_line(rng):
    front = rng.choice(FRONTS)
    tokens = front.split() + [rng.choice(TOKENS) for _ in range(rng.randrange(4 if not front else 3))]
    return "".join(token + rng.choice([" ", " ", "\t", " \r "]) for token in tokens)


def short_lines():
    """All lines of up to two of the tokens."""
    return [first + " " + second for first in [""] + TOKENS for second in TOKENS]


def add_asm(cases, name, lines):
    status, printed = assembled("\n".join(lines) + "\n")
    cases.add(name, ["asm"], printed, status, lines=lines)


def assembler_lines(cases, rng):
    cases.heading("Lines of tokens between others: all of one or two of these tokens that are refused, and random longer ones; those that")
    cases.heading("aren't refused stand in one text.")
    lines = short_lines() + [random_line(rng) for _ in range(2500)]
    taken, counts, number = [], {}, 0
    for at, line in enumerate(dict.fromkeys(lines)):
        status, printed = assembled(f"x:\nexit\n{line}\nja x")
        front = line.split()[0] if line.split() else ""
        key = (printed[0] if status else "", front, len(line.split()))
        counts[key] = counts.get(key, 0) + 1
        if not status and "label" not in line:
            taken.append(line)
        elif status and counts[key] <= (20 if len(line.split()) <= 2 and at < 306 else 4):
            number += 1
            add_asm(cases, f"line-{number}", ["x:", "exit", line, "ja x"])
    add_asm(cases, "lines-taken", ["x:", "exit"] + taken + ["ja x"])
    for at in range(30):
        mixed = [rng.choice(["a:", "b:", "x:", "c:", "exit", "lddw r1, 5", "ja a", "jeq r1, 7, x", "ja32 c", "", "; x", "a: exit",
                             "lddw r1", "foo", "jeq r1, r2, b", "ja -1", "mov r1, 4294967296"] + taken[:5])
                 for _ in range(rng.randrange(3, 9))]
        add_asm(cases, f"labels-{at + 1}", mixed)


def session_lines(text, color):
    """A change that makes a text of one color, as version 1; the empty text has a character that is removed."""
    lines = [] if text else ["i 1@1 - 61", "d 2@1 1@1"]
    for at, letter in enumerate(text):
        lines.append(f"i {at + 1}@1 {f'{at}@1' if at else '-'} {ord(letter):x}")
    if color is not None:
        lines.append(f"m {len(text) + 1}@1 color {color:06x} ^ $")
    return [f"change 1 {len(lines)}"] + lines


def session_context(text, color):
    return dict(flags=0 if color is None else 8, color=color or 0, number=1)


def add_session(cases, name, text, color, programs):
    """Programs that subscribe to a text and say their verdict on it; with each the refusal, if it is refused."""
    lines, printed, subs = session_lines(text, color), ["ok version 1"], 0
    for data, refused in programs:
        lines.append(f"sub 8 {data.hex()}")
        if refused:
            printed.append(f"no {refused}")
            continue
        lines.append(f"pull {subs} 64")
        printed.append(f"ok sub {subs}")
        subs += 1
        status, verdict = run(data, text.encode(), **session_context(text, color))
        if status:
            sys.exit(f"no run of an accepted program: {data.hex()}")
        number = verdict.split()[1]
        if text and number != "0":
            printed.append(f"hit 1 0 {number}")
        items = 2 if text and number != "0" else 1
        printed += [f"end 1 {1 if text else 0}", f"ok items {items}"]
    cases.add(name, ["replay"], printed, lines=lines)


def number_sessions(cases, rng):
    cases.heading("Programs of numbers alone, whose registers are all set and whose jumps go forward, are accepted: each operation and")
    cases.heading("comparison in sessions.")
    programs = []
    for opcode, offset, is_register in operations():
        pairs = pairs_of(rng, is_register, 3)
        programs.append(operation_program(opcode, offset, pairs, is_register))
    for opcode, bits in [(0x87, [0]), (0x84, [0])] + [(opcode, (16, 32, 64)) for opcode in BYTE_ORDER]:
        pairs = [(a, width) for a in range(1, 9) for width in bits]
        programs.append(operation_program(opcode, 0, pairs, False))
    for opcode, is_register in comparisons():
        pairs = pairs_of(rng, is_register, 4)
        programs.append(comparison_program(opcode, pairs, is_register))
    for at in range(0, len(programs), 40):
        batch = [(data, None) for data in programs[at:at + 40]]
        add_session(cases, f"session-of-numbers-{at // 40 + 1}", "a", None, batch)


# Programs that load from the text behind a test of its end, and what is said of them: a test that a number of bytes are there, then
# a load of the first ones. It is accepted exactly where the load ends at or before them. With the link's fields they load from it.
def guarded(rng, start=0, end=8):
    opcode = rng.choice(list(LOADS))
    size, there, offset = LOADS[opcode][1], rng.randrange(1, 13), rng.randrange(0, 9)
    data = (slot(0x79, 2, 1, start) + slot(0x79, 3, 1, end) + slot(0xbf, 4, 2) + slot(0x07, 4, 0, 0, there) + slot(0xb7, 0)
            + slot(0x2d, 4, 3, 1) + slot(opcode, 0, 2, offset) + EXIT)
    return data, None if offset + size <= there else "21 TextBounds slot 6"


def masked(rng, start=0, length=16):
    """A byte at the masked color, of a text that has `length` bytes; accepted exactly where the last one is one of them."""
    opcode = rng.choice(list(LOADS))
    size, there, mask, more = LOADS[opcode][1], rng.randrange(4, 20), rng.choice([1, 3, 7]), rng.randrange(0, 6)
    data = (slot(0x79, 2, 1, start) + slot(0x61, 3, 1, length) + slot(0x61, 4, 1, 28) + slot(0xb7, 0)
            + slot(0xa5, 3, 0, 4, there) + slot(0x57, 4, 0, 0, mask) + slot(0x07, 4, 0, 0, more) + slot(0x0f, 2, 4)
            + slot(opcode, 0, 2, 0) + EXIT)
    return data, None if mask + more + size <= there else "21 TextBounds slot 8"


def reader_cases(cases, rng):
    cases.heading("Loads from the text behind tests, accepted or refused by the rules, by hand: alone and in sessions.")
    texts = [("", None), ("a", None), ("ab", 3), ("abcd", 2), ("hello", 5), ("abcdefghi", 8), ("a longer text, of 27 bytes.", 0xffffff)]
    for at, (text, color) in enumerate(texts):
        programs = [rng.choice([guarded, masked])(rng) for _ in range(16)]
        add_session(cases, f"session-of-readers-{at + 1}", text, color, programs)
        for number, (data, refused) in enumerate(programs[:8]):
            if refused is None:
                add_run(cases, f"reader-{at + 1}-{number + 1}", data, text, **session_context(text, color))


# The links of random runs, of 0, 1, 2 and 1,024 bytes: parts with how often they stand there.
LINKS = [[], [(1, "x")], [(1, "~!")], [(146, "abcdefg"), (1, "hi")]]
# r2 and r3 get the text's ends, r6 and r7 the link's, r8 the link's length.
ENDS = (slot(0x79, 2, 1, 0) + slot(0x79, 3, 1, 8) + slot(0x79, 6, 1, 56) + slot(0x79, 7, 1, 64) + slot(0x61, 8, 1, 32)
        + slot(0xb7, 0, 0, 0, 1))


def whole(parts):
    return "".join(part * count for count, part in parts)


def folded(opcode, base, offset):
    return slot(opcode, 9, base, offset) + FOLD


def piece_behind_a_test(rng, base, end, length):
    """Bytes that may end one behind those that were tested for."""
    opcode = rng.choice(list(LOADS))
    there = rng.choice([1, 2, length - 1, length, length + 1])
    offset = max(0, there - LOADS[opcode][1]) + rng.choice([0, 0, 0, 1])
    return slot(0xbf, 4, base) + slot(0x07, 4, 0, 0, there) + slot(0x2d, 4, end, 3) + folded(opcode, base, offset)


def piece_at_an_end(rng, base, end, length):
    """Bytes about the region's start or end, from either of its ends' addresses."""
    opcode = rng.choice([0x71, 0x71, 0x91, 0x69] + list(LOADS))
    offset = rng.choice([0, 0, -1, length - LOADS[opcode][1], length - LOADS[opcode][1] + 1])
    return folded(opcode, base, offset) if rng.random() < 0.6 else folded(opcode, end, offset - length)


def piece_at_a_mask(rng, base, _end, length):
    mask = rng.choice([0, 1, 3, max(length - 1, 0), 1023])
    from_length = slot(0xbf, 4, 8) if rng.random() < 0.5 else slot(0xb7, 4, 0, 0, rng.randrange(1 << 20))
    return from_length + slot(0x57, 4, 0, 0, mask) + slot(0x0f, 4, base) + folded(rng.choice([0x71, 0x71, 0x69]), 4, 0)


def piece_by_the_other_region(rng, _base, _end, length):
    """A byte of the link, by the text's address, or one of the text by the link's."""
    base, distance = rng.choice([(2, LINK - TEXT), (6, TEXT - LINK)])
    return wide(4, distance & MASK[64]) + slot(0x0f, 4, base) + folded(0x71, 4, rng.choice([0, 0, 0, length]))


def piece_of_addresses(rng, _base, _end, _length):
    """Arithmetic on addresses, whole or by halves."""
    opcode = rng.choice([0x1f, 0x1f, 0xaf, 0x3f, 0x9f, 0x2f, 0x0c, 0x1c, 0x4f])
    return slot(0xbf, 9, rng.choice([7, 6, 3])) + slot(opcode, 9, rng.choice([6, 2, 7])) + FOLD


def piece_of_a_comparison(rng, _base, _end, _length):
    opcode = rng.choice(list(JUMPS)) << 4 | rng.choice([0xd, 0xe])
    return slot(0x67, 0, 0, 0, 1) + slot(opcode, rng.choice([6, 7]), rng.choice([2, 3, 6, 7]), 1) + slot(0x47, 0, 0, 0, 1)


def piece_of_the_context(rng, _base, _end, _length):
    opcode = rng.choice(list(LOADS))
    return folded(opcode, 1, rng.choice([52, 56, 57, 60, 64, 72 - LOADS[opcode][1], 72 - LOADS[opcode][1], 73 - LOADS[opcode][1]]))


def piece_by_the_stack(rng, base, _end, _length):
    """An address goes to the stack and back, whole or in part."""
    back = rng.choice([slot(0x79, 5, 10, -8) + folded(0x71, 5, 0), folded(0x61, 10, rng.choice([-8, -4]))])
    return slot(0x7b, 10, base, -8) + back


def piece_that_stores(rng, base, _end, length):
    opcode = rng.choice(list(STORES))
    return slot(opcode, base, 0, rng.choice([0, 0, length - STORES[opcode][1], length - 1]))


PIECES = [piece_behind_a_test, piece_behind_a_test, piece_at_an_end, piece_at_an_end, piece_at_a_mask, piece_by_the_other_region,
          piece_of_addresses, piece_of_a_comparison, piece_of_the_context, piece_by_the_stack]


def lent_program(rng, link, text):
    """Up to four pieces, of which the last may be a store."""
    pieces = rng.choices(PIECES, k=rng.randrange(1, 4))
    if rng.random() < 0.2:
        pieces.append(piece_that_stores)
    data = ENDS
    for piece in pieces:
        base, end, length = rng.choice([(6, 7, len(link)), (6, 7, len(link)), (2, 3, len(text.encode()))])
        data += piece(rng, base, end, length)
    return data + EXIT


def lent_runs(cases, rng):
    cases.heading("Random programs over the text and a link of 0, 1, 2 or 1,024 bytes: of each 14 different verdicts, which hang on the")
    cases.heading("link's bytes if there are any, 6 loads or stores past an end, and 3 stores into what is lent.")
    number = 0
    for parts in LINKS:
        link = whole(parts)
        other = "".join(chr(159 - ord(letter)) for letter in link)
        left, verdicts = {"verdict": 14, "F2": 6, "F3": 3}, set()
        while any(left.values()):
            text = random_text(rng)
            data = lent_program(rng, link, text)
            status, printed = run(data, text.encode(), link)
            end = ending(printed)
            hangs_on_link = not link or printed != run(data, text.encode(), other)[1]
            if not left.get(end) or end == "verdict" and (printed in verdicts or not hangs_on_link):
                continue
            left[end] -= 1
            verdicts.add(printed)
            number += 1
            words = ["run", data.hex()] + (["--link-text"] if parts else [])
            cases.add(f"lent-{number}", words, [printed], status, text=text, parts=parts)


# Programs that load from the link, or from both: as those that may they are accepted where it is said with each, as others they
# are refused with 18 at the first load of the link's start.
def before_the_end(rng):
    """Bytes before the link's end behind a test that a number of bytes are there; accepted exactly where they are among these."""
    opcode = rng.choice(list(LOADS))
    size, there, back = LOADS[opcode][1], rng.randrange(1, 13), rng.randrange(0, 13)
    data = (slot(0x79, 2, 1, 56) + slot(0x79, 3, 1, 64) + slot(0xbf, 4, 2) + slot(0x07, 4, 0, 0, there) + slot(0xb7, 0)
            + slot(0x2d, 4, 3, 1) + slot(opcode, 0, 3, -back) + EXIT)
    return data, None if size <= back <= there else "21 TextBounds slot 6"


def at_the_color(rng):
    """Bytes at the color, which is below the link's length, or behind it; accepted exactly where that is the one byte at it."""
    opcode, offset = rng.choice([0x71, 0x91, 0x71, 0x91, 0x69]), rng.choice([0, 0, 0, 1])
    data = (slot(0x79, 2, 1, 56) + slot(0x61, 3, 1, 32) + slot(0x61, 4, 1, 28) + slot(0xb7, 0) + slot(0x3d, 4, 3, 2)
            + slot(0x0f, 2, 4) + slot(opcode, 0, 2, offset) + EXIT)
    return data, None if offset + LOADS[opcode][1] <= 1 else "21 TextBounds slot 6"


def of_both(rng):
    """The first bytes of the text and of the link, behind a test of each; accepted exactly where both loads end within."""
    first, second = rng.choice([0x71, 0x71, 0x91, 0x69]), rng.choice(list(LOADS))
    there, offset = rng.randrange(1, 4), rng.randrange(0, 2)
    link_there, link_offset = rng.randrange(1, 13), rng.randrange(0, 4)
    data = (slot(0x79, 2, 1, 0) + slot(0x79, 3, 1, 8) + slot(0x79, 6, 1, 56) + slot(0x79, 7, 1, 64) + slot(0xb7, 0)
            + slot(0xbf, 4, 2) + slot(0x07, 4, 0, 0, there) + slot(0x2d, 4, 3, 7)
            + slot(0xbf, 4, 6) + slot(0x07, 4, 0, 0, link_there) + slot(0x2d, 4, 7, 4)
            + slot(first, 0, 2, offset) + folded(second, 6, link_offset) + EXIT)
    if offset + LOADS[first][1] > there:
        return data, "21 TextBounds slot 11"
    return data, None if link_offset + LOADS[second][1] <= link_there else "21 TextBounds slot 12"


def lent_reader(rng):
    shape = rng.choice([guarded, masked, before_the_end, at_the_color, of_both])
    if shape is guarded:
        return guarded(rng, 56, 64)
    return masked(rng, 56, 32) if shape is masked else shape(rng)


def linked_change(rng, links):
    """The operations of a text with a span for each of these links, of which "" is none; some spans have a color."""
    ops, marks, last = [], [], None
    for link in links:
        first = len(ops) + 1
        for _ in range(rng.randrange(1, 10)):
            ops.append(("i", (len(ops) + 1, 1), last, ord(rng.choice("abcdefé😀"))))
            last = ops[-1][1]
        anchors = ("<", (first, 1)), (">", last)
        if link:
            marks.append(("link", link) + anchors)
        if rng.random() < 0.7:
            marks.append(("color", f"{rng.choice([0, 1, 2, 3, 5, 8, 1023, 0xffffff]):06x}") + anchors)
    return ops + [("m", (len(ops) + at, 1)) + mark for at, mark in enumerate(marks, 1)]


def lent_items(document, data):
    """What a program's subscriber is sent of version 1."""
    spans, items = lent(document, 1), []
    for index, (text, options) in enumerate(spans):
        status, verdict = run(data, text.encode(), **options)
        if status:
            sys.exit(f"no run of an accepted program: {data.hex()}")
        if verdict != "verdict 0":
            items.append(f"hit 1 {index} {verdict.split()[1]}")
    return items + [f"end 1 {len(spans)}"]


def lent_sessions(cases, rng):
    cases.heading("Loads from the link behind tests, accepted or refused by the rules, by hand, over spans with links of several lengths")
    cases.heading("and without one: 16 programs, of which up to 4 are refused and up to 3 say nothing of any span. Each fourth is sent as")
    cases.heading("one that mayn't read the link too.")
    long = whole(LINKS[3])
    lists = [["", "x"], ["ab", "", "https://a.b"], ["abcdefghi", "~!", ""], [long, "", "!"], ["abcd", "abce", "", "abcdefgh"],
             ["https://a.b/c", "", long]]
    for at, links in enumerate(lists):
        document, ops = Document(), linked_change(rng, links)
        if accepted(document, ops):
            sys.exit("a change that should be accepted isn't")
        lines, printed, subs = change_lines(1, ops), ["ok version 1"], 0
        sent, left = 0, {"refused": 4, "silent": 3, "heard": 16}
        while sent < 16:
            data, refused = lent_reader(rng)
            items = [] if refused else lent_items(document, data)
            end = "refused" if refused else "heard" if len(items) > 1 else "silent"
            if not left[end]:
                continue
            if sent % 4 == 0:
                lines.append(f"sub 8 {data.hex()}")
                printed.append(f"no 18 ContextField slot {[data[place] for place in range(2, len(data), 8)].index(56)}")
            sent, left[end] = sent + 1, left[end] - 1
            lines.append(f"sub2 8 {data.hex()}")
            if refused:
                printed.append(f"no {refused}")
                continue
            lines.append(f"pull {subs} 64")
            printed += [f"ok sub {subs}"] + items + [f"ok items {len(items)}"]
            subs += 1
        cases.add(f"session-of-lent-readers-{at + 1}", ["replay"], printed, lines=lines)


def main():
    cases = Cases()
    rng = random.Random(9669)
    operation_runs(cases, rng)
    memory_runs(cases)
    random_runs(cases, rng)
    words(cases, rng)
    assembler_lines(cases, rng)
    number_sessions(cases, rng)
    reader_cases(cases, rng)
    lent_runs(cases, rng)
    lent_sessions(cases, rng)
    cases.write(sys.argv[1], "programs")


if __name__ == "__main__":
    main()
