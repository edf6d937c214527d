#!/usr/bin/env python3
"""Programs that loop: what the hub accepts in context 4 runs without a fault, within the bound that it prints.

    loops.py HUB [COUNT [SEED]]

COUNT programs, 300 by default, are random, or loops that are almost right, or spoiled ones of examples/filters/loops. HUB is asked
whether it accepts each (`check --context 4`). Each that it accepts is run on 120 spans of 0 to 131,072 bytes by another machine,
tests/models/loop_runs.c, which counts the steps. A fault, or a step too many, is a hole. That some programs with a jump back are
accepted is asked too. Exit status: 0 where no hole was found, else 1.
"""
import ctypes
import random
import re
import struct
import subprocess
import sys
import tempfile
from collections import Counter
from concurrent.futures import ThreadPoolExecutor
from pathlib import Path

HERE = Path(__file__).resolve().parent
LOOPS = HERE.parent.parent / "examples/filters/loops"
ANSWER = re.compile(r"accepted (\d+), steps <= (\d+) \+ (\d+) \* length \+ (\d+) \* link length\n")
NUMBERS = [0, 1, 2, 3, 4, 7, 8, 16, 63, 64, 255, 1024, 131071, 131072, -1, -2, -4, 2**31 - 1, -(2**31)]
LENGTHS = [0, 0, 1, 1, 2, 3, 4, 5, 6, 7, 8, 9, 15, 16, 17, 20, 36, 64, 100, 255, 1000]
LINKS = [0, 0, 1, 2, 3, 4, 5, 8, 9, 16, 31, 64, 1023, 1024]
LONG, SPANS, MOST_STEPS = [65536, 131071, 131072], 120, 1 << 23
# Opcodes: comparisons of registers, 64 and 32 bits wide; and the place of a distance that is yet to be counted.
COMPARISONS = [0x2D, 0x3D, 0x5D, 0x1D, 0xAD, 0xBD, 0xAE, 0xBE, 0x3E, 0x2E, 0x5E, 0x1E]
OUT = 99


def slot(opcode, to=0, by=0, offset=0, number=0):
    return struct.pack("<BBhI", opcode, to | by << 4, offset, number & 0xFFFFFFFF)


def preamble(rng):
    """r2 = the text, r3 = its end, r4 = its length, r0 and r5 numbers; now and then of the link, and with a copy or a spill."""
    code = [slot(0x79, 2, 1, rng.choice((0, 0, 56))), slot(0x79, 3, 1, rng.choice((8, 8, 64)))]
    code += [slot(0x61, 4, 1, rng.choice((16, 16, 32, 28))), slot(0xB7, 0, 0, 0, rng.choice((0, 0, 1, 5)))]
    code.append(slot(0xB7, 5, 0, 0, rng.choice((0, 0, 1))))
    if rng.random() < 0.4:
        code.append(slot(0xBF, 6, rng.choice((2, 3))))
    if rng.random() < 0.3:
        code.append(slot(0x7B, 10, rng.choice((2, 3, 4, 5)), -8 * rng.randint(1, 3)))
    return code


def random_slot(rng, at, first, last):
    """An instruction at a slot, of a body from one slot to another; jumps lead anywhere in it."""
    kind, to, by = rng.random(), rng.choice((0, 2, 5, 5, 6, 7, 4)), rng.choice((2, 3, 4, 5, 5, 6, 7, 0))
    if kind < 0.22:
        opcode = rng.choice((0x07, 0x07, 0x07, 0x04, 0x17))
        return slot(opcode, rng.choice((2, 5, 5, 4, 6, 0)), 0, 0, rng.choice((1, 1, 1, 2, -1, -1, 4, 3)))
    if kind < 0.34:
        return slot(rng.choice((0xBF, 0xBF, 0xBC)), to, by)
    if kind < 0.42:
        return slot(rng.choice((0x0F, 0x0F, 0x1F, 0x0C, 0x1C)), to, by)
    if kind < 0.6:
        opcode = rng.choice((0x71, 0x71, 0x71, 0x69, 0x61, 0x79))
        return slot(opcode, rng.choice((0, 7, 8)), rng.choice((2, 2, 6, 7, 8, 3)), rng.choice((0, 0, 0, 0, 1, -1, 2, 3)))
    if kind < 0.7:
        opcode = rng.choice((0x57, 0x47, 0x67, 0x77, 0x54, 0x37, 0xB7))
        return slot(opcode, rng.choice((0, 7, 5, 8)), 0, 0, rng.choice((0, 1, 2, 3, 8, 255, 32)))
    if kind < 0.74:
        place = -8 * rng.randint(1, 3)
        return slot(0x7B, 10, by, place) if rng.random() < 0.5 else slot(0x79, to, 10, place)
    by_register = rng.random() < 0.7
    opcode = rng.choice((0x1, 0x2, 0x3, 0x5, 0x5, 0xA, 0xA, 0xB, 0xC, 0x6, 0x4)) << 4
    opcode |= (8 if by_register else 0) | (5 if rng.random() < 0.75 else 6)
    target = rng.randint(first, at) if rng.random() < 0.45 else rng.randint(at + 1, last)
    left, right = rng.choice(((2, 3), (5, 4), (6, 3), (2, 6), (5, 4), (4, 5), (3, 2), (0, 7), (7, 5), (5, 0)))
    if by_register:
        return slot(opcode, left, right, target - at - 1)
    return slot(opcode, left, 0, target - at - 1, rng.choice(NUMBERS))


def random_program(rng):
    code = preamble(rng)
    first = len(code)
    last = first + rng.randint(4, 14)
    code += [random_slot(rng, at, first, last) for at in range(first, last)]
    code.append(slot(0xB7, 0, 0, 0, 1) if rng.random() < 0.3 else slot(0xBF, 0, 0))
    if rng.random() < 0.25:
        code.append(slot(0x05, 0, 0, rng.randint(first, last) - len(code) - 1))
        if rng.random() < 0.5:
            code.append(slot(0x95))
    else:
        code.append(slot(0x95))
    return b"".join(code)


def loop_body(rng):
    """A loop's body, whose exits are yet to be counted: a pointer to the end, an index to the length, both, one that falls, or a
    loop within one."""
    compare, ahead, by = rng.choice(COMPARISONS), rng.choice((0, 0, 1, 2, 4)), rng.choice((1, 1, 1, 2, 3, 4))
    form = rng.randrange(5)
    if form == 0:
        tested = [slot(0xBF, 6, 2), slot(0x07, 6, 0, 0, ahead), slot(compare, 6, 3, OUT)]
        body = tested if rng.random() < 0.5 else [slot(compare, 2, 3, OUT)]
        body += [slot(0x71, 7, 2, rng.choice((0, 0, ahead - 1, ahead)) % 8), slot(0x0F, 0, 7)]
        return body + [slot(0x07, 2, 0, 0, rng.choice((by, 1, -1)))]
    if form == 1:
        body = [slot(compare, 5, 4, OUT), slot(0xBF, 6, 2), slot(0x0F, 6, 5)]
        body += [slot(rng.choice((0x71, 0x69)), 7, 6, rng.choice((0, 0, 0, 1, -1))), slot(0x0F, 0, 7)]
        return body + [slot(rng.choice((0x07, 0x04)), 5, 0, 0, rng.choice((by, 1, 1)))]
    if form == 2:
        body = [slot(compare, 5, 4, OUT), slot(0x71, 7, 2, rng.choice((0, 0, 1, -1))), slot(0x07, 5, 0, 0, 1)]
        return body + [slot(0x07, 2, 0, 0, rng.choice((1, 1, 2))), slot(0x0F, 0, 7)]
    if form == 3:
        body = [slot(rng.choice((0x15, 0x25, 0x55, 0x35)), 4, 0, OUT, rng.choice((0, 0, 1))), slot(0x07, 4, 0, 0, -1)]
        return body + [slot(0xBF, 6, 2), slot(0x0F, 6, 4), slot(0x71, 7, 6, rng.choice((0, 0, -1, 1))), slot(0x0F, 0, 7)]
    body = [slot(compare, 2, 3, OUT), slot(0xB7, 8), slot(rng.choice((0x35, 0x15, 0x25)), 8, 0, 3, rng.choice((3, 8)))]
    body += [slot(0x07, 8, 0, 0, rng.choice((1, 1, 2, 0))), slot(0x0F, 0, 8), slot(0x05, 0, 0, -4)]
    return body + [slot(0x07, 2, 0, 0, rng.choice((1, by)))]


def loop_program(rng):
    """A loop that is almost right."""
    code = [slot(0x79, 2, 1), slot(0x79, 3, 1, 8), slot(0x61, 4, 1, 16), slot(0xB7)]
    code.append(slot(0xB7, 5, 0, 0, rng.choice((0, 0, 0, 1, 2))))
    body = loop_body(rng)
    if rng.random() < 0.4:
        one, other = rng.randrange(len(body)), rng.randrange(len(body))
        body[one], body[other] = body[other], body[one]
    if rng.random() < 0.3:
        body.insert(rng.randrange(len(body) + 1), slot(0x55, 7, 0, 1, rng.choice((0, 35))))
    count = len(body)
    for at, word in enumerate(body):
        if word[2:4] == struct.pack("<h", OUT):
            body[at] = word[:2] + struct.pack("<h", count - at) + word[4:]
    return b"".join([*code, *body, slot(0x05, 0, 0, -count - 1), slot(0x95)])


def spoiled(rng, program):
    """A program with a few numbers, distances, registers or opcodes changed, or slots exchanged."""
    code = bytearray(program)
    count = len(code) // 8
    for _ in range(rng.choice((1, 1, 1, 2, 3))):
        at, kind = 8 * rng.randrange(count), rng.randrange(6)
        if kind < 2:
            number = int.from_bytes(code[at + 4:at + 8], "little") + rng.choice((-1, 1, -1, 1, 2, -2, 8))
            code[at + 4:at + 8] = (number & 0xFFFFFFFF).to_bytes(4, "little")
        elif kind == 2:
            offset = int.from_bytes(code[at + 2:at + 4], "little") + rng.choice((-1, 1, 1, 2, -8, 8))
            code[at + 2:at + 4] = (offset & 0xFFFF).to_bytes(2, "little")
        elif kind == 3:
            code[at] ^= rng.choice((0x10, 0x20, 0x40, 0x80, 0x08, 0x03, 0x18))
        elif kind == 4:
            low = rng.random() < 0.5
            code[at + 1] = code[at + 1] & 0xF0 | rng.randrange(11) if low else code[at + 1] & 15 | rng.randrange(11) << 4
        else:
            other = 8 * rng.randrange(count)
            code[at:at + 8], code[other:other + 8] = code[other:other + 8], code[at:at + 8]
    return bytes(code)


def has_jump_back(program):
    words = (program[at:at + 8] for at in range(0, len(program), 8))
    return any(word[0] & 7 in (5, 6) and word[0] != 0x95 and word[3 if word[0] != 0x06 else 7] >= 128 for word in words)


def context_of(rng, length, link):
    def field():
        return rng.choice((0, 1, 2, length, link, 255, 2**31, 2**32 - 1, rng.getrandbits(8)))

    begin, end = 0x400000000, 0x800000000
    fields = (begin, begin + length, length, length, field(), field(), link, field(), field(), field(), field())
    return struct.pack("<QQIIIIIIIIQQQ", *fields, end, end + link)


class Machine:
    """The machine of loop_runs.c."""

    def __init__(self, folder):
        library = Path(folder) / "loop_runs.so"
        subprocess.run(["gcc", "-O2", "-shared", "-fPIC", "-o", library, HERE / "loop_runs.c"], check=True)
        self.run = ctypes.CDLL(str(library)).run
        self.texts = [bytes(random.Random(0).choice(b"ab/.a#0 @:") for _ in range(131072)), bytes(131072)]

    def hole(self, rng, program, bound, long):
        """How a run on a random span ends that isn't as was promised, if one is."""
        length = rng.choice(LONG) if long else rng.choice(LENGTHS)
        link, begin = rng.choice(LINKS), rng.randrange(131073 - length)
        text = rng.choice(self.texts)[begin:begin + length]
        limit = bound[0] + bound[1] * length + bound[2] * link
        verdict, steps = ctypes.c_uint64(), ctypes.c_int64()
        ended = self.run(program, len(program) // 8, context_of(rng, length, link), text, length, self.texts[0], link,
                         ctypes.c_int64(limit), ctypes.byref(verdict), ctypes.byref(steps))
        return ended and f"ends with {ended} after {steps.value} of {limit} steps, length {length}, link {link}"


def bound_of(hub, program):
    """The bound that the hub prints of a program that it accepts."""
    ran = subprocess.run([hub, "check", "--context", "4"], input=program.hex().encode(), stdout=subprocess.PIPE)
    found = ANSWER.fullmatch(ran.stdout.decode())
    return [int(number) for number in found.groups()[1:]] if found else None


def tried(hub, machine, seed, shipped):
    """What became of one program, and the holes of it."""
    rng = random.Random(seed)
    kind = rng.random()
    if kind < 0.35:
        program = loop_program(rng)
    else:
        program = random_program(rng) if kind < 0.6 else spoiled(rng, rng.choice(shipped))
    loops = has_jump_back(program)
    bound = bound_of(hub, program)
    if bound is None:
        return "refused", []
    most = bound[0] + bound[1] * 131072 + bound[2] * 1024
    holes = [f"bound of {most} steps"] if most > MOST_STEPS else []
    holes += [it for turn in range(SPANS) if (it := machine.hole(rng, program, bound, turn == 0 and rng.random() < 0.2))]
    return "with a jump back" if loops else "without one", [f"{it}: {program.hex()}" for it in holes]


def main():
    if not 2 <= len(sys.argv) <= 4:
        sys.exit(__doc__)
    hub, count, seed = sys.argv[1], int((sys.argv[2:] or ["300"])[0]), (sys.argv[3:] or ["1"])[0]
    shipped = [bytes.fromhex(path.read_text()) for path in sorted(LOOPS.glob("*.hex"))]
    with tempfile.TemporaryDirectory() as folder, ThreadPoolExecutor(4) as pool:
        machine = Machine(folder)
        found = list(pool.map(lambda number: tried(hub, machine, f"{seed} {number}", shipped), range(count)))
    kinds = Counter(kind for kind, _ in found)
    holes = [hole for _, those in found for hole in those]
    for hole in holes:
        print(hole)
    accepted = kinds["with a jump back"]
    runs = SPANS * (accepted + kinds["without one"])
    print(f"{count} programs, {accepted} accepted with a jump back, {kinds['without one']} without; {runs} runs, {len(holes)} holes")
    sys.exit(1 if holes or accepted < count // 20 else 0)


if __name__ == "__main__":
    main()
