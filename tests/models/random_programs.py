"""Random programs for the verifier, of pieces whose numbers and tests are such that much is known of them.

r1 has the context, r2 and r3 the text's ends, r4 its length, r5 the link's length, r6 the color; r7 and r8 have numbers of any
origin, and r9 what is needed for a few slots. A comparison at whose offset END stands goes to the last `exit`.
"""

from machine import ARITHMETIC, JUMPS, LOADS, MASK, STORES, fields, slot
from programs import EXIT, wide
from quantities import LIMITS
from verifier import PROFILES, Walk, distance_of, starts

END = 0x7fff
FRONT = (slot(0x79, 2, 1, 0) + slot(0x79, 3, 1, 8) + slot(0x61, 4, 1, 16) + slot(0x61, 5, 1, 32) + slot(0x61, 6, 1, 28)
         + slot(0xb7, 0) + slot(0xbf, 7, 5) + slot(0xbf, 8, 6))
NUMBERS = [4, 5, 5, 6, 7, 7, 8]
SMALL = [0, 1, 2, 3, 4, 6, 7, 8, 15, 16, 31]
IMMEDIATES = SMALL + [255, 1023, 1024, 1025, 2047, 2048, -2048, 4096, 65535, -1, -2, -8, (1 << 31) - 1, -(1 << 31)]
WIDES = [1 << 63, 1 << 63, (1 << 63) + 1, (1 << 63) - 1, (1 << 63) + 4096, 1 << 31, 1 << 32, (1 << 31) + 8,
         MASK[64], MASK[64] - 7, MASK[32]]


def opcode_of(code, width, is_register):
    """An opcode: its upper four bits are the operation, the lower ones its width, and whether its right side is a register."""
    return code << 4 | width | (8 if is_register else 0)


def arithmetic_piece(rng):
    """An operation on numbers, or a change of sign or of bytes."""
    dst, src, is_register = rng.choice(NUMBERS), rng.choice(NUMBERS), rng.random() < 0.4
    if rng.random() < 0.04:
        return rng.choice([slot(0x87, dst), slot(0x84, dst), slot(0xdc, dst, 0, 0, 16), slot(0xd4, dst, 0, 0, 32)])
    code = rng.choice(list(ARITHMETIC) + [0, 0, 0, 1, 1, 4, 5, 5, 7, 7])
    opcode = opcode_of(code, rng.choice([7, 7, 4]), is_register)
    if is_register:
        return slot(opcode, dst, src)
    return slot(opcode, dst, 0, 0, rng.choice(SMALL + [11, 12] if code in (6, 7, 12) else IMMEDIATES))


def constant_piece(rng):
    return wide(rng.choice([7, 8, 8]), rng.choice(WIDES))


def great_piece(rng):
    """What a number has beyond the greatest length of a link; a sign bit of it; its sum with another. Some of these, or all."""
    dst, data = rng.choice([5, 7]), b""
    if rng.random() < 0.6:
        name, imm = rng.choice([(7, 11), (7, 12), (7, 20), (5, 2048), (5, 4096), (5, -2048), (3, 1025), (3, 2048)])
        data += slot(opcode_of(name, 7, False), dst, 0, 0, imm)
    if rng.random() < 0.6:
        is_wide, opcode = rng.random() < 0.5, rng.choice([0x47, 0x47, 0x07])
        data += wide(8, rng.choice(WIDES)) + slot(opcode | 8, dst, 8) if is_wide else slot(opcode, dst, 0, 0, -(1 << 31))
    if rng.random() < 0.6 or not data:
        data += slot(rng.choice([0x0f, 0x0f, 0x0c, 0x1f, 0x1c]), rng.choice([4, 4, 6, 8]), dst)
    return data


def tail_piece(rng):
    """A number is below the text's length by some bytes, behind a test that the text has these."""
    bytes_less, dst = rng.choice([1, 2, 8, 16, 100, 1000]), rng.choice([4, 5, 6, 7])
    data = slot(0x61, 8, 1, 16) + slot(0xa5, 8, 0, END, bytes_less) + slot(0x17, 8, 0, 0, bytes_less)
    return data + slot(rng.choice([0x3d, 0x2d]), dst, 8, END)


def comparison(rng, distance):
    """A comparison of numbers, mostly without sign."""
    name = rng.choice([1, 2, 2, 3, 3, 5, 10, 10, 11, 11] + list(JUMPS))
    is_register = rng.random() < 0.4
    opcode = opcode_of(name, rng.choice([5, 5, 5, 6]), is_register)
    dst, src = rng.choice(NUMBERS), rng.choice(NUMBERS)
    return slot(opcode, dst, src, distance) if is_register else slot(opcode, dst, 0, distance, rng.choice(IMMEDIATES))


def guard_piece(rng):
    return comparison(rng, END)


def join_piece(rng):
    """One of two ways, of which the second may do nothing."""
    first = b"".join(rng.choice(STRAIGHT)(rng) for _ in range(rng.randrange(1, 3)))
    second = b"".join(rng.choice(STRAIGHT)(rng) for _ in range(rng.randrange(0, 3)))
    return comparison(rng, len(first) // 8 + 1) + first + slot(0x05, 0, 0, len(second) // 8) + second


def stack_piece(rng):
    """A number or an address goes to the stack and back; at times a part of it is stored over, or a number is stored beside it."""
    place = rng.choice([-8, -16])
    data = slot(0x7b, 10, rng.choice(NUMBERS + [2, 3]), place)
    if rng.random() < 0.15:
        opcode = rng.choice([opcode for opcode, (_, size) in STORES.items() if size < 8])
        data += slot(opcode, 10, 7 if opcode & 1 else 0, place + rng.choice([0, 1, 4]), 0 if opcode & 1 else 5)
    if rng.random() < 0.3:
        data += slot(0x7b, 10, rng.choice(NUMBERS), -24 - place)
    return data + (slot(0x79, rng.choice(NUMBERS), 10, place) if rng.random() < 0.8 else slot(0x61, 8, 10, place))


def read_behind_a_test(rng, start_at, end_at):
    """A few bytes behind the region's start, or before its end, behind a test that they are there."""
    opcode = rng.choice(list(LOADS))
    size, there = LOADS[opcode][1], rng.choice([1, 2, 4, 8, 9])
    offset = max(0, there - size) + rng.choice([0] * 9 + [1])
    test = slot(0xbf, 9, start_at) + slot(0x07, 9, 0, 0, there) + slot(0x2d, 9, end_at, END)
    base = rng.choice([(start_at, offset), (9, offset - there), (end_at, -there)])
    return test + slot(opcode, rng.choice([7, 8]), base[0], base[1])


def text_piece(rng):
    return read_behind_a_test(rng, 2, 3)


def link_piece(rng):
    """Bytes of the link; mostly where no run comes, as the text would have to be longer than it may be."""
    data = slot(0x79, 7, 1, 56) + slot(0x79, 8, 1, 64) + read_behind_a_test(rng, 7, 8)
    data += slot(0xb7, 7, 0, 0, 1) + slot(0xb7, 8, 0, 0, 2)
    if rng.random() < 0.2:
        return data
    return slot(0x61, 9, 1, 16) + slot(0xb5, 9, 0, len(data) // 8, LIMITS[0]) + data


STRAIGHT = [arithmetic_piece] * 6 + [great_piece] * 2 + [constant_piece, stack_piece]
PIECES = STRAIGHT * 3 + [guard_piece] * 9 + [join_piece] * 4 + [tail_piece] * 4 + [text_piece] * 2 + [link_piece]


def ended(data):
    """The program with an `exit` behind it, to which the comparisons with END go."""
    out = bytearray(data + EXIT)
    for at in starts(data):
        if distance_of(fields(data, at)) == END:
            out[at * 8 + 2:at * 8 + 4] = (len(data) // 8 - at - 1).to_bytes(2, "little")
    return bytes(out)


def known_behind(data, register, profile=PROFILES[1]):
    """What a profile knows of a register behind the slots so far, if a run comes there."""
    state = Walk(ended(data + EXIT), profile).states.get(len(data) // 8)
    return state.registers[register] if state else None


def test_of_length(register, length):
    """The text has `length` bytes, or the run ends here."""
    return slot(0x61, register, 1, 16) + slot(0xa5, register, 0, END, length)


def exact_read(rng, data, profile=PROFILES[1]):
    """A load that the profile accepts and wouldn't if it knew less of some number, or of what an operation leaves of it: at the
    number, by its tail or behind a test that the text is just long enough, or past the text's end, where the number would have to
    be out of its interval."""
    data += slot(0xbf, 9, rng.choice(NUMBERS))
    if rng.random() < 0.5:
        data += rng.choice([slot(0x57, 9, 0, 0, rng.choice([7, 15, 255, 4095])), slot(0x77, 9, 0, 0, rng.choice([1, 4, 60, 63]))])
    kind, quantity = known_behind(data, 9, profile) or (None, None)
    if kind != "number":
        return data
    opcode = rng.choice([0x71, 0x71, 0x69, 0x79])
    size, tail, way = LOADS[opcode][1], quantity.tails[0], rng.randrange(3)
    if way == 0 and tail is not None and tail >= size:
        return data + slot(0x0f, 9, 2) + slot(opcode, 0, 9, min(tail - size, END))
    if way == 1 and quantity.high + size <= LIMITS[0]:
        return data + test_of_length(0, quantity.high + size) + slot(0x0f, 9, 2) + slot(opcode, 0, 9, 0)
    bound, is_in_bound = rng.choice([(quantity.low, 0x3d), (quantity.high, 0xbd)])
    return data + wide(0, bound) + slot(is_in_bound, 9, 0, 1) + slot(opcode, 0, 3, 0)


def random_program(rng):
    """Pieces of any kind, and then up to three loads by what the first profile knows behind them."""
    data = FRONT + (constant_piece(rng) if rng.random() < 0.5 else b"")
    for _ in range(rng.randrange(2, 14)):
        data += rng.choice(PIECES)(rng)
    for _ in range(rng.randrange(1, 4)):
        data = exact_read(rng, data)
    return ended(data)


# Programs for the third profile, of which each rule accepts some. Places of the text stand in r9, or in r7 for a few slots.

def difference_piece(rng):
    """The difference of two addresses in one region, mostly one of the region's ends from the other."""
    if rng.random() < 0.4:
        return slot(0x79, 7, 1, 64) + slot(0x79, 8, 1, 56) + slot(0x1f, 7, 8) + slot(0xbf, 8, rng.choice([4, 6, 7]))
    minuend, subtrahend = rng.choice([(3, 2), (3, 2), (3, 9), (9, 2), (9, 9), (2, 3)])
    data = slot(0xbf, 9, rng.choice([2, 3]))
    if rng.random() < 0.5:
        data += slot(0x07, 9, 0, 0, rng.choice([1, 2, 8])) + slot(rng.choice([0x2d, 0x3d]), 9, 3, END)
    return data + slot(0xbf, 7, minuend) + slot(0x1f, 7, subtrahend)


def part_piece(rng):
    """A part of a field, and seldom one that isn't in one field."""
    opcode = rng.choice(list(LOADS))
    size = LOADS[opcode][1]
    begin, length = rng.choice([(at, 4) for at in range(16, 48, 4)] + [(48, 8)] * 2)
    offset = begin + rng.randrange(0, max(1, length - size + 1))
    return slot(opcode, rng.choice([7, 8]), 1, offset + rng.choice([0] * 30 + [1, -1]))


def quotient_piece(rng):
    """A quotient or a shift to the right of a number that has a tail, mostly."""
    dst, is_register = rng.choice([4, 5, 7, 7]), rng.random() < 0.2
    code, imm = rng.choice([(3, rng.choice([1, 2, 3, 5, 10, 16])), (7, rng.choice([0, 1, 2, 4])), (12, rng.choice([0, 1, 3]))])
    data = slot(0xb5, dst, 0, END, rng.choice([100, 1000, 100000])) if rng.random() < 0.3 else b""
    data += slot(0xa5, dst, 0, END, rng.choice([1, 7, 16, 50])) if rng.random() < 0.6 else b""
    width = rng.choice([7, 7, 4])
    if is_register:
        return data + slot(0xb7, 8, 0, 0, imm) + slot(opcode_of(code, width, True), dst, 8)
    return data + slot(opcode_of(code, width, False), dst, 0, 0, imm)


def sum_piece(rng):
    """A sum of two numbers of which both may have a tail."""
    data = b""
    for register in (4, rng.choice([5, 7])):
        if rng.random() < 0.7:
            data += slot(0xa5, register, 0, END, rng.choice([1, 4, 16])) + slot(0x17, register, 0, 0, rng.choice([1, 4, 16]))
        if rng.random() < 0.5:
            data += slot(0x57, register, 0, 0, rng.choice([1, 3, 7, 15]))
    return data + slot(rng.choice([0x0f, 0x0c]), rng.choice([4, 7]), rng.choice([4, 5, 7]))


def test_of_place(rng, register):
    """The text goes on behind the place by some bytes, or else the run goes over so many slots, to which the place may lead too."""
    there = rng.choice([1, 1, 2, 8])
    return slot(0xbf, 0, register) + slot(0x07, 0, 0, 0, there) + slot(rng.choice([0x2d, 0x3d]), 0, 3, END), there


def place_piece(rng):
    """A place in the text to which two ways lead: by a constant, by a number, from the end, or behind a step on one way alone.
    Then a load at it, or one before it."""
    data = slot(0xbf, 9, 2)
    if rng.random() < 0.5:
        data += slot(0x61, 0, 1, 16) + slot(rng.choice([0xa5, 0xa5, 0x35]), 0, 0, END, rng.choice([4, 8, 9, 64]))
    if rng.random() < 0.4:
        data += slot(0x0f, 9, rng.choice([4, 5, 7]))
    for _ in range(rng.randrange(1, 4)):
        step, size = rng.choice([1, 1, 2, 7]), rng.choice([1, 1, 2])
        way = slot(0x07, 9, 0, 0, step)
        if rng.random() < 0.6:
            way = slot(0xbf, 0, 9) + slot(0x07, 0, 0, 0, step) + slot(0x2d, 0, 3, 1) + way
        if rng.random() < 0.4:
            data += slot(0x3d, 9, 3, len(way) // 8 + 1) + slot(0x71, 8, 9, 0)
        else:
            data += slot(rng.choice([0x15, 0x55]), 6, 0, len(way) // 8, size)
        data += way
    if rng.random() < 0.3:
        data += slot(0x7b, 10, 9, -8) + slot(0x79, 9, 10, -8)
    if rng.random() < 0.3:
        data += slot(0x61, 0, 1, 16)
    return exact_place(rng, data)


def exact_place(rng, data):
    """A test and a load at the place in r9, to be completed by what is known."""
    way = rng.randrange(3)
    if way == 0:
        data += slot(0xbf, 0, 9) + slot(0x07, 0, 0, 0, 2) + slot(0x2d, 0, 3, END) + slot(0x69, 8, 9, 0)
    elif way == 1:
        data += slot(0x3d, 9, 3, END) + slot(0x71, 8, 9, 0)
    return data + slot(0xb7, 0, 0, 0, 1) + slot(0xb7, 8, 0, 0, rng.randrange(4))


def copy_piece(rng):
    """A number or a place is copied, the copy or what was copied becomes more or less, one of them is tested, and the other one is
    looked at."""
    source, size = rng.choice([4, 4, 5, 7, 9]), rng.choice([1, 1, 2, 4, 8, 20])
    data = slot(0xbf, 9, rng.choice([2, 3])) if source == 9 else b""
    if source == 9 and rng.random() < 0.8:
        data += slot(0x0f, 9, rng.choice([4, 5]))
    by_stack, width = rng.random() < 0.2, rng.choice([0xf, 0xf, 0xc]) if source != 9 else 0xf
    data += slot(0x7b, 10, source, -8) + slot(0x79, 8, 10, -8) if by_stack else slot(0xb0 | width, 8, source)
    moved = rng.choice([8, 8, source])
    if rng.random() < 0.8:
        code = rng.choice([0x07, 0x07, 0x17] + ([0x04] if source != 9 else []))
        data += slot(code, moved, 0, 0, rng.choice([size, size, -size, 1, 8]))
    tested = rng.choice([8, source])
    opcode = rng.choice([0x25, 0x35, 0xa5, 0xb5, 0x55, 0x26, 0xa6]) if source != 9 else 0
    if source == 9 or rng.random() < 0.3:
        limit = 3 if source == 9 else 4
        data += slot(rng.choice([0x2d, 0x3d]), tested, limit, END)
    else:
        data += slot(opcode, tested, 0, END, rng.choice([size, 16, 17, 40]))
    if source == 9:
        data += slot(0x71, 0, rng.choice([8, 9]), rng.choice([0, -1, -size, 1])) if rng.random() < 0.6 else b""
        return data + slot(0xb7, 8, 0, 0, 3)
    return data


def great_copy_piece(rng):
    """A number of which only a few bits are unknown, or its copy, is compared with one number, mostly one whose sign bit is 1, and the
    other one of both is added to a number or to a place, or taken away."""
    source, half = rng.choice([4, 5, 7, 7]), rng.choice([1 << 63, 1 << 63, 1 << 31])
    data = slot(0x57, source, 0, 0, rng.choice([1, 3, 7, 15, 255])) if rng.random() < 0.8 else b""
    if rng.random() < 0.6:
        data += wide(0, half) + slot(rng.choice([0x4f, 0x0f]), source, 0)
    data += slot(0xbf, 8, source)
    if rng.random() < 0.3:
        data += slot(rng.choice([0x07, 0x17]), rng.choice([8, source]), 0, 0, rng.choice([1, 8]))
    tested, other = rng.choice([(8, source), (source, 8)])
    data += wide(0, rng.choice([half, half + 1, half + 3, half + 8, half + 255, 0, 1, 3, 8])) + slot(0x5d, tested, 0, END)
    target = rng.choice([4, 5, 6, 7, 9])
    if target == 9:
        data += slot(0xbf, 9, rng.choice([2, 3])) + slot(rng.choice([0x0f, 0x1f]), 9, other)
        return data + slot(0x3d, 9, 3, END) + slot(0x71, 0, 9, 0) + slot(0xb7, 8, 0, 0, 1)
    return data + slot(rng.choice([0x0f, 0x0f, 0x1f] if half > MASK[32] else [0x0c, 0x0c, 0x1c]), target, other)


MORE_PIECES = (PIECES + [difference_piece, part_piece, quotient_piece, sum_piece] * 4 + [place_piece] * 8
               + [copy_piece, great_copy_piece] * 8)
# What is left in the registers of numbers may be an address, where a piece was left in the middle.
NO_ADDRESSES = slot(0xb7, 8, 0, 0, 5)


def third_program(rng, profile):
    """Pieces of any kind, and then up to three loads by what the profile, or the second one, knows behind them."""
    data = FRONT + (constant_piece(rng) if rng.random() < 0.2 else b"")
    for _ in range(rng.randrange(1, 9)):
        data += rng.choice(MORE_PIECES)(rng) + NO_ADDRESSES * (rng.random() < 0.2)
    for _ in range(rng.randrange(1, 4)):
        data = exact_read(rng, data, rng.choice([profile, PROFILES[2]]))
    return ended(data)
