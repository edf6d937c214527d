"""Programs that read chosen parts of a span and are all accepted: one for each kind of list, and random ones."""

from typing import NamedTuple

from machine import LOADS, slot

FIELDS = {"text": 0, "end": 8, "len": 16, "characters": 20, "flags": 24, "color": 28, "link_len": 32, "comments": 36,
          "index": 40, "count": 44, "version": 48, "link": 56, "link_end": 64}
WIDE = ("text", "end", "version", "link", "link_end")
NUMBERS = ("len", "characters", "flags", "color", "link_len", "comments", "index", "count", "version")
REGIONS = {"text": ("text", "end", "len"), "link": ("link", "link_end", "link_len")}
BYTE_LOADS = [0x71, 0x71, 0x71, *LOADS]
EXIT = slot(0x95)
UNSIGNED = {"eq": 0x15, "gt": 0x25, "ge": 0x35, "set": 0x45, "ne": 0x55, "lt": 0xa5, "le": 0xb5}


def move(register, number):
    return slot(0xb7, register, 0, 0, number)


def load(register, field):
    """A field of the context, whole."""
    return slot(0x79 if field in WIDE else 0x61, register, 1, FIELDS[field])


def folded(register):
    """r0 = 31 r0 + the register, so that each of several numbers counts."""
    return slot(0x27, 0, 0, 0, 31) + slot(0x0f, 0, register)


def unless(test, register, number, body):
    """The body, unless the register compares so with the number."""
    return slot(UNSIGNED[test], register, 0, len(body) // 8, number) + body


def behind_an_end_test(region, there, opcode, offset, from_end=False):
    """A load of the region's bytes, behind a test of its addresses that `there` of them are there: by r2 its start, or r3 its end."""
    start, end, _ = REGIONS[region]
    body = slot(opcode, 9, 3 if from_end else 2, offset) + folded(9)
    test = slot(0xbf, 4, 2) + slot(0x07, 4, 0, 0, there) + slot(0x2d, 4, 3, len(body) // 8)
    return load(2, start) + load(3, end) + test + body


def behind_a_length_test(region, there, opcode, offset):
    start, _, length = REGIONS[region]
    return load(2, start) + load(9, length) + unless("lt", 9, there, slot(opcode, 9, 2, offset) + folded(9))


def at_a_number(region, number, mask):
    """The region's byte at a masked field, if the region reaches so far."""
    start, _, length = REGIONS[region]
    body = slot(0x0f, 2, 9) + slot(0x71, 9, 2, 0) + folded(9)
    test = load(9, number) + slot(0x57, 9, 0, 0, mask) + load(5, length) + slot(0x3d, 9, 5, len(body) // 8)
    return load(2, start) + test + body


def of_fields(*names):
    """The sum in which each of these fields counts."""
    return b"".join(load(9, name) + folded(9) for name in names)


def whole(*pieces):
    return move(0, 0) + b"".join(pieces) + EXIT


def padded(data, slots):
    """The same program in `slots` slots, of which it jumps over those that are added: it takes one step more."""
    added = slots - len(data) // 8 - 1
    return slot(0x05, 0, 0, added) + slot(0xb7, 0) * added + data


# One for each kind of list.

class Kind(NamedTuple):
    """What a program lists, in words, its bytes, and whether it may only be subscribed as one that reads the link."""
    lists: str
    data: bytes
    reads_link: bool = False


def is_strong_then(field):
    """The field of a strong span, and 0 of any other."""
    return load(9, "flags") + slot(0x57, 9, 0, 0, 1) + unless("eq", 9, 0, load(9, field) + folded(9))


def kinds():
    ends = {region: load(2, start) + load(3, end) + slot(0xbf, 4, 2) + slot(0x07, 4, 0, 0, 4) + slot(0x2d, 4, 3, 1) + move(0, 1)
            for region, (start, end, _) in REGIONS.items()}
    made = [Kind("nothing, verdict 0", whole()), Kind("nothing, verdict 7", move(0, 7) + EXIT)]
    made += [Kind(name, whole(of_fields(name))) for name in NUMBERS]
    made += [Kind("end", load(2, "end") + move(0, 1) + EXIT), Kind("text and end, no byte", move(0, 0) + ends["text"] + EXIT),
             Kind("link and link_end, no byte", move(0, 0) + ends["link"] + EXIT, True)]
    for region, is_link in (("text", False), ("link", True)):
        made += [Kind(f"the {region}'s first byte", whole(behind_an_end_test(region, 1, 0x71, 0)), is_link),
                 Kind(f"the {region}'s first byte, by its length", whole(behind_a_length_test(region, 1, 0x71, 0)), is_link)]
        made += [Kind(f"the {region}'s bytes up to {place}", whole(behind_an_end_test(region, place + 1, 0x71, place)), is_link)
                 for place in (1, 3, 8)]
        made += [Kind(f"all of the {region}'s bytes", whole(behind_an_end_test(region, 1, 0x71, -1, True)), is_link),
                 Kind(f"the {region}'s byte at the comments", whole(at_a_number(region, "comments", 3)), is_link)]
    made += [Kind("flags, index", whole(is_strong_then("index"))), Kind("flags, count", whole(is_strong_then("count"))),
             Kind("flags, version", whole(is_strong_then("version"))),
             Kind("flags, color, comments", whole(of_fields("flags", "color", "comments"))),
             Kind("color, the text's first byte", whole(of_fields("color"), behind_an_end_test("text", 1, 0x71, 0))),
             Kind("the first bytes of text and link",
                  whole(behind_an_end_test("text", 1, 0x71, 0), behind_an_end_test("link", 2, 0x71, 1)), True),
             Kind("all fields", whole(of_fields(*NUMBERS))),
             Kind("all fields and bytes", whole(of_fields(*NUMBERS), behind_an_end_test("text", 1, 0x71, -1, True),
                                                behind_an_end_test("link", 1, 0x71, -1, True)), True)]
    return made


# Random ones.

def region_piece(rng, region, numbers):
    opcode = rng.choice(BYTE_LOADS)
    size = LOADS[opcode][1]
    there = size + rng.choice([0, 0, 1, 2, 5, 12])
    way = rng.randrange(4)
    if way == 0:
        return behind_an_end_test(region, there, opcode, rng.randrange(there - size + 1))
    if way == 1:
        return behind_an_end_test(region, there, opcode, -rng.randrange(size, there + 1), True)
    if way == 2 or not numbers:
        return behind_a_length_test(region, there, opcode, rng.randrange(there - size + 1))
    return at_a_number(region, rng.choice(numbers), rng.choice([0, 1, 3, 7, 15]))


def field_piece(rng, name):
    """A field counts, or a byte of it that was stored to the stack, or how it compares with a number."""
    way = rng.randrange(4)
    if way == 0:
        return slot(0x7b, 10, 9, -8) + slot(0x71, 9, 10, -8 + rng.randrange(4)) + folded(9)
    if way == 1:
        return folded(9)
    number = rng.choice([0, 1, 2, 3, 5, 8, 16, 255, 1024, 65536])
    if way == 2:
        return unless(rng.choice(list(UNSIGNED)), 9, number, move(9, rng.randrange(1, 9)) + folded(9))
    return unless(rng.choice(list(UNSIGNED)), 9, number, EXIT)


def piece(rng, numbers, regions):
    if regions and (not numbers or rng.random() < 0.5):
        return region_piece(rng, rng.choice(regions), numbers)
    if not numbers:
        return move(9, rng.randrange(9)) + folded(9)
    name = rng.choice(numbers)
    return load(9, name) + field_piece(rng, name)


def random_reader(rng):
    """A few pieces over a few fields and regions, one after the other, or on the two ways behind a comparison."""
    numbers = rng.sample(NUMBERS, rng.choice([0, 1, 1, 2, 3, 4]))
    regions = rng.sample(list(REGIONS), rng.choice([0, 1, 1, 2]))
    data = move(0, rng.randrange(4))
    for _ in range(rng.randrange(1, 6)):
        data += piece(rng, numbers, regions)
    if numbers and rng.random() < 0.3:
        first, second = piece(rng, numbers, regions), piece(rng, numbers, regions)
        way = first + slot(0x05, 0, 0, len(second) // 8)
        data += load(9, rng.choice(numbers)) + unless(rng.choice(list(UNSIGNED)), 9, rng.choice([0, 1, 2, 8]), way) + second
    return data + EXIT
