"""What the verifier knows of a number, and what operations and comparisons make of it."""

from typing import NamedTuple

from machine import MASK

# The regions that are lent, with the most bytes that each may have.
REGIONS = ("text", "link")
LIMITS = (131072, 1024)
NEGATED = {"jeq": "jne", "jne": "jeq", "jgt": "jle", "jle": "jgt", "jlt": "jge", "jge": "jlt"}


class Dead(Exception):
    """No run comes there."""


class Quantity(NamedTuple):
    """What is known of a number: which bits are 1 for sure, which ones are unknown, the interval, and for each region a tail, if
    there is one: the number and the tail are together at most the region's length."""
    ones: int
    unknown: int
    low: int
    high: int
    tails: tuple = (None, None)


def constant(value):
    return Quantity(value, 0, value, value)


def anything(bits):
    """Every number of `bits` bits."""
    greatest = (1 << bits) - 1
    return Quantity(0, greatest, 0, greatest)


def up_to_end(bits, region):
    """Every number of `bits` bits up to the region's length."""
    return normal(anything(bits)._replace(tails=ending(region)))


def ending(region):
    return tuple(0 if name == region else None for name in REGIONS)


def only(quantity):
    """The one number, where there is one."""
    return quantity.low if quantity.low == quantity.high else None


def most_bits(quantity):
    """The bits that may be 1."""
    return quantity.ones | quantity.unknown


def narrowed(quantity):
    """The interval is cut to what the bits and the tails allow."""
    low, high = max(quantity.low, quantity.ones), min(quantity.high, most_bits(quantity))
    for tail, limit in zip(quantity.tails, LIMITS):
        if tail is not None:
            high = min(high, limit - tail)
    if low > high:
        raise Dead
    return quantity._replace(low=low, high=high)


def normal(quantity):
    """The interval is narrowed, then the bits by what its ends have in common, then the interval once more."""
    quantity = narrowed(quantity)
    differing = (1 << (quantity.low ^ quantity.high).bit_length()) - 1
    common = MASK[64] & ~differing
    if (quantity.ones ^ quantity.low) & common & ~quantity.unknown:
        raise Dead
    ones = quantity.ones & differing | quantity.low & common
    return narrowed(quantity._replace(ones=ones, unknown=quantity.unknown & differing))


def cut(quantity):
    """The low 32 bits."""
    if quantity.high <= MASK[32]:
        return normal(quantity)
    ones, unknown = quantity.ones & MASK[32], quantity.unknown & MASK[32]
    return normal(Quantity(ones, unknown, 0, MASK[32], quantity.tails))


def greater(first, second):
    """The greater one of two tails, or the one that is known."""
    if first is None or second is None:
        return second if first is None else first
    return max(first, second)


def lesser(first, second):
    """The lesser one of two tails, if both are known."""
    return None if first is None or second is None else min(first, second)


def both_tails(choice, first, second):
    return tuple(choice(*pair) for pair in zip(first, second))


def raised(tails, by):
    return tuple(None if tail is None else tail + by for tail in tails)


def joined_quantity(first, second):
    """What either may be."""
    unknown = first.unknown | second.unknown | (first.ones ^ second.ones)
    return normal(Quantity(first.ones & second.ones & ~unknown, unknown, min(first.low, second.low), max(first.high, second.high),
                           both_tails(lesser, first.tails, second.tails)))


# Operations on quantities of a width, in bits. Their results aren't normal yet.

def in_width(bits, quantity, low, high):
    """The quantity with this interval, or with all of the width where the interval leaves it."""
    if high > MASK[bits]:
        low, high = 0, MASK[bits]
    return quantity._replace(low=low, high=high)


def less_tail(tail, by):
    """What a tail leaves when the number grows by so much at most."""
    return tail - by if tail is not None and tail >= by else None


def tail_of_sum(rules, tail, high, other_tail, other_high):
    """The tail of the sum of a number up to `high` with the one tail and of a number up to `other_high` with the other."""
    one, other = less_tail(tail, other_high), less_tail(other_tail, high)
    if "f" in rules:
        return greater(one, other)
    return other if one is None else one


def plain_sum(rules, bits, first, second):
    if most_bits(first) & most_bits(second) == 0:
        ones, unknown = first.ones | second.ones, first.unknown | second.unknown
    elif only(first) is not None and only(second) is not None:
        ones, unknown = first.low + second.low & MASK[bits], 0
    else:
        ones, unknown = 0, MASK[bits]
    tails = tuple(tail_of_sum(rules, tail, first.high, other, second.high) for tail, other in zip(first.tails, second.tails))
    return in_width(bits, Quantity(ones, unknown, 0, 0, tails), first.low + second.low, first.high + second.high)


def plain_difference(_rules, bits, first, second):
    if most_bits(second) & ~first.ones == 0:
        unknown = first.unknown | second.unknown
        ones = (first.ones ^ second.ones) & ~unknown
    elif only(first) is not None and only(second) is not None:
        ones, unknown = first.low - second.low & MASK[bits], 0
    else:
        ones, unknown = 0, MASK[bits]
    if first.low < second.high:
        return Quantity(ones, unknown, 0, MASK[bits])
    return Quantity(ones, unknown, first.low - second.high, first.high - second.low, raised(first.tails, second.low))


def complement(bits, quantity):
    """What a constant whose sign bit is set lacks to the width, or nothing."""
    value = only(quantity)
    return None if value is None or value < 1 << bits - 1 else constant((1 << bits) - value)


def both_known(first, second):
    """What two say of one number; not in its normal form."""
    if (first.ones ^ second.ones) & ~first.unknown & ~second.unknown:
        raise Dead
    unknown = first.unknown & second.unknown
    return Quantity((first.ones | second.ones) & ~unknown, unknown, max(first.low, second.low), min(first.high, second.high),
                    both_tails(greater, first.tails, second.tails))


def by_both(rules, form, other):
    """What the one form of a sum or a difference says, and by more rules what the other one says too."""
    return both_known(normal(form), normal(other)) if "g" in rules else form


def added(rules, bits, first, second):
    """The sum; what a great constant lacks is taken away instead."""
    lacking, plain = complement(bits, second), plain_sum(rules, bits, first, second)
    return plain if lacking is None else by_both(rules, plain_difference(rules, bits, first, lacking), plain)


def taken_away(rules, bits, first, second):
    """The difference; what a great constant lacks is added instead."""
    lacking, plain = complement(bits, second), plain_difference(rules, bits, first, second)
    return plain if lacking is None else by_both(rules, plain_sum(rules, bits, first, lacking), plain)


def bits_of_both(_rules, _bits, first, second):
    ones = first.ones & second.ones
    unknown = most_bits(first) & most_bits(second) & ~ones
    return Quantity(ones, unknown, 0, min(first.high, second.high), both_tails(greater, first.tails, second.tails))


def bits_of_either(_rules, bits, first, second):
    ones = first.ones | second.ones
    return Quantity(ones, (first.unknown | second.unknown) & ~ones, 0, MASK[bits])


def bits_of_one(_rules, bits, first, second):
    unknown = first.unknown | second.unknown
    return Quantity((first.ones ^ second.ones) & ~unknown, unknown, 0, MASK[bits])


def product(_rules, bits, first, second):
    return in_width(bits, anything(bits), first.low * second.low, first.high * second.high)


def divided_tails(rules, quantity, divisor):
    """The tails of the quotient by a constant: each number becomes less by as much as the least one does, at least."""
    return raised(quantity.tails, quantity.low - quantity.low // divisor) if "c" in rules else quantity.tails


def quotient(rules, bits, first, second):
    low, high = (first.low // second.high, first.high // second.low) if second.low > 0 else (0, first.high)
    tails = divided_tails(rules, first, second.low) if only(second) else first.tails
    return Quantity(0, MASK[bits], low, high, tails)


def remainder(_rules, bits, first, second):
    high = min(first.high, second.high - 1) if second.low > 0 else first.high
    return Quantity(0, MASK[bits], 0, high, first.tails)


def shift_count(bits, quantity):
    """The one number of places, where it is known."""
    return only(normal(bits_of_both("", bits, quantity, constant(bits - 1))))


def shifted_left(_rules, bits, first, second):
    count = shift_count(bits, second)
    if count is None:
        return anything(bits)
    moved = Quantity(first.ones << count & MASK[bits], first.unknown << count & MASK[bits], 0, 0)
    return in_width(bits, moved, first.low << count, first.high << count)


def shifted_right(rules, bits, first, second):
    count = shift_count(bits, second)
    if count is None:
        return Quantity(0, MASK[bits], 0, first.high, first.tails)
    tails = divided_tails(rules, first, 1 << count)
    return Quantity(first.ones >> count, first.unknown >> count, first.low >> count, first.high >> count, tails)


def shifted_with_sign(rules, bits, first, second):
    if shift_count(bits, second) is None or first.high >= 1 << bits - 1:
        return anything(bits)
    return shifted_right(rules, bits, first, second)


def moved_over(_rules, _bits, _first, second):
    return second


OPERATIONS = {"add": added, "sub": taken_away, "mul": product, "div": quotient, "mod": remainder, "and": bits_of_both,
              "or": bits_of_either, "xor": bits_of_one, "lsh": shifted_left, "rsh": shifted_right, "arsh": shifted_with_sign,
              "mov": moved_over}


def transfer(rules, name, bits, offset, first, second):
    """What an operation makes of two numbers; an offset makes it a division or a move with sign."""
    if bits == 32:
        first, second = cut(first), cut(second)
    if offset:
        return anything(bits)
    return normal(OPERATIONS[name](rules, bits, first, second))


# Comparisons: what is known of both sides where they hold.

def ordered(left, right, by):
    """Both sides where the left one and so much more is at most the right one."""
    below = left._replace(high=min(left.high, right.high - by), tails=both_tails(greater, left.tails, raised(right.tails, by)))
    above = right._replace(low=max(right.low, left.low + by))
    return normal(below), normal(above)


def equal(left, right):
    both = normal(both_known(left, right))
    return both, both


def apart(quantity, value):
    """The quantity without a number, if that is one of its ends."""
    low, high = quantity.low, quantity.high
    if value is not None:
        low, high = low + (low == value), high - (high == value)
    return normal(quantity._replace(low=low, high=high))


def related(name, left, right):
    """Both sides where a comparison without sign holds."""
    if name == "jeq":
        return equal(left, right)
    if name == "jne":
        return apart(left, only(right)), apart(right, only(left))
    by = 1 if name in ("jlt", "jgt") else 0
    if name in ("jlt", "jle"):
        return ordered(left, right, by)
    right, left = ordered(right, left, by)
    return left, right


def told(name, bits, is_taken, left, right):
    """Both sides on an edge; as they are where the comparison says nothing of such numbers."""
    if name == "jset":
        return left, right
    is_signed = name.startswith("js")
    reach = 1 << (bits - 1 if is_signed else bits)
    if left.high >= reach or right.high >= reach:
        return left, right
    name = "j" + name[2:] if is_signed else name
    return related(name if is_taken else NEGATED[name], left, right)
