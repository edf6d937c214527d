"""Runs of programs on texts and links of the lengths at which something changes, step by step beside what the verifier knows."""

import functools

from copies import STACK, held
from machine import CTX, FRAME, LINK, MASK, TEXT, Fault, Machine, context
from quantities import LIMITS, REGIONS

STARTS = dict(zip(REGIONS, (TEXT, LINK)))
BYTES = b"https://www.example.org:80/a?b=#TODO 12 "
FEW = [0, 1, 2, 5]


@functools.cache
def bytes_of_length(length):
    return (BYTES * (length // len(BYTES) + 1))[:length]


@functools.cache
def machine_parts(text_length, link_length, index):
    """A context, a text and a link. The index chooses the numbers: none, great ones, or some between."""
    numbers = [dict(), dict(flags=63, color=0xffffff, comments=MASK[32], index=MASK[32] - 1, count=MASK[32], number=MASK[64]),
               dict(flags=21, color=0x010203, comments=3, index=1, count=7, number=1 << 63)]
    text, link = bytes_of_length(text_length), bytes_of_length(link_length)
    return context(text, link, **numbers[index % 3]), text, link


def lengths_to_run():
    """Texts and links of none, of a few bytes, and of the most bytes or one less."""
    for text_length in FEW + [LIMITS[0] - 1, LIMITS[0]]:
        for link_length in FEW + [LIMITS[1] - 1, LIMITS[1]]:
            yield text_length, link_length


def is_in(quantity, value, lengths):
    """Whether a number is one of those that a quantity has."""
    return (value & ~quantity.unknown == quantity.ones and quantity.low <= value <= quantity.high
            and all(tail is None or value + tail <= length for tail, length in zip(quantity.tails, lengths)))


def is_known(known, value, lengths):
    """Whether what is known of a place is so of a value."""
    kind, detail = known
    if value is None:
        return False
    if kind in ("context", "stack"):
        return value == (CTX if kind == "context" else FRAME) + detail
    return is_in(detail, value if kind == "number" else value - STARTS[kind] & MASK[64], lengths)


def value_at(machine, place):
    """The value of a register, or of eight bytes of the stack that are set."""
    if place < STACK:
        return machine.registers[place]
    found = machine.stack[8 * (place - STACK):8 * (place - STACK) + 8]
    return None if None in found else int.from_bytes(bytes(found), "little")


def unlike(state, machine):
    """What a state says that isn't so, or None."""
    lengths = len(machine.text), len(machine.link)
    if any(least > length for least, length in zip(state.lengths, lengths)):
        return f"lengths {state.lengths}"
    for place in range(STACK + 64):
        known = held(state, place)
        if known is not None and not is_known(known, value_at(machine, place), lengths):
            return f"place {place}"
    for at, (form, content) in enumerate(state.stack):
        if form == "marks" and any(is_set and machine.stack[8 * at + byte] is None for byte, is_set in enumerate(content)):
            return f"bytes of the stack at {8 * at}"
    marked = [(mark, value_at(machine, place)) for place, mark in state.marks.items()]
    for mark, value in marked:
        for other, other_value in marked:
            if mark.origin == other.origin and None not in (value, other_value):
                if (other_value - value - other.addend + mark.addend) & MASK[min(mark.bits, other.bits)]:
                    return f"copies {mark} and {other}"
    return None


def run_beside(data, states, parts):
    """What is wrong with a run of an accepted program, or None."""
    machine = Machine(data, *parts)
    at = 0
    while True:
        if at not in states:
            return f"slot {at}: no run should come there"
        wrong = unlike(states[at], machine)
        if wrong:
            return f"slot {at}: {wrong}"
        try:
            at = machine.step(at, ())
        except Fault as fault:
            return f"slot {at}: fault {fault}"
        if isinstance(at, tuple):
            return None


def first_wrong(data, states, index=0):
    """What is wrong with a run on one of the lengths, or None."""
    for number, lengths in enumerate(lengths_to_run(), index):
        wrong = run_beside(data, states, machine_parts(*lengths, number))
        if wrong:
            return f"text and link of {lengths} bytes, {wrong}"
    return None
