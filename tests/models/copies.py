"""Which values of the machine the verifier knows as copies of one another, or as so far apart, and what they learn of each other.

A place is a register, by its number, or eight bytes of the stack, by their number from the lowest on and STACK. A place may have a
mark. Marks of one origin, which is the slot of the instruction that made it, are on values of which each is the origin's value and
the mark's addend, modulo the mark's width: jumps lead forward, so a slot names one value in a run.
"""

from typing import NamedTuple

from machine import MASK, fields, kind_of
from quantities import REGIONS, added, constant, equal, normal, only

STACK = 11


class Mark(NamedTuple):
    origin: int
    addend: int
    bits: int


def held(state, place):
    """What is known of the value at a place, if it is one value."""
    if place < STACK:
        return state.registers[place]
    form, content = state.stack[place - STACK]
    return content if form == "spilled" else None


def varies(known):
    """Whether a place may have one of several numbers, or of several addresses in a region."""
    return known is not None and known[0] in ("number", *REGIONS) and only(known[1]) is None


def copy(marks, before, at, source, target, bits=64):
    """The target has what the source had, or the low bits of it: both have the source's mark, or a new one."""
    known = held(before, source)
    if source not in marks and varies(known):
        marks[source] = Mark(at, 0, 64)
    mark = marks.get(source)
    marks.pop(target, None)
    if mark is not None:
        is_whole = known is not None and known[0] == "number" and known[1].high <= MASK[32]
        marks[target] = mark if bits == 64 or is_whole else mark._replace(bits=32)


def after_arithmetic(marks, before, data, at):
    opcode, dst, src, offset, imm = fields(data, at)
    _, name, bits, is_register = kind_of(opcode)
    if name == "mov" and is_register and offset == 0:
        copy(marks, before, at, src, dst, bits)
        return
    mark = marks.pop(dst, None)
    kind, by = before.operand(is_register, src, imm)
    if name in ("add", "sub") and mark is not None and kind == "number" and only(by) is not None:
        addend = mark.addend + by.low if name == "add" else mark.addend - by.low
        marks[dst] = mark._replace(addend=addend & MASK[64], bits=min(bits, mark.bits))


def stack_byte(known, offset):
    """The byte at which a load or a store begins, from the lowest of the stack on, or None where that isn't on the stack."""
    return known[1] + offset + 512 if known[0] == "stack" else None


def after_load(marks, before, data, at):
    opcode, dst, src, offset, _ = fields(data, at)
    byte = stack_byte(before.read(src), offset)
    if byte is not None and kind_of(opcode)[2:4] == (8, False) and byte % 8 == 0 and held(before, STACK + byte // 8):
        copy(marks, before, at, STACK + byte // 8, dst)
    else:
        marks.pop(dst, None)


def after_store(marks, before, data, at):
    opcode, dst, src, offset, _ = fields(data, at)
    size, is_register = kind_of(opcode)[2:4]
    byte = stack_byte(before.read(dst), offset)
    for eight in range(byte // 8, (byte + size - 1) // 8 + 1):
        marks.pop(STACK + eight, None)
    if is_register and size == 8 and byte % 8 == 0:
        copy(marks, before, at, src, STACK + byte // 8)


def marks_after(before, data, at):
    """The marks behind an instruction that goes on at the next one, and isn't refused."""
    marks, opcode, dst = dict(before.marks), data[at * 8], data[at * 8 + 1] & 15
    kind = kind_of(opcode)[0]
    if kind == "arithmetic":
        after_arithmetic(marks, before, data, at)
    elif kind == "load":
        after_load(marks, before, data, at)
    elif kind == "store":
        after_store(marks, before, data, at)
    else:
        marks.pop(dst, None)
    return marks


def learned(rules, mark, known, other_mark, other):
    """What is known of another value of the same origin, by what is known of one."""
    bits = min(mark.bits, other_mark.bits)
    if known[0] != other[0] or known[1].high > MASK[bits] or other[1].high > MASK[bits]:
        return other
    ahead = constant(other_mark.addend - mark.addend & MASK[bits])
    moved = normal(added(rules, bits, known[1], ahead))
    return other[0], equal(other[1], moved)[0]


def tell(rules, state, register):
    """All others learn what a comparison tells of a register. Raises Dead where that can't be."""
    mark = state.marks.get(register)
    if mark is None:
        return
    known = held(state, register)
    for place in sorted(state.marks):
        other = held(state, place)
        if place == register or other is None or state.marks[place].origin != mark.origin:
            continue
        content = learned(rules, mark, known, state.marks[place], other)
        if place < STACK:
            state.registers[place] = content
        else:
            state.stack[place - STACK] = ("spilled", content)
        if content[0] in ("number", *REGIONS):
            state.lengthen(content[1])
