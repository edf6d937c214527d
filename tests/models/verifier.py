"""What `hub check` says of a program, and what the verifier knows before each slot, apart from the code of the hub.

The verifier takes the slots once, in their order. Of each register, and of each eight bytes of the stack, it knows before a slot
either nothing or a pair: ("number", quantity); ("text", quantity) or ("link", quantity), an address so far behind the region's
start; ("context", place) or ("stack", place), an address so far behind the context's start, or behind the stack's end. Of the text
and of the link it knows how long they are at least. verifier_checks.py compares what is said here with what the hub must print.

A profile says what a program may read, and which rules hold beside those that all profiles share. Each rule has a letter:

    a   what is learned of a number or address holds of its copies, and of what a constant was added to (copies.py)
    b   the difference of two addresses in the text, or of two in the link, is a number
    c   a quotient by a constant, and what a constant shifts to the right, have the tail of what they are made from, and more of
        one where they are less by that much for sure
    d   a part of a field of the context that is a number may be loaded
    e   where ways join, an address has at least the tail that the least length known on its own way gives it
    f   a sum has the greater one of the tails that its two sides give it
    g   a sum or a difference with a great constant is what both ways to make it say, by the constant and by what it lacks
"""

from typing import NamedTuple

import copies
from machine import MASK, fields, kind_of, signed
from quantities import (LIMITS, NEGATED, REGIONS, Dead, anything, constant, ending, greater, joined_quantity, less_tail, normal,
                        only, told, transfer, up_to_end)

REASONS = {10: "BackwardJump", 11: "JumpOut", 12: "JumpIntoWide", 13: "FallOff", 14: "WriteR10", 15: "UnsetRegister",
           16: "PointerArithmetic", 17: "PointerCompare", 18: "ContextField", 19: "StackBounds", 20: "StackUnset", 21: "TextBounds",
           22: "TextOffset", 23: "ReadOnlyStore", 24: "NotAnAddress", 25: "PointerStore", 26: "ReturnPointer"}
# How far behind its region's start an address may lie.
NEAR = 1 << 20


class Profile(NamedTuple):
    """How many bytes of the context a program may read, whether it may read the link, and which rules hold beside those that
    all profiles share."""
    context_length: int
    lends_link: bool
    rules: str = ""


PROFILES = {1: Profile(56, False), 2: Profile(72, True), 3: Profile(72, True, "abcdefg")}


class Refused(Exception):
    """An instruction is refused, with this number."""


# What is known of the machine.

def number(quantity):
    return "number", quantity


def is_number(known):
    return known[0] == "number"


def moved_place(profile, name, known, by):
    """An address in the context or the stack behind a constant's addition; it must stay there, or at the end."""
    kind, place = known
    if only(by) is None:
        raise Refused(16)
    place += signed(by.low, 64) if name == "add" else -signed(by.low, 64)
    low, high = (0, profile.context_length) if kind == "context" else (-512, 0)
    if not low <= place <= high:
        raise Refused(16)
    return kind, place


def computed(profile, name, bits, offset, first, second):
    """What an operation other than a move makes of what is known of both sides."""
    if is_number(first) and is_number(second):
        return number(transfer(profile.rules, name, bits, offset, first[1], second[1]))
    if bits == 32 or name not in ("add", "sub"):
        raise Refused(16)
    if "b" in profile.rules and name == "sub" and first[0] == second[0] and first[0] in REGIONS:
        return number(transfer(profile.rules, name, 64, 0, first[1], second[1]))
    if first[0] in ("context", "stack") and is_number(second):
        return moved_place(profile, name, first, second[1])
    if first[0] in REGIONS and is_number(second):
        kind = first[0]
    elif name == "add" and is_number(first) and second[0] in REGIONS:
        kind = second[0]
    else:
        raise Refused(16)
    quantity = transfer(profile.rules, name, 64, 0, first[1], second[1])
    if quantity.high > NEAR:
        raise Refused(22)
    return kind, quantity


def moved(bits, offset, known):
    """What a move makes of what is known; one of all 64 bits leaves it as it is, in its normal form."""
    if bits == 64 and not offset:
        return known if known[0] in ("context", "stack") else (known[0], normal(known[1]))
    if not is_number(known):
        raise Refused(16)
    return number(transfer("", "mov", bits, offset, constant(0), known[1]))


def joined_known(first, second):
    """What either may be, or None where that has no form."""
    if first is None or second is None or first[0] != second[0]:
        return None
    if first[0] in ("context", "stack"):
        return first if first[1] == second[1] else None
    return first[0], joined_quantity(first[1], second[1])


# Of eight bytes of the stack it is known either what they hold, where they were stored at once, or which of them are set.
NONE_SET, ALL_SET = (False,) * 8, (True,) * 8


def marks_of(eight):
    """Which of eight bytes are set for sure, as a number's bytes; those of an address aren't."""
    if eight[0] == "marks":
        return eight[1]
    return ALL_SET if is_number(eight[1]) else NONE_SET


def joined_bytes(first, second):
    if first[0] == second[0] == "spilled":
        known = joined_known(first[1], second[1])
        return ("marks", NONE_SET) if known is None else ("spilled", known)
    marks, other = marks_of(first), marks_of(second)
    return "marks", marks if marks == other else tuple(map(min, marks, other))


class State:
    """What is known of the machine before an instruction. A copy is changed; a state that waits at a slot never is."""

    def __init__(self, registers, stack, lengths, marks=None):
        self.registers, self.stack, self.lengths, self.marks = registers, stack, lengths, marks or {}

    def copy(self):
        return State(list(self.registers), list(self.stack), list(self.lengths), dict(self.marks))

    def read(self, register):
        if self.registers[register] is None:
            raise Refused(15)
        return self.registers[register]

    def operand(self, is_register, register, imm, bits=64):
        return self.read(register) if is_register else number(constant(imm & MASK[bits]))

    def lengthen(self, quantity):
        """The regions are as long as the tails of a number that stands there say."""
        for region, tail in enumerate(quantity.tails):
            if tail is not None:
                self.lengths[region] = max(self.lengths[region], quantity.low + tail)
                if self.lengths[region] > LIMITS[region]:
                    raise Dead


def start():
    registers = [None] * 11
    registers[1], registers[10] = ("context", 0), ("stack", 0)
    return State(registers, [("marks", NONE_SET)] * 64, [0, 0])


def placed(known, lengths):
    """What is known of an address in a region, with the tail that the region's least length gives it, where that is more."""
    kind, quantity = known
    region = REGIONS.index(kind)
    tails = list(quantity.tails)
    tails[region] = greater(tails[region], less_tail(lengths[region], quantity.high))
    return kind, quantity._replace(tails=tuple(tails))


def with_tails(state):
    """The state with the tails of all its addresses in a region, in registers and on the stack."""
    after = state.copy()
    after.registers = [placed(known, state.lengths) if known and known[0] in REGIONS else known for known in state.registers]
    after.stack = [(form, placed(held, state.lengths)) if form == "spilled" and held[0] in REGIONS else (form, held)
                   for form, held in state.stack]
    return after


def joined(rules, first, second):
    """What is known on either of two ways."""
    if "e" in rules:
        first, second = with_tails(first), with_tails(second)
    return State([joined_known(*pair) for pair in zip(first.registers, second.registers)],
                 [joined_bytes(*pair) for pair in zip(first.stack, second.stack)],
                 [min(pair) for pair in zip(first.lengths, second.lengths)],
                 dict(first.marks.items() & second.marks.items()))


# Loads and stores.

# The places of the context's fields that say something of a region: of its start, of its end, of its length.
STARTS, ENDS, LENGTHS = {0: "text", 56: "link"}, {8: "text", 64: "link"}, {16: "text", 32: "link"}


def is_in_number(place, size):
    """Whether the bytes stand in one field that is a number."""
    begin, length = (48, 8) if place >= 48 else (place - place % 4, 4)
    return 16 <= place and place + size <= begin + length


def field(profile, place, size):
    """What a whole field of the context holds; by the first profile the link's length is a number of which nothing is known."""
    if place + size > profile.context_length:
        raise Refused(18)
    if size == 8 and place in STARTS:
        return STARTS[place], constant(0)._replace(tails=ending(STARTS[place]))
    if size == 8 and place in ENDS:
        return ENDS[place], up_to_end(64, ENDS[place])
    if size == 4 and place in LENGTHS and (profile.lends_link or LENGTHS[place] == "text"):
        return number(up_to_end(32, LENGTHS[place]))
    if size == 8 and place == 48 or size == 4 and place in range(20, 48, 4):
        return number(anything(8 * size))
    if "d" in profile.rules and is_in_number(place, size):
        return number(anything(8 * size))
    raise Refused(18)


def stack_place(place, size):
    """A place on the stack, counted from its lowest byte."""
    if place < -512 or place + size > 0:
        raise Refused(19)
    return place + 512


def reaches(state, known, offset, size):
    """Whether the bytes lie in the region, by its length or by the address's tail."""
    kind, quantity = known
    region = REGIONS.index(kind)
    tail = quantity.tails[region]
    by_length = quantity.high + offset + size <= state.lengths[region]
    return quantity.low + offset >= 0 and (by_length or tail is not None and offset + size <= tail)


def loaded(profile, state, base, offset, size, is_signed):
    """What a load gives."""
    kind, place = base
    result = number(anything(64 if is_signed else 8 * size))
    if kind == "number":
        raise Refused(24)
    if kind == "context":
        if is_signed:
            if "d" not in profile.rules or not is_in_number(place + offset, size):
                raise Refused(18)
            return result
        return field(profile, place + offset, size)
    if kind in REGIONS:
        if not reaches(state, base, offset, size):
            raise Refused(21)
        return result
    at = stack_place(place + offset, size)
    if size == 8 and at % 8 == 0 and state.stack[at // 8][0] == "spilled":
        return state.stack[at // 8][1]
    if not all(marks_of(state.stack[byte // 8])[byte % 8] for byte in range(at, at + size)):
        raise Refused(20)
    return result


def store(state, base, offset, size, value):
    """Notes a store in the state."""
    kind, place = base
    if kind != "stack":
        raise Refused(24 if kind == "number" else 23)
    at = stack_place(place + offset, size)
    if size == 8 and at % 8 == 0:
        state.stack[at // 8] = ("spilled", value)
        return
    if not is_number(value):
        raise Refused(25)
    for byte in range(at, at + size):
        marks = list(marks_of(state.stack[byte // 8]))
        marks[byte % 8] = True
        state.stack[byte // 8] = ("marks", tuple(marks))


# Comparisons.

def on_edge(rules, before, instruction, is_taken):
    """What is known behind a comparison that holds, or doesn't."""
    opcode, dst, src, _, imm = instruction
    _, name, bits, is_register = kind_of(opcode)
    kind, left = before.read(dst)
    right_kind, right = before.operand(is_register, src, imm, bits)
    after = before.copy()
    if not is_register or src != dst:
        left, right = told(name, bits, is_taken, left, right)
        after.registers[dst] = kind, left
        if is_register:
            after.registers[src] = right_kind, right
    after.lengthen(left)
    after.lengthen(right)
    if "a" in rules:
        copies.tell(rules, after, dst)
        if is_register:
            copies.tell(rules, after, src)
    return after


def check_sides(before, instruction):
    """Numbers are compared by any comparison, addresses in one region for equality or for order without sign, by 64 bits."""
    opcode, dst, src, _, imm = instruction
    _, name, bits, is_register = kind_of(opcode)
    left, right = before.read(dst)[0], before.operand(is_register, src, imm)[0]
    if left == right == "number":
        return
    if left != right or left not in REGIONS or bits != 64 or name not in NEGATED:
        raise Refused(17)


# The walk.

def starts(data):
    """The slots at which instructions start."""
    at = 0
    while at * 8 < len(data):
        yield at
        at += 2 if data[at * 8] == 0x18 else 1


def distance_of(instruction):
    """How far an instruction jumps, if it does."""
    opcode, _, _, offset, imm = instruction
    kind = kind_of(opcode)[0]
    if kind == "ja32":
        return imm
    return offset if kind in ("ja", "compare") else None


def misplaced(data):
    """The refusal of an instruction's place or target, of the first one at fault: number and slot; or None."""
    slots, places = len(data) // 8, list(starts(data))
    is_start = set(places)
    for at in places:
        instruction = fields(data, at)
        distance, kind = distance_of(instruction), kind_of(instruction[0])[0]
        if distance is not None:
            target = at + 1 + distance
            if distance < 0:
                return 10, at
            if target >= slots or target not in is_start:
                return 11 if target >= slots else 12, at
        if at == places[-1] and kind != "exit":
            return 13, at
        if kind in ("arithmetic", "neg", "order", "wide", "load") and instruction[1] == 10:
            return 14, at
    return None


def result_of(profile, before, instruction):
    """What an operation with two sides, or a move, gives."""
    opcode, dst, src, offset, imm = instruction
    _, name, bits, is_register = kind_of(opcode)
    if name == "mov":
        return moved(bits, offset, before.operand(is_register, src, imm))
    first = before.read(dst)
    return computed(profile, name, bits, offset, first, before.operand(is_register, src, imm))


def stepped(profile, before, data, at):
    """What is known behind an instruction that goes on at the next one."""
    opcode, dst, src, offset, imm = fields(data, at)
    kind = kind_of(opcode)
    after = before.copy()
    if kind[0] == "wide":
        high = fields(data, at + 1)[4]
        after.registers[dst] = number(constant((high & MASK[32]) << 32 | imm & MASK[32]))
    elif kind[0] == "arithmetic":
        after.registers[dst] = result_of(profile, before, fields(data, at))
    elif kind[0] in ("neg", "order"):
        if not is_number(before.read(dst)):
            raise Refused(16)
        after.registers[dst] = number(anything(imm if kind[0] == "order" else kind[1]))
    elif kind[0] == "load":
        after.registers[dst] = loaded(profile, before, before.read(src), offset, kind[2], kind[3])
    else:
        base = before.read(dst)
        store(after, base, offset, kind[2], before.operand(kind[3], src, imm))
    if "a" in profile.rules:
        after.marks = copies.marks_after(before, data, at)
    return after


class Walk:
    """One walk over words whose places and targets are right. What is known on each edge waits at its slot, beside the slot from
    which it leads there. `states` has what was known before each slot to which a run may come, up to the one that is refused, if one
    is."""

    def __init__(self, data, profile):
        self.data, self.profile = data, profile
        self.waiting, self.states = {0: [(None, start())]}, {}
        self.refused = self.all_slots()

    def all_slots(self):
        """Number and slot of the refusal, or None."""
        for at in starts(self.data):
            if at not in self.waiting:
                continue
            state = self.waiting[at][0][1]
            for _, other in self.waiting[at][1:]:
                state = joined(self.profile.rules, state, other)
            self.states[at] = state
            try:
                self.one_slot(at, state)
            except Dead:
                pass
            except Refused as refused:
                return refused.args[0], at
        return None

    def wait(self, here, at, state):
        self.waiting.setdefault(at, []).append((here, state))

    def one_slot(self, at, before):
        """Leaves what is known behind the instruction at each slot to which a run goes on."""
        instruction = fields(self.data, at)
        kind = kind_of(instruction[0])[0]
        distance = distance_of(instruction)
        if kind == "exit":
            if not is_number(before.read(0)):
                raise Refused(26)
        elif kind in ("ja", "ja32"):
            self.wait(at, at + 1 + distance, before)
        elif kind == "compare":
            check_sides(before, instruction)
            for is_taken, target in ((False, at + 1), (True, at + 1 + distance)):
                try:
                    self.wait(at, target, on_edge(self.profile.rules, before, instruction, is_taken))
                except Dead:
                    pass
        else:
            self.wait(at, at + (2 if kind == "wide" else 1), stepped(self.profile, before, self.data, at))


# What is printed.

def quantity_text(quantity):
    if (quantity.low, quantity.high) == (0, MASK[64]):
        text = "any number"
    else:
        text = str(quantity.low) if only(quantity) is not None else f"{quantity.low}..={quantity.high}"
    if quantity.unknown != (1 << (quantity.low ^ quantity.high).bit_length()) - 1:
        text += f", bits ({quantity.ones:#x}; {quantity.unknown:#x})"
    for name, tail in zip(("tail", "link tail"), quantity.tails):
        text += "" if tail is None else f", {name} {tail}"
    return text


def known_text(known):
    kind, detail = known
    if kind == "number":
        return quantity_text(detail)
    if kind == "context":
        return f"context+{detail}"
    return f"stack-{-detail}" if kind == "stack" else f"{kind}+{quantity_text(detail)}"


def state_lines(state, profile):
    lines = [f"  r{register} = {known_text(known)}" for register, known in enumerate(state.registers) if known is not None]
    for at, (kind, detail) in enumerate(state.stack):
        place = f"  [stack-{512 - 8 * at}] = "
        if kind == "spilled":
            lines.append(place + known_text(detail))
        elif any(detail):
            lines.append(place + "".join("x" if is_set else "-" for is_set in detail))
    lines.append(f"  length >= {state.lengths[0]}")
    return lines + [f"  link length >= {state.lengths[1]}"] * profile.lends_link
