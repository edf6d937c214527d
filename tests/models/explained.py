"""What `hub check --explain` prints behind a verdict, apart from the code of the hub: what the verifier knows before the slots,
what was known on each way to a slot, and where what a refused instruction wants was known last (docs/PROGRAMS.md)."""

import functools
from typing import NamedTuple, Optional

from machine import MASK, fields, kind_of, line_of, refusal, signed
from quantities import REGIONS, only
from verifier import NEAR, REASONS, Walk, distance_of, is_number, marks_of, misplaced, starts, state_lines

STACK_BYTES = 512


class Want(NamedTuple):
    """What is wanted of the value at a place: ("register", number), ("eight", index) or ("bytes", first, count)."""
    place: tuple
    what: str
    region: Optional[str] = None
    by: int = 0

    def at(self, place):
        return self._replace(place=place)


def value_at(state, place):
    if place[0] == "register":
        return state.registers[place[1]]
    if place[0] == "eight":
        form, content = state.stack[place[1]]
        return content if form == "spilled" else None
    return None


def spread(known):
    """The least and the greatest number, or distance from the region's start."""
    return (known[1].low, known[1].high) if known[0] in ("number", *REGIONS) else None


def is_one(known):
    return spread(known) is not None and only(known[1]) is not None


def holds(state, want):
    """Whether what is wanted is known."""
    if want.place[0] == "bytes":
        first, count = want.place[1:]
        return first + count <= STACK_BYTES and all(
            marks_of(state.stack[byte // 8])[byte % 8] for byte in range(first, first + count))
    known = value_at(state, want.place)
    if known is None:
        return False
    kind = known[0]
    if want.what == "set":
        return True
    if want.what == "number":
        return kind == "number"
    if want.what == "one number":
        return kind == "number" and is_one(known)
    if want.what == "address":
        return kind != "number"
    if want.what == "stack":
        return kind == "stack"
    if want.what == "at most":
        return kind == "number" and known[1].high <= want.by
    if kind not in ("number", want.region):
        return False
    low, high = spread(known)
    if want.what == "behind":
        return low >= want.by
    region = REGIONS.index(want.region)
    tail = known[1].tails[region]
    return tail is not None and want.by <= tail or high + want.by <= state.lengths[region]


def place_text(place):
    if place[0] == "register":
        return f"r{place[1]}"
    if place[0] == "eight":
        return f"[stack-{STACK_BYTES - 8 * place[1]}]"
    last = place[1] + place[2] - 1
    return f"[stack-{STACK_BYTES - place[1]}]" + (f" to [stack-{STACK_BYTES - last}]" if place[2] > 1 else "")


def more(by):
    return f" + {by}" if by > 0 else f" - {-by}" if by < 0 else ""


def want_text(state, want):
    place, known = place_text(want.place), value_at(state, want.place)
    nouns = {"number": "a number", "one number": "one number", "address": "an address", "stack": "an address in the stack"}
    if want.what == "set":
        return f"{place} set"
    if want.what in nouns:
        return f"{nouns[want.what]} in {place}"
    if want.what == "at most":
        return f"{place} <= {want.by}"
    is_address = known is not None and not is_number(known)
    if want.what == "behind":
        return f"{place} >= {want.region} start{more(want.by)}" if is_address else f"{place} >= {want.by}"
    return f"{place}{more(want.by)} <= {want.region} {'end' if is_address else 'length'}"


# What a refused instruction wants.

def unset_register(state, instruction):
    """The first register that is read and may be unset."""
    opcode, dst, src, _, _ = instruction
    kind = kind_of(opcode)
    if kind[0] == "exit":
        read = [0]
    elif kind[0] == "load" or kind[0] == "arithmetic" and kind[1] == "mov":
        read = [src]
    elif kind[0] in ("neg", "order"):
        read = [dst]
    else:
        read = [dst] + [src] * kind[3]
    return next((register for register in read if state.registers[register] is None), None)


def wanted_of_arithmetic(state, instruction):
    """Where an address stands in place of a number, or a number that may vary in place of one."""
    opcode, dst, src, offset, _ = instruction
    kind = kind_of(opcode)
    if kind[0] in ("neg", "order"):
        return Want(("register", dst), "number")
    _, name, bits, is_register = kind
    if name == "mov":
        return Want(("register", src), "number")
    left, right = state.registers[dst], state.registers[src] if is_register else None
    if not is_number(left) and (name not in ("add", "sub") or bits == 32):
        return Want(("register", dst), "number")
    if right is None:
        return None
    if not is_number(right):
        return Want(("register", src), "number")
    return None if is_one(right) else Want(("register", src), "one number")


def wanted_of_offset(state, instruction):
    """What keeps a sum from being too far behind its region's start, or a difference from being before it."""
    opcode, dst, src, _, imm = instruction
    _, name, _, is_register = kind_of(opcode)
    left, right = state.registers[dst], state.registers[src] if is_register else None
    if name == "sub":
        if right is not None and not (is_one(right) and right[1].low < 1 << 63):
            return Want(("register", src), "at most", None, spread(left)[0])
        by = imm if right is None else right[1].low
        return Want(("register", dst), "behind", left[0], by)
    if right is None:
        return Want(("register", dst), "behind", left[0], -imm)
    number_at, address = (dst, right) if is_number(left) else (src, left)
    most = NEAR - spread(address)[1]
    return Want(("register", number_at), "at most", None, most)


def wanted(state, instruction, reason):
    """What an instruction wants of one value that is refused for what is known before it, or None."""
    opcode, dst, src, offset, _ = instruction
    kind = kind_of(opcode)
    if reason == 15:
        return Want(("register", unset_register(state, instruction)), "set")
    if reason == 16:
        return wanted_of_arithmetic(state, instruction)
    if reason == 17:
        left, right = state.registers[dst], state.registers[src] if kind[3] else ("number", None)
        if is_number(left):
            return Want(("register", src), "number")
        return Want(("register", dst), "number") if is_number(right) else None
    if reason == 20:
        return Want(("bytes", state.registers[src][1] + offset + STACK_BYTES, kind[2]), "set")
    if reason == 21:
        region, quantity = state.registers[src]
        if quantity.low + offset < 0:
            return Want(("register", src), "behind", region, -offset)
        return Want(("register", src), "within", region, offset + kind[2])
    if reason == 22:
        return wanted_of_offset(state, instruction)
    if reason in (23, 24):
        return Want(("register", src if kind[0] == "load" else dst), "stack" if reason == 23 else "address")
    if reason == 25:
        return Want(("register", src), "number")
    return Want(("register", 0), "number") if reason == 26 else None


# Back from there.

WRITTEN = "written"


def moves(known, bits, by):
    """Whether adding a constant to a number, or to a distance, never wraps."""
    if known is None or spread(known) is None:
        return False
    low, high = spread(known)
    return high <= MASK[bits] and low + by >= 0 and high + by <= MASK[bits]


def before_adding(want, place, by):
    """What is wanted of a value so that it is so of the value with a constant added."""
    if want.what == "set" or want.what == "at most" and want.by - by < 0:
        return WRITTEN
    sign = {"within": 1, "behind": -1, "at most": -1}.get(want.what, 0)
    return want._replace(place=place, by=want.by + sign * by)


def before_sum(state, instruction, want):
    opcode, dst, src, _, imm = instruction
    _, name, bits, is_register = kind_of(opcode)
    left, right = state.registers[dst], state.registers[src] if is_register else None
    if name not in ("add", "sub"):
        return WRITTEN
    if right is None or is_number(right) and is_one(right):
        by = imm if right is None else signed(right[1].low, 64)
        by = by if name == "add" else -by
        return before_adding(want, ("register", dst), by) if moves(left, bits, by) else WRITTEN
    if name != "add" or bits != 64:
        return WRITTEN
    for place, known, other in ((src, right, left), (dst, left, right)):
        if is_one(other):
            by = other[1].low
            fits = by < 1 << 63 and moves(known, 64, by)
            return before_adding(want, ("register", place), by) if fits else WRITTEN
    return WRITTEN


def eight_of(state, register, offset):
    """Where eight bytes of the stack begin, if a load or a store does so at a multiple of eight."""
    known = state.registers[register]
    if known is None or known[0] != "stack" or (known[1] + offset) % 8:
        return None
    return (known[1] + offset + STACK_BYTES) // 8


def before(state, instruction, want):
    """What is wanted before an instruction so that it is so behind it: the same, of another value, or WRITTEN."""
    opcode, dst, src, offset, _ = instruction
    kind = kind_of(opcode)
    if want.place[0] == "register" and kind[0] in ("arithmetic", "neg", "order", "load", "wide") and dst == want.place[1]:
        if kind[0] == "load" and kind[2:4] == (8, False):
            eight = eight_of(state, src, offset)
            is_there = eight is not None and state.stack[eight][0] == "spilled"
            return want.at(("eight", eight)) if is_there else WRITTEN
        if kind[0] == "arithmetic" and kind[1] == "mov":
            is_copy = kind[3] and not offset and (kind[2] == 64 or moves(state.registers[src], 32, 0))
            return want.at(("register", src)) if is_copy else WRITTEN
        return before_sum(state, instruction, want) if kind[0] == "arithmetic" else WRITTEN
    if want.place[0] == "eight" and kind[0] == "store":
        first = state.registers[dst][1] + offset + STACK_BYTES
        if first < 8 * want.place[1] + 8 and 8 * want.place[1] < first + kind[2]:
            is_copy = kind[2] == 8 and first == 8 * want.place[1] and kind[3]
            return want.at(("register", src)) if is_copy else WRITTEN
    return want


def ways_into(walk, at):
    """The slots from which ways lead to a slot, each with what is known on it."""
    return [way for way in walk.waiting.get(at, []) if way[0] is not None]


def joined_line(at, ways, want):
    known, unknown = [], []
    for here, state in ways:
        (known if holds(state, want) else unknown).append(str(here))
    line = f"lost where ways join at slot {at}: known from {', '.join(known)}"
    return line + (f", not from {', '.join(unknown)}" if unknown else "")


def ending(walk, slot, want):
    """Goes back from a slot before which something isn't known: before which slot what is wanted at last, and the last line."""
    first, at = slot, slot
    while ways_into(walk, at):
        ways = ways_into(walk, at)
        if len(ways) > 1 and any(holds(state, want) for _, state in ways):
            return first, want, joined_line(at, ways, want)
        here = ways[-1][0]
        state, instruction = walk.states[here], fields(walk.data, here)
        earlier = before(state, instruction, want)
        if earlier == WRITTEN:
            front = "known until slot" if holds(state, want) else "never known: slot"
            return first, want, f"{front} {here} writes {place_text(want.place)}"
        if holds(state, earlier):
            return first, want, f"known before slot {here}, not behind it"
        if earlier is not want:
            first, want = here, earlier
        at = here
    return first, want, "never known"


def moves_back(walk, slot, registers):
    """Before each slot down to which one way leads back from the slot, of which values these registers' values are moved, and by how
    much."""
    values = [Want(("register", register), "within", "text") for register in registers]
    while all(value != WRITTEN for value in values):
        yield [(value.place, value.by) for value in values]
        ways = ways_into(walk, slot)
        if len(ways) != 1:
            return
        slot = ways[0][0]
        values = [before(walk.states[slot], fields(walk.data, slot), value) for value in values]


def distance(walk, slot, register, other):
    """How far the value of a register is from another's, where both are one value that was moved."""
    for (place, by), (other_place, other_by) in moves_back(walk, slot, (register, other)):
        if place == other_place:
            return by - other_by
    return None


def copy_line(walk, slot, want):
    """The first register that is the wanted value, or so far from it, and is as it is wanted."""
    if want.place[0] != "register" or want.what not in ("within", "behind", "at most"):
        return []
    for register in range(10):
        by = distance(walk, slot, register, want.place[1]) if register != want.place[1] else None
        if by is not None:
            copy = before_adding(want, ("register", register), -by)
            if copy != WRITTEN and holds(walk.states[slot], copy):
                return [f"r{register} is r{want.place[1]}{more(by)}, and known is: {want_text(walk.states[slot], copy)}"]
    return []


def trail_lines(walk, slot, reason):
    """The lines behind what is known before a refused slot."""
    want = wanted(walk.states[slot], fields(walk.data, slot), reason)
    if want is None:
        return []
    first, last, line = ending(walk, slot, want)
    lines = [f"wanted: {want_text(walk.states[slot], want)}"] + copy_line(walk, slot, want)
    if first < slot:
        lines.append(f"before slot {first}: {want_text(walk.states[first], last)}")
    return lines + [line]


# What is printed.

def entries(state, profile):
    """Each line of a state by what it is of."""
    return {line.partition(" = ")[0].partition(" >= ")[0]: line for line in state_lines(state, profile)}


def beside(state, other, profile):
    """The lines of a state that another one doesn't have."""
    others = entries(other, profile)
    return [line for key, line in entries(state, profile).items() if others.get(key) != line]


@functools.lru_cache(maxsize=4)
def targets(data):
    """The slots to which jumps lead."""
    distances = ((at, distance_of(fields(data, at))) for at in starts(data))
    return {at + 1 + distance for at, distance in distances if distance is not None}


def listed_lines(walk, at, earlier):
    """What is printed of a slot in a listing: what has changed, or where a jump leads there each way and all that is known."""
    state = walk.states.get(at)
    if state is None:
        return ["  no run comes there"]
    if at not in targets(walk.data) and earlier in walk.states:
        return beside(state, walk.states[earlier], walk.profile)
    return ways_lines(ways_into(walk, at), state, walk.profile) + state_lines(state, walk.profile)


def ways_lines(ways, state, profile):
    """Of two to eight ways what each had that isn't known where they join, of more only from where they lead."""
    if len(ways) > 8:
        return [f"  from slots {', '.join(str(way) for way, _ in ways)}"]
    lines = [f"  from slot {way}: " + ("; ".join(line.strip() for line in beside(known, state, profile)) or "the same")
             for way, known in ways]
    return lines if len(ways) > 1 else []


def answer(data, profile, detail=None):
    """What `hub check` prints of bytes, with its exit status; with the detail "slot" or "all" what `--explain` adds. Of an accepted
    program the lines between the first one and the listing, of what it can do, are left out."""
    refused = refusal(data)
    if refused:
        return 1, [refused]
    found, walk = misplaced(data), None
    if found is None:
        walk = Walk(data, profile)
        found = walk.refused
    reason, last = found or (None, len(data) // 8)
    lines, earlier = [f"accepted {last}" if found is None else f"refused {reason} {REASONS[reason]} slot {last}"], None
    for at in starts(data):
        if detail == "all" and at < last or detail and at == last:
            lines.append(f"slot {at}: {line_of(data, at)}")
            if walk is not None:
                lines += state_lines(walk.states[at], profile) if at == last else listed_lines(walk, at, earlier)
        earlier = at
    if detail and found and walk is not None:
        lines += trail_lines(walk, last, reason)
    return 1 if found else 0, lines
