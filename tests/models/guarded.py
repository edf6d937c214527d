#!/usr/bin/env python3
"""Which programs are guarded, by a program apart from the verifier, and that the verifier accepts these.

    guarded.py HUB [COUNT [SEED]]

A program is guarded if facts can be written before its slots such that every way there gives them and they grant each instruction
what it needs (docs/PROVED.md). As no jump leads back, one pass finds the most facts. Of the shipped filters as many are guarded
as GUARDED says for each context. COUNT random programs, 300 by default, are judged; HUB accepts each one that is guarded.
"""
import random
import subprocess
import sys
from dataclasses import dataclass, field, replace
from pathlib import Path

from machine import fields, kind_of
from random_programs import random_program, third_program
from verifier import PROFILES

SHIPPED = Path(__file__).resolve().parent.parent.parent / "examples/filters"
GUARDED = {1: 19, 2: 23, 3: 23}
LIMITS = {"text": 131_072, "link": 1_024}
BEGINS, ENDS, LENGTHS = {0: "text", 56: "link"}, {8: "text", 64: "link"}, {16: "text", 32: "link"}
NUMBERS = {(offset, 4) for offset in range(16, 48, 4)} | {(48, 8)}
CONTEXT_BYTES = {1: 56, 2: 72, 3: 72}
NEGATED = {"jeq": "jne", "jne": "jeq", "jgt": "jle", "jle": "jgt", "jge": "jlt", "jlt": "jge"}
WORD, NEAR = 1 << 64, 1 << 20


class NotGuarded(Exception):
    pass


@dataclass(frozen=True)
class Value:
    """A number, or an address in `context`, `stack`, `text` or `link`, counted from the region's start. `behind` says for a region
    how many bytes of it stand behind the value at least."""
    kind: str = "number"
    least: int = 0
    most: int = WORD - 1
    behind: dict = field(default_factory=dict)

    def is_number(self):
        return self.kind == "number"

    def exact(self):
        return self.least if self.least == self.most else None


def constant(number):
    return Value("number", number, number)


def up_to(most):
    return Value("number", 0, most)


def either(one, other):
    """What is so of both."""
    if one is None or other is None or one.kind != other.kind:
        return None
    if one.kind in ("context", "stack"):
        return one if one.least == other.least else None
    behind = {region: min(one.behind[region], other.behind[region]) for region in one.behind.keys() & other.behind}
    return Value(one.kind, min(one.least, other.least), max(one.most, other.most), behind)


@dataclass
class Facts:
    registers: list
    eights: dict = field(default_factory=dict)
    stored: set = field(default_factory=set)
    long: dict = field(default_factory=lambda: dict.fromkeys(LIMITS, 0))

    def copy(self):
        return Facts(list(self.registers), dict(self.eights), set(self.stored), dict(self.long))

    def either(self, other):
        eights = {at: either(self.eights[at], other.eights[at]) for at in self.eights.keys() & other.eights}
        return Facts([either(*pair) for pair in zip(self.registers, other.registers)],
                     {at: value for at, value in eights.items() if value}, self.stored & other.stored,
                     {region: min(self.long[region], other.long[region]) for region in LIMITS})

    def read(self, register):
        if register > 10 or self.registers[register] is None:
            raise NotGuarded("unset register")
        return self.registers[register]


# What operations give.

def cut(value, width):
    if width == 64 or value.most < 1 << 32:
        return value
    return up_to((1 << 32) - 1) if value.exact() is None else constant(value.exact() % (1 << 32))


def fitting(least, most, behind, width):
    return Value("number", least, most, behind) if least >= 0 and most < 1 << width else up_to((1 << width) - 1)


def total(one, other, width, context):
    behind = {region: count - other.most for region, count in one.behind.items() if other.most <= count}
    if context == 3:
        for region, count in other.behind.items():
            if one.most <= count:
                behind[region] = max(behind.get(region, 0), count - one.most)
    return fitting(one.least + other.least, one.most + other.most, behind, width)


def difference(one, other, width):
    if other.most > one.least:
        return up_to((1 << width) - 1)
    behind = {region: count + other.least for region, count in one.behind.items()}
    return fitting(one.least - other.most, one.most - other.least, behind, width)


def moved(name, one, other, width, context):
    """A sum, or a difference of a constant; a great constant is taken away as what it lacks."""
    number = other.exact()
    if number is not None and number >= 1 << (width - 1):
        name, other = "sub" if name == "add" else "add", constant((1 << width) - number)
    if name == "add":
        return total(one, other, width, context)
    return up_to((1 << width) - 1) if other.exact() is None else difference(one, other, width)


def near(value, region):
    if value.most > NEAR:
        raise NotGuarded("far from the start")
    return replace(value, kind=region)


def placed(name, one, number, context):
    at = one.least + (1 if name == "add" else -1) * (number if number < WORD // 2 else number - WORD)
    if not 0 <= at <= (512 if one.kind == "stack" else CONTEXT_BYTES[context]):
        raise NotGuarded("out of the region")
    return Value(one.kind, at, at)


def arithmetic(name, one, other, width, context):
    if one.is_number() and other.is_number():
        one, other = cut(one, width), cut(other, width)
        return moved(name, one, other, width, context) if name in ("add", "sub") else up_to((1 << width) - 1)
    if width == 64 and name in ("add", "sub"):
        if one.kind in ("context", "stack") and other.is_number() and other.exact() is not None:
            return placed(name, one, other.exact(), context)
        if one.kind in LIMITS and other.is_number():
            return near(moved(name, replace(one, kind="number"), other, 64, context), one.kind)
        if other.kind in LIMITS and one.is_number() and name == "add":
            return near(moved(name, one, replace(other, kind="number"), 64, context), other.kind)
    raise NotGuarded("arithmetic on an address")


def loaded_field(at, size, context):
    if size == 8 and at in BEGINS and at < CONTEXT_BYTES[context]:
        return Value(BEGINS[at], 0, 0, {BEGINS[at]: 0})
    if size == 8 and at in ENDS and at < CONTEXT_BYTES[context]:
        return Value(ENDS[at], 0, LIMITS[ENDS[at]], {ENDS[at]: 0})
    if size == 4 and at in LENGTHS and (context > 1 or at == 16):
        return Value("number", 0, LIMITS[LENGTHS[at]], {LENGTHS[at]: 0})
    if (at, size) not in NUMBERS:
        raise NotGuarded("no field")
    return up_to(256 ** size - 1)


def loaded(facts, base, offset, size, is_signed, context):
    at, most = base.least + offset, WORD - 1 if is_signed else 256 ** size - 1
    if base.kind == "context" and not is_signed:
        return loaded_field(at, size, context)
    if base.kind == "stack" and 0 <= at <= 512 - size:
        if size == 8 and at in facts.eights:
            return facts.eights[at]
        if facts.stored.issuperset(range(at, at + size)):
            return up_to(most)
    if base.kind in LIMITS and at >= 0:
        if base.most + offset + size <= facts.long[base.kind] or offset + size <= base.behind.get(base.kind, -WORD):
            return up_to(most)
    raise NotGuarded("a load that nothing grants")


def store(facts, base, offset, size, value):
    at = base.least + offset
    if base.kind != "stack" or not 0 <= at <= 512 - size or not value.is_number() and (size != 8 or at % 8):
        raise NotGuarded("a store that nothing grants")
    facts.eights = {place: kept for place, kept in facts.eights.items() if place + 8 <= at or at + size <= place}
    facts.stored -= set(range(at, at + size))
    if value.is_number():
        facts.stored |= set(range(at, at + size))
    if size == 8 and at % 8 == 0:
        facts.eights[at] = value


# What tests tell.

def ordered(lesser, greater, by):
    """Of two values of which the first and `by` are at most the second."""
    behind = dict(lesser.behind)
    for region, count in greater.behind.items():
        behind[region] = max(behind.get(region, 0), count + by)
    return (replace(lesser, most=min(lesser.most, greater.most - by), behind=behind),
            replace(greater, least=max(greater.least, lesser.least + by)))


def apart(value, number):
    if number is None:
        return value
    return replace(value, least=value.least + (value.least == number), most=value.most - (value.most == number))


def told(name, one, other):
    if name in ("jlt", "jle"):
        return ordered(one, other, name == "jlt")
    if name in ("jgt", "jge"):
        return tuple(reversed(ordered(other, one, name == "jgt")))
    if name == "jne":
        return apart(one, other.exact()), apart(other, one.exact())
    behind = {region: max(value.behind.get(region, 0) for value in (one, other)) for region in one.behind | other.behind}
    same = {"least": max(one.least, other.least), "most": min(one.most, other.most), "behind": behind}
    return replace(one, **same), replace(other, **same)


def way(facts, name, left, right, sides):
    """The facts on one way behind a test; none where no run goes."""
    one, other = sides if name is None else told(name, *sides)
    if one.least > one.most or other.least > other.most:
        return None
    behind = facts.copy()
    behind.registers[left] = one
    if right is not None:
        behind.registers[right] = other
    for value in (one, other):
        for region, count in value.behind.items():
            behind.long[region] = max(behind.long[region], value.least + count)
    return behind


def tested(facts, name, width, left, right, value):
    """The facts where the test holds, and where it doesn't."""
    one, other = facts.read(left), value
    both = one.is_number() and other.is_number()
    if not both and not (one.kind == other.kind and one.kind in LIMITS and width == 64 and name in NEGATED):
        raise NotGuarded("test of an address")
    tells = name in NEGATED and left != right and (width == 64 or max(one.most, other.most) < 1 << 32)
    return [way(facts, each if tells else None, left, right, (one, other)) for each in (name, NEGATED.get(name))]


class Judge:
    """Goes over the slots of a well-formed program once."""

    def __init__(self, data, context):
        self.data, self.context, self.before = data, context, {}

    def arrive(self, slot, facts):
        if facts is not None:
            self.before[slot] = self.before[slot].either(facts) if slot in self.before else facts

    def operand(self, facts, is_register, register, immediate, width=64):
        return facts.read(register) if is_register else constant(immediate % (1 << width))

    def computed(self, facts, kind, dst, src, off, imm):
        if kind[0] in ("neg", "order"):
            value, most = facts.read(dst), imm if kind[0] == "order" else kind[1]
        else:
            _, name, width, is_register = kind
            value, most = self.operand(facts, is_register, src, imm), width
            if name == "mov" and off == 0 and (value.is_number() or width == 64):
                return cut(value, width) if value.is_number() else value
            if name != "mov":
                return arithmetic(name, facts.read(dst), value, width, self.context)
        if not value.is_number():
            raise NotGuarded("arithmetic on an address")
        return up_to((1 << most) - 1)

    def compare(self, slot, facts, kind, dst, src, off, imm):
        _, name, width, is_register = kind
        value = self.operand(facts, is_register, src, imm, width)
        taken, untaken = tested(facts, name, width, dst, src if is_register else None, value)
        self.arrive(slot + 1 + off, taken)
        self.arrive(slot + 1, untaken)

    def visit(self, slot):
        opcode, dst, src, off, imm = fields(self.data, slot)
        facts, kind = self.before[slot].copy(), kind_of(opcode)
        if kind[0] == "exit":
            if not facts.read(0).is_number():
                raise NotGuarded("the verdict is an address")
        elif kind[0] in ("ja", "ja32"):
            self.arrive(slot + 1 + (imm if kind[0] == "ja32" else off), facts)
        elif kind[0] == "compare":
            self.compare(slot, facts, kind, dst, src, off, imm)
        else:
            self.arrive(slot + (2 if kind[0] == "wide" else 1), self.behind(slot, facts, kind, dst, src, off, imm))

    def behind(self, slot, facts, kind, dst, src, off, imm):
        if kind[0] == "store":
            store(facts, facts.read(dst), off, kind[2], self.operand(facts, kind[3], src, imm))
            return facts
        if kind[0] == "wide":
            value = constant(imm % (1 << 32) | (fields(self.data, slot + 1)[4] % (1 << 32)) << 32)
        elif kind[0] == "load":
            value = loaded(facts, facts.read(src), off, kind[2], kind[3], self.context)
        else:
            value = self.computed(facts, kind, dst, src, off, imm)
        facts.registers[dst] = value
        return facts

    def is_guarded(self):
        registers = [None] * 11
        registers[1], registers[10] = Value("context", 0, 0), Value("stack", 512, 512)
        self.before[0] = Facts(registers)
        try:
            for slot in range(len(self.data) // 8):
                if slot in self.before:
                    self.visit(slot)
        except NotGuarded:
            return False
        return True


def is_accepted(hub, data, context):
    words = [hub, "check", "--context", str(context)]
    ran = subprocess.run(words, input=data.hex().encode(), stdout=subprocess.PIPE, stderr=subprocess.DEVNULL, check=False)
    return ran.returncode == 0


def programs(count, seed):
    rng = random.Random(seed)
    for number in range(count):
        yield random_program(rng) if number % 2 else third_program(rng, PROFILES[3])


def judged(hub, data, context):
    """Whether a program is guarded, and whether that is wrong since the hub refuses it."""
    is_guarded = Judge(data, context).is_guarded()
    return is_guarded, is_guarded and not is_accepted(hub, data, context)


def main():
    hub, count, seed = sys.argv[1], int((sys.argv[2:3] or ["300"])[0]), int((sys.argv[3:4] or ["1"])[0])
    shipped = [bytes.fromhex(path.read_text().strip()) for path in sorted(SHIPPED.glob("*.hex"))]
    wrong = 0
    for context, expected in GUARDED.items():
        answers = [judged(hub, data, context) for data in shipped]
        others = [judged(hub, data, context) for data in programs(count, seed)]
        found = sum(is_guarded for is_guarded, _ in answers)
        refused = sum(is_wrong for _, is_wrong in answers + others)
        wrong += refused + (found != expected)
        print(f"context {context}: {found} of {len(shipped)} shipped filters are guarded, "
              f"{sum(is_guarded for is_guarded, _ in others)} of {count} random programs; {refused} of them refused")
    sys.exit(1 if wrong else 0)


if __name__ == "__main__":
    main()
