"""Assembler text, by the table of docs/PROGRAMS.md, apart from the code of the hub."""

import re

from machine import ARITHMETIC, BYTE_ORDER, JUMPS, LOADS, REFUSALS, STORES, slot

TOKEN = re.compile(r"[,\[\]+\-:]|[A-Za-z0-9_]+")
NUMBER = re.compile(r"[0-9]+|0x[0-9a-fA-F]+")


class Refused(Exception):
    pass


def tokens_of(line):
    """The tokens of a line, or nothing where a character or a number is none."""
    line = line.split(";")[0]
    tokens, at = [], 0
    while at < len(line):
        if line[at] in " \t\r":
            at += 1
            continue
        token = TOKEN.match(line, at)
        if not token:
            return None
        word = token.group()
        if word[0].isdigit() and not NUMBER.fullmatch(word):
            return None
        tokens.append(word)
        at = token.end()
    return tokens


def is_name(token):
    return re.match("[A-Za-z_]", token) is not None


def is_number(token):
    return token[:1].isdigit()


def value(token):
    return int(token, 16) if token.startswith("0x") else int(token)


def words():
    """Each first word with the shapes of its operands and what makes its slots of them."""
    table = {}
    for code, name in ARITHMETIC.items():
        table[name], table[name + "32"] = ("arithmetic", code, 64, 0), ("arithmetic", code, 32, 0)
    for name, code in (("sdiv", 3), ("smod", 9)):
        table[name], table[name + "32"] = ("arithmetic", code, 64, 1), ("arithmetic", code, 32, 1)
    for bits in (8, 16, 32):
        table[f"movsx{bits}"] = ("extend", 0xbf, bits)
    for bits in (8, 16):
        table[f"mov32sx{bits}"] = ("extend", 0xbc, bits)
    table["neg"], table["neg32"] = ("unary", 0x87, 0), ("unary", 0x84, 0)
    for opcode, name in BYTE_ORDER.items():
        for bits in (16, 32, 64):
            table[f"{name}{bits}"] = ("unary", opcode, bits)
    table["lddw"] = ("wide",)
    for opcode, (name, _, _) in LOADS.items():
        table[name] = ("load", opcode)
    for opcode, (name, _) in STORES.items():
        table[name] = ("store", opcode, opcode & 1 == 1)
    table["ja"], table["ja32"], table["exit"] = ("ja", 0x05), ("ja", 0x06), ("exit",)
    for code, name in JUMPS.items():
        table[name], table[name + "32"] = ("compare", code, 64), ("compare", code, 32)
    return table


WORDS = words()


class Operands:
    """Operands that are taken from the left; a shape that isn't met is 30. What else is wrong is kept for later."""

    def __init__(self, tokens):
        self.tokens, self.at = tokens, 0
        self.unknown = self.out_of_range = False

    def peek(self):
        return self.tokens[self.at] if self.at < len(self.tokens) else ""

    def take(self):
        token = self.peek()
        self.at += 1
        return token

    def sign(self, wanted):
        if self.take() != wanted:
            raise Refused(30)

    def register(self):
        token = self.take()
        if not token or not is_name(token):
            raise Refused(30)
        if not re.fullmatch("r([0-9]|10)", token):
            self.unknown = True
            return 0
        return int(token[1:])

    def bounded(self, number, low, high):
        if not low <= number <= high:
            self.out_of_range = True
            return 0
        return number

    def immediate(self):
        negative = self.peek() == "-"
        if negative:
            self.take()
        token = self.take()
        if not is_number(token):
            raise Refused(30)
        if token.startswith("0x"):
            if negative:
                raise Refused(30)
            return self.bounded(value(token), 0, 0xffff_ffff)
        return self.bounded(-value(token) if negative else value(token), -(1 << 31), (1 << 31) - 1)

    def wide(self):
        has_sign = self.peek() in ("+", "-")
        if has_sign:
            self.take()
        token = self.take()
        if not is_number(token):
            raise Refused(30)
        if has_sign:
            self.out_of_range = True
        return self.bounded(value(token), 0, (1 << 64) - 1)

    def signed_number(self):
        sign, token = self.take(), self.take()
        if sign not in ("+", "-") or not is_number(token):
            raise Refused(30)
        return value(token) if sign == "+" else -value(token)

    def memory(self):
        self.sign("[")
        register = self.register()
        offset = self.signed_number()
        self.sign("]")
        return register, self.bounded(offset, -32768, 32767)

    def second(self):
        """A register or an immediate: (is a register, which)."""
        if self.peek() and is_name(self.peek()):
            return True, self.register()
        return False, self.immediate()

    def target(self):
        token = self.peek()
        if token and is_name(token):
            return self.take()
        return self.signed_number()

    def end(self):
        if self.at < len(self.tokens):
            raise Refused(30)
        if self.unknown:
            raise Refused(31)
        if self.out_of_range:
            raise Refused(32)


def slots_of(word, operands):
    """What makes the bytes, given the distance of the target, and the target."""
    form = WORDS[word]
    kind, target = form[0], None
    if kind == "arithmetic":
        _, code, bits, offset = form
        dst = operands.register()
        operands.sign(",")
        register, number = operands.second()
        opcode = code << 4 | (7 if bits == 64 else 4) | (8 if register else 0)
        made = slot(opcode, dst, number, offset) if register else slot(opcode, dst, 0, offset, number)
    elif kind == "extend":
        dst = operands.register()
        operands.sign(",")
        made = slot(form[1], dst, operands.register(), form[2])
    elif kind == "unary":
        made = slot(form[1], operands.register(), 0, 0, form[2])
    elif kind == "wide":
        dst = operands.register()
        operands.sign(",")
        number = operands.wide()
        made = slot(0x18, dst, 0, 0, number & 0xffff_ffff) + slot(0, 0, 0, 0, number >> 32)
    elif kind == "load":
        dst = operands.register()
        operands.sign(",")
        base, offset = operands.memory()
        made = slot(form[1], dst, base, offset)
    elif kind == "store":
        base, offset = operands.memory()
        operands.sign(",")
        if form[2]:
            made = slot(form[1], base, operands.register(), offset)
        else:
            made = slot(form[1], base, 0, offset, operands.immediate())
    elif kind == "ja":
        target = operands.target()
        made = (form[1], 0, 0, 0)
    elif kind == "compare":
        dst = operands.register()
        operands.sign(",")
        register, number = operands.second()
        operands.sign(",")
        target = operands.target()
        opcode = form[1] << 4 | (5 if form[2] == 64 else 6) | (8 if register else 0)
        made = (opcode, dst, number, 0) if register else (opcode, dst, 0, number)
    else:
        made = slot(0x95)
    operands.end()
    return made, target


def read_line(tokens):
    """(kind, parts) of a line that has tokens, without its labels' places."""
    if len(tokens) > 1 and tokens[1] == ":" and (is_name(tokens[0]) or is_number(tokens[0])):
        if len(tokens) > 2 or not is_name(tokens[0]):
            raise Refused(30)
        return "label", tokens[0]
    first = tokens[0]
    if not is_name(first) and not is_number(first):
        raise Refused(30)
    if first not in WORDS:
        raise Refused(31)
    return "slots", slots_of(first, Operands(tokens[1:]))


def with_target(made, target, place, labels):
    """The slot of a jump."""
    opcode, dst, src, imm = made
    if isinstance(target, str):
        if target not in labels:
            raise Refused(33)
        target = labels[target] - (place + 1)
    bits = 32 if opcode == 0x06 else 16
    if not -(1 << bits - 1) <= target < 1 << bits - 1:
        raise Refused(35)
    return slot(opcode, dst, src, 0, target) if bits == 32 else slot(opcode, dst, src, target, imm)


def size_of_faulty(tokens, line):
    """How many slots a faulty line counts for."""
    first = re.match(r"[ \t\r]*([A-Za-z0-9_]+)[ \t\r]*(:?)", line.split(";")[0])
    if not first:
        return 1
    if first.group(2):
        return 0
    return 2 if first.group(1) == "lddw" else 1


def assembled(source):
    """What `hub asm` prints of a text, line by line, with its exit status."""
    lines = source.split("\n")
    labels, read, faults, place = {}, [], {}, 0
    for number, line in enumerate(lines, 1):
        tokens = tokens_of(line)
        try:
            if tokens is None:
                raise Refused(30)
            if not tokens:
                continue
            kind, parts = read_line(tokens)
            if kind == "label":
                if parts in labels:
                    raise Refused(34)
                labels[parts] = place
                continue
            made, target = parts
            read.append((number, place, made, target))
            place += 2 if target is None and len(made) == 16 else 1
        except Refused as refused:
            faults[number] = refused.args[0]
            place += size_of_faulty(tokens, line)
    out = []
    for number, place, made, target in read:
        try:
            made = made if target is None else with_target(made, target, place, labels)
            out += [made[at:at + 8].hex() for at in range(0, len(made), 8)]
        except Refused as refused:
            faults[number] = refused.args[0]
    if faults:
        number = min(faults)
        return 1, [f"refused {faults[number]} {REFUSALS[faults[number]]} line {number}"]
    return 0, out


# What is said beside a refusal for a word.

SHOWN = 40


def wrong_token(line):
    """What is said of the first character or number that is no token, or None."""
    line, at = line.split(";")[0], 0
    while at < len(line):
        token = TOKEN.match(line, at)
        if line[at] in " \t\r":
            at += 1
        elif not token:
            character = line[at]
            return f"{character if '!' <= character <= '~' else f'U+{ord(character):04X}'} has no meaning"
        elif token.group()[0].isdigit() and not NUMBER.fullmatch(token.group()):
            return f"{token.group()[:SHOWN]} is no number"
        else:
            at = token.end()
    return None


def word_hint(source):
    """What standard error says of the word for which a text is refused by 30 or 31, where that is all that it says; or None."""
    status, printed = assembled(source)
    found = re.match(r"refused 3([01]) \w+ line (\d+)", printed[0]) if status else None
    if not found or source.startswith("\ufeff") or "\0" in source:
        return None
    line = source.split("\n")[int(found[2]) - 1]
    if found[1] == "0":
        first = re.match(r"[ \t\r]*(\w*)", line, re.ASCII)[1][:SHOWN]
        said = wrong_token(line) or (f"what stands behind {first} isn't of its form" if first else "it doesn't begin with a word")
    else:
        first, *others = tokens_of(line)
        wrong = next((token for token in others if is_name(token) and not re.fullmatch("r([0-9]|10)", token)), "")
        said = (f"no register is called {wrong[:SHOWN]}" if first in words() else f"no instruction is called {first[:SHOWN]}")
    return f"hint: line {found[2]}: {said}"
