"""Inputs that could make a hub slow or fat, the same in every run: texts with marks and the same texts without the pattern, programs, assembler
text. hostile_texts.py and tests/hostile/count.py measure what a hub does with them."""

import random
from typing import NamedTuple

from sessions import long_program, slot

MARKS = 4096
# How many times as many marks, and places for them, a hub of the large size takes.
LARGE = 4
OPERATIONS = 256
GREATEST = (1 << 48) - 1
# The keys of one value, each with the key and value of a mark with a number: the older ones, and those of the third form of changes.
OLDER = (lambda _: "strong -", lambda _: "em -", lambda _: "code -", lambda at: f"link https://example.org/{at}", lambda at: f"color {at:06x}")
NEWER = (lambda _: "underline -", lambda _: "strike -", lambda at: f"block heading:{1 + at // 8 % 6}")
THIRD = ("underline", "strike", "block")


class Text(NamedTuple):
    """A text of `characters` characters by node 1, with marks: pairs of a line's first word and its words behind the mark's own id."""

    characters: int
    marks: list
    removed: range = range(0)

    def changes(self):
        typed = typed_on(1, self.characters)
        return [change for at, run in enumerate(typed) for change in (run, *self.removed_of(at))] + self.mark_changes()

    def mark_changes(self):
        """The marks in as few changes as can be."""
        changes = []
        for start in range(0, len(self.marks), OPERATIONS):
            part = self.marks[start : start + OPERATIONS]
            first = self.characters + 1 + start
            lines = [f"{word} {first + at}@1 {rest}\n" for at, (word, rest) in enumerate(part)]
            form = "change3" if any(rest.startswith(THIRD) for _, rest in part) else "change2"
            changes.append(f"{form} 1 {len(part)}\n" + "".join(lines))
        return changes

    def removed_of(self, number):
        """The change by node 2 that removes what is removed of a typed change's characters, if anything is: else too much may be visible."""
        part = [place for place in range(number * OPERATIONS + 1, (number + 1) * OPERATIONS + 1) if place in self.removed]
        lines = [f"d {place + 1}@2 {place}@1\n" for place in part]
        return [f"change2 2 {len(part)}\n" + "".join(lines)] if part else []

    def newest(self):
        return self.characters + len(self.marks)

    def removals(self, count):
        """Changes that remove a character each, in the midst of the text, side by side."""
        step = self.removed.step if self.removed else 1
        first = self.characters // 2
        return [f"change 1 1\nd {self.newest() + 1 + at}@1 {first + step * at}@1\n" for at in range(count)]


def typed_on(first, end):
    """Changes of a run each that type the characters from one number up to another."""
    changes = []
    for start in range(first, end + 1, OPERATIONS):
        parent = f"{start - 1}@1" if start > 1 else "-"
        length = min(OPERATIONS, end + 1 - start)
        if length == 1:
            changes.append(f"change 1 1\ni {start}@1 {parent} 61\n")
        else:
            changes.append(f"change2 1 1\nr {start}@1 {parent} {length}" + " 61" * length + "\n")
    return changes


def mark(key, first, last):
    """A mark from one character to another, both in it."""
    return "m", f"{key} <{first}@1 >{last}@1"


# The key and the value of the mark with a number, for each kind of text.


def comment(number):
    return f"comment:{number + 1} -"


def strong(_number):
    return "strong -"


def color(number):
    return f"color {number:06x}"


def link(number):
    """A target of 1,024 bytes, of its own."""
    return "link " + f"{number:x}".rjust(1024, "x")


def strong_or_comment(number):
    return comment(number) if number % 2 else strong(number)


def one_of_five(number):
    kinds = (strong, lambda _: "em -", lambda at: f"link https://example.org/{at}", color, comment)
    return kinds[number % 5](number)


def one_of_five_older(number):
    """A key of one value that changes of the second form have."""
    return OLDER[number % len(OLDER)](number)


def one_of_eight(number):
    """A key of one value."""
    keys = OLDER + NEWER
    return keys[number % len(keys)](number)


def any_kind(turn):
    """In turn of all kinds, as bench/texts.c has them."""
    kinds = ("strong -", "em -", "link https://example.org/a", "color 3366cc", f"comment:{1 + turn // 5 % 8} -")
    return kinds[turn % 5]


# Where marks stand.


def side_by_side(key, length, times=1):
    """Marks of which each begins where the one before it ends."""
    marks = [mark(key(number), length * number + 1, length * number + length) for number in range(times * MARKS)]
    return Text(length * len(marks), marks)


def nested(key, times=1):
    """Marks of which each is within the one before it."""
    characters = times * 8400
    return Text(characters, [mark(key(number), number + 1, characters - number) for number in range(times * MARKS)])


def windows(key, length=512, times=1):
    """Marks of which each begins and ends one character behind the one before it, so that all but the first and the last places have as many."""
    marks = [mark(key(number), number + 1, number + length) for number in range(times * MARKS)]
    return Text(len(marks) + length, marks)


def of_two_runs(key, times=1):
    """1,024 keys at two places each, side by side, within a text that is strong, and 2,048 strong marks that change nothing to see."""
    runs, length = times * MARKS // 2, 7
    marks = [mark(key(run % (runs // 2)), length * run + 1, length * run + length) for run in range(runs)]
    marks.append(mark("strong -", 1, length * runs))
    marks += [mark("strong -", length * run + 3, length * run + 4) for run in range(runs - 1)]
    return Text(length * runs, marks)


def cut(covering, times=1):
    """A text of 32,768 characters with strong marks that cut it, perhaps below one mark that covers all of it."""
    characters = times * 8 * MARKS
    marks = [mark(covering, 1, characters)] if covering else []
    marks += [mark("strong -", 8 * turn - 3, 8 * turn) for turn in range(1, times * MARKS)]
    return Text(characters, marks)


def of_one_character(key):
    """Marks of one character each, with one between them."""
    return Text(2 * MARKS, [mark(key(number), 2 * number + 1, 2 * number + 1) for number in range(MARKS)])


def all_kinds(longest, times=1):
    """Marks of all kinds over random ranges of up to `longest` characters, where bench/texts.c has them."""
    characters, state, marks = times * 8 * MARKS, 7, []

    def chosen(below):
        nonlocal state
        state = (state * 1664525 + 1013904223) % (1 << 32)
        return (state >> 8) % below

    for turn in range(times * MARKS):
        first = chosen(characters - longest - 1) + 1
        marks.append(mark(any_kind(turn), first, first + chosen(longest)))
    return Text(characters, marks)


def under_review(times=1):
    """A document under review: comments of up to some sentences, each with a number of its own, among marks of single words and phrases, some
    of which are taken away again."""
    threads, others, characters = times * 300, times * 3796, times * 32768
    rng = random.Random(2)
    marks = []
    for at in range(threads):
        first = rng.randint(1, characters - 400)
        marks.append(mark(comment(at), first, first + rng.randint(5, 400)))
    for at in range(others):
        first = rng.randint(1, characters - 60)
        last = first + rng.randint(2, 60)
        key = rng.choice(["strong -", "em -", "code -", f"link https://example.org/{at}", color(rng.choice([0x3366CC, 0xAA0000]))])
        taken = key in ("strong -", "em -") and rng.random() < 0.3
        marks.append(("u", f"{key[:-2]} <{first}@1 >{last}@1") if taken else mark(key, first, last))
    rng.shuffle(marks)
    return Text(characters, marks)


def half_removed(key, times=1):
    """About as many characters as a hub takes, of which the odd ones are removed; marks over half of them, with as many between them."""
    characters = 32512 if times == 1 else 261888
    step = characters // (times * MARKS)
    marks = [mark(key(number), step * number + 1, step * number + step // 2) for number in range(times * MARKS)]
    return Text(characters, marks, range(1, characters, 2))


# Removals that are taken back.


def removed_and_back(text, count):
    """The changes that remove so many of a text's characters from the first one on, and take that back: one line each."""
    counter = text.newest() + 1
    return f"change3 1 1\nd {counter}@1 1@1 {count}\n", f"change3 1 1\nv {counter + count}@1 {counter}@1 {count}\n"


# What sessions send.


def spans_of_one_character(spans):
    """A text of `spans` spans: every other character is strong."""
    return Text(spans, [mark("strong -", place, place) for place in range(1, spans, 2)])


def adding_program():
    """4,096 slots that add."""
    return long_program(4096)


def stack_program():
    """4,096 slots that store to the stack and load from it: `mov r2, 1`, then `stxdw [r10-8], r2` and `ldxdw r0, [r10-8]` in turn, `exit`."""
    program = [slot(0xB7, 2, 0, 1), slot(0x7B, 0x2A, -8, 0)]
    while len(program) < 4095:
        program.append(slot(0x79, 0xA0, -8, 0) if len(program) % 2 == 0 else slot(0x7B, 0x2A, -8, 0))
    program[-1] = slot(0x79, 0xA0, -8, 0)
    program.append(slot(0x95, 0, 0, 0))
    return b"".join(program).hex()


def greatest_counter():
    """A change of 38 bytes whose counter no other one exceeds."""
    return f"change 9 1\ni {GREATEST}@9 - 51\n"


# What commands read.


def too_long_program(size):
    """`size` bytes of hexadecimal digits, more than a program has."""
    return b"b700000001000000" * (size // 16)


def program_before_blanks(size):
    """A program of two slots, and then line feeds up to `size` bytes."""
    program = b"b7000000010000009500000000000000"
    return program + b"\n" * (size - len(program))


def exits(count):
    """Assembler text of `count` `exit` lines."""
    return b"exit\n" * count


def fault_before(size):
    """Assembler text with a fault in its first line, and then `size` bytes of right lines."""
    return b"nothing\n" + b"exit\n" * (size // 5)


def refused_change_before(size):
    """A change that is refused at its first line, and then `size` bytes of lines of changes."""
    line = b"i 1@1 - 61\n"
    return b"change 0 1\n" + line * (size // len(line))
