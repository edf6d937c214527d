#!/usr/bin/env python3
"""Checks by the model of the verifier, whose rules are in verifier.py, and of what is printed of it, which is in explained.py.

    verifier_checks.py                      compares with what the cases `check-..` and `explain-..` of crates/test_cases must print,
                                            but for those of programs that loop, in context 4
    verifier_checks.py random COUNT SEED    tests that random programs which the first profile accepts are accepted by the second
    verifier_checks.py third COUNT SEED     tests that those which the second accepts are accepted by the third, and that those
                                            which the third alone accepts run without a fault, with the machine as is known
    verifier_checks.py hub HUB COUNT SEED   compares what HUB, a built program, prints of random programs, of which half are
                                            spoiled, by each profile (--profiles 12 leaves out the third): accepted, or which
                                            refusal at which slot, what is known before each slot and on the ways to it, and where
                                            what is wanted was known last

`--rules` before these words says which rules the third profile has beside those of the second, each by its letter in verifier.py.
"""

import argparse
import random
import re
import subprocess
import sys
from pathlib import Path

from explained import answer
from lent_runs import first_wrong
from machine import fields, refusal
from random_programs import FRONT, random_program, third_program
from verifier import PROFILES, Walk, distance_of, starts

CASES = Path(__file__).resolve().parents[2] / "crates" / "test_cases"


# Comparison with the cases.

def unescaped(text):
    first, *rest = text.split("\\")
    return first + "".join(chr(int(piece[:2], 16)) + piece[2:] for piece in rest)


def parsed_case(block):
    """A case's name, the words of its command line, and its input."""
    name, words, given = "", [], ""
    for line in block.split("\n"):
        key, _, text = line.partition(" ")
        if key == "case":
            name = text
        elif key == "args":
            words += text.split(" ")
        elif key == "arg":
            words.append(text)
        elif key in ("line", "text"):
            given += unescaped(text) + ("\n" if key == "line" else "")
        elif key == "times":
            count, _, text = text.partition(" ")
            given += unescaped(text) * int(count)
    return name, words, given


def printed_lines():
    """Of each case's name its exit status and what it must print."""
    printed, lines = {}, []
    for line in (CASES / "stdout").read_text(encoding="utf-8").split("\n"):
        head = re.fullmatch(r"([\w-]+): ([0-3])", line)
        if head:
            lines = []
            printed[head.group(1)] = int(head.group(2)), lines
        elif line.startswith("> "):
            lines.append(line[2:])
    return printed


def has_jump_back(data):
    """Whether the bytes are a program with a jump back."""
    return refusal(data) is None and any((distance_of(fields(data, at)) or 0) < 0 for at in starts(data))


def answer_in_context_4(data, detail):
    """What the hub prints in context 4 of a program without a jump back, which is judged there as in context 3, or of bytes that
    are no program. None of a program with a jump back: the rules of programs that loop aren't in this model, and loops.py tests
    what the hub accepts of them."""
    if has_jump_back(data):
        return None
    status, lines = answer(data, PROFILES[3], detail)
    if status == 0:
        lines[0] += f", steps <= {len(data) // 8} + 0 * length + 0 * link length"
    return status, lines


def answer_to(words, given):
    """What the hub prints at these words and this input, with its exit status; None where the model doesn't know it."""
    line = " ".join(words)
    is_once = all(line.count(option) <= 1 for option in ("--explain", "--context"))
    if not is_once or not re.fullmatch(r"check( --explain(=slot|=all)?| --context[ =][1234])*", line):
        return 2, []
    digits = re.sub(r"[ \t\r\n]", "", given)
    if not re.fullmatch(r"([0-9a-fA-F]{2})*", digits):
        return 1, ["refused 63 BadHex"]
    option = re.search("--explain(=all)?", line)
    detail = option and ("all" if option.group(1) else "slot")
    context = re.search("--context.([1234])", line)
    number, data = int(context.group(1)) if context else 1, bytes.fromhex(digits)
    return answer_in_context_4(data, detail) if number == 4 else answer(data, PROFILES[number], detail)


def modelled(lines):
    """Without the lines of what an accepted program can do."""
    return [line for line in lines if not line.startswith(("steps <= ", "context: ", "text: ", "link: ", "runs "))]


def compare():
    """Compares with each case whose answer the model knows, of an accepted program without the lines of what it can do."""
    printed, total, left_out, differing = printed_lines(), 0, 0, []
    for block in (CASES / "stdin").read_text(encoding="utf-8").split("\n\n"):
        name, words, given = parsed_case(block)
        if not name.startswith(("check-", "explain-")):
            continue
        known, (status, lines) = answer_to(words, given), printed[name]
        if known is None:
            left_out += 1
            continue
        total += 1
        if known != (status, modelled(lines)):
            differing.append(name)
            print(f"{name}: not as the model says")
    print(f"{total - len(differing)} of {total} cases agree; {left_out} of programs that loop left out")
    return not differing


# Random programs.

def is_accepted(data, profile):
    return answer(data, PROFILES[profile])[0] == 0


def without(data, left_out):
    """The program without one of its instructions; jumps over it are shorter."""
    slots = 2 if data[left_out * 8] == 0x18 else 1
    out = bytearray(data)
    for at in starts(data):
        distance = distance_of(fields(data, at))
        if distance is not None and at < left_out < at + 1 + distance:
            out[at * 8 + 2:at * 8 + 4] = (distance - slots).to_bytes(2, "little")
    return bytes(out[:left_out * 8] + out[(left_out + slots) * 8:])


def shortened(data, is_example):
    """An example from which no instruction can be left out."""
    for at in starts(data):
        if is_example(without(data, at)):
            return shortened(without(data, at), is_example)
    return data


def print_lost(found, profile):
    """The first of the shortest programs that a profile accepts and the next one doesn't, without what it doesn't need."""
    data = shortened(min(found, key=len), lambda data: is_accepted(data, profile) and not is_accepted(data, profile + 1))
    print(data.hex())
    for one in (profile, profile + 1):
        print(f"by profile {one}: {answer(data, PROFILES[one])[1][0]}")


def search(count, seed):
    """Tests that the second profile accepts what the first one does."""
    rng, accepted, found = random.Random(seed), 0, []
    for _ in range(count):
        data = random_program(rng)
        if is_accepted(data, 1):
            accepted += 1
            if not is_accepted(data, 2):
                found.append(data)
    print(f"{count} programs tried, {accepted} accepted by the first profile, {len(found)} of these not by the second")
    if found:
        print_lost(found, 1)
    return not found


def at_least(tail, other):
    return other is None or tail is not None and tail >= other


def quantity_within(quantity, other):
    """Whether bits, interval and tails are known at least as well."""
    return (quantity.low >= other.low and quantity.high <= other.high and not quantity.unknown & ~other.unknown
            and not (quantity.ones ^ other.ones) & ~other.unknown and all(map(at_least, quantity.tails, other.tails)))


def known_within(known, other):
    """Whether what is known of a place is known at least as well."""
    if other is None or known is None or known[0] in ("context", "stack"):
        return other is None or known == other
    return known[0] == other[0] and quantity_within(known[1], other[1])


def is_more_known(states, others):
    """Whether no more slots are met, and at least as much is known before each of them."""
    def eights(state):
        return [held if form == "spilled" else None for form, held in state.stack]
    return states.keys() <= others.keys() and all(
        all(map(known_within, state.registers + eights(state), others[at].registers + eights(others[at])))
        and all(map(at_least, state.lengths, others[at].lengths))
        for at, state in states.items())


def search_third(count, seed):
    """Tests that the third profile accepts what the second one does and knows at least as much before each slot, and that what it
    alone accepts runs without a fault, with the machine as is known before each slot."""
    rng, accepted, alone, lost, wrong = random.Random(seed), [0, 0], 0, [], 0
    for number in range(count):
        data = third_program(rng, PROFILES[3])
        by_second, by_third = is_accepted(data, 2), Walk(data, PROFILES[3])
        is_right = by_third.refused is None
        accepted = [accepted[0] + by_second, accepted[1] + is_right]
        if by_second and not is_right:
            lost.append(data)
        if by_second and not is_more_known(by_third.states, Walk(data, PROFILES[2]).states):
            wrong += 1
            print(f"less is known by the third profile: {data.hex()}")
        if is_right and not by_second:
            alone += 1
            said = first_wrong(data, by_third.states, number)
            if said:
                wrong += 1
                print(f"{said}: {data.hex()}")
    print(f"{count} programs tried, {accepted[0]} accepted by the second profile, {len(lost)} of these not by the third,",
          f"{accepted[1]} by the third, {alone} by the third alone; {wrong} wrong")
    if lost:
        print_lost(lost, 2)
    return not lost and not wrong


# Comparison with a built program.

def spoiled(rng, data):
    """The program with another byte somewhere behind its front."""
    at = rng.randrange(len(FRONT), len(data))
    return data[:at] + bytes([rng.choice([data[at] ^ 1 << rng.randrange(8), rng.randrange(256)])]) + data[at + 1:]


def printed_by(hub, data, profile):
    """What the program prints of what is known before each slot, and its exit status."""
    words = [hub, "check", "--explain=all", "--context", str(profile)]
    ran = subprocess.run(words, input=data.hex().encode(), stdout=subprocess.PIPE, stderr=subprocess.DEVNULL, check=False)
    return ran.returncode, modelled(ran.stdout.decode().splitlines())


def programs_for(rng, number):
    """A random program; every second one is spoiled, and every second pair is of those for the third profile."""
    data = random_program(rng) if number % 4 < 2 else third_program(rng, PROFILES[3])
    return spoiled(rng, data) if number % 2 else data


def against(hub, count, seed, profiles):
    """Compares random programs, every second one spoiled, by these profiles."""
    rng, refused, differing = random.Random(seed), {}, 0
    for number in range(count):
        data = programs_for(rng, number)
        for profile in profiles:
            status, lines = answer(data, PROFILES[profile], "all")
            if (status, lines) != printed_by(hub, data, profile):
                differing += 1
                print(f"by profile {profile} not as the model says: {data.hex()}")
            word = lines[0].split(" ")
            reason = word[1] if word[0] == "refused" else "accepted"
            refused[reason] = refused.get(reason, 0) + 1
    answers = len(profiles) * count
    print(f"{count} programs, {answers - differing} of {answers} answers alike;",
          ", ".join(f"{reason}: {times}" for reason, times in sorted(refused.items())))
    return not differing


def arguments():
    parser = argparse.ArgumentParser(description=__doc__, formatter_class=argparse.RawDescriptionHelpFormatter)
    parser.add_argument("--rules", default=PROFILES[3].rules, help="the rules that only the third profile has (%(default)s)")
    ways = parser.add_subparsers(dest="way")
    for name in ("random", "third", "hub"):
        way = ways.add_parser(name)
        if name == "hub":
            way.add_argument("hub")
            way.add_argument("--profiles", default="123")
        way.add_argument("count", type=int)
        way.add_argument("seed")
    return parser.parse_args()


def main():
    options = arguments()
    PROFILES[3] = PROFILES[3]._replace(rules=options.rules)
    if options.way is None:
        is_right = compare()
    elif options.way == "random":
        is_right = search(options.count, int(options.seed))
    elif options.way == "third":
        is_right = search_third(options.count, options.seed)
    else:
        is_right = against(options.hub, options.count, int(options.seed), [int(digit) for digit in options.profiles])
    sys.exit(0 if is_right else 1)


if __name__ == "__main__":
    main()
