#!/usr/bin/env python3
"""The bound of each filter of examples/filters/loops beside the most steps that a search found a text for: loop_bounds.py HUB

The bound is what HUB prints in context 4, at a text of 2,048 bytes or a link of 1,024. Texts are patterns that are nearly matches, changed
at random as long as that costs more; the steps are counted by tests/models/loop_runs.c. Exit status: 1 where a bound is over 4 times that."""
import ctypes
import random
import struct
import sys
import tempfile
from pathlib import Path

sys.path.insert(0, str(Path(__file__).resolve().parent.parent / "tests/models"))
import loops  # noqa: E402

PATTERNS = [b"urgent", b"urgen", b"a@b.", b"a.b@", b"@", b"a@b", b"DE89 3704 ", b"GB82WEST", b"AB12", b"xn--", b"https://", b"example.com"]
PATTERNS += [b" ", b".", b"-", b"z", b"Z", b"0", b"a ", b"/", b"//", b"\xf0\x9f\x98", b"\xf0\x9f", b"\xe2\x98"]
LETTERS = sorted(set(b"".join(PATTERNS)))
ALLOWED, KEPT, TURNS, MOST_STEPS = 4, 12, 3000, 1 << 24


def steps_of(machine, program, text, link):
    """How many steps a run takes."""
    begin, end = 0x400000000, 0x800000000
    fields = (begin, begin + len(text), len(text), len(text), 0, 0, len(link), 0, 0, 1, 1, end, end + len(link))
    verdict, steps = ctypes.c_uint64(), ctypes.c_int64()
    ended = machine.run(program, len(program) // 8, struct.pack("<QQIIIIIIIIQQQ", *fields), text, len(text), link, len(link),
                        ctypes.c_int64(MOST_STEPS), ctypes.byref(verdict), ctypes.byref(steps))
    assert not ended, f"the run ends with {ended}"
    return steps.value


def changed(rng, text):
    text = bytearray(text)
    for _ in range(rng.choice((1, 2, 4, 16, 64))):
        at = rng.randrange(len(text))
        piece = rng.choice(PATTERNS) if rng.random() < 0.4 else bytes([rng.choice(LETTERS)])
        text[at:at + len(piece)] = piece[:len(text) - at]
    return bytes(text)


def most_steps(rng, cost, length):
    """The most steps of the texts that were tried."""
    words = PATTERNS + [bytes(rng.choice(LETTERS) for _ in range(rng.randrange(1, 9))) for _ in range(300)]
    tried = sorted(((cost(text), text) for text in ((word * length)[:length] for word in words)), reverse=True)[:KEPT]
    for _ in range(TURNS):
        text = changed(rng, rng.choice(tried)[1])
        tried = sorted([*tried, (cost(text), text)], reverse=True)[:KEPT]
    return tried[0][0]


def main():
    if len(sys.argv) != 2:
        sys.exit(__doc__)
    worst = 0
    with tempfile.TemporaryDirectory() as folder:
        machine = loops.Machine(folder)
        for path in sorted(loops.LOOPS.glob("*.hex")):
            program = bytes.fromhex(path.read_text())
            constant, per_byte, per_link_byte = loops.bound_of(sys.argv[1], program)
            length = 1024 if per_link_byte else 2048
            bound = constant + (per_link_byte or per_byte) * length
            found = most_steps(random.Random(1), lambda text: steps_of(machine, program, *((b"", text) if per_link_byte else (text, b""))), length)
            worst = max(worst, bound / found)
            print(f"{path.stem}: {bound} steps by the bound, {found} found, {bound / found:.2f} times", flush=True)
    sys.exit(1 if worst > ALLOWED else 0)


main()
