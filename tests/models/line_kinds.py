"""Cases of the keys that the third form of changes brings, of the kinds of lines, and of what sessions are told of them. Usage: line_kinds.py FOLDER

What stands in line_kind_rows.py was found by hand, and text.py must agree with it."""

import random
import sys

import joins
import revivals
import text
from cases import Cases
from line_kind_rows import EARLIER, JOINED, KINDS, REFUSED, SESSIONS, SHOWN, WORDS


def kinds(cases):
    cases.heading("A line's kind, where one peer or two, who don't see each other, split, join and change lines; in each order. By hand.")
    for name, base, changes, want in KINDS:
        revivals.worked(cases, name, revivals.changes_in(base + changes), want)
        if len(changes) > 1:
            revivals.worked(cases, f"{name}-in-the-other-order", revivals.changes_in(base + changes[::-1]), want)


def shown(cases):
    cases.heading("Spans with keys of all forms. By hand.")
    for name, rows, want in SHOWN:
        revivals.worked(cases, name, revivals.changes_in(rows), want)
    letters = [f"i {at}@1 {f'{at - 1}@1' if at > 1 else '-'} 61" for at in range(1, len(WORDS) + 1)]
    marks = [f"m {100 + at}@1 block {word} <{at}@1 >{at}@1" for at, word in enumerate(WORDS, 1)]
    want = [f"{at} block={word} a" for at, word in enumerate(WORDS)]
    revivals.worked(cases, "key-every-kind", [f"change3 1 {2 * len(WORDS)}", *letters, *marks], want)


def refusals(cases):
    cases.heading("Lines of keys that the third form brings, in the first two forms: none of them has a form there. By hand.")
    for at, line in enumerate(EARLIER, 1):
        for word in ("change", "change2"):
            revivals.worked(cases, f"key-in-an-earlier-form-{at}-{word}", [f"{word} 1 1", line], ["refused 40 BadLine change 1 line 2"], 1)
    cases.heading("Such lines in the third form, and what is said of them. By hand.")
    for at, (line, want) in enumerate(REFUSED, 1):
        revivals.worked(cases, f"key-refused-{at}", ["change3 1 1", line], [f"refused {want} change 1 line 2"], 1)
    cases.add("key-cut-short", ["spans"], ["refused 41 Truncated change 1"], 1, lines=["change3 1 1"], text="m 1@1 block quote ^ $")


def sessions(cases):
    cases.heading("Sessions that are told spans with and without those keys: the same spans, indices and hits. By hand.")
    for name, words, lines, want in SESSIONS:
        found, _ = text.answer_of(words, text.input_of(lines))
        if found != want:
            sys.exit(f"{name}: by hand\n{chr(10).join(want)}\nand by the model\n{chr(10).join(found)}")
        cases.add(name, words, want, lines=lines)


def joined(cases):
    cases.heading("Changes joined into one of the third form. By hand.")
    for name, rows, want in JOINED:
        cases.add(name, ["join"], want, lines=revivals.changes_in(rows))
    rng = random.Random(2033)
    cases.heading("Random ones with all keys; the joined texts were worked out by tests/models/joins.py.")
    for number in range(1, 5):
        changes = joins.revived_history(rng)
        cases.add(f"join-all-keys-{number}", ["join"], joins.whole(joins.joined(changes)).splitlines(), lines=joins.whole(changes).splitlines())


def main():
    cases = Cases()
    kinds(cases)
    shown(cases)
    refusals(cases)
    sessions(cases)
    joined(cases)
    revivals.histories(cases, random.Random(2032), "all-keys", 12)
    revivals.random_sessions(cases, random.Random(2034), "all-keys", 4)
    cases.write(sys.argv[1], "line_kinds")


if __name__ == "__main__":
    main()
