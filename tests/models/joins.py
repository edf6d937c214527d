"""Changes joined: the model of `hub join`, apart from the code of the hub, and cases of it. Usage: joins.py FOLDER."""

import random
import sys
from typing import NamedTuple

from cases import Cases
from document import change_lines, line_of, name_of
from revivals import random_history as history_of_revivals
from text import MEANT, count_of
from texts import random_history

MOST = 256


class Change(NamedTuple):
    """A change by its text: 1 to 3 of its form, its peer, its lines, how many operations they count as, and how many they mean."""
    form: int
    node: int
    lines: list
    count: int
    meant: int

    def text(self):
        word = f"change{self.form if self.form > 1 else ''}"
        return "".join(f"{line}\n" for line in [f"{word} {self.node} {len(self.lines)}", *self.lines])


def are_few(count, meant):
    return count <= MOST and meant <= MEANT


def joined(changes):
    """The changes, with each appended to the last one where it is the same peer's and both are within the limits of one."""
    out = []
    for change in changes:
        if out and out[-1].node == change.node and are_few(out[-1].count + change.count, out[-1].meant + change.meant):
            last = out.pop()
            change = Change(max(last.form, change.form), last.node, last.lines + change.lines, last.count + change.count, last.meant + change.meant)
        out.append(change)
    return out


def fewest(changes):
    """How many changes are enough, whatever neighbors are put together: the least of all ways."""
    least = [0]
    for end in range(1, len(changes) + 1):
        best, count, meant, start = end, 0, 0, end
        while (start and changes[start - 1].node == changes[end - 1].node
               and are_few(count + changes[start - 1].count, meant + changes[start - 1].meant)):
            start -= 1
            count, meant = count + changes[start].count, meant + changes[start].meant
            best = min(best, least[start] + 1)
        least.append(best)
    return least[-1]


def with_runs(ops):
    """The lines of operations, with inserts that were typed one after the other as runs; and whether there is a run."""
    lines, has_run, at = [], False, 0
    while at < len(ops):
        end = at + 1
        while (ops[at][0] == "i" and end < len(ops) and ops[end][0] == "i" and ops[end][2] == ops[end - 1][1]
               and ops[end][1] == (ops[end - 1][1][0] + 1, ops[at][1][1])):
            end += 1
        if end - at > 1:
            _, identity, parent, _ = ops[at]
            codes = " ".join(f"{op[3]:x}" for op in ops[at:end])
            lines.append(f"r {name_of(identity)} {name_of(parent) if parent else '-'} {end - at} {codes}")
            has_run = True
        else:
            lines.append(line_of(ops[at]))
        at = end
    return lines, has_run


def change_of(rng, node, ops):
    """A change of these operations, of either form."""
    if rng.random() < 0.5:
        lines, has_run = with_runs(ops)
        if has_run or rng.random() < 0.3:
            return Change(2, node, lines, len(ops), len(ops))
    return Change(1, node, change_lines(node, ops)[1:], len(ops), len(ops))


def typed_history(rng, peers, changes):
    """Changes of peers that type at the text's end, a key or a stretch at once, and sometimes remove the last character."""
    counter, last, history = 0, None, []
    node = rng.choice(peers)
    for _ in range(changes):
        if rng.random() < 0.1:
            node = rng.choice(peers)
        ops = []
        for _ in range(rng.choice([1, 1, 1, 1, 2, 5, 40, 120, 255, 256]) if rng.random() < 0.5 else 1):
            counter += rng.choice([1, 1, 1, 1, 1, 2])
            if last and rng.random() < 0.05:
                ops.append(("d", (counter, node), last))
            else:
                ops.append(("i", (counter, node), last, rng.randrange(0x61, 0x7b)))
                last = (counter, node)
        history.append((node, ops))
    return history


def any_history(rng, has_revivals=False):
    """Random changes of one kind or the other, with the peers that made them."""
    if has_revivals:
        return revived_history(rng)
    peers = [1, 2, 3, 7, 65535][:rng.randrange(1, 4)]
    if rng.random() < 0.5:
        history = random_history(rng, rng.randrange(0, 24), peers)
    else:
        history = typed_history(rng, peers, rng.randrange(1, 40))
    return [change_of(rng, node, ops) for node, ops in history]


def changes_of(history):
    """The changes of a history of revivals.py."""
    return [Change(made.form, made.node, made.written()[1:], sum(map(count_of, made.lines)), sum(map(len, made.lines))) for made in history]


def revived_history(rng, has_all_keys=True):
    """Random changes with removals that are taken back."""
    return changes_of(history_of_revivals(rng, rng.randrange(1, 40), has_all_keys)[0])


def whole(changes):
    return "".join(change.text() for change in changes)


def meant_rows(cases):
    """Runs of removals of 2,048 characters: 128 of them are 262,144 operations, so the next one stands apart. By hand."""
    text = [["change2 1 1", f"r {256 * at + 1}@1 {f'{256 * at}@1' if at else '-'} 256" + " 61" * 256] for at in range(8)]
    runs = [f"d {2049 + 2048 * at}@1 1@1 2048" for at in range(129)]
    last = f"i {2049 + 2048 * 129}@1 - 62"
    lines = [line for change in text for line in change]
    given = lines + [line for run in runs for line in ("change3 1 1", run)] + ["change 1 1", last]
    cases.add("join-runs-of-removals", ["join"], [*lines, "change3 1 128", *runs[:128], "change3 1 2", runs[128], last], lines=given)


def main():
    rng, cases = random.Random(41), Cases()
    cases.heading("Changes joined. The joined texts were worked out by tests/models/joins.py.")
    cases.add("join-nothing", ["join"], [])
    keys = [Change(1, 1, [f"i {n}@1 {f'{n - 1}@1' if n > 1 else '-'} 61"], 1, 1) for n in range(1, 258)]
    cases.add("join-257-keys", ["join"], whole(joined(keys)).splitlines(), lines=whole(keys).splitlines())
    for number in range(1, 9):
        changes = any_history(rng)
        while not 2 <= sum(change.count for change in changes) <= 80:
            changes = any_history(rng)
        cases.add(f"join-history-{number}", ["join"], whole(joined(changes)).splitlines(), lines=whole(changes).splitlines())
    first = "change 1 1\ni 1@1 - 61\n"
    cases.add("join-stale", ["join"], ["refused 46 StaleCounter change 2 line 2"], 1, lines=(first + first).splitlines())
    cases.add("join-unknown", ["join"], ["refused 47 UnknownRef change 2 line 2"], 1, lines=(first + "change 1 1\nd 2@1 1@2\n").splitlines())
    cases.add("join-bad-line", ["join"], ["refused 40 BadLine change 2 line 1"], 1, lines=(first + "change 1  1\n").splitlines())
    cases.add("join-truncated", ["join"], ["refused 41 Truncated change 2"], 1, lines=(first + "change 1 1\n").splitlines())
    for number in range(1, 5):
        changes = revived_history(rng, False)
        cases.add(f"join-revivals-{number}", ["join"], whole(joined(changes)).splitlines(), lines=whole(changes).splitlines())
    letters = "change2 1 1\nr 1@1 - 3 61 62 63\n"
    forms = letters + "change 1 1\nd 4@1 2@1\nchange3 1 2\nv 5@1 4@1\nd 6@1 1@1 3\nchange 1 1\ni 9@1 - 64\n"
    want = ["change3 1 5", "r 1@1 - 3 61 62 63", "d 4@1 2@1", "v 5@1 4@1", "d 6@1 1@1 3", "i 9@1 - 64"]
    cases.add("join-of-three-forms", ["join"], want, lines=forms.splitlines())
    meant_rows(cases)
    cases.write(sys.argv[1], "joins")


if __name__ == "__main__":
    main()
