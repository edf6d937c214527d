#!/usr/bin/env python3
"""A plain machine for the scripts that crates/test_scripts plays, apart from the code: what a hub's core, its queues and its workers are to answer.

    core_events.py random             writes the random scripts, whose seeds are fixed
    core_events.py answers < stdin    writes what the scripts of crates/test_cases/stdin are to answer

A version is the list of the operations before it. Its spans are found the slow way: the characters in their order, and for each one the
last mark that covers it. A program is known by what it says of a span. A subscriber is where it stands, how many items it was sent, and
the names of the batches that are held for it.
"""
import random
import re
import sys

ONE = 'b7000000010000009500000000000000'
STRONG = '611018000000000057000000010000009500000000000000'
FRONT = '79120000000000007913080000000000bf24000000000000070400000%d000000b7000000000000002d340100000000007120%02x00000000009500000000000000'
PROGRAMS = {
    ONE: lambda s, i, n, v: 1,
    STRONG: lambda s, i, n, v: int(s[0]),
    '61101000000000009500000000000000': lambda s, i, n, v: len(s[1].encode()),
    '61101400000000009500000000000000': lambda s, i, n, v: len(s[1]),
    '61102800000000009500000000000000': lambda s, i, n, v: i,
    '61102c00000000009500000000000000': lambda s, i, n, v: n,
    '79103000000000009500000000000000': lambda s, i, n, v: v,
    FRONT % (1, 0): lambda s, i, n, v: s[1].encode()[0],
    FRONT % (2, 1): lambda s, i, n, v: (s[1].encode() + b'\0')[1],
}
LETTERS = 'aé€😀'


def verdict_of(digits):
    """What a program says; some moves before it change nothing."""
    while digits.startswith('b700000000000000'):
        digits = digits[16:]
    return PROGRAMS.get(digits)


# Text.

class Bad(Exception):
    pass


def read_change(text):
    """The operations of each line of a change: kind, id, parent or removed or removal or start, letter or end."""
    lines = text.split('\n')
    head = re.fullmatch(r'(change[23]?) (\d+) (\d+)', lines[0])
    if not head:
        raise Bad('40 BadLine line 1')
    node, count = int(head[2]), int(head[3])
    change = []
    for at in range(1, count + 1):
        if at >= len(lines) - 1:
            raise Bad('41 Truncated')
        if head[1] != 'change' and lines[at].startswith('r '):
            change.append(read_run(lines[at], at + 1))
        elif head[1] == 'change3' and lines[at][:2] in ('d ', 'v '):
            change.append(read_removals(lines[at]))
        else:
            change.append([read_operation(lines[at], at + 1)])
    if lines[count + 1:] != ['']:
        raise Bad(f'40 BadLine line {count + 2}')
    assert all(o[1][1] == node for line in change for o in line)
    return change


def read_id(word):
    counter, node = word.split('@')
    return int(counter), int(node)


def read_place(word):
    return (word[0], None) if word in '^$' else (word[0], read_id(word[1:]))


def read_run(line, number):
    _, first, written, count, *codes = line.split(' ')
    (counter, node), parent = read_id(first), None if written == '-' else read_id(written)
    if len(codes) != int(count):
        raise Bad(f'40 BadLine line {number}')
    ids = [(counter + at, node) for at in range(len(codes))]
    return [('i', i, p, chr(int(code, 16))) for i, p, code in zip(ids, [parent] + ids, codes)]


def read_removals(line):
    """A removal or a revival, or a run of them."""
    kind, first, named, *count = line.split(' ')
    (counter, node), (other, peer) = read_id(first), read_id(named)
    return [(kind, (counter + at, node), (other + at, peer), None) for at in range(int(*count or '1'))]


def read_operation(line, number):
    words = line.split(' ')
    if words[0] == 'i' and re.fullmatch('[0-9a-f]+', words[3]):
        parent = None if words[2] == '-' else read_id(words[2])
        return 'i', read_id(words[1]), parent, chr(int(words[3], 16))
    if words[0] == 'd':
        return 'd', read_id(words[1]), read_id(words[2]), None
    if words[0] == 'm' and words[2:4] == ['strong', '-']:
        return 'm', read_id(words[1]), read_place(words[4]), read_place(words[5])
    if words[0] == 'u' and words[2] == 'strong':
        return 'u', read_id(words[1]), read_place(words[3]), read_place(words[4])
    raise Bad(f'40 BadLine line {number}')


def write_id(i):
    return '%d@%d' % i


def write_place(place):
    return place[0] + (write_id(place[1]) if place[1] else '')


def write_operation(o):
    kind, i, a, b = o
    if kind == 'i':
        return f'i {write_id(i)} {write_id(a) if a else "-"} {ord(b):x}'
    if kind == 'd':
        return f'd {write_id(i)} {write_id(a)}'
    return f'{kind} {write_id(i)} strong{" -" if kind == "m" else ""} {write_place(a)} {write_place(b)}'


def named(o):
    if o[0] in 'idv':
        return [o[2]] if o[2] else []
    return [p[1] for p in (o[2], o[3]) if p[1]]


class History:
    def __init__(self):
        self.operations, self.ends = [], [0]
        self.last, self.there, self.marks = {}, set(), 0
        self.known, self.removals = {}, set()

    def latest(self):
        return len(self.ends) - 1

    def refusal(self, o):
        if any(o[1][0] <= n[0] for n in named(o)) or o[1][0] <= self.last.get(o[1][1], 0):
            return '46 StaleCounter'
        if any(n not in (self.removals if o[0] == 'v' else self.there) for n in named(o)):
            return '47 UnknownRef'
        if o[0] == 'i' and len(self.there) == 32768:
            return '48 DocumentFull'
        if o[0] in 'mu' and self.marks == 4096:
            return '49 MarksFull'
        return None

    def put(self, o):
        self.operations.append(o)
        self.last[o[1][1]] = o[1][0]
        if o[0] == 'i':
            self.there.add(o[1])
        if o[0] == 'd':
            self.removals.add(o[1])
        if o[0] in 'mu':
            self.marks += 1

    def submit(self, change):
        if self.latest() == 4096:
            return None, '50 HistoryFull'
        operations = [(index, o) for index, line in enumerate(change) for o in line]
        before = len(self.operations), dict(self.last), set(self.there) if len(operations) > 1 else self.there, self.marks
        for index, o in operations:
            why = self.refusal(o)
            if why:
                del self.operations[before[0]:]
                self.last, self.there, self.marks = before[1:]
                self.removals = {p[1] for p in self.operations if p[0] == 'd'}
                return None, f'{why} op {index}'
            self.put(o)
        self.ends.append(len(self.operations))
        return self.latest(), None

    def spans(self, version):
        if version not in self.known:
            self.known[version] = spans(self.operations[:self.ends[version]])
        return self.known[version]


def place_behind(elements, i):
    for at in range(len(elements) - 1, -1, -1):
        if elements[at][0] == i:
            return at + 1
    return 0


def spans(operations):
    """The runs of characters that are shown and equally strong."""
    back = {o[2] for o in operations if o[0] == 'v'}
    elements, removed, marks = [], set(), []
    rising = sorted(operations, key=lambda o: o[1])
    for o in rising:
        if o[0] == 'i':
            elements.insert(place_behind(elements, o[2]) if o[2] else 0, (o[1], o[3]))
        elif o[0] == 'd' and o[1] not in back:
            removed.add(o[2])
    places = {e[0]: at for at, e in enumerate(elements)}

    def anchor(place):
        side, i = place
        if i is None:
            return 0 if side == '^' else 1 << 40
        return 2 * places[i] + (1 if side == '<' else 2)

    for o in rising:
        if o[0] in 'mu':
            marks.append((anchor(o[2]), anchor(o[3]), o[0] == 'm'))
    covers = [False] * len(elements)
    for start, end, is_added in marks:
        for at in range(max(0, start // 2 - 1), len(elements)):
            if 2 * at + 2 > end:
                break
            if start <= 2 * at + 1:
                covers[at] = is_added
    found = []
    for at, (i, letter) in enumerate(elements):
        if i in removed:
            continue
        if found and found[-1][0] == covers[at]:
            found[-1][1] += letter
        else:
            found.append([covers[at], letter])
    return found


# The core.

class Subscriber:
    def __init__(self, program, first, capacity):
        self.program, self.first, self.capacity = program, first, capacity
        self.cursor = self.handed = first
        self.held, self.part, self.is_closed = set(), 0, False
        self.sent, self.waiting = [], 0


class Machine:
    """The core. A queue has room again for each item that was taken, a list takes as many items in all as its capacity says."""

    def __init__(self, is_queue):
        self.is_queue = is_queue
        self.history, self.subscribers = History(), []
        self.programs, self.jobs, self.batches = [], [], []

    def items(self, program, version):
        spans = self.history.spans(version)
        found = []
        for index, span in enumerate(spans):
            verdict = self.programs[program](span, index, len(spans), version)
            if verdict:
                found.append((version, index, verdict))
        return found + [(version, len(spans))]

    def open(self, i):
        if i < len(self.subscribers) and not self.subscribers[i].is_closed:
            return self.subscribers[i]
        return None

    def subscribe(self, capacity, program):
        if self.is_queue and not 1 <= capacity <= 1024:
            return '54 BadCapacity'
        if len(self.subscribers) == 64:
            return '51 SubscribersFull'
        self.subscribers.append(Subscriber(program, self.history.latest(), capacity))
        return str(len(self.subscribers) - 1)

    def due(self, i, handed):
        s = self.open(i)
        if s:
            for version in range(max(handed, s.cursor), min(self.history.latest(), s.cursor + 7) + 1):
                if version not in s.held:
                    return version
        return None

    def take_job(self):
        """The first open subscriber's that has one."""
        for i, s in enumerate(self.subscribers):
            version = self.due(i, s.handed)
            if version is not None:
                s.handed = version + 1
                self.jobs.append((i, version, s.program, version))
                return self.jobs[-1]
        return None

    def commit(self, job):
        i, number, program, version = job
        s = self.open(i)
        if not s:
            return '52 NoSubscriber'
        if not s.cursor <= number <= s.cursor + 7 or number in s.held or program != s.program or version != number:
            return '53 Stale'
        s.held.add(number)
        return 'done'

    def pump(self, i):
        s = self.open(i)
        if not s:
            return '52 NoSubscriber'
        count = 0
        while s.cursor in s.held:
            items = self.items(s.program, s.cursor)
            while s.part < len(items) and s.waiting < s.capacity:
                s.sent.append(items[s.part])
                s.part, s.waiting, count = s.part + 1, s.waiting + 1, count + 1
            if s.part < len(items):
                break
            s.held.discard(s.cursor)
            s.cursor, s.part = s.cursor + 1, 0
        return str(count)

    def reissue(self, i):
        s = self.open(i)
        if not s:
            return '52 NoSubscriber'
        s.handed = s.cursor
        return 'done'

    def close(self, i):
        s = self.open(i)
        if not s:
            return '52 NoSubscriber'
        s.is_closed, s.held = True, set()
        return 'done'

    def take(self, i, most):
        if i >= len(self.subscribers):
            return 'none'
        s = self.subscribers[i]
        front = len(s.sent) - s.waiting
        taken = s.sent[front:front + most]
        s.waiting -= len(taken)
        return told(taken)

    def work(self, turns, trick):
        committed = 0
        for _ in range(turns):
            job = self.take_job()
            if not job:
                break
            if trick == 'work-close-at-3' and job[1] == 3:
                self.close(job[0])
            if trick == 'work-commit-first' and job[1] == 1:
                self.commit(job)
            committed += self.commit(job) == 'done'
            self.pump(job[0])
        return str(committed)

    def catch_up(self, i, last):
        s = self.open(i)
        version = self.due(i, s.cursor) if s else None
        if version is None or last < version:
            return '0'
        self.commit((i, version, s.program, version))
        return '1'


def told(items):
    if not items:
        return 'no item'
    words = [f'{i[0]}/{i[1]}' if len(i) == 2 else f'{i[0]}:{i[1]}={i[2]}' for i in items]
    if len(words) <= 12:
        return ' '.join(words)
    digest = 0
    for item in items:
        for number in item:
            digest = (digest * 31 + number) % 2 ** 64
    return f'{len(words)} items, digest {digest}, the last {words[-1]}'


# Cases.

def written_out(case):
    """The lines of a case, and whether each is told of."""
    for line in case.splitlines():
        key, _, rest = line.partition(' ')
        if key == '#':
            continue
        first, last, text = 1, 1, line
        if key == 'times':
            count, _, text = rest.partition(' ')
            last = int(count)
        elif key == 'count':
            a, b, text = rest.split(' ', 2)
            first, last = int(a), int(b)
        else:
            yield line, True
            continue
        for n in range(first, last + 1):
            yield text.replace('{n-1}', str(n - 1)).replace('{n}', str(n)), n == last


def is_fault(answer):
    return answer in ('none', 'late', 'no event') or re.match(r'[45]\d [A-Z]', answer)


def number(word):
    return int(word) if word.isdigit() else 1 << 60


class Player:
    def __init__(self, is_queue, shares=1):
        self.machine, self.kept, self.is_queue, self.shares = Machine(is_queue), '', is_queue, shares

    def text(self, rest):
        kept, self.kept = self.kept, ''
        return rest.replace(' / ', '\n') + '\n' if rest else kept

    def change(self, rest):
        try:
            outcome, why = self.machine.history.submit(read_change(self.text(rest)))
            return why or str(outcome)
        except Bad as bad:
            return str(bad)

    def program(self, rest):
        verdict = verdict_of(self.kept + rest)
        self.kept = ''
        if not verdict:
            return 'none'
        self.machine.programs.append(verdict)
        return str(len(self.machine.programs) - 1)

    def commit(self, rest):
        m = self.machine
        if self.is_queue and not rest:
            return m.commit(m.batches.pop()) if m.batches else 'none'
        if number(rest) >= len(m.jobs):
            return 'none' if self.is_queue else '53 Stale'
        return m.commit(m.jobs[number(rest)])

    def batch(self, job):
        self.machine.batches.append(job)
        return told(self.machine.items(job[2], job[3]))

    def offer(self, rest):
        m = self.machine
        i, version, one, other = (number(w) for w in rest.split(' '))
        if max(one, other) >= len(m.jobs):
            return 'none'
        return self.batch((i, version, m.jobs[one][2], m.jobs[other][3]))

    def answer(self, key, rest):
        m = self.machine
        if key in ('submit', 'ingest'):
            return self.change(rest)
        if key == 'ingest-by':
            share, _, rest = rest.partition(' ')
            return self.change(rest) if int(share) < self.shares else 'none'
        if key == 'program':
            return self.program(rest)
        if key == 'sub':
            capacity, program = rest.split(' ')
            return m.subscribe(int(capacity), int(program)) if int(program) < len(m.programs) else 'none'
        if key == 'job':
            job = m.take_job()
            return f'{job[0]} {job[1]}' if job else 'none'
        if key in ('batch', 'filter'):
            return self.batch(m.jobs[number(rest)]) if number(rest) < len(m.jobs) else 'none'
        if key in ('pump', 'reissue', 'close'):
            return getattr(m, key)(number(rest))
        if key in ('take', 'take-all'):
            return m.take(number(rest), 1 if key == 'take' else 1024)
        if key == 'catch-up':
            i, _, last = rest.partition(' ')
            return m.catch_up(number(i), number(last) if last else m.history.latest())
        if key == 'without-memory':
            return '45 OutOfMemory'
        if key in ('commit', 'offer'):
            return getattr(self, key)(rest)
        workers, turns = rest.split(' ')
        return m.work(int(workers) * int(turns), key)


def tell_end(kind, i, items):
    if items != 'no item':
        print(f'{kind} {i}: {items}')


def play(case):
    lines = list(written_out(case))
    head = lines[0][0]
    print(head)
    kind, _, rest = head.partition(' ')
    if kind == 'threads':
        n = int(rest.split(' ')[1])
        print(f'shares: {n} {n}\nsettled: {2 * n}\nnumbers: {n * (2 * n + 1)}')
        return
    player = Player(kind == 'hub', int(rest.partition(' ')[2] or 1))
    m = player.machine
    for line, is_told in lines[1:]:
        key, _, rest = line.partition(' ')
        if key in ('line', 'text'):
            player.kept += rest + ('\n' if key == 'line' else '')
            continue
        answer = player.answer(key, rest)
        if (is_told or is_fault(answer)) and (kind == 'hub' or key != 'program'):
            print(f'{key}: {answer}')
    if kind == 'hub':
        print(f'settled: {m.history.latest()}')
        for i in range(len(m.subscribers)):
            tell_end('queue', i, m.take(i, 1024))
        return
    for i, s in enumerate(m.subscribers):
        tell_end('sink', i, told(s.sent))
    print(f'published: {m.history.latest() + 1} {len(m.programs)}')


# Random cases.

class Dice:
    """Random numbers that the seed fixes, by random() alone, whose numbers no release of Python changes."""

    def __init__(self, seed):
        self.generator = random.Random(seed)

    def below(self, bound):
        return int(self.generator.random() * bound) if bound else 0

    def one_of(self, choices):
        return choices[self.below(len(choices))]


def any_name(dice, known, counter):
    """A character that an operation with this counter may mostly name; now and then one that it may not, or one that isn't there."""
    if dice.below(24) == 0:
        return 1 + dice.below(9), 1 + dice.below(4)
    for _ in range(4):
        if known:
            o = dice.one_of(known)
            if o[0] == 'i' and (o[1][0] < counter or dice.below(8) == 0):
                return o[1]
    return None


def any_place(dice, known, counter):
    name, way = any_name(dice, known, counter), dice.below(8)
    if way == 0 or (name is None and way <= 4):
        return '^', None
    if way == 1 or name is None:
        return '$', None
    return ('<' if way <= 4 else '>'), name


def any_operation(dice, known, node):
    own = max([o[1][0] for o in known if o[1][1] == node], default=0)
    way = dice.below(20)
    counter = max(own, 1) if way == 0 else own + 1 if way <= 8 else max([o[1][0] for o in known], default=0) + 1
    name, act = any_name(dice, known, counter), dice.below(10)
    if act <= 1 and name:
        return 'd', (counter, node), name, None
    if 2 <= act <= 4:
        start, end = any_place(dice, known, counter), any_place(dice, known, counter)
        return ('m' if dice.below(4) else 'u'), (counter, node), start, end
    return 'i', (counter, node), None if act == 5 else name, dice.one_of(LETTERS)


def any_change(dice, m):
    node, known, change = 1 + dice.below(3), list(m.history.operations), []
    for _ in range(1 + dice.below(3)):
        o = any_operation(dice, known, node)
        known.append(o)
        change.append(o)
    return f'change {node} {len(change)} / ' + ' / '.join(write_operation(o) for o in change)


def any_job(dice, m):
    """A job's place, mostly of one whose batch is waited for; or one more than there are."""
    if dice.below(8) == 0 or not m.jobs:
        return dice.below(len(m.jobs) + 1)
    start = dice.below(len(m.jobs)) if dice.below(3) == 0 else 0
    for place in range(start, len(m.jobs)):
        i, version = m.jobs[place][:2]
        s = m.open(i)
        if s and s.cursor <= version and version not in s.held:
            return place
    return dice.below(len(m.jobs))


def any_offer(dice, m):
    """A batch of a made-up job: of a version too far ahead or not, of another's program, of another version, of another subscriber."""
    if not m.jobs or not m.subscribers:
        return 'job'
    i, version, _, _ = dice.one_of(m.jobs)
    one = other = next(at for at, job in enumerate(m.jobs) if job[0] == i and job[1] == version)
    way = dice.below(6)
    if way == 0:
        one = dice.below(len(m.jobs))
    if way == 1:
        other = dice.below(len(m.jobs))
    if way == 2:
        i = dice.below(len(m.subscribers) + 2)
    if way == 3:
        version += dice.below(9)
    return f'offer {i} {version} {one} {other}'


def any_event(dice, player, is_queue):
    m = player.machine
    count = len(m.subscribers)
    i = count if dice.below(12) == 0 else dice.below(count)
    kind = dice.below(100)
    if kind < 4 or (count == 0 and kind < 40):
        capacities = [1, 2, 5, 12, 40, 400, 1024, 1025 if dice.below(4) == 0 else 40] if is_queue else [0, 1, 2, 5, 12, 40, 400, 4000]
        return f'sub {dice.one_of(capacities)} {dice.below(len(PROGRAMS))}'
    if kind <= 23:
        return ('ingest ' if is_queue else 'submit ') + any_change(dice, m)
    if kind <= 48:
        return 'job'
    if kind <= 75:
        return f'commit {any_job(dice, m)}'
    if kind <= 79:
        return any_offer(dice, m) if is_queue else 'job'
    if kind <= 96:
        if is_queue and dice.below(4) == 0:
            return f'{dice.one_of(["take", "take-all"])} {i}'
        return f'pump {i}'
    return f'reissue {i}' if kind <= 98 else f'close {i}'


def first_lines(start, verb):
    """What a nearly full core begins with."""
    if start == 'text':
        lines = ['line change 1 256', 'line i 1@1 - 61', 'count 2 256 line i {n}@1 {n-1}@1 61', verb]
        for last in range(512, 32769, 256):
            count = 256 if last < 32768 else 255
            lines += [f'line change 1 {count}', f'count {last - 255} {last - 256 + count} line i {{n}}@1 {{n-1}}@1 61', verb]
        return lines
    if start == 'marks':
        lines = ['line change 1 3', 'line i 1@1 - 61', 'count 2 3 line i {n}@1 {n-1}@1 61', verb]
        for at in range(0, 4095, 195):
            kinds = ['m {n}@1 strong - <1@1 <3@1', 'u {n}@1 strong <2@1 >2@1', 'm {n}@1 strong - >1@1 $']
            lines += ['line change 1 195']
            for part in range(3):
                first = 4 + at + 65 * part
                lines += [f'count {first} {first + 64} line {kinds[part]}']
            lines += [verb]
        return lines
    if start == 'changes':
        return [f'count 1 4093 {verb} change 1 1 / i {{n}}@1 - 61']
    if start == 'subscribers':
        return [f'times 62 sub 40 1']
    return []


def random_case(seed, start, count, is_queue):
    name = f'random-{seed}' + (f'-nearly-full-of-{start}' if start else '')
    lines = [f'{"hub" if is_queue else "core"} {name}'] + [f'program {digits}' for digits in PROGRAMS]
    lines += first_lines(start, 'ingest' if is_queue else 'submit')
    player, dice = Player(is_queue), Dice(seed)
    written = list(written_out('\n'.join(lines)))[1:]
    for at in range(len(written) + count):
        if at >= len(written):
            line = any_event(dice, player, is_queue)
            lines.append(line)
        else:
            line = written[at][0]
        key, _, rest = line.partition(' ')
        if key in ('line', 'text'):
            player.kept += rest + ('\n' if key == 'line' else '')
            continue
        player.answer(key, rest)
        if key == 'offer':
            lines.append('commit')
            player.answer('commit', '')
    return '\n'.join(lines)


def random_cases():
    cases = []
    for seed in range(44):
        start, count = [('text', 30), ('marks', 40), ('changes', 40), ('subscribers', 60)][seed] if seed < 4 else ('', 60)
        cases.append(random_case(seed, start, count, False))
        cases.append(random_case(100 + seed, start, count, True))
    return '\n\n'.join(cases) + '\n'


def main():
    if sys.argv[1:] == ['random']:
        sys.stdout.write(random_cases())
    elif sys.argv[1:] == ['answers']:
        for block in sys.stdin.read().rstrip('\n').split('\n\n'):
            if not re.search('^case ', block, re.MULTILINE):
                play(block)
    else:
        sys.exit(__doc__)


main()
