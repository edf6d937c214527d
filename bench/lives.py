"""A document's life, the same in every run: changes of four characters by one who types on here and there, with a mark now and then. Past a number
of bytes what is typed takes the place of as much. bench/life.py and tests/life send it."""

WIDTH, CHANGES_A_MARK = 4, 131


class Replica:
    """All characters in order, removed ones too: a list of [id, character, whether it is visible]. Counters rise over all peers, so what
    is inserted stands right behind its parent."""

    def __init__(self):
        self.order, self.visible, self.counter, self.inserted = [], 0, 0, 0

    def typed(self, node, place, text):
        """The lines of an insert before the element at a place, and what it adds."""
        parent = f"{name_of(self.order[place - 1][0])}" if place else "-"
        first = self.counter + 1
        self.order[place:place] = [[(first + at, node), character, True] for at, character in enumerate(text)]
        self.counter += len(text)
        self.visible += len(text)
        self.inserted += len(text)
        lines = []
        for start in range(0, len(text), 256):
            codes = [f"{ord(character):x}" for character in text[start:start + 256]]
            own = f"{first + start}@{node}"
            lines.append((f"r {own} {parent} {len(codes)} {' '.join(codes)}" if len(codes) > 1 else f"i {own} {parent} {codes[0]}", len(codes)))
            parent = f"{first + start + len(codes) - 1}@{node}"
        return lines

    def removed(self, node, element):
        self.counter += 1
        self.visible -= 1
        element[2] = False
        return f"d {self.counter}@{node} {name_of(element[0])}", 1

    def revived(self, node, removal, element):
        """The line that takes the removal back, an element's only one that stands."""
        self.counter += 1
        self.visible += 1
        element[2] = True
        return f"v {self.counter}@{node} {name_of(removal)}"

    def text(self):
        return "".join(character for _, character, visible in self.order if visible)


def name_of(own):
    return f"{own[0]}@{own[1]}"


class Life:
    """A text that grows to `kept` bytes, and stays so long while it is written on. So large a part of the changes undo the one before."""

    def __init__(self, rng, kept, undone=0):
        self.rng, self.kept, self.undone = rng, kept, undone
        self.added, self.gone, self.undos = [], [], 0
        self.replica, self.at, self.changes, self.marks = Replica(), 0, 0, 0

    def change(self, node):
        """The lines of the next change, by this peer."""
        if self.undone and self.added and self.rng.random() < self.undone:
            return self.undo(node)
        if self.rng.random() < 0.02:
            self.at = self.rng.randrange(len(self.replica.order) + 1)
        lines = self.typed(node)
        self.at += WIDTH
        self.changes += 1
        if self.changes % CHANGES_A_MARK == 0:
            lines.append(self.marked(node))
        return [f"change2 {node} {len(lines)}", *lines]

    def undo(self, node):
        """What the last change typed is removed, and what it removed is taken back."""
        lines = [self.replica.removed(node, element)[0] for element in self.added]
        lines += [self.replica.revived(node, removal, element) for removal, element in self.gone]
        self.added, self.gone = [], []
        self.changes += 1
        self.undos += 1
        return [f"change3 {node} {len(lines)}", *lines]

    def typed(self, node):
        """Four characters at the place, where there are many in place of those behind it, or of the last before it: these are removed first."""
        replica, behind, before, lines = self.replica, self.at, self.at - 1, []
        self.gone = []
        while replica.visible + WIDTH > self.kept:
            if behind < len(replica.order):
                element, behind = replica.order[behind], behind + 1
            else:
                element, before = replica.order[before], before - 1
            if element[2]:
                lines.append(replica.removed(node, element))
                self.gone.append(((replica.counter, node), element))
        lines += replica.typed(node, self.at, "".join(self.rng.choice("etaoin shrdlu") for _ in range(WIDTH)))
        self.added = replica.order[self.at:self.at + WIDTH]
        return [line for line, _ in lines]

    def marked(self, node):
        self.replica.counter += 1
        self.marks += 1
        first = self.rng.randrange(len(self.replica.order) - 60)
        ends = f"<{name_of(self.replica.order[first][0])} >{name_of(self.replica.order[first + self.rng.randrange(60)][0])}"
        return f"m {self.replica.counter}@{node} strong - {ends}"
