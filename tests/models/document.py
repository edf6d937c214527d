"""The text of docs/PERITEXT.md as a plain tree of characters and a plain list of marks, apart from the code of the hub."""

ELEMENTS, MARKS = 32768, 4096
NAMES = {46: "StaleCounter", 47: "UnknownRef", 48: "DocumentFull", 49: "MarksFull", 50: "HistoryFull"}


def name_of(identity):
    return f"{identity[0]}@{identity[1]}"


def anchor_text(anchor):
    return anchor if isinstance(anchor, str) else anchor[0] + name_of(anchor[1])


def line_of(op):
    """The line of an operation: ("i", id, parent, code), ("d", id, id), ("m", id, key, value, start, end) or ("u", ..)."""
    kind, identity = op[0], name_of(op[1])
    if kind == "i":
        return f"i {identity} {name_of(op[2]) if op[2] else '-'} {op[3]:x}"
    if kind == "d":
        return f"d {identity} {name_of(op[2])}"
    parts = op[2:-2] + (anchor_text(op[-2]), anchor_text(op[-1]))
    return " ".join((kind, identity) + parts)


def named(op):
    """The characters that an operation names."""
    if op[0] == "i":
        return [op[2]] if op[2] else []
    if op[0] == "d":
        return [op[2]]
    return [anchor[1] for anchor in op[-2:] if not isinstance(anchor, str)]


class Document:
    def __init__(self):
        self.parents, self.codes, self.removed = {}, {}, set()
        self.marks, self.counters = [], {}

    def fault(self, op):
        counter, node = op[1]
        if counter <= max([self.counters.get(node, 0)] + [identity[0] for identity in named(op)]):
            return 46
        if any(identity not in self.codes for identity in named(op)):
            return 47
        if op[0] == "i" and len(self.codes) == ELEMENTS:
            return 48
        if op[0] in "mu" and len(self.marks) == MARKS:
            return 49
        return None

    def take(self, op):
        counter, node = op[1]
        self.counters[node] = counter
        if op[0] == "i":
            self.parents[op[1]], self.codes[op[1]] = op[2], op[3]
        elif op[0] == "d":
            self.removed.add(op[2])
        else:
            self.marks.append(op)

    def order(self):
        """All characters, removed ones too: a parent, and behind it its children with those below them, the greatest first."""
        children = {}
        for identity, parent in self.parents.items():
            children.setdefault(parent, []).append(identity)
        out, rest = [], sorted(children.get(None, []))
        while rest:
            identity = rest.pop()
            out.append(identity)
            rest += sorted(children.get(identity, []))
        return out

    def format_at(self, place, places):
        """What each key holds at a place: the add with the greatest id, if no removal has a greater one."""
        def boundary(anchor):
            if isinstance(anchor, str):
                return 0 if anchor == "^" else len(places)
            return places[anchor[1]] + (anchor[0] == ">")
        greatest = {}
        for op in self.marks:
            if boundary(op[-2]) <= place < boundary(op[-1]):
                if op[2] not in greatest or op[1] > greatest[op[2]][1]:
                    greatest[op[2]] = op
        return {key: op[3] for key, op in greatest.items() if op[0] == "m"}

    def spans(self):
        """(text, format) of each span."""
        order = self.order()
        places = {identity: place for place, identity in enumerate(order)}
        spans = []
        for place, identity in enumerate(order):
            if identity in self.removed:
                continue
            found = self.format_at(place, places)
            if not spans or spans[-1][1] != found:
                spans.append(["", found])
            spans[-1][0] += chr(self.codes[identity])
        return spans


def lent(document, number):
    """What a run is lent of each span of a version: its text, and what else its context says, with its link."""
    spans, out = document.spans(), []
    for index, (text, found) in enumerate(spans):
        comments = sum(key.startswith("comment:") for key in found)
        bits = [("strong", 1), ("em", 2), ("link", 4), ("color", 8)]
        flags = sum(bit for key, bit in bits if key in found) + (16 if comments else 0)
        out.append((text, dict(flags=flags, color=int(found.get("color", "0"), 16), link=found.get("link", ""), comments=comments,
                               index=index, count=len(spans), number=number)))
    return out


def format_text(found):
    parts = [key for key in ("strong", "em") if key in found]
    parts += [f"{key}={found[key]}" for key in ("link", "color") if key in found]
    comments = sorted(int(key.split(":")[1]) for key in found if key.startswith("comment:"))
    return ",".join(parts + [f"comment:{number}" for number in comments]) or "plain"


def printed(document):
    out = []
    for index, (text, found) in enumerate(document.spans()):
        text = text.replace("\\", "\\\\").replace("\n", "\\n")
        out.append(f"{index} {format_text(found)} {text}")
    return out


def change_lines(node, ops):
    return [f"change {node} {len(ops)}"] + [line_of(op) for op in ops]


def accepted(document, ops):
    """Takes a change whole; else (number, index) of its fault, with the document as it was."""
    before = dict(document.parents), dict(document.codes), set(document.removed), list(document.marks), dict(document.counters)
    for index, op in enumerate(ops):
        number = document.fault(op)
        if number:
            document.parents, document.codes, document.removed, document.marks, document.counters = before
            return number, index
        document.take(op)
    return None
