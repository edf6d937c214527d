"""SQLite's log, by section 4 of its file format: which commits a reader finds in it, and which are behind a wrong frame."""

import struct

HEADER, FRAME = 32, 24
MAGIC = (0x377F0682, 0x377F0683)


def summed(data, before=(0, 0), order="<"):
    """The sum of words that goes on from another."""
    first, second = before
    for one, two in struct.iter_unpack(order + "II", data):
        first = (first + one + second) & 0xFFFFFFFF
        second = (second + two + first) & 0xFFFFFFFF
    return first, second


def numbers(data, at, count):
    return struct.unpack_from(f">{count}I", data, at)


class Log:
    """The frames of a log of pages of this size."""

    def __init__(self, data, page_size=4096):
        self.data, self.page_size = data, page_size
        self.is_right = False
        if len(data) >= HEADER:
            magic = numbers(data, 0, 1)[0]
            self.order = ">" if magic == MAGIC[1] else "<"
            self.is_right = magic in MAGIC and summed(data[:24], order=self.order) == numbers(data, 24, 2)

    def frame(self, index):
        at = HEADER + index * (FRAME + self.page_size)
        return self.data[at : at + FRAME + self.page_size]

    def count(self):
        return max(0, len(self.data) - HEADER) // (FRAME + self.page_size)

    def goes_on(self, index, salts):
        """Whether a frame has these salts, and its sum goes on from the one stored before it."""
        frame = self.frame(index)
        before = numbers(self.data, 24, 2) if index == 0 else numbers(self.frame(index - 1), 16, 2)
        if numbers(frame, 8, 2) != salts or numbers(frame, 0, 1) == (0,):
            return False
        return summed(frame[FRAME:], summed(frame[:8], before, self.order), self.order) == numbers(frame, 16, 2)

    def is_last_mark(self, index, salts):
        """Whether a writer left a frame that it hasn't committed: the first byte of the first salt isn't the salt's yet."""
        byte = salts[0] >> 24
        shut = bytes([1 if byte == 0 else 0]) + struct.pack(">II", *salts)[1:]
        return self.frame(index)[8:16] == shut

    def found(self):
        """How many commits a reader finds, and how many are right behind the first wrong frame."""
        if not self.is_right:
            return 0, self.behind_wrong_header()
        salts = numbers(self.data, 16, 2)
        read = behind = 0
        wrong = False
        for index in range(self.count()):
            commits = numbers(self.frame(index), 4, 1) != (0,)
            if self.goes_on(index, salts):
                if wrong:
                    behind += commits
                else:
                    read += commits
            elif not wrong:
                if self.is_last_mark(index, salts):
                    break
                wrong = True
        return read, behind

    def behind_wrong_header(self):
        if self.data[1:4] in (b"\x7f\x06\x82", b"\x7f\x06\x83") and self.data[0] == 0:
            return 0
        if self.count() < 2:
            return 0
        self.order = "<"
        salts = numbers(self.frame(1), 8, 2)
        return sum(self.goes_on(index, salts) and numbers(self.frame(index), 4, 1) != (0,) for index in range(self.count()))

    def lost(self):
        """How many commits are lost: a power cut can tear the last one alone."""
        behind = self.found()[1]
        return behind if behind > 1 else 0
