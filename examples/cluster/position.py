"""Up to where of its stream a hub's store is: one record in a file beside the store.

It is written behind each entry that was given to the hub. Where the hub or the gateway ends between the two, the record is
of an entry before: the entries that the store has beyond it are recognized by their texts (document.py)."""
import hashlib
import json
import os
from typing import NamedTuple

RECORD_BYTES = 512


class Position(NamedTuple):
    """What was applied: up to which entry, the stream's digest there, and the number of the version after it."""
    place: int
    chain: str
    version: int


def digest(text):
    return hashlib.sha256(text.encode()).hexdigest()


class PositionFile:
    """A record is one write of less than a disk's sector. One that isn't whole has another digest, and counts as none."""

    def __init__(self, path):
        self.path = path
        self.file = os.open(path, os.O_RDWR | os.O_CREAT | os.O_CLOEXEC, 0o600)

    def read(self):
        """The record's position and rules; None where there is none."""
        record = os.pread(self.file, RECORD_BYTES, 0).decode(errors="replace")
        told, _, text = record.rstrip().partition(" ")
        if not text or told != digest(text):
            return None
        fields = json.loads(text)
        return Position(*fields["position"]), fields["rules"]

    def write(self, position, rules):
        text = json.dumps({"position": position, "rules": rules}, separators=(",", ":"))
        record = f"{digest(text)} {text}".ljust(RECORD_BYTES - 1) + "\n"
        os.pwrite(self.file, record.encode(), 0)

    def close(self):
        os.close(self.file)
