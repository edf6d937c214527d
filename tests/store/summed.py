"""Databases with SQLite's sums on their pages, as its extension cksumvfs writes them."""

import pathlib
import struct
import subprocess

RESERVED = b"\x08\x40\x20\x20"


def new_with_room(path):
    """An empty database whose pages have room for a sum. sqlite3 alone can say so."""
    subprocess.run(["sqlite3", path, ".filectrl reserve_bytes 8", "vacuum"], check=True, stdout=subprocess.DEVNULL)


def write_sums(path):
    """Writes the sum of each page behind it."""
    data = bytearray(pathlib.Path(path).read_bytes())
    size = int.from_bytes(data[16:18], "big")
    assert bytes(data[20:24]) == RESERVED, f"bytes 20 to 23 are {data[20:24].hex()}"
    for start in range(0, len(data), size):
        first = second = 0
        for one, two in struct.iter_unpack("<II", data[start : start + size - 8]):
            first = (first + one + second) & 0xFFFFFFFF
            second = (second + two + first) & 0xFFFFFFFF
        struct.pack_into("<II", data, start + size - 8, first, second)
    pathlib.Path(path).write_bytes(data)
