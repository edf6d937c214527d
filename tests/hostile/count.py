#!/usr/bin/env python3
"""Counts what inputs cost that could make a hub slow or fat, and fails where one costs more than it may: count.py HUB [--jobs N] [ROWS..]

HUB is the built program. Instructions and bytes of the heap are counted by valgrind (Debian's), so other work on the machine changes no figure;
nothing passes or fails by a time. Up to N rows are counted at once, two without --jobs. Exit status: 0 where all aims are met, 1 where one isn't."""

import argparse
import pathlib
import sys
from concurrent.futures import ThreadPoolExecutor

sys.path.insert(0, str(pathlib.Path(__file__).resolve().parent.parent.parent / "bench"))
from counted import install  # noqa: E402
import hostile_counts  # noqa: E402
import revival_counts  # noqa: E402
import wide_counts  # noqa: E402
from hostile_counts import Figure, heading  # noqa: E402

ROWS = hostile_counts.ROWS | wide_counts.ROWS | revival_counts.ROWS


def main():
    parser = argparse.ArgumentParser(description=__doc__, formatter_class=argparse.RawDescriptionHelpFormatter)
    parser.add_argument("hub", metavar="HUB")
    parser.add_argument("rows", metavar="ROWS", nargs="*", help=f"of {', '.join(ROWS)}; none: all")
    parser.add_argument("--jobs", type=int, default=2)
    arguments = parser.parse_intermixed_args()
    install()
    unknown = [name for name in arguments.rows if name not in ROWS]
    if unknown:
        parser.error(f"no row {unknown[0]}")
    missed, counted = 0, 0
    print(heading(), flush=True)
    with ThreadPoolExecutor(arguments.jobs) as pool:
        for figures in pool.map(lambda name: list(ROWS[name](arguments.hub)), arguments.rows or ROWS):
            for figure in figures:
                print(figure.line(), flush=True)
                counted += isinstance(figure, Figure)
                missed += not figure.is_met()
    print(f"{counted - missed} aims met, {missed} missed")
    sys.exit(1 if missed else 0)


if __name__ == "__main__":
    main()
