#!/usr/bin/env python3
"""Runs the rows of peer_texts.c and those of peer_texts.mjs in turn, and prints the least of each with the ratio: peers.py OURS."""

import os
import subprocess
import sys

RUNS = 3
ROWS = {
    "appends": "4,096 appends of 8 from nothing, accepted",
    "appends_followed": "  each with its version",
    "at_the_front": "4,096 changes of 8 at the front, accepted",
    "at_the_front_followed": "  each with its version",
    "an_append": "an append of 8 at 28,672 characters, with its version",
    "a_removal": "8 characters removed, with its version",
    "a_mark": "one mark more of up to 512, with its version",
    "a_mark_of_200": "one mark more over 200 characters, under 3,840 marks, with its version",
    "a_mark_over_all": "  over the whole text",
    "a_paste": "32,768 characters pasted as runs, accepted with their versions",
    "version_plain": "the version after a key, without marks",
    "version_short_marks": "  with 4,096 marks up to 200 characters",
    "version_long_marks": "  with 4,096 marks up to 4,000 characters",
    "version_longest_marks": "  with 4,096 marks up to half the text",
}


def microseconds(words):
    return float(subprocess.run(words, stdout=subprocess.PIPE, check=True).stdout)


def main():
    ours = sys.argv[1]
    script = os.path.join(os.path.dirname(os.path.abspath(__file__)), "peer_texts.mjs")
    for row, what in ROWS.items():
        least = [float("inf"), float("inf")]
        for _ in range(RUNS):
            least[0] = min(least[0], microseconds([ours, row]))
            least[1] = min(least[1], microseconds(["node", "--single-threaded", script, row]))
        print(f"{what:<64} {least[0]:12.2f} {least[1]:12.2f} us  {least[0] / least[1]:8.2f}", flush=True)


if __name__ == "__main__":
    main()
