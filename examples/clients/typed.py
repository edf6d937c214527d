#!/usr/bin/env python3
"""Prints the changes that type a text: typed.py NODE COUNTER PARENT TEXT

    typed.py 1 1 - 'Lunch at 12' | ask.sh 4711

NODE is the peer, COUNTER that of the first operation, PARENT the character after which the text comes, as 2@1, or - for the beginning. A
change has at most 256 operations, each character counted, so a longer text is several changes, each typed behind the one before it. The
hub refuses the characters U+0000 and the surrogates, and more that is out of its limits."""
import sys

MOST = 256

if sys.argv[1:] == ["--help"]:
    print(__doc__)
    sys.exit()
if len(sys.argv) != 5 or not (sys.argv[1].isdecimal() and sys.argv[2].isdecimal()):
    sys.exit(__doc__)
node, counter, parent, text = int(sys.argv[1]), int(sys.argv[2]), sys.argv[3], sys.argv[4]
codes = [f"{ord(character):x}" for character in text]
for first in range(0, len(codes), MOST):
    run = codes[first:first + MOST]
    if len(run) == 1:
        print(f"change {node} 1")
        print(f"i {counter}@{node} {parent} {run[0]}")
    else:
        print(f"change2 {node} 1")
        print(" ".join([f"r {counter}@{node} {parent} {len(run)}"] + run))
    counter += len(run)
    parent = f"{counter - 1}@{node}"
