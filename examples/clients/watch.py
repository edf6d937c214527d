#!/usr/bin/env python3
"""Subscribes a filter to a hub, and prints its items as they come: watch.py PORT FILTER.hex [--from N]

It begins with the hub's latest version, or with version N. Where the connection is lost it connects anew for half a minute, subscribes
from the last version that it has whole, and goes on behind the last item that it printed: each item is printed once. Once a hub with --read
is full, and all items are printed, it ends."""
import argparse
import itertools
import re
import signal
import socket
import sys
import time

parser = argparse.ArgumentParser(description=__doc__, formatter_class=argparse.RawDescriptionHelpFormatter)
parser.add_argument("port", type=int)
parser.add_argument("filter", help="a file with the program in hexadecimal")
parser.add_argument("--from", dest="first", type=int, help="the first version")
arguments = parser.parse_args()
signal.signal(signal.SIGINT, signal.SIG_DFL)
try:
    program = open(arguments.filter).read().strip()
except (OSError, UnicodeDecodeError) as error:
    sys.exit(f"{arguments.filter} can't be read: {error}")
if not re.fullmatch("([0-9a-fA-F]{2})+", program):
    sys.exit(f"{arguments.filter} isn't one line of hexadecimal digits, as `hub asm | tr -d '\\n'` and filters/compile.sh print")
# What a refusal of `sub` means; `hub check` prints the others.
MEANINGS = {51: "the hub takes no subscriber more: closed ones count too, or too many are open", 55: "the hub doesn't have that version yet",
            60: "what listens there isn't a hub that takes this request", 69: "as many sessions are there as the hub allows: try again later"}


def items_from(lines, first):
    """Subscribes from a version, or from the latest one, and gives the items, until the hub says that no more come."""

    def line():
        text = lines.readline()
        if not text.endswith("\n"):
            raise ConnectionError("the session has ended")
        if not re.match("(ok|no|hit|end) ", text):
            sys.exit(f"what listens there is no hub: it answers `{text.strip()[:60]}`")
        return text.strip()

    def ask(request):
        """Sends a request, and gives the lines of its reply, of which the last begins with `ok` or `no`."""
        print(request, file=lines, flush=True)
        reply = [line()]
        while reply[-1].split()[0] not in ("ok", "no"):
            reply.append(line())
        return reply

    subscribed = ask(f"sub 64 {program}" + ("" if first is None else f" from {first}"))[0]
    print(subscribed, flush=True)
    if subscribed.startswith("no"):
        number = int(subscribed.split()[1])
        sys.exit(MEANINGS.get(number, f"the hub refuses the program: `hub check --explain < {arguments.filter}` says why"))
    while True:
        *items, last = ask(f"pull {subscribed.split()[2]} 64")
        yield from items
        if last == "ok items 0 full":
            return
        time.sleep(0.2)


# The version to begin with, how many items from it on were printed, and how many of the version that has no end yet.
first, printed, part = arguments.first, 0, 0
tries = 0
while tries < 30:
    try:
        with socket.create_connection(("127.0.0.1", arguments.port)) as connection:
            tries = 0
            for item in itertools.islice(items_from(connection.makefile("rw", newline="\n"), first), printed, None):
                print(item, flush=True)
                kind, version = item.split()[:2]
                first = int(version) if first is None else first
                printed, part = printed + 1, part + 1
                if kind == "end":
                    first, printed, part = int(version), part, 0
        print("the hub is full, so that no item comes any more", file=sys.stderr)
        sys.exit()
    except OSError as error:
        if tries == 0:
            print(f"no session at port {arguments.port} ({error}): trying again for half a minute", file=sys.stderr, flush=True)
        tries += 1
        time.sleep(1)
sys.exit(f"no hub answers at port {arguments.port}")
