#!/usr/bin/env python3
"""Prints all accepted changes of a hub, in their order: changes.py PORT | PATH [--from N]

The hub is served with `--read`, on 127.0.0.1 at PORT or over the socket file at PATH. What it prints is a copy of the document while the
hub runs: `hub spans` and `hub replay` read it. With --from only the changes after version N are printed. It ends with 1, and a line on
standard error, where the hub can't be asked, and prints nothing of a change that it was not told whole."""
import argparse
import socket
import sys

# How many changes are asked for at once, the most that a hub gives.
AT_ONCE = 64


def connected(place):
    """A connection to a port of 127.0.0.1, or over a socket file."""
    if place.isdecimal():
        return socket.create_connection(("127.0.0.1", int(place)), timeout=60)
    connection = socket.socket(socket.AF_UNIX)
    connection.settimeout(60)
    connection.connect(place)
    return connection


def ask(lines, request):
    """Sends a request, and gives the lines of its reply, of which the last begins with `ok` or `no`."""
    print(request, file=lines, flush=True)
    reply = []
    while not reply or reply[-1].split()[0] not in ("ok", "no"):
        line = lines.readline()
        if not line.endswith("\n"):
            sys.exit("the hub is gone")
        reply.append(line.rstrip("\n"))
    if reply[-1].startswith("no"):
        sys.exit(f"the hub answers: {reply[-1]}" + ("; it must be served with --read" if reply[-1].startswith("no 60 ") else ""))
    return reply


def main():
    parser = argparse.ArgumentParser(description=__doc__, formatter_class=argparse.RawDescriptionHelpFormatter)
    parser.add_argument("place", metavar="PORT|PATH", help="the port or the socket file of the hub")
    parser.add_argument("--from", dest="first", type=int, default=0, metavar="N", help="the version to begin behind; 0 if left out")
    arguments = parser.parse_args()
    try:
        with connected(arguments.place) as connection, connection.makefile("rw", newline="\n", encoding="ascii") as lines:
            done = arguments.first
            latest = int(ask(lines, "latest")[-1].split()[2])
            while done < latest:
                *texts, last = ask(lines, f"changes {done} {min(AT_ONCE, latest - done)}")
                print("\n".join(texts), flush=True)
                done += int(last.split()[2])
    except OSError as error:
        sys.exit(f"the hub can't be asked: {error}")


main()
