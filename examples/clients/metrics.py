#!/usr/bin/env python3
"""Prints how a hub is doing in the text format of Prometheus: metrics.py PORT | PATH

The hub is served with `--read`, on 127.0.0.1 at PORT or over the socket file at PATH. To ask is a session of its own, which is among those
that are counted. It ends with 1, and a line on standard error, where the hub can't be asked or has no such line."""
import argparse
import socket
import sys

# The name of a number of `stats`, that of its metric, its type, and what it says.
METRICS = [
    ("versions", "hub_versions_total", "counter", "Number of the latest version, one for each accepted change."),
    ("characters", "hub_characters", "gauge", "Visible characters of the text."),
    ("bytes", "hub_text_bytes", "gauge", "Bytes of the visible text."),
    ("removed", "hub_removed_characters", "gauge", "Characters that were inserted and aren't visible."),
    ("marks", "hub_mark_operations_total", "counter", "Accepted operations that add or remove a mark."),
    ("subscribers", "hub_subscribers", "gauge", "Subscribers that are open."),
    ("subscribed", "hub_subscribed_total", "counter", "Subscribers that were ever added, closed ones too."),
    ("sessions", "hub_sessions", "gauge", "Sessions that there are, this one too."),
    ("lag", "hub_slowest_subscriber_lag_versions", "gauge", "Versions that the slowest open subscriber was not sent whole."),
]
LIMITS = ["changes", "characters", "marks", "subscribers"]
USED = ("hub_limit_used_ratio", "gauge", "How much of a limit of the hub is used, from 0 to 1.")


def connected(place):
    """A connection to a port of 127.0.0.1, or over a socket file."""
    if place.isdecimal():
        return socket.create_connection(("127.0.0.1", int(place)), timeout=10)
    connection = socket.socket(socket.AF_UNIX)
    connection.settimeout(10)
    connection.connect(place)
    return connection


def stats_of(place):
    """The names and the numbers that the hub tells."""
    with connected(place) as connection, connection.makefile("rw", newline="\n") as lines:
        print("stats", file=lines, flush=True)
        words = lines.readline().split()
    if words[:2] != ["ok", "stats"]:
        sys.exit(f"the hub answers: {' '.join(words) or 'nothing'}" + ("; it must be served with --read" if words[1:2] == ["60"] else ""))
    return {name: int(number) for name, number in zip(words[2::2], words[3::2])}


def printed(stats):
    """The lines of the metrics; a number that an older or a newer hub doesn't tell is left out."""
    for name, metric, kind, said in METRICS:
        if name in stats:
            yield from (f"# HELP {metric} {said}", f"# TYPE {metric} {kind}", f"{metric} {stats[name]}")
    metric, kind, said = USED
    yield from (f"# HELP {metric} {said}", f"# TYPE {metric} {kind}")
    for limit in LIMITS:
        if f"{limit}-used" in stats:
            yield f'{metric}{{limit="{limit}"}} {stats[f"{limit}-used"] / 1000}'


def main():
    parser = argparse.ArgumentParser(description=__doc__, formatter_class=argparse.RawDescriptionHelpFormatter)
    parser.add_argument("place", metavar="PORT|PATH", help="the port or the socket file of the hub")
    place = parser.parse_args().place
    try:
        stats = stats_of(place)
    except (OSError, ValueError) as error:
        sys.exit(f"the hub can't be asked: {error}")
    print("\n".join(printed(stats)))


if __name__ == "__main__":
    main()
