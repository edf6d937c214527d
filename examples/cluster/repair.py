#!/usr/bin/python3
"""Finds what is wrong in a document's stream, and makes it whole: repair.py DOCUMENT [--redis URL] [--write]

A gateway follows a stream only as far as its entries are a gateway's: one after another without a gap, each with one change and
the digest of all up to it. Behind the first that isn't, nothing is written any more, also once that one is deleted. This
program prints each fault, one a line. With `--write` it makes the stream anew of all entries that have one change, in their
order, numbered and with their digests, and keeps the stream as it was under the key that it prints. No hub has an entry that is
left out, so stores stay as they are, and gateways that run go on by themselves. What a deleted entry had is gone from the
stream: a gateway whose store has its change behind others moves that store aside.

Exit status: 0 where the stream is whole or was made so, 1 where it isn't, 3 where Redis isn't reached.
"""
import argparse
import asyncio
import sys
import time

from stream import FAILURES, NotReady, Primaries, WrongEntry, entry_of, next_chain, not_a_gateways

REPAIR = """
-- KEYS: the stream, its rules, a key for the stream as it was. ARGV: how many entries it has, its last one, those left out.
local found = redis.call('XRANGE', KEYS[1], '-', '+')
if #found ~= tonumber(ARGV[1]) or (#found > 0 and found[#found][1] ~= ARGV[2]) then return 0 end
local wrong = {}
for at = 3, #ARGV do wrong[ARGV[at]] = true end
local chain, place = redis.call('HGET', KEYS[2], 'origin'), 0
redis.call('RENAME', KEYS[1], KEYS[3])
for _, entry in ipairs(found) do
  if not wrong[entry[1]] then
    local has = {}
    for at = 1, #entry[2], 2 do has[entry[2][at]] = entry[2][at + 1] end
    chain, place = redis.sha1hex(chain .. ' ' .. has.text), place + 1
    redis.call('XADD', KEYS[1], '0-' .. place, 'by', has.by, 'number', has.number, 'chain', chain, 'text', has.text)
  end
end
return 1
"""


def fields_of(words):
    return dict(zip(words[::2], words[1::2]))


def gone(first, last):
    return f"entry {first} is gone from the stream" if first == last else f"entries {first} to {last} are gone from the stream"


def faults(found, origin):
    """The ids of entries without a change, which are left out, and a line for each fault. A chain goes on from what the entry
    before tells, as it did for the gateway that appended it; behind a gap nothing tells it."""
    wrong, told, place, chain = [], [], 0, origin
    for name, words in found:
        try:
            entry = entry_of((name, words))
            if entry.place > place + 1:
                told.append(gone(place + 1, entry.place - 1))
            elif entry.chain != next_chain(chain, entry.text):
                told.append(f"{not_a_gateways(name)}: its chain isn't that of the entries up to it")
        except WrongEntry as fault:
            wrong.append(name)
            told.append(fault.reason)
        place = int(name.partition(b"-")[2]) if name.startswith(b"0-") else place
        chain = fields_of(words).get(b"chain", origin.encode()).decode(errors="replace")
    return wrong, told


async def gone_at_end(link, key, last):
    """A line where entries behind the last one were deleted: the next one would have a number behind theirs."""
    if not await link.ask("EXISTS", key):
        return []
    newest = fields_of(await link.ask("XINFO", "STREAM", key))[b"last-generated-id"]
    if newest == last:
        return []
    is_numbered = newest.startswith(b"0-")
    return [gone(int(last[2:]) + 1, int(newest[2:])) if is_numbered else f"entry {newest.decode()} is gone from the stream"]


async def repair(link, key, is_written):
    origin = await link.ask("HGET", f"{key}:rules", "origin")
    if origin is None:
        return f"there is no stream {key} with rules", False
    found = await link.ask("XRANGE", key, "-", "+")
    wrong, told = faults(found, origin.decode())
    last = found[-1][0] if found else b"0-0"
    if not wrong:
        told += await gone_at_end(link, key, last)
    print("".join(f"{line}\n" for line in told), end="")
    right = len(found) - len(wrong)
    if not told:
        return f"the stream is whole: {right} entries", True
    if not is_written:
        return f"{right} entries would be kept, {len(wrong)} left out; nothing was changed (--write does it)", False
    before = f"{key}:before-{time.time_ns()}"
    if not await link.ask("EVAL", REPAIR, 3, key, f"{key}:rules", before, len(found), last, *wrong):
        return "the stream has grown meanwhile; nothing was changed", False
    return f"{right} entries kept, {len(wrong)} left out; the stream as it was: {before}", True


async def run(options):
    links = await Primaries(options.redis).find()
    try:
        said, is_whole = await repair(links[0], f"hub:{options.document}", options.write)
    finally:
        for link in links:
            await link.close()
    print(said)
    return 0 if is_whole else 1


def main():
    parser = argparse.ArgumentParser(description=__doc__, formatter_class=argparse.RawDescriptionHelpFormatter)
    parser.add_argument("document")
    parser.add_argument("--redis", action="append", help="redis://HOST:PORT, for each server that is the primary or may be it")
    parser.add_argument("--write", action="store_true", help="make the stream whole")
    options = parser.parse_args()
    options.redis = options.redis or ["redis://127.0.0.1:6379"]
    try:
        return asyncio.run(run(options))
    except (NotReady, *FAILURES) as error:
        print(f"repair: {error}", file=sys.stderr)
        return 3


if __name__ == "__main__":
    sys.exit(main())
