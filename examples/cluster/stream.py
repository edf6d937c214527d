"""The log that hubs of one document follow: a Redis stream, whose n-th entry has the id 0-n.

Each entry has a change's text, the gateway that appended it with a number of that gateway's own, and `chain`, a digest of
all texts up to it, so that two streams with an equal chain somewhere are equal up to there. Appending is a script, which
Redis runs whole or not at all: an entry that is sent twice is there once. What the stream lost is appended again from a hub,
behind the chain that the hub had there: where another gateway has done so, the chain is another one, and nothing is appended."""
import asyncio
import contextlib
import hashlib
import re
import secrets
import sys
from typing import NamedTuple

try:
    import redis
    from redis.asyncio.connection import Connection, SSLConnection, parse_url
except ModuleNotFoundError as lacking:
    sys.exit(f"there is no Python module {lacking.name}: Debian has it in python3-redis")

from lines import is_change

# Errors of Redis or of the way to it: what was under way may have been done or not.
FAILURES = (redis.RedisError, OSError)
# Seconds for a connection and for a reply; in milliseconds how long the primary waits for entries and for its replicas.
CONNECT_SECONDS, REPLY_SECONDS = 2, 5
BLOCK_MILLIS, WAIT_MILLIS = 1000, 2000
# For how many seconds the number that a gateway appended last is kept: longer than a connection's bytes can be on their way.
KEPT_SECONDS = 24 * 3600
AT_ONCE = 256

# The gateway of entries that a hub had and the stream didn't; their number is 0.
RESTORED = "store"

LAST_CHAIN = """
local top = redis.call('XREVRANGE', KEYS[1], '+', '-', 'COUNT', 1)[1]
local chain = redis.call('HGET', KEYS[2], 'origin')
for at = 1, top and #top[2] or 0, 2 do
  if top[2][at] == 'chain' then chain = top[2][at + 1] end
end
"""

APPEND = """
-- KEYS: the stream, its rules, the last number of this gateway. ARGV: the gateway, then numbers, each with a text.
local last = tonumber(redis.call('GET', KEYS[3]) or '0')
""" + LAST_CHAIN + """
for at = 2, #ARGV, 2 do
  local number = tonumber(ARGV[at])
  if number > last then
    chain = redis.sha1hex(chain .. ' ' .. ARGV[at + 1])
    redis.call('XADD', KEYS[1], '0-*', 'by', ARGV[1], 'number', ARGV[at], 'chain', chain, 'text', ARGV[at + 1])
    redis.call('SET', KEYS[3], ARGV[at], 'EX', KEPT)
    last = number
  end
end
return 1
""".replace("KEPT", str(KEPT_SECONDS))

RESTORE = """
-- KEYS: the stream, its rules. ARGV: the chain of its last entry as it must be, who appends, then texts.
""" + LAST_CHAIN + """
if chain ~= ARGV[1] then return 0 end
for at = 3, #ARGV do
  chain = redis.sha1hex(chain .. ' ' .. ARGV[at])
  redis.call('XADD', KEYS[1], '0-*', 'by', ARGV[2], 'number', 0, 'chain', chain, 'text', ARGV[at])
end
return 1
"""

RULES = """
-- KEYS: the rules, the stream. ARGV: whether they may be made, and then what they are.
if ARGV[1] == '1' and redis.call('EXISTS', KEYS[1], KEYS[2]) == 0 then
  redis.call('HSET', KEYS[1], 'origin', ARGV[2], 'id', ARGV[3], 'jump', ARGV[4], 'run', ARGV[5])
end
return redis.call('HMGET', KEYS[1], 'origin', 'id', 'jump')
"""

RENAME = """
-- KEYS: the rules. ARGV: the id that hubs of the document have shown, a new one.
if redis.call('HGET', KEYS[1], 'id') == ARGV[1] then
  redis.call('HSET', KEYS[1], 'id', ARGV[2])
end
return redis.call('HGET', KEYS[1], 'id')
"""


class NotReady(Exception):
    """There is no primary now that can be followed; another may be, or this one later."""


class WrongEntry(NotReady):
    """The stream has an entry that no gateway can have appended, or lacks one. It isn't followed until it is repaired."""

    def __init__(self, reason):
        super().__init__(f"{reason}; repair.py makes it whole")
        self.reason = reason


class Rules(NamedTuple):
    """What is the same for all hubs of a document: the stream's origin, the id that clients are shown, and `--counter-jump`."""
    origin: str
    id: str
    jump: str


class Entry(NamedTuple):
    place: int
    by: str
    number: int
    chain: str
    text: bytes


def new_id():
    return secrets.token_hex(16)


def next_chain(chain, text):
    return hashlib.sha1(chain.encode() + b" " + text).hexdigest()


def not_a_gateways(name):
    return f"entry {name.decode()} of the stream isn't a gateway's"


def entry_of(found):
    """An entry by what Redis gives: its id and its words."""
    name, words = found
    fields = dict(zip(words[::2], words[1::2]))
    place = re.fullmatch(rb"0-([1-9][0-9]*)", name)
    if not place:
        raise WrongEntry(f"{not_a_gateways(name)}: its id isn't 0-n")
    if lacking := [word.decode() for word in (b"by", b"number", b"chain", b"text") if word not in fields]:
        raise WrongEntry(f"{not_a_gateways(name)}: it has no {' and no '.join(lacking)}")
    if not fields[b"number"].isdigit() or not (fields[b"by"] + fields[b"chain"]).isascii():
        raise WrongEntry(f"{not_a_gateways(name)}: it has no gateway, number or digest")
    if not is_change(fields[b"text"]):
        raise WrongEntry(f"{not_a_gateways(name)}: its text isn't one change")
    return Entry(int(place[1]), fields[b"by"].decode(), int(fields[b"number"]), fields[b"chain"].decode(), fields[b"text"])


class Link:
    """One connection to Redis. What fails once isn't tried again by itself: whoever uses the link then looks for a primary anew."""

    def __init__(self, url):
        words = parse_url(url)
        kind = words.pop("connection_class", Connection)
        self.connection = kind(**words, socket_timeout=REPLY_SECONDS, socket_connect_timeout=CONNECT_SECONDS)

    async def open(self):
        await self.connection.connect()
        return self

    async def ask(self, *words):
        return (await self.ask_all([words]))[0]

    async def ask_all(self, requests):
        await self.connection.send_packed_command(self.connection.pack_commands(requests), check_health=False)
        return [await self.connection.read_response() for _ in requests]

    async def close(self):
        try:
            await self.connection.disconnect()
        except FAILURES:
            pass


class Primaries:
    """The addresses of Redis servers, of which one is the primary."""

    def __init__(self, urls):
        self.urls, self.first = urls, 0

    async def find(self):
        """Two links to the first server from the last good one on that says it is a primary."""
        for turn in range(len(self.urls)):
            at = (self.first + turn) % len(self.urls)
            links = [Link(self.urls[at]), Link(self.urls[at])]
            try:
                for link in links:
                    await link.open()
                if (await asyncio.wait_for(links[0].ask("ROLE"), CONNECT_SECONDS))[0] == b"master":
                    self.first = at
                    return links
            except FAILURES:
                pass
            for link in links:
                await link.close()
        raise NotReady("no primary is reached")

    def pass_over(self):
        """The next search begins behind the server that was found last."""
        self.first = (self.first + 1) % len(self.urls)


async def what_may_be_lost(url):
    """How a server's settings let it lose changes that it has taken; None where they don't."""
    link = Link(url)
    try:
        await link.open()
        found = await link.ask("CONFIG", "GET", "append*")
    except redis.ResponseError as error:
        return f"it doesn't tell its settings ({error}), so it isn't known what a power cut may take from it"
    finally:
        await link.close()
    settings = dict(zip(found[::2], found[1::2]))
    if settings[b"appendonly"] != b"yes":
        return "appendonly no: when it ends, what came after its last snapshot is lost"
    if settings[b"appendfsync"] != b"always":
        seconds = "its last second or two" if settings[b"appendfsync"] == b"everysec" else "what wasn't written by then, often 30 seconds"
        return f"appendfsync {settings[b'appendfsync'].decode()}: a power cut may take the changes of {seconds}"
    return None


class Stream:
    """A document's stream by the links to a primary: one for reading and one for appending."""

    def __init__(self, name, links, replicas):
        self.key, self.replicas = f"hub:{name}", replicas
        self.reading, self.appending = links

    async def rules(self, may_make, wanted, run):
        """The document's rules: where there are none the wanted ones, if they may be made. None where there are none."""
        keys = (f"{self.key}:rules", self.key)
        found = await self.appending.ask("EVAL", RULES, 2, *keys, int(may_make), *wanted, run)
        return None if found[0] is None else Rules(*(word.decode() for word in found))

    async def run(self):
        """What the server calls itself from its start to its end; nothing where it doesn't tell."""
        with contextlib.suppress(redis.ResponseError):
            if found := re.search(rb"^run_id:(\w+)", await self.appending.ask("INFO", "server"), re.MULTILINE):
                return found[1].decode()
        return ""

    async def is_begun(self, run):
        """Whether changes of clients were appended in this run of the server: else it may have lost what gateways have."""
        return (await self.appending.ask("HGET", f"{self.key}:rules", "run") or b"").decode() == run

    async def begin(self, run):
        await self.appending.ask("HSET", f"{self.key}:rules", "run", run)

    async def rename(self, shown):
        """Gives the document another id for its clients, unless another gateway has done so."""
        return (await self.appending.ask("EVAL", RENAME, 1, f"{self.key}:rules", shown, new_id())).decode()

    async def append(self, by, changes):
        """Appends changes (numbers with texts, rising) but for those that were appended before."""
        words = [word for number, text in changes for word in (number, text)]
        keys = (self.key, f"{self.key}:rules", f"{self.key}:last:{by}")
        await self.appending.ask("EVAL", APPEND, 3, *keys, by, *words)

    async def restore(self, chain, texts):
        """Appends changes if the stream's last entry has this chain; whether it has."""
        return await self.appending.ask("EVAL", RESTORE, 2, self.key, f"{self.key}:rules", chain, RESTORED, *texts)

    async def last(self):
        """How many entries there are."""
        found = await self.appending.ask("XREVRANGE", self.key, "+", "-", "COUNT", 1)
        return entry_of(found[0]).place if found else 0

    async def entries(self, first, count):
        """Up to `count` entries from one on."""
        found = await self.reading.ask("XRANGE", self.key, f"0-{first}", "+", "COUNT", count)
        return [entry_of(each) for each in found]

    async def next_entries(self, gateway, place, version):
        """Tells how far this gateway is, and gives the entries behind that, once there are any or some time has passed."""
        words = ("XREAD", "COUNT", AT_ONCE, "BLOCK", BLOCK_MILLIS, "STREAMS", self.key, f"0-{place}")
        _, found = await self.reading.ask_all([self.told(gateway, place, version), words])
        return [entry_of(each) for each in found[0][1]] if found else []

    def told(self, gateway, place, version):
        return "HSET", f"{self.key}:at", gateway, f"{place} {version}"

    async def settle(self, gateway, place, version):
        """Returns once as many replicas as are asked for have all that was read by now. `WAIT` is for what a connection has
        written, so something is written here. A primary whose replicas have gone to another one doesn't get past this."""
        if not self.replicas:
            return
        _, reached = await self.reading.ask_all([self.told(gateway, place, version), ("WAIT", self.replicas, WAIT_MILLIS)])
        if reached < self.replicas:
            raise NotReady(f"{reached} replicas have the last entries, {self.replicas} are asked for")

    async def close(self):
        for link in (self.reading, self.appending):
            await link.close()
