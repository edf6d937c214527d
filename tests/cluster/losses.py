"""What must not be lost: parts of `cases`, about what Redis loses, wrong entries of a stream, folders and foreign clients."""
import asyncio
import concurrent.futures
import http.client
import random
import re
import signal
import socket
import subprocess
import sys
import tempfile

import hosts
from servers import Place, change, expect, told

sys.path.insert(0, str(hosts.GATEWAY.parent))
import stream  # noqa: E402

REPAIR = hosts.GATEWAY.parent / "repair.py"
PARTS = ["filled_twice", "power_cut", "power_cut_of_all", "unequal", "at_once", "first_come", "power_cuts", "promoted", "settings",
         "one_folder", "wrong_entries", "deleted_entries", "foreign"]
APPEND_ONLY = "--appendonly", "yes"


async def at(server, name, ask):
    """What is asked of a document's stream."""
    log = stream.Stream(name, await stream.Primaries([server.url]).find(), 0)
    try:
        return await ask(log)
    finally:
        await log.close()


class Losses(Place):
    def store(self, changes):
        """The files of a store that a hub made of changes without a gateway, by their names."""
        with tempfile.TemporaryDirectory(dir=self.folder) as folder:
            words = [self.hub, "replay", "--store", f"{folder}/text.db"]
            subprocess.run(words, input="".join(changes).encode(), stdout=subprocess.DEVNULL, check=True)
            return {path.name: path.read_bytes() for path in hosts.pathlib.Path(folder).iterdir()}

    def filled_twice(self):
        """A stream that is gone is filled, and again when it is gone again: by what remains of the first filling, too."""
        server = self.redis()
        filling, beside = self.gateway([server], "--fill"), self.gateway([server])
        sent = [change(1, counter) for counter in range(1, 6)]
        filling.say("".join(sent))
        for count, words in enumerate((("FLUSHALL",), ("DEL", "hub:text", "hub:text:rules"), ("DEL", "hub:text"), ("FLUSHALL",)), 1):
            expect("the other gateway", beside.changes(), told(*sent))
            server.ask(*words)
            hosts.wait_for("the stream", lambda: server.ask("XLEN", "hub:text") == str(len(sent)))
            expect(f"entries of filling {count}", server.texts(), sent)
            sent.append(change(2, 10 + count))
            expect(f"a change after filling {count}", beside.say(sent[-1]), f"ok version {len(sent)}\n")
        expect("both", (filling.changes(), beside.changes()), (told(*sent), told(*sent)))
        expect("stores that were put aside", (filling.aside(), beside.aside()), (0, 0))
        return "a stream filled 4 times"

    # A Redis server whose file lost its end.

    def written(self, server, gateways):
        """Writes to both: six changes are accepted, and two refused, each again what was there. The stream has seven entries, of
        which four are safe, the third refused. Gives the changes, the file's size with four entries, and the records then."""
        sent = [change(1, counter) for counter in range(1, 7)]
        expect("the first", gateways[0].say(sent[0]), "ok version 1\n")
        records = [(gateway.folder / "text.position").read_bytes() for gateway in gateways[:1]]
        expect("the next", gateways[0].say(sent[1] + sent[0] + sent[2]), "ok version 2\nno 46 StaleCounter line 2\nok version 3\n")
        size = server.size()
        expect("those that are lost", gateways[-1].say(sent[3] + sent[1] + sent[4] + sent[5]),
               "ok version 4\nno 46 StaleCounter line 2\nok version 5\nok version 6\n")
        for gateway in gateways:
            expect("a gateway", gateway.changes(), told(*sent))
        return sent, size, records

    def whole(self, server, gateways, sent):
        """What must be so behind `written` and a power cut: each change once, behind the four entries, and no store is aside."""
        for gateway in gateways:
            gateway.say("latest\n")
        hosts.wait_for("the stream", lambda: server.ask("XLEN", "hub:text") == "7")
        expect("entries", server.texts(), [*sent[:2], sent[0], *sent[2:]])
        for gateway in gateways:
            expect("a gateway behind a power cut", gateway.changes(), told(*sent))
        for number, gateway in enumerate(gateways, 1):
            expect("one change more", gateway.say(change(10 + number, 20)), f"ok version {6 + number}\n")
        more = [change(10 + number, 20) for number in range(1, len(gateways) + 1)]
        for gateway in gateways:
            expect("a gateway at the end", gateway.changes(), told(*sent, *more))
            expect("stores that were put aside", gateway.aside(), 0)

    def power_cut(self):
        """Redis loses the end of its file, and half an entry stands there: both gateways go on over their hubs."""
        server = self.redis(None, *APPEND_ONLY)
        gateways = [self.gateway([server]) for _ in range(2)]
        sent, size, _ = self.written(server, gateways)
        shown = gateways[0].say("hub\n")
        server.lose(size + 40)
        self.whole(server, gateways, sent)
        expect("the document's id", [gateway.say("hub\n") for gateway in gateways], [shown, shown])
        return "4 entries kept, 3 changes appended again"

    def power_cut_of_all(self):
        """The same where gateways were ended too: with their records, with older ones, and without."""
        for name in ("with records", "older records", "no records"):
            server = self.redis(None, *APPEND_ONLY)
            gateways = [self.gateway([server]) for _ in range(2)]
            sent, size, records = self.written(server, gateways)
            for gateway in gateways:
                gateway.kill()
                path = gateway.folder / "text.position"
                if name == "older records":
                    path.write_bytes(records[0])
                elif name == "no records":
                    path.unlink()
            server.lose(size + 40)
            again = [self.gateway([server], folder=gateway.folder) for gateway in gateways]
            self.whole(server, again, sent)
            self.end()
        return "3 states of records"

    def unequal(self):
        """One gateway was ended before the last changes: whichever comes back first, all changes are in the stream once."""
        for order in ((0, 1), (1, 0)):
            server = self.redis(None, *APPEND_ONLY)
            gateways = [self.gateway([server]) for _ in range(2)]
            sent, size, _ = self.written(server, gateways)
            gateways[1].kill()
            sent += [change(1, counter) for counter in (7, 8)]
            expect("two changes more", gateways[0].say("".join(sent[6:])), "ok version 7\nok version 8\n")
            gateways[0].kill()
            server.lose(size)
            again = {}
            for number in order:
                again[number] = self.gateway([server], folder=gateways[number].folder)
                expect("a gateway by itself", again[number].changes(), told(*sent[:6 if order[0] and len(again) == 1 else 8]))
            for gateway in again.values():
                expect("a gateway", gateway.changes(), told(*sent))
                expect("stores that were put aside", gateway.aside(), 0)
            expect("entries", server.texts(), [*sent[:2], sent[0], *sent[2:]])
            self.end()
        return "2 orders"

    def at_once(self):
        """Many append what is missing at once: it comes in once. A hub that is behind another's end appends nothing there."""
        server = self.redis()
        rules, texts = stream.Rules("origin", "id", ""), [change(1, counter).encode() for counter in range(1, 41)]

        async def append(log):
            await log.rules(True, rules, "")
            others = [stream.Stream("text", await stream.Primaries([server.url]).find(), 0) for _ in range(20)]
            done = await asyncio.gather(*(other.restore(rules.origin, texts) for other in others))
            done += await asyncio.gather(*(other.restore(rules.origin, texts[:number]) for number, other in enumerate(others, 1)))
            for other in others:
                await other.close()
            return sum(done), await log.entries(1, 100)
        done, entries = asyncio.run(at(server, "text", append))
        expect("who appended", done, 1)
        expect("entries", [(entry.place, entry.text) for entry in entries], list(enumerate(texts, 1)))
        chain = rules.origin
        for entry in entries:
            chain = stream.next_chain(chain, entry.text)
            expect("a chain", entry.chain, chain)
        # And by gateways: all of them start in the same moment.
        server = self.redis(None, *APPEND_ONLY)
        gateways = [self.gateway([server]) for _ in range(4)]
        sent, size, _ = self.written(server, gateways)
        for gateway in gateways:
            gateway.kill()
        server.lose(size)
        again = [self.gateway([server], folder=gateway.folder) for gateway in gateways]
        with concurrent.futures.ThreadPoolExecutor() as threads:
            found = list(threads.map(lambda gateway: gateway.changes(), again))
        expect("all gateways", found, [told(*sent)] * 4)
        self.whole(server, again, sent)
        return "20 at a stream, 4 gateways"

    def first_come(self):
        """Where Redis was started again, a client's change comes in only after other gateways had time: the rules tell so first."""
        server = self.redis(None, *APPEND_ONLY)
        gateway = self.gateway([server])
        sent, size, _ = self.written(server, [gateway])
        before = server.ask("HGET", "hub:text:rules", "run")
        server.lose(size)
        with concurrent.futures.ThreadPoolExecutor() as threads:
            answer = threads.submit(gateway.say, change(2, 9))
            while not answer.done():
                entries, run = server.ask("EVAL", "return {redis.call('XLEN', KEYS[1]), redis.call('HGET', KEYS[2], 'run')}",
                                          2, "hub:text", "hub:text:rules").split("\n")
                expect("a client's change before its time", run == before and int(entries) > len(sent) + 1, False)
            expect("the change", answer.result(), "ok version 7\n")
        expect("the run", server.ask("HGET", "hub:text:rules", "run") not in ("", before), True)
        expect("the text", gateway.changes(), told(*sent, change(2, 9)))
        return "a change behind those of stores"

    def power_cuts(self):
        """Redis loses its file's end again and again, anywhere: what was answered is in both hubs, in one order."""
        rng, server = random.Random(5), self.redis(None, *APPEND_ONLY)
        gateways = [self.gateway([server]) for _ in range(2)]
        expect("a change", gateways[0].say(change(1, 1)), "ok version 1\n")
        size, answered = server.size(), [change(1, 1)]
        for counter in range(2, 128, 18):
            for number, gateway in enumerate(gateways):
                changes = [change(node, counter + 9 * number + node) for node in rng.sample(range(1, 9), 3)]
                expect("changes", gateway.say("".join(2 * changes)).count("ok version "), 3)
                answered += changes
            # Each gateway has answered, so it follows this run of the server.
            found = [gateway.changes() for gateway in gateways]
            expect("both gateways", found[0], found[1])
            expect("what was answered", sorted(re.findall("change .*\n.*\n", found[0])), sorted(answered))
            expect("stores that were put aside", [gateway.aside() for gateway in gateways], [0, 0])
            if counter < 110:
                server.lose(rng.randint(size, server.size()))
        expect("entries that were accepted", [text for text in dict.fromkeys(server.texts())],
               re.findall("change .*\n.*\n", found[0]))
        return f"6 power cuts, {len(answered)} changes"

    def promoted(self):
        """A promotion that loses changes which a gateway's store has, before others come in: they are appended again."""
        primary = self.redis()
        replica = self.redis(primary)
        first, second = (self.gateway([primary, replica]) for _ in range(2))
        expect("a change", first.say(change(1, 1)), "ok version 1\n")
        hosts.wait_for("the replica", lambda: replica.ask("XLEN", "hub:text") == "1")
        expect("the second gateway", second.changes(), told(change(1, 1)))
        expect("promotion", replica.ask("REPLICAOF", "NO", "ONE"), "OK")
        sent = [change(1, counter) for counter in range(1, 6)]
        expect("changes", first.say("".join(sent[1:])), "".join(f"ok version {number}\n" for number in range(2, 6)))
        primary.kill()
        self.running.remove(primary)
        hosts.wait_for("the first gateway", lambda: replica.ask("XLEN", "hub:text") == "5")
        expect("both gateways", (first.changes(), second.changes()), (told(*sent), told(*sent)))
        expect("stores that were put aside", (first.aside(), second.aside()), (0, 0))
        return "4 changes appended to the new primary"

    # What a gateway asks for, and says, at its start.

    def settings(self):
        """What a gateway says of each of Redis's settings."""
        lasts = "its last second or two", "what wasn't written by then, often 30 seconds"
        for words, wanted in (
                (("no", "everysec"), "appendonly no: when it ends, what came after its last snapshot is lost"),
                (("yes", "everysec"), f"appendfsync everysec: a power cut may take the changes of {lasts[0]}"),
                (("yes", "no"), f"appendfsync no: a power cut may take the changes of {lasts[1]}"), (("yes", "always"), None)):
            server = self.redis(None, "--appendonly", words[0], "--appendfsync", words[1])
            expect(f"{words}", asyncio.run(stream.what_may_be_lost(server.url)), wanted)
        server = self.redis()
        server.ask("ACL", "SETUSER", "default", "-config")
        told_of = asyncio.run(stream.what_may_be_lost(server.url))
        expect("a server that doesn't tell", told_of.endswith("so it isn't known what a power cut may take from it"), True)
        gateway = self.gateway([self.redis(None, *APPEND_ONLY)])
        hosts.wait_for("what the gateway says", lambda: gateway.said("appendfsync everysec: a power cut may take the changes"))
        return "5 settings"

    def one_folder(self):
        """A second gateway over one folder ends with status 3, and the first one serves on."""
        server = self.redis()
        first = self.gateway([server])
        expect("a change", first.say(change(1, 1)), "ok version 1\n")
        second = subprocess.run(first.command(), capture_output=True, text=True, check=False)
        expect("the second gateway", (second.returncode, second.stdout, second.stderr),
               (3, "", f"gateway: {first.folder}: another gateway runs over this folder\n"))
        expect("the first gateway", first.say("latest\n" + change(1, 2)), "ok latest 1\nok version 2\n")
        first.kill()
        third = self.gateway([server], folder=first.folder)
        expect("a gateway after it", third.changes(), told(change(1, 1), change(1, 2)))
        return "one gateway a folder"

    # Wrong entries.

    def repair(self, server, name, *words):
        done = subprocess.run([REPAIR, name, "--redis", server.url, *words], capture_output=True, text=True, check=False)
        return done.returncode, done.stdout

    def wrong_entries(self):
        """A wrong entry ends the writing of a document, and no reading; a repair leaves it out, and what waits is written."""
        server = self.redis()
        gateways = [self.gateway([server], "--patience", "600") for _ in range(2)]
        right = ["by", "x", "number", "1", "chain", "y", "text", change(5, 9)]
        no_change, cut = "its text isn't one change", "change 5 2\ni 9@5 - 61\n"
        wrong = (
            ("0-*", ["foo", "bar"], "it has no by and no number and no chain and no text"), ("5-5", right, "its id isn't 0-n"),
            ("0-*", [*right[:3], "-1", *right[4:]], "it has no gateway, number or digest"),
            ("0-*", [*right[:7], cut], no_change), ("0-*", [*right[:7], "latest\n"], no_change),
            ("0-*", [*right[:7], change(5, 9) + change(5, 10)], no_change), ("0-*", right, "its chain isn't that of the entries up to it"))
        for number, (place, words, fault) in enumerate(wrong):
            self.try_wrong_entry(server, gateways, f"case-{number}", place, words, fault)
        return f"{len(wrong)} wrong entries"

    def try_wrong_entry(self, server, gateways, name, place, words, fault):
        key, first, sent = f"hub:{name}", f"document {name}\n", [change(1, 1), change(1, 2)]
        expect("changes", gateways[0].say(first + "".join(sent)), f"ok {first}ok version 1\nok version 2\n")
        expect("the other gateway", gateways[1].changes(name), told(*sent))
        fault = f"entry {server.ask('XADD', key, place, *words)} of the stream isn't a gateway's: {fault}"
        for gateway in gateways:
            hosts.wait_for("what the gateway says", lambda: gateway.said(f"{name}: {fault}"))
            expect("reading", gateway.say(f"{first}latest\n"), f"ok {first}ok latest 2\n")
        # An entry whose digest alone is wrong has a change, and that is kept.
        kept = int("its chain" in fault)
        sent += [change(5, 9)] * kept
        if place == "0-*":
            # A gateway that appends before it sees the wrong entry.
            asyncio.run(at(server, name, lambda log: log.append("another", [(1, change(3, 4).encode())])))
            sent.append(change(3, 4))
        before, entries = server.ask("XLEN", key), len(sent)
        expect("what is told", self.repair(server, name), (1, f"{fault}\n{entries} entries would be kept, {1 - kept} left out; "
                                                              "nothing was changed (--write does it)\n"))
        expect("entries before the repair", server.ask("XLEN", key), before)
        # A change that waits: it comes into the stream before or after the repair, and is answered after it.
        threads = concurrent.futures.ThreadPoolExecutor()
        answer = threads.submit(gateways[0].say, first + change(1, 12))
        threads.shutdown(wait=False)
        said, grown = "", f"{fault}\nthe stream has grown meanwhile; nothing was changed\n"
        while said in ("", grown):
            status, said = self.repair(server, name, "--write")
        done = re.fullmatch(f"([0-9]+) entries kept, {1 - kept} left out; the stream as it was: ({key}:before-[0-9]+)\n",
                            said.removeprefix(f"{fault}\n"))
        expect("the repair", (status, done and int(done[1]) in (entries, entries + 1)), (0, True))
        expect("the stream as it was", server.ask("XLEN", done[2]), str(int(done[1]) + 1 - kept))
        sent.append(change(1, 12))
        expect("the change that waits", answer.result(), f"ok {first}ok version {len(sent)}\n")
        expect("the stream", self.repair(server, name), (0, f"the stream is whole: {len(sent)} entries\n"))
        expect("its texts", server.texts(key), sent)
        for gateway in gateways:
            expect("a gateway after the repair", gateway.changes(name), told(*sent))
            expect("stores that were put aside", gateway.aside(), 0)

    def deleted_entries(self):
        """XDEL of a wrong entry leaves a gap, also behind the last entry: a repair closes it."""
        server = self.redis()
        gateway = self.gateway([server])
        for name, behind in (("a", []), ("b", [change(3, 4)])):
            first, key, sent = f"document {name}\n", f"hub:{name}", [change(1, 1), change(1, 2)]
            expect("changes", gateway.say(first + "".join(sent)), f"ok {first}ok version 1\nok version 2\n")
            wrong = server.ask("XADD", key, "0-*", "foo", "bar")
            hosts.wait_for("what the gateway says", lambda: gateway.said(f"{name}: entry 0-3 of the stream isn't a gateway's"))
            for text in behind:
                asyncio.run(at(server, name, lambda log: log.append("another", [(1, text.encode())])))
            server.ask("XDEL", key, wrong)
            if behind:
                hosts.wait_for("what the gateway says", lambda: gateway.said(f"{name}: entry 3 is gone from the stream"))
            sent += behind
            kept = f"{len(sent)} entries would be kept, 0 left out; nothing was changed (--write does it)\n"
            expect("what is told", self.repair(server, name), (1, f"entry 3 is gone from the stream\n{kept}"))
            expect("the repair", self.repair(server, name, "--write")[0], 0)
            expect("the stream", self.repair(server, name), (0, f"the stream is whole: {len(sent)} entries\n"))
            sent.append(change(1, 12))
            expect("a change", gateway.say(first + sent[-1]), f"ok {first}ok version {len(sent)}\n")
            expect("the text", gateway.changes(name), told(*sent))
            expect("stores that were put aside", gateway.aside(), 0)
        expect("no stream", self.repair(server, "none"), (1, "there is no stream hub:none with rules\n"))
        return "2 gaps"

    # Clients that speak no lines.

    def foreign(self):
        """A page's POST, or TLS, is answered once, and nothing in it is taken for a line."""
        server = self.redis()
        gateway, bad = self.gateway([server]), "no 60 BadCommand\n"
        body = "".join(change(1, counter) for counter in range(1, 4))
        post = f"POST / HTTP/1.1\r\nHost: 127.0.0.1:{gateway.port}\r\nContent-Type: text/plain\r\nContent-Length: {len(body)}\r\n\r\n{body}"
        for text, wanted in (
                (post, bad), (post.replace("\r", ""), bad), (post.replace("1.1", "1.0"), bad), ("GET / HTTP/1.1\r\n\r\n", bad),
                (post.replace("POST", "x"), bad), (" HTTP/1.0\n" + body, bad), ("\x16\x03\x01\x02" + body, bad),
                ("latest\n" + post, "ok latest 0\n" + bad), ("document a\n" + post, "ok document a\n" + bad),
                ("document a\nlatest\n\x16\x03\n" + body, "ok document a\nok latest 0\n" + bad),
                (post[:15] + "0" * 60_000 + " HTTP/1.1\r\n" + body * 50_000, bad),
                # What isn't foreign: the session goes on.
                ("POST / HTTP/2\nlatest\n", bad + "ok latest 0\n"), ("HTTP/1.1\nlatest\n", bad + "ok latest 0\n"),
                ("GET / HTTP/1.1 \nlatest\n", bad + "ok latest 0\n"), ("GET / HTTP/1.1\r\r\nlatest\n", bad + "ok latest 0\n"),
                ("x\x16\x03\nlatest\n", bad + "ok latest 0\n"), ("\x16\nlatest\n", bad + "ok latest 0\n"), ("\x16", bad),
                ("change 1 2\nGET / HTTP/1.1\n\x16\x03\nlatest\n", "no 40 BadLine line 2\nok latest 0\n")):
            expect(f"{text:.60}", gateway.say(text), wanted)
        expect("entries", server.texts(), ["change 1 2\nGET / HTTP/1.1\n\x16\x03\n"])
        page = http.client.HTTPConnection("127.0.0.1", gateway.port)
        page.request("POST", "/", body)
        try:
            page.getresponse()
        except http.client.BadStatusLine as answer:
            expect("a client of HTTP", answer.line, bad)
        # TLS sends no line feed, and waits for an answer.
        with socket.create_connection(("127.0.0.1", gateway.port)) as link:
            link.sendall(b"\x16\x03\x01\x02\x00\x01\x00\x01\xfc")
            expect("a client of TLS", link.makefile("rb").read(), bad.encode())
        expect("the text", gateway.say("latest\n" + change(1, 1)), "ok latest 0\nok version 1\n")
        return "20 clients that speak no lines"
