"""Files that are served with `--files`, and which pages may begin a session."""
import contextlib
import functools
import http.server
import pathlib
import socket
import sys
import tempfile
import threading
import time

from doors import TEXT, UNKNOWN, Web, connected, expect, frame, head, others, read_head, server

ROOT = pathlib.Path(__file__).resolve().parent.parent.parent
sys.path.append(str(ROOT / "tests" / "editor"))

TEXTS = {
    "index.html": "text/html", "a.js": "text/javascript", "b.mjs": "text/javascript", "c.css": "text/css", "d.svg": "image/svg+xml",
    "e.png": "image/png", "f.json": "application/json", "g.txt": "text/plain", "h.map": "application/json",
    "i.wasm": "application/wasm", "j.bin": "application/octet-stream", "plain": "application/octet-stream",
    "sub/index.html": "text/html", "sub/k.js": "text/javascript", "sp ace.txt": "text/plain", "\u00fc.txt": "text/plain",
    "a%2fb.txt": "text/plain", "two..dots.txt": "text/plain", "empty.txt": "text/plain"}
LINKS = {"in.js": "a.js", "out.js": "../secret", "beside.js": "../files2/inner", "beside": "../files2", "loose.js": "none"}
SITE = "http://hub.example:8000"


def get(port, path, method="GET", **more):
    """The status, the fields and the body of what a request is answered."""
    lines = {"Host": f"127.0.0.1:{port}", **{name.replace("_", "-"): value for name, value in more.items()}}
    with connected(port) as connection:
        rows = [f"{name}: {value}" for name, value in lines.items()]
        connection.sendall("\r\n".join([f"{method} {path} HTTP/1.1", *rows, "", ""]).encode())
        answer = connection.makefile("rb")
        status, fields = read_head(answer)
        with contextlib.suppress(ConnectionError):
            return status, fields, answer.read()
        return status, fields, b""


def make_folder(folder):
    """Files to serve, each with its name as its text, and some outside."""
    (folder / "files" / "sub").mkdir(parents=True)
    for name in TEXTS:
        (folder / "files" / name).write_bytes(b"" if name == "empty.txt" else f"text of {name}\0\xff".encode("latin-1"))
    (folder / "files" / "large.bin").write_bytes(bytes(range(256)) * 20_000)
    (folder / "secret").write_text("secret")
    (folder / "files2").mkdir()
    (folder / "files2" / "inner").write_text("secret")
    for link, target in LINKS.items():
        (folder / "files" / link).symlink_to(target)
    (folder / "files" / ".hidden").write_text("secret")
    return folder / "files"


def try_files(hub):
    """Files of the folder, by the types of their names, and nothing that lies outside."""
    with tempfile.TemporaryDirectory() as name, server(hub, "--read", "--files", make_folder(pathlib.Path(name))) as here, \
            others(here) as rest:
        paths = {"/" + name: name for name in TEXTS if all(character not in name for character in " %\u00fc")}
        paths |= {"/": "index.html", "/?node=2": "index.html", "/a.js?x=/../y": "a.js", "/sp%20ace.txt": "sp ace.txt",
                  "/%C3%BC.txt": "\u00fc.txt", "/%61.js": "a.js", "/in.js": "a.js", "/sub%2Fk.js": "sub/k.js", "/sub/": "sub/index.html", "/a%252fb.txt": "a%2fb.txt"}
        for path, file in paths.items():
            status, fields, body = get(here.web, path)
            expect((status, fields["content-type"].split(";")[0]), (200, TEXTS[file]), path)
            expect(body, (here_of(name) / file).read_bytes(), path)
            expect(int(fields["content-length"]), len(body), path)
            if fields["content-type"].startswith("text/"):
                expect(fields["content-type"].endswith("charset=utf-8"), True, path)
        expect(get(here.web, "/large.bin")[2], bytes(range(256)) * 20_000)
        outside = [
            "/../secret", "/sub/../../secret", "/%2e%2e/secret", "/%2E%2E%2Fsecret", "/..%2fsecret", "/sub/..%2f..%2fsecret", "/..\\secret",
            "//etc/passwd", "/%2fetc/passwd", f"/{here_of(name).parent}/secret", f"{here_of(name)}/index.html", "/.hidden", "/./.hidden",
            "/a.js%00", "/a.js%00.html", "/../files/index.html", "/sub", "/nothing", "/nothing/", "/index.html/", "/a%2fb.txt", "/%FF",
            "/%", "/%zz", "/a.js%", "/out.js", "/beside.js", "/beside/inner", "/loose.js", "*", "http://127.0.0.1/index.html",
            "/" + "x" * 5000]
        for path in outside:
            status, _, body = get(here.web, path)
            is_told = any(word in body for word in (b"secret", b"root:", b"text of"))
            expect((status in (400, 404), is_told), (True, False), f"{path:.80} is {status}")
        for method in ("POST", "PUT", "DELETE", "OPTIONS", "get", "X"):
            status, fields, _ = get(here.web, "/index.html", method)
            expect((status, fields.get("allow")), (405, "GET, HEAD"), method)
        for path in ("/", "/a.js", "/empty.txt", "/nothing", "/../secret", "/large.bin"):
            status, fields, _ = get(here.web, path)
            expect(get(here.web, path, "HEAD"), (status, fields, b""), f"HEAD of {path}")
        rest.ask()
    with server(hub, doors=["web"]) as here:
        for path in ("/", "/index.html", "/etc/passwd"):
            expect(get(here.web, path)[0], 404, path)
        # Behind all these a session begins as before.
        expect(Web(here.web).ask("close 0"), UNKNOWN)
    return f"{len(paths)} paths of files, {len(outside)} that are none"


def try_tags(hub):
    """A file that the client has already isn't sent again, until it changes; and no page of another site may show one."""
    with tempfile.TemporaryDirectory() as name:
        folder = make_folder(pathlib.Path(name))
        with server(hub, "--files", folder) as here:
            tags = set()
            for path in ("/a.js", "/index.html", "/large.bin"):
                status, fields, body = get(here.web, path)
                tag = fields["etag"]
                tags.add(tag)
                expect((status, fields["x-frame-options"], fields["content-security-policy"]), (200, "DENY", "frame-ancestors 'none'"), path)
                for known in (tag, f"W/{tag}", "*", f'"other", {tag}', f'{tag},"other"', f'W/"a" ,W/{tag} , "b"'):
                    for method in ("GET", "HEAD"):
                        status, fields, left = get(here.web, path, method, If_None_Match=known)
                        expect((status, fields["etag"], left), (304, tag, b""), f"{path} where the client has {known}")
                for known in ('""', '"other"', tag[1:-1], tag[:-1], f'"{tag[2:]}', "", 'W/"*"', '"*"'):
                    status, _, again = get(here.web, path, If_None_Match=known)
                    expect((status, again == body), (200, True), f"{path} where the client has {known}")
            expect(len(tags), 3, "tags of three files")
            expect(get(here.web, "/nothing", If_None_Match="*")[0], 404)
            _, fields, _ = get(here.web, "/a.js")
            for change in (lambda: (folder / "a.js").write_text("another text of one length"),
                           lambda: (folder / "a.js").write_text("another text of 1 length!!"),
                           lambda: ((folder / "new").write_text("another text of 2 length!!"), (folder / "new").rename(folder / "a.js"))):
                # A file system tells changes apart that are a few milliseconds from each other.
                time.sleep(0.05)
                change()
                before = fields["etag"]
                status, fields, body = get(here.web, "/a.js", If_None_Match=before)
                expect((status, body, fields["etag"] == before), (200, (folder / "a.js").read_bytes(), False), "a file that was changed")
    return "tags of files"


def resident(process):
    """How many KiB a process has in memory."""
    status = pathlib.Path(f"/proc/{process.pid}/status").read_text()
    return int(next(line.split()[1] for line in status.splitlines() if line.startswith("VmRSS:")))


def try_long_file(hub):
    """A long file is sent without being in memory whole; and one that is cut off meanwhile ends its connection too early to be taken for
    whole."""
    with tempfile.TemporaryDirectory() as name:
        folder = make_folder(pathlib.Path(name))
        with open(folder / "long.bin", "wb") as made:
            made.truncate(1 << 30)
        with server(hub, "--files", folder) as here:
            get(here.web, "/a.js")
            before = resident(here.process)
            clients = [connected(here.web) for _ in range(32)]
            for client in clients:
                client.sendall(b"GET /long.bin HTTP/1.1\r\nHost: a\r\n\r\n")
            answers = [client.makefile("rb") for client in clients]
            for answer in answers:
                status, fields = read_head(answer)
                expect((status, int(fields["content-length"])), (200, 1 << 30))
                expect(answer.read(1 << 20), bytes(1 << 20))
            grown = resident(here.process) - before
            if grown > 16_384:
                raise AssertionError(f"32 clients that take a file of 1 GiB take {grown} KiB")
            (folder / "long.bin").write_bytes(b"short")
            left = 0
            with contextlib.suppress(ConnectionError):
                while piece := answers[0].read(1 << 20):
                    left += len(piece)
            if left >= (1 << 30) - (1 << 20):
                raise AssertionError("a file that was cut off was sent whole")
            for client in clients:
                client.close()
            expect(get(here.web, "/long.bin")[::2], (200, b"short"))
    return f"a long file to 32 clients, {grown} KiB more"


def here_of(name):
    return pathlib.Path(name) / "files"


def try_slow_reader(hub):
    """A client that takes a long file slowly, or never, holds up nobody."""
    with tempfile.TemporaryDirectory() as name:
        folder = make_folder(pathlib.Path(name))
        (folder / "long.bin").write_bytes(b"x" * 50_000_000)
        with server(hub, "--read", "--files", folder, "--at-once", 4) as here, others(here) as rest:
            idle = [connected(here.web) for _ in range(3)]
            for connection in idle:
                connection.sendall(f"GET /long.bin HTTP/1.1\r\nHost: 127.0.0.1:{here.web}\r\n\r\n".encode())
            rest.ask()
            for connection in idle:
                connection.close()
            rest.ask()
            expect(rest.during(lambda: get(here.web, "/a.js"))[0], 200)
    return "files that are never taken"


# Origins.

def try_origins(hub):
    """Which pages may begin a session: those of the origins given, to the letter, and who is no browser."""
    for given in ([], [SITE], [SITE, "https://other.example"]):
        words = [word for origin in given for word in ("--origin", origin)]
        with server(hub, "--read", *words) as here, others(here) as rest:
            rows = [(origin, 101 if origin in given else 403) for origin in (
                SITE, "https://other.example", "http://evil.example", "null", "", "http://hub.example", "https://hub.example:8000", SITE + "/",
                SITE + ".evil.example", "http://HUB.example:8000", f"{SITE}, http://evil.example", f"http://127.0.0.1:{here.web}")]
            for origin, want in rows:
                client = Web(here.web, head(Origin=origin))
                expect(client.status, want, f"Origin {origin!r} of {given}")
                if want == 101:
                    expect(client.ask("close 0"), UNKNOWN)
                client.close()
            two = head(Origin="http://evil.example")[:-2] + f"Origin: {SITE}\r\n\r\n".encode()
            expect(Web(here.web, two).status, 403, "two Origins, the wrong one first")
            client = Web(here.web)
            expect(client.ask("close 0"), UNKNOWN, "no Origin")
            client.close()
            rest.ask()
    return "origins"


OTHER_SITE = """<!doctype html><title>another site</title><script>
const told = [];
const socket = new WebSocket(location.hash.slice(1));
socket.onopen = () => { told.push("open"); socket.send("change 9 1\\ni 1@9 - 51\\n"); };
socket.onmessage = ({ data }) => told.push(data);
socket.onclose = ({ code }) => { told.push(`closed ${code}`); document.title = JSON.stringify(told); };
</script>"""


@contextlib.contextmanager
def site(folder):
    """A site of another origin, with the files of a folder."""
    handler = functools.partial(http.server.SimpleHTTPRequestHandler, directory=str(folder))
    handler.func.log_message = lambda *_: None
    with http.server.ThreadingHTTPServer(("127.0.0.1", 0), handler) as made:
        threading.Thread(target=made.serve_forever, daemon=True).start()
        yield made.server_port
        made.shutdown()


def free_port():
    with socket.create_server(("127.0.0.1", 0)) as made:
        return made.getsockname()[1]


def try_another_site(hub):
    """In a browser: a page of another site can't begin a session, and one of an origin given can."""
    from browser import Browser, number_in, program, until
    with tempfile.TemporaryDirectory() as name, program("chromedriver", "--port=0") as driver:
        pathlib.Path(name, "evil.html").write_text(OTHER_SITE, encoding="utf-8")
        with site(name) as port, site(name) as welcome, \
                server(hub, "--read", "--origin", f"http://127.0.0.1:{welcome}") as here, others(here) as rest:
            browser = Browser(f"http://127.0.0.1:{number_in(driver, 'successfully on port ([0-9]+)')}")
            try:
                told = {}
                for of, page in (("evil", port), ("welcome", welcome)):
                    browser.open(f"http://127.0.0.1:{page}/evil.html#ws://127.0.0.1:{here.web}/session")
                    if of == "welcome":
                        until(lambda: browser.run("return told.length") == 2, "a welcome page isn't answered")
                        told[of] = browser.run("return told")
                    else:
                        until(lambda: browser.run("return document.title").startswith("["), "another site's page isn't told")
                        told[of] = browser.run("return told")
                    rest.ask(1 if of == "evil" else 0)
            finally:
                browser.quit()
            expect(told, {"evil": ["closed 1006"], "welcome": ["open", f"ok version {rest.version + 1}\n"]})
    return "another site's page in a browser"


PARTS = [try_files, try_tags, try_long_file, try_slow_reader, try_origins, try_another_site]
