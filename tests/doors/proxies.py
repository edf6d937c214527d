"""nginx with TLS and log-in before `--web` and `--unix`, by examples/nginx/nginx.conf."""
import asyncio
import base64
import contextlib
import getpass
import pathlib
import socket
import ssl
import subprocess
import tempfile
import time

import websockets
from doors import Stream, expect, others, read_head, server
from pages import free_port

ROOT = pathlib.Path(__file__).resolve().parent.parent.parent
CONFIGURATION, EDITOR = ROOT / "examples" / "nginx" / "nginx.conf", ROOT / "examples" / "editor"
HOST = "hub.example"
NGINX = 60    # seconds without a byte, after which it ends a connection by default


def openssl(*words):
    subprocess.run(["openssl", *map(str, words)], check=True, capture_output=True)


def make_certificates(folder):
    """A certificate of the server, signed by itself, and one of a client, signed by clients.pem; and one of a stranger."""
    new = ["req", "-x509", "-newkey", "ec", "-pkeyopt", "ec_paramgen_curve:prime256v1", "-nodes", "-days", "2"]
    named = ["-subj", f"/CN={HOST}", "-addext", f"subjectAltName=DNS:{HOST}"]
    openssl(*new, *named, "-keyout", folder / "hub.key", "-out", folder / "hub.pem")
    openssl(*new, "-subj", "/CN=clients", "-keyout", folder / "clients.key", "-out", folder / "clients.pem")
    openssl(*new, "-subj", "/CN=stranger", "-keyout", folder / "stranger.key", "-out", folder / "stranger.pem")
    openssl("req", "-new", "-newkey", "ec", "-pkeyopt", "ec_paramgen_curve:prime256v1", "-nodes", "-subj", "/CN=ann", "-keyout",
            folder / "ann.key", "-out", folder / "ann.csr")
    openssl("x509", "-req", "-in", folder / "ann.csr", "-CA", folder / "clients.pem", "-CAkey", folder / "clients.key", "-days", "2",
            "-out", folder / "ann.pem")
    hashed = subprocess.run(["openssl", "passwd", "-apr1", "secret"], check=True, capture_output=True, text=True).stdout.strip()
    (folder / "users").write_text(f"ann:{hashed}\n")


def configuration(folder, ports, here):
    """The example, with this machine's places in place of those that it names."""
    text = CONFIGURATION.read_text(encoding="utf-8")
    places = {"user hub;": f"user {getpass.getuser()};", "/etc/hub/": f"{folder}/", "/run/nginx.pid": f"{folder}/nginx.pid",
              "/var/log/nginx/error.log": f"{folder}/error.log", "listen 443 ": f"listen 127.0.0.1:{ports[0]} ",
              "listen 4712 ": f"listen 127.0.0.1:{ports[1]} ", "127.0.0.1:8000;": f"127.0.0.1:{here.web};",
              "unix:/run/hub/hub.sock": f"unix:{here.path}", "worker_processes auto": "worker_processes 1",
              "proxy_read_timeout 5m": f"proxy_read_timeout {NGINX}s",
              "access_log off;": "access_log off;" + "".join(
                  f" {name}_temp_path {folder}/{name};" for name in ("client_body", "proxy", "fastcgi", "uwsgi", "scgi"))}
    for old, new in places.items():
        if old not in text:
            raise AssertionError(f"{CONFIGURATION} has no {old!r}")
        text = text.replace(old, new)
    (folder / "nginx.conf").write_text(text)


@contextlib.contextmanager
def nginx(here, ports):
    """nginx before a server, and the folder with its files."""
    with tempfile.TemporaryDirectory() as name:
        folder = pathlib.Path(name)
        make_certificates(folder)
        configuration(folder, ports, here)
        words = ["nginx", "-p", str(folder), "-c", "nginx.conf", "-g", "daemon off;"]
        with subprocess.Popen(words, stderr=subprocess.DEVNULL) as process:
            try:
                while process.poll() is None and not is_open(ports[0]):
                    time.sleep(0.05)
                expect(process.poll(), None, f"nginx says {told(folder)!r}")
                yield folder
            finally:
                process.terminate()


def told(folder):
    return (folder / "error.log").read_text() if (folder / "error.log").exists() else ""


def is_open(port):
    with contextlib.suppress(OSError):
        socket.create_connection(("127.0.0.1", port)).close()
        return True
    return False


def trusted(folder, client=None):
    context = ssl.create_default_context(cafile=str(folder / "hub.pem"))
    if client:
        context.load_cert_chain(folder / f"{client}.pem", folder / f"{client}.key")
    return context


def log_in(user):
    return {"Authorization": "Basic " + base64.b64encode(user.encode()).decode()} if user else {}


def over_tls(folder, port, client=None):
    return trusted(folder, client).wrap_socket(socket.create_connection(("127.0.0.1", port)), server_hostname=HOST)


def answer_to(folder, port, sent):
    with over_tls(folder, port) as connection:
        connection.sendall(sent)
        lines = connection.makefile("rb")
        status, fields = read_head(lines)
        body = lines.read(int(fields.get("content-length", 0)))
        lines.close()
        return status, body


def connecting(folder, port, user, origin=None):
    """A handshake over wss."""
    return websockets.connect(f"wss://{HOST}:{port}/session", host="127.0.0.1", port=port, server_hostname=HOST, ssl=trusted(folder),
                              extra_headers=log_in(user), origin=origin, ping_interval=None, open_timeout=None,
                              close_timeout=1e9)


async def edit(folder, port, user, origin, *requests):
    """The replies to requests over wss, or the status of the handshake."""
    try:
        client = await connecting(folder, port, user, origin)
    except websockets.InvalidStatusCode as why:
        return why.status_code
    replies = []
    for request in requests:
        await client.send(request)
        replies.append(await client.recv())
    await (await client.ping())
    await client.close()
    return [*replies, client.close_code]


def try_nginx(hub):
    """Without a log-in, or with a wrong one, or from another site's page, nobody gets in; with it a text is edited through wss and
    through TLS before the socket file."""
    ports = free_port(), free_port()
    origin = f"https://{HOST}:{ports[0]}"
    words = ["--read", "--files", EDITOR, "--origin", origin]
    with server(hub, *words) as here, others(here) as rest, nginx(here, ports) as folder:
        for user, of, want in [(None, None, 401), ("ann:wrong", origin, 401), ("ben:secret", None, 401), (None, origin, 401),
                               ("ann:secret", "https://evil.example", 403), ("ann:secret", f"http://127.0.0.1:{here.web}", 403)]:
            expect(asyncio.run(edit(folder, ports[0], user, of)), want, f"log-in {user} of {of}")
        rest.ask()
        for number, of in enumerate((origin, None), 1):
            rest.version += 1
            got = asyncio.run(edit(folder, ports[0], "ann:secret", of, f"change 9 1\ni {number}@9 - 41\n", "latest"))
            expect(got, [f"ok version {rest.version}\n", f"ok latest {rest.version}\n", 1000], f"through wss, of {of}")
        rest.ask()
        page = (EDITOR / "index.html").read_bytes()
        for user, want in [(None, 401), ("ann:wrong", 401), ("ann:secret", 200)]:
            rows = "".join(f"{name}: {value}\r\n" for name, value in log_in(user).items())
            status, body = answer_to(folder, ports[0], f"GET /?node=1 HTTP/1.1\r\nHost: {HOST}\r\n{rows}\r\n".encode())
            expect((status, body == page), (want, want == 200), f"the page for {user}")
        expect(read_head(plain(ports[0]).makefile("rb"))[0], 400, "HTTP without TLS")
        for client in (None, "stranger"):
            with contextlib.suppress(ssl.SSLError, ConnectionError):
                with over_tls(folder, ports[1], client).makefile("rb") as lines:
                    expect(lines.readline(), b"", f"lines by the certificate {client}")
        ann = Stream(over_tls(folder, ports[1], "ann"))
        rest.version += 1
        expect(ann.ask("change 9 1", "i 3@9 - 42"), f"ok version {rest.version}", "through TLS")
        rest.ask()
        expect(ann.ask("latest"), f"ok latest {rest.version}", "through TLS")
        ann.close()
        here.process.kill()
        here.process.wait()
        expect(asyncio.run(edit(folder, ports[0], "ann:secret", None)), 502, "a hub that is gone")
    return "nginx with TLS and log-in"


def plain(port):
    connection = socket.create_connection(("127.0.0.1", port))
    connection.sendall(f"GET / HTTP/1.1\r\nHost: {HOST}\r\n\r\n".encode())
    return connection


async def silent(folder, port, pings):
    """A client through nginx that is silent until it was sent so many pings, and what it is answered then; None where the machine
    was so slow that a ping came late, and the connection ended."""
    client = await connecting(folder, port, "ann:secret")
    times, enough, pong = [time.monotonic()], asyncio.Event(), client.pong

    async def counted(data=b""):
        times.append(time.monotonic())
        if len(times) > pings:
            enough.set()
        await pong(data)

    client.pong = counted
    await asyncio.wait([asyncio.create_task(enough.wait()), asyncio.create_task(client.wait_closed())],
                       return_when=asyncio.FIRST_COMPLETED)
    if not enough.is_set() and time.monotonic() - times[-1] > NGINX / 2:
        return None
    await client.send("close 0")
    reply = await client.recv()
    await client.close()
    return reply


def try_pings_through_nginx(hub):
    """Where nginx ends a connection on which nothing comes for 60 seconds, as it does by default, the hub's pings keep a silent
    client's."""
    ports = free_port(), free_port()
    with server(hub, "--read") as here, others(here) as rest, nginx(here, ports) as folder:
        reply = None
        while reply is None:
            reply = rest.during(lambda: asyncio.run(silent(folder, ports[0], 4)))
        expect(reply, "no 52 NoSubscriber\n", "a client that was silent")
    return "a silent client through nginx"


def try_editor_through_nginx(hub):
    """The editor in a browser, that logs in, edits through wss."""
    from browser import Browser, number_in, program, until
    ports = free_port(), free_port()
    with server(hub, "--read", "--files", EDITOR, "--origin", f"https://{HOST}:{ports[0]}") as here, others(here) as rest, \
            nginx(here, ports), program("chromedriver", "--port=0") as driver:
        browser = Browser(f"http://127.0.0.1:{number_in(driver, 'successfully on port ([0-9]+)')}",
                          "--ignore-certificate-errors", f"--host-resolver-rules=MAP {HOST} 127.0.0.1")
        try:
            browser.open(f"https://ann:secret@{HOST}:{ports[0]}/?node=2")
            until(lambda: browser.says("state") == "connected", lambda: browser.says("trouble"))
            browser.keys(".ProseMirror", "typed through nginx")
            client = Stream(here.port)
            until(lambda: "typed through nginx" in client_text(client), "what is typed through nginx isn't there")
            client.close()
        finally:
            browser.quit()
    return "the editor in a browser through nginx"


def client_text(client):
    version = int(client.ask("latest").split(" ")[2])
    client.send(f"show {version} 0 1024\n")
    return "".join(line.split(" ", 3)[3] for line in client.reply()[:-1])


PARTS = [try_nginx, try_pings_through_nginx, try_editor_through_nginx]
