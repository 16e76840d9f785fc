"""Servers of devices, for interop/remote: real ones, and ones of our own that lie, break their protocol, or stay away."""
import os
import random
import shutil
import signal
import socket
import struct
import subprocess
import sys
import threading
import time

sys.path.insert(0, os.path.join(os.path.dirname(os.path.dirname(os.path.abspath(__file__))), "tests"))

import nbd  # noqa: E402 (the path is set above)

QUIET = {"stdin": subprocess.DEVNULL, "stdout": subprocess.DEVNULL, "stderr": subprocess.DEVNULL}


def free_port():
    with socket.socket() as free:
        free.bind(("127.0.0.1", 0))
        return free.getsockname()[1]


class Program:
    """A server that is a program of its own, while the block runs."""

    def __init__(self, words, port=None, path=None):
        self.words, self.port, self.path = words, port, path

    def __enter__(self):
        self.process = subprocess.Popen(self.words, **QUIET)
        for _ in range(200):
            if self.answers():
                return self
            time.sleep(0.05)
        sys.exit(f"no answer: {' '.join(self.words)}")

    def answers(self):
        family, address = (socket.AF_UNIX, self.path) if self.path else (socket.AF_INET, ("127.0.0.1", self.port))
        with socket.socket(family) as client:
            return client.connect_ex(address) == 0

    def __exit__(self, *_):
        self.process.terminate()
        self.process.wait()


class Daemon(Program):
    """One that goes on in the background, and writes its process number to the file that its last word names."""

    def __exit__(self, *_):
        self.process.wait()
        with open(self.words[-1], encoding="ascii") as file:
            os.kill(int(file.read()), signal.SIGTERM)


def nginx(folder):
    """A folder over http."""
    port = free_port()
    own = os.path.join(folder, "nginx")
    os.makedirs(own, exist_ok=True)
    conf = os.path.join(own, "conf")
    with open(conf, "w", encoding="ascii") as file:
        file.write(f"""daemon off; master_process off; pid {own}/pid; error_log {own}/errors;
            events {{ }} http {{ access_log off; client_body_temp_path {own}; proxy_temp_path {own}; fastcgi_temp_path {own};
            uwsgi_temp_path {own}; scgi_temp_path {own}; keepalive_requests 50;
            server {{ listen 127.0.0.1:{port}; root {folder}; location /moved {{ return 302 /image; }} }} }}""")
    return Program([shutil.which("nginx"), "-c", conf, "-p", own, "-e", os.path.join(own, "errors")], port)


def qemu_nbd(image, name="", path=None):
    port = None if path else free_port()
    where = ["-k", path] if path else ["-b", "127.0.0.1", "-p", str(port)]
    return Program(["qemu-nbd", "-r", "-t", "-f", "raw", "-e", "8", "-x", name, *where, image], port, path)


def nbdkit(image, path=None):
    port = None if path else free_port()
    where = ["-U", path] if path else ["-i", "127.0.0.1", "-p", str(port)]
    return Program(["nbdkit", "-f", "-r", *where, "file", image], port, path)


def nbd_server(folder, **exports):
    port = free_port()
    conf = os.path.join(folder, "nbd-server.conf")
    with open(conf, "w", encoding="ascii") as file:
        file.write(f"[generic]\n\tlistenaddr = 127.0.0.1\n\tport = {port}\n\tallowlist = true\n")
        for name, image in exports.items():
            file.write(f"[{name}]\n\texportname = {image}\n\treadonly = true\n")
    return Daemon(["nbd-server", "-C", conf, "-p", os.path.join(folder, "nbd-server.pid")], port)


class Own:
    """A server of our own: each connection is talked to in a thread, by `serve(connection)`, while the block runs."""

    def __init__(self):
        self.listener = None
        self.port = free_port()
        self.open = set()
        self.guard = threading.Lock()
        self.is_over = False

    def __enter__(self):
        self.start()
        return self

    def start(self):
        """Begins to listen, at the same port as before."""
        self.listener = socket.create_server(("127.0.0.1", self.port), backlog=128)
        threading.Thread(target=self.accept, args=(self.listener,), daemon=True).start()

    def accept(self, listener):
        while True:
            try:
                client, _ = listener.accept()
            except OSError:
                return
            client.setsockopt(socket.IPPROTO_TCP, socket.TCP_NODELAY, 1)
            with self.guard:
                self.open.add(client)
            threading.Thread(target=self.talk, args=(client,), daemon=True).start()

    def talk(self, client):
        try:
            self.serve(client)
        except (OSError, ValueError, struct.error, AssertionError):
            pass
        with self.guard:
            self.open.discard(client)
        client.close()

    def stop(self):
        """Stays away: listens no more, and cuts each connection."""
        self.listener.shutdown(socket.SHUT_RDWR)
        self.listener.close()
        with self.guard:
            for client in self.open:
                try:
                    client.shutdown(socket.SHUT_RDWR)
                except OSError:
                    pass

    def __exit__(self, *_):
        self.is_over = True
        self.stop()


def receive(client, count):
    got = b""
    while len(got) < count:
        piece = client.recv(count - len(got))
        if not piece:
            raise OSError("ended")
        got += piece
    return got


def honest(data, first, last):
    """The response of a range."""
    return (b"HTTP/1.1 206 Partial Content\r\n" + f"Content-Range: bytes {first}-{last}/{len(data)}\r\n".encode()
            + f"Content-Length: {last - first + 1}\r\n\r\n".encode() + data[first:last + 1])


class Http(Own):
    """Ranges of resources, by a path each; `change(count, response, first, last)` makes of the honest response to the count-th request what
    is sent: bytes, or None for nothing at all; a connection of which one was changed ends."""

    def __init__(self, change=None, **resources):
        super().__init__()
        self.resources, self.change, self.count = resources, change, 0

    def url(self, name="image"):
        return f"http://127.0.0.1:{self.port}/{name}"

    def serve(self, client):
        file = client.makefile("rb")
        while line := file.readline():
            name = line.split()[1].decode().lstrip("/")
            head = []
            while (row := file.readline()) not in (b"\r\n", b""):
                head.append(row)
            wanted = next(row for row in head if row.lower().startswith(b"range:")).split(b"=")[1]
            first, last = (int(number) for number in wanted.split(b"-"))
            response = honest(self.resources[name], first, last)
            with self.guard:
                self.count += 1
                count = self.count
            sent = self.change(count, response, first, last) if self.change else response
            if sent is None:
                while client.recv(4096):
                    pass
                return
            client.sendall(sent)
            if sent is not response:
                return


class Nbd(Own):
    """Exports by their names; `greet(bytes)` and `change(count, reply, offset, length)` make of the honest bytes what is sent, as above."""

    def __init__(self, change=None, greet=None, **exports):
        super().__init__()
        self.exports, self.change, self.greet, self.count = exports, change, greet, 0

    def url(self, name="image"):
        return f"nbd://127.0.0.1:{self.port}/{name}"

    def serve(self, client):
        data = self.handshake(client)
        while data is not None:
            magic, _, kind, cookie, offset, length = struct.unpack(">IHHQQI", receive(client, 28))
            if magic != 0x25609513 or kind != nbd.READ:
                return
            reply = nbd.reply(cookie, 0, data[offset:offset + length])
            with self.guard:
                self.count += 1
                count = self.count
            sent = self.change(count, reply, offset, length) if self.change else reply
            if sent is None:
                while client.recv(4096):
                    pass
                return
            client.sendall(sent)
            if sent is not reply:
                return

    def handshake(self, client):
        self.say(client, nbd.GREETING)
        receive(client, 4)
        while True:
            _, number, count = struct.unpack(">8sII", receive(client, 16))
            asked = receive(client, count)
            if number == 1:
                data = self.exports[asked.decode()]
                self.say(client, nbd.exported(len(data)))
                return data
            if number not in (6, 7):
                self.say(client, nbd.option_reply(number, nbd.ERR_UNSUP))
                continue
            name = asked[4:4 + struct.unpack(">I", asked[:4])[0]].decode()
            if name not in self.exports:
                self.say(client, nbd.option_reply(number, nbd.ERR_UNKNOWN, b"no such export here"))
                continue
            self.say(client, nbd.gone(len(self.exports[name]), number))
            if number == 7:
                return self.exports[name]

    def say(self, client, words):
        sent = self.greet(words) if self.greet else words
        if sent is None:
            while client.recv(4096):
                pass
            raise OSError("silent")
        client.sendall(sent)
        if sent is not words:
            raise OSError("changed")


def mutated(rng, words):
    """The bytes with something changed: a bit, a byte, a run that is cut, doubled, dropped or made up."""
    kind = rng.randrange(8)
    # Most of it is in what stands in front of the bytes that were asked for.
    place = rng.randrange(min(len(words), 120)) if rng.randrange(3) else rng.randrange(len(words))
    run = rng.randrange(1, 9)
    before, after = words[:place], words[place:]
    if kind == 0:
        return before + bytes([after[0] ^ (1 << rng.randrange(8))]) + after[1:]
    if kind == 1:
        return before + bytes([rng.randrange(256)]) + after[1:]
    if kind == 2:
        return before
    if kind == 3:
        return before + after[:run] + after
    if kind == 4:
        return before + after[run:]
    if kind == 5:
        return before + rng.randbytes(run) + after
    if kind == 6:
        return before + rng.randbytes(run) + after[run:]
    return words + rng.randbytes(run)
