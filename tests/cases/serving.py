"""`serve`: connections over a loopback socket, one after the other, and what is refused before them."""
import resource
import socket
import subprocess
import threading

from cases.case import Case
from cases.talking import BEGIN, BEGUN, DATA, HASHES, VOLUME, bytes_at, read, refusals
from nbd import DISC, GREETING, flags, option, request

SERVE = ["serve", "--table", VOLUME.line(DATA), "--name", "vol"]
FILES = {"data": DATA, "hash": HASHES}


def free_port():
    with socket.socket() as free:
        free.bind(("127.0.0.1", 0))
        return free.getsockname()[1]


class Served(Case):
    """Connections to `serve`, each with what the client says and what it must hear up to the end."""

    def __init__(self, name, connections, output, status=0, sessions=None):
        super().__init__(f"serve: {name}", SERVE, "listening\n" + output, status, FILES)
        self.connections = connections
        self.sessions = len(connections) if sessions is None else sessions
        self.setup = None

    def differences(self, tool, folder):
        port = free_port()
        words = ["dalgovuun", *self.words, "--listen", f"127.0.0.1:{port}", "--sessions", str(self.sessions)]
        with subprocess.Popen(words, executable=tool, cwd=folder, stdout=subprocess.PIPE, stderr=subprocess.PIPE,
                              preexec_fn=self.setup) as server:
            watch = threading.Timer(60, server.kill)
            watch.start()
            try:
                first = server.stdout.readline()
                for number, (said, heard) in enumerate(self.connections, 1):
                    seen = talk_to(port, said)
                    if seen != heard:
                        yield f"connection {number} heard {seen!r}, not {heard!r}"
                output = first + server.stdout.read()
                errors = server.stderr.read().decode()
                server.wait(timeout=30)
            finally:
                watch.cancel()
                server.kill()
        if server.returncode != self.status:
            yield f"the status is {server.returncode}, not {self.status}"
        if not self.prints(output):
            yield f"printed {output!r}, not {self.output!r}"
        yield from self.wrong_errors(output, errors)


class Crowded(Case):
    """`serve` at an address that another listener has."""

    def __init__(self):
        super().__init__("serve: an address in use", SERVE, "refused N6\n", 1, FILES)

    def differences(self, tool, folder):
        with socket.create_server(("127.0.0.1", 0)) as other:
            port = other.getsockname()[1]
            yield from Case(self.name, [*SERVE, "--listen", f"127.0.0.1:{port}"], self.output, 1).differences(tool, folder)


class Cramped(Served):
    """`serve` with no file descriptor left for a connection: standard ones, two files and the listener have them all."""

    def __init__(self):
        super().__init__("a connection that can't be accepted", [], "refused N6\n", 1, sessions=1)
        self.setup = lambda: resource.setrlimit(resource.RLIMIT_NOFILE, (6, 6))


def talk_to(port, said):
    """What a client hears that says this and then shuts its writing side."""
    with socket.create_connection(("127.0.0.1", port), timeout=30) as client:
        client.sendall(said)
        client.shutdown(socket.SHUT_WR)
        heard = b""
        while piece := client.recv(65536):
            heard += piece
        return heard


def sessions():
    yield Served("no connection", [], "")
    one = (BEGIN + read(8703, 1) + request(DISC), BEGUN + bytes_at(8703, 1))
    yield Served("one connection", [one], "session 1 ended\n")
    yield Served("three connections", [one, (flags() + option(1, b"x"), GREETING), (BEGIN, BEGUN)],
                 "session 1 ended\nsession 2 ended\nsession 3 ended\n")
    # More than the session takes is said before its replies are read.
    late = (BEGIN + b"".join(read(0, 8704, n) for n in range(20)) + request(DISC) + bytes(100000),
            BEGUN + b"".join(bytes_at(0, 8704, n) for n in range(20)))
    yield Served("late input", [late, one], "session 1 ended\nsession 2 ended\n")


def before():
    yield from refusals(("serve", "--listen", "nowhere"))
    for address in ("nowhere", "", "127.0.0.1", "127.0.0.1:99999", "192.0.2.1:1"):
        yield Case(f"serve: listen {address!r}", [*SERVE, "--listen", address], "refused N6\n", 1, FILES)
    for sessions in ("", "x", "-1", "4294967296", "18446744073709551616"):
        yield Case(f"serve: sessions {sessions!r}", [*SERVE, "--listen", "nowhere", f"--sessions={sessions}"],
                   "error: the value of --sessions is not understood\n", 2, FILES)
    for memory in ("", "x", "-1", "32", "1048577", "18446744073709551616"):
        yield Case(f"serve: memory {memory!r}", [*SERVE, "--listen", "nowhere", f"--memory={memory}"],
                   "error: the value of --memory is not understood\n", 2, FILES)
    for idle in ("", "x", "-1", "18446744073709551616"):
        yield Case(f"serve: idle {idle!r}", [*SERVE, "--listen", "nowhere", f"--idle={idle}"],
                   "error: the value of --idle is not understood\n", 2, FILES)
    yield Case("serve: the least memory, for the longest silence",
               [*SERVE, "--listen", "nowhere", "--memory=33", "--idle=18446744073709551615"], "refused N6\n", 1, FILES)
    for stall in ("", "x", "-1", "18446744073709551616"):
        yield Case(f"serve: stall {stall!r}", [*SERVE, "--listen", "nowhere", f"--stall={stall}"],
                   "error: the value of --stall is not understood\n", 2, FILES)
    yield Case("serve: no stall, and the largest data cache",
               [*SERVE, "--listen", "nowhere", "--stall=0", "--data-cache=65536"], "refused N6\n", 1, FILES)
    for path in ("", "nowhere/socket", "data", "x" * 200):
        yield Case(f"serve: listen 'unix:{path}'", [*SERVE, "--listen", f"unix:{path}"], "refused N6\n", 1, FILES)
    yield Crowded()
    yield Cramped()
    yield Case("serve: no address", SERVE, ["error: ", "--listen <ADDRESS>"], 2, FILES)
    yield Case("serve: an output that can't be written", [*SERVE, "--listen", "127.0.0.1:0"], "", 1, FILES,
               sink="/dev/full", errors=["dalgovuun: standard output can't be written"])


def cases():
    for table in (sessions, before):
        yield from table()
