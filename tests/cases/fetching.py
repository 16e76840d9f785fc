"""Devices at servers: URLs that can't be opened, each with its words, and where none is understood. What servers answer `interop/remote` tries."""
from cases.case import UUID, Case
from cases.explaining import FILES, LINE, refused

FAILED = "the device failed, or the file can't be opened or used"
# what is wrong with each text that begins as a URL does and is none
NO_URLS = {
    "http:///x": "no host", "http://h": "no path behind the host", "http://": "no host", "nbd://": "no host",
    "http://h:65536/x": "a port that isn't a number up to 65535", "http://h:/x": "a port that isn't a number up to 65535",
    "nbd://h:+1/x": "a port that isn't a number up to 65535",
    "http://h^/x": "a host that is neither a name nor an address", "nbd://[::1/x": "a host that is neither a name nor an address",
    "http://h/x#y": "a path with a byte that isn't visible ASCII, or with #", "nbd://h/x?y": "an export's name with ? or #",
    "nbd+unix://h/x?socket=y": "a host where a socket is named", "nbd+unix:///x": "no ?socket=PATH",
    "nbd+unix:///x?socket=": "no ?socket=PATH", "nbd+unix:///?socket=y#z": "a socket's path with ? or #",
    "nbd+unix:///?socket=no/socket": "No such file or directory (os error 2)",
    "nbd://127.0.0.1:1/%ff": "a name that isn't UTF-8",
    "nbd://127.0.0.1:1": "Connection refused (os error 111)", "http://127.0.0.1:1/x": "Connection refused (os error 111)",
}


def unopened():
    for url, why in NO_URLS.items():
        text = f"{url}: {FAILED}: {why} (S1)"
        yield refused(f"{url} as DATA", ["verify", "--table", LINE.replace(" data ", f" {url} ")], "S1", text)
        yield refused(f"{url} as HASH", ["verify", "--table", LINE.replace(" hash ", f" {url} ")], "S1", text)
    for command in (["serve", "--listen", "127.0.0.1:0"], ["talk"]):
        yield refused(f"{command[0]}, no server", [*command, "--table", LINE.replace(" data ", " nbd://127.0.0.1:1 "), "--name", "vol"],
                      "S1", f"nbd://127.0.0.1:1: {FAILED}: Connection refused (os error 111) (S1)")
    for url in ("http://127.0.0.1:1/x", "nbd://127.0.0.1:1", "http:///x", "nbd+unix:///x"):
        text = f"{url}: {FAILED}: {NO_URLS[url]} (S1)"
        yield refused(f"{url} as NEW", ["update", "data", "hash", url], "S1", text)
        for field in (" data ", " hash "):
            yield refused(f"pull, {url} as{field}", ["pull", "made", "made.hash", "--to", LINE.replace(field, f" {url} ")], "S1", text)
    for path in ("https://127.0.0.1:1/x", "ftp://h/x", "HTTP://h/x"):
        yield refused(f"{path}, a path", ["verify", "--table", LINE.replace(" data ", f" {path} ")], "S1",
                      f"{path}: {FAILED}: No such file or directory (os error 2) (S1)")


def not_understood():
    files = {**FILES, "script": b"commit\n"}
    rows = {"format": ["--salt", "00", "--uuid", UUID], "edit": ["script"], "update": ["script"], "recover": [], "pull": ["--to", LINE]}
    for command, more in rows.items():
        for url in ("http://127.0.0.1:1/x", "nbd://h", "nbd+unix:///?socket=x", "http:///"):
            for word, paths in (("DATA", [url, "hash"]), ("HASH", ["data", url])):
                yield Case(f"{command}: {url} as {word}", [command, *paths, *more],
                           f"error: the value of {word} is not understood\n", 2, files)
    for timeout in ("", "x", "-1", "0", "86401", "18446744073709551616"):
        for command in (["verify"], ["serve", "--listen", "nowhere", "--name", "vol"], ["talk", "--name", "vol"]):
            yield Case(f"{command[0]}: timeout {timeout!r}", [*command, "--table", LINE, f"--timeout={timeout}"],
                       "error: the value of --timeout is not understood\n", 2, FILES,
                       errors=["dalgovuun: --timeout: a count of seconds, in decimal digits, from 1 to 86400"])
        for command in (["pull", "made", "made.hash", "--to", LINE], ["update", "data", "hash", "script"]):
            yield Case(f"{command[0]}: timeout {timeout!r}", [*command, f"--timeout={timeout}"],
                       "error: the value of --timeout is not understood\n", 2, files,
                       errors=["dalgovuun: --timeout: a count of seconds, in decimal digits, from 1 to 86400"])
    for timeout in ("1", "86400", "00030"):
        yield Case(f"verify: timeout {timeout}", ["verify", "--table", LINE, f"--timeout={timeout}"], "unchecked 0\nverified\n", 0, FILES)


def cases():
    yield from unopened()
    yield from not_understood()
