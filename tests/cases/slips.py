"""Slips: one file under two names, paths to what is no image, and two at once. Each file stays as it was, and none is left
behind."""
import os
import subprocess
import tempfile
import threading

from cases.case import UUID, Case, image
from cases.editing import volume

DATA = image(17)
HASHES = volume(17).device(DATA)
SMALL = ["--salt", "00ff", "--uuid", UUID, "--data-block-size", "512", "--hash-block-size", "512"]
NOT_UNDERSTOOD = ("error: the value of HASH is not understood\n", 2)
OFFSETS = ((), ("--hash-offset", "1024"))
# A folder in memory, whose files can be longer than those of most disks.
MEMORY = "/dev/shm"


def symlink(target, name):
    return lambda folder: os.symlink(target, os.path.join(folder, name))


def hard_link(target, name):
    return lambda folder: os.link(os.path.join(folder, target), os.path.join(folder, name))


def pipe(name):
    return lambda folder: os.mkfifo(os.path.join(folder, name))


def subfolder(name):
    return lambda folder: os.mkdir(os.path.join(folder, name))


def formatted(name, said, paths, files=None, before=(), more=(), leaves=None):
    output, status = said if isinstance(said, tuple) else (f"refused {said}\n", 1)
    return Case(f"slips: format, {name}", ["format", *paths, *SMALL, *more], output, status,
                {"data": DATA} if files is None else files, leaves, before=before)


def edited(name, said, paths, files=None, before=(), more=()):
    output, status = said if isinstance(said, tuple) else (f"refused {said}\n", 1)
    return Case(f"slips: edit, {name}", ["edit", *paths, "script", *more], output, status,
                {"data": DATA, "hash": HASHES, "script": b"shrink 1\ncommit\n", **(files or {})}, before=before)


def one_file():
    """HASH that is DATA by another name, or the other way round."""
    for more in OFFSETS:
        at = "".join(" " + word for word in more)
        for name, other, before in (("by a dot", "./data", ()), ("by its absolute path", "FOLDER/data", ()),
                                    ("by a symlink", "twin", (symlink("data", "twin"),)),
                                    ("by a hard link", "twin", (hard_link("data", "twin"),)),
                                    ("by a symlink to a symlink", "twin",
                                     (symlink("data", "other"), symlink("other", "twin")))):
            yield formatted(f"HASH is DATA {name}{at}", NOT_UNDERSTOOD, ("data", other), before=before, more=more)
            yield formatted(f"DATA is HASH {name}{at}", NOT_UNDERSTOOD, (other, "data"), before=before, more=more)
            yield edited(f"HASH is DATA {name}{at}", NOT_UNDERSTOOD, ("data", other), before=before, more=more)
            device = {"data": HASHES}
            yield edited(f"DATA is HASH {name}{at}", NOT_UNDERSTOOD, (other, "data"), device, before, more)


def no_image():
    """DATA that is no image: HASH stays, or isn't made."""
    for there in ({}, {"hash": b"\x11" * 1024}):
        at = "with a HASH" if there else "without HASH"
        for more in OFFSETS if there else OFFSETS[:1]:
            at_offset = "".join(" " + word for word in more)
            for name, fault, files, before in (
                    ("missing", "S1", {}, ()), ("empty", "U1 M2", {"data": b""}, ()), ("ragged", "S2", {"data": bytes(513)}, ()),
                    ("a folder", "S1", {}, (subfolder("data"),)), ("a pipe", "S1", {}, (pipe("data"),)),
                    ("a symlink to nothing", "S1", {}, (symlink("nothing", "data"),))):
                yield formatted(f"DATA {name}, {at}{at_offset}", fault, ("data", "hash"), {**files, **there}, before, more)
    yield formatted("an empty DATA, HASH a symlink to nothing", "U1 M2", ("data", "hash"), {"data": b""},
                    (symlink("made", "hash"),))
    yield formatted("an empty DATA, HASH a symlink", "U1 M2", ("data", "hash"), {"data": b"", "made": b"\x11" * 700},
                    (symlink("made", "hash"),))
    for name, before in (("a folder", subfolder("other")), ("a pipe", pipe("other"))):
        yield edited(f"DATA {name}", "S1", ("other", "hash"), before=(before,))


def no_device():
    """HASH that can't be made or isn't a file."""
    for more in OFFSETS:
        at = "".join(" " + word for word in more)
        yield formatted(f"HASH in no folder{at}", "S1", ("data", "none/hash"), more=more)
        yield formatted(f"HASH a folder{at}", "S1", ("data", "hash"), before=(subfolder("hash"),), more=more)
        yield formatted(f"HASH a pipe{at}", "S1", ("data", "hash"), before=(pipe("hash"),), more=more)
        yield formatted(f"HASH in a file{at}", "S1", ("data", "data/hash"), more=more)
    for name, before in (("a folder", subfolder("other")), ("a pipe", pipe("other"))):
        yield edited(f"HASH {name}", "S1", ("data", "other"), before=(before,))
        yield Case(f"slips: dump, HASH {name}", ["dump", "other"], "refused S1\n", 1, before=(before,))
        for paths in (("other", "hash"), ("data", "other")):
            line = volume(17).line(DATA, *paths)
            yield Case(f"slips: verify, {' '.join(paths)}, {name}", ["verify", "--table", line], "refused S1\n", 1,
                       {"data": DATA, "hash": HASHES}, before=(before,))


def made_through_links():
    """Where nothing is wrong, HASH is made behind a link, as behind its own name."""
    yield formatted("HASH a symlink to nothing", (volume(17).line(DATA) + "\n", 0), ("data", "hash"),
                    before=(symlink("made", "hash"),), leaves={"made": HASHES})
    yield formatted("HASH a symlink", (volume(17).line(DATA) + "\n", 0), ("data", "hash"),
                    {"data": DATA, "made": b"\x77" * 5000}, (symlink("made", "hash"),), leaves={"made": HASHES})


class WhileEdited(Case):
    """Words while an `edit` of data and hash has them and waits for its script, and what that edit does then."""

    def __init__(self, name, words, output, status, files=None, script="shrink 1\ncommit\n"):
        small = volume(1)
        super().__init__(f"slips: while they are edited, {name}", words, output, status,
                         {"data": DATA, "hash": HASHES, **(files or {})},
                         {"data": DATA[:512], "hash": small.device(DATA[:512])}, before=(pipe("script"),))
        self.script = script
        self.answers = f"ok\ncommitted {small.line(DATA[:512])}\n"

    def differences(self, tool, folder):
        words = ["dalgovuun", "edit", "data", "hash", "script"]
        with subprocess.Popen(words, executable=tool, cwd=folder, stdout=subprocess.PIPE) as editor:
            watch = threading.Timer(60, editor.kill)
            watch.start()
            try:
                with open(os.path.join(folder, "script"), "w") as script:
                    yield from super().differences(tool, folder)
                    for name in ("data", "hash"):
                        with open(os.path.join(folder, name), "rb") as file:
                            if file.read() != self.files[name]:
                                yield f"the file {name} was changed"
                    script.write(self.script)
                answers = editor.stdout.read().decode()
            finally:
                watch.cancel()
        if answers != self.answers or editor.returncode != 0:
            yield f"the edit printed {answers!r} with status {editor.returncode}"


class WhileServed(Case):
    """Words while the volume in data and hash is served."""

    def __init__(self, name, words, output, status, files=None):
        super().__init__(f"slips: while it is served, {name}", words, output, status,
                         {"data": DATA, "hash": HASHES, "script": b"commit\n", **(files or {})})

    def differences(self, tool, folder):
        words = ["dalgovuun", "serve", "--table", volume(17).line(DATA), "--name", "vol", "--listen", "127.0.0.1:0"]
        with subprocess.Popen(words, executable=tool, cwd=folder, stdout=subprocess.PIPE) as server:
            try:
                if server.stdout.readline() != b"listening\n":
                    yield "the server doesn't listen"
                yield from super().differences(tool, folder)
            finally:
                server.kill()


class Oversized(Case):
    """Words on a volume whose HASH is a link to a file that begins with it and has so many bytes in all."""

    def __init__(self, name, words, output, status, length):
        super().__init__(f"slips: {name}", words, output, status, {"data": DATA, "hash": HASHES, "script": b"shrink 1\ncommit\n"})
        self.length = length

    def run(self, tool, folder):
        link = os.path.join(folder, "hash")
        with tempfile.TemporaryDirectory(dir=MEMORY) as room:
            long = os.path.join(room, "long")
            with open(long, "wb") as file:
                file.write(HASHES)
                file.truncate(self.length)
            os.remove(link)
            os.symlink(long, link)
            seen = super().run(tool, folder)
            left, length = os.listdir(room), os.path.getsize(long)
            os.remove(link)
            with open(long, "rb") as file, open(link, "wb") as kept:
                kept.write(file.read(len(HASHES)))
        if (left, length) != (["long"], self.length):
            raise OSError(f"{left} is left, and HASH has {length} bytes")
        return seen


def can_be(length):
    """Whether a file of so many bytes can be made in memory."""
    try:
        with tempfile.TemporaryFile(dir=MEMORY) as file:
            file.truncate(length)
    except OSError:
        return False
    return True


def too_many_blocks():
    """HASH of 2^41 blocks and one, over which changes can't be kept until a commit, where a file of so many can be made; of 2^41 it is
    taken, and the script is looked for."""
    most = 2**41 * 512
    if can_be(most + 512):
        yield Oversized("edit, HASH of too many blocks", ["edit", "data", "hash", "script"], "refused E6 hash\n", 1, most + 512)
        yield Oversized("edit, HASH of the most blocks, no script", ["edit", "data", "hash", "other"], "refused S1\n", 1, most)


def two_at_once():
    """A volume that another program works on."""
    line = volume(17).line(DATA)
    script = {"other": b"commit\n"}
    beside = {"data2": DATA, "hash2": HASHES}
    verified = "unchecked 0\nverified\n"
    edit, listen = ["edit", "data", "hash", "other"], ["--listen", "127.0.0.1:0", "--sessions", "0"]
    for name, words in (("an edit", edit), ("a format", ["format", "data", "hash", *SMALL]),
                        ("a format behind an offset", ["format", "data", "hash", *SMALL, "--hash-offset", "1024"]),
                        ("a format of the same image", ["format", "data", "other", *SMALL]),
                        ("a verify", ["verify", "--table", line]),
                        ("a serve", ["serve", "--table", line, "--name", "vol", *listen]),
                        ("a talk", ["talk", "--table", line, "--name", "vol"])):
        yield WhileEdited(name, words, "refused S5 data\n", 1, script)
    for name, words in (("a format onto its device", ["format", "data2", "hash", *SMALL]),
                        ("an edit of its device", ["edit", "data2", "hash", "other"]),
                        ("a verify of its device", ["verify", "--table", volume(17).line(DATA, "data2", "hash")])):
        yield WhileEdited(name, words, "refused S5 hash\n", 1, {**beside, **script})
    yield WhileEdited("an edit of another volume", ["edit", "data2", "hash2", "other"],
                      f"committed {volume(17).line(DATA, 'data2', 'hash2')}\n", 0, {**beside, **script})
    yield WhileEdited("a dump", ["dump", "hash"], volume(17).dump(), 0)
    for name, words in (("an edit", ["edit", "data", "hash", "script"]), ("a format", ["format", "data", "hash", *SMALL])):
        yield WhileServed(name, words, "refused S5 data\n", 1)
    yield WhileServed("a format onto its device", ["format", "data2", "hash", *SMALL], "refused S5 hash\n", 1, beside)
    yield WhileServed("a verify", ["verify", "--table", line], verified, 0)
    yield WhileServed("a second server", ["serve", "--table", line, "--name", "vol", *listen], "listening\n", 0)


def cases():
    for table in (one_file, no_image, no_device, made_through_links, too_many_blocks, two_at_once):
        yield from table()
