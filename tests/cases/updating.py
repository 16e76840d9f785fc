"""`update`: the volume of another image, by what differs; both devices as made from scratch of it."""
import os
import subprocess
import time

from cases.case import UUID, Case, image
from cases.editing import volume
from cases.slips import hard_link, pipe, subfolder, symlink
from cases.verifying import flipped
from verity import Volume

SALT = b"\x00\xff"
DATA = image(17)
HASHES = volume(17).device(DATA)
NOT_UNDERSTOOD = "error: the value of NEW is not understood\n"


def changes(old, new, size):
    """How many blocks of the new image aren't in the old one at their place."""
    return sum(old[place:place + size] != new[place:place + size] for place in range(0, len(new), size))


def updated(name, old, data, new, more=(), hashes=None):
    """An update of a volume to an image, and what it leaves."""
    size = old.data_size
    made = Volume(len(new) // size, old.salt, size, old.hash_size, old.algorithm, old.front, old.uuid)
    words = ["update", "data", "hash", "new", *more]
    if old.front:
        words += ["--hash-offset", str(len(old.front))]
    return Case(f"update: {name}", words, f"changed {changes(data, new, size)}\ncommitted {made.line(new)}\n", 0,
                {"data": data, "hash": old.device(data) if hashes is None else hashes, "new": new},
                {"data": new, "hash": made.device(new)})


def some(data, numbers, size=512):
    """The image with these blocks changed, one byte each."""
    for number in numbers:
        data = flipped(data, number * size + number % size)
    return data


def updates():
    for numbers in ((), (0,), (16,), (3, 4), (15, 16), range(17)):
        yield updated(f"{len(numbers)} of 17 blocks, {list(numbers)[:2]}", volume(17), DATA, some(DATA, numbers))
    large = image(300)
    for numbers in ((0,), (255,), (256, 299), range(0, 300, 7), range(300)):
        yield updated(f"{len(numbers)} of 300 blocks, {list(numbers)[:2]}", volume(300), large, some(large, numbers))
    for before, after in ((1, 1), (1, 2), (2, 1), (16, 17), (17, 16), (17, 256), (257, 17), (17, 300), (300, 1), (1, 300)):
        old = image(before)
        yield updated(f"another image, {before} to {after}", volume(before), old, image(after + 1)[512:])
        both = min(before, after) * 512
        yield updated(f"the same front, {before} to {after}", volume(before), old, old[:both] + image(after)[both:])
        if before < after:
            yield updated(f"zeros behind it, {before} to {after}", volume(before), old, old + bytes((after - before) * 512))
    eight = volume(8, algorithm="sha512")
    yield updated("sha512", eight, image(8), some(image(8), (7,)))
    yield updated("sha512, 8 to 65", eight, image(8), image(65))
    larger = volume(130, data_size=4096, hash_size=1024)
    yield updated("larger blocks", larger, image(130, 4096), some(image(130, 4096), (0, 129), 4096))
    front = volume(17, front=b"\x11" * 1024)
    yield updated("at an offset", front, DATA, some(DATA, (2,)))
    yield updated("at an offset, 17 to 1", front, DATA, DATA[:512])
    yield updated("without a journal", volume(17), DATA, some(DATA, (2,)), ["--journal", "none"])
    yield updated("a journal that is named", volume(17), DATA, some(DATA, (2,)), ["--journal", "kept"])


def plain(name, output, files=None, status=1, before=(), more=(), paths=("data", "hash", "new"), errors=None):
    """Words that change nothing."""
    return Case(f"update: {name}", ["update", *paths, *more], output, status,
                {"data": DATA, "hash": HASHES, "new": some(DATA, (5,)), **(files or {})}, before=before, errors=errors)


def refusals():
    new = "dalgovuun: new: "
    yield plain("NEW ragged", "refused S2\n", {"new": DATA + b"x"}, errors=[new + "the length is no multiple of the block size (S2)"])
    yield plain("NEW empty", "refused E3\n", {"new": b""})
    yield plain("no superblock", "refused E9 B2\n", {"hash": bytes(4096)})
    yield plain("another data block", "refused E8 level 1 index 0\n", {"data": flipped(DATA, 5000)})
    yield plain("a block of level 0", "refused E8 level 0 index 0\n", {"hash": flipped(HASHES, 1024)})
    yield plain("a longer data device", "refused E10\n", {"data": DATA + bytes(512)})
    yield plain("an offset that is no multiple of 512", "refused E12\n", more=["--hash-offset", "100"])
    yield plain("an offset that is no number", "error: the value of --hash-offset is not understood\n", status=2,
                more=["--hash-offset", "x"])
    for name, there in (("no NEW", ()), ("NEW a folder", (subfolder("new"),)), ("NEW a pipe", (pipe("new"),)),
                        ("NEW a symlink to nothing", (symlink("nothing", "new"),))):
        yield Case(f"update: {name}", ["update", "data", "hash", "new"], "refused S1\n", 1, {"data": DATA, "hash": HASHES}, before=there)
    yield Case("update: no DATA", ["update", "data", "hash", "new"], "refused S1\n", 1, {"new": DATA, "hash": HASHES})
    yield Case("update: no HASH", ["update", "data", "hash", "new"], "refused S1\n", 1, {"new": DATA, "data": DATA})
    for which, (name, other, before) in ((which, way) for which in ("data", "hash") for way in (
            ("by its path", which, ()), ("by a dot", "./" + which, ()), ("by its absolute path", "FOLDER/" + which, ()),
            ("by a symlink", "twin", (symlink(which, "twin"),)), ("by a hard link", "twin", (hard_link(which, "twin"),)))):
        yield plain(f"NEW is {which} {name}", NOT_UNDERSTOOD, status=2, before=before, paths=("data", "hash", other),
                    errors=["dalgovuun: NEW: another file than DATA and HASH"])
    for name, paths in (("DATA", ("", "hash", "new")), ("HASH", ("data", "", "new")), ("HASH", ("data", "data", "new"))):
        yield plain(f"the words {paths}", f"error: the value of {name} is not understood\n", status=2, paths=paths)
    for words in (["update", "data", "hash"], ["update", "data", "hash", "new", "more"]):
        yield Case(f"update: not understood, {words}", words, ["error: "], 2, {"data": DATA})


class Held(Case):
    """The same while another program has a lock on one of the files."""

    def __init__(self, name, which, lock, output, status, leaves=None):
        super().__init__(f"update: {name}", ["update", "data", "hash", "new"], output, status,
                         {"data": DATA, "hash": HASHES, "new": some(DATA, (5,))}, leaves)
        self.which, self.lock = which, lock

    def run(self, tool, folder):
        path = os.path.join(folder, self.which)
        with subprocess.Popen(["flock", self.lock, path, "sh", "-c", "echo held; exec sleep 60"], stdout=subprocess.PIPE) as other:
            other.stdout.readline()
            try:
                return super().run(tool, folder)
            finally:
                other.kill()


def locks():
    new = some(DATA, (5,))
    leaves = {"data": new, "hash": volume(17).device(new)}
    done = f"changed 1\ncommitted {volume(17).line(new)}\n"
    for which in ("data", "hash"):
        for lock in ("-s", "-x"):
            yield Held(f"{which} has a lock, {lock}", which, lock, f"refused S5 {which}\n", 1)
    yield Held("NEW is read by another", "new", "-s", done, 0, leaves)
    yield Held("NEW is written by another", "new", "-x", "refused S5 new\n", 1)


def cases():
    for table in (updates, refusals, locks):
        yield from table()
