"""`edit`, and the script of the run without words: answers line by line, and both devices made from scratch."""
import re

from cases.case import UUID, Case, image
from cases.formatting import WORKED, numbered
from cases.verifying import flipped
from verity import Volume

SALT = b"\x00\xff"
MOST_BLOCKS = 1 << 40

# Blocks that are written twice, added and dropped again, dropped while they are pending; counts across a level; a discard.
ALL_KINDS = "\n".join((
    "fill 0 01", "fill 16 02", "fill 0 03", "commit", "grow 300", "fill 299 04", "commit", "shrink 20", "grow 40", "fill 30 05",
    "shrink 33", "commit", "fill 2 06", "discard", "commit", "shrink 1", "commit", "grow 18", "commit", "shrink 17", "fill 16 07",
    "commit", ""))


class Edited:
    """A volume under a script: what each line is answered, and what was committed last."""

    def __init__(self, volume, data, paths=("data", "hash")):
        self.volume, self.paths = volume, paths
        size = volume.data_size
        self.committed = [data[place:place + size] for place in range(0, len(data), size)]
        self.working = list(self.committed)

    def answer(self, text):
        """The answer to a line; None to an empty one."""
        word, *rest = text.split(" ")
        numbered = len(rest) >= 1 and re.fullmatch("[0-9]{1,20}", rest[0]) and int(rest[0]) < 1 << 64
        digits = rest[1] if len(rest) == 2 else None
        if text == "":
            return None
        if text == "discard":
            self.working = list(self.committed)
            return "ok"
        if text == "commit":
            self.committed = list(self.working)
            return "committed " + self.line()
        if word == "grow" and len(rest) == 1 and numbered:
            return self.grown(int(rest[0]))
        if word == "shrink" and len(rest) == 1 and numbered:
            return self.shrunk(int(rest[0]))
        if word == "write" and digits and numbered and re.fullmatch("([0-9a-fA-F]{2})+", digits):
            return self.written(int(rest[0]), bytes.fromhex(digits))
        if word == "fill" and digits and numbered and re.fullmatch("[0-9a-fA-F]{2}", digits):
            return self.written(int(rest[0]), bytes.fromhex(digits) * self.volume.data_size)
        return "bad line"

    def grown(self, count):
        if not len(self.working) < count <= MOST_BLOCKS:
            return "refused E4"
        self.working += [bytes(self.volume.data_size)] * (count - len(self.working))
        return "ok"

    def shrunk(self, count):
        if not 0 < count < len(self.working):
            return "refused E3"
        self.working = self.working[:count]
        return "ok"

    def written(self, number, block):
        if number >= len(self.working):
            return "refused E1"
        if len(block) != self.volume.data_size:
            return "refused E2"
        self.working[number] = block
        return "ok"

    def made(self):
        """The committed volume's parameters."""
        old = self.volume
        return Volume(len(self.committed), old.salt, old.data_size, old.hash_size, old.algorithm, old.front, old.uuid)

    def image(self):
        return b"".join(self.committed)

    def line(self):
        return self.made().line(self.image(), *self.paths)

    def answers(self, script):
        given = [self.answer(text) for text in script.split("\n")]
        return [answer for answer in given if answer is not None]


def status_of(answers):
    return 1 if any(answer == "bad line" or answer.startswith("refused") for answer in answers) else 0


def edited(name, volume, script, data=None, hashes=None):
    """A script over a volume, and what it leaves: both devices as made from scratch of the committed image."""
    data = image(volume.blocks, volume.data_size) if data is None else data
    edits = Edited(volume, data)
    answers = edits.answers(script)
    words = ["edit", "data", "hash", "script"]
    if volume.front:
        words += ["--hash-offset", str(len(volume.front))]
    return Case(f"edit: {name}", words, "".join(answer + "\n" for answer in answers), status_of(answers),
                {"data": data, "hash": volume.device(data) if hashes is None else hashes, "script": script.encode()},
                {"data": edits.image(), "hash": edits.made().device(edits.image())})


def volume(blocks, **more):
    return Volume(blocks, SALT, uuid=UUID, **more)


def edits():
    yield edited("a commit without edits", volume(17), "commit\n")
    yield edited("no last line feed", volume(17), "fill 3 AA\ncommit")
    yield edited("an empty script", volume(17), "")
    yield edited("edits that aren't committed", volume(17), "fill 3 aa\ngrow 300\n")
    yield edited("a block", volume(17), f"write 16 {'5a' * 512}\ncommit\nwrite 0 {'A5' * 512}\nwrite 0 {'a5' * 512}\ncommit\n")
    for before, after in ((16, 17), (17, 16), (256, 257), (257, 256), (1, 257), (257, 17), (17, 1), (1, 2), (2, 1), (257, 1)):
        word = "grow" if before < after else "shrink"
        yield edited(f"{word} {before} to {after}", volume(before), f"{word} {after}\ncommit\ncommit\n")
    yield edited("shrink 4097 to 256", volume(4097), "shrink 256\ncommit\ncommit\n")
    yield edited("grow and shrink back", volume(256), "grow 257\ncommit\nshrink 256\ncommit\n")
    yield edited("blocks that come back are zeros", volume(3), "shrink 1\ngrow 3\ncommit\n", b"\xaa" * 1536)
    yield edited("a discard", volume(17), "shrink 2\nfill 0 01\ndiscard\nfill 1 02\ncommit\n")
    for blocks in (17, 257):
        yield edited(f"all kinds, over {blocks}", volume(blocks), ALL_KINDS, numbered(volume(blocks)))
    for one, _, digest in WORKED:
        yield edited(f"worked, device {digest[:8]}", one, "commit\n", numbered(one))
    yield edited("sha512, grow 8 to 9", volume(8, algorithm="sha512"), "grow 9\ncommit\nfill 8 07\ncommit\n")
    yield edited("larger blocks", volume(130, data_size=4096, hash_size=1024), "grow 1025\nfill 1024 09\ncommit\nshrink 32\ncommit\n")
    front = volume(17, front=b"\x11" * 1024)
    yield edited("at an offset, shrink to 1", front, "shrink 1\ncommit\n")
    yield edited("at an offset, grow", front, "grow 300\nfill 299 08\ncommit\n")
    rubbish = bytearray(volume(17).device(image(17)) + b"\x77" * 1024)
    rubbish[82:88] = b"\x77" * 6
    rubbish[344:512] = b"\x77" * 168
    yield edited("rubbish in the pads and behind the tree", volume(17), "commit\n", hashes=bytes(rubbish))


def refusals():
    yield edited("blocks that aren't there", volume(17), "fill 17 00\nfill 18446744073709551615 00\nfill 16 00\ncommit\n")
    yield edited("wrong lengths", volume(17), f"write 0 00\nwrite 0 {'00' * 513}\nwrite 17 00\ncommit\n")
    yield edited("counts that don't shrink", volume(17), "shrink 0\nshrink 17\nshrink 18\nshrink 16\nshrink 16\ncommit\n")
    yield edited("counts that don't grow", volume(17),
                 f"grow 17\ngrow 0\ngrow 1099511627777\ngrow 18446744073709551615\ngrow 18\ngrow 18\ncommit\n")
    yield edited("each rule, then a block", volume(17), "shrink 0\nshrink 17\ngrow 17\ngrow 1099511627777\nfill 17 01\n"
                 f"write 16 {'01' * 511}\nfill 16 01\ncommit\ncommit\n")
    yield edited("bad lines", volume(17), "\n".join((
        "", "x", "Commit", " commit", "commit ", "commit\r", "\r", "grow", "grow ", "grow  18", "grow 18 ", "grow x", "grow +18",
        "grow -1", "grow 000000000000000000018", "grow 18446744073709551616", "grow 18 19", "fill 0", "fill 0 f", "fill 0 fff",
        "fill 0 0g", "fill 0 ff ff", "fill x ff", "write 0", "write 0 ", "write 0 f", "write 0 0x", "write 0 00 00", "discard now",
        "", "grow 00000000000000000018", "commit", "")))


def plain(name, output, status=1, files=None, leaves=None, more=()):
    """Words that end before a line is done."""
    data = image(17)
    return Case(f"edit: {name}", ["edit", "data", "hash", "script", *more], output + "\n", status,
                {"data": data, "hash": volume(17).device(data), "script": b"shrink 1\ncommit\n"} if files is None else files,
                leaves)


def before():
    data, script = image(17), b"shrink 1\ncommit\n"
    hashes = volume(17).device(data)
    yield plain("no script", "refused S1", files={"data": data, "hash": hashes})
    yield plain("no data device", "refused S1", files={"hash": hashes, "script": script})
    yield plain("no hash device", "refused S1", files={"data": data, "script": script})
    yield plain("a ragged data device", "refused S2", files={"data": data + b"x", "hash": hashes, "script": script})
    yield plain("a ragged hash device", "refused S2", files={"data": data, "hash": hashes + b"x", "script": script})
    yield plain("an empty hash device", "refused E9 B1", files={"data": data, "hash": b"", "script": script})
    for fault, place, byte in (("B2", 0, 0), ("B3", 8, 2), ("B4", 12, 0), ("B5", 32, 0), ("B6", 65, 1), ("B7", 77, 1), ("B8", 81, 2)):
        altered = hashes[:place] + bytes([byte]) + hashes[place + 1:]
        yield plain(f"no superblock, {fault}", f"refused E9 {fault}", files={"data": data, "hash": altered, "script": script})
    yield plain("a longer data device", "refused E10", files={"data": data + bytes(512), "hash": hashes, "script": script})
    yield plain("a shorter data device", "refused E10", files={"data": data[512:], "hash": hashes, "script": script})
    yield plain("another data block", "refused E8 level 1 index 0", files={"data": flipped(data, 5000), "hash": hashes, "script": script})
    yield plain("another top block", "refused E8 level 1 index 0", files={"data": data, "hash": flipped(hashes, 600), "script": script})
    yield plain("a block of level 0", "refused E8 level 0 index 0", files={"data": data, "hash": flipped(hashes, 1024), "script": script})
    yield plain("the last byte of the tree", "refused E8 level 0 index 1", files={"data": data, "hash": flipped(hashes, 2047), "script": script})
    yield plain("a superblock of another count", "refused E10", files={"data": data, "hash": flipped(hashes, 72), "script": script})
    yield plain("a short hash device", "refused E8 level 0 index 1", files={"data": data, "hash": hashes[:-512], "script": script})
    yield plain("an offset that is no multiple of 512", "refused E12", more=["--hash-offset", "100"])
    yield plain("an offset past the end", "refused E9 B1", more=["--hash-offset", "2048"])
    larger = volume(17, hash_size=1024)
    yield plain("an offset between hash blocks", "refused E12", more=["--hash-offset", "512"],
                files={"data": data, "hash": bytes(512) + larger.superblock(), "script": script})
    for name, paths in (("DATA", ("", "hash")), ("DATA", ("da ta", "hash")), ("HASH", ("data", "")), ("HASH", ("data", "data"))):
        yield Case(f"edit: the words {paths}", ["edit", *paths, "none"], f"error: the value of {name} is not understood\n", 2)
    yield Case("edit: an offset that is no number", ["edit", "data", "hash", "none", "--hash-offset", "x"],
               "error: the value of --hash-offset is not understood\n", 2)


def scratch():
    """The run without words: a volume of one zero block in memory, and its input as a script."""
    zeros = Volume(1, data_size=1024)
    for name, script in (("no input", ""), ("an input", "fill 0 ff\ngrow 17\nshrink 1\nfill 0 00\ncommit\ngrow 2\ndiscard\ncommit\n"),
                         ("refusals", "grow 1\nx\nfill 1 00\ngrow 300\ncommit\n")):
        edits = Edited(zeros, bytes(1024), ("scratch-data", "scratch-hash"))
        first = edits.line()
        assert first.endswith(" 5f70bf18a086007016e948b04aed3b82103a36bea41755b6cddfaf10ace3c6ef -")
        answers = edits.answers(script)
        yield Case(f"no words: {name}", [], "".join(line + "\n" for line in [first, *answers]), status_of(answers),
                   input=script.encode())


def cases():
    for table in (edits, refusals, before, scratch):
        yield from table()
    data = image(17)
    yield Case("edit: a line that is no text", ["edit", "data", "hash", "script"], "bad line\nbad line\n", 1,
               {"data": data, "hash": volume(17).device(data), "script": b"\xff\ncommit\xc0"})
