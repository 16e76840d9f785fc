"""`format --slice` and `format --join`: the blocks of level 0, the table line, and what is refused; and `verify --slice`."""
from cases.case import UUID, Case, image
from cases.formatting import LARGEST, TOO_LARGE, words
from verity import Volume

PLAIN = dict(salt=b"\x00\xff", uuid=UUID)
MISREAD = "error: the value of --slice is not understood\n"
WANTED = "dalgovuun: --slice: K/N in decimal digits, the K-th of N, K from 1 to N, and N at most 65536; not beside --join"
UNCOVERED = ("dalgovuun: standard input: the slices leave blocks of level 0 out (J1); "
             "make the slices that are missing, and join again")
RUBBISH = b"\x77" * 512


class Slices:
    """A volume whose blocks are of 512 bytes, and the run of each of `count` slices."""

    def __init__(self, volume, count):
        self.volume, self.count = volume, count
        self.data = image(volume.blocks)
        self.device = volume.device(self.data)
        lengths = volume.lengths()
        self.leaves = lengths[0] if lengths else 0
        self.first = volume.start + sum(lengths[1:])

    def run(self, index):
        return self.leaves * (index - 1) // self.count, self.leaves * index // self.count

    def line(self, index):
        return "slice {} {}\n".format(*self.run(index))

    def after(self, index, before):
        """The hash device once a slice is made over another."""
        bytes_ = bytearray(before.ljust(len(self.device), b"\0"))
        first, end = (512 * (self.first + at) for at in self.run(index))
        bytes_[first:end] = self.device[first:end]
        return bytes(bytes_)

    def unjoined(self):
        """Level 0 as it should be behind blocks of rubbish, and more of these behind it."""
        front = self.volume.front
        between = RUBBISH * (self.first - len(front) // 512)
        return front + between + self.device[512 * self.first:] + 3 * RUBBISH

    def case(self, index, name, before, *more):
        files = {"data": self.data} if before is None else {"data": self.data, "hash": before}
        return Case(f"slice: {name}, {index} of {self.count}", words(*more, "--slice", f"{index}/{self.count}"), self.line(index),
                    files=files, leaves={"hash": self.after(index, before or b"")})

    def join(self, name, lines, *more, before=None):
        return Case(f"join: {name}", words(*more, "--join"), self.volume.line(self.data) + "\n",
                    files={"data": self.data, "hash": self.unjoined() if before is None else before},
                    leaves={"hash": self.device}, input=lines.encode())


def made():
    """Each changes its own blocks alone, whatever stands there."""
    for blocks, count in ((1, 1), (2, 1), (2, 3), (17, 2), (257, 4), (300, 17)):
        slices = Slices(Volume(blocks, **PLAIN), count)
        for index in sorted({1, (count + 1) // 2, count}):
            yield slices.case(index, f"{blocks} blocks, no HASH", None)
            yield slices.case(index, f"{blocks} blocks, a shorter HASH", RUBBISH * 2)
            yield slices.case(index, f"{blocks} blocks, a longer HASH", RUBBISH * 60)
    wide = Slices(Volume(40, algorithm="sha512", **PLAIN), 3)
    yield wide.case(2, "sha512", None, "--algorithm", "sha512")
    behind = Slices(Volume(40, front=b"\x11" * 1024, **PLAIN), 2)
    yield behind.case(2, "an offset", b"\x11" * 1024, "--hash-offset", "1024")
    yield behind.case(1, "an offset and rubbish behind", b"\x11" * 1024 + RUBBISH * 9, "--hash-offset", "1024")
    many = Slices(Volume(40, **PLAIN), 65536)
    yield many.case(65536, "as many slices as there may be", None)
    yield many.case(1, "a slice of no block", None)


def joined():
    for blocks, count in ((1, 1), (2, 1), (16, 2), (17, 2), (257, 4), (300, 17)):
        slices = Slices(Volume(blocks, **PLAIN), count)
        lines = [slices.line(index) for index in range(1, count + 1)]
        yield slices.join(f"{blocks} blocks, {count} slices", "".join(lines))
        yield slices.join(f"{blocks} blocks, {count} slices, from the last to the first, twice", "".join(2 * lines[::-1]))
    slices = Slices(Volume(40, **PLAIN), 2)
    yield slices.join("runs that overlap, and other lines", "\nslice 0 2\nfoo\nslice 1\nslice 1 3 \nslice x 9\nslice 1 3")
    yield slices.join("a run past the end", "slice 0 18446744073709551615\n")
    yield Slices(Volume(40, algorithm="sha512", **PLAIN), 1).join("sha512", "slice 0 5\n", "--algorithm", "sha512")
    yield Slices(Volume(40, front=b"\x11" * 1024, **PLAIN), 1).join("an offset", "slice 0 3\n", "--hash-offset", "1024")
    one = Slices(Volume(1, **PLAIN), 1)
    yield one.join("one block, which no slice has to be made for", "", before=b"")


def refused():
    slices = Slices(Volume(40, **PLAIN), 3)
    files = {"data": slices.data, "hash": slices.unjoined()}
    for name, lines in (("nothing", ""), ("the first left out", "slice 1 2\nslice 2 3\n"), ("the last left out", "slice 1 2\nslice 0 1\n"),
                        ("one between left out", "slice 0 1\nslice 2 3\n"), ("runs of nothing", "slice 0 0\nslice 3 3\n"),
                        ("other lines", "slice 0 3 \nSLICE 0 3\nslice  0 3\n0 3\n")):
        yield Case(f"join: {name}", words("--join"), "refused J1\n", 1, files, input=lines.encode(), errors=[UNCOVERED])
    yield Case("join: no HASH", words("--join"), "refused S1\n", 1, {"data": slices.data}, {"hash": None}, input=b"slice 0 3\n")
    yield Case("join: an empty DATA before the slices", words("--join"), "refused U1 M2\n", 1, {"data": b"", "hash": RUBBISH})
    yield Case("join: an offset between blocks", words("--join", "--hash-offset", "100"), "refused U4\n", 1, files,
               input=b"slice 0 3\n")
    yield Case("slice: no DATA", words("--slice", "1/2"), "refused S1\n", 1, {}, {"hash": None})
    yield Case("slice: an empty DATA", words("--slice", "1/2"), "refused U1 M2\n", 1, {"data": b"", "hash": RUBBISH})
    yield Case("slice: an offset between blocks", words("--slice", "1/2", "--hash-offset", "100"), "refused U4\n", 1, files)
    yield Case("slice: an offset of no device", words("--slice", "1/2", "--hash-offset", "1024"), "refused S1\n", 1,
               {"data": slices.data}, {"hash": None})
    yield Case("slice: a ragged HASH", words("--slice", "1/2"), "refused S2\n", 1, {"data": slices.data, "hash": bytes(700)})


def verified():
    """A volume of 40 data blocks, 3 hash blocks of level 0 and one of level 1: its three slices have 13, 13 and 14 data blocks."""
    slices = Slices(Volume(40, **PLAIN), 3)
    line = slices.volume.line(slices.data)
    top, second = slices.volume.start, slices.first + 1

    def case(name, asked, lines, data=None, hashes=None):
        files = {"data": slices.data if data is None else data, "hash": slices.device if hashes is None else hashes}
        return Case(f"verify --slice: {name}, {asked}", ["verify", "--table", line, "--slice", asked],
                    "".join(text + "\n" for text in lines), 0 if lines[-1] == "verified" else 1, files)

    def altered(bytes_, block):
        return bytes_[:512 * block] + bytes([bytes_[512 * block] ^ 1]) + bytes_[512 * block + 1:]

    right = ["unchecked 0", "verified"]
    for asked in ("1/1", "1/3", "2/3", "3/3", "1/65536", "65536/65536", "02/003"):
        yield case("sound", asked, right)
    for index, lines in ((1, right), (2, ["bad data 20", "unchecked 0", "corrupt"]), (3, right)):
        yield case("a bad data block", f"{index}/3", lines, data=altered(slices.data, 20))
    for index, unchecked in ((1, None), (2, 10), (3, 6)):
        lines = right if unchecked is None else ["bad level 0 index 1", f"unchecked {unchecked}", "corrupt"]
        yield case("a bad block of level 0", f"{index}/3", lines, hashes=altered(slices.device, second))
    for index, unchecked in ((1, 14), (2, 15), (3, 16)):
        yield case("a bad top", f"{index}/3", ["bad level 1 index 0", f"unchecked {unchecked}", "corrupt"],
                   hashes=altered(slices.device, top))
    yield case("no block of it below a bad one", "1/65536", right, hashes=altered(slices.device, top))
    short = {"data": slices.data[:-512], "hash": slices.device}
    yield Case("verify --slice: a short DATA", ["verify", "--table", line, "--slice", "1/3"], "refused V1\n", 1, short)
    yield Case("verify --slice: no HASH", ["verify", "--table", line, "--slice", "1/3"], "refused S1\n", 1, {"data": slices.data})
    for text in ("", "1", "0/1", "2/1", "1/65537", "1/2/3"):
        yield Case(f"verify --slice: {text!r}", ["verify", "--table", line, f"--slice={text}"], MISREAD, 2, errors=[WANTED])


def values():
    data = {"data": image(2)}
    for text in ("", "1", "1/", "/1", "0/1", "2/1", "1/0", "a/b", "1/65537", "-1/2", "+1/2", "1/2/3", "1 /2", f"1/{LARGEST}",
                 f"{TOO_LARGE}/{TOO_LARGE}"):
        yield Case(f"slice: {text!r}", words(f"--slice={text}"), MISREAD, 2, data, {"hash": None}, errors=[WANTED])
    yield Case("slice: beside --join", words("--slice", "1/2", "--join"), MISREAD, 2, data, {"hash": None}, errors=[WANTED])
    yield Case("slice: leading zeros", words("--slice", "01/001"), "slice 0 1\n", files=data,
               leaves={"hash": Slices(Volume(2, **PLAIN), 1).after(1, b"")})


def cases():
    for table in (made, joined, refused, verified, values):
        yield from table()
