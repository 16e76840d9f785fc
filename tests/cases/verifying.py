"""`verify`: what is reported of sound, altered, swapped and cut volumes, and what is refused."""
from cases.case import UUID, Case, image
from verity import Volume

SMALL = Volume(17, b"\x00\xff", uuid=UUID)
WIDE = Volume(17, b"\x00\xff", algorithm="sha512", uuid=UUID)
DEEP = Volume(257, uuid=UUID)


def flipped(bytes_, place):
    """These bytes with one bit of the byte at a place turned over."""
    return bytes_[:place] + bytes([bytes_[place] ^ 4]) + bytes_[place + 1:]


def seen(name, line, lines, data, hashes, status=0):
    """A report: its lines, of which the last is 'verified' or 'corrupt'."""
    return Case(f"verify: {name}", ["verify", "--table", line], "".join(text + "\n" for text in lines), status,
                {"data": data, "hash": hashes})


def sound(name, volume, data=None, hashes=None, line=None):
    made = image(volume.blocks, volume.data_size)
    return seen(name, line or volume.line(made), ["unchecked 0", "verified"],
                made if data is None else data, volume.device(made) if hashes is None else hashes)


def corrupt(name, volume, lines, unchecked, data_place=None, hash_place=None):
    """A volume of which one bit is altered, in a data block or in a block of the hash device."""
    data = image(volume.blocks, volume.data_size)
    line, hashes = volume.line(data), volume.device(data)
    if data_place is not None:
        data = flipped(data, data_place * volume.data_size + 17)
    if hash_place is not None:
        hashes = flipped(hashes, hash_place * volume.hash_size + 17)
    return seen(name, line, [*lines, f"unchecked {unchecked}", "corrupt"], data, hashes, 1)


def reports():
    for volume in (SMALL, WIDE, DEEP, Volume(1), Volume(2), Volume(16), Volume(300, data_size=4096, hash_size=1024),
                   Volume(129, b"\x5a" * 256, 4096, 4096, uuid=UUID), Volume(17, front=b"\x11" * 1024)):
        yield sound(f"{volume.blocks} blocks, {volume.algorithm}, start {volume.start}", volume)
    yield corrupt("a data block", SMALL, ["bad data 5"], 0, data_place=5)
    yield corrupt("a block of level 0", SMALL, ["bad level 0 index 0"], 16, hash_place=2)
    yield corrupt("the top block", SMALL, ["bad level 1 index 0"], 19, hash_place=1)
    yield corrupt("a data block, sha512", WIDE, ["bad data 5"], 0, data_place=5)
    yield corrupt("a block of level 0, sha512", WIDE, ["bad level 0 index 0"], 8, hash_place=2)
    yield corrupt("the top block, sha512", WIDE, ["bad level 1 index 0"], 20, hash_place=1)
    yield corrupt("the last block of level 0", SMALL, ["bad level 0 index 1"], 1, hash_place=3)
    yield corrupt("a data block below a bad one", SMALL, ["bad level 0 index 0"], 16, data_place=5, hash_place=2)
    yield corrupt("a data block beside a bad one", SMALL, ["bad level 0 index 0", "bad data 16"], 16,
                  data_place=16, hash_place=2)
    yield corrupt("a block between the levels", DEEP, ["bad level 1 index 0"], 16 + 256, hash_place=2)
    yield corrupt("the one block", Volume(1), ["bad data 0"], 0, data_place=0)
    data, hashes = image(17), SMALL.device(image(17))
    yield seen("swapped blocks of level 0", SMALL.line(data),
               ["bad level 0 index 0", "bad level 0 index 1", "unchecked 17", "corrupt"],
               data, hashes[:1024] + hashes[1536:] + hashes[1024:1536], 1)


def lines():
    """What is trusted is the line, and no superblock."""
    data, hashes = image(32), Volume(32, uuid=UUID).device(image(32))
    yield sound("a superblock of two blocks", Volume(32, uuid=UUID), hashes=Volume(2, uuid=UUID).superblock() + hashes[512:])
    yield sound("no superblock's block", Volume(32), hashes=hashes[512:],
                line=Volume(32).line(data).replace(" 1 sha256", " 0 sha256"))
    yield seen("a count that the root doesn't bind", Volume(2, uuid=UUID).line(hashes[1024:]), ["unchecked 0", "verified"],
               hashes[1024:], hashes)
    yield sound("a longer data device", SMALL, data=image(17) + bytes(700 * 512))
    yield sound("a longer hash device", SMALL, hashes=SMALL.device(image(17)) + b"\x77" * 512)
    yield sound("no hash device's block", Volume(1), hashes=b"")
    yield sound("leading zeros", SMALL, line=SMALL.line(image(17)).replace(" 512 512 17 ", " 0512 00512 017 "))
    first, last = SMALL.line(image(17)).rsplit(" sha256 ", 1)
    yield sound("a root in capitals", SMALL, line=f"{first} sha256 {last.upper()}")
    both = data + hashes
    line = Volume(32, front=data).line(data, "data", "data")
    yield seen("both devices in one file", line, ["unchecked 0", "verified"], both, b"")


def changed(field, text):
    """The table line with one field changed, counted from 0."""
    fields = SMALL.line(image(17)).split(" ")
    fields[field] = text
    return " ".join(fields)


def refused(name, fault, line, files=None):
    data = image(17)
    return Case(f"verify: {name}", ["verify", "--table", line], f"refused {fault}\n", 1,
                {"data": data, "hash": SMALL.device(data)} if files is None else files)


def refusals():
    line = SMALL.line(image(17))
    for bad in (line.rsplit(" ", 1)[0], line + " more", line + " ", " " + line, line.replace(" 17 ", "  17 "), ""):
        yield refused(f"fields of {bad!r}", "L1", bad)
    for fault, field, texts in (
            ("L2", 0, ("0", "01", "2", "x")),
            ("L3", 3, ("x", "+512", "5e2", "1" * 21, "18446744073709551616")),
            ("L3", 5, ("x", "-1")), ("L3", 6, ("0x1",)),
            ("L4", 3, ("0", "256", "513", "1048576")), ("L4", 4, ("0", "513")),
            ("L5", 5, ("0", "1099511627777")), ("L5", 6, ("1099511627777",)),
            ("L6", 7, ("sha1", "SHA256", "sha2567")),
            ("L7", 8, ("0" * 63, "0" * 65, "g" * 64)), ("L7", 7, ("sha512",)),
            ("L8", 9, ("000", "0g", "none", "00" * 257))):
        for text in texts:
            yield refused(f"field {field} is {text!r}", fault, changed(field, text))
    yield refused("the line before the files", "L5", changed(5, "0"), {})
    data, hashes = image(17), SMALL.device(image(17))
    yield refused("no data device", "S1", line, {"hash": hashes})
    yield refused("no hash device", "S1", line, {"data": data})
    yield refused("a ragged data device", "S2", line, {"data": data + b"x", "hash": hashes})
    yield refused("a ragged data device before a missing hash device", "S2", line, {"data": data + b"x"})
    yield refused("a ragged hash device", "S2", line, {"data": data, "hash": hashes + b"x"})
    yield refused("a short data device", "V1", line, {"data": data[512:], "hash": hashes})
    yield refused("a short hash device", "V1", line, {"data": data, "hash": hashes[512:]})
    yield refused("a start past the device", "V1", changed(6, "2"))


def cases():
    for table in (reports, lines, refusals):
        yield from table()
    data = image(17)
    yield Case("verify: an output that can't be written", ["verify", "--table", SMALL.line(data)], "", 1,
               {"data": data, "hash": SMALL.device(data)}, sink="/dev/full")
    yield Case("verify: no table line", ["verify"], ["error: ", "--table <LINE>"], 2)
