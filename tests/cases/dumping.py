"""`dump`: the superblock's lines, and what is refused."""
from cases.case import UUID, Case
from verity import Volume

WORKED = """version 1
hash_type 1
uuid 01234567-89ab-cdef-0123-456789abcdef
algorithm sha256
data_block_size 512
hash_block_size 512
data_blocks 17
salt 00ff
levels 2
level 1 start 1 blocks 1
level 0 start 2 blocks 2
hash_blocks 4
"""

# cryptsetup's on-disk format, by the offsets of its fields.
VECTOR = (bytes.fromhex("7665726974790000" "01000000" "01000000" "0123456789abcdef0123456789abcdef" "736861323536")
          + bytes(26) + bytes.fromhex("00040000" "00020000" "0100000000000000" "0000") + bytes(430))


def changed(offset, bytes_, volume=None):
    """A superblock in which these bytes stand at this offset."""
    block = (volume or Volume(17, salt=b"\x00\xff", uuid=UUID)).superblock()
    return block[:offset] + bytes_ + block[offset + len(bytes_):]


def printed(name, output, device, *more):
    return Case(f"dump: {name}", ["dump", "hash", *more], output, files={"hash": device})


def refused(name, fault, device, *more):
    files = {} if device is None else {"hash": device}
    return Case(f"dump: {name}", ["dump", "hash", *more], f"refused {fault}\n", 1, files)


def sound():
    yield printed("a worked volume", WORKED, changed(0, b""))
    yield printed("the format's vector", Volume(1, data_size=1024, uuid=UUID).dump(), VECTOR)
    for blocks in (1, 2, 16, 17, 256, 257, 1 << 40):
        volume = Volume(blocks, uuid=UUID)
        yield printed(f"{blocks} blocks", volume.dump(), volume.superblock())
    for algorithm, levels in (("sha256", [(1, 1), (2, 16), (18, 2048)]), ("sha512", [(1, 1), (2, 64), (66, 4096)])):
        volume = Volume(262144, b"\x5a" * 256, 4096, 4096, algorithm, uuid=UUID)
        lines = [f"level {2 - place} start {start} blocks {blocks}\n" for place, (start, blocks) in enumerate(levels)]
        yield printed(f"three levels of {algorithm}", ["levels 3\n", "".join(lines)], volume.superblock())
        yield printed(f"a salt of 256 bytes, {algorithm}", volume.dump(), volume.superblock())
    largest = Volume(1 << 40, b"\x5a" * 256, 524288, 524288, "sha512", uuid=UUID)
    yield printed("the largest volume", largest.dump(), largest.superblock())
    yield printed("rubbish in the pads and behind", WORKED,
                  changed(82, b"\x77" * 6)[:90] + b"\x77" * 422 + b"\x77" * 512)
    yield printed("rubbish behind the algorithm", WORKED, changed(38, b"\0rubbish"))
    front = Volume(17, b"\x00\xff", front=b"\x11" * 1024, uuid=UUID)
    worked = WORKED.replace("start 2", "start 4").replace("start 1", "start 3").replace("hash_blocks 4", "hash_blocks 6")
    yield printed("offset 1024", worked, front.front + front.superblock(), "--hash-offset", "1024")


def refusals():
    yield refused("no file", "S1", None)
    yield refused("an empty file", "B1", b"")
    yield refused("a ragged file", "S2", bytes(511))
    yield refused("a wrong signature", "B2", changed(7, b"x"))
    yield refused("a wrong signature and a wrong version", "B2", changed(0, b"x" * 12))
    yield refused("a wrong version", "B3", changed(8, b"\2"))
    yield refused("a wrong version and hash type", "B3", changed(8, b"\2\0\0\0\0"))
    yield refused("hash type 0", "B4", changed(12, b"\0"))
    for name in (b"SHA256\0", b"sha256x\0", b"sha1\0\0\0", b"x" * 32):
        yield refused(f"algorithm {name!r}", "B5", changed(32, name))
    for size in (0, 256, 768, 1048576):
        yield refused(f"data blocks of {size} bytes", "B6", changed(64, size.to_bytes(4, "little")))
        yield refused(f"hash blocks of {size} bytes", "B6", changed(68, size.to_bytes(4, "little")))
    for blocks in (0, (1 << 40) + 1, (1 << 64) - 1):
        yield refused(f"{blocks} blocks", "B7", changed(72, blocks.to_bytes(8, "little")))
    yield refused("a salt of 257 bytes", "B8", changed(80, (257).to_bytes(2, "little")))


def offsets():
    block = changed(0, b"")
    yield refused("an offset that is no multiple of 512", "B10", block, "--hash-offset", "100")
    yield refused("such an offset past the end", "B10", block, "--hash-offset", "513")
    yield refused("an offset at the end", "B1", block, "--hash-offset", "512")
    yield refused("an offset past the end", "B1", block, "--hash-offset", "562949953421312")
    larger = Volume(17, hash_size=1024, uuid=UUID)
    yield refused("an offset between hash blocks", "B10", bytes(512) + larger.superblock(), "--hash-offset", "512")
    yield refused("no superblock at the offset", "B2", bytes(1024), "--hash-offset", "512")
    for number in ("", "x", "+512", "-512", "18446744073709551616"):
        yield Case(f"dump: offset {number!r}", ["dump", "hash", f"--hash-offset={number}"],
                   "error: the value of --hash-offset is not understood\n", 2, {"hash": block})


def cases():
    for table in (sound, refusals, offsets):
        yield from table()
    yield Case("dump: an output that can't be written", ["dump", "hash"], "", 1, {"hash": changed(0, b"")},
               sink="/dev/full")
