"""`talk`: one session over standard input and output, and what is refused before it."""
import struct

from cases.case import UUID, Case, image
from cases.verifying import flipped
from nbd import (ACK, DISC, EINVAL, EIO, EPERM, ERR_INVALID, ERR_UNKNOWN, ERR_UNSUP, FLUSH, GREETING, INFO, READ, SERVER,
                 TRIM, WRITE, WRITE_ZEROES, exported, flags, go, gone, option, option_reply, reply, request)
from verity import Volume

VOLUME = Volume(17, b"\x00\xff", uuid=UUID)
DATA = image(17)
HASHES = VOLUME.device(DATA)
SIZE = len(DATA)
BEGUN = GREETING + exported(SIZE)
BEGIN = flags() + option(1)


def talk(name, said, heard, status=0, data=DATA, hashes=HASHES, volume=VOLUME, more=()):
    """A session that says `said` to a client that says `heard`."""
    words = ["talk", "--table", volume.line(DATA), "--name", "vol", *more]
    return Case(f"talk: {name}", words, said, status, {"data": data, "hash": hashes}, input=heard)


def read(offset, length, cookie=1):
    return request(READ, cookie, offset, length)


def bytes_at(offset, length, cookie=1):
    return reply(cookie, 0, DATA[offset:offset + length])


def negotiation():
    yield talk("nothing", GREETING, b"")
    yield talk("flags cut off", GREETING, b"\0\0")
    yield talk("the export's name", BEGUN, flags() + option(1, b"vol"))
    yield talk("the empty name", BEGUN, BEGIN)
    yield talk("zeroes behind the size", GREETING + exported(SIZE, zeroes=True), flags(1) + option(1))
    yield talk("no fixed newstyle", BEGUN, flags(2) + option(1))
    yield talk("GO without fixed newstyle", GREETING, flags(2) + go())
    yield talk("unknown flags", GREETING, flags(4) + option(1))
    yield talk("another name", GREETING, flags() + option(1, b"x") + read(0, 1))
    yield talk("LIST", GREETING + option_reply(3, SERVER, struct.pack(">I", 3) + b"vol") + option_reply(3, ACK),
               flags() + option(3))
    yield talk("LIST with data", GREETING + option_reply(3, ERR_INVALID), flags() + option(3, b"\0"))
    yield talk("GO", GREETING + gone(SIZE), flags() + go())
    sizes = option_reply(7, INFO, struct.pack(">HIII", 3, 1, 512, 33554432))
    first, last = gone(SIZE)[:32], gone(SIZE)[32:]
    yield talk("GO for the block size", GREETING + first + sizes + last, flags() + go(b"vol", 3))
    yield talk("GO for the block size, twice, and for more", GREETING + first + sizes + last, flags() + go(b"vol", 1, 3, 3))
    yield talk("GO for another name", GREETING + option_reply(7, ERR_UNKNOWN), flags() + go(b"x"))
    yield talk("INFO, then GO", GREETING + gone(SIZE, 6) + gone(SIZE), flags() + go(b"vol", number=6) + go(b"vol"))
    yield talk("INFO cut short", GREETING + option_reply(6, ERR_INVALID), flags() + option(6, bytes(4)))
    for number in (5, 8, 9, 10):
        yield talk(f"option {number}", GREETING + option_reply(number, ERR_UNSUP) + gone(SIZE),
                   flags() + option(number, b"data") + go())
    yield talk("65,536 bytes of data", GREETING + option_reply(10, ERR_UNSUP), flags() + option(10, bytes(65536)))
    yield talk("65,537 bytes of data", GREETING, flags() + option(10, bytes(65537)))
    yield talk("ABORT", GREETING + option_reply(2, ACK), flags() + option(2, b"bye") + go())
    yield talk("a wrong magic", GREETING, flags() + b"IHAVEOPU" + bytes(8) + go())


def transmission():
    yield talk("READ of the last byte", BEGUN + bytes_at(8703, 1), BEGIN + read(8703, 1))
    yield talk("READ of all", BEGUN + bytes_at(0, SIZE, 9), BEGIN + read(0, SIZE, 9))
    yield talk("READs in flight", BEGUN + b"".join(bytes_at(511 * n, 700, n) for n in range(14)),
               BEGIN + b"".join(read(511 * n, 700, n) for n in range(14)))
    yield talk("READ past the end", BEGUN + reply(1, EINVAL), BEGIN + read(8703, 2))
    yield talk("READ of nothing at the end", BEGUN + reply(), BEGIN + read(8704, 0))
    yield talk("READ of nothing past the end", BEGUN + reply(1, EINVAL), BEGIN + read(8705, 0))
    yield talk("READ of too much", BEGUN + reply(1, EINVAL), BEGIN + read(0, 33554433))
    yield talk("READ from the largest offset", BEGUN + reply(1, EINVAL), BEGIN + read((1 << 64) - 1, 1))
    yield talk("READ with flags", BEGUN + reply(1, EINVAL), BEGIN + request(READ, 1, 0, 1, flags=1))
    yield talk("WRITE", BEGUN + reply(1, EPERM) + bytes_at(0, 1, 2),
               BEGIN + request(WRITE, 1, 0, 600) + b"\x25\x60\x95\x13" * 150 + read(0, 1, 2))
    yield talk("the longest WRITE", BEGUN + reply(1, EPERM) + bytes_at(0, 1, 2),
               BEGIN + request(WRITE, 1, 0, 33554432) + bytes(33554432) + read(0, 1, 2))
    yield talk("a longer WRITE", BEGUN, BEGIN + request(WRITE, 1, 0, 33554433) + read(0, 1))
    for kind, error in ((TRIM, EPERM), (WRITE_ZEROES, EPERM), (FLUSH, EINVAL), (5, EINVAL), (7, EINVAL)):
        yield talk(f"request {kind}", BEGUN + reply(1, error) + bytes_at(7, 3, 2),
                   BEGIN + request(kind, 1, 0, 512) + read(7, 3, 2))
    yield talk("DISC", BEGUN, BEGIN + request(DISC, 1, 5, 5, flags=9) + read(0, 1))
    yield talk("ten bytes of the first request", BEGUN, BEGIN + read(512, 512)[:10])
    yield talk("ten bytes of a request", BEGUN + bytes_at(0, 1), BEGIN + read(0, 1) + read(0, 1, 2)[:10])
    yield talk("a wrong magic in a request", BEGUN + bytes_at(0, 1), BEGIN + read(0, 1) + bytes(28) + read(0, 1, 2))


def cut():
    """A conversation cut after each of its bytes: a message is answered once it is whole, and not before."""
    messages = [(flags(), b""), (option(8), option_reply(8, ERR_UNSUP)), (go(), gone(SIZE)), (read(8703, 1), bytes_at(8703, 1))]
    heard = b"".join(message for message, _ in messages)
    for length in range(len(heard) + 1):
        said, end = GREETING, 0
        for message, answer in messages:
            end += len(message)
            said += answer if end <= length else b""
        yield talk(f"cut after {length} bytes", said, heard[:length])


def altered():
    """Whatever the two files hold, a READ is refused or carries the image's bytes."""
    yield talk("a bad data block", BEGUN + reply(1, EIO) + bytes_at(2048, 512, 2) + bytes_at(3072, 512, 3),
               BEGIN + read(2048, 1536) + read(2048, 512, 2) + read(3072, 512, 3), data=flipped(DATA, 5 * 512))
    yield talk("a bad block of level 0", BEGUN + b"".join(reply(n, EIO) for n in range(16)) + bytes_at(8192, 1, 16)
               + reply(17, EIO) + reply(18),
               BEGIN + b"".join(read(512 * n, 1, n) for n in range(17)) + read(8191, 2, 17) + read(0, 0, 18),
               hashes=flipped(HASHES, 1024))
    yield talk("a bad top block", BEGUN + reply(1, EIO) + reply(2, EIO), BEGIN + read(0, 1) + read(8703, 1, 2),
               hashes=flipped(HASHES, 512))
    yield talk("another superblock", BEGUN + bytes_at(0, SIZE), BEGIN + read(0, SIZE),
               hashes=Volume(2, uuid=UUID).superblock() + HASHES[512:])
    yield talk("rubbish in place of the superblock", BEGUN + bytes_at(0, SIZE), BEGIN + read(0, SIZE), hashes=b"\x02" * 512 + HASHES[512:])
    yield talk("a bit of a data block", BEGUN + reply(1, EIO) + bytes_at(2048, 512, 2), BEGIN + read(2048, 1536) + read(2048, 512, 2),
               data=flipped(DATA, 2567))
    yield talk("a bit of level 0", BEGUN + reply(1, EIO) + reply(2, EIO) + reply(3) + bytes_at(8192, 512, 4),
               BEGIN + read(0, 1) + read(8191, 2, 2) + read(0, 0, 3) + read(8192, 512, 4), hashes=flipped(HASHES, 1024))
    other = bytes(byte ^ 128 for byte in DATA)
    for cache in ("1", "4"):
        yield talk(f"both devices of another volume, a cache of {cache}", BEGUN + b"".join(reply(n, EIO) for n in range(4)),
                   BEGIN + b"".join(read(512 * block, 512, n) for n, block in enumerate((3, 3, 16, 16))),
                   data=other, hashes=VOLUME.device(other), more=["--cache", cache])
    wide = Volume(17, algorithm="sha512")
    yield talk("a bad block of level 0, sha512", BEGUN + reply(1, EIO) + bytes_at(4096, 512, 2),
               BEGIN + read(4095, 1) + read(4096, 512, 2), volume=wide, hashes=flipped(wide.device(DATA), 1024))
    for cache in ("1", "2", "65536"):
        yield talk(f"a cache of {cache}", BEGUN + bytes_at(0, SIZE), BEGIN + read(0, SIZE), more=["--cache", cache])


def refused(name, fault, table=None, export="vol", cache="1024", files=None, command=("talk",)):
    words = [*command, "--table", VOLUME.line(DATA) if table is None else table, "--name", export, "--cache", cache]
    return Case(f"{command[0]}: {name}", words, f"refused {fault}\n", 1,
                {"data": DATA, "hash": HASHES} if files is None else files, input=BEGIN)


def refusals(command=("talk",)):
    """What is refused before a session, in its order: the line, the name, the files, the verifier."""
    yield refused("no line", "L1", "x", "", "0", {}, command)
    yield refused("an empty name", "P1", export="", files={}, command=command)
    yield refused("a name of 256 bytes", "P1", export="x" * 256, command=command)
    yield refused("no data device", "S1", files={"hash": b"x"}, cache="0", command=command)
    yield refused("a ragged hash device", "S2", files={"data": DATA[512:], "hash": b"x"}, command=command)
    yield refused("a short data device", "V1", files={"data": DATA[512:], "hash": HASHES}, cache="0", command=command)
    for cache in ("0", "65537", "18446744073709551615"):
        yield refused(f"a cache of {cache}", "V5", cache=cache, command=command)
    for option in ("cache", "data-cache"):
        for cache in ("", "x", "+1", "18446744073709551616"):
            words = [*command, "--table", "x", "--name", "", f"--{option}={cache}"]
            yield Case(f"{command[0]}: {option} {cache!r}", words, f"error: the value of --{option} is not understood\n", 2)
    for blocks in ("65537", "18446744073709551615"):
        yield Case(f"{command[0]}: a data cache of {blocks}",
                   [*command, "--table", VOLUME.line(DATA), "--name", "vol", f"--data-cache={blocks}"], "refused V5\n", 1,
                   {"data": DATA, "hash": HASHES}, input=BEGIN)


def cases():
    for table in (negotiation, transmission, cut, altered, refusals):
        yield from table()
    name = "x" * 255
    yield Case("talk: a name of 255 bytes", ["talk", "--table", VOLUME.line(DATA), "--name", name], BEGUN, 0,
               {"data": DATA, "hash": HASHES}, input=flags() + option(1, name.encode()))
    yield Case("talk: an output that can't be written", ["talk", "--table", VOLUME.line(DATA), "--name", "vol"], "", 1,
               {"data": DATA, "hash": HASHES}, sink="/dev/full")
