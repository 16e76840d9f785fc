"""NBD's messages as bytes, by the numbers of its protocol page (`proto.md`)."""
import struct

GREETING = b"NBDMAGIC" + b"IHAVEOPT" + struct.pack(">H", 3)
EPERM, EIO, EINVAL = 1, 5, 22
READ, WRITE, DISC, FLUSH, TRIM, WRITE_ZEROES = 0, 1, 2, 3, 4, 6
ACK, SERVER, INFO = 1, 2, 3
ERR_UNSUP, ERR_INVALID, ERR_UNKNOWN = 0x80000001, 0x80000003, 0x80000006


def flags(number=3):
    return struct.pack(">I", number)


def option(number, data=b""):
    return b"IHAVEOPT" + struct.pack(">II", number, len(data)) + data


def go(name=b"", *kinds, number=7):
    """GO, or by another number INFO: a name and the types that are asked for."""
    return option(number, struct.pack(">I", len(name)) + name + struct.pack(f">H{len(kinds)}H", len(kinds), *kinds))


def option_reply(number, kind, data=b""):
    return struct.pack(">QIII", 0x0003E889045565A9, number, kind, len(data)) + data


def exported(size, zeroes=False):
    """The answer to EXPORT_NAME."""
    return struct.pack(">QH", size, 3) + bytes(124 if zeroes else 0)


def gone(size, number=7):
    """The answer to GO without types."""
    return option_reply(number, INFO, struct.pack(">HQH", 0, size, 3)) + option_reply(number, ACK)


def request(kind, cookie=1, offset=0, length=0, flags=0):
    return struct.pack(">IHHQQI", 0x25609513, flags, kind, cookie, offset, length)


def reply(cookie=1, error=0, data=b""):
    return struct.pack(">IIQ", 0x67446698, error, cookie) + data
