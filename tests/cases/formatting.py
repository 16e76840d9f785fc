"""`format`: the hash device, the table line, and what is refused."""
import hashlib

from cases.case import UUID, Case, image
from verity import Volume

SMALL = ["--data-block-size", "512", "--hash-block-size", "512"]
SALTED = ["--salt", "00ff", "--uuid", UUID]
LARGEST = "18446744073709551615"
TOO_LARGE = "18446744073709551616"


def words(*more, salted=SALTED, sizes=SMALL, paths=("data", "hash")):
    return ["format", *paths, *salted, *sizes, *more]


def made(name, volume, given, files=None, spelled=None):
    """A device that is made: its line, its bytes from the first to the last, and whether Linux maps blocks of that size."""
    data = image(volume.blocks, volume.data_size)
    unmapped = [f"dalgovuun: data blocks of {volume.data_size} bytes: Linux maps data blocks of at most a page of memory (4096 bytes on x86-64)"]
    return Case(f"format: {name}", given, volume.line(data) + "\n", files={"data": data, **(files or {})},
                leaves={"hash": volume.device(data)}, errors=unmapped if volume.data_size > 4096 else None)


def refused(name, fault, given, files=None, leaves=None):
    """A refusal that leaves no hash device, or the one that stood there, but where `leaves` says otherwise."""
    return Case(f"format: {name}", given, f"refused {fault}\n", 1, {"data": image(2)} if files is None else files,
                leaves={"hash": (files or {}).get("hash"), **(leaves or {})})


def not_understood(name, value, given):
    """A word that isn't a value of its kind; nothing is opened or made."""
    return Case(f"format: {name}", given, f"error: the value of {value} is not understood\n", 2,
                {"data": image(2)}, {"hash": None})


def volumes():
    """Sizes, counts, salts and algorithms, each device byte for byte."""
    plain = dict(salt=b"\x00\xff", uuid=UUID)
    for blocks in (1, 2, 16, 17, 256, 257):
        yield made(f"{blocks} blocks", Volume(blocks, **plain), words())
    yield made("blocks of 4096 bytes by default", Volume(3, data_size=4096, hash_size=4096, **plain), words(sizes=[]))
    yield made("larger data blocks", Volume(17, data_size=4096, **plain),
               words(sizes=["--data-block-size", "4096", "--hash-block-size", "512"]))
    yield made("larger hash blocks", Volume(17, hash_size=4096, **plain),
               words(sizes=["--data-block-size", "512", "--hash-block-size", "4096"]))
    yield made("data blocks of two pages", Volume(3, data_size=8192, **plain),
               words(sizes=["--data-block-size", "8192", "--hash-block-size", "512"]))
    yield made("the largest blocks", Volume(2, data_size=524288, hash_size=524288, **plain),
               words(sizes=["--data-block-size", "524288", "--hash-block-size", "524288"]))
    for blocks in (8, 9):
        yield made(f"sha512, {blocks} blocks", Volume(blocks, algorithm="sha512", **plain),
                   words("--algorithm", "sha512"))
    yield made("sha256 by name", Volume(17, **plain), words("--algorithm", "sha256"))
    yield made("no salt", Volume(17, uuid=UUID), words(salted=["--salt", "none", "--uuid", UUID]))
    yield made("a salt in capitals", Volume(2, salt=b"\xab\xcd", uuid=UUID),
               words(salted=["--salt", "ABcd", "--uuid", UUID]))
    yield made("a salt of 256 bytes", Volume(2, salt=b"\x5a" * 256, uuid=UUID),
               words(salted=["--salt", "5a" * 256, "--uuid", UUID]))
    yield made("a UUID in capitals", Volume(2, **plain), words(salted=["--salt", "00ff", "--uuid", UUID.upper()]))
    yield made("leading zeros", Volume(2, **plain),
               words(sizes=["--data-block-size", "0512", "--hash-block-size", "000512"]))
    yield made("rubbish in the hash device's place", Volume(2, **plain), words(), files={"hash": b"\x77" * 5000})


def numbered(volume):
    """Data blocks that are filled with their numbers."""
    return b"".join(bytes([n % 256]) * volume.data_size for n in range(volume.blocks))


# Volumes of such blocks as `veritysetup` makes them: the root hash, and the SHA-256 digest of the whole hash device.
WORKED = (
    (Volume(1, data_size=1024, uuid=UUID), "5f70bf18a086007016e948b04aed3b82103a36bea41755b6cddfaf10ace3c6ef",
     "89d304d1f13a15c1e92ad71638a21aae0c9e684049af58cbcb639da335ea3f97"),
    (Volume(1, b"\x00\xff", uuid=UUID), "07d9e49bf8574ba4bab0e659328e0683c45282eac728fc6d8e839322a8c851b4",
     "8e91827a1d14e11400763d86fee20adb035ba03c52261ecada188c26d5e68039"),
    (Volume(16, b"\x00\xff", uuid=UUID), "9c7ed1e7d37fb10176a0000bf0c38482f1a5e88c80a27639562f6c5514fd2b5e",
     "0d1bc8e83007a88a0046672bdaa2aa3f5307584b8b37ddcc32a3cf729c2269f7"),
    (Volume(17, b"\x00\xff", uuid=UUID), "234259a12cf4cba78bef127291893994c9f0193ae855cdd6a74e8538a6e6665c",
     "e09e13cbbcecbd7430b1421e7d2949a76a881e6f6fb90de13892b82b63ced73b"),
    (Volume(257, b"\x00\xff", uuid=UUID), "db6cef9ec919c3e3a95c974c72fbc739599f900fef79b0616b5fe46ca368f823",
     "34e7065155d4fe8ec764a6f8a8064f6fa8d492742bb717ccb8497add8fb55573"),
    (Volume(17, data_size=1024, uuid=UUID), "5586f9a611484c478cf1ba2b010e5bd68ed9a10ce900f13c6da3979dc619d219",
     "826c703cf5cccf34bc45051809c7bd069dacbd9fc353c64423b54bca16b41366"),
    (Volume(40, hash_size=1024, uuid=UUID), "7f726a519cae01dfdf392dbaf2850ce9cc3b511e19defa85f61c4c64010cc29d",
     "86cd5cd51ff0371fd7cda2b44827f7445aad8126b6444cfcf073181f8730d485"),
    (Volume(8, b"\x00\xff", algorithm="sha512", uuid=UUID),
     "2b909479caabbc00dba1fb1a035931b1abc45a186b3694d7944142bf0815274bc72edfa03b718b3034fafad6360619e36913ba5b875c8f29ee83608014d177a0",
     "881290a1ea9792aea6f15d2a4e78bd1316f72857b40eca3fe0e2de676a32db36"),
    (Volume(9, b"\x00\xff", algorithm="sha512", uuid=UUID),
     "5c6c0c8d0e9923808ebe37224509e6a0193c2ee38451ceef808c2c6f10f5bd9a19d458aa2ac7e91df67cb7c38edfed1203d73a1cc0a87359e44cbd05685fe749",
     "e41cb43c7582fa9f25525befb467875a62885bf33021a27c17627dfc02c8fb0f"),
    (Volume(17, b"\x00\xff", front=b"\x11" * 1024, uuid=UUID), "234259a12cf4cba78bef127291893994c9f0193ae855cdd6a74e8538a6e6665c",
     "d8d5a44d2e7f69814876ad842168dd6874ddb536cdda9e72cb7c9d4db38aeb67"),
    (Volume(17, b"\x00\xff", front=bytes(1024), uuid=UUID), "234259a12cf4cba78bef127291893994c9f0193ae855cdd6a74e8538a6e6665c",
     "5c7b593f473f6d061a3158bcc9b102d52f017412257258c67f6a7c4b0f3430f5"),
)


def worked():
    """Their roots and devices, which the model of the format has to have too."""
    for volume, root, digest in WORKED:
        data = numbered(volume)
        device = volume.device(data)
        assert volume.line(data).split(" ")[8] == root and hashlib.sha256(device).hexdigest() == digest
        given = words("--algorithm", volume.algorithm, "--hash-offset", str(len(volume.front)),
                      salted=["--salt", volume.salt.hex() or "none", "--uuid", UUID],
                      sizes=["--data-block-size", str(volume.data_size), "--hash-block-size", str(volume.hash_size)])
        yield Case(f"format: worked, device {digest[:8]}", given,
                   volume.line(data) + "\n", files={"data": data, "hash": volume.front}, leaves={"hash": device})


def offsets():
    """The superblock at a byte offset."""
    front = b"\x11" * 1024
    plain = dict(salt=b"\x00\xff", uuid=UUID)
    yield made("offset 1024", Volume(17, front=front, **plain), words("--hash-offset", "1024"), {"hash": front})
    yield made("offset 1024 of an empty device", Volume(17, front=bytes(1024), **plain),
               words("--hash-offset", "1024"), {"hash": b""})
    yield made("offset 1024 and rubbish behind", Volume(17, front=front, **plain),
               words("--hash-offset", "1024"), {"hash": front + b"\x77" * 8192})
    yield refused("offset of no device", "S1", words("--hash-offset", "1024"))
    hashes = {"data": image(2), "hash": b"\x11" * 2048}
    larger = ["--data-block-size", "512", "--hash-block-size", "1024"]
    yield refused("offset between blocks", "U4", words("--hash-offset", "512", sizes=larger), hashes)
    yield refused("offset past the format", "U4", words("--hash-offset", "562949953421312"), hashes)
    yield refused("the largest number as offset", "U4", words("--hash-offset", LARGEST), hashes)
    yield refused("no blocks before a wrong offset", "U1 M2", words("--hash-offset", "100"),
                  {"data": b"", "hash": b"\x11" * 512})


def first_blocks():
    """The first blocks of DATA alone."""
    plain = dict(salt=b"\x00\xff", uuid=UUID)
    for blocks in (1, 16, 17):
        data = image(17)
        volume = Volume(blocks, **plain)
        yield Case(f"format: {blocks} blocks of 17", words("--data-blocks", str(blocks)), volume.line(data[:blocks * 512]) + "\n",
                   files={"data": data}, leaves={"hash": volume.device(data[:blocks * 512])})
    ragged = image(2) + b"\x11" * 100
    yield Case("format: 2 blocks of a ragged DATA", words("--data-blocks", "002"), Volume(2, **plain).line(image(2)) + "\n",
               files={"data": ragged}, leaves={"hash": Volume(2, **plain).device(image(2))})
    yield refused("no block of 2", "U1 M2", words("--data-blocks", "0"))
    yield refused("3 blocks of 2", "S1", words("--data-blocks", "3"))
    yield refused("3 blocks of 2 and a HASH", "S1", words("--data-blocks", "3"), {"data": image(2), "hash": b"\x11" * 700})
    yield refused("the largest number of blocks", "S1", words("--data-blocks", LARGEST))
    yield refused("1 block of an empty DATA", "S1", words("--data-blocks", "1"), {"data": b""})


def refusals():
    long_salt = ["--salt", "5a" * 257, "--uuid", UUID]
    yield refused("a salt of 257 bytes", "G1", words(salted=long_salt))
    yield refused("a salt of 257 bytes before a missing DATA", "G1", words(salted=long_salt), {})
    for size in ("0", "1", "256", "513", "768", "1048576", LARGEST):
        yield refused(f"data blocks of {size} bytes", "S4",
                      words(sizes=["--data-block-size", size, "--hash-block-size", "512"]))
        yield refused(f"hash blocks of {size} bytes", "S4",
                      words(sizes=["--data-block-size", "512", "--hash-block-size", size]))
    yield refused("a missing DATA", "S1", words(), {})
    yield refused("a missing DATA leaves HASH", "S1", words(), {"hash": b"\x11" * 700})
    yield refused("a missing DATA before the hash blocks' size", "S1",
                  words(sizes=["--data-block-size", "512", "--hash-block-size", "513"]), {})
    yield refused("a ragged DATA", "S2", words(), {"data": bytes(513)})
    yield refused("HASH in no folder", "S1", words(paths=("data", "none/hash")))
    yield refused("an empty DATA", "U1 M2", words(), {"data": b""})


def values():
    for salt in ("", "0", "000", "0g", "None", "00 ff", "0x00"):
        yield not_understood(f"salt {salt!r}", "--salt", words(salted=["--salt", salt, "--uuid", UUID]))
    for uuid in ("", "x", UUID[:-1], UUID + "0", UUID.replace("a", "g")):
        yield not_understood(f"UUID {uuid!r}", "--uuid", words(salted=["--salt", "00ff", "--uuid", uuid]))
    for number in ("", "x", "+512", "-512", "0x200", "512 ", "5e2", TOO_LARGE):
        yield not_understood(f"data block size {number!r}", "--data-block-size",
                             words(sizes=[f"--data-block-size={number}"]))
        yield not_understood(f"hash block size {number!r}", "--hash-block-size",
                             words(sizes=[f"--hash-block-size={number}"]))
        yield not_understood(f"offset {number!r}", "--hash-offset", words(f"--hash-offset={number}"))
        yield not_understood(f"count {number!r}", "--data-blocks", words(f"--data-blocks={number}"))
    for name in ("", "md5", "sha1", "SHA256", "sha256x"):
        yield not_understood(f"algorithm {name!r}", "--algorithm", words("--algorithm", name))
    for path in ("", "da ta", " "):
        yield not_understood(f"DATA {path!r}", "DATA", words(paths=(path, "hash")))
        yield not_understood(f"HASH {path!r}", "HASH", words(paths=("data", path)))
    yield not_understood("HASH is DATA", "HASH", words(paths=("data", "data")))
    long_salt = ["--salt", "5a" * 257, "--uuid", "x"]
    yield not_understood("the words before the salt", "--uuid", words(salted=long_salt))


def cases():
    for table in (volumes, worked, offsets, first_blocks, refusals, values):
        yield from table()
    data = image(1)
    yield Case("format: an output that can't be written", words(), "", 1, {"data": data},
               {"hash": Volume(1, salt=b"\x00\xff", uuid=UUID).device(data)}, sink="/dev/full")
