"""What standard error tells a person: which path, line or field it is about, what is wrong there, and what to do next."""
from cases.case import UUID, Case, image
from cases.editing import volume
from cases.formatting import SALTED, SMALL
from cases.verifying import flipped

DATA = image(17)
HASHES = volume(17).device(DATA)
LINE = volume(17).line(DATA)
FILES = {"data": DATA, "hash": HASHES}
SCRIPT = "no line of a script; these are write N HEX, fill N HH, grow C, shrink C, discard, commit"
CUT = "was a commit cut short? where the image is what it should be, make the hash device anew with format"
TAKE = "take the line that format, edit, update or pull printed, in quotes"


def told(name, words, output, text, status=1, files=None, leaves=None):
    return Case(f"words: {name}", words, output, status, FILES if files is None else files, leaves, errors=[f"dalgovuun: {text}"])


def refused(name, words, fault, text, files=None, leaves=None):
    return told(name, words, f"refused {fault}\n", text, files=files, leaves=leaves)


def of_format():
    words = ["format", "data", "hash", *SALTED, *SMALL]
    bytes_ = {"data": bytes(700)}
    none = {"hash": None}
    yield refused("a ragged image", words, "S2",
                  "data: the length is no multiple of the block size: 700 bytes, blocks of 512 (S2)", bytes_, none)
    yield refused("no image", words, "S1", "data: the device failed, or the file can't be opened or used: "
                  "No such file or directory (os error 2) (S1)", {}, none)
    yield refused("a folder", ["format", ".", "hash", *SALTED, *SMALL], "S1", ".: the device failed, or the file can't be opened "
                  "or used: it is neither a file nor a block device (S1)", {}, none)
    yield refused("no folder for the hash device", ["format", "data", "no/hash", *SALTED, *SMALL], "S1", "no/hash: the device failed, "
                  "or the file can't be opened or used: it isn't there, and can't be made there (S1)", {"data": image(2)})
    yield refused("fewer blocks", [*words, "--data-blocks", "3"], "S1", "data: the device failed, or the file can't be opened or used: "
                  "2 blocks, not 3 (S1)", {"data": image(2)}, none)
    yield refused("a block size", ["format", "data", "hash", *SALTED, "--data-block-size", "512", "--hash-block-size", "513"], "S4",
                  "--hash-block-size: a block has a power of two from 512 to 524288 bytes: 513 (S4)", {"data": image(2)}, none)
    yield refused("an empty image", words, "U1 M2", "data: there is no tree over this many blocks: "
                  "the count of data blocks is 0 or over 2^40 (U1 M2)", {"data": b""}, none)
    yield refused("an offset", [*words, "--hash-offset", "3"], "U4", "--hash-offset: no superblock can stand at this offset (U4); "
                  "name a multiple of the hash block size", {"data": image(2), "hash": bytes(4096)})
    yield told("a salt", ["format", "data", "hash", "--salt", "0", "--uuid", UUID],
               "error: the value of --salt is not understood\n",
               "--salt: two hexadecimal digits a byte, or none for the empty salt", 2, {"data": image(2)}, none)


def of_edit():
    words = ["edit", "data", "hash", "script"]
    script = b"grow 20\n\nfill 20 00\nwrite 0 00\nshrink 20\nlook\ngrow 19\n"
    yield Case("words: lines of a script", words, "ok\nrefused E1\nrefused E2\nrefused E3\nbad line\nrefused E4\n", 1,
               {**FILES, "script": script}, errors=[
                   "dalgovuun: script:3: the block isn't below the count: block 20, count 20 (E1); grow the image first",
                   "dalgovuun: script:4: a block is written whole: 1 bytes, blocks of 512 (E2)",
                   "dalgovuun: script:5: an image shrinks to a smaller count, at least 1: 20, where the count is 20 (E3)",
                   f"dalgovuun: script:6: {SCRIPT}",
                   "dalgovuun: script:7: an image grows to a larger count, at most 2^40: 19, where the count is 20 (E4)"])
    yield refused("another image", words, "E8 level 1 index 0", "hash: the tree isn't the data's; this is the first hash block that "
                  f"differs (E8 level 1 index 0); {CUT}", {**FILES, "data": flipped(DATA, 16 * 512), "script": b""})
    yield refused("no superblock", words, "E9 B2", "hash: there is no superblock: no signature: this is no superblock (E9 B2)",
                  {"data": DATA, "hash": bytes(4096), "script": b""})
    yield refused("a longer image", words, "E10", f"data: the image hasn't as many blocks as the superblock says (E10); {CUT}",
                  {**FILES, "data": DATA + bytes(512), "script": b""})
    yield refused("no script", words, "S1", "script: the device failed, or the file can't be opened or used: "
                  "No such file or directory (os error 2) (S1)")


def of_lines():
    for name, line, fault, text in (
        ("fields", LINE + " x", "L1", f"a table line has ten fields, apart by one space each: this one has 11 (L1); {TAKE}"),
        ("a version", "2" + LINE[1:], "L2", "its version isn't 1: 2 (L2)"),
        ("an algorithm", LINE.replace("sha256", "md5"), "L6", "its algorithm is neither sha256 nor sha512: md5 (L6)"),
        ("a salt", LINE[:-1], "L8", "its salt is neither - nor an even number of hexadecimal digits, at most 512: 00f (L8)"),
    ):
        yield refused(f"{name} of a table line", ["verify", "--table", line], fault, f"the table line: {text}")
    yield refused("an image that isn't there", ["verify", "--table", LINE.replace(" data ", " other ")], "S1", "other: the device failed, "
                  "or the file can't be opened or used: No such file or directory (os error 2) (S1)")
    yield refused("a shorter image", ["verify", "--table", LINE], "V1", "data: the files don't fit the table line: 16 blocks, not 17 (V1); "
                  "name the files that were formatted, by the line that was printed for them last", {**FILES, "data": DATA[:-512]})
    yield told("a corrupt volume", ["verify", "--table", LINE], "bad data 3\nunchecked 0\ncorrupt\n",
               "not every block could be checked to be the one that the table line vouches for", files={**FILES, "data": flipped(DATA, 3 * 512)})
    for command in (["serve", "--listen", "127.0.0.1:0"], ["talk"]):
        yield refused(f"{command[0]}, a name", [*command, "--table", LINE, "--name", ""], "P1", "--name: an export's name has 1 to 255 bytes (P1)")
        yield refused(f"{command[0]}, a cache", [*command, "--table", LINE, "--name", "vol", "--cache", "0"], "V5",
                      "--cache: a cache has at most 65536 blocks, and that of hash blocks at least 1 (V5)")
        yield refused(f"{command[0]}, a data cache", [*command, "--table", LINE, "--name", "vol", "--data-cache", "65537"], "V5",
                      "--data-cache: a cache has at most 65536 blocks, and that of hash blocks at least 1 (V5)")
    yield refused("an address", ["serve", "--table", LINE, "--name", "vol", "--listen", "nowhere"], "N6", "nowhere: a socket couldn't be had "
                  "or failed (N6); name an address of this machine as HOST:PORT, whose port is free, or unix:PATH where no file is yet")


def cases():
    yield from of_format()
    yield from of_edit()
    yield from of_lines()
    yield Case("words: no superblock", ["dump", "data"], "refused B2\n", 1, FILES, errors=[
        "dalgovuun: data: no signature: this is no superblock (B2); name the hash device, and with --hash-offset where its superblock stands"])
    yield Case("words: no such command", ["frobnicate"], ["error: "], 2, FILES,
               errors=["dalgovuun: unrecognized subcommand; see dalgovuun --help"])
    yield Case("words: the version", ["--version"], "dalgovuun 0.1\n", 0)
