"""`edit` and `update` under a trusted table line: the volume's own, another one, and volumes that lie."""
from cases.case import Case, image
from cases.editing import Edited, status_of, volume
from cases.updating import changes, some
from cases.verifying import flipped
from verity import Volume

DATA = image(300)
HASHES = volume(300).device(DATA)
LINE = volume(300).line(DATA)
OFFSET = "error: the value of --hash-offset is not understood\n"


def edited(name, old, data, script, line=None, lies=None):
    """A script over a volume that holds other data than its tree, and what it leaves: the trusted image's tree with the edits."""
    edits = Edited(old, data)
    line = line or old.line(data)
    answers = edits.answers(script)
    size, new = old.data_size, edits.image()
    held = data if lies is None else lies
    left = bytearray(new)
    for place in range(0, min(len(new), len(held)), size):
        if new[place:place + size] == data[place:place + size]:
            left[place:place + size] = held[place:place + size]
    return Case(f"trusted: {name}", ["edit", "data", "hash", "script", "--table", line], "".join(text + "\n" for text in answers),
                status_of(answers), {"data": held, "hash": old.device(data), "script": script.encode()},
                {"data": bytes(left), "hash": edits.made().device(new)})


def edits():
    yield edited("a block", volume(300), DATA, "fill 16 01\ncommit\n")
    yield edited("refusals", volume(300), DATA, "fill 300 01\ngrow 1\nshrink 0\nx\ndiscard\nfill 1 02\ncommit\ncommit\n")
    yield edited("nothing but a commit", volume(300), DATA, "commit\n")
    yield edited("several commits", volume(17), DATA[:17 * 512], "grow 300\nfill 299 05\ncommit\nshrink 2\ncommit\nfill 0 06\ncommit\n")
    for before, after in ((16, 17), (17, 16), (256, 257), (257, 256), (1, 257), (257, 1), (1, 2), (2, 1)):
        word = "grow" if before < after else "shrink"
        yield edited(f"{word} {before} to {after}", volume(before), image(before), f"{word} {after}\ncommit\n")
    front = volume(17, front=b"\x11" * 1024)
    yield edited("at an offset", front, image(17), "fill 3 07\ngrow 40\ncommit\n")
    yield edited("sha512", volume(9, algorithm="sha512"), image(9), "fill 8 07\ncommit\n")
    yield edited("all other data blocks lie", volume(300), DATA, "fill 16 01\ncommit\n", lies=bytes(len(DATA)))
    yield edited("a line of other devices", volume(300), DATA, "fill 16 01\ncommit\n", LINE.replace(" data hash ", " /dev/a /dev/b "))


def plain(name, said, line=LINE, files=None, status=1, more=(), script=b"fill 16 01\ncommit\n", command="edit"):
    """Words that change nothing."""
    return Case(f"trusted: {name}", [command, "data", "hash", "other", "--table", line, *more], said, status,
                {"data": DATA, "hash": HASHES, "other": script, **(files or {})})


def with_field(number, text):
    fields = LINE.split()
    return " ".join([*fields[:number], text, *fields[number + 1:]])


def refusals():
    for command, script in (("edit", b"fill 16 01\ncommit\n"), ("update", some(DATA, (16,)))):
        for name, line, fault in (
                ("data block size", with_field(3, "1024"), "E13"), ("count", with_field(5, "299"), "E13"),
                ("start", with_field(6, "2"), "E9 B2"),
                ("start 0", with_field(6, "0"), "E13"), ("salt", with_field(9, "00fe"), "E13"), ("no salt", with_field(9, "-"), "E13"),
                ("algorithm", with_field(7, "sha512").replace(LINE.split()[8], 2 * LINE.split()[8]), "E13"),
                ("a field more", LINE + " x", "L1"), ("version", "2" + LINE[1:], "L2")):
            yield plain(f"{command}, another line: {name}", f"refused {fault}\n", line, script=script, command=command)
        yield plain(f"{command}, an offset too", OFFSET, status=2, more=["--hash-offset", "0"], script=script, command=command)
        for name, files, fault in (("a longer data device", {"data": DATA + bytes(512)}, "E10"),
                                   ("a shorter data device", {"data": DATA[512:]}, "E10"),
                                   ("an empty hash device", {"hash": b""}, "E9 B1"),
                                   ("no superblock", {"hash": bytes(512) + HASHES[512:]}, "E9 B2"),
                                   ("a superblock of another count", {"hash": flipped(HASHES, 72)}, "E13")):
            yield plain(f"{command}, {name}", f"refused {fault}\n", files=files, script=script, command=command)
    # The superblock, the top, two blocks of level 1, and level 0: of block 16, which is edited, each hash block above it.
    for place, fault in ((512, "E14 level 2 index 0"), (1024, "E14 level 1 index 0"), (2048 + 512, "E14 level 0 index 1")):
        lying = {"hash": flipped(HASHES, place)}
        yield plain(f"a lie, {fault}", f"ok\nrefused {fault}\n", files=lying)
        yield plain(f"an update, a lie, {fault}", f"refused {fault}\n", files=lying, script=some(DATA, (16,)), command="update")
    yield plain("another root", "ok\nrefused E14 level 2 index 0\n", with_field(8, "00" * 32))


def updates():
    for name, old, data, new in (("none", volume(300), DATA, DATA), ("two", volume(300), DATA, some(DATA, (0, 299))),
                                 ("300 to 17", volume(300), DATA, image(17)), ("17 to 300", volume(17), image(17), DATA)):
        made = Volume(len(new) // 512, old.salt, uuid=old.uuid)
        yield Case(f"trusted: update, {name}", ["update", "data", "hash", "new", "--table", old.line(data)],
                   f"changed {changes(data, new, 512)}\ncommitted {made.line(new)}\n", 0,
                   {"data": data, "hash": old.device(data), "new": new}, {"data": new, "hash": made.device(new)})
    new, lies = some(DATA, (5,)), bytes(len(DATA))
    yield Case("trusted: update, DATA lies", ["update", "data", "hash", "new", "--table", LINE],
               f"changed 1\ncommitted {volume(300).line(new)}\n", 0, {"data": lies, "hash": HASHES, "new": new},
               {"data": lies[:2560] + new[2560:3072] + lies[3072:], "hash": volume(300).device(new)})


def cases():
    for table in (edits, refusals, updates):
        yield from table()
