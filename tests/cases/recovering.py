"""`recover`, and what the other commands make of a journal: its bytes are written out here, as docs/FORMAT.md has them."""
import os
import struct
import uuid

from cases.case import UUID, Case, image
from cases.editing import volume
from cases.readers import Reader
from cases.slips import WhileEdited
from cases.talking import BEGIN

DATA, NEW = image(17), image(17)[:512] + b"\x5a" * 512 + image(20)[:7680]
HASHES, NEW_HASHES = volume(17).device(DATA), volume(17).device(NEW)
SMALL = ["--salt", "00ff", "--uuid", UUID, "--data-block-size", "512", "--hash-block-size", "512"]
LINE = volume(17).line(DATA)
FILLED = DATA[:3 * 512] + b"\xff" * 512 + DATA[4 * 512:]
DONE, NOTHING = "recovered\n", "nothing to recover\n"
TOLD = ["dalgovuun: hash: a commit that a crash cut short was recovered first"]
# what a journal begins with: a magic, and the version
HEAD = b"dalgjrnl" + struct.pack("<L", 1)
OTHER_UUID = "76543210-89ab-cdef-0123-456789abcdef"


def side(keep, new, size=512):
    """A side of a plan that makes these bytes, block by block, of what is kept."""
    places = range(0, len(new), size)
    changes = [struct.pack("<QQ", place, len(new[place:place + size])) + new[place:place + size] for place in places]
    return struct.pack("<QQQ", keep, len(new), len(changes)) + b"".join(changes)


def volume_named(names=b"data\0hash", of=UUID, offset=0):
    """What names a volume in its journal: its UUID, where its superblock stands, and its files' names."""
    return uuid.UUID(of).bytes + struct.pack("<Q", offset) + names


def journal(gate, data=NEW, hashes=NEW_HASHES, keep=0, behind=b"", names=volume_named(), head=HEAD):
    return head + bytes([gate]) + struct.pack("<Q", len(names)) + names + side(keep, data) + side(0, hashes) + behind


def case(name, words, output, status=0, kept=b"", leaves=None, errors=None, input=b"", **more):
    """Words beside a volume and a journal; where a commit was made whole, the new volume and no journal have to be left."""
    files = {"data": DATA, "hash": HASHES, "hash.journal": kept, **more}
    return Case(f"recover: {name}", words, output, status, files, leaves, errors=errors, input=input)


def gone(**more):
    return {"hash.journal": None, **more}


def recovered():
    words, made = ["recover", "data", "hash"], gone(data=NEW, hash=NEW_HASHES)
    yield Case("recover: no journal", words, NOTHING, 0, {"data": DATA, "hash": HASHES})
    yield case("an empty journal", words, NOTHING, leaves=gone())
    yield case("a closed gate", words, NOTHING, kept=journal(0), leaves=gone())
    yield case("a closed gate and half a plan", words, NOTHING, kept=journal(0)[:99], leaves=gone())
    for length in (1, 8, 11, 12):
        yield case(f"the first {length} bytes of a head", words, NOTHING, kept=HEAD[:length], leaves=gone())
    yield case("an open gate with nothing behind it", words, "refused S7\n", 1, kept=HEAD + b"\1")
    yield case("an open gate", words, DONE, kept=journal(1), leaves=made)
    yield case("any other byte is an open gate", words, DONE, kept=journal(0x80), leaves=made)
    yield case("bytes behind the plan", words, DONE, kept=journal(1, behind=b"\x77" * 99), leaves=made)
    yield case("torn files", words, DONE, kept=journal(1), leaves=made, data=NEW[:700], hash=b"\x77" * 9999)
    yield case("nothing is made of half a block that is kept", words, DONE, kept=journal(1, keep=700), leaves=made)
    yield case("another volume", words, "refused S7\n", 1, kept=journal(1, keep=len(NEW)), data=DATA[:-512])
    yield case("half a plan behind an open gate", words, "refused S7\n", 1, kept=journal(1)[:-1])
    yield case("a plan whose change passes its length", words, "refused S7\n", 1,
               kept=journal(1, data=b"", hashes=b"")[:54] + struct.pack("<QQQQQ", 0, 512, 1, 1, 512) + bytes(512) + side(0, HASHES))
    for name, names in (("of another image", b"image\0hash"), ("of another hash device", b"data\0hashes"), ("of the files turned", b"hash\0data"),
                        ("with DATA's name alone", b"data"), ("with no names", b""), ("of names in a folder", b"./data\0./hash"),
                        ("of devices", b"\0")):
        yield case(f"a journal {name}", words, "refused S7\n", 1, kept=journal(1, names=volume_named(names)))
    yield case("a journal with names alone", words, "refused S7\n", 1, kept=journal(1, names=b"data\0hash"))
    yield case("more names than there are bytes", words, "refused S7\n", 1,
               kept=HEAD + b"\1" + struct.pack("<Q", 2**63) + journal(1)[21:])
    yield case("a closed journal of another volume", words, NOTHING, kept=journal(0, names=volume_named(b"image\0hash")), leaves=gone())
    of_another = journal(1, names=volume_named(of=OTHER_UUID))
    yield case("a journal of another volume of these names", words, "refused S7\n", 1, kept=of_another)
    yield case("the same over a superblock that was torn", words, DONE, kept=of_another, leaves=made, hash=b"\x77" * 512 + HASHES[512:])
    yield case("the same over a hash device that is empty", words, DONE, kept=of_another, leaves=made, hash=b"")
    yield Case("recover: no image", words, "refused S1\n", 1, {"hash": HASHES, "hash.journal": journal(1)})
    yield WhileEdited("a recovery", words, "refused S5 data\n", 1)


def named():
    words = ["recover", "data", "hash", "--journal"]
    wrong = "error: the value of --journal is not understood\n"
    yield case("a journal that is named", [*words, "other"], DONE, other=journal(1), kept=journal(0),
               leaves={"data": NEW, "hash": NEW_HASHES, "other": None})
    yield case("no journal where it is named", [*words, "other"], NOTHING)
    for name in ("none", "data", "./hash"):
        yield case(f"--journal {name}", [*words, name], wrong, 2)
    edit = ["edit", "data", "hash", "script", "--journal"]
    script = {"script": b"commit\n"}
    for name in ("data", "hash"):
        yield case(f"edit --journal {name}", [*edit, name], wrong, 2, **script)
    for name in ("none", "other"):
        yield case(f"edit --journal {name}", [*edit, name], f"committed {LINE}\n", **script)
        yield case(f"edit --journal {name} beside an open gate", [*edit, name], "refused S6\n", 1, kept=journal(1), **script)
    yield case("edit --journal PATH where there is no folder", [*edit, "no/journal"], "refused S7\n", 1, **script)
    yield case("edit --journal HASH.journal", [*edit, "./hash.journal"], f"committed {volume(17).line(NEW)}\n", kept=journal(1),
               leaves=gone(data=NEW, hash=NEW_HASHES), errors=TOLD, **script)
    yield from pulled()


def pulled():
    """`pull` recovers what `recover` would, and a journal of another volume is refused before anything is pulled."""
    to = volume(17)
    words = ["pull", "data", "hash", "--to", to.line(FILLED, "from", "from.hash")]
    source = {"from": FILLED, "from.hash": to.device(FILLED)}
    fetched = sum(FILLED[at:at + 512] != NEW[at:at + 512] for at in range(0, len(FILLED), 512))
    done = f"fetched {fetched}\nkept {17 - fetched}\npulled {to.line(FILLED)}\n"
    yield case("pull beside an open commit flag", words, done, kept=journal(1), leaves=gone(data=FILLED, hash=to.device(FILLED)),
               errors=TOLD, **source)
    yield case("pull beside an open commit flag of another volume", words, "refused S7\n", 1,
               kept=journal(1, names=volume_named(of=OTHER_UUID)), leaves={"data": DATA, "hash": HASHES}, **source)


def foreign():
    """A file of the journal's name that is no journal of this program and version: no command writes it, cuts it or removes it."""
    table = ["--table", LINE]
    script = {"script": b"fill 3 ff\ncommit\n", "new": NEW}
    commands = (["recover", "data", "hash"], ["edit", "data", "hash", "script"], ["edit", "data", "hash", "script", *table],
                ["edit", "data", "hash", "script", "--journal", "hash.journal"], ["update", "data", "hash", "new"],
                ["update", "data", "hash", "new", *table], ["verify", *table], ["talk", *table, "--name", "vol"],
                ["format", "data", "hash", *SMALL], ["serve", *table, "--name", "vol", "--listen", "127.0.0.1:0"])
    files = (("begins with a zero byte", b"\0 is what a file of somebody's begins with"), ("is text", b"text\n"),
             ("is a zero byte", b"\0"), ("has another magic", journal(1, head=b"dalgjrnm" + HEAD[8:])),
             ("has another version", journal(1, head=HEAD[:8] + struct.pack("<L", 2))),
             ("has another version and a closed gate", journal(0, head=HEAD[:8] + struct.pack("<L", 2))),
             ("is a head that was cut and written on", HEAD[:10] + b"more"),
             ("is a journal without a head", journal(1, head=b"")))
    for name, kept in files:
        for words in commands:
            yield case(f"{' '.join(words[:1] + words[4:5])}, a file beside HASH {name}", words, "refused S7\n", 1, kept=kept, input=BEGIN,
                       **script)
        yield case(f"edit --journal PATH that {name}", ["edit", "data", "hash", "script", "--journal", "other"], "refused S7\n", 1,
                   kept=b"", other=kept, **script)
        yield case(f"recover --journal PATH that {name}", ["recover", "data", "hash", "--journal", "other"], "refused S7\n", 1,
                   kept=b"", other=kept, **script)
    # an empty file and the beginning of a head are what a stop leaves of a journal that is made
    for name, kept in (("empty", b""), ("the beginning of a head", HEAD[:9]), ("a head", HEAD), ("a head and a closed gate", HEAD + b"\0")):
        yield case(f"verify beside a journal that is {name}", ["verify", *table], "unchecked 0\nverified\n", kept=kept, **script)
        yield case(f"talk beside a journal that is {name}", ["talk", *table, "--name", "vol"], ["NBDMAGIC"], kept=kept, input=BEGIN, **script)
        yield case(f"edit commits through a journal that is {name}", ["edit", "data", "hash", "script"],
                   f"ok\ncommitted {volume(17).line(FILLED)}\n", kept=kept, leaves=gone(data=FILLED, hash=volume(17).device(FILLED)), **script)
    of_another = journal(1, names=volume_named(of=OTHER_UUID))
    for words in commands[:6]:
        yield case(f"{' '.join(words[:1] + words[4:5])}, a journal of another volume of these names", words, "refused S7\n", 1, kept=of_another, **script)


def others():
    """What other commands make of an open gate."""
    table = ["--table", LINE]
    for words in (["verify", *table], ["talk", *table, "--name", "vol"], ["format", "data", "hash", *SMALL],
                  ["format", "data", "hash", *SMALL, "--hash-offset", "512"],
                  ["serve", *table, "--name", "vol", "--listen", "127.0.0.1:0"]):
        yield Case(f"recover: {words[0]} beside an open gate", words, "refused S6\n", 1,
                   {"data": DATA, "hash": HASHES, "hash.journal": journal(1)}, input=BEGIN, errors=[
                       "dalgovuun: hash: a commit of this volume was cut short and stands in its journal (S6); "
                       "run recover on DATA and HASH"])
    yield case("verify beside a closed gate", ["verify", *table], "unchecked 0\nverified\n", kept=journal(0))
    yield case("dump beside an open gate", ["dump", "hash"], volume(17).dump(), kept=journal(1))
    yield case("edit recovers first", ["edit", "data", "hash", "script"], f"committed {volume(17).line(NEW)}\n", kept=journal(1),
               leaves=gone(data=NEW, hash=NEW_HASHES), errors=TOLD, script=b"commit\n")
    yield case("edit removes a closed journal", ["edit", "data", "hash", "script"], "", kept=journal(0), leaves=gone(), script=b"")


def placed():
    """Where a journal can stand."""
    def linked(folder):
        os.mkdir(os.path.join(folder, "below"))
        os.rename(os.path.join(folder, "hash"), os.path.join(folder, "below", "there"))
        os.rename(os.path.join(folder, "hash.journal"), os.path.join(folder, "below", "there.journal"))
        os.symlink("below/there", os.path.join(folder, "hash"))

    yield Case("recover: through a link", ["recover", "data", "hash"], DONE, 0,
               {"data": DATA, "hash": HASHES, "hash.journal": journal(1, names=volume_named(b"data\0there"))},
               {"data": NEW, "hash": NEW_HASHES, "hash.journal": None, "below/there.journal": None}, before=[linked])
    for name, make in (("a folder", os.mkdir), ("a pipe", os.mkfifo)):
        for words in (["recover", "data", "hash"], ["edit", "data", "hash", "script"], ["verify", "--table", LINE]):
            yield Case(f"recover: {words[0]} where the journal is {name}", words, "refused S7\n", 1,
                       {"data": DATA, "hash": HASHES, "script": b"commit\n"},
                       before=[lambda folder, make=make: make(os.path.join(folder, "hash.journal"))])
    script, both = {"script": b"commit\n"}, ("data", "hash")
    yield Reader("edit, no journal can be made", ["edit", "data", "hash", "script"], "refused S7\n", 1, script, may_write=both)
    yield Reader("edit without a journal", ["edit", "data", "hash", "script", "--journal", "none"], f"committed {LINE}\n", 0, script,
                 may_write=both)


def cases():
    for table in (recovered, named, foreign, others, placed):
        yield from table()
