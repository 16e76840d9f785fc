"""FILE, in which `edit`, `update`, `pull` and `recover` keep a volume's table line."""
import os

from cases.case import Case
from cases.editing import volume
from cases.keeping import MISREAD, MOST, PULLING, Linked, at, make_folder, make_link, make_link_to_itself, make_link_to_nothing
from cases.keeping import make_next_folder, make_pipe
from cases.readers import Reader
from cases.recovering import DATA, FILLED, HASHES, HEAD, NEW, NEW_HASHES, TOLD, journal

VOLUME = volume(17)
FILLED_HASHES = VOLUME.device(FILLED)
LINE, FILLED_LINE, NEW_LINE = (f"{VOLUME.line(image)}\n".encode() for image in (DATA, FILLED, NEW))
# the line of a volume of which nothing stands here
OTHER_LINE = f"{VOLUME.line(bytes(17 * 512))}\n".encode()
FILES = {"data": DATA, "hash": HASHES, "script": b"fill 3 ff\ncommit\n", "new": FILLED}
KEPT = ["--table-file", "line"]
MADE = {"data": FILLED, "hash": FILLED_HASHES}
# what both commands do to the volume, and what they print of it
COMMANDS = (
    (["edit", "data", "hash", "script"], b"ok\n"),
    (["update", "data", "hash", "new"], b"changed 1\n"),
)
TOP = "E14 level 1 index 0"


def case(name, words, output, status=0, files=None, leaves=None, before=(), errors=None, kind=Case):
    return kind(f"file: {words[0]}, {name}", words, output, status, {**FILES, **(files or {})}, leaves, before=before, errors=errors)


def committed():
    """A commit leaves its line in FILE, and no FILE.next."""
    for words, first in COMMANDS:
        output = first + b"committed " + FILLED_LINE
        for more in ([], ["--journal", "none"], ["--journal", "other"]):
            said = " ".join(more)
            for name, held in (("a line", LINE), ("a line without a line feed", LINE[:-1])):
                yield case(f"{name} {said}", [*words, *KEPT, *more], output, files={"line": held}, leaves={**MADE, "line": FILLED_LINE})
            yield case(f"no FILE {said}", [*words, *KEPT, *more], output, leaves={**MADE, "line": FILLED_LINE})
        yield case("a link", [*words, *KEPT], output, files={"line": LINE}, leaves={**MADE, "line": FILLED_LINE, "below/there": FILLED_LINE},
                   before=[make_link], kind=Linked)
        yield case("a FILE in another folder", [*words, "--table-file", "below/line"], output,
                   leaves={**MADE, "below/line": FILLED_LINE}, before=[lambda folder: os.mkdir(at(folder, "below"))])
        yield case("a FILE.next that is another volume's", [*words, *KEPT], output, files={"line": LINE, "line.next": OTHER_LINE},
                   leaves={**MADE, "line": FILLED_LINE, "line.next": None})
        yield case("an empty FILE.next", [*words, *KEPT], output, files={"line": LINE, "line.next": b""},
                   leaves={**MADE, "line": FILLED_LINE, "line.next": None})
        yield case("a FILE.next that is cut short", [*words, *KEPT], output, files={"line": LINE, "line.next": NEW_LINE[:-1]},
                   leaves={**MADE, "line": FILLED_LINE, "line.next": None})
        yield case("a FILE.next that is the volume's, and FILE another's", [*words, *KEPT], output,
                   files={"line": OTHER_LINE, "line.next": LINE}, leaves={**MADE, "line": FILLED_LINE, "line.next": None})
        yield case("a FILE.next that is the volume's, and no FILE", [*words, *KEPT], output,
                   files={"line.next": LINE}, leaves={**MADE, "line": FILLED_LINE, "line.next": None})
        yield case("a commit that was cut short", [*words, *KEPT], first + b"committed " + FILLED_LINE,
                   files={"data": NEW, "hash": NEW_HASHES, "hash.journal": journal(1, data=DATA, hashes=HASHES), "line": NEW_LINE, "line.next": LINE},
                   leaves={**MADE, "line": FILLED_LINE, "line.next": None, "hash.journal": None}, errors=TOLD)
    words = ["edit", "data", "hash", "script", *KEPT]
    yield case("no commit", words, b"ok\n", files={"script": b"fill 3 ff\n", "line": LINE})
    yield case("no commit and no FILE", words, b"ok\n", files={"script": b"fill 3 ff\n"})
    yield case("an empty script", words, b"", files={"script": b"", "line": LINE})
    yield case("two commits", words, b"ok\ncommitted " + NEW_LINE_OF_TWO[0] + b"ok\ncommitted " + NEW_LINE_OF_TWO[1],
               files={"script": b"fill 3 ff\ncommit\nfill 4 00\ncommit\n", "line": LINE},
               leaves={"data": TWICE, "hash": VOLUME.device(TWICE), "line": NEW_LINE_OF_TWO[1]})


TWICE = FILLED[:4 * 512] + bytes(512) + FILLED[5 * 512:]
NEW_LINE_OF_TWO = (FILLED_LINE, f"{VOLUME.line(TWICE)}\n".encode())


def refused():
    """FILE can't be used, isn't the volume's line, or is one of its files: nothing is changed."""
    for words, first in COMMANDS:
        kept = [*words, *KEPT]
        for name, fault, files, before in (
            ("an empty FILE", "L1", {"line": b""}, ()), ("two lines", "L1", {"line": LINE + LINE}, ()), ("no UTF-8", "L1", {"line": b"\xff\n"}, ()),
            ("another version", "L2", {"line": b"2" + LINE[1:]}, ()), ("a longer FILE", "S1", {"line": bytes(MOST + 1)}, ()),
            ("a FILE that is a folder", "S1", {}, (make_folder,)), ("a FILE that is a pipe", "S1", {}, (make_pipe,)),
            ("a link that leads nowhere", "S1", {}, (make_link_to_nothing,)), ("a FILE that can't be read", "S1", {}, (make_link_to_itself,)),
            ("a FILE.next that is a folder", "S1", {"line": LINE}, (make_next_folder,)),
            ("neither line is the volume's", TOP, {"line": OTHER_LINE, "line.next": NEW_LINE}, ()),
            ("a FILE.next that is cut short, and FILE another's", TOP, {"line": OTHER_LINE, "line.next": LINE[:-1]}, ()),
            ("a FILE of another salt", "E13", {"line": LINE.replace(b" 00ff\n", b" 00fe\n")}, ()),
        ):
            yield case(name, kept, f"refused {fault}\n", 1, files=files, before=before)
        yield case("a FILE that is a device", [*words, "--table-file", "/dev/null"], "refused S1\n", 1)
        yield case("a pull is under way", kept, "refused S6\n", 1, files={"line": LINE, "line.next": b"pull\n"},
                   errors=[f"dalgovuun: line.next: {PULLING}"])
        # The line itself is looked at when a commit uses it.
        yield case("another volume's line", kept, first.decode().replace("changed 1\n", "") + f"refused {TOP}\n", 1, files={"line": OTHER_LINE})
        yield case("another line beside it", [*kept, "--table", LINE.decode()[:-1]], MISREAD, 2, files={"line": LINE})
        for path in ("", "http://127.0.0.1/line"):
            yield case(f"FILE is {path!r}", [*words, "--table-file", path], MISREAD, 2)
        for name in ("data", "hash", "./data", "./hash", "hash.journal", "./hash.journal"):
            yield case(f"FILE is {name}", [*words, "--table-file", name], MISREAD, 2)
        yield case("FILE is the journal that is named", [*words, "--table-file", "other", "--journal", "./other"], MISREAD, 2)
        for name in ("data", "hash"):
            yield case(f"a link to {name}", kept, MISREAD, 2, before=[lambda folder, to=name: os.symlink(to, at(folder, "line"))])
            yield case(f"a hard link of {name}", kept, MISREAD, 2, before=[lambda folder, to=name: os.link(at(folder, to), at(folder, "line"))])
        yield Reader(f"{words[0]} keeps a line in a folder that may not be written", [*kept, "--journal", "none"], [b"refused S1\n".decode()], 1,
                     {**FILES, "line": LINE}, may_write=("data", "hash", "line"))


def recovered():
    words = ["recover", "data", "hash", *KEPT]
    nothing, done = "nothing to recover\n", "recovered\n"
    whole = {"data": NEW, "hash": NEW_HASHES, "hash.journal": None}
    for name, files, leaves in (
        ("no FILE", {}, {}), ("a FILE", {"line": LINE}, {}), ("a FILE that is no line", {"line": b""}, {}),
        ("a FILE of another volume", {"line": OTHER_LINE}, {}),
        ("a FILE.next that is the volume's", {"line": OTHER_LINE, "line.next": LINE}, {"line": LINE, "line.next": None}),
        ("a FILE.next that is the volume's, and no FILE", {"line.next": LINE}, {"line": LINE, "line.next": None}),
        ("a FILE.next that is the volume's, and no line in FILE", {"line": b"", "line.next": LINE}, {"line": LINE, "line.next": None}),
        ("a FILE that is the volume's", {"line": LINE, "line.next": NEW_LINE}, {"line.next": None}),
        ("a FILE.next that is cut short", {"line": LINE, "line.next": NEW_LINE[:-1]}, {"line.next": None}),
        ("an empty FILE.next and no FILE", {"line.next": b""}, {"line.next": None}),
    ):
        yield case(name, words, nothing, files=files, leaves=leaves)
    yield case("a link", words, nothing, files={"line": OTHER_LINE, "line.next": LINE},
               leaves={"line": LINE, "below/there": LINE, "line.next": None, "below/there.next": None}, before=[make_link], kind=Linked)
    for name, held, leaves in (("the line from after it", {"line": LINE, "line.next": NEW_LINE}, {"line": NEW_LINE, "line.next": None}),
                               ("no next line", {"line": LINE}, {})):
        yield case(f"a commit that was cut short, {name}", words, done, files={"hash.journal": journal(1), **held}, leaves={**whole, **leaves})
    for name, fault, files in (
        ("neither line is the volume's", TOP, {"line": OTHER_LINE, "line.next": NEW_LINE}),
        ("a FILE of another salt", "E13", {"line": LINE.replace(b" 00ff\n", b" 00fe\n"), "line.next": NEW_LINE}),
        ("no line in either", "L1", {"line": b"", "line.next": b""}),
    ):
        yield case(name, words, f"refused {fault}\n", 1, files=files)
    for held in ({}, {"line": LINE}, {"line": OTHER_LINE}):
        yield case(f"a pull is under way, {len(held)} FILE", words, "refused S6\n", 1, files={**held, "line.next": b"pull\n"},
                   errors=[f"dalgovuun: line.next: {PULLING}"])
    for name in ("data", "hash", "./hash.journal"):
        yield case(f"FILE is {name}", [*words[:3], "--table-file", name], MISREAD, 2)


def pulled():
    source = {"from": FILLED, "from.hash": FILLED_HASHES}
    to = f"{VOLUME.line(FILLED, 'from', 'from.hash')}"
    there = {name: FILES[name] for name in ("data", "hash")}

    def pull(name, more, output, status=0, files=None, leaves=None, before=(), kind=Case, errors=None):
        return kind(f"file: pull, {name}", ["pull", "data", "hash", *more], output, status, {**source, **(files or {})}, leaves,
                    before=before, errors=errors)

    by_line, by_file = ["--to", to], ["--to-file", "to"]
    said = "fetched {}\nkept {}\npulled " + FILLED_LINE.decode()
    for given, files in ((by_line, {}), (by_file, {"to": to.encode() + b"\n"})):
        name = given[0]
        yield pull(f"{name}, none there", [*given, *KEPT], said.format(17, 0), files=files, leaves={**MADE, "line": FILLED_LINE})
        yield pull(f"{name}, a copy and its line", [*given, *KEPT], said.format(1, 16), files={**files, **there, "line": LINE},
                   leaves={**MADE, "line": FILLED_LINE})
        yield pull(f"{name}, a copy and no FILE", [*given, *KEPT], said.format(1, 16), files={**files, **there},
                   leaves={**MADE, "line": FILLED_LINE})
        for text in (FILLED_LINE, OTHER_LINE, b"", FILLED_LINE[:-1], b"pull\n"):
            yield pull(f"{name}, a FILE.next of {len(text)} bytes", [*given, *KEPT], said.format(1, 16),
                       files={**files, **there, "line": LINE, "line.next": text}, leaves={**MADE, "line": FILLED_LINE, "line.next": None})
        yield pull(f"{name}, a link", [*given, *KEPT], said.format(1, 16), files={**files, **there, "line": LINE},
                   leaves={**MADE, "line": FILLED_LINE, "below/there": FILLED_LINE}, before=[make_link], kind=Linked)
        for path in ("data", "./hash", "hash.journal"):
            yield pull(f"{name}, FILE is {path}", [*given, "--table-file", path], MISREAD, 2, files={**files, **there})
        yield pull(f"{name}, no line in FILE", [*given, *KEPT], "refused L1\n", 1, files={**files, **there, "line": b""})
        yield pull(f"{name}, a FILE that is a folder", [*given, *KEPT], "refused S1\n", 1, files={**files, **there}, before=[make_folder])
        yield pull(f"{name}, another line beside it", [*given, *KEPT, "--table", LINE.decode()[:-1]], MISREAD, 2, files={**files, **there, "line": LINE})
    yield pull("a wrong block of the source", [*by_line, *KEPT], "refused V2 data 3\n", 1,
               files={**there, "from": DATA, "line": LINE}, leaves={"hash": FILLED_HASHES, "line.next": b"pull\n"})
    wrong = "error: the value of --to-file is not understood\n"
    yield pull("no line to reach", KEPT, wrong, 2)
    yield pull("both lines to reach", [*by_line, *by_file], wrong, 2, files={"to": to.encode()})
    yield pull("the file of the line to reach is DATA", ["--to-file", "data"], wrong, 2, files=there)
    for name, fault, files in (("no file", "S1", {}), ("an empty one", "L1", {"to": b""}), ("two lines", "L1", {"to": 2 * (to.encode() + b"\n")})):
        yield pull(f"the line to reach: {name}", by_file, f"refused {fault}\n", 1, files={**there, **files})
    yield pull("the line to reach: a commit is under way", by_file, "refused S6\n", 1, files={**there, "to": to.encode(), "to.next": b""})


def cases():
    for table in (committed, refused, recovered, pulled):
        yield from table()
