"""FILE, which has a table line or is to have one: `--table-file` of `verify`, `serve`, `talk`, `format` and `recover`."""
import os

from cases.case import UUID, Case, image
from cases.formatting import words as format_words
from cases.readers import Reader
from cases.recovering import HEAD
from cases.slicing import PLAIN, Slices
from cases.talking import BEGIN, BEGUN
from verity import Volume

VOLUME = Volume(17, b"\x00\xff", uuid=UUID)
DATA = image(17)
HASHES = VOLUME.device(DATA)
LINE = VOLUME.line(DATA).encode()
FILES = {"data": DATA, "hash": HASHES}
MISREAD = "error: the value of --table-file is not understood\n"
FAILED = "the device failed, or the file can't be opened or used"
PUT = "put the line there that format, edit, update or pull printed"
UNDER_WAY = "a commit of this volume is under way, or was cut short (S6); run recover DATA HASH --table-file line"
PULLING = "a pull of this volume is under way, or was cut short (S6); run that pull again"
# The most bytes that FILE may have.
MOST = 65536
# The commands that read FILE, and what they say where it has the volume's line.
READERS = (
    (["verify", "--table-file", "line"], "unchecked 0\nverified\n"),
    (["verify", "--table-file", "line", "--slice", "1/1"], "unchecked 0\nverified\n"),
    (["talk", "--table-file", "line", "--name", "vol"], BEGUN),
    (["serve", "--table-file", "line", "--name", "vol", "--listen", "127.0.0.1:0", "--sessions", "0"], "listening\n"),
)


def at(folder, name):
    return os.path.join(folder, name)


def make_folder(folder):
    os.mkdir(at(folder, "line"))


def make_pipe(folder):
    os.mkfifo(at(folder, "line"))


def make_link_to_nothing(folder):
    os.symlink("nowhere", at(folder, "line"))


def make_link_to_itself(folder):
    os.symlink("line", at(folder, "line"))


def make_next_folder(folder):
    os.mkdir(at(folder, "line.next"))


def make_link(folder):
    """FILE is a link to a file in another folder; what stood beside it stands beside that."""
    os.mkdir(at(folder, "below"))
    for name in ("line", "line.next"):
        if os.path.exists(at(folder, name)):
            os.rename(at(folder, name), at(folder, name.replace("line", "below/there")))
    os.symlink("below/there", at(folder, "line"))


class Linked(Case):
    """A case of a FILE that is a link, and stays one."""

    def differences(self, tool, folder):
        yield from super().differences(tool, folder)
        if not os.path.islink(at(folder, "line")):
            yield "the link was replaced"


def read():
    """FILE has the line of a sound volume."""
    for words, said in READERS:
        name = f"file: {words[0]} {' '.join(words[3:5])}"
        for text, held in (("a line", LINE + b"\n"), ("a line without a line feed", LINE)):
            yield Case(f"{name}: {text}", words, said, 0, {**FILES, "line": held}, input=BEGIN)
        yield Linked(f"{name}: a link", words, said, 0, {**FILES, "line": LINE + b"\n"}, input=BEGIN, before=[make_link])
        yield Case(f"{name}: another path", [word.replace("line", "./line") for word in words], said, 0,
                   {**FILES, "line": LINE + b"\n"}, input=BEGIN)
    yield Case("file: verify, a corrupt volume", READERS[0][0], "bad data 3\nunchecked 0\ncorrupt\n", 1,
               {**FILES, "data": DATA[:3 * 512] + bytes(512) + DATA[4 * 512:], "line": LINE + b"\n"})
    yield Case("file: verify, another line beside it", [*READERS[0][0], "--table", LINE.decode()],
               ["error: ", "'--table-file <FILE>' cannot be used with '--table <LINE>'"], 2, {**FILES, "line": LINE})
    for path in ("", "http://127.0.0.1/line", "nbd://127.0.0.1/line"):
        for words, _ in READERS:
            yield Case(f"file: {words[0]}, FILE is {path!r}", [words[0], "--table-file", path, *words[3:]], MISREAD, 2, FILES, errors=[
                "dalgovuun: --table-file: the path of a file that is neither DATA nor HASH nor the journal, in place of --table; "
                "not beside --slice"])


def unread():
    """FILE has no line, and the volume isn't opened: without DATA and HASH it is the same."""
    for name, fault, files, before, told in (
        ("no FILE", "S1", {}, (), f"line: {FAILED}: No such file or directory (os error 2) (S1)"),
        ("an empty FILE", "L1", {"line": b""}, (),
         f"the line in line: a table line has ten fields, apart by one space each: the file is empty (L1); {PUT}"),
        ("a FILE of one line feed", "L1", {"line": b"\n"}, (),
         f"the line in line: a table line has ten fields, apart by one space each: the file is empty (L1); {PUT}"),
        ("a FILE of two lines", "L1", {"line": LINE + b"\n" + LINE + b"\n"}, (), "the line in line: a table line has ten fields, "
         f"apart by one space each: the file has more than one line, or isn't UTF-8 (L1); {PUT}"),
        ("a FILE with an empty line behind its own", "L1", {"line": LINE + b"\n\n"}, (), "the line in line: a table line has ten "
         f"fields, apart by one space each: the file has more than one line, or isn't UTF-8 (L1); {PUT}"),
        ("a FILE with an empty line in front", "L1", {"line": b"\n" + LINE}, (), "the line in line: a table line has ten "
         f"fields, apart by one space each: the file has more than one line, or isn't UTF-8 (L1); {PUT}"),
        ("a FILE that isn't UTF-8", "L1", {"line": b"\xff\n"}, (), "the line in line: a table line has ten fields, "
         f"apart by one space each: the file has more than one line, or isn't UTF-8 (L1); {PUT}"),
        ("a field more", "L1", {"line": LINE + b" x\n"}, (),
         f"the line in line: a table line has ten fields, apart by one space each: this one has 11 (L1); {PUT}"),
        ("another version", "L2", {"line": b"2" + LINE[1:] + b"\n"}, (), "the line in line: its version isn't 1: 2 (L2)"),
        ("a FILE that is a folder", "S1", {}, (make_folder,), f"line: {FAILED}: it is no regular file (S1)"),
        ("a FILE that is a pipe", "S1", {}, (make_pipe,), f"line: {FAILED}: it is no regular file (S1)"),
        ("a link that leads nowhere", "S1", {}, (make_link_to_nothing,), f"line: {FAILED}: No such file or directory (os error 2) (S1)"),
        ("a FILE that can't be read", "S1", {}, (make_link_to_itself,), None),
        ("a longer FILE", "S1", {"line": LINE.ljust(MOST + 1)}, (), f"line: {FAILED}: it has more than 65536 bytes (S1)"),
        ("a FILE.next", "S6", {"line": LINE, "line.next": LINE}, (), f"line.next: {UNDER_WAY}"),
        ("an empty FILE.next", "S6", {"line": LINE, "line.next": b""}, (), f"line.next: {UNDER_WAY}"),
        ("a FILE.next of a pull", "S6", {"line": LINE, "line.next": b"pull\n"}, (), f"line.next: {PULLING}"),
        ("a FILE.next and no FILE", "S6", {"line.next": LINE}, (), f"line.next: {UNDER_WAY}"),
        ("a FILE.next and no line", "S6", {"line": b"", "line.next": LINE}, (), f"line.next: {UNDER_WAY}"),
        ("a FILE.next that is a folder", "S1", {"line": LINE}, (make_next_folder,),
         f"line.next: {FAILED}: it is no regular file, or can't be read (S1)"),
    ):
        for words, _ in READERS:
            for volume in ({}, FILES) if words is READERS[0][0] else (FILES,):
                yield Case(f"file: {words[0]} {' '.join(words[3:5])}: {name}", words, f"refused {fault}\n", 1, {**volume, **files},
                           before=before, input=BEGIN, errors=[f"dalgovuun: {told}"] if told else None)
    for words, _ in READERS:
        device = [word.replace("line", "/dev/zero") for word in words]
        yield Case(f"file: {words[0]}: a FILE that is a device", device, "refused S1\n", 1, FILES, input=BEGIN,
                   errors=[f"dalgovuun: /dev/zero: {FAILED}: it is no regular file (S1)"])
        yield Linked(f"file: {words[0]}: a FILE.next beside what a link leads to", words, "refused S6\n", 1,
                     {**FILES, "line": LINE, "line.next": LINE}, {"line.next": None, "below/there.next": LINE}, before=[make_link],
                     input=BEGIN, errors=[f"dalgovuun: line.next: {UNDER_WAY}"])
        yield Case(f"file: {words[0]}: no image", words, "refused S1\n", 1, {"hash": HASHES, "line": LINE}, input=BEGIN,
                   errors=[f"dalgovuun: data: {FAILED}: No such file or directory (os error 2) (S1)"])
        yield Case(f"file: {words[0]}: an open commit flag", words, "refused S6\n", 1,
                   {**FILES, "line": LINE, "hash.journal": HEAD + b"\1"}, input=BEGIN, errors=[
                       "dalgovuun: hash: a commit of this volume was cut short and stands in its journal (S6); run recover on DATA and HASH"])


def made(name, files, leaves=None, before=(), kind=Case):
    """A device that is made, and its line in FILE, whatever stood there."""
    return kind(f"file: format, {name}", format_words("--table-file", "line"), LINE + b"\n", 0, {"data": DATA, **files},
                {"hash": HASHES, "line": LINE + b"\n", **(leaves or {})}, before=before)


def not_made(name, output, files=None, before=(), path="line", status=1, leaves=None, more=(), **others):
    """A refusal that leaves HASH and FILE as they were, and no FILE.next."""
    return Case(f"file: format, {name}", format_words("--table-file", path, *more, **others), output, status,
                {"data": DATA, "hash": b"\x11" * 512, **(files or {})}, leaves, before=before)


def formatted():
    yield made("no FILE", {})
    for name, held in (("an old line", b"1 old\n"), ("an empty FILE", b""), ("two lines", LINE + b"\n" + LINE + b"\n"),
                       ("no UTF-8", b"\xff\xfe"), ("as long as it may be", bytes(MOST))):
        yield made(name, {"line": held})
    yield made("a FILE.next", {"line": b"old\n", "line.next": b"next\n"}, {"line.next": None})
    yield made("a FILE.next and no FILE", {"line.next": b"next\n"}, {"line.next": None})
    yield made("a link", {"line": b"old\n"}, {"below/there": LINE + b"\n"}, [make_link], Linked)
    yield made("a link, and FILE.next beside what it leads to", {"line": b"old\n", "line.next": b"next\n"},
               {"below/there": LINE + b"\n", "line.next": None, "below/there.next": None}, [make_link], Linked)
    yield Case("file: format, a FILE in another folder", format_words("--table-file", "below/line"), LINE + b"\n", 0, {"data": DATA},
               {"hash": HASHES, "below/line": LINE + b"\n"}, before=[lambda folder: os.mkdir(at(folder, "below"))])
    yield Case("file: format, an output that can't be written", format_words("--table-file", "line"), "", 1, {"data": DATA, "line": b"old"},
               {"hash": HASHES, "line": LINE + b"\n"}, sink="/dev/full")


def unformatted():
    """FILE can't be replaced, or is one of the volume's files: nothing is changed."""
    yield not_made("a FILE that is a folder", "refused S1\n", before=[make_folder])
    yield not_made("a FILE that is a pipe", "refused S1\n", before=[make_pipe])
    yield not_made("a FILE that is a device", "refused S1\n", path="/dev/null")
    yield not_made("a link that leads nowhere", "refused S1\n", before=[make_link_to_nothing])
    yield not_made("a FILE that can't be read", "refused S1\n", before=[make_link_to_itself])
    yield not_made("a longer FILE", "refused S1\n", {"line": bytes(MOST + 1)})
    yield not_made("a FILE.next that is a folder", "refused S1\n", {"line": LINE}, [make_next_folder])
    yield not_made("a FILE in no folder", "refused S1\n", path="none/line")
    yield not_made("the words before FILE", "error: the value of --salt is not understood\n", path="none/line", status=2,
                   salted=["--salt", "x", "--uuid", UUID])
    yield not_made("a missing DATA", "refused S1\n", {"line": b"old\n", "line.next": b"next\n"}, paths=("none", "hash"),
                   leaves={"line.next": None})
    yield not_made("a ragged DATA", "refused S2\n", {"line": b"old\n", "data": bytes(700)})
    yield Reader("format keeps a line in a folder that may not be written", format_words("--table-file", "line"), "refused S1\n", 1,
                 {"line": b"old\n"}, may_write=("data", "hash", "line"))

    def linked(name):
        return [lambda folder: os.symlink(name, at(folder, "line"))]

    def hard(name):
        return [lambda folder: os.link(at(folder, name), at(folder, "line"))]

    for name in ("data", "hash"):
        for path in (name, f"./{name}"):
            yield not_made(f"FILE is {path}", MISREAD, path=path, status=2)
        yield not_made(f"a link to {name}", MISREAD, before=linked(name), status=2)
        yield not_made(f"a hard link of {name}", MISREAD, before=hard(name), status=2)
    for paths in (("line.next", "hash"), ("data", "line.next")):
        yield not_made(f"FILE.next is among {paths}", MISREAD, {"line.next": DATA}, paths=paths, status=2)
        yield not_made(f"FILE.next is among {paths}, by another path", MISREAD, {"line.next": DATA}, paths=paths, path="./line", status=2)
    yield Case("file: format, FILE is the HASH that is made", format_words("--table-file", "hash"), MISREAD, 2, {"data": DATA},
               {"hash": None})
    yield Case("file: format, FILE is the HASH that is made, by another path", format_words("--table-file", "./hash"), MISREAD, 2,
               {"data": DATA}, {"hash": None})
    for path in ("", "http://127.0.0.1/line"):
        yield not_made(f"FILE is {path!r}", MISREAD, path=path, status=2)
    yield not_made("a slice", MISREAD, more=["--slice", "1/2"], status=2)


def joined():
    slices = Slices(Volume(40, **PLAIN), 3)
    line = slices.volume.line(slices.data).encode() + b"\n"
    files = {"data": slices.data, "hash": slices.unjoined(), "line": b"old\n"}
    words = format_words("--join", "--table-file", "line")
    yield Case("file: join", words, line, 0, files, {"hash": slices.device, "line": line}, input=b"slice 0 3\n")
    yield Case("file: join, no FILE", words, line, 0, {"data": slices.data, "hash": slices.unjoined()},
               {"hash": slices.device, "line": line}, input=b"slice 0 3\n")
    yield Linked("file: join, a link", words, line, 0, files, {"hash": slices.device, "line": line, "below/there": line},
                 input=b"slice 0 3\n", before=[make_link])
    yield Case("file: join, a slice left out", words, "refused J1\n", 1, files, input=b"slice 0 2\n")
    yield Case("file: join, FILE in no folder", format_words("--join", "--table-file", "none/line"), "refused S1\n", 1, files,
               input=b"slice 0 3\n")
    yield Case("file: join, FILE is HASH", format_words("--join", "--table-file", "./hash"), MISREAD, 2, files, input=b"slice 0 3\n")


def cases():
    for table in (read, unread, formatted, unformatted, joined):
        yield from table()
