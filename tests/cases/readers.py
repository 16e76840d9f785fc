"""A user who may not write: files that are only read are opened to be read, and no more."""
import os
import shutil
import subprocess
import tempfile

from cases.case import UUID, Case, image
from cases.editing import volume
from cases.talking import BEGIN, BEGUN

DATA = image(17)
HASHES = volume(17).device(DATA)
LINE = volume(17).line(DATA)
NOBODY = 65534


class Reader(Case):
    """Words by a user who may read all that is there, and write to the files of these names alone."""

    def __init__(self, name, words, output, status=0, files=None, leaves=None, input=b"", may_write=()):
        super().__init__(f"readers: {name}", words, output, status, {"data": DATA, "hash": HASHES, **(files or {})}, leaves, input)
        self.may_write = may_write

    def run(self, tool, folder):
        for name in self.files:
            os.chmod(os.path.join(folder, name), 0o666 if name in self.may_write else 0o444)
        os.chmod(folder, 0o555)
        who = {"user": NOBODY, "group": NOBODY, "extra_groups": []} if os.geteuid() == 0 else {}
        with tempfile.TemporaryDirectory() as other:
            os.chmod(other, 0o755)
            # The program may stand where that user can't come.
            copy = os.path.join(other, "dalgovuun")
            shutil.copy(tool, copy)
            os.chmod(copy, 0o755)
            try:
                seen = subprocess.run([copy, *self.words], cwd=folder, input=self.input, capture_output=True, timeout=60, **who)
            finally:
                os.chmod(folder, 0o755)
        return seen.returncode, seen.stdout, seen.stderr


def cases():
    small = ["--salt", "00ff", "--uuid", UUID, "--data-block-size", "512", "--hash-block-size", "512"]
    yield Reader("dump", ["dump", "hash"], volume(17).dump())
    yield Reader("verify", ["verify", "--table", LINE], "unchecked 0\nverified\n")
    yield Reader("talk", ["talk", "--table", LINE, "--name", "vol"], BEGUN, input=BEGIN)
    yield Reader("serve", ["serve", "--table", LINE, "--name", "vol", "--listen", "127.0.0.1:0", "--sessions", "0"], "listening\n")
    yield Reader("format reads DATA", ["format", "data", "hash", *small], LINE + "\n", files={"hash": b"\x11" * 700},
                 leaves={"hash": HASHES}, may_write=("hash",))
    yield Reader("format writes HASH", ["format", "data", "hash", *small], "refused S1\n", 1, may_write=("data",))
    yield Reader("format behind an offset writes HASH", ["format", "data", "hash", *small, "--hash-offset", "512"], "refused S1\n", 1,
                 may_write=("data",))
    yield Reader("format makes HASH", ["format", "data", "new", *small], "refused S1\n", 1, may_write=("data",))
    for name in ("data", "hash"):
        yield Reader(f"edit, {name} alone may be written", ["edit", "data", "hash", "script"], "refused S1\n", 1,
                     {"script": b"shrink 1\ncommit\n"}, may_write=(name,))
