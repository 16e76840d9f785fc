"""What a case is: words and files, and what is expected of them."""
import os
import random
import re
import subprocess
import tempfile

UUID = "01234567-89ab-cdef-0123-456789abcdef"


class Case:
    """Words that the program is run with among these files, and what it must print, answer and leave.

    `output` is the whole output, or a list of texts that stand in it. A file that `leaves` doesn't name must be left
    as it was; None is for a file that must not be there, and no file may come that `leaves` doesn't name. `sink` is a
    path that the output goes to instead. `before` are functions that are called with the folder once its files are
    there. FOLDER in a word is the folder's path. `errors` are the lines on standard error; where they aren't written out,
    nothing stands there at status 0, and else each refusal that was printed, and each fault of a session, is told there in words.
    """

    def __init__(self, name, words, output, status=0, files=None, leaves=None, input=b"", sink=None, before=(), errors=None):
        self.name = name
        self.words = words
        self.output, self.status = output, status
        self.files, self.leaves = files or {}, leaves or {}
        self.input = input
        self.sink = sink
        self.before = before
        self.errors = errors

    def differences(self, tool, folder):
        """What is not as the case says, in a folder with its files."""
        status, output, errors = self.run(tool, folder)
        if status != self.status:
            yield f"the status is {status}, not {self.status}; printed {output!r}"
        if not self.prints(output):
            yield f"printed {output!r}, not {self.output!r}"
        yield from self.wrong_errors(output, errors.decode())

    def wrong_errors(self, output, errors):
        """What standard error has that it is not to have, or lacks."""
        lines = errors.split("\n")[:-1]
        if self.errors is not None and lines != self.errors:
            yield f"wrote {lines!r} to standard error, not {self.errors!r}"
        if self.status == 0 and errors and self.errors is None or not all(line.startswith("dalgovuun: ") for line in lines):
            yield f"wrote {errors!r} to standard error"
        if self.status and re.search(rb"^(bad line|no memory|corrupt|error: .*)$", output, re.M) and not lines:
            yield "told nothing on standard error"
        refused = re.findall(r"^refused (.*)$", output.decode(errors="replace"), re.M)
        for fault in refused:
            if not any(f"({fault})" in line for line in lines):
                yield f"didn't tell {fault} on standard error: {lines!r}"
        for number, fault in re.findall(r"^session (\d+) ([A-Z].*)$", output.decode(errors="replace"), re.M):
            if not any(line.startswith(f"dalgovuun: session {number}: ") and f"({fault})" in line for line in lines):
                yield f"didn't tell the fault {fault} of session {number} on standard error: {lines!r}"

    def run(self, tool, folder):
        """The status, and what went to standard output and to standard error."""
        with tempfile.TemporaryFile() as kept, open(self.sink or os.devnull, "wb") as sink:
            words = [word.replace("FOLDER", folder) for word in self.words]
            seen = subprocess.run(["dalgovuun", *words], executable=tool, cwd=folder, input=self.input, timeout=60,
                                  stdout=sink if self.sink else kept, stderr=subprocess.PIPE)
            kept.seek(0)
            return seen.returncode, kept.read(), seen.stderr

    def prints(self, output):
        """Whether this is what the case expects to be printed."""
        if isinstance(self.output, bytes):
            return output == self.output
        if isinstance(self.output, list):
            return all(part.encode() in output for part in self.output)
        return output == self.output.encode()


def image(blocks, size=512):
    """Some bytes that differ from block to block."""
    return random.Random(blocks * 1_000_003 + size).randbytes(blocks * size)
