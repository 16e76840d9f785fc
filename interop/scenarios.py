"""The commits that interop/stops and interop/lines cut short."""
import os
import random
import sys

from tools import TOP, UUID

sys.dont_write_bytecode = True
sys.path.insert(0, os.path.join(TOP, "tests"))

from verity import Volume  # noqa: E402 (the path is set above)

SALT = bytes.fromhex("00ff")


class Scenario:
    """A volume, a script over it, and the volumes that its commits make: pairs of the image and the hash device. An update is to the
    image that the script makes, by its one commit."""

    def __init__(self, name, lines, blocks, size=512, hash_size=512, algorithm="sha256", offset=0, command="edit"):
        rng = random.Random(name)
        self.name, self.lines, self.offset, self.command = name, lines, offset, command
        self.size, self.hash_size, self.algorithm = size, hash_size, algorithm
        front = b"\x11" * offset
        image = [rng.randbytes(size) for _ in range(blocks)]
        self.volumes, self.tables = [], []

        def commit():
            volume = Volume(len(image), SALT, size, hash_size, algorithm, front, UUID)
            self.volumes.append((b"".join(image), volume.device(b"".join(image))))
            self.tables.append(volume.line(b"".join(image)))

        commit()
        for line in lines:
            word, *rest = line.split()
            if word == "fill":
                image[int(rest[0])] = bytes.fromhex(rest[1]) * size
            elif word == "grow":
                image += [bytes(size)] * (int(rest[0]) - len(image))
            elif word == "shrink":
                image = image[:int(rest[0])]
            else:
                commit()

    def write(self, folder):
        """Writes the script and the image that are read."""
        with open(os.path.join(folder, "script"), "w") as file:
            file.write("\n".join(self.lines) + "\n")
        with open(os.path.join(folder, "new"), "wb") as file:
            file.write(self.volumes[-1][0])

    def words(self, tool, command):
        offset = ["--hash-offset", str(self.offset)] if self.offset else []
        return {"edit": [tool, "edit", "data", "hash", "script", *offset],
                "update": [tool, "update", "data", "hash", "new", *offset],
                "reopen": [tool, "edit", "data", "hash", "nothing", *offset],
                "recover": [tool, "recover", "data", "hash"],
                "verify": [tool, "verify", "--table", self.tables[0]]}[command]


SCENARIOS = [
    Scenario("one block", ["fill 3 ff", "commit"], 17),
    Scenario("nothing but a commit", ["commit"], 17),
    Scenario("one block alone", ["fill 0 5a", "commit"], 1),
    Scenario("growth by a level", ["fill 3 5a", "grow 300", "commit"], 17),
    Scenario("growth from one block", ["grow 20", "fill 19 77", "commit"], 1),
    Scenario("shrinkage by a level", ["shrink 2", "fill 1 5a", "commit"], 300),
    Scenario("shrunk and grown", ["shrink 3", "grow 40", "fill 39 01", "commit"], 30),
    Scenario("several commits", ["fill 3 ff", "commit", "grow 300", "commit", "shrink 2", "commit", "fill 0 22", "commit"], 17),
    Scenario("sha512", ["fill 3 ff", "grow 70", "commit", "shrink 9", "commit"], 17, algorithm="sha512"),
    Scenario("an offset", ["fill 3 ff", "commit", "grow 40", "commit"], 17, offset=1024),
    Scenario("blocks of two sizes", ["fill 3 ff", "grow 40", "commit", "shrink 5", "commit"], 17, 1024, 4096),
    Scenario("an update to the same image", ["commit"], 17, command="update"),
    Scenario("an update of two blocks", ["fill 3 ff", "fill 16 01", "commit"], 17, command="update"),
    Scenario("an update that grows", ["fill 3 5a", "grow 300", "fill 299 01", "commit"], 17, command="update"),
    Scenario("an update that shrinks, at an offset", ["shrink 2", "fill 1 5a", "commit"], 300, offset=1024, command="update"),
]
