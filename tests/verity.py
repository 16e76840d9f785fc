"""The dm-verity format by hashlib alone: what the program's tests expect.

It says the format a second time, in the words of the kernel's dm-verity documentation and of cryptsetup's
on-disk format, and shares nothing with the crates.
"""
import hashlib
import struct
import uuid

DIGEST_SIZES = {"sha256": 32, "sha512": 64}


class Volume:
    """The parameters of a volume, and what follows from them."""

    def __init__(self, blocks, salt=b"", data_size=512, hash_size=512, algorithm="sha256", front=b"",
                 uuid="00000000-0000-0000-0000-000000000000"):
        self.blocks = blocks
        self.salt = salt
        self.data_size, self.hash_size = data_size, hash_size
        self.algorithm = algorithm
        self.front = front
        self.uuid = uuid
        self.per_block = hash_size // DIGEST_SIZES[algorithm]
        self.start = len(front) // hash_size + 1

    def digest(self, block):
        return hashlib.new(self.algorithm, self.salt + block).digest()

    def levels(self, image):
        """The levels from level 0 up, each a list of hash blocks, and the root hash."""
        size = self.data_size
        digests = [self.digest(image[number * size:(number + 1) * size]) for number in range(self.blocks)]
        levels = []
        while len(digests) > 1:
            packed = [b"".join(digests[first:first + self.per_block])
                      for first in range(0, len(digests), self.per_block)]
            levels.append([block.ljust(self.hash_size, b"\0") for block in packed])
            digests = [self.digest(block) for block in levels[-1]]
        return levels, digests[0]

    def superblock(self):
        """The 512 bytes of the superblock."""
        return struct.pack("<8sII16s32sIIQH6x256s168x", b"verity", 1, 1, uuid.UUID(self.uuid).bytes,
                           self.algorithm.encode(), self.data_size, self.hash_size, self.blocks,
                           len(self.salt), self.salt)

    def device(self, image):
        """The whole hash device: what stands in front, the superblock's block, the levels from the top."""
        levels, _ = self.levels(image)
        blocks = [block for level in reversed(levels) for block in level]
        return self.front + self.superblock().ljust(self.hash_size, b"\0") + b"".join(blocks)

    def line(self, image, data="data", hashes="hash"):
        """The table line."""
        _, root = self.levels(image)
        return (f"1 {data} {hashes} {self.data_size} {self.hash_size} {self.blocks} {self.start} {self.algorithm} "
                f"{root.hex()} {self.salt.hex() or '-'}")

    def lengths(self):
        """How many blocks each level has, from level 0 up: as many levels as it takes to come down to one."""
        lengths, length = [], self.blocks
        while length > 1:
            length = -(-length // self.per_block)
            lengths.append(length)
        return lengths

    def dump(self):
        """What `dump` prints."""
        lines = ["version 1", "hash_type 1", f"uuid {self.uuid}", f"algorithm {self.algorithm}",
                 f"data_block_size {self.data_size}", f"hash_block_size {self.hash_size}",
                 f"data_blocks {self.blocks}", f"salt {self.salt.hex() or '-'}"]
        lengths = self.lengths()
        lines.append(f"levels {len(lengths)}")
        place = self.start
        for level in reversed(range(len(lengths))):
            lines.append(f"level {level} start {place} blocks {lengths[level]}")
            place += lengths[level]
        lines.append(f"hash_blocks {place}")
        return "".join(line + "\n" for line in lines)
