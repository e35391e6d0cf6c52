"""Block holders as docs/HOLDERS.md describes them.

Memory keeps its blocks itself. Note stands on another holder, whose block 1
is the note. Blocks and buffers are given by their bytes or by their length.
"""

import minalpher as mp

LIMIT_MAX = 4096
ZERO_BLOCK = bytes(mp.BLOCK_SIZE)


def _decline_size(size):
    if size != mp.BLOCK_SIZE:
        raise mp.Declined(12, "holder")


class Memory:
    """The memory holder over `size` zero bytes, told `count` blocks."""

    def __init__(self, size, count):
        self.most = min(size // mp.BLOCK_SIZE, LIMIT_MAX)
        self.blocks = [ZERO_BLOCK] * min(count, self.most)

    def count(self):
        return len(self.blocks)

    def limit(self):
        return self.most

    def _decline_place(self, k):
        if k < 1 or k > len(self.blocks):
            raise mp.Declined(13, "holder", k)

    def get(self, k, size=mp.BLOCK_SIZE):
        _decline_size(size)
        self._decline_place(k)
        return self.blocks[k - 1]

    def put(self, k, block):
        _decline_size(len(block))
        self._decline_place(k)
        self.blocks[k - 1] = block

    def add(self, block):
        _decline_size(len(block))
        if len(self.blocks) >= self.most:
            raise mp.Declined(14, "holder")
        self.blocks.append(block)

    def drop(self):
        if not self.blocks:
            raise mp.Declined(13, "holder")
        self.blocks.pop()


class Note:
    """The note holder on the holder `below`."""

    def __init__(self, below):
        self.below = below

    def count(self):
        return max(self.below.count() - 1, 0)

    def limit(self):
        return max(self.below.limit() - 1, 0)

    def _decline_place(self, k):
        if k < 1 or k > self.count():
            raise mp.Declined(13, "holder", k)

    def get(self, k, size=mp.BLOCK_SIZE):
        _decline_size(size)
        self._decline_place(k)
        return self.below.get(k + 1)

    def put(self, k, block):
        _decline_size(len(block))
        self._decline_place(k)
        self.below.put(k + 1, block)

    def add(self, block):
        _decline_size(len(block))
        if self.count() >= self.limit():
            raise mp.Declined(14, "holder")
        if self.below.count() == 0:
            self.below.add(ZERO_BLOCK)
        self.below.add(block)

    def drop(self):
        if self.count() == 0:
            raise mp.Declined(13, "holder")
        self.below.drop()
