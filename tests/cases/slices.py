"""Inputs made of pieces of other inputs.

Most inputs are a cut or a changed copy of another one. As pieces, the variants of a large program
are stored once in the vector file.
"""

from functools import cached_property


class Slice:
    """Bytes, as a tuple of pieces (bytes, start, length)."""

    def __init__(self, pieces):
        self.pieces = tuple(piece for piece in pieces if piece[2] > 0)

    @cached_property
    def data(self):
        return b"".join(base[start:start + length] for base, start, length in self.pieces)

    def __len__(self):
        return sum(length for _, _, length in self.pieces)

    def __add__(self, other):
        return Slice(self.pieces + other.pieces)

    def part(self, first, end):
        """The bytes from first up to end, without copying them."""
        pieces = []
        at = 0
        for base, start, length in self.pieces:
            low, high = max(first, at), min(end, at + length)
            if low < high:
                pieces.append((base, start + low - at, high - low))
            at += length
        return Slice(pieces)

    def cut(self, length):
        return self.part(0, length)

    def patched(self, at, new):
        """A copy with the bytes from an offset replaced by as many new ones."""
        return self.part(0, at) + whole(new) + self.part(at + len(new), len(self))

    def flipped(self, at, mask):
        return self.patched(at, bytes((self.data[at] ^ mask,)))


def whole(data):
    return Slice(((data, 0, len(data)),))


NOTHING = Slice(())
