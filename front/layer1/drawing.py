"""Drawing by a seed: bytes, numbers, orders. The same seed gives the same again, with any version of Python."""

import hashlib
from typing import Iterator, List, Sequence, TypeVar

Item = TypeVar("Item")


class Source:
    """Bytes drawn by a seed for a purpose: SHA-256 of both and of a counter, block behind block."""

    def __init__(self, seed: bytes, purpose: str) -> None:
        self.key = hashlib.sha256(seed + b"\n" + purpose.encode()).digest()
        self.counter = 0
        self.left = b""

    def take(self, count: int) -> bytes:
        """The next bytes."""
        blocks = [self.left]
        have = len(self.left)
        while have < count:
            blocks.append(hashlib.sha256(self.key + self.counter.to_bytes(8, "big")).digest())
            self.counter += 1
            have += 32
        drawn = b"".join(blocks)
        self.left = drawn[count:]
        return drawn[:count]

    def below(self, limit: int) -> int:
        """A number below a limit, each with the same chance."""
        whole = (1 << 64) // limit * limit
        while True:
            number = int.from_bytes(self.take(8), "big")
            if number < whole:
                return number % limit

    def shuffled(self, items: Sequence[Item]) -> List[Item]:
        """The items in an order that is drawn."""
        out = list(items)
        for last in range(len(out) - 1, 0, -1):
            other = self.below(last + 1)
            out[last], out[other] = out[other], out[last]
        return out

    def rounds(self, items: Sequence[Item]) -> Iterator[Item]:
        """The items in turn, in an order that is drawn anew for each round: spread evenly, and each with the same chance."""
        while True:
            yield from self.shuffled(items)
