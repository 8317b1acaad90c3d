"""Chance that is the same for the same seed, on every version of Python."""

from __future__ import annotations

import random
from typing import Sequence, TypeVar

Item = TypeVar("Item")


class Chance:
    """Built on random() alone: it is the one method whose sequence is promised."""

    def __init__(self, seed: int) -> None:
        self._source = random.Random(seed)

    def below(self, bound: int) -> int:
        return int(self._source.random() * bound)

    def between(self, low: int, high: int) -> int:
        return low + self.below(high - low + 1)

    def percent(self, share: int) -> bool:
        return self.below(100) < share

    def pick(self, items: Sequence[Item]) -> Item:
        return items[self.below(len(items))]

    def weighted(self, *choices: tuple[int, Item]) -> Item:
        """One of the choices, each a pair of weight and item."""
        left = self.below(sum(weight for weight, _ in choices))
        for weight, item in choices:
            if left < weight:
                return item
            left -= weight
        raise ValueError("weights that are all zero")

    def raw_bytes(self, size: int) -> bytes:
        return bytes(self.below(256) for _ in range(size))
