"""Draws by chance, the same ones for the same seed: the generator PCG XSH RR 64/32."""

from __future__ import annotations

_WORD = (1 << 64) - 1
_HALF = (1 << 32) - 1
_MULTIPLIER = 6364136223846793005
_SEED_INCREMENT = 11634580027462260723


class Chance:
    """The draws of a seed, which is a number of 64 bits."""

    def __init__(self, seed: int) -> None:
        words = []
        for _ in range(4):
            seed = (seed * _MULTIPLIER + _SEED_INCREMENT) & _WORD
            words.append(_output_of(seed))
        self._increment = (words[2] | words[3] << 32) | 1
        self._state = ((words[0] | words[1] << 32) + self._increment) & _WORD
        self._step()

    def below(self, count: int) -> int:
        """Draws one of so many, by its index from 0. It is 0 where there is none."""
        word = _output_of(self._state)
        self._step()
        return word % count if count else 0

    def one_in(self, count: int) -> bool:
        """Draws one of so many, and says whether it is the first."""
        return self.below(count) == 0

    def _step(self) -> None:
        self._state = (self._state * _MULTIPLIER + self._increment) & _WORD


def _output_of(state: int) -> int:
    """Returns the word of 32 bits that a state gives."""
    mixed = (((state >> 18) ^ state) >> 27) & _HALF
    turn = state >> 59
    return ((mixed >> turn) | (mixed << (32 - turn))) & _HALF
