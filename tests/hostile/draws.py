"""Numbers without order, the same for each seed: mostly sound ones, and else at a bound or beside
it."""
import random


class Draws:
    """What generators draw from. All of it comes from random(), whose sequence no version of Python
    changes."""

    def __init__(self, seed):
        self.random = random.Random(seed).random
        # Of so many numbers of fields one isn't sound.
        self.odds = 4

    def below(self, limit):
        """A number below a limit; 0 where the limit is 0."""
        return int(self.random() * limit)

    def one_in(self, draws):
        """True once in so many draws, on the average."""
        return self.below(draws) == 0

    def one_of(self, draws, limit, sound):
        """A number below a limit once in so many draws, and else the sound one."""
        return self.below(limit) if self.one_in(draws) else sound

    def pick(self, choices):
        return choices[self.below(len(choices))]

    def octets(self, count):
        return bytes(self.below(256) for _ in range(count))

    def number(self, sound, most, odds=None):
        """A number that is mostly sound, by the odds, and else at a bound, beside it, or any up to
        the most."""
        if not self.one_in(odds or self.odds):
            return sound
        beside = (
            0, most, most // 2 + 1, min(sound + 1, most), max(sound - 1, 0), self.below(most + 1)
        )
        return self.pick(beside)

    def near(self, sound, most):
        """The same, where one in 160 isn't sound."""
        return self.number(sound, most, 160)

    def at_bound(self, sound, bounds, one_in):
        """A number that once in so many draws is one of these bounds, and else the sound one."""
        return self.pick(bounds) if self.one_in(one_in) else sound

    def rarely(self, sound, most):
        """The same for inputs of many fields: one in 128 isn't sound, and lengths are missed by
        4."""
        if not self.one_in(128):
            return sound
        beside = (0, most, most // 2 + 1, min(sound + 1, most), max(sound - 1, 0),
                  min(sound + 4, most), max(sound - 4, 0), self.below(most))
        return self.pick(beside)

    def spoil(self, octets):
        """Octets with a bit turned, or with some cut off, one put behind or one taken out."""
        octets = bytearray(octets)
        place = self.below(len(octets))
        kind = self.below(8)
        if kind < 2:
            del octets[place:]
        elif kind == 2:
            del octets[-1:]
        elif kind == 3:
            octets.append(self.below(256))
        elif kind == 4:
            del octets[place:place + 1]
        elif octets:
            octets[place] ^= 1 << self.below(8)
        return bytes(octets)


def big(number, octets):
    """A number in so many octets, the most significant first; what it has above these is
    dropped."""
    return (number % 256**octets).to_bytes(octets, "big")


def words(*numbers):
    """Numbers of 16 bits, one behind the other."""
    return b"".join(big(number, 2) for number in numbers)


def longs(*numbers):
    """Numbers of 32 bits, one behind the other."""
    return b"".join(big(number, 4) for number in numbers)
