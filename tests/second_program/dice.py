"""A small random generator, written out so that every Python makes the same cases: PCG32 of M. O'Neill."""

WORD = (1 << 64) - 1


class Dice:
    def __init__(self, seed):
        self.stream = (2 * seed + 1) & WORD
        self.state = 0
        self.roll()
        self.state = (self.state + 0x9E3779B97F4A7C15) & WORD
        self.roll()

    def roll(self):
        """The next 32 bits."""
        old = self.state
        self.state = (old * 6364136223846793005 + self.stream) & WORD
        mixed = (((old >> 18) ^ old) >> 27) & 0xFFFFFFFF
        turn = old >> 59
        return ((mixed >> turn) | (mixed << (-turn & 31))) & 0xFFFFFFFF

    def between(self, low, high):
        """A whole number from low to high, both included."""
        return low + self.roll() % (high - low + 1)

    def pick(self, choices):
        return choices[self.roll() % len(choices)]

    def chance(self, one_in):
        return self.roll() % one_in == 0
