"""Random numbers that are the same with every Python."""
ALL_ONES = 2**64 - 1


class Dice:
    """splitmix64."""

    def __init__(self, seed):
        self.state = seed

    def below(self, n):
        self.state = (self.state + 0x9E3779B97F4A7C15) & ALL_ONES
        z = self.state
        z = ((z ^ (z >> 30)) * 0xBF58476D1CE4E5B9) & ALL_ONES
        z = ((z ^ (z >> 27)) * 0x94D049BB133111EB) & ALL_ONES
        return (z ^ (z >> 31)) % n

    def between(self, low, high):
        return low + self.below(high - low + 1)

    def one_of(self, things):
        return things[self.below(len(things))]

    def some(self, things, k):
        """k of the things, in their order."""
        things = list(things)
        while len(things) > k:
            things.pop(self.below(len(things)))
        return things


def near(dice, low, high):
    """A number of the range, often one of its ends."""
    return dice.one_of([low, high, dice.between(low, high), dice.between(low, high)])
