"""Repeatable chance. Written out (SplitMix64) so that a seed names the same
script under every version of Python."""

MASK = 2**64 - 1


class Dice:
    def __init__(self, *numbers):
        self.state = 0
        for number in numbers:
            self.state = (self.word() ^ number) & MASK

    def word(self):
        self.state = (self.state + 0x9E3779B97F4A7C15) & MASK
        z = self.state
        z = (z ^ z >> 30) * 0xBF58476D1CE4E5B9 & MASK
        z = (z ^ z >> 27) * 0x94D049BB133111EB & MASK
        return z ^ z >> 31

    def below(self, limit):
        return self.word() % limit

    def between(self, least, most):
        return least + self.below(most - least + 1)

    def chance(self, percent):
        return self.below(100) < percent

    def pick(self, choices):
        return choices[self.below(len(choices))]

    def weighted(self, choices):
        """One of the keys of a dictionary, as often as its weight says."""
        at = self.below(sum(choices.values()))
        for choice, weight in choices.items():
            at -= weight
            if at < 0:
                return choice

    def bytes(self, count):
        return bytes(self.below(256) for _ in range(count))

    def shuffled(self, choices):
        rest = list(choices)
        return [rest.pop(self.below(len(rest))) for _ in range(len(rest))]
