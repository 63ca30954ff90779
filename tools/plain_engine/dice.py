"""Dice: a fixed run of numbers for each seed."""


class Dice:
    def __init__(self, *words):
        self.state = 0
        for byte in repr(words).encode():
            self.state = (self.state * 257 + byte) % 2 ** 64
        self.below(2)

    def below(self, bound):
        self.state = (self.state * 6364136223846793005 + 1442695040888963407) % 2 ** 64
        return (self.state >> 33) % bound

    def one_in(self, bound):
        return self.below(bound) == 0

    def pick(self, items):
        return items[self.below(len(items))]

    def shuffled(self, items):
        items = list(items)
        for place in range(len(items) - 1, 0, -1):
            other = self.below(place + 1)
            items[place], items[other] = items[other], items[place]
        return items

    def some(self, items, bound=2):
        """Each item one time in so many, in any order."""
        return self.shuffled(item for item in items if self.one_in(bound))
