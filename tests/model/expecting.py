"""Counts what was expected and keeps what failed."""


class Expectations:
    def __init__(self):
        self.count = 0
        self.failures = []

    def expect(self, point, got, wanted):
        self.count += 1
        if got != wanted:
            self.failures.append('%s: got %r, wanted %r' % (point, got, wanted))
