"""A small random source of our own, the same in every Python.

xorshift64* in whole numbers: three shifts over 64 bits and one odd factor.
"""

ALL_BITS = 2 ** 64 - 1


class RandomBytes:
    def __init__(self, seed):
        # Spread small seeds over all bits; the state must never be 0.
        self.state = (seed * 0x9E3779B97F4A7C15 + 0xD1B54A32D192ED03) & ALL_BITS or 1
        for _ in range(4):
            self.number()

    def number(self):
        """The next 64-bit number."""
        state = self.state
        state ^= state >> 12
        state = (state ^ state << 25) & ALL_BITS
        state ^= state >> 27
        self.state = state
        return state * 0x2545F4914F6CDD1D & ALL_BITS

    def below(self, limit):
        """A number from 0 to limit - 1, for limits up to 2^32."""
        return (self.number() >> 32) * limit >> 32

    def between(self, lowest, highest):
        return lowest + self.below(highest - lowest + 1)

    def one_in(self, count):
        return self.below(count) == 0

    def choice(self, things):
        return things[self.below(len(things))]

    def byte(self):
        return self.number() >> 56

    def bytes(self, count):
        eights = (count + 7) // 8
        drawn = b''.join(self.number().to_bytes(8, 'little') for _ in range(eights))
        return drawn[:count]

    def bytes_from(self, alphabet, count):
        return bytes([self.choice(alphabet) for _ in range(count)])
