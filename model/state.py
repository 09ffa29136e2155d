"""The state of the machine, and how a step is undone.

Follows docs/machine.md, "Words and addresses", "Protected words", "The rest of the state" and "Steps back".
"""
from dataclasses import dataclass, field

from words import (AD, BOUNDARY, DF, DS, IF, INDICATORS, MASK, WORDS, kept, ones, part)


@dataclass
class Trail:
    """What undoes a step: the words that were written, each as it stood before, and all that is no word."""
    rest: tuple
    words: list = field(default_factory=list)


class State:
    def __init__(self, words, start):
        self.words = {MASK: kept(MASK, 0)} | {a: w for a, w in words.items() if a >= 32}
        self.counter = start // 32              # a half-word address
        self.enabled = self.waits = False
        self.done = 0
        self.reader = self.printer = None       # an order: its area and the number done at which it is due
        self.trail = Trail(())

    # ---- words and fields

    def word(self, address):
        return self.words.get(address, 0)

    def put(self, address, word):
        self.trail.words.append((address, self.word(address)))
        self.words[address] = kept(address, word)

    def field(self, bit, length):
        """The number that the bits from `bit` on spell."""
        address, first = divmod(bit, 64)
        two = self.word(address) << 64 | (self.word(address + 1) if first + length > 64 else 0)
        return two >> 128 - first - length & ones(length)

    def put_field(self, bit, length, number):
        address, first = divmod(bit, 64)
        last = 128 - first - length
        two = self.word(address) << 64 | self.word(address + 1)
        two = two & ~(ones(length) << last) | number << last
        self.put(address, two >> 64)
        if first + length > 64:
            self.put(address + 1, two & ones(64))

    # ---- indicators

    def indicators(self, on, off=0):
        """Turns indicators off and on; one that is in both is on."""
        self.put(INDICATORS, self.word(INDICATORS) & ~off | on)

    def is_on(self, indicator):
        return part(self.word(INDICATORS), indicator, indicator)

    def pending(self):
        """The leftmost indicator whose interrupt would be taken now, or None."""
        both = self.word(INDICATORS) & self.word(MASK)
        return 64 - both.bit_length() if self.enabled and both else None

    def at_rest(self):
        return self.waits and self.pending() is None

    # ---- protected words: the indicator that says why an access is forbidden, or None

    def is_protected(self, address):
        if not self.enabled or address < 32:
            return False
        bounds = self.word(BOUNDARY)
        inside = part(bounds, 32, 49) <= address < part(bounds, 0, 17)
        return inside != bool(part(bounds, 57, 57))

    def no_fetch(self, address):
        return AD if not 32 <= address < WORDS else IF if self.is_protected(address) else None

    def no_read(self, address):
        return AD if address >= WORDS else DF if self.is_protected(address) else None

    def no_write(self, address):
        return AD if address >= WORDS else DS if self.is_protected(address) else None

    # ---- steps back

    def begin(self):
        """A new trail, on which all is kept that is changed from now on."""
        self.trail = Trail((self.counter, self.enabled, self.waits, self.done, self.reader, self.printer))
        return self.trail

    def undo(self, trail):
        for address, word in reversed(trail.words):
            self.words[address] = word
        self.counter, self.enabled, self.waits, self.done, self.reader, self.printer = trail.rest
