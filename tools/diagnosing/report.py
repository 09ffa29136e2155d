"""The report of a run, as far as it is looked at here."""
import re

FIRST_REGISTER, INDICATORS, MASK, TABLE = 16, 11, 12, 2
OP = 15                           # the indicator of no instruction


class Emitted:
    """The bits of a card: its number, its place in bits, and its bits as digits."""

    def __init__(self, number, place, digits):
        self.number, self.place, self.digits = number, place, digits
        self.word = place // 64


class Report:
    """A report with a listing: the bits of cards, interrupts, the end, and the last state."""

    def __init__(self, text):
        self.emitted = [Emitted(int(line[:5]), bits_of(line[5:15]), line[16:32].strip()) for line in text.split("\n")
                     if re.match(r" *\d+ +\d+\.\d+ [0-9A-F]+ ", line)]
        self.places = {name: bits_of(place) for name, place in re.findall(r"(?m)^SYM (\S+) (\d+\.\d+)$", text)}
        self.interrupts = [(int(n), int(after)) for n, after in re.findall(r"(?m)^INT (\d+) AFTER (\d+)$", text)]
        self.printed = re.findall(r"(?m)^PRT (.*)$", text)
        end = re.search(r"(?m)^END (\w+)\nDONE (\d+)\n(?:TICKS \d+\n)?IC (\d+\.\d+)\nEN ([01])", text)
        self.why, self.done, self.counter, self.enabled = end.group(1), int(end.group(2)), bits_of(end.group(3)), end.group(4) == "1"
        last = text[end.end():].split("\nBACK ")[0]
        self.words = {int(n): int(word, 16) for n, word in re.findall(r"(?m)^(?:REG|MEM) (\d+) ([0-9A-F]{16})$", last)}

    def word(self, number):
        return self.words.get(number, 0)

    def bits(self, place, count):
        """So many bits of storage from a place on, within one word or two."""
        pair = self.word(place // 64) << 64 | self.word(place // 64 + 1)
        return pair >> (128 - place % 64 - count) & (1 << count) - 1

    def on(self):
        """The numbers of the indicators that are on at the end."""
        return [n for n in range(64) if self.word(INDICATORS) >> (63 - n) & 1]

    def masked(self, indicator):
        """Whether the bit of the mask is zero."""
        return not self.word(MASK) >> (63 - indicator) & 1

    def table(self):
        """The word where the interrupt table begins."""
        return self.word(TABLE) >> 46

    def count(self, index):
        """The count of an index word."""
        return self.word(FIRST_REGISTER + index) >> 18 & (1 << 18) - 1

    def is_lost(self):
        """Whether the run came to a word that spells no instruction, as its indicators and interrupts say."""
        return OP in self.on() or any(n == OP for n, _ in self.interrupts)

    def is_behind(self):
        """Whether the counter stands behind all bits of cards."""
        return bool(self.emitted) and self.counter // 64 > max(one.word for one in self.emitted)


def bits_of(address):
    word, bit = address.split(".")
    return int(word) * 64 + int(bit)
