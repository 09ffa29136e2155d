"""What the assembler gives and the machine runs: a program with its controls, or a refusal.

Follows docs/strap.md and docs/object-text.md.
"""
from dataclasses import dataclass, field


class Refused(Exception):
    """A job or an object text that is refused: the number of its card or line, and the name of the fault."""

    def __init__(self, card, fault):
        super().__init__(card, fault)
        self.card, self.fault = card, fault

    def line(self):
        return f'CARD {self.card} {self.fault}\n'.encode()


class Fault(Exception):
    """A fault of a card whose number is known above."""


@dataclass
class Program:
    words: dict                                     # word address -> 64 bits, where a card emitted any
    start: int                                      # bit address
    controls: object                                # Controls of cards.py
    reader: list = field(default_factory=list)      # cards of the reader, 64 bytes each
    listing: list = field(default_factory=list)     # its lines, without line ends, whether asked for or not
    emitted: dict = field(default_factory=dict)        # half-word address -> the first card whose bits begin in it
