"""The card reader and the line printer.

Follows docs/machine.md, "Orders of the reader and of the printer" and "Cards of the reader, and what is printed".
"""
from words import EE, EOP, bits_of


def card_words(card):
    """The eight words of a card of the reader, 64 characters."""
    return [int.from_bytes(card[8 * k:8 * k + 8], 'big') for k in range(8)]


def read_in(state, cards):
    """The reader's order takes effect."""
    area, _ = state.reader
    state.reader = None
    if not cards:
        state.indicators(bits_of(EE))
        return
    for k, word in enumerate(card_words(cards.pop(0))):
        state.put(area + k, word)
    state.indicators(bits_of(EOP))


def print_out(state):
    """The printer's order takes effect: gives the text that is printed."""
    area, _ = state.printer
    state.printer = None
    state.indicators(bits_of(EOP))
    text = b''.join(state.word(area + k).to_bytes(8, 'big') for k in range(8))
    return ''.join(chr(b) if 32 <= b <= 126 else ' ' for b in text).rstrip(' ')


def next_device(state):
    """At rest: the device whose order takes effect next, 'reader', 'printer' or None."""
    if state.reader and (not state.printer or state.reader[1] <= state.printer[1]):
        return 'reader'
    return 'printer' if state.printer else None
