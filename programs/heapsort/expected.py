#!/usr/bin/env python3
"""The keys of the cards behind the end of the deck, sorted, eight on a line."""
import pathlib

cards = (pathlib.Path(__file__).parent / 'deck.txt').read_text().split('\n')
end = next(at for at, card in enumerate(cards) if card.startswith('/BUDGET'))
keys = sorted(card[1:9].ljust(8) for card in cards[end + 1:] if card)
for at in range(0, len(keys), 8):
    print('PRT ' + ''.join(keys[at:at + 8]))
