#!/usr/bin/env python3
"""The words of the cards behind the end of the deck with how often each occurs, the most frequent first."""
import collections
import pathlib

cards = (pathlib.Path(__file__).parent / 'deck.txt').read_text().split('\n')
end = next(at for at, card in enumerate(cards) if card.startswith('/BUDGET'))
counted = collections.Counter(word[:8] for card in cards[end + 1:] for word in card[1:].split())
for word, times in sorted(counted.items(), key=lambda item: (-item[1], item[0])):
    print(f'PRT {times:02} {word}')
