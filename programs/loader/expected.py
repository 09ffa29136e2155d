#!/usr/bin/env python3
"""What a program prints that is loaded twice from the cards behind the end of the deck, and what stands where it was loaded to.

The text is that of a program that adds five numbers, stores their sum and prints it. Its words from 43 on are the digits' zone, the sum and
the numbers; loaded from 1000 and from 2000 on, the word 43 lies at 1011 and at 2011.
"""
import pathlib

cards = (pathlib.Path(__file__).parent / 'deck.txt').read_text().split('\n')
words = {int(card.split()[1]): int(card.split()[2], 16) for card in cards if card.startswith('*W ')}
total = sum(words[word] for word in range(45, 50))
for _ in range(2):
    print(f'PRT THE SUM IS {total:05}')
for base in (1000, 2000):
    for word in range(43, 49):
        print(f'MEM {base + word - 32} {total if word == 44 else words[word]:016X}')
