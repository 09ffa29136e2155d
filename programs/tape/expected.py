#!/usr/bin/env python3
"""What the machine on the cards behind the end of the deck leaves on its tape of zeros, and in how many steps it halts."""
import pathlib

cards = (pathlib.Path(__file__).parent / 'deck.txt').read_text().split('\n')
end = next(at for at, card in enumerate(cards) if card.startswith('/BUDGET'))
rules = {(card[1], card[2]): (card[4], card[5], card[6]) for card in cards[end + 1:] if card}
tape, head, state, steps = {}, 0, 'A', 0
while state != 'H':
    tape[head], way, state = rules[state, tape.get(head, '0')]
    head += 1 if way == 'R' else -1
    steps += 1
print('PRT ' + ''.join(tape.get(cell, '0') for cell in range(-32, 32)))
print(f'PRT {list(tape.values()).count("1"):04} ONES IN   {steps:04} STEPS')
