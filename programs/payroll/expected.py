#!/usr/bin/env python3
"""The page of a payroll, from the cards behind the end of the deck: a line for each, and the totals."""
import pathlib


def amounts(cents):
    return '   '.join(f'{amount // 100:6}.{amount % 100:02}' for amount in cents)


cards = (pathlib.Path(__file__).parent / 'deck.txt').read_text().split('\n')
end = next(at for at, card in enumerate(cards) if card.startswith('/BUDGET'))
print('PRT NAME             HOURS      GROSS        TAX         NET')
print('PRT ' + '-' * 57)
totals = [0, 0, 0]
for card in cards[end + 1:]:
    if card:
        name, hours, rate, less = card[1:17], int(card[17:20]), int(card[20:24]), int(card[24:29])
        gross = (hours * rate + max(0, hours - 400) * rate // 2 + 5) // 10
        tax = gross * (0 if gross < 10000 else 10 if gross < 20000 else 20) // 100
        line = [gross, tax, max(0, max(0, gross - tax) - less)]
        totals = [total + amount for total, amount in zip(totals, line)]
        print(f'PRT {name} {hours // 10:02}.{hours % 10}   {amounts(line)}')
print(f'PRT {"TOTAL":24}{amounts(totals)}')
