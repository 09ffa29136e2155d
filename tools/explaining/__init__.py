"""The script `explain`: the lines of a ledger as text, as csv and as json."""
