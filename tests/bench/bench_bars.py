"""The bars of tests/bench.py, and the rows that are known to miss theirs."""

# Instructions, as so many times those of the plain program.
PLAIN = {'replay': 1.15, 'show': 1.1, 'save': 1.1, 'merge': 2.0}
# Merges of few large entries are shown without a bar.
WITHOUT = {('merge', 'pieces of a byte, shuffled'), ('merge', 'pieces of a byte, descending'), ('merge', 'pieces of 400 bytes, shuffled')}
# Instructions, as so many times those of the same packets as text.
TEXT = {'--json': 1.6, '--brief': 1.1}
# The cost of one among a hundred times as many, of one that is.
GROWTH = 2.0
# The same of a piece of one datagram, shuffled: 1.1 where rows of runs are halved, 1.6 among 10,000 where none is.
PIECES = 1.4
# The packet of which most labels are read, beside the cheapest of its size that is refused.
WORST = 10.0
# A replay with --per-source, beside one without.
PER_SOURCE = 1.2
# A byte that is merged into an entry of a hundred times as many, beside one into the small entry.
GROWN = 1.1
# The row that misses its bar, with its number, and that over captures a tenth as long.
KNOWN = {('show', '10,800 to 111 labels'): (56.9, 45.6)}
