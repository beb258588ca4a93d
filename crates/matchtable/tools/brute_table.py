"""Writes the table of outcomes by brute force, to compare the program with: python3 brute_table.py > ../stdout
Every assignment of heads to tracks is tried in order, and every set of tracks by its number; nothing of the crate is used."""
from itertools import product


def outcome(heads, rows):
    fits = [[h for h in range(heads) if row >> h & 1] for row in rows]
    tracks = range(len(rows))
    for placing in product(range(heads), repeat=len(rows)):  # in the order of lists
        if all(placing[t] in fits[t] for t in tracks) and len(set(placing)) == len(rows):
            return 'seen' + ''.join(' %d' % h for h in placing)
    for members in sorted((sum(2 ** t for t in s), s) for s in subsets(list(tracks))):
        number, s = members
        if len({h for t in s for h in fits[t]}) < len(s):
            return 'short %d' % number
    raise AssertionError('neither seen nor short')


def subsets(tracks):
    return [tuple(t for t, chosen in zip(tracks, choice) if chosen) for choice in product([False, True], repeat=len(tracks))]


for m in range(4):
    for n in range(4):
        for rows in product(range(2 ** n), repeat=m):
            rows = rows[::-1]  # the first row counts fastest
            print('%d tracks, %d heads, rows%s: %s' % (m, n, ''.join(' %d' % r for r in rows), outcome(n, rows)))
