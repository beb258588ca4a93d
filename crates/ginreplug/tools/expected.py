"""Writes what ginreplug is to print, by brute force: python3 expected.py > ../stdout
Reads ../data/sheet.gin (a span sheet) and ../stdin; nothing of the crates is used."""
from itertools import combinations, permutations
from pathlib import Path

here = Path(__file__).resolve().parent.parent


def word(b, i):
    return b[i] << 8 | b[i + 1]


def fields(b):
    i = 0
    while i < len(b):
        n = word(b, i + 1)
        yield b[i], b[i + 3:i + 3 + n]
        i += 3 + n


def signature(body):
    tracks = [[(word(t, 4 * k), word(t, 4 * k + 2)) for k in range(len(t) // 4)] for _, t in fields(body[4:])]
    return word(body, 0), body[3], tracks


def verdict(heads, frames, tracks, run):
    if len(run) < frames:
        return 'young', None
    last = run[-frames:]
    fit = [{h for h in range(heads) if all(lo <= f[h] <= hi for (lo, hi), f in zip(t, last))} for t in tracks]
    for placing in permutations(range(heads), len(tracks)):
        if all(h in fit[t] for t, h in enumerate(placing)):
            return 'seen', placing
    sets = [s for n in range(1, len(tracks) + 1) for s in combinations(range(len(tracks)), n)]
    return 'short', min(sum(2 ** t for t in s) for s in sets if len(set().union(*(fit[t] for t in s))) < len(s))


(_, head), *rest = fields((here / 'data/sheet.gin').read_bytes())
heads, sheet = head[1], [signature(b) for _, b in rest]
events = list(fields((here / 'stdin').read_bytes()))


def line(order):
    run, number, seen, told = [], 0, '', []
    for tag, body in events:
        if tag == 5:
            run = []
            continue
        frame = [0] * heads
        for h in range(heads):
            frame[order[h]] = word(body, 2 * h)
        run.append(frame)
        number += 1
        for name, frames, tracks in sheet:
            say, what = verdict(heads, frames, tracks, run)
            told.append((say, what if say == 'short' else None))
            if say == 'seen':
                seen += '; frame %d: %d on %s' % (number, name, ' '.join(map(str, what)))
    return seen, told


orders = list(permutations(range(heads)))
home = line(orders[0])[1]
for order in orders:
    seen, told = line(order)
    assert told == home
    print('sockets ' + ' '.join(map(str, order)) + seen)
print('%d plug orders, %d verdicts: every verdict agrees' % (len(orders), len(orders) * len(home)))
