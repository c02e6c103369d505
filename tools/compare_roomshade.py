#!/usr/bin/env python3
"""Compares `roomshade` with a second reading of docs/RULES.md on random rooms.

    compare_roomshade.py [ROOMS] [SEED]

Run at the top of the repository, after `rt run` in crates/roomshade. Here an origin is shut by the words of the rules, tried out
origin by origin: some other piece clashes at every origin within its bounds, a wall cell is covered, an order cannot be met.
No box and no end formula is used. Pictures are compared letter by letter. Of a picture that is too large, each listed box
must hold an origin within the bounds, and some origins are tried: an origin is shut exactly when a listed box holds it.
"""
import itertools, random, subprocess, sys

PROGRAM = 'crates/roomshade/out/roomshade'
MAX_CELLS = 4096


class Room:
    def __init__(self, rng, axes):
        self.axes = axes
        self.mode = rng.choice(['strict', 'strict', 'nonstrict'])
        wide = rng.random() < 0.15
        side = {1: 12, 2: 7, 3: 4}[axes]
        self.lengths, self.ranges = [], []
        for _ in range(rng.randint(1, 5)):
            self.lengths.append([rng.choice([0, 1, 1, 2, 2, 3, 5]) for _ in range(axes)])
            ranges = []
            for _ in range(axes):
                low = rng.randint(-3, 6)
                reach = rng.choice([0, 0, 1, 2, rng.randint(0, side)])
                ranges.append((low, low + reach))
            self.ranges.append(ranges)
        if wide:
            p = rng.randrange(len(self.ranges))
            self.ranges[p] = [(-40, 60)] * axes if axes > 1 else [(-3000, 3000)]
        n = len(self.lengths)
        self.orders = []
        for _ in range(rng.choice([0, 0, 1, 2, 4]) if n > 1 else 0):
            a, b = rng.sample(range(n), 2)
            self.orders.append((a, b, rng.randrange(axes), rng.choice([0, 0, 1, 3])))
        self.rows = []
        if rng.random() < (0.6 if axes > 1 else 0.1):
            for _ in range(rng.randint(1, 9)):
                self.rows.append(''.join(rng.choice('..#') if rng.random() < 0.6 else '.' for _ in range(rng.randint(1, 9))))

    def sheet(self):
        lines = [f'sheet {self.axes} {self.mode} {len(self.lengths)} {len(self.orders)} {len(self.rows)}']
        for lengths, ranges in zip(self.lengths, self.ranges):
            lines.append(' '.join(map(str, ['piece', *lengths, *itertools.chain(*ranges)])))
        lines += [f'before {a} {b} {d} {g}' for a, b, d, g in self.orders]
        lines += ['wall ' + row for row in self.rows]
        return '\n'.join(lines) + '\n'

    def clash(self, i, x, j, y):
        li, lj = self.lengths[i], self.lengths[j]
        if self.mode == 'nonstrict' and 0 in li + lj:
            return False
        return all(x[d] < y[d] + lj[d] and y[d] < x[d] + li[d] for d in range(self.axes))

    def corners(self, j):
        """All origins of j, or its corners where they are many: a clash at the corners is one between them too."""
        many = 1
        for low, high in self.ranges[j]:
            many *= high - low + 1
        if many <= 300:
            return itertools.product(*(range(low, high + 1) for low, high in self.ranges[j]))
        return itertools.product(*((low, high) for low, high in self.ranges[j]))

    def shut(self, p, x):
        for j in range(len(self.lengths)):
            if j != p and all(self.clash(p, x, j, y) for y in self.corners(j)):
                return True
        for a, b, d, g in self.orders:
            if p == a and x[d] + self.lengths[a][d] + g > self.ranges[b][d][1]:
                return True
            if p == b and x[d] < self.ranges[a][d][0] + self.lengths[a][d] + g:
                return True
        if self.axes > 1:
            for r in range(x[1], x[1] + self.lengths[p][1]):
                for c in range(x[0], x[0] + self.lengths[p][0]):
                    if 0 <= r < len(self.rows) and 0 <= c < len(self.rows[r]) and self.rows[r][c] == '#':
                        return True
        return False


def fail(room, why):
    sys.exit(f'compare_roomshade: {why}\n{room.sheet()}')


def ranges_text(ranges):
    return ' '.join(f'{low}..{high}' for low, high in ranges)


def compare(room, rng):
    said = subprocess.run([PROGRAM], input=room.sheet(), capture_output=True, text=True, check=True).stdout.split('\n')
    if room.axes == 1 and room.rows:
        if said != ['refused 13 rule 0', '']:
            fail(room, f'not refused: {said[:2]}')
        return 'refused'
    at, large = 0, False
    for p, ranges in enumerate(room.ranges):
        if said[at] != f'piece {p} {ranges_text(ranges)}':
            fail(room, f'heading of piece {p}: {said[at]}')
        at += 1
        spans = [range(low, high + 1) for low, high in ranges]
        cells = 1
        for span in spans:
            cells *= len(span)
        if cells <= MAX_CELLS:
            for z in spans[2] if room.axes == 3 else [None]:
                if z is not None:
                    if said[at] != f'plane {z}':
                        fail(room, f'plane {z} of piece {p}: {said[at]}')
                    at += 1
                for y in spans[1] if room.axes > 1 else [None]:
                    rest = [v for v in (y, z) if v is not None]
                    want = ''.join('#' if room.shut(p, [x, *rest]) else '.' for x in spans[0])
                    if said[at] != want:
                        fail(room, f'piece {p} at {rest}: {said[at]} for {want}')
                    at += 1
        else:
            large, boxes = True, []
            while said[at].startswith('box '):
                boxes.append([tuple(map(int, item.split('..'))) for item in said[at].split(' ')[1:]])
                at += 1
            for box in boxes:
                if len(box) != room.axes or any(max(low, b[0]) > min(high, b[1]) for (low, high), b in zip(ranges, box)):
                    fail(room, f'box {box} of piece {p} holds no origin')
            for _ in range(300):
                x = [rng.randint(max(low, -12), min(high, 12)) if rng.random() < 0.8 else rng.randint(low, high) for low, high in ranges]
                held = any(all(b[0] <= v <= b[1] for v, b in zip(x, box)) for box in boxes)
                if held != room.shut(p, x):
                    fail(room, f'piece {p} at {x}: held {held}')
    if said[at:] != ['']:
        fail(room, f'left over: {said[at:][:3]}')
    return 'large' if large else 'pictures'


def main():
    rooms = int(sys.argv[1]) if len(sys.argv) > 1 else 2000
    seed = int(sys.argv[2]) if len(sys.argv) > 2 else 1
    rng, seen = random.Random(seed), {}
    for _ in range(rooms):
        kind = compare(Room(rng, rng.choice([1, 2, 2, 2, 3])), rng)
        seen[kind] = seen.get(kind, 0) + 1
    print(f'{rooms} rooms agree, seed {seed}:', ', '.join(f'{n} {kind}' for kind, n in sorted(seen.items())))


main()
