#!/usr/bin/env python3
"""The folds of choices, as lists for the solver (docs/definitions.md says what points, two-faces, items and folds are).

    folds.py PAIR CLASSES

PAIR is a pair text, and CLASSES a text with lines `class i0 i1 ..`, other lines being passed over. For each class there is a
line `folds` and a line `a b c d alpha beta` for each fold of its items. The first line is the number of points.
"""
import itertools, sys
from math import gcd


def numbers(path):
    """The vertices and the dual vertices."""
    lines = [line.split() for line in open(path) if line.strip() and not line.startswith('#')]
    n = int(lines[0][1])
    return [[tuple(map(int, line)) for line in part] for part in (lines[1:n + 1], lines[n + 2:])]


def dot(m, x):
    return sum(a * b for a, b in zip(m, x))


def is_flat(points):
    """Whether the points lie on a line."""
    steps = [[b - a for a, b in zip(points[0], p)] for p in points[1:]]
    return all(s[i] * t[j] == s[j] * t[i] for s, t in itertools.combinations(steps, 2) for i in range(4) for j in range(i))


def geometry(vertices, dual):
    """The points on two facets, and the two-faces as numbers of points from 0, each in order."""
    box = [range(min(c), max(c) + 1) for c in zip(*vertices)]
    inside = (x for x in itertools.product(*box) if all(dot(m, x) >= -1 for m in dual))
    points = [x for x in inside if sum(dot(m, x) == -1 for m in dual) >= 2]
    faces = []
    for m, n in itertools.combinations(dual, 2):
        corners = [v for v in vertices if dot(m, v) == dot(n, v) == -1]
        if len(corners) >= 3 and not is_flat(corners):
            faces.append([k for k, x in enumerate(points) if dot(m, x) == dot(n, x) == -1])
    return points, faces


class Face:
    """A two-face with its items, which are found as they are asked for."""

    def __init__(self, points, face):
        self.face, count = face, range(len(face))
        for p, q in itertools.combinations(range(4), 2):
            self.place = [(points[k][p], points[k][q]) for k in face]
            unit = gcd(*(self.area(0, b, c) for b in count for c in count))
            if unit:
                break
        steps = list(itertools.permutations(count, 2))
        self.third = {s: [c for c in count if self.area(*s, c) == unit] for s in steps}
        self.boundary = [s for s in steps if all(self.is_beside(*s, p) for p in count if p not in s)]
        self.items, self.search = [], self.words(set(self.boundary), frozenset(), self.boundary, {})

    def area(self, a, b, c):
        (ax, ay), (bx, by), (cx, cy) = self.place[a], self.place[b], self.place[c]
        return (bx - ax) * (cy - ay) - (by - ay) * (cx - ax)

    def is_beside(self, a, b, p):
        """Whether p is to the left of the step, or on its line and not between its ends."""
        (ax, ay), (bx, by), (px, py) = self.place[a], self.place[b], self.place[p]
        side = self.area(a, b, p)
        return side > 0 or side == 0 and (px - ax) * (bx - px) + (py - ay) * (by - py) <= 0

    def crosses(self, a, b, c, d):
        if len({a, b, c, d}) < 4:
            return {a, b} == {c, d}
        return self.area(a, b, c) * self.area(a, b, d) < 0 > self.area(c, d, a) * self.area(c, d, b)

    def words(self, waiting, sides, drawn, thirds):
        """The fine triangulations in the order of their words, each as the third corner at each side."""
        if not waiting:
            yield thirds
            return
        a, b = min(waiting)
        for c in self.third[a, b]:
            others = ((b, c), (c, a))
            new = [s for s in others if s not in waiting]
            if any(s in sides for s in others) or any((q, p) in sides or any(self.crosses(p, q, *e) for e in drawn) for p, q in new):
                continue
            rest = waiting - {(a, b), *others} | {(q, p) for p, q in new}
            yield from self.words(rest, sides | {(a, b), *others}, drawn + new, {**thirds, (a, b): c, (b, c): a, (c, a): b})

    def folds(self, item):
        while len(self.items) <= item:
            self.items.append(list(self.lines(next(self.search))))
        return self.items[item]

    def lines(self, thirds):
        """A line for each inner edge."""
        for (a, b), c in sorted(thirds.items()):
            if a < b and (b, a) in thirds:
                c, d = sorted((c, thirds[b, a]))
                k = 0 if self.place[a][0] != self.place[b][0] else 1
                (wa, wb, wc, wd) = (self.place[p][k] for p in (a, b, c, d))
                alpha = (wc + wd - 2 * wb) // (wa - wb)
                yield '%d %d %d %d %d %d\n' % (*(self.face[p] + 1 for p in (a, b, c, d)), alpha, 2 - alpha)


def main(pair, classes):
    points, faces = geometry(*numbers(pair))
    faces = [Face(points, face) for face in faces]
    print(len(points))
    for line in open(classes):
        if line.startswith('class '):
            items = map(int, line.split()[1:])
            print('folds\n' + ''.join(''.join(face.folds(item)) for face, item in zip(faces, items)), end='')


if __name__ == '__main__':
    main(*sys.argv[1:])
