#!/usr/bin/env python3
"""Reads what `ntfe classes` or `ntfe resume` wrote, block by block, with everything by coordinates.

    read_classes.py [--show] < RUN_TEXT    checks the text, says how many classes it has, and shows their heights

As a module: `for block in read_blocks(lines): ...`. A text that stops early gives its whole blocks; what is wrong is told
by `ValueError`. docs/cytools.md says how a block becomes a triangulation in CYTools.
"""

import itertools
import sys
from collections.abc import Iterable, Iterator
from dataclasses import dataclass, field

Point = tuple[int, int, int, int]
Plane = tuple[int, int]


def dot(m: Point, x: Point) -> int:
    return sum(a * b for a, b in zip(m, x))


def area(a: Point, b: Point, c: Point, plane: Plane) -> int:
    """Twice the area of three points in two of their coordinates, negative where they turn to the right."""
    i, j = plane
    return (b[i] - a[i]) * (c[j] - a[j]) - (b[j] - a[j]) * (c[i] - a[i])


@dataclass
class Head:
    """The pair of a run text, with its points and two-faces as `ntfe faces` numbers them."""

    vertices: list[Point]
    dual: list[Point]
    push: str = "up"
    stars: bool = False
    points: list[Point] = field(default_factory=list)
    faces: list[list[int]] = field(default_factory=list)  # numbers of points, from 0
    planes: list[Plane] = field(default_factory=list)

    def number(self) -> None:
        sides = [range(min(c), max(c) + 1) for c in zip(*self.vertices)]
        tight = {}
        for x in itertools.product(*sides):
            products = [dot(m, x) for m in self.dual]
            if min(products) >= -1 and products.count(-1) >= 2:
                tight[x] = {i for i, p in enumerate(products) if p == -1}
        self.points = sorted(tight)
        for i, j in itertools.combinations(range(len(self.dual)), 2):
            face = [k for k, x in enumerate(self.points) if {i, j} <= tight[x]]
            plane = next((p for p in itertools.combinations(range(4), 2) if self.spans(face, p)), None)
            if plane:
                self.faces.append(face)
                self.planes.append(plane)

    def spans(self, face: list[int], plane: Plane) -> bool:
        return any(area(*(self.points[k] for k in t), plane) for t in itertools.combinations(face, 3))


@dataclass
class Block:
    """A class: a number for each two-face, heights by points, the height of the origin, and the star's simplices, if shown:
    four points each, which are joined to the origin."""

    choice: tuple[int, ...]
    heights: dict[Point, int]
    origin_height: int
    simplices: list[tuple[Point, ...]] | None


def lower_triples(head: Head, face: int, heights: list[int]) -> set[tuple[int, ...]]:
    """The triples of points of a two-face whose plane lies below all its other points, lifted by the heights."""
    numbers, plane = head.faces[face], head.planes[face]
    found = set()
    for t in itertools.combinations(numbers, 3):
        a, b, c = (head.points[k] for k in t)
        size = area(a, b, c, plane)
        ha, hb, hc = (heights[k] for k in t)

        def rise(x: Point, h: int) -> int:
            return size * (size * h - area(x, b, c, plane) * ha - area(a, x, c, plane) * hb - area(a, b, x, plane) * hc)

        if size and all(rise(head.points[p], heights[p]) > 0 for p in numbers if p not in t):
            found.add(t)
    return found


def read_head(lines: Iterator[str]) -> Head:
    def vectors(word: str) -> list[Point]:
        name, count = next(lines).split()
        if name != word:
            raise ValueError(f"{word} expected, not {name}")
        return [tuple(map(int, next(lines).split())) for _ in range(int(count))]

    if next(lines, "").split() != ["ntfe", "1"]:
        raise ValueError("no run text of version 1")
    head = Head(vectors("vertices"), vectors("dual"))
    head.push = next(lines).split()[1]
    head.number()
    return head


def read_blocks(text: Iterable[str], check: bool = True) -> Iterator[Block]:
    """The blocks of a run text. With `check`, the triangles that a block's heights give on each two-face must use all its
    points, agree with the star where there is one, and be the same wherever the number is."""
    lines = (line.rstrip("\n") for line in text if line.endswith("\n"))
    head = read_head(lines)
    known: list[dict[int, set]] = [{} for _ in head.faces]
    last: tuple[int, ...] = ()
    for line in lines:
        word, *rest = line.split()
        if word == "stars":
            head.stars = True
            continue
        if word in ("end", "limit"):
            return
        choice, numbers = tuple(map(int, rest)), next(lines, "").split()[1:]
        if word != "class" or len(choice) != len(head.faces) or choice <= last:
            raise ValueError(f"not a class in its place: {line}")
        star = None
        if head.stars:
            count = int((next(lines, "") or "star 0").split()[1])
            rows = [tuple(int(k) - 1 for k in row.split()[1:]) for row in itertools.islice(lines, count)]
            star = rows if count and len(rows) == count else None
        if len(numbers) != len(head.points) or (head.stars and star is None):
            return  # the text stops within this block
        heights, last = list(map(int, numbers)), choice
        if check:
            for face, item in enumerate(choice):
                triples = lower_triples(head, face, heights)
                if {k for t in triples for k in t} != set(head.faces[face]):
                    raise ValueError(f"{line}: the heights leave a point of two-face {face} out")
                if known[face].setdefault(item, triples) != triples:
                    raise ValueError(f"{line}: two-face {face} has another triangulation under this number")
                left = {t for s in star or [] for t in itertools.combinations(s, 3) if set(t) <= set(head.faces[face])}
                if star is not None and {t for t in left if area(*(head.points[k] for k in t), head.planes[face])} != triples:
                    raise ValueError(f"{line}: the star differs from the heights on two-face {face}")
        most = max((abs(h) for h in heights), default=0)
        simplices = star and [tuple(head.points[k] for k in s) for s in star]
        yield Block(choice, dict(zip(head.points, heights)), -(1 + most * (2**47 + 1)), simplices)


if __name__ == "__main__":
    total = 0
    for total, block in enumerate(read_blocks(sys.stdin), 1):
        if "--show" in sys.argv[1:]:
            print(*block.choice, "| origin", block.origin_height, *(f"{x}: {h}" for x, h in block.heights.items()))
    print(total, "classes")
