#!/usr/bin/env python3
"""An independent measurement in exact integers, and the cases that it makes for crates/compared.

It tries all choices of one to three corner differences that are affinely independent, keeps those whose nearest affine
point has positive weights only, and takes the shortest. Where that one fails the stopping test it looks for four corner
differences that hold the origin, and the answer is 0; where it passes, no choice of four is tried, since none could be
shorter. The weights come from the normal equations by Cramer's rule.

    python3 tools/oracle.py crates/compared      writes the files stdin and stdout of that crate anew
"""
import itertools
import os
import random
import sys
from math import gcd


def dot(a, b):
    return a[0] * b[0] + a[1] * b[1] + a[2] * b[2]


def minus(a, b):
    return (a[0] - b[0], a[1] - b[1], a[2] - b[2])


def determinant(m):
    if not m:
        return 1
    if len(m) == 1:
        return m[0][0]
    if len(m) == 2:
        return m[0][0] * m[1][1] - m[0][1] * m[1][0]
    return sum((-1) ** k * m[0][k] * determinant([row[:k] + row[k + 1:] for row in m[1:]]) for k in range(len(m)))


def foot(points):
    """The nearest affine point of some points as (numerators, denominator), or None: dependent, or a weight that is not positive."""
    origin = points[0]
    edges = [minus(p, origin) for p in points[1:]]
    gram = [[dot(e, f) for f in edges] for e in edges]
    whole = determinant(gram)
    if whole == 0:
        return None
    right = [-dot(e, origin) for e in edges]
    weights = []
    for k in range(len(edges)):
        replaced = [row[:k] + [right[i]] + row[k + 1:] for i, row in enumerate(gram)]
        weights.append(determinant(replaced))
    weights.insert(0, whole - sum(weights))
    if min(weights) <= 0:
        return None
    sums = tuple(sum(w * p[axis] for w, p in zip(weights, points)) for axis in range(3))
    return sums, whole


def nearest(first, second):
    """D, W, p, q of two bodies."""
    differences = sorted({minus(a, b) for a in first for b in second})
    best = None
    for size in (1, 2, 3):
        for choice in itertools.combinations(differences, size):
            found = foot(choice)
            if found is None:
                continue
            sums, whole = found
            if best is None or dot(sums, sums) * best[1] ** 2 < dot(best[0], best[0]) * whole ** 2:
                best = found
    sums, whole = best
    if any(whole * dot(sums, y) < dot(sums, sums) for y in differences):
        # no choice of up to three is nearest: the origin lies inside a tetrahedron
        assert any(foot(choice) for choice in itertools.combinations(differences, 4))
        sums, whole = (0, 0, 0), 1
    common = gcd(gcd(gcd(sums[0], sums[1]), sums[2]), whole)
    d, w = tuple(s // common for s in sums), whole // common
    p, q = dot(d, d), w * w
    common = gcd(p, q)
    return d, w, p // common, q // common


def box(low, high):
    return [tuple(h if bit else l for bit, l, h in zip(bits, low, high)) for bits in itertools.product((0, 1), repeat=3)]


def moved(points, by):
    return [(x + by[0], y + by[1], z + by[2]) for x, y, z in points]


def bodies(rng):
    """One random pair of bodies, of one of many shapes."""
    def spot(reach):
        return tuple(rng.randint(-reach, reach) for _ in range(3))

    def cloud(count, reach):
        return [spot(reach) for _ in range(count)]

    kind = rng.randrange(11)
    if kind == 0:  # one corner each
        return cloud(1, 14), cloud(1, 14)
    if kind == 1:  # small clouds close to each other: often a touch, or a hair off it
        return cloud(rng.randint(1, 4), 3), cloud(rng.randint(1, 4), 3)
    if kind == 2:  # far corners: the largest numbers
        return cloud(rng.randint(2, 4), 14), cloud(rng.randint(2, 4), 14)
    if kind == 3:  # all corners in a plane
        flat = [(x, y, 0) for x, y, _ in cloud(4, 6)]
        return flat, moved(cloud(rng.randint(1, 3), 3), (0, 0, rng.randint(-3, 3)))
    if kind == 4:  # all corners in a line, some twice
        step = spot(2)
        line = [tuple(c * k for c in step) for k in (-2, 0, 1, 1, 3)]
        return line, cloud(rng.randint(1, 3), 8)
    if kind == 5:  # a body and itself, moved a little
        body = cloud(rng.randint(2, 5), 6)
        return body, moved(body, spot(2))
    if kind == 6:  # boxes
        low, high = spot(3), spot(3)
        low, high = tuple(map(min, low, high)), tuple(map(max, low, high))
        return box(low, high), moved(box((-1, -1, 0), (1, 1, 1)), spot(7))
    if kind == 7:  # one body inside another
        return box((-6, -6, -6), (6, 6, 6)), cloud(rng.randint(1, 3), 5)
    if kind == 8:  # a face against an edge
        face = [(-4, -4, 0), (4, -4, 1), (0, 5, 2)]
        edge = [(rng.randint(-5, 5), rng.randint(-5, 5), rng.randint(0, 3)) for _ in range(2)]
        return face, edge
    if kind == 9:  # a corner a hair off a large triangle
        face = cloud(3, 14)
        shares = [rng.random() for _ in range(3)]
        centre = tuple(round(sum(s * p[axis] for s, p in zip(shares, face)) / sum(shares)) for axis in range(3))
        return face, [centre]
    slant = [(-5, -4, 0), (-5, 4, 0), (5, -4, 3), (5, 4, 3)]  # a slanted lid against a foot
    return slant, moved([(-1, -1, 0), (1, -1, 0), (0, 1, 0), (0, 0, 2)], spot(9))


def main():
    folder = sys.argv[1]
    rng = random.Random(20261118)
    asked, answered = [], []
    for _ in range(1500):
        first, second = bodies(rng)
        d, w, p, q = nearest(first, second)
        numbers = [len(first), len(second)] + [c for point in first + second for c in point]
        asked.append(' '.join(map(str, numbers)))
        answered.append(' '.join(map(str, (*d, w, p, q))))
    for name, lines in (('stdin', asked), ('stdout', answered)):
        with open(os.path.join(folder, name), 'w') as out:
            out.write('\n'.join(lines) + '\n')
    smallest = min((line.split()[4:] for line in answered if not line.endswith(' 0 1')), key=lambda f: int(f[0]) / int(f[1]))
    print(f'{len(asked)} cases; the narrowest gap above 0 is {smallest[0]}/{smallest[1]}')


if __name__ == '__main__':
    main()
