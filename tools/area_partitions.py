#!/usr/bin/env python3
"""Makes crates/student/specs/AreaPartitions.antt, the witnesses of the theorem in AreaCheck.antt. Run in the repository's root.

The entries are read out of crates/statistics/specs/Table.antt. The areas are worked out as ByArea.antt defines them, in whole numbers of any
size. For each number of degrees of freedom the number of pieces is raised until all six entries pass. Nothing need be believed of what is
written: the proof works it out again, and fails where a partition does not do."""
import re
import sys
from math import isqrt

TABLE = 'crates/statistics/specs/Table.antt'
PARTITIONS = 'crates/student/specs/AreaPartitions.antt'
M = 10 ** 12
UNIT = 10 ** 20
ONE_IN = [5, 10, 20, 50, 100, 1000]

HEAD = '''-- Made by `python3 tools/area_partitions.py`, not by hand. The partitions that show the 180 entries by area, one for each number of degrees of freedom from 1
-- to 30, with M = 1000000000000. Each pair is a half width g and a number of pieces. The first 18 pairs go, for each of the six entries, in two pairs to half a
-- place below it and in one to half a place above it; the others go on towards M. `AreaCheck` computes with them; nothing need be believed of them. Definitions only.
use Rattle.std.specs.Prelude.{List, [], ◌∷◌, ℕ}

unfoldable pub partitions : List (List (ℕ × ℕ))
partitions =
'''


def entries():
    text = '\n'.join(line.split('--')[0] for line in open(TABLE, encoding='utf-8').read().split('\n'))
    body = re.search(r'^thousandths =(.*?)\[\]', text, re.M | re.S).group(1)
    return [int(word) for word in body.replace('∷', ' ').split()]


def half_place(row, col):
    return 10 if row == 0 and col >= 2 else 1


# ByArea.antt: `piece_at`, what lies under the curve and over it from point i to point i + 2 g, where i + 2 g is below M
def piece(v, i, g, M=M):
    p, j = i + g, i + 2 * g
    Pi, Pp, Pj = M * M - i * i, M * M - p * p, M * M - j * j
    Qi, Qp, Qj = M * M + i * i, M * M + p * p, M * M + j * j
    hi, hp, hj = (UNIT * P ** (v + 1) // Q ** (v + 1) for P, Q in ((Pi, Qi), (Pp, Qp), (Pj, Qj)))
    w, d, a, b = 2 * M * (M * M + i * j) * (j - i), Pi * Pj, i * Pj, j * Pi
    E = 6 * Qp ** 2 * d ** 2
    F = max((6 * Qp ** 2 + (v + 1) * 3 * (2 * p * M) ** 2) * d ** 2 - (v + 1) * Pp ** 2 * (2 * M) ** 2 * (a * a + a * b + b * b), 0)
    return hp * F * w // (E * d), ((hi + 1) * (a + 2 * b) + (hj + 1) * (2 * a + b)) * w // max(3 * (a + b) * d, 1) + 1


# is the point i at or after N/2000, and at or before it
def after(v, N, i, M=M):
    return (N * (M * M - i * i)) ** 2 <= 4000000 * v * (2 * i * M) ** 2


def before(v, N, i, M=M):
    return 4000000 * v * (2 * i * M) ** 2 <= (N * (M * M - i * i)) ** 2


# the even points next to N/2000: with y = t/√ν they are near M y / (1 + √(1 + y²))
def even_points(v, N):
    scale = 10 ** 20
    near = N * scale * M // (isqrt(4000000 * v * scale ** 2) + isqrt((4000000 * v + N * N) * scale ** 2))
    i = near // 2 * 2 - 4
    while not after(v, N, i + 2):
        i += 2
    return i + 2, i if not before(v, N, i + 2) else i + 2


def partition(v, row, pieces):
    pairs, i, half = [], 0, M // pieces
    for col, e in enumerate(row):
        h = half_place(v - 1, col)
        low, _ = even_points(v, 2 * e - h)
        _, high = even_points(v, 2 * e + h)
        for to in (low, high):
            d = to - i
            n = max(1, -(-d // (2 * half)), -(-d * (pieces // (10 if v < 3 else 40)) // (M - to))) if to == low else 1
            g = d // (2 * n)
            pairs.append((g, n))
            if to == low:
                pairs.append(((d - 2 * n * g) // 2, 1) if d > 2 * n * g else (1, 0))
            i = to
    # towards M, the rest halved again and again
    while M - i > 4:
        g = min(half, (M - i) // (4 * (pieces // 40)))
        if g < 1:
            break
        n = (M - i) // 2 // (2 * g)
        pairs.append((g, n))
        i += 2 * g * n
    return pairs


# ByArea.antt: `nodes`, after each pair the point and what lies under the curve and over it from 0 to there; all points are below M
def nodes_of(v, pairs, M=M):
    nodes, i, under, over = [], 0, 0, 0
    for g, n in pairs:
        for _ in range(n):
            a, b = piece(v, i, g, M)
            i, under, over = i + 2 * g, under + a, over + b
        nodes.append((i, under, over))
    return nodes


# `tailBound`; z is not 0
def tail_bound(z, M=M):
    return UNIT * (M * M - z * z) // (2 * z * M) + 1


# ByArea.antt and AreaCheck.antt: do all six entries pass
def passes(v, row, pairs):
    nodes = nodes_of(v, pairs)
    i, under, over = nodes[-1]
    if not 0 < i < M:
        return False
    tailBound = tail_bound(i)
    for col, e in enumerate(row):
        h, k, low, high = half_place(v - 1, col), ONE_IN[col], nodes[3 * col + 1], nodes[3 * col + 2]
        if not (after(v, 2 * e - h, low[0]) and over + tailBound < k * (under - low[1])
                and before(v, 2 * e + h, high[0]) and k * (over - high[2] + tailBound) < under):
            return False
    return True


def main():
    table, total, rows = entries(), 0, []
    for v in range(1, 31):
        row, pieces = table[6 * v - 6:6 * v], 200
        while not passes(v, row, partition(v, row, pieces)):
            pieces = pieces * 11 // 10
            if pieces > 50000:
                print(f'partitions: no partition shows the entries for {v} degrees of freedom')
                return 1
        pairs = partition(v, row, pieces)
        total += sum(n for _, n in pairs)
        rows.append('    (' + ' ∷ '.join(f'({g}, {n})' for g, n in pairs) + ' ∷ []) ∷\n')
    with open(PARTITIONS, 'w', encoding='utf-8') as out:
        out.write(HEAD + ''.join(rows) + '    []\n')
    print(f'partitions: {total} pieces')
    return 0


if __name__ == '__main__':
    sys.exit(main())
