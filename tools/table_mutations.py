#!/usr/bin/env python3
"""Puts wrong digits in the t table through the falling and rising rule, through the test of the theorem by series, and through an adversary who
chooses the partitions of the theorem by area. Run in the repository's root.

The entries are read out of crates/statistics/specs/Table.antt, in thousandths; the rule is `columns-fall` and `rows-rise` there. Tried are each
entry as it stands, each swap of two adjacent different digits of its thousandths, and its last printed place one up and one down. (Three
decimals are printed; in the first row two from the third entry on.)

By series: `rounded` and what it calls are transcribed, name by name, from crates/student/specs/SeriesCheck.antt, BySeries.antt, Series.antt,
Ratio.antt and Quantile.antt, in whole numbers of any size. The numbers of terms are those of SeriesCheck.antt, so that a number which does
not pass might still pass with others: that none from 1 on does is proved, in Only.antt.

By area: for each of the four bounds of `Rounded byArea` the best is taken that any partition of a pool shows, each from a partition of its
own: the row's from AreaPartitions.antt, and all of at most two pairs for small M, degenerate ones included (empty, one node, steps of 0, no
pieces). The same is done without the condition that the last point is not 0, which shows what that condition is for. That no partition at all
lets a wrong number pass is proved, in Only.antt."""
import re
import sys
from itertools import product

sys.dont_write_bytecode = True
from area_partitions import M, PARTITIONS, after, before, nodes_of, tail_bound

TABLE = 'crates/statistics/specs/Table.antt'


# Table.antt
def rule(table):
    return (all(table[6 * row + 6 + col] < table[6 * row + col] for row in range(29) for col in range(6))
            and all(table[6 * row + col] < table[6 * row + col + 1] for row in range(30) for col in range(5)))


# Series.antt: the series [a, b; y/d]; the sum's numerator, the next term's, and the denominator of both, after n terms
def sums(a, y, b, d, n):
    s, u, v = 0, 1, 1
    for i in range(n):
        s, u, v = (s + u) * ((b + 2 * i) * d), u * ((a + 2 * i) * y), v * ((b + 2 * i) * d)
    return s, u, v


def falls(a, b, y, d, C, n):
    return y * C + d <= d * C and (a + 2 * n) * y * C + (b + 2 * n) * d <= (b + 2 * n) * d * C


# Ratio.antt
def below(p, w, m, n):
    return n ** 2 * (p[0] * w[1]) < m ** 2 * (w[0] * p[1])


def above(p, w, m, n):
    return m ** 2 * (w[0] * p[1]) < n ** 2 * (p[0] * w[1])


# BySeries.antt
def beyond_square(v, N, u, w):
    return N ** 2 * (4000000 * v) ** (v + 1) * u ** 2, (N ** 2 + 4000000 * v) ** (v + 1) * w ** 2


def whole_square(v, s, i, t, j):
    return 4000000 * v * (v * s * j + t * i) ** 2, 2 ** (v + 1) * (i * j) ** 2


# SeriesCheck.antt
def three_sums(v, N, n, m):
    return sums(v + 1, 4000000 * v, v + 2, N ** 2 + 4000000 * v, n), sums(v + 1, 1, 3, 2, m), sums(v + 1, 1, v + 2, 2, m)


def tail_below(v, k, N, C, n, m):
    p, A, B = three_sums(v, N, n, m)
    return (falls(v + 1, v + 2, 4000000 * v, N ** 2 + 4000000 * v, C, n)
            and below(beyond_square(v, N, p[0] + C * p[1], p[2]), whole_square(v, A[0], A[2], B[0], B[2]), 1, k))


def tail_above(v, k, N, C, n, m):
    p, A, B = three_sums(v, N, n, m)
    return (falls(v + 1, 3, 1, 2, C, m) and falls(v + 1, v + 2, 1, 2, C, m)
            and above(beyond_square(v, N, p[0], p[2]), whole_square(v, A[0] + C * A[1], A[2], B[0] + C * B[1], B[2]), 1, k))


def rest_factor(v, N):
    return ((N ** 2 + 4000000 * v) // N ** 2 if N else 0) + 1


def rounded(v, k, e, h):
    low, high = max(2 * e - h, 0), 2 * e + h
    return (tail_above(v, k, low, 3, 20 * rest_factor(v, low), 60)
            and tail_below(v, k, high, rest_factor(v, high), 20 * rest_factor(v, high), 60))


# Quantile.antt
ONE_IN = [5, 10, 20, 50, 100, 1000]


def half_place(row, col):
    return 10 if row == 0 and col >= 2 else 1


# ---- ByArea.antt, with the best partition of a pool for each bound

def row_partitions():
    rows = [line for line in open(PARTITIONS, encoding='utf-8') if line.startswith('    (')]
    return [[(int(g), int(n)) for g, n in re.findall(r'\((\d+), (\d+)\)', line)] for line in rows]


# M, the nodes with the start before them, and the last node; partitions that reach M bound nothing
def pool(v, row_partition):
    pairs = list(product(range(4), range(3)))
    small = [(m, list(p)) for m in range(1, 9) for size in range(3) for p in product(pairs, repeat=size) if sum(2 * g * n for g, n in p) < m]
    made = []
    for m, p in small + [(M, row_partition)]:
        nodes = [(0, 0, 0)] + nodes_of(v, p, m)
        made.append((m, nodes, nodes[-1]))
    return made


# What lies over the curve beyond the node h, and the tail. Where the last point is 0, 1 is what the logic makes of the tail, as n / 0 is 0 there.
def over_beyond(m, last, h):
    return last[2] - h[2] + (tail_bound(last[0], m) if last[0] else 1)


class Adversary:
    def __init__(self, v, partitions, tailed):
        self.v, self.all = v, partitions
        self.upper = [p for p in partitions if p[2][0] > 0 or not tailed]
        self.most = min(over_beyond(m, last, nodes[0]) for m, nodes, last in self.upper)
        self.least = max(last[1] for _, _, last in self.all)

    def beyond_most(self, N):
        return min(over_beyond(m, last, h) for m, nodes, last in self.upper for h in nodes if before(self.v, N, h[0], m))

    def beyond_least(self, N):
        return max((last[1] - h[1] for m, nodes, last in self.all for h in nodes if after(self.v, N, h[0], m)), default=0)

    def rounded(self, k, e, h):
        return k * self.beyond_least(max(2 * e - h, 0)) > self.most and k * self.beyond_most(2 * e + h) < self.least


# ---- the wrong digits

def entries():
    text = '\n'.join(line.split('--')[0] for line in open(TABLE, encoding='utf-8').read().split('\n'))
    body = re.search(r'^thousandths =(.*?)\[\]', text, re.M | re.S).group(1)
    return [int(word) for word in body.replace('∷', ' ').split()]


def main():
    table, partitions = entries(), row_partitions()
    kinds = ('entries', 'swaps', 'last places')
    names = ('the falling and rising rule', 'the test by series', 'the best choice of partitions by area',
             'that choice without the condition on the last point')
    tried, *counts = (dict.fromkeys(kinds, 0) for _ in range(5))
    below_one = 0
    for row in range(30):
        made = pool(row + 1, partitions[row])
        asked, unasked = Adversary(row + 1, made, True), Adversary(row + 1, made, False)

        def put(kind, col, e):
            i, k, h = row * 6 + col, ONE_IN[col], half_place(row, col)
            passed = (rule(table[:i] + [e] + table[i + 1:]), rounded(row + 1, k, e, h), asked.rounded(k, e, h), unasked.rounded(k, e, h))
            tried[kind] += 1
            for count, one in zip(counts, passed):
                count[kind] += one
            if passed[1:3] != ((True, True) if kind == 'entries' else (False, False)):
                print(f'df {row + 1}, column {col + 1}: {e} for {table[i]}, by series {passed[1]}, by area {passed[2]}')

        for col in range(6):
            e = table[row * 6 + col]
            place = half_place(row, col)                    # the last printed place, in thousandths
            digits = str(e)
            put('entries', col, e)
            for i in range(len(digits) - 1):
                if digits[i] != digits[i + 1]:
                    wrong = int(digits[:i] + digits[i + 1] + digits[i] + digits[i + 2:])
                    below_one += wrong < 1000
                    put('swaps', col, wrong)
            put('last places', col, e + place)
            put('last places', col, e - place)
    for name, count in zip(names, counts):
        print(f'table: {name} lets pass {count["entries"]} of {tried["entries"]} entries, {count["swaps"]} of {tried["swaps"]} swaps '
              f'of two adjacent digits, {count["last places"]} of {tried["last places"]} last places changed by one')
    print(f'table: {below_one} of the swaps are below 1')
    right = {'entries': 180, 'swaps': 0, 'last places': 0}
    return 0 if len(table) == 180 and counts[1] == right and counts[2] == right else 1


if __name__ == '__main__':
    sys.exit(main())
