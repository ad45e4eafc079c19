#!/usr/bin/env python3
"""An opinion from outside on the surfaces of the judge (document 02, E9): random lists are fitted exactly, in whole numbers, and compared
with what the judge prints. Run in the repository's root.

  python3 tools/surface_opinion.py [--lists N] [--seed N] [--numpy]

Which numbers are exact: a term's value is the double that E9's words give, the product of two powers by repeated squaring, made here by
Python's floats; from these values on nothing is rounded. The normal equations of the term values and the y's are solved by elimination
without fractions (Bareiss), so are the inverse and the residual variance; a score's ln and a band's root are then taken in floats.

What is compared, for each list and each total degree with no more terms than samples:
  coefficients, each at most the bound of the rounding away from the exact one. The bound: with the columns T of the term values scaled to
    length 1, coefficients c scaled alike, k terms and n samples, 2^-53 |(T'T)^-1| ((n + 1) sqrt(k) |y| + (n + 8 k) k |c|). That is how far
    sums of n rounded products and an elimination of k columns can move the solution of least squares, and it grows with the condition
    of T'T. Lists on which it is above a thousandth of the greatest coefficient are counted apart: there nothing is compared but pivots.
  the pivots: a degree must be solved where each exact pivot is clearly above 2^-48 of its start, and must not be where one is clearly
    below; what rounding can do, 2^-53 8 k n of the start, lies between.
and for the report (up to total degree 4, AIC or BIC, P95, by size): scores, the chosen degree, errors, bands, outliers and pruned terms by
the definitions of document 01, in floats and from the exact numbers, where no comparison hangs on a rounding.

With --numpy, numpy.linalg.lstsq (an SVD, which forms no normal equations) must find the same coefficients from the same term values,
within the same bound. Without it the standard library is enough."""
import argparse
import math
import random
import struct
import subprocess
import sys
from fractions import Fraction

EXPONENTS = [(total - b, b) for total in range(5) for b in range(total + 1)]
TERMS = [1, 3, 6, 10, 15]
T_95 = [12.71, 4.303, 3.182, 2.776, 2.571, 2.447, 2.365, 2.306, 2.262, 2.228, 2.201, 2.179, 2.16, 2.145, 2.131, 2.12, 2.11, 2.101, 2.093,
        2.086, 2.08, 2.074, 2.069, 2.064, 2.06, 2.056, 2.052, 2.048, 2.045, 2.042]
Z_95 = 1.959
UNIT = 2.0 ** -53


def power(x, j):
    """Document 01's power."""
    r, b, e = 1.0, x, j
    while True:
        if e % 2:
            r *= b
        e //= 2
        if e == 0:
            return r
        b *= b


def terms_at(x, z):
    return [power(x, a) * power(z, b) for a, b in EXPONENTS]


# ---- lists

def make_list(rng):
    """Samples of one of several shapes; n is about the numbers of terms."""
    n = rng.choice([1, 2, 3, 4, 5, 6, 7, 9, 10, 11, 14, 15, 16, 18, 22, 30, 45])
    shape = rng.choice(['unit', 'unit', 'grid', 'depth', 'short', 'near line', 'one z', 'offset'])
    rows = []
    side = max(2, math.isqrt(n - 1) + 1) if n > 1 else 2
    middle, width = rng.uniform(-6, 6), 2.0 ** rng.randrange(-4, 3)
    for i in range(n):
        x, z = rng.uniform(-1, 1), rng.uniform(-1, 1)
        if shape == 'grid':
            x, z = float(i % side), float(i // side)
        elif shape == 'depth':  # metres of depth, and of elevation above 3,000 in hundreds
            x, z = rng.uniform(0.05, 4), rng.uniform(-6, 6)
        elif shape == 'short':  # few digits, so that every term value is exact
            x, z = rng.randrange(-32, 33) / 16, rng.randrange(-32, 33) / 8
        elif shape == 'near line':
            z = x + rng.uniform(-1, 1) * width / 64
        elif shape == 'one z':
            z = middle
        elif shape == 'offset':
            x, z = middle + width * x, z - middle
        rows.append((x, z))
    degree = rng.randrange(5)
    curve = [rng.uniform(-3, 3) for _ in range(TERMS[degree])]
    noise = rng.choice([0.01, 0.3, 2.0])
    return [(x, z, sum(c * t for c, t in zip(curve, terms_at(x, z))) + rng.gauss(0, noise)) for x, z in rows]


# ---- exact

def whole(values):
    """The values as whole numbers over one power of two."""
    fractions = [Fraction(v) for v in values]
    common = max(f.denominator for f in fractions)
    return [int(f * common) for f in fractions], common


def eliminated(m, columns):
    """Bareiss' elimination of the square part of m, with more columns behind; its pivots, or None where one is 0."""
    k = len(m)
    pivots, before = [], 1
    for p in range(k):
        pivot = m[p][p]
        if pivot == 0:
            return None
        pivots.append(Fraction(pivot, before))
        for r in range(k):
            if r == p:
                continue
            f = m[r][p]
            row, top = m[r], m[p]
            m[r] = [0 if c == p else (pivot * row[c] - f * top[c]) // before for c in range(k + columns)]
        before = pivot
    return pivots


class Exact:
    """The normal equations of k terms over term values and y's, solved exactly, and their inverse; first the ridge is added to the diagonal."""

    def __init__(self, values, y, k, ridge=Fraction(0)):
        n = len(y)
        flat, common = whole([v for row in values for v in row[:k]])
        ys, y_common = whole(y)
        t = [flat[k * i:k * i + k] for i in range(n)]
        a = [[sum(t[s][i] * t[s][j] for s in range(n)) for j in range(k)] for i in range(k)]
        g = [sum(t[s][i] * ys[s] for s in range(n)) for i in range(k)]
        more = max(1, ridge.denominator // common ** 2)
        scale, g_scale = common ** 2 * more, common * y_common
        a = [[v * more for v in row] for row in a]
        for i in range(k):
            a[i][i] += int(ridge * scale)
        self.start = [Fraction(a[i][i], scale) for i in range(k)]
        m = [a[i] + [g[i]] + [int(i == j) for j in range(k)] for i in range(k)]
        pivots = eliminated(m, 1 + k)
        self.solved = pivots is not None
        if not self.solved:
            return
        self.pivots = [p / scale for p in pivots]
        last = m[0][0]
        self.c = [Fraction(m[i][k] * scale, last * g_scale) for i in range(k)]
        self.inverse = [[Fraction(m[i][k + 1 + j] * scale, last) for j in range(k)] for i in range(k)]


def norm(values):
    return math.sqrt(math.fsum(float(v) ** 2 for v in values))


# ---- the bound of the rounding

def rounding(values, y, k, exact):
    """How far each coefficient may lie from the exact one. The inverse's norm is taken as the root of its squares, which is at least it."""
    n = len(y)
    lengths = [norm(row[j] for row in values) for j in range(k)]
    size = norm(float(exact.inverse[i][j]) * lengths[i] * lengths[j] for i in range(k) for j in range(k))
    scaled = norm(float(c) * length for c, length in zip(exact.c, lengths))
    away = UNIT * size * ((n + 1) * math.sqrt(k) * norm(y) + (n + 8 * k) * k * scaled)
    return [away / length for length in lengths]


# ---- document 01's statistics, in floats

def median(values):
    ordered = sorted(values)
    n = len(ordered)
    return ordered[n // 2] if n % 2 else (ordered[n // 2 - 1] + ordered[n // 2]) / 2


def deviation(residuals):
    sizes = [abs(r) for r in residuals]
    middle = median(sizes)
    return median([abs(s - middle) for s in sizes])


def score(criterion, residuals, k):
    sizes = [abs(r) for r in residuals]
    delta = 1.345 * deviation(residuals)
    losses = [s * s / 2 if s <= delta else delta * (s - delta / 2) for s in sizes]
    n = len(sizes)
    likelihood = math.log(max(math.fsum(losses) / n, 2.0 ** -52))
    if criterion == 'bic':
        return n * likelihood + k * math.log(n)
    corrected = 2 * k * (k + 1) / (n - k - 1) if n / k < 4 and n > k + 1 else 0
    return n * likelihood + 2 * k + corrected


def near(a, b, part):
    return abs(a - b) <= part * max(1.0, abs(a), abs(b))


class Opinion:
    def __init__(self, with_numpy):
        self.counts = {}
        self.greatest = 0.0
        self.greatest_numpy = 0.0
        self.numpy = __import__('numpy') if with_numpy else None

    def note(self, what):
        self.counts[what] = self.counts.get(what, 0) + 1

    def degree(self, rows, values, y, degree, printed):
        """One total degree: whether it must be solved, and its coefficients. Answers the exact fit where the numbers can be compared."""
        k, n = TERMS[degree], len(y)
        exact = Exact(values, y, k)
        unsolved = printed == ['unsolved']
        noise = UNIT * 8 * k * n
        if exact.solved:
            least = min(float(p / s) for p, s in zip(exact.pivots, exact.start))
            if least > 2.0 ** -48 + noise:
                assert not unsolved, f'degree {degree} is unsolved, its least pivot {least}'
            elif least < 2.0 ** -48 - noise:
                assert unsolved, f'degree {degree} is solved, its least pivot {least}'
            else:
                self.note('pivots within the rounding of their edge')
        else:
            assert unsolved, f'degree {degree} is solved and has no inverse'
        if unsolved:
            self.note('unsolved')
            return None
        numbers = [double(field) for field in printed]
        coefficients = numbers[1:]
        bounds = rounding(values, y, k, exact)
        if max(bounds) > 1e-3 * max(abs(float(c)) for c in exact.c):
            self.note('too near to singular to compare coefficients')
            return None
        for c, e, bound in zip(coefficients, exact.c, bounds):
            away = abs(float(Fraction(c) - e))
            assert away <= bound, f'degree {degree}: {c} is {away} away from {float(e)}, more than {bound}'
            self.greatest = max(self.greatest, away / bound)
        self.note(f'coefficients of degree {degree}')
        if self.numpy is not None:
            matrix = self.numpy.array([row[:k] for row in values])
            theirs = self.numpy.linalg.lstsq(matrix, self.numpy.array(y), rcond=None)[0]
            for c, other, bound in zip(coefficients, theirs, bounds):
                away = abs(c - float(other))
                assert away <= 2 * bound, f'degree {degree}: {c}, and {other} by numpy'
                self.greatest_numpy = max(self.greatest_numpy, away / bound)
            self.note('least squares by numpy')
        residuals = [float(Fraction(y[s]) - sum(c * Fraction(t) for c, t in zip(exact.c, values[s]))) for s in range(n)]
        return exact.c, residuals, numbers[0], max(bounds)

    def list(self, criterion, rows, printed):
        values = [terms_at(x, z) for x, z, _ in rows]
        y = [row[2] for row in rows]
        n = len(rows)
        tried = [degree for degree in range(5) if TERMS[degree] <= n and degree <= n - 1]
        assert [line[0] for line in printed if line[0].isdigit()] == [str(degree) for degree in tried], 'other degrees are tried'
        fits = [self.degree(rows, values, y, degree, printed[degree][1:]) for degree in tried]
        rest = {line[0]: line[1:] for line in printed[len(tried):]}
        if any(fit is None for fit, line in zip(fits, printed) if line[1:] != ['unsolved']) or 'refused' in rest:
            self.note('reports left out')
            return
        self.report(criterion, n, y, values, fits, rest)

    def report(self, criterion, n, y, values, fits, rest):
        scores = []
        for degree, fit in enumerate(fits):
            if fit is None:
                scores.append(None)
                continue
            _, residuals, theirs, bound = fit
            # A score is a logarithm of the median absolute deviation, which must be far above what rounding leaves of one that is 0.
            spread = deviation(residuals)
            if spread < 1e6 * bound or spread < 1e-9 * max(abs(v) for v in y):
                self.note('reports left out')
                return
            scores.append(score(criterion, residuals, TERMS[degree]))
            assert near(scores[-1], theirs, 1e-4), f'degree {degree}: score {theirs}, and {scores[-1]} from the exact fit'
        least = min(s for s in scores if s is not None)
        close = [s for s in scores if s is not None and abs(s - least - 2) < 1e-3]
        if close:
            self.note('reports left out')
            return
        chosen = next(d for d, s in enumerate(scores) if s is not None and s - least <= 2)
        solved = sum(s is not None for s in scores)
        assert rest['report'] == [str(chosen), str(solved)], f"report {rest['report']}, and {chosen} {solved}"
        self.note(f'chosen degree {chosen}')
        self.covariance(n, y, values, chosen, fits[chosen], rest)

    def covariance(self, n, y, values, degree, fit, rest):
        k = TERMS[degree]
        c, residuals = fit[0], fit[1]
        inverse = Exact(values, y, k, Fraction(1, 2 ** 52)).inverse
        variance = math.fsum(r * r for r in residuals) / (n - k) if n > k else 0.0
        errors = [math.sqrt(float(inverse[j][j]) * variance) for j in range(k)]
        theirs = [double(field) for field in rest['errors']]
        for mine, other in zip(errors, theirs):
            assert near(mine / max(errors + [1e-300]), other / max(errors + [1e-300]), 1e-3), f'an error of {other}, and {mine}'
        df = n - k
        critical = math.inf if df == 0 else T_95[df - 1] if df <= 30 else Z_95
        for j in range(k):
            t = abs(float(c[j])) / errors[j] if errors[j] else math.inf
            if abs(t - critical) > 1e-2 * critical and df > 0:
                assert (rest['pruned'][0][j] == '1') == (t < critical), f'term {j}: t {t}, score {critical}'
                self.note('terms pruned' if t < critical else 'terms kept')
        lower, upper = [double(f) for f in rest['lower']], [double(f) for f in rest['upper']]
        spread = max(abs(v) for v in y) + 1e-300
        for s in range(n):
            terms = [Fraction(v) for v in values[s][:k]]
            value = float(sum(a * b for a, b in zip(c, terms)))
            at = float(sum(terms[i] * inverse[i][j] * terms[j] for i in range(k) for j in range(k)))
            half = Z_95 * math.sqrt(max(0.0, at) * variance)
            assert near((value - half) / spread, lower[s] / spread, 1e-3), f'a band from {lower[s]}, and {value - half}'
            assert near((value + half) / spread, upper[s] / spread, 1e-3), f'a band to {upper[s]}, and {value + half}'
            distance = abs(y[s] - value)
            if abs(distance - half) > 1e-2 * half:
                assert (rest['outliers'][0][s] == '1') == (distance > half), f'sample {s}: {y[s]} in {lower[s]} to {upper[s]}'
                self.note('outliers' if distance > half else 'samples within their band')


def double(field):
    return struct.unpack('>d', bytes.fromhex(field))[0]


def bits(value):
    return struct.pack('>d', value).hex().upper()


def main():
    parser = argparse.ArgumentParser()
    parser.add_argument('--lists', type=int, default=150)
    parser.add_argument('--seed', type=int, default=1)
    parser.add_argument('--numpy', action='store_true')
    options = parser.parse_args()
    rng = random.Random(options.seed)
    lists = [(rng.choice(['aic', 'bic']), make_list(rng)) for _ in range(options.lists)]
    text = '\n'.join(' '.join([criterion] + [bits(v) for row in rows for v in row]) for criterion, rows in lists) + '\n'
    judge = subprocess.run(['cargo', 'run', '--release', '--quiet', '-p', 'judge', '--bin', 'surfaces'], input=text, capture_output=True, text=True)
    if judge.returncode:
        sys.exit(judge.stderr)
    lines = [line.split(' ') for line in judge.stdout.splitlines()]
    opinion = Opinion(options.numpy)
    at = 0
    for number, (criterion, rows) in enumerate(lists):
        end = at
        while lines[end][0] not in ('outliers', 'refused'):
            end += 1
        try:
            opinion.list(criterion, rows, lines[at:end + 1])
        except AssertionError as error:
            sys.exit(f'seed {options.seed}, list {number} ({len(rows)} samples): {error}')
        at = end + 1
    for what in sorted(opinion.counts):
        print(f'{opinion.counts[what]:>9}  {what}')
    print(f'{len(lists)} surface lists: no difference; at most {opinion.greatest:.2g} of the bound away from the exact coefficients', end='')
    print(f', {opinion.greatest_numpy:.2g} from numpy\'s' if options.numpy else '')


if __name__ == '__main__':
    main()
