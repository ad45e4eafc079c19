// The limit: what a report, a withdrawal and a validation could cost with the book's own bits, in C++ written by hand for the instructions that every
// x86-64 machine has. Each number is made by the same float steps in the same order; memory, the order of work and the way a median is found are free:
// all degrees side by side from one elimination, two samples or two degrees in a register, the machine's square root, half of the matrix, medians
// by samples of the residuals, and folds that share the sums before them. Nothing here is proved. `compare --limit N` holds it against the port.
//
// For the benchmark alone. Build with -ffp-contract=off -fno-math-errno -fno-trapping-math: no product is joined with a sum, and roots are inlined.
#include <algorithm>
#include <emmintrin.h>
#include <math.h>
#include <stddef.h>
#include <stdint.h>
#include <string.h>

#define INLINE static inline __attribute__((always_inline))

namespace {

typedef double Two __attribute__((vector_size(16), may_alias));
typedef double Unaligned __attribute__((vector_size(16), aligned(8), may_alias));
typedef long long Bits __attribute__((vector_size(16), may_alias));

const int MOST = 4096;
const int PLACES = MOST + 64;
const double INF = __builtin_inf();
const double EPSILON = 0x1p-52;

INLINE Two both(double x) { return (Two){x, x}; }
INLINE Two load(const double *p) { return *(const Unaligned *)p; }
INLINE void store(double *p, Two v) { *(Unaligned *)p = v; }
INLINE Two size_of(Two v) { return (Two)((Bits)v & (Bits){0x7FFFFFFFFFFFFFFFll, 0x7FFFFFFFFFFFFFFFll}); }
INLINE Two root(Two v) { return (Two)_mm_sqrt_pd((__m128d)v); }

// Two x's powers below k, as document 01 groups them.
INLINE void powers_of_two(Two *p, Two x, int k) {
    Two x2 = x * x, x3 = x * x2, x4 = x2 * x2, x8 = x4 * x4;
    p[0] = both(1.0);
    if (k > 1) p[1] = x;
    if (k > 2) p[2] = x2;
    if (k > 3) p[3] = x3;
    if (k > 4) p[4] = x4;
    if (k > 5) p[5] = x * x4;
    if (k > 6) p[6] = x2 * x4;
    if (k > 7) p[7] = x3 * x4;
    if (k > 8) p[8] = x8;
    for (int j = 9; j < 16; j++)
        if (k > j) p[j] = p[j - 8] * x8;
}

// One x's powers below k, rounded up to 4, 8 or 16.
INLINE void powers(double *p, double x, int k) {
    double x2 = x * x, x3 = x * x2, x4 = x2 * x2, x8 = x4 * x4;
    p[0] = 1.0, p[1] = x, p[2] = x2, p[3] = x3;
    if (k <= 4) return;
    p[4] = x4, p[5] = x * x4, p[6] = x2 * x4, p[7] = x3 * x4;
    if (k <= 8) return;
    p[8] = x8;
    for (int j = 1; j < 8; j++) p[8 + j] = p[j] * x8;
}

// Sizes of the residuals of each degree, of all samples and of a fold's own, and room for medians.
alignas(64) thread_local double SIZES[16][PLACES];
alignas(64) thread_local double OWN[16][PLACES];
alignas(64) thread_local double ROOM[3][PLACES];

// Whether all three columns are finite, and the greatest |x| and |y|.
INLINE bool finite_columns(const double *xs, const double *ys, const double *ws, size_t n, double *most_x, double *most_y) {
    Two ax = both(0), ay = both(0), bad = both(0);
    size_t i = 0;
    for (; i + 2 <= n; i += 2) {
        Two x = load(xs + i), y = load(ys + i), w = load(ws + i);
        bad += ((x - x) + (y - y)) + (w - w); // a NaN where one is not finite
        Two a = size_of(x), b = size_of(y);
        ax = a > ax ? a : ax, ay = b > ay ? b : ay;
    }
    double sx = std::max(ax[0], ax[1]), sy = std::max(ay[0], ay[1]), all = bad[0] + bad[1];
    for (; i < n; i++) {
        all += ((xs[i] - xs[i]) + (ys[i] - ys[i])) + (ws[i] - ws[i]);
        sx = std::max(sx, fabs(xs[i])), sy = std::max(sy, fabs(ys[i]));
    }
    *most_x = sx, *most_y = sy;
    return all == 0;
}

// ---- solutions. One elimination of the corner of b by b serves every k up to b.

struct Eliminated {
    alignas(64) double m[16][16];
    alignas(64) double r[16];
};

// Answers how many pivots held. A row's loop begins at an even column, so it may also run over column p, which is never read again.
INLINE int eliminate(const double *sums, int b, Eliminated &e) {
    for (int i = 0; i < b; i++) memcpy(e.m[i], sums + 16 * i, 128), e.r[i] = sums[256 + i];
    for (int p = 0; p < b; p++) {
        double pivot = e.m[p][p];
        if (!(pivot > 0x1p-48 * sums[17 * p])) return p;
        for (int r = p + 1; r < b; r++) {
            double f = e.m[r][p] / pivot;
            for (int c = (p + 1) / 2 * 2; c < b; c += 2) store(&e.m[r][c], load(&e.m[r][c]) - both(f) * load(&e.m[p][c]));
            e.r[r] = e.r[r] - f * e.r[p];
        }
    }
    return b;
}

INLINE void substitute(const Eliminated &e, int k, double *c) {
    for (int r = k - 1; r >= 0; r--) {
        double v = e.r[r];
        for (int q = r + 1; q < k; q++) v = v - e.m[r][q] * c[q];
        c[r] = v / e.m[r][r];
    }
    for (int r = k; r < 16; r++) c[r] = 0.0;
}

// The coefficients of every k from 1 to b: k in the first place of a register, k + 1 in the second.
void substitute_all(const Eliminated &e, int b, double c[16][16]) {
    int k = 1;
    for (; k + 1 <= b; k += 2) {
        Two x[16];
        x[k] = (Two){0.0, e.r[k] / e.m[k][k]};
        for (int r = k - 1; r >= 0; r--) {
            Two v = both(e.r[r]);
            for (int q = r + 1; q < k; q++) v = v - both(e.m[r][q]) * x[q];
            Two w = v - both(e.m[r][k]) * x[k];
            x[r] = (Two)_mm_move_sd((__m128d)w, (__m128d)v) / both(e.m[r][r]);
        }
        for (int r = 0; r < 16; r++) c[k - 1][r] = r < k ? x[r][0] : 0.0, c[k][r] = r <= k ? x[r][1] : 0.0;
    }
    for (; k <= b; k++) substitute(e, k, c[k - 1]);
}

// The inverse of the corner with 2⁻⁵² on its diagonal: all unit columns beside one elimination.
INLINE bool inverse(const double *sums, int k, double x[16][16]) {
    alignas(64) double m[16][16], start[16];
    for (int i = 0; i < k; i++) {
        memcpy(m[i], sums + 16 * i, 128);
        start[i] = m[i][i] = m[i][i] + EPSILON;
        memset(x[i], 0, 128);
        x[i][i] = 1.0;
    }
    for (int p = 0; p < k; p++) {
        double pivot = m[p][p];
        if (!(pivot > 0x1p-48 * start[p])) return false;
        for (int r = p + 1; r < k; r++) {
            Two f = both(m[r][p] / pivot);
            for (int c = (p + 1) / 2 * 2; c < k; c += 2) store(&m[r][c], load(&m[r][c]) - f * load(&m[p][c]));
            for (int c = 0; c < k; c += 2) store(&x[r][c], load(&x[r][c]) - f * load(&x[p][c]));
        }
    }
    for (int r = k - 1; r >= 0; r--)
        for (int c = 0; c < k; c += 2) {
            Two v = load(&x[r][c]);
            for (int q = r + 1; q < k; q++) v = v - both(m[r][q]) * load(&x[q][c]);
            store(&x[r][c], v / both(m[r][r]));
        }
    return true;
}

// ---- residuals

// Whether all residuals are finite for sure: each step with sizes at the greatest |x| and |y| is, and rounding keeps order.
INLINE bool surely_finite(const double *c, int k, double most_x, double most_y) {
    double p[16], v = 0;
    powers(p, most_x, k);
    for (int j = 0; j < k; j++) v += fabs(c[j]) * p[j];
    return most_y + v < INF;
}

bool residuals_finite(const double *xs, const double *ys, size_t n, const double *c, int k) {
    bool all = true;
    for (size_t i = 0; i < n; i++) {
        double p[16], v = 0;
        powers(p, xs[i], 16);
        for (int j = 0; j < k; j++) v = v + c[j] * p[j];
        double r = ys[i] - v;
        all &= r - r == 0;
    }
    return all;
}

// The sizes of the residuals of B degrees, two samples at a time.
template <int B> void sizes_of(const double *xs, const double *ys, size_t n, const double c[16][16], double (*out)[PLACES]) {
    alignas(64) Two cc[B * (B + 1) / 2];
    for (int d = 0, at = 0; d < B; d++)
        for (int j = 0; j <= d; j++, at++) cc[at] = both(c[d][j]);
    auto pair = [&](Two x, Two y, size_t i) __attribute__((always_inline)) {
        Two p[16];
        powers_of_two(p, x, B);
        int at = 0;
#pragma GCC unroll 16
        for (int d = 0; d < B; d++) {
            Two v;
#pragma GCC unroll 16
            for (int j = 0; j <= d; j++, at++) v = j == 0 ? both(0.0) + cc[at] : v + cc[at] * p[j];
            store(&out[d][i], size_of(y - v));
        }
    };
    size_t i = 0;
    for (; i + 2 <= n; i += 2) pair(load(xs + i), load(ys + i), i);
    if (i < n) pair((Two){xs[i], 0.0}, (Two){ys[i], 0.0}, i);
}
typedef void (*SizesOf)(const double *, const double *, size_t, const double (*)[16], double (*)[PLACES]);
const SizesOf SIZES_OF[17] = {0,           sizes_of<1>,  sizes_of<2>,  sizes_of<3>,  sizes_of<4>,  sizes_of<5>,  sizes_of<6>,  sizes_of<7>, sizes_of<8>,
                              sizes_of<9>, sizes_of<10>, sizes_of<11>, sizes_of<12>, sizes_of<13>, sizes_of<14>, sizes_of<15>, sizes_of<16>};

// ---- medians. The keys are a[i] or, where FROM, |a[i] - d|; all are at least 0.

struct Middle {
    double low, high;
};

// Those at the places r and s of few keys in order: the greatest with at most so many below it. t has 64 places.
INLINE Middle of_few(double *t, int n, int r, int s) {
    int m = (n + 3) / 4 * 4;
    for (int i = n; i < m; i++) t[i] = INF;
    Middle found = {0, 0};
    for (int h = 0; h < m; h += 4) {
        __m128d u = _mm_loadu_pd(t + h), v = _mm_loadu_pd(t + h + 2);
        __m128i c = _mm_setzero_si128(), e = c;
        for (int i = 0; i < n; i++) {
            __m128d x = _mm_set1_pd(t[i]);
            c = _mm_sub_epi64(c, _mm_castpd_si128(_mm_cmplt_pd(x, u)));
            e = _mm_sub_epi64(e, _mm_castpd_si128(_mm_cmplt_pd(x, v)));
        }
        alignas(16) long long below[4];
        _mm_store_si128((__m128i *)below, c), _mm_store_si128((__m128i *)(below + 2), e);
        for (int l = 0; l < 4; l++) {
            double x = t[h + l], y = below[l] <= r ? x : 0, z = below[l] <= s ? x : 0;
            found.low = std::max(found.low, y), found.high = std::max(found.high, z);
        }
    }
    return found;
}

// The keys from low to high go to out; answers how many, and how many lie below.
template <bool FROM> INLINE int within(const double *a, int n, double d, double low, double high, double *out, int *below) {
    __m128d L = _mm_set1_pd(low), H = _mm_set1_pd(high), D = _mm_set1_pd(d);
    const __m128d sign = _mm_castsi128_pd(_mm_set1_epi64x(0x7FFFFFFFFFFFFFFFll));
    size_t at = 0;
    int i = 0;
    __m128i u = _mm_setzero_si128();
    for (; i + 2 <= n; i += 2) {
        __m128d v = _mm_loadu_pd(a + i);
        if (FROM) v = _mm_and_pd(_mm_sub_pd(v, D), sign);
        __m128d under = _mm_cmplt_pd(v, L);
        u = _mm_sub_epi64(u, _mm_castpd_si128(under));
        unsigned in = _mm_movemask_pd(_mm_andnot_pd(under, _mm_cmple_pd(v, H)));
        _mm_storel_pd(out + at, v), at += in & 1;
        _mm_storeh_pd(out + at, v), at += in >> 1;
    }
    alignas(16) long long s[2];
    _mm_store_si128((__m128i *)s, u);
    *below = (int)(s[0] + s[1]);
    for (; i < n; i++) {
        double v = FROM ? fabs(a[i] - d) : a[i];
        if (v < low) ++*below;
        else if (v <= high) out[at++] = v;
    }
    return (int)at;
}

template <bool FROM> void keys(const double *a, int n, double d, double *out) {
    for (int i = 0; i < n; i++) out[i] = FROM ? fabs(a[i] - d) : a[i];
}

template <bool FROM> Middle by_sort(const double *a, int n, double d, int r, int s) {
    double *b = ROOM[2];
    if (a != b || FROM) keys<FROM>(a, n, d, b);
    std::sort(b, b + n);
    return {b[r], b[s]};
}

// The keys at the places r and r + two, two being 0 or 1. A sample of the keys, one of each part of the list at a place that wanders, says between which
// two of them the places are likely to lie; the keys between these are gathered, and searched in turn. A miss looks at the part where the places are.
template <bool FROM> Middle select(const double *a, int n, double d, int r, int two, int level) {
    double t[64];
    if (n <= 32) {
        keys<FROM>(a, n, d, t);
        return of_few(t, n, r, r + two);
    }
    if (level > 6) return by_sort<FROM>(a, n, d, r, r + two);
    int many = n >= 700 ? 32 : 16, margin = n >= 700 ? 6 : n >= 150 ? 4 : 3;
    unsigned step = ((unsigned)n << 16) / many, base = 0, wander = 12345u + n;
    for (int i = 0; i < many; i++, base += step) {
        wander = wander * 1664525u + 1013904223u;
        double v = a[(base + (unsigned)(((unsigned long long)wander * step) >> 32)) >> 16];
        t[i] = FROM ? fabs(v - d) : v;
    }
    int place = (int)(((long long)r * many + many / 2) / n), from = place - margin, to = place + margin;
    Middle ends = of_few(t, many, std::max(from, 0), std::min(to, many - 1));
    double low = from < 0 ? 0.0 : ends.low, high = to >= many ? INF : ends.high;
    double *room = a == ROOM[0] ? ROOM[1] : ROOM[0];
    int below, m = within<FROM>(a, n, d, low, high, room, &below);
    if (below <= r && r + two < below + m) {
        if (low == high) return {low, low};
        if (m == n) return by_sort<false>(room, m, 0, r, r + two);
        return select<false>(room, m, 0, r - below, two, level + 1);
    }
    if (r + two < below) m = within<FROM>(a, n, d, 0.0, low, room, &below);
    else if (r < below) m = within<FROM>(a, n, d, 0.0, high, room, &below);
    else if (r >= below + m) m = within<FROM>(a, n, d, high, INF, room, &below);
    else m = within<FROM>(a, n, d, low, INF, room, &below);
    if (m < n && below <= r && r + two < below + m) return select<false>(room, m, 0, r - below, two, level + 1);
    return by_sort<FROM>(a, n, d, r, r + two);
}

// Where the sum of the two middle keys is infinite, halves are added.
template <bool FROM> INLINE double median(const double *a, int n, double d) {
    if (n == 1) return FROM ? fabs(a[0] - d) : a[0];
    if (n % 2) return select<FROM>(a, n, d, n / 2, 0, 0).low;
    Middle p = select<FROM>(a, n, d, n / 2 - 1, 1, 0);
    double sum = p.low + p.high;
    return sum < INF ? sum / 2.0 : p.low / 2.0 + p.high / 2.0;
}

INLINE double deviation(const double *sizes, int n) { return median<true>(sizes, n, median<false>(sizes, n, 0)); }

// ---- losses, scores and the choice

INLINE Two loss(Two s, Two delta, Two half) {
    Two square = 0.5 * s * s, line = delta * (s - half);
    return s <= delta ? square : line;
}
INLINE double loss(double s, double delta) { return s <= delta ? 0.5 * s * s : delta * (s - 0.5 * delta); }

// The totals of G pairs of degrees.
template <int G> INLINE void totals_of(const double *const *a, const double *delta, int n, double *total) {
    Two v[G], dl[2 * G], hf[2 * G];
    for (int g = 0; g < G; g++) v[g] = both(0.0);
    for (int q = 0; q < 2 * G; q++) dl[q] = both(delta[q]), hf[q] = 0.5 * dl[q];
    int i = 0;
    for (; i + 2 <= n; i += 2)
#pragma GCC unroll 8
        for (int g = 0; g < G; g++) {
            Two x = loss(load(a[2 * g] + i), dl[2 * g], hf[2 * g]), y = loss(load(a[2 * g + 1] + i), dl[2 * g + 1], hf[2 * g + 1]);
            v[g] += __builtin_shuffle(x, y, (Bits){0, 2});
            v[g] += __builtin_shuffle(x, y, (Bits){1, 3});
        }
    for (int q = 0; q < 2 * G; q++) {
        total[q] = v[q / 2][q % 2];
        for (int j = i; j < n; j++) total[q] += loss(a[q][j], delta[q]);
    }
}

void totals(const double (*sizes)[PLACES], const double *deviations, int b, int n, double *total) {
    double delta[16], all[16];
    const double *row[16];
    for (int d = 0; d < 16; d++) delta[d] = 1.345 * deviations[std::min(d, b - 1)], row[d] = sizes[std::min(d, b - 1)];
    int d = 0;
    for (; b - d > 4; d += 8) totals_of<4>(row + d, delta + d, n, all + d);
    if (b - d > 2) totals_of<2>(row + d, delta + d, n, all + d);
    else if (b - d > 0) totals_of<1>(row + d, delta + d, n, all + d);
    for (int e = 0; e < b; e++) total[e] = all[e];
}

// ln of a number that is at least 2⁻⁵², by document 01's steps.
INLINE double ln(double v) {
    if (!(v < INF)) return v;
    uint64_t b;
    memcpy(&b, &v, 8);
    uint64_t moved = (b >> 32) + 0x95F62, mantissa = ((moved & 0xFFFFF) + 0x3FE6A09E) << 32 | (b & 0xFFFFFFFF);
    double m;
    memcpy(&m, &mantissa, 8);
    double k = (double)(int64_t)(moved >> 20) - 1023.0, f = m - 1.0;
    double h = 0.5 * f * f, s = f / (2.0 + f), z = s * s, w = z * z;
    const double L1 = 0x1.5555555555593p-1, L2 = 0x1.999999997fa04p-2, L3 = 0x1.2492494229359p-2, L4 = 0x1.c71c51d8e78afp-3;
    const double L5 = 0x1.7466496cb03dep-3, L6 = 0x1.39a09d078c69fp-3, L7 = 0x1.2f112df3e5244p-3;
    const double HIGH = 0x1.62e42fee00000p-1, LOW = 0x1.a39ef35793c76p-33;
    double t1 = w * (L2 + w * (L4 + w * L6)), t2 = z * (L1 + w * (L3 + w * (L5 + w * L7))), r = t2 + t1;
    return ((s * (h + r) + k * LOW) - h) + f + k * HIGH;
}

INLINE double score(uint32_t criterion, double n, double k, double total) {
    double mean = total / n;
    if (!(mean >= EPSILON)) mean = EPSILON; // also a NaN
    double a = n * ln(mean);
    if (criterion != 0) return a + k * ln(n);
    a = a + 2.0 * k;
    return (n / k < 4.0) & (k + 1.0 < n) ? a + 2.0 * k * (k + 1.0) / (n - k - 1.0) : a;
}

// The first solved degree within 2 of the least score, or -1.
INLINE int choice(const bool *solved, const double *scores, int b) {
    double least = INF;
    for (int d = 0; d < b; d++)
        if (solved[d] && scores[d] < least) least = scores[d];
    for (int d = 0; d < b; d++)
        if (solved[d] && scores[d] - least <= 2.0) return d;
    return -1;
}

INLINE size_t whole_root(size_t n, int power, size_t cap) {
    for (size_t r = 0; r < cap; r++) {
        size_t next = 1;
        for (int i = 0; i < power; i++) next *= r + 1;
        if (next > n) return r;
    }
    return cap;
}

INLINE size_t less_one(size_t n) { return n ? n - 1 : 0; }

INLINE size_t greatest_degree(uint32_t bound, size_t most, size_t n) {
    size_t all = less_one(n);
    if (bound == 0) return std::min(std::min(whole_root(n, 5, 8), less_one(n / 15)), all);
    if (bound == 1) return std::min(std::min(whole_root(n, 3, 15), less_one(n / 8)), all);
    if (bound == 2) return std::min(less_one(n / 8), all);
    return std::min(most, all);
}

INLINE double z_score(uint32_t confidence, double own) {
    const double scores[6] = {1.281, 1.644, 1.959, 2.326, 2.575, 3.290};
    return confidence < 6 ? scores[confidence] : own;
}

// The table has 30 rows of 6.
INLINE double t_score(uint32_t confidence, double own, size_t df, const double *table) {
    if (df == 0) return INF;
    return df > 30 || confidence >= 6 ? z_score(confidence, own) : table[6 * (df - 1) + confidence];
}

// ---- bands

struct Allowance {
    uint32_t tolerance;
    double value, z, deviation;
};

template <int K>
int bands_of(const double *c, const double cov[16][16], Allowance by, const double *xs, const double *ys, size_t n, double *lower, double *upper,
             uint8_t *outliers) {
    alignas(64) Two cc[K], cv[K][K];
    for (int i = 0; i < K; i++) {
        cc[i] = both(c[i]);
        for (int j = 0; j < K; j++) cv[j][i] = both(cov[i][j]);
    }
    double added = (by.deviation * by.value) * (by.deviation * by.value);
    auto pair = [&](Two x, Two *low, Two *up) __attribute__((always_inline)) {
        Two p[16];
        powers_of_two(p, x, K);
        Two f = both(0.0) + cc[0], v = both(0.0), w = both(0.0);
#pragma GCC unroll 16
        for (int j = 1; j < K; j++) f += cc[j] * p[j];
#pragma GCC unroll 16
        for (int j = 0; j < K; j++) {
            Two s = both(0.0) + cv[j][0];
#pragma GCC unroll 16
            for (int i = 1; i < K; i++) s += p[i] * cv[j][i];
            v += j == 0 ? s : s * p[j];
        }
        if (by.tolerance == 1) w = both(by.value);
        else if (by.tolerance == 2) v = v + both(added);
        else if (by.tolerance >= 3) w = size_of(f) * both(by.value);
        Two e = both(by.z) * root(v);
        *low = f - e - w, *up = f + e + w;
    };
    int count = 0;
    size_t i = 0;
    Two low, up;
    for (; i + 2 <= n; i += 2) {
        Two y = load(ys + i);
        pair(load(xs + i), &low, &up);
        store(lower + i, low), store(upper + i, up);
        unsigned out = _mm_movemask_pd((__m128d)((y < low) | (y > up)));
        outliers[i] = out & 1, outliers[i + 1] = out >> 1;
        count += (out & 1) + (out >> 1);
    }
    if (i < n) {
        pair((Two){xs[i], 0.0}, &low, &up);
        lower[i] = low[0], upper[i] = up[0];
        count += outliers[i] = (ys[i] < low[0]) | (ys[i] > up[0]);
    }
    return count;
}
typedef int (*BandsOf)(const double *, const double (*)[16], Allowance, const double *, const double *, size_t, double *, double *, uint8_t *);
const BandsOf BANDS_OF[17] = {0,           bands_of<1>,  bands_of<2>,  bands_of<3>,  bands_of<4>,  bands_of<5>,  bands_of<6>,  bands_of<7>, bands_of<8>,
                              bands_of<9>, bands_of<10>, bands_of<11>, bands_of<12>, bands_of<13>, bands_of<14>, bands_of<15>, bands_of<16>};

// ---- sums. Only the places (i, j) with i at most j below K, and g: A is symmetric bit for bit. Row i has the pairs from i / 2 on; g is row 16. A tile of
// samples stays in the nearest cache while one row after another, in registers, runs over it.

const int TILE = 64;

struct Columns {
    const double *xs, *ys, *ws;
};

template <int K> struct Sums {
    alignas(64) double a[17 * 16];
};

// A tile's powers, each power twice, and each weight twice.
struct Tile {
    alignas(64) double powers[TILE][16];
    alignas(64) Two twice[TILE][16], weights[TILE];
};

template <int K, int R, int ROWS> INLINE void add_rows(Sums<K> &sums, const Tile &tile, int c) {
    constexpr int PAIRS = (K + 1) / 2;
    Two a[ROWS][8];
#pragma GCC unroll 8
    for (int q = 0; q < ROWS; q++)
#pragma GCC unroll 8
        for (int v = (R + q) / 2; v < PAIRS; v++) a[q][v] = load(sums.a + 16 * (R + q) + 2 * v);
    for (int t = 0; t < c; t++) {
        Two w = tile.weights[t];
#pragma GCC unroll 8
        for (int q = 0; q < ROWS; q++) {
            Two b = tile.twice[t][R + q];
#pragma GCC unroll 8
            for (int v = (R + q) / 2; v < PAIRS; v++) {
                Two p = *(const Two *)&tile.powers[t][2 * v];
                a[q][v] += R + q == 0 ? p * w : (b * p) * w;
            }
        }
    }
#pragma GCC unroll 8
    for (int q = 0; q < ROWS; q++)
#pragma GCC unroll 8
        for (int v = (R + q) / 2; v < PAIRS; v++) store(sums.a + 16 * (R + q) + 2 * v, a[q][v]);
}

// As many rows at once as registers hold.
template <int K, int R> INLINE void add_rows_from(Sums<K> &sums, const Tile &tile, int c) {
    if constexpr (R < K) {
        constexpr int LEFT = (K + 1) / 2 - R / 2, MANY = LEFT >= 6 ? 1 : LEFT >= 3 ? 2 : 4, ROWS = R + MANY > K ? K - R : MANY;
        add_rows<K, R, ROWS>(sums, tile, c);
        add_rows_from<K, R + ROWS>(sums, tile, c);
    }
}

template <int K> INLINE void add_right(Sums<K> &sums, const Tile &tile, const double *ys, int c) {
    constexpr int PAIRS = (K + 1) / 2;
    Two a[PAIRS];
#pragma GCC unroll 8
    for (int v = 0; v < PAIRS; v++) a[v] = load(sums.a + 256 + 2 * v);
    for (int t = 0; t < c; t++) {
        Two y = both(ys[t]), w = tile.weights[t];
#pragma GCC unroll 8
        for (int v = 0; v < PAIRS; v++) a[v] += (*(const Two *)&tile.powers[t][2 * v] * y) * w;
    }
#pragma GCC unroll 8
    for (int v = 0; v < PAIRS; v++) store(sums.a + 256 + 2 * v, a[v]);
}

// Four columns at most: all sums in registers.
INLINE void add_four(double *a, Columns from, size_t start, size_t end) {
    Two r0a = load(a), r0b = load(a + 2), r1a = load(a + 16), r1b = load(a + 18), r2b = load(a + 34), r3b = load(a + 50);
    Two ga = load(a + 256), gb = load(a + 258);
    for (size_t t = start; t < end; t++) {
        Two x = both(from.xs[t]), y = both(from.ys[t]), w = both(from.ws[t]), x2 = x * x, x3 = x * x2;
        Two lo = (Two)_mm_unpacklo_pd(_mm_set1_pd(1.0), (__m128d)x), hi = (Two)_mm_unpacklo_pd((__m128d)x2, (__m128d)x3);
        r0a += lo * w, r0b += hi * w, r1a += (x * lo) * w, r1b += (x * hi) * w, r2b += (x2 * hi) * w, r3b += (x3 * hi) * w;
        ga += (lo * y) * w, gb += (hi * y) * w;
    }
    store(a, r0a), store(a + 2, r0b), store(a + 16, r1a), store(a + 18, r1b), store(a + 34, r2b), store(a + 50, r3b);
    store(a + 256, ga), store(a + 258, gb);
}

template <int K> void add_range(Sums<K> &sums, Columns from, size_t start, size_t end) {
    if constexpr (K <= 4) return add_four(sums.a, from, start, end);
    Tile tile;
    for (size_t t0 = start; t0 < end; t0 += TILE) {
        int c = (int)std::min<size_t>(end - t0, TILE), t = 0;
        for (; t + 2 <= c; t += 2) {
            Two p[16];
            powers_of_two(p, load(from.xs + t0 + t), 16);
            for (int j = 0; j < 2 * ((K + 1) / 2); j += 2) {
                __m128d a = (__m128d)p[j], b = (__m128d)p[j + 1];
                _mm_store_pd(&tile.powers[t][j], _mm_unpacklo_pd(a, b)), _mm_store_pd(&tile.powers[t + 1][j], _mm_unpackhi_pd(a, b));
            }
            for (int j = 0; j < K; j++) {
                __m128d a = (__m128d)p[j];
                tile.twice[t][j] = (Two)_mm_unpacklo_pd(a, a), tile.twice[t + 1][j] = (Two)_mm_unpackhi_pd(a, a);
            }
        }
        for (; t < c; t++) {
            powers(tile.powers[t], from.xs[t0 + t], 16);
            for (int j = 0; j < 16; j++) tile.twice[t][j] = both(tile.powers[t][j]);
        }
        for (t = 0; t < c; t++) tile.weights[t] = both(from.ws[t0 + t]);
        add_rows_from<K, 0>(sums, tile, c);
        add_right<K>(sums, tile, from.ys + t0, c);
    }
}

template <int K> void unpack(const Sums<K> &from, double *sums) {
    for (int i = 0; i < K; i++) {
        for (int j = i; j < K; j++) sums[16 * i + j] = sums[16 * j + i] = from.a[16 * i + j];
        sums[256 + i] = from.a[256 + i];
    }
}

// ---- the degree that validation chooses, or -1

template <int K> int by_folds(Columns from, size_t n, size_t folds, int b, uint32_t criterion, double most_x, double most_y) {
    size_t part = n / folds;
    double sum[16] = {0};
    size_t times[16] = {0};
    auto end_of = [&](size_t fold) { return fold + 1 == folds ? n : (fold + 1) * part; };
    // Sixteen folds at a time; the sums of the samples before them run on.
    static thread_local Sums<K> others[16];
    Sums<K> before;
    memset(&before, 0, sizeof before);
    for (size_t first = 0; first < folds; first += 16) {
        size_t last = std::min(first + 16, folds);
        for (size_t o = first; o < last; o++) {
            for (size_t f = first; f < o; f++) add_range<K>(others[f - first], from, o * part, end_of(o));
            others[o - first] = before;
            add_range<K>(before, from, o * part, end_of(o));
        }
        if (last < folds)
            for (size_t f = first; f < last; f++) add_range<K>(others[f - first], from, last * part, n);
        for (size_t f = first; f < last; f++) {
            size_t start = f * part;
            int m = (int)(end_of(f) - start);
            double sums[272], c[16][16], deviations[16], total[16];
            unpack<K>(others[f - first], sums);
            Eliminated e;
            int held = eliminate(sums, b, e);
            if (!held) continue;
            substitute_all(e, held, c);
            SIZES_OF[held](from.xs + start, from.ys + start, m, c, OWN);
            bool solved[16];
            for (int d = 0; d < held; d++) {
                // Every sample of the book says whether the degree is solved; the fold's own are scored.
                solved[d] = surely_finite(c[d], d + 1, most_x, most_y) || residuals_finite(from.xs, from.ys, n, c[d], d + 1);
                deviations[d] = solved[d] ? deviation(OWN[d], m) : 0;
            }
            totals(OWN, deviations, held, m, total);
            for (int d = 0; d < held; d++)
                if (solved[d]) sum[d] = sum[d] + score(criterion, (double)m, (double)(d + 1), total[d]), times[d]++;
        }
    }
    bool solved[16];
    double scores[16];
    for (int d = 0; d < b; d++) solved[d] = times[d] > 0, scores[d] = times[d] ? sum[d] / (double)times[d] : 0;
    return choice(solved, scores, b);
}

INLINE uint64_t refused(unsigned number) { return (uint64_t)number << 56; }

INLINE size_t capacity(size_t xs, size_t ys, size_t ws) { return std::min<size_t>(std::min(std::min(xs, ys), ws), MOST); }

} // namespace

// The arguments are those of stakebook_report, with the rule of pruning (0 is polyfit's) behind `value` and Student's table at the end.
extern "C" uint64_t limit_report(size_t n, uint32_t bound, size_t most, uint32_t criterion, uint32_t confidence, double own, uint32_t tolerance,
                                 double value, uint32_t pruning, const double *xs, size_t xs_len, const double *ys, size_t ys_len, const double *ws,
                                 size_t ws_len, const double *sums, size_t sums_len, double *scratch, size_t scratch_len, double *coefficients,
                                 size_t coefficients_len, double *errors, size_t errors_len, uint8_t *pruned, size_t pruned_len, double *lower,
                                 size_t lower_len, double *upper, size_t upper_len, uint8_t *outliers, size_t outliers_len, const double *table) {
    if (sums_len < 272 || capacity(xs_len, ys_len, ws_len) < n || scratch_len < n || coefficients_len < 16 || errors_len < 16 || pruned_len < 16 ||
        lower_len < n || upper_len < n || outliers_len < n)
        return refused(1);
    double most_x, most_y;
    bool finite = finite_columns(xs, ys, ws, n, &most_x, &most_y);
    if (!finite || (confidence >= 6 && !(own - own == 0)) || (tolerance != 0 && !(value - value == 0))) return refused(4);
    if (n == 0) return refused(7);
    size_t degree = greatest_degree(bound, most, n);
    if (degree > 15) return refused(8);
    Eliminated e;
    int held = eliminate(sums, (int)degree + 1, e), chosen = -1, many = 0;
    double c[16][16], deviations[16], total[16], scores[16];
    bool solved[16];
    if (held) {
        substitute_all(e, held, c);
        SIZES_OF[held](xs, ys, n, c, SIZES);
        for (int d = 0; d < held; d++) {
            solved[d] = surely_finite(c[d], d + 1, most_x, most_y) || residuals_finite(xs, ys, n, c[d], d + 1);
            deviations[d] = solved[d] ? deviation(SIZES[d], (int)n) : 0;
        }
        totals(SIZES, deviations, held, (int)n, total);
        for (int d = 0; d < held; d++) scores[d] = solved[d] ? score(criterion, (double)n, (double)(d + 1), total[d]) : 0, many += solved[d];
        chosen = choice(solved, scores, held);
    }
    memset(scratch, 0, 8 * n);
    if (chosen < 0) return refused(11);
    int k = chosen + 1;
    double cov[16][16];
    if (!inverse(sums, k, cov)) return refused(12);
    double variance = 0.0, spread = 0.0;
    if (n != (size_t)k) {
        for (size_t i = 0; i < n; i++) variance += SIZES[chosen][i] * SIZES[chosen][i];
        variance = variance / ((double)n - (double)k);
    }
    for (int i = 0; i < k; i++)
        for (int j = 0; j < k; j++) cov[i][j] = cov[i][j] * variance;
    if (tolerance == 2) {
        double mean = 0, squares = 0;
        for (size_t i = 0; i < n; i++) mean += ys[i];
        mean = mean / (double)n;
        for (size_t i = 0; i < n; i++) squares += (ys[i] - mean) * (ys[i] - mean);
        spread = sqrt(squares / (double)n);
    }
    double t = t_score(confidence, own, n - k, table);
    int insignificant = 0;
    for (int i = 0; i < 16; i++) {
        double a = i < k ? c[chosen][i] : 0.0, error = i < k ? sqrt(cov[i][i]) : 0.0;
        coefficients[i] = a, errors[i] = error;
        insignificant += pruned[i] = i < k && (pruning ? fabs(a) : a) > EPSILON && fabs(a) / error < t;
    }
    Allowance by = {tolerance, value, z_score(confidence, own), spread};
    int marked = BANDS_OF[k](c[chosen], cov, by, xs, ys, n, lower, upper, outliers);
    return (uint64_t)chosen | (uint64_t)many << 8 | (uint64_t)insignificant << 16 | (uint64_t)marked << 32;
}

// The arguments of stakebook_withdraw.
extern "C" uint64_t limit_withdraw(size_t n, size_t i, double *xs, size_t xs_len, double *ys, size_t ys_len, double *ws, size_t ws_len, double *sums,
                                   size_t sums_len) {
    if (sums_len < 272 || capacity(xs_len, ys_len, ws_len) < n) return refused(1);
    if (n <= i) return refused(6);
    for (double *column : {xs, ys, ws}) memmove(column + i, column + i + 1, 8 * (n - 1 - i));
    Sums<16> folded;
    memset(&folded, 0, sizeof folded);
    add_range<16>(folded, {xs, ys, ws}, 0, n - 1);
    unpack<16>(folded, sums);
    return n - 1;
}

// The arguments of stakebook_validate.
extern "C" uint64_t limit_validate(size_t n, size_t folds, uint32_t bound, size_t most, uint32_t criterion, const double *xs, size_t xs_len,
                                   const double *ys, size_t ys_len, const double *ws, size_t ws_len, const double *sums, size_t sums_len,
                                   double *scratch, size_t scratch_len, double *coefficients, size_t coefficients_len) {
    if (sums_len < 272 || capacity(xs_len, ys_len, ws_len) < n || scratch_len < n || coefficients_len < 16) return refused(1);
    double most_x, most_y;
    if (!finite_columns(xs, ys, ws, n, &most_x, &most_y)) return refused(4);
    if (n == 0 || folds < 2 || n < folds) return refused(7);
    size_t degree = greatest_degree(bound, most, n);
    if (degree > 15) return refused(8);
    int b = (int)degree + 1, chosen;
    Columns from = {xs, ys, ws};
    if (b <= 4) chosen = by_folds<4>(from, n, folds, b, criterion, most_x, most_y);
    else if (b <= 8) chosen = by_folds<8>(from, n, folds, b, criterion, most_x, most_y);
    else if (b <= 9) chosen = by_folds<9>(from, n, folds, b, criterion, most_x, most_y);
    else if (b <= 12) chosen = by_folds<12>(from, n, folds, b, criterion, most_x, most_y);
    else chosen = by_folds<16>(from, n, folds, b, criterion, most_x, most_y);
    memset(scratch, 0, 8 * n);
    if (chosen < 0) return refused(11);
    Eliminated e;
    int k = chosen + 1, held = eliminate(sums, k, e);
    if (held < k) return refused(10);
    double c[16];
    substitute(e, k, c);
    if (!surely_finite(c, k, most_x, most_y) && !residuals_finite(xs, ys, n, c, k)) return refused(10);
    memcpy(coefficients, c, sizeof c);
    return chosen;
}
