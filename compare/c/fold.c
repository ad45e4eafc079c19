/* Document 01's fold of a withdrawal in C, without weights, for the benchmark: each sample's 16 powers once, in that document's grouping, then the
 * products. */
#include <stddef.h>

void plain_fold_c(const double *restrict xs, const double *restrict ys, size_t n, double *restrict sums) {
    for (size_t k = 0; k < 272; k++) sums[k] = 0.0;
    for (size_t t = 0; t < n; t++) {
        const double x = xs[t], y = ys[t];
        const double x2 = x * x, x3 = x * x2, x4 = x2 * x2, x5 = x * x4, x6 = x2 * x4, x7 = x3 * x4, x8 = x4 * x4;
        const double row[16] = {1.0,    x,       x2,      x3,      x4,      x5,      x6,      x7,
                                x8,     x * x8,  x2 * x8, x3 * x8, x4 * x8, x5 * x8, x6 * x8, x7 * x8};
        for (size_t i = 0; i < 16; i++) {
            for (size_t j = 0; j < 16; j++) sums[16 * i + j] += row[i] * row[j];
            sums[256 + i] += row[i] * y;
        }
    }
}
