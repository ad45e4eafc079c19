/* A program of somebody else's, in C: built by pkg-config in an empty folder, shared and static. It prints what docs/JOURNAL.md and the header's words on a
 * split have as examples; `expected` has their answers. */
#include <stakebook.h>
#include <stdio.h>
#include <string.h>

#define ROOM 8

static double xs[ROOM], ys[ROOM], ws[ROOM], sums[STAKEBOOK_SUMS], scratch[ROOM];
static size_t count;

static int refused(uint64_t answer) {
    if (stakebook_refusal(answer) != 0) printf("refused %u\n", stakebook_refusal(answer));
    return stakebook_refusal(answer) != 0;
}

static void changed(uint64_t answer) {
    if (refused(answer)) return;
    count = stakebook_count(answer);
    printf("book %zu\n", count);
}

static void add(double x, double y) { changed(stakebook_add(count, x, y, 1, xs, ROOM, ys, ROOM, ws, ROOM, sums, STAKEBOOK_SUMS)); }

static void fit(size_t degree) {
    double coefficients[STAKEBOOK_TERMS];
    uint64_t answer = stakebook_fit(count, degree, xs, ROOM, ys, ROOM, ws, ROOM, sums, STAKEBOOK_SUMS, scratch, ROOM, coefficients, STAKEBOOK_TERMS);
    size_t i;
    if (refused(answer)) return;
    printf("fit %u\ncoefficients", stakebook_degree(answer));
    for (i = 0; i < 3; i++) {
        unsigned long long bits;
        memcpy(&bits, coefficients + i, sizeof bits);
        printf(" %016llX", bits);
    }
    printf("\n");
}

/* bound 1, AIC */
static void split(size_t limit) {
    static const uint32_t words[] = {STAKEBOOK_CUSTOM_DEGREE, 1, STAKEBOOK_AIC};
    static const double values[] = {0};
    double before[STAKEBOOK_TERMS], after[STAKEBOOK_TERMS], total[1];
    uint64_t answer = stakebook_split(count, words, 3, values, 0, limit, xs, ROOM, ys, ROOM, ws, ROOM, sums, STAKEBOOK_SUMS, scratch, ROOM, before,
                                      STAKEBOOK_TERMS, after, STAKEBOOK_TERMS, total, 1);
    if (!refused(answer)) printf("split %u %.17g (%lu tests)\n", stakebook_break(answer), total[0], (unsigned long)stakebook_tests(answer));
}

int main(void) {
    static const double bend[ROOM] = {0, 1.1, 1.9, 3.05, 2.95, 2.1, .9, .02};
    size_t i;
    changed(stakebook_open(sums, STAKEBOOK_SUMS));
    add(0, 1);
    add(1, 3);
    fit(1);
    fit(2);
    changed(stakebook_open(sums, STAKEBOOK_SUMS));
    for (i = 0; i < ROOM; i++) add((double)i, bend[i]);
    split(SIZE_MAX);
    split(30);
    split(29);
    return 0;
}
