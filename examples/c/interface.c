/* Checks of the C interface that no list of calls reaches: a frame read sample by sample, a window of the latest samples, a replay beside its single calls,
 * the calls of two columns beside those of three at weight 1, a book carried over from two columns to three, what a split, the losses and the scores write, a
 * surface by its settings, course groups that use up their allowance, and the stakes of a season. What is expected is worked out by hand here, or is what
 * the other calls leave. All of it runs in a thread that has the stack which stakebook.h calls enough, and would end in a segmentation fault if it were not.
 * It prints what fails, and ends with 1 if anything does. */
#define _POSIX_C_SOURCE 200809L
#include <math.h>
#include <pthread.h>
#include <stdio.h>
#include <string.h>

#include "stakebook.h"

#define ROOM 4
/* what stakebook.h says of a thread's stack */
#define STACK (56 * 1024)

static int checks, failures;

#define CHECK(condition)                                                            \
    do {                                                                            \
        checks++;                                                                   \
        if (!(condition)) failures++, printf("line %d: %s\n", __LINE__, #condition); \
    } while (0)

/* a book of three columns or of two, and what a report writes */
struct book {
    size_t count;
    double xs[ROOM], ys[ROOM], ws[ROOM], sums[STAKEBOOK_SUMS], scratch[ROOM];
    double coefficients[STAKEBOOK_TERMS], errors[STAKEBOOK_TERMS], lower[ROOM], upper[ROOM];
    uint8_t pruned[STAKEBOOK_TERMS], outliers[ROOM];
};

/* the number of the refusal; the count is kept where there is one */
static unsigned changed(struct book *book, uint64_t answer) {
    if (stakebook_refusal(answer) == 0) book->count = stakebook_count(answer);
    return stakebook_refusal(answer);
}

static unsigned opened(struct book *book) { return changed(book, stakebook_open(book->sums, STAKEBOOK_SUMS)); }

static unsigned add(struct book *book, double x, double y, double weight) {
    return changed(book, stakebook_add(book->count, x, y, weight, book->xs, ROOM, book->ys, ROOM, book->ws, ROOM, book->sums, STAKEBOOK_SUMS));
}

static unsigned correct(struct book *book, size_t i, double y) {
    return changed(book, stakebook_correct(book->count, i, y, book->xs, ROOM, book->ys, ROOM, book->ws, ROOM, book->sums, STAKEBOOK_SUMS));
}

static unsigned withdraw(struct book *book, size_t i) {
    return changed(book, stakebook_withdraw(book->count, i, book->xs, ROOM, book->ys, ROOM, book->ws, ROOM, book->sums, STAKEBOOK_SUMS));
}

static unsigned add_frame(struct book *book, const uint8_t *frame, size_t length) {
    return changed(book, stakebook_add_frame(book->count, frame, length, book->xs, ROOM, book->ys, ROOM, book->ws, ROOM, book->sums, STAKEBOOK_SUMS));
}

/* degrees 0 and 1, AIC, P95 */
static uint64_t report(struct book *book) {
    return stakebook_report(book->count, STAKEBOOK_CUSTOM_DEGREE, 1, STAKEBOOK_AIC, STAKEBOOK_P95, 0, STAKEBOOK_NO_TOLERANCE, 0, book->xs, ROOM,
                            book->ys, ROOM, book->ws, ROOM, book->sums, STAKEBOOK_SUMS, book->scratch, ROOM, book->coefficients, STAKEBOOK_TERMS,
                            book->errors, STAKEBOOK_TERMS, book->pruned, STAKEBOOK_TERMS, book->lower, ROOM, book->upper, ROOM, book->outliers, ROOM);
}

static int same_numbers(const double *left, const double *right, size_t many) { return memcmp(left, right, many * sizeof *left) == 0; }

/* x and y below the count, and the sums; weights only where both have them */
static int same_samples(const struct book *left, const struct book *right) {
    return left->count == right->count && same_numbers(left->xs, right->xs, left->count) && same_numbers(left->ys, right->ys, left->count) &&
           same_numbers(left->sums, right->sums, STAKEBOOK_SUMS);
}

static int same_weights(const struct book *left, const struct book *right) { return same_numbers(left->ws, right->ws, left->count); }

/* a frame of the version, of so many numbers; its length */
static size_t framed(uint8_t *frame, uint8_t version, const double *numbers, size_t many) {
    size_t follows = 1 + 8 * many;
    frame[0] = (uint8_t)(follows >> 8);
    frame[1] = (uint8_t)follows;
    frame[2] = version;
    for (size_t i = 0; i < many; i++) {
        uint64_t bits;
        memcpy(&bits, numbers + i, sizeof bits);
        for (int byte = 0; byte < 8; byte++) frame[3 + 8 * i + (size_t)byte] = (uint8_t)(bits >> (56 - 8 * byte));
    }
    return 2 + follows;
}

#define LONGEST (3 + 8 * 12)

/* ---- weights */

static void check_weights(void) {
    struct book book = {0};
    opened(&book);
    CHECK(add(&book, 0, 2, 1) == 0 && add(&book, 1, 6, 3) == 0);
    CHECK(book.ws[0] == 1 && book.ws[1] == 3);
    /* A[0][0], A[0][1], A[1][1] and g */
    CHECK(book.sums[0] == 4 && book.sums[1] == 3 && book.sums[17] == 3 && book.sums[256] == 20 && book.sums[257] == 18);

    /* 4 before 15, and 15 before 5 */
    const double refused[] = {0, -0.0, -1};
    for (size_t i = 0; i < 3; i++) CHECK(add(&book, 0, 0, refused[i]) == 15 && add(&book, NAN, 0, refused[i]) == 4);
    CHECK(add(&book, 0, 0, NAN) == 4 && add(&book, 0, 0, INFINITY) == 4 && add(&book, 0, 0, -INFINITY) == 4);
    uint64_t full = stakebook_add(2, 0, 0, 1, book.xs, ROOM, book.ys, ROOM, book.ws, 2, book.sums, STAKEBOOK_SUMS);
    CHECK(full == (uint64_t)5 << 56);
    full = stakebook_add(2, 0, 0, 0, book.xs, ROOM, book.ys, ROOM, book.ws, 2, book.sums, STAKEBOOK_SUMS);
    CHECK(full == (uint64_t)15 << 56);
    /* the third column's length counts */
    full = stakebook_add(2, NAN, 0, 0, book.xs, ROOM, book.ys, ROOM, book.ws, 1, book.sums, STAKEBOOK_SUMS);
    CHECK(full == (uint64_t)1 << 56);

    /* the mean by weights, degree 0; a correction keeps the weight, a withdrawal moves it */
    CHECK(stakebook_fit(2, 0, book.xs, ROOM, book.ys, ROOM, book.ws, ROOM, book.sums, STAKEBOOK_SUMS, book.scratch, ROOM, book.coefficients,
                        STAKEBOOK_TERMS) == 0);
    CHECK(book.coefficients[0] == 5);
    CHECK(correct(&book, 1, 4) == 0 && book.ws[1] == 3 && book.sums[256] == 14);
    CHECK(withdraw(&book, 0) == 0 && book.count == 1 && book.ws[0] == 3 && book.ws[1] == 3 && book.sums[0] == 3);

    /* 4 for a weight below the count, where it is read; past the count it is nobody's */
    book.ws[0] = NAN;
    CHECK(stakebook_refusal(report(&book)) == 4);
    book.ws[0] = 3;
    book.ws[1] = NAN;
    CHECK(stakebook_refusal(report(&book)) == 0 && book.coefficients[0] == 4);
}

/* ---- frames */

static void check_frames(void) {
    static const double numbers[] = {1, 2, 0.5, 3, 4, 8};
    uint8_t frame[LONGEST];
    struct book book = {0}, other = {0};
    opened(&book);
    opened(&other);
    CHECK(add_frame(&book, frame, framed(frame, 2, numbers, 6)) == 0 && book.count == 2);
    CHECK(add(&other, 1, 2, 0.5) == 0 && add(&other, 3, 4, 8) == 0);
    CHECK(same_samples(&book, &other) && same_weights(&book, &other));
    /* the same bytes at version 1 are three samples of weight 1, and there is room for two */
    CHECK(add_frame(&book, frame, framed(frame, 1, numbers, 6)) == 5);
    CHECK(add_frame(&book, frame, framed(frame, 1, numbers, 4)) == 0 && book.count == 4 && book.ws[2] == 1 && book.ws[3] == 1);

    CHECK(add_frame(&book, frame, framed(frame, 2, numbers, 0)) == 0);
    CHECK(add_frame(&book, frame, framed(frame, 2, numbers, 2)) == 2);
    CHECK(add_frame(&book, frame, framed(frame, 1, numbers, 3)) == 2);
    CHECK(add_frame(&book, frame, framed(frame, 3, numbers, 3)) == 2);
    CHECK(add_frame(&book, frame, framed(frame, 3, numbers, 6)) == 3);
    static const double unweighted[] = {1, 2, 0, 3, NAN, 8};
    CHECK(add_frame(&book, frame, framed(frame, 2, unweighted, 6)) == 4);
    CHECK(add_frame(&book, frame, framed(frame, 2, unweighted, 3)) == 15);

    /* sample by sample: three numbers are written, and none past them */
    double sample[STAKEBOOK_SAMPLE + 1] = {-1, -1, -1, -1};
    for (uint8_t version = 1; version <= 2; version++) {
        size_t length = framed(frame, version, numbers, 6), many = version == 1 ? 3 : 2, read = 0;
        uint64_t at = stakebook_reader(frame, length);
        CHECK(at == 3);
        CHECK(stakebook_next(frame, length, at, sample, STAKEBOOK_SAMPLE - 1) == (uint64_t)1 << 56);
        while ((at = stakebook_next(frame, length, at, sample, STAKEBOOK_SAMPLE)) != 0) {
            const double *expected = numbers + (version == 1 ? 2 : 3) * read;
            CHECK(sample[0] == expected[0] && sample[1] == expected[1] && sample[2] == (version == 1 ? 1 : expected[2]));
            read++;
            CHECK(at == 3 + (version == 1 ? 16 : 24) * read);
        }
        CHECK(read == many && sample[STAKEBOOK_SAMPLE] == -1);
    }
    CHECK(stakebook_reader(frame, framed(frame, 2, numbers, 0)) == 3 && stakebook_next(frame, 3, 3, sample, STAKEBOOK_SAMPLE) == 0);
    CHECK(stakebook_reader(frame, framed(frame, 2, numbers, 2)) == (uint64_t)2 << 56);
    CHECK(stakebook_reader(frame, framed(frame, 3, numbers, 6)) == (uint64_t)3 << 56);
    /* one byte fewer than a sample of version 2 has */
    framed(frame, 2, numbers, 3);
    CHECK(stakebook_next(frame, 3 + 23, 3, sample, STAKEBOOK_SAMPLE) == 0);
}

/* ---- a window */

/* an add to the book of the latest samples, as many as the columns lent have places */
static unsigned add_window(struct book *book, size_t latest, double x, double y, double weight) {
    return changed(book, stakebook_add_window(book->count, x, y, weight, book->xs, latest, book->ys, latest, book->ws, latest, book->sums, STAKEBOOK_SUMS));
}

static void check_window(void) {
    /* the latest three of five; the third outweighs the digits of the others */
    static const double samples[5][3] = {{0, 2, 1}, {1, 6, 3}, {2, 1e16, 1}, {3, 1, 0.5}, {4, 8, 2}};
    uint8_t frame[LONGEST];
    struct book book = {0}, other = {0};
    opened(&book);
    opened(&other);
    for (size_t i = 0; i < 5; i++) {
        if (other.count == 3) CHECK(withdraw(&other, 0) == 0);
        CHECK(add(&other, samples[i][0], samples[i][1], samples[i][2]) == 0);
        CHECK(add_window(&book, 3, samples[i][0], samples[i][1], samples[i][2]) == 0);
        CHECK(book.count == (i < 3 ? i + 1 : 3) && same_samples(&book, &other) && same_weights(&book, &other));
    }
    CHECK(book.xs[0] == 2 && book.xs[1] == 3 && book.xs[2] == 4 && book.ws[1] == 0.5 && book.xs[3] == 0);
    /* the big one goes, and the sums are those of a book that never held it */
    CHECK(add_window(&book, 3, 5, 9, 1) == 0 && book.sums[256] == 0.5 + 16 + 9);
    opened(&other);
    CHECK(add(&other, 3, 1, 0.5) == 0 && add(&other, 4, 8, 2) == 0 && add(&other, 5, 9, 1) == 0);
    CHECK(same_samples(&book, &other) && same_weights(&book, &other));

    /* a refused one withdraws nothing: 1, 4, 15 */
    memcpy(&other, &book, sizeof book);
    CHECK(add_window(&book, 3, NAN, 0, 1) == 4 && add_window(&book, 3, 0, INFINITY, 1) == 4 && add_window(&book, 3, 0, 0, NAN) == 4);
    CHECK(add_window(&book, 3, 0, 0, 0) == 15 && add_window(&book, 3, 0, 0, -1) == 15 && add_window(&book, 3, NAN, 0, 0) == 4);
    CHECK(add_window(&book, 2, NAN, 0, 0) == 1);
    CHECK(stakebook_add_window(3, 0, 0, 1, book.xs, 3, book.ys, 3, book.ws, 3, book.sums, STAKEBOOK_SUMS - 1) == (uint64_t)1 << 56);
    /* all others keep 5 */
    CHECK(stakebook_add(3, 0, 0, 1, book.xs, 3, book.ys, 3, book.ws, 3, book.sums, STAKEBOOK_SUMS) == (uint64_t)5 << 56);
    CHECK(stakebook_add_frame(3, frame, framed(frame, 1, samples[0], 2), book.xs, 3, book.ys, 3, book.ws, 3, book.sums, STAKEBOOK_SUMS) ==
          (uint64_t)5 << 56);
    CHECK(stakebook_add_lines(3, (const uint8_t *)"0 0\n", 4, book.xs, 3, book.ys, 3, book.ws, 3, book.sums, STAKEBOOK_SUMS) == (uint64_t)5 << 56);
    CHECK(memcmp(&book, &other, sizeof book) == 0);
    /* the shortest column is the window's length, and a longer one is left past it */
    CHECK(stakebook_add_window(3, 6, 7, 1, book.xs, ROOM, book.ys, 3, book.ws, ROOM, book.sums, STAKEBOOK_SUMS) == 3 && book.xs[2] == 6 && book.xs[3] == 0);

    /* a window of one, and of none: 5, after 4 and 15 */
    struct book one = {0}, none = {0};
    opened(&one);
    for (size_t i = 0; i < 3; i++) CHECK(add_window(&one, 1, samples[i][0], samples[i][1], samples[i][2]) == 0 && one.count == 1);
    opened(&other);
    CHECK(add(&other, 2, 1e16, 1) == 0 && same_samples(&one, &other) && one.xs[1] == 0);
    opened(&none);
    memcpy(&other, &none, sizeof none);
    CHECK(add_window(&none, 0, 1, 1, 1) == 5 && add_window(&none, 0, 1, NAN, 1) == 4 && add_window(&none, 0, 1, 1, 0) == 15);
    CHECK(stakebook_add_window(0, 1, 1, 1, none.xs, ROOM, none.ys, ROOM, none.ws, 0, none.sums, STAKEBOOK_SUMS) == (uint64_t)5 << 56);
    CHECK(memcmp(&none, &other, sizeof none) == 0);

    /* at most the latest 4,096, however long the columns */
    static double columns[3][4100], sums[STAKEBOOK_SUMS];
    for (size_t i = 0; i < 4100; i++) columns[0][i] = (double)i, columns[2][i] = 1;
    CHECK(stakebook_add_window(4096, -1, 1, 2, columns[0], 4100, columns[1], 4100, columns[2], 4100, sums, STAKEBOOK_SUMS) == 4096);
    CHECK(columns[0][0] == 1 && columns[0][4094] == 4095 && columns[0][4095] == -1 && columns[0][4096] == 4096 && columns[2][4095] == 2);
    CHECK(sums[0] == 4095 + 2);
}

/* ---- a replay */

#define CALLS 8

static void check_replay(void) {
    /* 0 add, 1 correct, 2 withdraw, 3 report: the index; x, y, the weight */
    static const struct {
        uint32_t kind;
        size_t index;
        double x, y, weight;
    } calls[CALLS] = {{0, 0, 0, 2, 1},      {0, 0, 1, 6, 3},   {0, 0, 5, 5, 0},   {0, 0, 2, 3, 0.25},
                      {1, 1, NAN, 4, NAN}, {3, 0, 9, 9, -9}, {2, 0, 9, 9, -9}, {0, 0, 7, 8, NAN}};
    static const unsigned refusals[CALLS] = {0, 0, 15, 0, 0, 0, 0, 4};
    uint32_t kinds[5 * CALLS] = {0};
    size_t words[9 * CALLS] = {0}, results[5 * CALLS];
    double numbers[5 * CALLS] = {0};
    struct book book = {0}, other = {0};
    for (size_t k = 0; k < CALLS; k++) {
        const uint32_t kind[5] = {calls[k].kind, STAKEBOOK_CUSTOM_DEGREE, STAKEBOOK_AIC, STAKEBOOK_P95, STAKEBOOK_NO_TOLERANCE};
        const size_t word[9] = {calls[k].index, 1, 16, 16, 16, 16, 16, 16, 16};
        memcpy(kinds + 5 * k, kind, sizeof kind);
        memcpy(words + 9 * k, word, sizeof word);
        numbers[5 * k] = calls[k].x;
        numbers[5 * k + 1] = calls[k].y;
        numbers[5 * k + 2] = calls[k].weight;
    }
    static double scratch[16 * CALLS], coefficients[16 * CALLS], errors[16 * CALLS], lower[16 * CALLS], upper[16 * CALLS];
    static uint8_t pruned[16 * CALLS], outliers[16 * CALLS];
    for (size_t given = 5 * CALLS - 1; given <= 5 * CALLS; given++) {
        uint64_t answer = stakebook_replay(kinds, 5 * CALLS, words, 9 * CALLS, numbers, given, 16, book.xs, ROOM, book.ys, ROOM, book.ws, ROOM, book.sums,
                                           STAKEBOOK_SUMS, results, 5 * CALLS, scratch, 16 * CALLS, coefficients, 16 * CALLS, errors, 16 * CALLS, pruned,
                                           16 * CALLS, lower, 16 * CALLS, upper, 16 * CALLS, outliers, 16 * CALLS);
        /* one number too few is no list of calls */
        CHECK(stakebook_refusal(answer) == (given < 5 * CALLS ? STAKEBOOK_MALFORMED : 0));
        if (given == 5 * CALLS) book.count = stakebook_count(answer);
    }
    opened(&other);
    for (size_t k = 0; k < CALLS; k++) {
        unsigned refusal = 0;
        switch (calls[k].kind) {
        case 0: refusal = add(&other, calls[k].x, calls[k].y, calls[k].weight); break;
        case 1: refusal = correct(&other, calls[k].index, calls[k].y); break;
        case 2: refusal = withdraw(&other, calls[k].index); break;
        default: {
            uint64_t answer = report(&other);
            refusal = stakebook_refusal(answer);
            CHECK(results[5 * k + 1] == stakebook_degree(answer) && results[5 * k + 2] == stakebook_solved(answer));
            CHECK(same_numbers(coefficients + 16 * k, other.coefficients, 16) && same_numbers(errors + 16 * k, other.errors, 16));
            CHECK(same_numbers(lower + 16 * k, other.lower, other.count) && same_numbers(upper + 16 * k, other.upper, other.count));
        }
        }
        CHECK(refusal == refusals[k] && results[5 * k] == refusal);
    }
    CHECK(book.count == 2 && same_samples(&book, &other) && same_weights(&book, &other));
}

/* ---- two columns */

static unsigned two_column_add(struct book *book, double x, double y) {
    return changed(book, stakebook_two_column_add(book->count, x, y, book->xs, ROOM, book->ys, ROOM, book->sums, STAKEBOOK_SUMS));
}

static unsigned two_column_correct(struct book *book, size_t i, double y) {
    return changed(book, stakebook_two_column_correct(book->count, i, y, book->xs, ROOM, book->ys, ROOM, book->sums, STAKEBOOK_SUMS));
}

static unsigned two_column_withdraw(struct book *book, size_t i) {
    return changed(book, stakebook_two_column_withdraw(book->count, i, book->xs, ROOM, book->ys, ROOM, book->sums, STAKEBOOK_SUMS));
}

static unsigned two_column_add_frame(struct book *book, const uint8_t *frame, size_t length) {
    return changed(book, stakebook_two_column_add_frame(book->count, frame, length, book->xs, ROOM, book->ys, ROOM, book->sums, STAKEBOOK_SUMS));
}

static void check_two_columns(void) {
    static const double numbers[] = {1.1, 322.5, 1.3, 331, 1.5, 358};
    uint8_t frame[LONGEST];
    struct book two = {0}, three = {0};
    memset(two.sums, 0xA5, sizeof two.sums);
    CHECK(stakebook_two_column_open(two.sums, STAKEBOOK_SUMS - 1) == (uint64_t)1 << 56);
    CHECK(changed(&two, stakebook_two_column_open(two.sums, STAKEBOOK_SUMS)) == 0 && opened(&three) == 0);
    CHECK(same_samples(&two, &three));
    CHECK(two_column_add(&two, 0.1, 212) == 0 && add(&three, 0.1, 212, 1) == 0);
    CHECK(two_column_add(&two, 0.3, 240.5) == 0 && add(&three, 0.3, 240.5, 1) == 0);
    CHECK(same_samples(&two, &three));
    CHECK(two_column_add_frame(&two, frame, framed(frame, 1, numbers, 4)) == 0 && add_frame(&three, frame, framed(frame, 1, numbers, 4)) == 0);
    CHECK(same_samples(&two, &three) && two.count == 4);
    CHECK(two_column_correct(&two, 1, 239) == 0 && correct(&three, 1, 239) == 0);
    CHECK(same_samples(&two, &three));
    CHECK(two_column_withdraw(&two, 0) == 0 && withdraw(&three, 0) == 0);
    CHECK(same_samples(&two, &three));

    /* read with weights of 1 below the count */
    for (size_t i = 0; i < two.count; i++) two.ws[i] = 1;
    CHECK(report(&two) == report(&three) && stakebook_refusal(report(&two)) == 0);
    CHECK(same_numbers(two.coefficients, three.coefficients, STAKEBOOK_TERMS) && same_numbers(two.errors, three.errors, STAKEBOOK_TERMS));
    CHECK(same_numbers(two.lower, three.lower, two.count) && same_numbers(two.upper, three.upper, two.count));

    /* 4, 5 and 6; a frame of version 2 is 3 where its length is 1 plus a multiple of 16, and 2 elsewhere */
    CHECK(two_column_add(&two, NAN, 1) == 4 && two_column_add(&two, 1, INFINITY) == 4);
    CHECK(two_column_correct(&two, 0, NAN) == 4 && two_column_correct(&two, 3, 1) == 6 && two_column_withdraw(&two, 3) == 6);
    CHECK(two_column_add_frame(&two, frame, framed(frame, 2, numbers, 0)) == 3);
    CHECK(two_column_add_frame(&two, frame, framed(frame, 2, numbers, 3)) == 2);
    CHECK(two_column_add_frame(&two, frame, framed(frame, 2, numbers, 6)) == 3);
    CHECK(two_column_add_frame(&two, frame, framed(frame, 1, numbers, 3)) == 2);
    CHECK(two_column_add_frame(&two, frame, framed(frame, 1, numbers, 4)) == 5);
    static const double bad[] = {1, NAN};
    CHECK(two_column_add_frame(&two, frame, framed(frame, 1, bad, 2)) == 4);
    CHECK(two_column_add_frame(&two, frame, framed(frame, 1, numbers, 2)) == 0 && two.count == 4);
    CHECK(two_column_add(&two, 1, 1) == 5 && two_column_add(&two, NAN, 1) == 4);

    /* 1: short sums, or a count above the shorter column */
    CHECK(stakebook_two_column_add(0, NAN, 1, two.xs, ROOM, two.ys, ROOM, two.sums, STAKEBOOK_SUMS - 1) == (uint64_t)1 << 56);
    CHECK(stakebook_two_column_correct(4, 0, NAN, two.xs, 3, two.ys, ROOM, two.sums, STAKEBOOK_SUMS) == (uint64_t)1 << 56);
    CHECK(stakebook_two_column_withdraw(4, 9, two.xs, ROOM, two.ys, 3, two.sums, STAKEBOOK_SUMS) == (uint64_t)1 << 56);
    CHECK(stakebook_two_column_add_frame(5, frame, 0, two.xs, ROOM, two.ys, ROOM, two.sums, STAKEBOOK_SUMS) == (uint64_t)1 << 56);
}

/* ---- from two columns to three */

/* a carry on so much memory */
static uint64_t carry(struct book *book, size_t xs_len, size_t ys_len, size_t ws_len, size_t sums_len) {
    return stakebook_carry(book->count, book->xs, xs_len, book->ys, ys_len, book->ws, ws_len, book->sums, sums_len);
}

static void check_carry(void) {
    static const double numbers[] = {1.1, 322.5, 1.3, 331};
    uint8_t frame[LONGEST];
    struct book two = {0}, three = {0};
    CHECK(changed(&two, stakebook_two_column_open(two.sums, STAKEBOOK_SUMS)) == 0 && opened(&three) == 0);
    for (size_t i = 0; i < ROOM; i++) two.ws[i] = -1;

    /* no samples: no weight is written */
    CHECK(carry(&two, ROOM, ROOM, ROOM, STAKEBOOK_SUMS) == 0 && carry(&two, 0, 0, 0, STAKEBOOK_SUMS) == 0);
    CHECK(two.ws[0] == -1 && same_samples(&two, &three));

    CHECK(two_column_add(&two, 9, 9) == 0 && two_column_add_frame(&two, frame, framed(frame, 1, numbers, 4)) == 0);
    CHECK(two_column_add(&two, NAN, 1) == 4 && two_column_add_frame(&two, frame, framed(frame, 2, numbers, 3)) == 2);
    CHECK(two_column_correct(&two, 1, 320) == 0 && two_column_withdraw(&two, 0) == 0 && two.count == 2);
    /* sums that are not the samples' are left, too */
    const double last = two.sums[STAKEBOOK_SUMS - 1];
    two.sums[STAKEBOOK_SUMS - 1] = -1;
    memcpy(&three, &two, sizeof two);

    /* 1: each column one place short of the count, and the sums; nothing is written */
    const uint64_t refused = (uint64_t)1 << 56;
    CHECK(carry(&two, 1, ROOM, ROOM, STAKEBOOK_SUMS) == refused && carry(&two, ROOM, 1, ROOM, STAKEBOOK_SUMS) == refused);
    CHECK(carry(&two, ROOM, ROOM, 1, STAKEBOOK_SUMS) == refused && carry(&two, ROOM, ROOM, 0, STAKEBOOK_SUMS) == refused);
    CHECK(carry(&two, ROOM, ROOM, ROOM, STAKEBOOK_SUMS - 1) == refused && carry(&two, ROOM, ROOM, ROOM, 0) == refused);
    two.count = ROOM + 1;
    CHECK(carry(&two, ROOM, ROOM, ROOM, STAKEBOOK_SUMS) == refused);
    two.count = SIZE_MAX;
    CHECK(carry(&two, ROOM, ROOM, ROOM, STAKEBOOK_SUMS) == refused);
    two.count = 2;
    CHECK(memcmp(&two, &three, sizeof two) == 0);

    /* the weights below the count become 1, and no other place changes, also where no more is lent than the count: a full book */
    CHECK(carry(&two, 2, 2, 2, STAKEBOOK_SUMS) == 2 && two.ws[0] == 1 && two.ws[1] == 1);
    two.ws[0] = NAN;
    two.ws[1] = INFINITY;
    CHECK(carry(&two, ROOM, ROOM, ROOM, STAKEBOOK_SUMS) == 2);
    three.ws[0] = three.ws[1] = 1;
    CHECK(memcmp(&two, &three, sizeof two) == 0 && two.ws[2] == -1 && two.ws[3] == -1);

    /* from there on, what a book with weights from the start gives */
    two.sums[STAKEBOOK_SUMS - 1] = last;
    memset(&three, 0, sizeof three);
    CHECK(opened(&three) == 0 && add(&three, 9, 9, 1) == 0 && add_frame(&three, frame, framed(frame, 1, numbers, 4)) == 0);
    CHECK(correct(&three, 1, 320) == 0 && withdraw(&three, 0) == 0);
    CHECK(same_samples(&two, &three) && same_weights(&two, &three));
    CHECK(add(&two, 2, 5, 0.5) == 0 && add(&three, 2, 5, 0.5) == 0 && correct(&two, 0, 319) == 0 && correct(&three, 0, 319) == 0);
    CHECK(same_samples(&two, &three) && same_weights(&two, &three) && two.ws[3] == -1);
    CHECK(report(&two) == report(&three) && stakebook_refusal(report(&two)) == 0);
    CHECK(same_numbers(two.coefficients, three.coefficients, STAKEBOOK_TERMS) && same_numbers(two.errors, three.errors, STAKEBOOK_TERMS));
    CHECK(same_numbers(two.lower, three.lower, two.count) && same_numbers(two.upper, three.upper, two.count));

    /* at most 4,096 samples, however long the columns */
    static double columns[3][4100];
    static const double sums[STAKEBOOK_SUMS];
    CHECK(stakebook_carry(4097, columns[0], 4100, columns[1], 4100, columns[2], 4100, sums, STAKEBOOK_SUMS) == refused && columns[2][0] == 0);
    CHECK(stakebook_carry(4096, columns[0], 4100, columns[1], 4100, columns[2], 4100, sums, STAKEBOOK_SUMS) == 4096);
    CHECK(columns[2][0] == 1 && columns[2][4095] == 1 && columns[2][4096] == 0);
}

/* the header's example of a split, its limit and its refusals; and the losses of a report */
static void check_split_and_losses(void) {
    static const double xs[8] = {0, 1, 2, 3, 4, 5, 6, 7}, ys[8] = {0, 1.1, 1.9, 3.05, 2.95, 2.1, 0.9, 0.02}, ws[8] = {1, 1, 1, 1, 1, 1, 1, 1};
    static const uint32_t words[2] = {STAKEBOOK_CUSTOM_DEGREE, 1};
    static const double values[1], nothing[STAKEBOOK_TERMS];
    double scratch[8] = {7, 7, 7, 7, 7, 7, 7, 7}, before[STAKEBOOK_TERMS] = {0}, after[STAKEBOOK_TERMS] = {0}, numbers[2] = {0}, losses[9] = {0};
    double columns[3][8], sums[STAKEBOOK_SUMS];
    size_t count = stakebook_count(stakebook_open(sums, STAKEBOOK_SUMS));
    for (size_t i = 0; i < 8; i++)
        count = stakebook_count(stakebook_add(count, xs[i], ys[i], ws[i], columns[0], 8, columns[1], 8, columns[2], 8, sums, STAKEBOOK_SUMS));
#define SPLIT(count, limit, places, total_len)                                                                                                          \
    stakebook_split(count, words, 2, values, 0, limit, columns[0], 8, columns[1], 8, columns[2], 8, sums, STAKEBOOK_SUMS, scratch, 8, before, places, \
                    after, STAKEBOOK_TERMS, numbers, total_len)
    /* 1 before all else, 7 below four samples: nothing is written */
    CHECK(SPLIT(8, 0, STAKEBOOK_TERMS, 0) == (uint64_t)1 << 56 && SPLIT(3, 0, STAKEBOOK_TERMS - 1, 1) == (uint64_t)1 << 56);
    CHECK(SPLIT(3, 0, STAKEBOOK_TERMS, 1) == (uint64_t)7 << 56 && scratch[0] == 7);
    /* 16 one below the number of tests: scratch alone is written */
    CHECK(SPLIT(8, 29, STAKEBOOK_TERMS, 1) == (uint64_t)16 << 56 && scratch[0] == 0 && scratch[7] == 0 && numbers[0] == 0);
    CHECK(same_numbers(before, nothing, STAKEBOOK_TERMS) && same_numbers(after, nothing, STAKEBOOK_TERMS));
    uint64_t answer = SPLIT(8, 30, STAKEBOOK_TERMS, 1);
    CHECK(stakebook_refusal(answer) == 0 && stakebook_break(answer) == 3 && stakebook_tests(answer) == 30);
    CHECK(stakebook_degree(answer) == 1 && stakebook_degree_after(answer) == 1 && numbers[0] == -113.35496093152223);
    CHECK(before[1] > 0.9 && after[1] < -0.8 && before[2] == 0 && after[2] == 0);
    CHECK(SPLIT(8, SIZE_MAX, STAKEBOOK_TERMS, 2) == answer && numbers[1] == 0);

    /* the losses add up to the total, and no place past the count is written */
    losses[8] = 7;
    answer = stakebook_losses(8, words, 2, values, 0, columns[0], 8, columns[1], 8, columns[2], 8, sums, STAKEBOOK_SUMS, scratch, 8, losses, 9, numbers, 2);
    double total = 0;
    for (size_t i = 0; i < 8; i++) total += losses[i];
    CHECK(stakebook_refusal(answer) == 0 && stakebook_degree(answer) <= 1 && total == numbers[0] && total > 0 && losses[8] == 7);
    CHECK(stakebook_losses(8, words, 2, values, 0, columns[0], 8, columns[1], 8, columns[2], 8, sums, STAKEBOOK_SUMS, scratch, 8, losses, 9, numbers, 1) ==
          (uint64_t)1 << 56);
}

/* y = 20 - 12 x + 12.75 z + xz at four corners: a plane leaves 1 and -1, and the error of each of its terms is 1 */
static void check_surface(void) {
    static const double xs[4] = {1, 1, -1, -1}, zs[4] = {1, -1, 1, -1}, ys[4] = {21.75, -5.75, 43.75, 20.25};
    double scratch[4] = {7, 7, 7, 7}, coefficients[16], errors[16], lower[5], upper[5], numbers[4] = {7, 7, 7, 7};
    uint8_t pruned[16], outliers[5];
    coefficients[15] = errors[15] = lower[4] = upper[4] = 7;
    pruned[15] = outliers[4] = 7;
    CHECK(stakebook_surface_fit(4, 1, xs, 4, zs, 4, ys, 4, scratch, 4, coefficients, 15) == 1);
    CHECK(coefficients[0] == 20 && coefficients[1] == -12 && coefficients[2] == 12.75 && coefficients[3] == 0 && coefficients[14] == 0);
    CHECK(coefficients[15] == 7 && scratch[0] == 0 && scratch[3] == 0);
    /* more terms than samples, above 4, no samples; a place short */
    CHECK(stakebook_surface_fit(4, 2, xs, 4, zs, 4, ys, 4, scratch, 4, coefficients, 15) == (uint64_t)8 << 56);
    CHECK(stakebook_surface_fit(4, SIZE_MAX, xs, 4, zs, 4, ys, 4, scratch, 4, coefficients, 15) == (uint64_t)8 << 56);
    CHECK(stakebook_surface_fit(0, 0, xs, 4, zs, 4, ys, 4, scratch, 4, coefficients, 15) == (uint64_t)7 << 56);
    CHECK(stakebook_surface_fit(4, 1, xs, 4, zs, 3, ys, 4, scratch, 4, coefficients, 15) == (uint64_t)1 << 56);
    CHECK(stakebook_surface_fit(4, 1, xs, 4, zs, 4, ys, 4, scratch, 4, coefficients, 14) == (uint64_t)1 << 56);
    /* z is not x: 12.75 and not -12 is the slope along it */
    CHECK(stakebook_surface_band(4, 0, 1, 1, STAKEBOOK_CUSTOM_SCORE, 0, STAKEBOOK_NO_TOLERANCE, NAN, xs, 4, zs, 4, ys, 4, scratch, 4, numbers, 4) == 0);
    CHECK(numbers[0] == 32.75 && numbers[1] == 32.75 && numbers[2] == 32.75 && numbers[3] == 7);
    CHECK(stakebook_surface_band(4, 0, 1.5, 1, STAKEBOOK_P95, 0, STAKEBOOK_NO_TOLERANCE, 0, xs, 4, zs, 4, ys, 4, scratch, 4, numbers, 3) == (uint64_t)9 << 56);
    CHECK(stakebook_surface_band(4, 0, NAN, 1, STAKEBOOK_P95, 0, STAKEBOOK_NO_TOLERANCE, 0, xs, 4, zs, 4, ys, 4, scratch, 4, numbers, 3) == (uint64_t)4 << 56);
    CHECK(stakebook_surface_band(4, 0, 1, 1, STAKEBOOK_P95, 0, STAKEBOOK_NO_TOLERANCE, 0, xs, 4, zs, 4, ys, 4, scratch, 4, numbers, 2) == (uint64_t)1 << 56);
#define SURFACE(words, words_len, values, values_len)                                                                                                  \
    stakebook_surface_report(4, words, words_len, values, values_len, xs, 4, zs, 4, ys, 4, scratch, 4, coefficients, 15, errors, 15, pruned, 15, lower, 4, \
                             upper, 4, outliers, 4)
    /* settings that are not lent count as 0: Conservative, which is total degree 0 alone, AIC, P80, no tolerance, positive terms */
    static const uint32_t words[7] = {STAKEBOOK_CUSTOM_DEGREE, 4, STAKEBOOK_AIC, STAKEBOOK_P95, STAKEBOOK_NO_TOLERANCE, STAKEBOOK_BY_SIZE, 9};
    static const double values[3] = {NAN, NAN, NAN};
    uint64_t answer = SURFACE(words, 0, values, 0);
    CHECK(stakebook_refusal(answer) == 0 && stakebook_degree(answer) == 0 && stakebook_solved(answer) == 1 && coefficients[0] == 20 && coefficients[1] == 0);
    /* total degrees 0 and 1 have terms enough; df is 1, whose score is 12.71 at P95: by size -12 is pruned, else nothing */
    answer = SURFACE(words, 5, values, 2);
    CHECK(stakebook_degree(answer) == 1 && stakebook_solved(answer) == 2 && stakebook_pruned(answer) == 0 && stakebook_outliers(answer) == 0);
    CHECK(errors[0] == 1 && errors[1] == 1 && errors[2] == 1 && errors[3] == 0 && pruned[1] == 0);
    answer = SURFACE(words, 7, values, 3);
    CHECK(stakebook_degree(answer) == 1 && stakebook_pruned(answer) == 1 && pruned[0] == 0 && pruned[1] == 1 && pruned[2] == 0 && pruned[14] == 0);
    CHECK(errors[15] == 7 && pruned[15] == 7 && lower[4] == 7 && upper[4] == 7 && outliers[4] == 7);
}

/* the scores of a line of five samples by hand, what is told of degrees that are unsolved or past the bound, and the refusals */
static void check_scores(void) {
    static const uint32_t words[2] = {STAKEBOOK_CUSTOM_DEGREE, 2}, line_words[2] = {STAKEBOOK_CUSTOM_DEGREE, 1};
    static const double values[1], ys[4] = {0, 0, 4, 8};
    double columns[3][5], sums[STAKEBOOK_SUMS], scratch[5] = {7, 7, 7, 7, 7}, scores[STAKEBOOK_TERMS + 1], least[2] = {7, 7}, numbers[2];
    double losses[5];
    uint8_t solved[STAKEBOOK_TERMS + 1];
    for (size_t i = 0; i <= STAKEBOOK_TERMS; i++) scores[i] = solved[i] = 7;
    size_t count = stakebook_count(stakebook_open(sums, STAKEBOOK_SUMS));
    for (size_t i = 0; i < 5; i++)
        count = stakebook_count(stakebook_add(count, (double)i, (double)i, 1, columns[0], 5, columns[1], 5, columns[2], 5, sums, STAKEBOOK_SUMS));
#define SCORES(count, words, solved_len, scores_len, least_len)                                                                                   \
    stakebook_scores(count, words, 2, values, 0, columns[0], 5, columns[1], 5, columns[2], 5, sums, STAKEBOOK_SUMS, scratch, 5, solved, solved_len, \
                     scores, scores_len, least, least_len)
    /* 1 judges every length, before 7 too: nothing is written */
    CHECK(SCORES(5, words, STAKEBOOK_TERMS, STAKEBOOK_TERMS, 0) == (uint64_t)1 << 56 && SCORES(0, words, 15, STAKEBOOK_TERMS, 1) == (uint64_t)1 << 56);
    CHECK(SCORES(5, words, STAKEBOOK_TERMS, 15, 1) == (uint64_t)1 << 56 && SCORES(0, words, STAKEBOOK_TERMS, STAKEBOOK_TERMS, 1) == (uint64_t)7 << 56);
    CHECK(scratch[0] == 7 && solved[0] == 7 && scores[0] == 7 && least[0] == 7);
    /* degrees 1 and 2 have no loss, so that the mean loss is 2^-52; at degree 2 the further term of AIC is 2 * 3 * 4 / 1 */
    uint64_t answer = SCORES(5, words, STAKEBOOK_TERMS + 1, STAKEBOOK_TERMS + 1, 2);
    CHECK(stakebook_refusal(answer) == 0 && stakebook_degree(answer) == 1 && stakebook_solved(answer) == 3);
    CHECK(stakebook_bound(answer) == 2 && stakebook_tests(answer) == 1 + 2 + 3);
    CHECK(scores[1] == least[0] && scores[1] < -170 && scores[1] > -171 && scores[0] > 0 && least[1] == 7);
    CHECK(solved[0] == 1 && solved[1] == 1 && solved[2] == 1 && solved[3] == 0 && scores[3] == 0 && solved[STAKEBOOK_TERMS] == 7);
    CHECK(scores[STAKEBOOK_TERMS - 1] == 0 && scores[STAKEBOOK_TERMS] == 7 && scratch[0] == 0 && scratch[4] == 0);
    /* the chosen degree's is the score that the losses tell */
    answer = stakebook_losses(5, words, 2, values, 0, columns[0], 5, columns[1], 5, columns[2], 5, sums, STAKEBOOK_SUMS, scratch, 5, losses, 5, numbers, 2);
    CHECK(stakebook_degree(answer) == 1 && numbers[1] == scores[1]);
    /* at one x degree 1 is unsolved: its second pivot fails, and is counted */
    count = stakebook_count(stakebook_open(sums, STAKEBOOK_SUMS));
    for (size_t i = 0; i < 4; i++)
        count = stakebook_count(stakebook_add(count, 0, ys[i], 1, columns[0], 5, columns[1], 5, columns[2], 5, sums, STAKEBOOK_SUMS));
    answer = SCORES(count, line_words, STAKEBOOK_TERMS, STAKEBOOK_TERMS, 1);
    CHECK(stakebook_degree(answer) == 0 && stakebook_solved(answer) == 1 && stakebook_bound(answer) == 1 && stakebook_tests(answer) == 3);
    CHECK(solved[0] == 1 && solved[1] == 0 && solved[2] == 0 && scores[0] == least[0] && scores[1] == 0 && scores[2] == 0);
}

/* two groups and a table: what each call takes, and what is refused. The split of check_split_and_losses costs 30, a report of these samples up to degree 1
 * three pivot tests, and one of a surface up to total degree 1 four: 1 and 3 */
static void check_groups(void) {
    static const double xs[8] = {0, 1, 2, 3, 4, 5, 6, 7}, ys[8] = {0, 1.1, 1.9, 3.05, 2.95, 2.1, 0.9, 0.02}, zs[8] = {0, 1, 0, 1, 0, 1, 0, 1};
    static const uint32_t words[2] = {STAKEBOOK_CUSTOM_DEGREE, 1};
    static const double values[1];
    double columns[3][8], sums[STAKEBOOK_SUMS], scratch[8], coefficients[STAKEBOOK_TERMS], errors[STAKEBOOK_TERMS], lower[8], upper[8];
    double before[STAKEBOOK_TERMS], after[STAKEBOOK_TERMS], total[1], plain[STAKEBOOK_TERMS];
    uint8_t pruned[STAKEBOOK_TERMS], outliers[8];
    size_t table[STAKEBOOK_TABLE + 1];
    for (size_t i = 0; i <= STAKEBOOK_TABLE; i++) table[i] = 77;
    size_t count = stakebook_count(stakebook_open(sums, STAKEBOOK_SUMS));
    for (size_t i = 0; i < 8; i++)
        count = stakebook_count(stakebook_add(count, xs[i], ys[i], 1, columns[0], 8, columns[1], 8, columns[2], 8, sums, STAKEBOOK_SUMS));
#define LENT_REPORT scratch, 8, coefficients, STAKEBOOK_TERMS, errors, STAKEBOOK_TERMS, pruned, STAKEBOOK_TERMS, lower, 8, upper, 8, outliers, 8
#define CURVE words, 2, values, 0, columns[0], 8, columns[1], 8, columns[2], 8, sums, STAKEBOOK_SUMS
#define GROUP_REPORT(group, table_len) stakebook_group_report(group, count, CURVE, LENT_REPORT, table, table_len)
#define GROUP_SPLIT(group, total_len) \
    stakebook_group_split(group, count, CURVE, scratch, 8, before, STAKEBOOK_TERMS, after, STAKEBOOK_TERMS, total, total_len, table, STAKEBOOK_TABLE)
#define GROUP_SURFACE(group) \
    stakebook_group_surface_report(group, 8, words, 2, values, 0, xs, 8, zs, 8, ys, 8, LENT_REPORT, table, STAKEBOOK_TABLE)
    /* a start and a renewal need nine places, and write no tenth; the quota is refilled to, whatever is left */
    CHECK(stakebook_start(7, table, STAKEBOOK_TABLE - 1) == (uint64_t)1 << 56 && stakebook_renew(table, STAKEBOOK_TABLE - 1) == (uint64_t)1 << 56);
    CHECK(table[0] == 77 && table[8] == 77 && stakebook_start(7, table, STAKEBOOK_TABLE + 1) == 0);
    for (size_t i = 0; i < STAKEBOOK_TABLE; i++) CHECK(table[i] == 7);
    CHECK(table[STAKEBOOK_TABLE] == 77);

    /* a report is the one without a group, and takes 3 of the 7 from its own counter */
    uint64_t answer = stakebook_report_by(count, CURVE, LENT_REPORT);
    memcpy(plain, coefficients, sizeof plain);
    memset(coefficients, 1, sizeof coefficients);
    CHECK(stakebook_refusal(answer) == 0 && GROUP_REPORT(2, STAKEBOOK_TABLE) == answer && same_numbers(coefficients, plain, STAKEBOOK_TERMS));
    CHECK(table[2] == 4 && table[1] == 7 && table[3] == 7 && table[8] == 7 && GROUP_REPORT(2, STAKEBOOK_TABLE) == answer && table[2] == 1);
    /* the quota used up: 16, the counter stands, scratch alone is written; another group goes on */
    scratch[0] = scratch[7] = lower[0] = 5;
    CHECK(GROUP_REPORT(2, STAKEBOOK_TABLE) == (uint64_t)16 << 56 && table[2] == 1 && scratch[0] == 0 && scratch[7] == 0 && lower[0] == 5);
    CHECK(GROUP_REPORT(7, STAKEBOOK_TABLE) == answer && table[7] == 4 && table[2] == 1);
    /* a group above 7, after a table too short, before no samples: nothing is written */
    scratch[0] = 5;
    CHECK(GROUP_REPORT(STAKEBOOK_GROUPS, STAKEBOOK_TABLE) == (uint64_t)17 << 56 && GROUP_REPORT(SIZE_MAX, STAKEBOOK_TABLE) == (uint64_t)17 << 56);
    CHECK(GROUP_REPORT(STAKEBOOK_GROUPS, STAKEBOOK_TABLE - 1) == (uint64_t)1 << 56 && GROUP_SPLIT(8, 1) == (uint64_t)17 << 56);
    CHECK(GROUP_SURFACE(8) == (uint64_t)17 << 56 && scratch[0] == 5 && table[7] == 4 && table[8] == 7);
    /* a renewal lets it through */
    CHECK(stakebook_renew(table, STAKEBOOK_TABLE) == 0 && table[2] == 7 && table[7] == 7 && GROUP_REPORT(2, STAKEBOOK_TABLE) == answer && table[2] == 4);

    /* a surface's report takes 1 and 3 */
    answer = stakebook_surface_report(8, words, 2, values, 0, xs, 8, zs, 8, ys, 8, LENT_REPORT);
    CHECK(stakebook_refusal(answer) == 0 && GROUP_SURFACE(2) == answer && table[2] == 0 && GROUP_SURFACE(2) == (uint64_t)16 << 56 && table[2] == 0);

    /* a split is that of its counter as the limit: 30 tests, and 16 at 29 */
    CHECK(stakebook_start(29, table, STAKEBOOK_TABLE) == 0 && GROUP_SPLIT(5, 1) == (uint64_t)16 << 56 && table[5] == 29);
    CHECK(stakebook_start(30, table, STAKEBOOK_TABLE) == 0 && GROUP_SPLIT(5, 0) == (uint64_t)1 << 56 && table[5] == 30);
    answer = GROUP_SPLIT(5, 1);
    CHECK(stakebook_refusal(answer) == 0 && stakebook_break(answer) == 3 && stakebook_tests(answer) == 30 && total[0] == -113.35496093152223);
    CHECK(table[5] == 0 && table[4] == 30 && table[8] == 30 && before[1] > 0.9 && after[1] < -0.8);
}

/* A season of four readings a stake on memory that is no multiple of 32: what each call writes of a stake's parts and of nothing else, what is short beside a stake
 * above 31, and a report of all stakes before and after one is corrected. The line of stake 31 is 1 + 2x, that of stake 0 is 5 - x with weights of 2 */
#define PLACES(places, rest) (STAKEBOOK_STAKES * (places) + (rest))
#define COLUMN PLACES(ROOM, 3)
#define SEASON_SUMS PLACES(STAKEBOOK_SUMS, 31)
#define SEASON_TERMS PLACES(STAKEBOOK_TERMS, 1)

struct season {
    size_t counts[STAKEBOOK_STAKES + 1];
    double xs[COLUMN], ys[COLUMN], ws[COLUMN], sums[SEASON_SUMS], scratch[COLUMN];
    double coefficients[SEASON_TERMS], errors[SEASON_TERMS], lower[COLUMN], upper[COLUMN];
    uint8_t pruned[SEASON_TERMS], outliers[COLUMN];
};

static void check_season(void) {
    static const uint32_t words[2] = {STAKEBOOK_CUSTOM_DEGREE, 1};
    static const double values[1];
    static struct season season, kept;
    uint64_t answers[STAKEBOOK_STAKES + 1], before[STAKEBOOK_STAKES];
    double numbers[STAKEBOOK_BAND + 1] = {7, 7, 7, 7}, losses[ROOM], scores[STAKEBOOK_TERMS], least[2] = {7, 7}, sides[2][STAKEBOOK_TERMS], total[2] = {7, 7};
    uint8_t solved[STAKEBOOK_TERMS];
    const uint64_t short_memory = (uint64_t)1 << 56, no_stake = (uint64_t)18 << 56;
#define COUNTS season.counts, STAKEBOOK_STAKES
#define KEPT season.xs, COLUMN, season.ys, COLUMN, season.ws, COLUMN, season.sums, SEASON_SUMS
#define READ COUNTS, KEPT, season.scratch, COLUMN
#define WRITTEN                                                                                                                                    \
    season.coefficients, SEASON_TERMS, season.errors, SEASON_TERMS, season.pruned, SEASON_TERMS, season.lower, COLUMN, season.upper, COLUMN, \
        season.outliers, COLUMN
#define SEASON_REPORT(answers_len) stakebook_season_report(words, 2, values, 0, READ, WRITTEN, answers, answers_len)
    for (size_t i = 0; i <= STAKEBOOK_STAKES; i++) season.counts[i] = 77, answers[i] = 77;
    for (size_t i = 0; i < SEASON_SUMS; i++) season.sums[i] = 7;
    /* an opening needs 32 counts and parts of 272 sums; it writes no 33rd count and nothing of what is nobody's */
    CHECK(stakebook_season_open(season.counts, STAKEBOOK_STAKES - 1, season.sums, SEASON_SUMS) == short_memory);
    CHECK(stakebook_season_open(COUNTS, season.sums, PLACES(STAKEBOOK_SUMS, 0) - 1) == short_memory && season.counts[0] == 77 && season.sums[0] == 7);
    CHECK(stakebook_season_open(season.counts, STAKEBOOK_STAKES + 1, season.sums, SEASON_SUMS) == 0);
    for (size_t i = 0; i < STAKEBOOK_STAKES; i++) CHECK(season.counts[i] == 0 && season.sums[i * STAKEBOOK_SUMS] == 0);
    CHECK(season.counts[STAKEBOOK_STAKES] == 77 && season.sums[PLACES(STAKEBOOK_SUMS, 0) - 1] == 0 && season.sums[PLACES(STAKEBOOK_SUMS, 0)] == 7);

    /* each stake's readings stand in its own places, and the count that is answered in its counts */
    for (size_t i = 0; i < ROOM; i++) {
        double x = (double)i;
        CHECK(stakebook_season_add(31, x, 1 + 2 * x, 1, COUNTS, KEPT) == i + 1 && season.counts[31] == i + 1);
        CHECK(stakebook_season_add(0, x, 5 - x, 2, COUNTS, KEPT) == i + 1 && season.counts[0] == i + 1);
    }
    CHECK(season.xs[1] == 1 && season.ys[1] == 4 && season.ws[1] == 2 && season.xs[31 * ROOM + 1] == 1 && season.ys[31 * ROOM + 1] == 3);
    CHECK(season.xs[ROOM] == 0 && season.ws[30 * ROOM] == 0 && season.ws[PLACES(ROOM, 0)] == 0 && season.counts[1] == 0);
    CHECK(season.sums[0] == 8 && season.sums[31 * STAKEBOOK_SUMS] == 4 && season.sums[30 * STAKEBOOK_SUMS] == 0);
    CHECK(stakebook_season_add(0, 9, 9, 1, COUNTS, KEPT) == (uint64_t)5 << 56 && season.counts[0] == ROOM);
    /* a full window slides, a withdrawal and a correction go back; frames and lines are the book's */
    CHECK(stakebook_season_add_window(31, 4, 9, 1, COUNTS, KEPT) == ROOM && season.xs[31 * ROOM] == 1 && season.xs[31 * ROOM + 3] == 4);
    CHECK(stakebook_season_withdraw(31, 3, COUNTS, KEPT) == 3 && season.counts[31] == 3);
    CHECK(stakebook_season_add_lines(31, (const uint8_t *)"4 8\n", 4, COUNTS, KEPT) == 4 && stakebook_season_correct(31, 3, 9, COUNTS, KEPT) == 4);
    CHECK(stakebook_season_add_frame(7, (const uint8_t *)"\0\1\2", 3, COUNTS, KEPT) == 0 && stakebook_season_carry(7, COUNTS, KEPT) == 0);

    /* what a report does not write is lent for the call and not cut, and is not written past its places */
    CHECK(stakebook_season_fit(31, 1, READ, season.coefficients, SEASON_TERMS) == 1 && season.coefficients[31 * STAKEBOOK_TERMS] == 1);
    CHECK(season.coefficients[31 * STAKEBOOK_TERMS + 1] == 2 && season.coefficients[0] == 0 && season.coefficients[PLACES(STAKEBOOK_TERMS, 0)] == 0);
    CHECK(stakebook_season_validate(0, 2, STAKEBOOK_CUSTOM_DEGREE, 1, STAKEBOOK_AIC, READ, season.coefficients, SEASON_TERMS) <= 1);
    CHECK(stakebook_season_band(31, 2, 1, STAKEBOOK_P95, 0, STAKEBOOK_NO_TOLERANCE, NAN, READ, numbers, 4) == 0 && numbers[0] == 5 && numbers[3] == 7);
    CHECK(stakebook_season_losses(31, words, 2, values, 0, READ, losses, ROOM, numbers, 2) == 1 && numbers[0] == 0 && numbers[3] == 7);
    CHECK(stakebook_degree(stakebook_season_scores(31, words, 2, values, 0, READ, solved, 16, scores, 16, least, 2)) == 1 && solved[1] == 1 && least[1] == 7);
    CHECK(stakebook_break(stakebook_season_split(31, words, 2, values, 0, SIZE_MAX, READ, sides[0], 16, sides[1], 16, total, 2)) == 2 && total[1] == 7);
    /* 18 before every other number, also before the 1 of numbers, least and total; with no counts and no places nothing is touched */
    const size_t above[3] = {STAKEBOOK_STAKES, 1000, SIZE_MAX};
    memcpy(&kept, &season, sizeof kept);
    for (size_t i = 0; i < 3; i++) {
        size_t stake = above[i];
        CHECK(stakebook_season_open_stake(stake, season.counts, 0, season.sums, 0) == no_stake);
        CHECK(stakebook_season_add(stake, NAN, 0, 0, season.counts, 0, KEPT) == no_stake && stakebook_season_withdraw(stake, 9, COUNTS, KEPT) == no_stake);
        CHECK(stakebook_season_add_frame(stake, (const uint8_t *)"", 0, COUNTS, KEPT) == no_stake);
        CHECK(stakebook_season_band(stake, NAN, 99, 0, 0, 0, 0, READ, numbers, 0) == no_stake);
        CHECK(stakebook_season_losses(stake, words, 2, values, 0, READ, losses, 0, numbers, 0) == no_stake);
        CHECK(stakebook_season_scores(stake, words, 2, values, 0, READ, solved, 0, scores, 0, least, 0) == no_stake);
        CHECK(stakebook_season_split(stake, words, 2, values, 0, 0, READ, sides[0], 0, sides[1], 0, total, 0) == no_stake);
        CHECK(stakebook_season_report_stake(stake, words, 0, values, 0, READ, WRITTEN) == no_stake);
    }
    CHECK(stakebook_season_band(31, NAN, 99, 0, 0, 0, 0, READ, numbers, 2) == short_memory);
    CHECK(stakebook_season_scores(31, words, 2, values, 0, READ, solved, 16, scores, 16, least, 0) == short_memory);
    CHECK(stakebook_season_split(31, words, 2, values, 0, 0, READ, sides[0], 16, sides[1], 16, total, 0) == short_memory);
    /* so is a season report with 31 places for its answers */
    CHECK(SEASON_REPORT(STAKEBOOK_STAKES - 1) == short_memory && answers[0] == 77 && memcmp(&kept, &season, sizeof kept) == 0);

    /* 32 answers and none past them: two stakes have readings, the others get 7 */
    CHECK(SEASON_REPORT(STAKEBOOK_STAKES + 1) == 2 && answers[STAKEBOOK_STAKES] == 77);
    for (size_t i = 0; i < STAKEBOOK_STAKES; i++) CHECK(stakebook_refusal(answers[i]) == (i == 0 || i == 31 ? 0 : 7));
    CHECK(answers[31] == stakebook_season_report_stake(31, words, 2, values, 0, READ, WRITTEN) && stakebook_degree(answers[31]) == 1);
    CHECK(season.coefficients[0] == 5 && season.coefficients[1] == -1 && season.coefficients[31 * STAKEBOOK_TERMS + 1] == 2);
    CHECK(season.upper[31 * ROOM] == 3 && season.upper[ROOM] == 0 && season.lower[PLACES(ROOM, 0)] == 0);
    /* fewer counts than stakes: 1 for each, and nothing is written */
    memcpy(before, answers, sizeof before);
    memcpy(&kept, &season, sizeof kept);
    CHECK(stakebook_season_report(words, 2, values, 0, season.counts, STAKEBOOK_STAKES - 1, KEPT, season.scratch, COLUMN, WRITTEN, answers, STAKEBOOK_STAKES) == 0);
    for (size_t i = 0; i < STAKEBOOK_STAKES; i++) CHECK(answers[i] == short_memory);
    CHECK(memcmp(&kept, &season, sizeof kept) == 0);
    /* one stake corrected between two reports: the others' answers and parts keep their bits */
    CHECK(stakebook_season_correct(0, 2, 40, COUNTS, KEPT) == ROOM && SEASON_REPORT(STAKEBOOK_STAKES) == 2);
    CHECK(memcmp(answers + 1, before + 1, 31 * sizeof *answers) == 0 && season.coefficients[0] != kept.coefficients[0]);
    CHECK(same_numbers(season.coefficients + STAKEBOOK_TERMS, kept.coefficients + STAKEBOOK_TERMS, SEASON_TERMS - STAKEBOOK_TERMS));
    CHECK(same_numbers(season.errors + STAKEBOOK_TERMS, kept.errors + STAKEBOOK_TERMS, SEASON_TERMS - STAKEBOOK_TERMS));
    CHECK(same_numbers(season.lower + ROOM, kept.lower + ROOM, COLUMN - ROOM) && same_numbers(season.upper + ROOM, kept.upper + ROOM, COLUMN - ROOM));
    CHECK(same_numbers(season.sums + STAKEBOOK_SUMS, kept.sums + STAKEBOOK_SUMS, SEASON_SUMS - STAKEBOOK_SUMS));
    CHECK(memcmp(season.outliers + ROOM, kept.outliers + ROOM, COLUMN - ROOM) == 0);
    /* one stake opened, and the others stay */
    CHECK(stakebook_season_open_stake(0, COUNTS, season.sums, SEASON_SUMS) == 0 && season.counts[0] == 0 && season.counts[31] == ROOM);
    CHECK(SEASON_REPORT(STAKEBOOK_STAKES) == 1 && answers[0] == (uint64_t)7 << 56 && answers[31] == before[31]);
}

static void *check_all(void *unused) {
    check_season();
    check_surface();
    check_weights();
    check_frames();
    check_window();
    check_replay();
    check_two_columns();
    check_carry();
    check_split_and_losses();
    check_scores();
    check_groups();
    return unused;
}

int main(void) {
    pthread_attr_t attributes;
    pthread_t thread;
    if (pthread_attr_init(&attributes) != 0 || pthread_attr_setstacksize(&attributes, STACK) != 0 ||
        pthread_create(&thread, &attributes, check_all, NULL) != 0 || pthread_join(thread, NULL) != 0) {
        puts("C interface: no thread of that stack");
        return 1;
    }
    printf("C interface: %d checks in a thread of %d KB of stack, %d failed\n", checks, STACK / 1024, failures);
    return failures != 0;
}
