/* A station that updates in mid season. Its book was begun with the calls of two columns, which have no weights; the new program finds the samples loaded,
 * carries the book over and goes on with weights. It prints each answer and number as the program `journal` does, so that its output can be compared, bit
 * for bit, with what the judge prints for update.calls: there the book has three columns from the start, and the first samples have weight 1. */
#include <math.h>

#include "printed.h"

#define ROOM 20

/* what the station keeps: its count, two columns and their sums */
static size_t count;
static double xs[ROOM], ys[ROOM], sums[STAKEBOOK_SUMS];

/* what the new program has besides: the column of weights, no shorter than the others, and room for a report */
static double ws[ROOM], scratch[ROOM], coefficients[STAKEBOOK_TERMS], errors[STAKEBOOK_TERMS], lower[ROOM], upper[ROOM];
static uint8_t pruned[STAKEBOOK_TERMS], outliers[ROOM];

static void changed(uint64_t answer) { count = changed_count(count, answer); }

/* ---- the program of spring: depth in m, density in kg/m3 */

static void add(double depth, double density) {
    changed(stakebook_two_column_add(count, depth, density, xs, ROOM, ys, ROOM, sums, STAKEBOOK_SUMS));
}

static void spring(void) {
    /* 1.3 m 331 kg/m3 and 1.5 m 358 kg/m3 */
    static const uint8_t frame[] = {0x00, 0x21, 0x01, 0x3F, 0xF4, 0xCC, 0xCC, 0xCC, 0xCC, 0xCC, 0xCD, 0x40, 0x74, 0xB0, 0x00, 0x00, 0x00, 0x00,
                                    0x00, 0x3F, 0xF8, 0x00, 0x00, 0x00, 0x00, 0x00, 0x00, 0x40, 0x76, 0x60, 0x00, 0x00, 0x00, 0x00, 0x00};
    changed(stakebook_two_column_open(sums, STAKEBOOK_SUMS));
    add(0.1, 212);
    add(0.3, 240.5);
    add(0.5, 251);
    add(0.7, NAN);
    add(0.7, 287);
    add(0.9, 290);
    changed(stakebook_two_column_add_frame(count, frame, sizeof frame, xs, ROOM, ys, ROOM, sums, STAKEBOOK_SUMS));
    changed(stakebook_two_column_correct(count, 3, 278, xs, ROOM, ys, ROOM, sums, STAKEBOOK_SUMS));
    changed(stakebook_two_column_withdraw(count, 4, xs, ROOM, ys, ROOM, sums, STAKEBOOK_SUMS));
    changed(stakebook_two_column_withdraw(count, 6, xs, ROOM, ys, ROOM, sums, STAKEBOOK_SUMS));
}

/* ---- the update */

static void update(void) {
    /* what stands in the new column doesn't matter */
    for (size_t i = 0; i < ROOM; i++) ws[i] = NAN;
    /* too few weights for the samples: refused, and the book is still one of two columns */
    changed(stakebook_carry(count, xs, ROOM, ys, ROOM, ws, 3, sums, STAKEBOOK_SUMS));
    changed(stakebook_carry(count, xs, ROOM, ys, ROOM, ws, ROOM, sums, STAKEBOOK_SUMS));
    print_numbers("ws", ws, count);
}

/* ---- the program of summer: as weight, how many people dug */

static void add_weighted(double depth, double density, double weight) {
    changed(stakebook_add(count, depth, density, weight, xs, ROOM, ys, ROOM, ws, ROOM, sums, STAKEBOOK_SUMS));
}

/* degrees 0 to 3, AIC, P95 */
static void report(void) {
    uint64_t answer = stakebook_report(count, STAKEBOOK_CUSTOM_DEGREE, 3, STAKEBOOK_AIC, STAKEBOOK_P95, 0, STAKEBOOK_NO_TOLERANCE, 0, xs, ROOM, ys,
                                       ROOM, ws, ROOM, sums, STAKEBOOK_SUMS, scratch, ROOM, coefficients, STAKEBOOK_TERMS, errors, STAKEBOOK_TERMS,
                                       pruned, STAKEBOOK_TERMS, lower, ROOM, upper, ROOM, outliers, ROOM);
    if (refused(answer)) return;
    printf("report %u %u %u %u\n", stakebook_degree(answer), stakebook_solved(answer), stakebook_outliers(answer), stakebook_pruned(answer));
    print_numbers("coefficients", coefficients, STAKEBOOK_TERMS);
    print_numbers("errors", errors, STAKEBOOK_TERMS);
    print_numbers("lower", lower, count);
    print_numbers("upper", upper, count);
    print_bytes("outliers", outliers, count);
}

static void summer(void) {
    static const char lines[] = "1.70 349.5\n1.90 377\n";
    report();
    add_weighted(2.1, 391, 2);
    add_weighted(2.3, 402, 0);
    add_weighted(2.3, 402, 0.5);
    changed(stakebook_add_lines(count, (const uint8_t *)lines, sizeof lines - 1, xs, ROOM, ys, ROOM, ws, ROOM, sums, STAKEBOOK_SUMS));
    /* a sample of spring is corrected, and one is withdrawn */
    changed(stakebook_correct(count, 1, 238, xs, ROOM, ys, ROOM, ws, ROOM, sums, STAKEBOOK_SUMS));
    changed(stakebook_withdraw(count, 0, xs, ROOM, ys, ROOM, ws, ROOM, sums, STAKEBOOK_SUMS));
    print_numbers("ws", ws, count);
    report();
    print_numbers("sums", sums, STAKEBOOK_SUMS);
}

int main(void) {
    spring();
    update();
    summer();
    return 0;
}
