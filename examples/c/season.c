/* A season of one stake through the C interface: depth in m, density in kg/m3, and as weight how many people dug. It prints each answer and number as
 * the program `journal` does (docs/JOURNAL.md), so that its output can be compared, bit for bit, with what the judge prints for season.calls. */
#include "printed.h"

#define ROOM 20

/* all memory of a book, and of what is read from it */
static double xs[ROOM], ys[ROOM], ws[ROOM], sums[STAKEBOOK_SUMS], scratch[ROOM];
static double coefficients[STAKEBOOK_TERMS], errors[STAKEBOOK_TERMS], lower[ROOM], upper[ROOM];
static uint8_t pruned[STAKEBOOK_TERMS], outliers[ROOM];
static size_t count;

static void changed(uint64_t answer) { count = changed_count(count, answer); }

/* what an observer wrote, without the NUL at the end of the string */
static void add_lines(const char *text) {
    changed(stakebook_add_lines(count, (const uint8_t *)text, strlen(text), xs, ROOM, ys, ROOM, ws, ROOM, sums, STAKEBOOK_SUMS));
}

static void add(double depth, double density, double weight) {
    changed(stakebook_add(count, depth, density, weight, xs, ROOM, ys, ROOM, ws, ROOM, sums, STAKEBOOK_SUMS));
}

static void reported(uint64_t answer) {
    if (refused(answer)) return;
    printf("report %u %u %u %u\n", stakebook_degree(answer), stakebook_solved(answer), stakebook_outliers(answer), stakebook_pruned(answer));
    print_numbers("coefficients", coefficients, STAKEBOOK_TERMS);
    print_numbers("errors", errors, STAKEBOOK_TERMS);
    print_bytes("pruned", pruned, STAKEBOOK_TERMS);
    print_numbers("lower", lower, count);
    print_numbers("upper", upper, count);
    print_bytes("outliers", outliers, count);
}

/* degrees 0 to 3, AIC, P95 */
static void report(void) {
    reported(stakebook_report(count, STAKEBOOK_CUSTOM_DEGREE, 3, STAKEBOOK_AIC, STAKEBOOK_P95, 0, STAKEBOOK_NO_TOLERANCE, 0, xs, ROOM, ys, ROOM, ws,
                              ROOM, sums, STAKEBOOK_SUMS, scratch, ROOM, coefficients, STAKEBOOK_TERMS, errors, STAKEBOOK_TERMS, pruned,
                              STAKEBOOK_TERMS, lower, ROOM, upper, ROOM, outliers, ROOM));
}

/* the same, pruning by size: bound, most, criterion, confidence, tolerance, pruning; score, value */
static void report_by_size(void) {
    static const uint32_t words[] = {STAKEBOOK_CUSTOM_DEGREE, 3, STAKEBOOK_AIC, STAKEBOOK_P95, STAKEBOOK_NO_TOLERANCE, STAKEBOOK_BY_SIZE};
    static const double values[] = {0, 0};
    reported(stakebook_report_by(count, words, 6, values, 2, xs, ROOM, ys, ROOM, ws, ROOM, sums, STAKEBOOK_SUMS, scratch, ROOM, coefficients,
                                 STAKEBOOK_TERMS, errors, STAKEBOOK_TERMS, pruned, STAKEBOOK_TERMS, lower, ROOM, upper, ROOM, outliers, ROOM));
}

static void fitted(uint64_t answer) {
    if (refused(answer)) return;
    printf("fit %u\n", stakebook_degree(answer));
    print_numbers("coefficients", coefficients, STAKEBOOK_TERMS);
}

static void band(double depth, size_t degree) {
    double numbers[STAKEBOOK_BAND];
    uint64_t answer = stakebook_band(count, depth, degree, STAKEBOOK_CUSTOM_SCORE, 2.0, STAKEBOOK_ABSOLUTE, 5.0, xs, ROOM, ys, ROOM, ws, ROOM,
                                     sums, STAKEBOOK_SUMS, scratch, ROOM, numbers, STAKEBOOK_BAND);
    if (!refused(answer)) print_numbers("band", numbers, STAKEBOOK_BAND);
}

int main(void) {
    /* the samples of two logger readings, 1.3 m 331 kg/m3 and 1.5 m 358 kg/m3, as a frame */
    static const uint8_t frame[] = {0x00, 0x21, 0x01, 0x3F, 0xF4, 0xCC, 0xCC, 0xCC, 0xCC, 0xCC, 0xCD, 0x40, 0x74, 0xB0, 0x00, 0x00, 0x00, 0x00,
                                    0x00, 0x3F, 0xF8, 0x00, 0x00, 0x00, 0x00, 0x00, 0x00, 0x40, 0x76, 0x60, 0x00, 0x00, 0x00, 0x00, 0x00};
    changed(stakebook_open(sums, STAKEBOOK_SUMS));
    report();
    add(0.1, 212, 1);
    add(0.3, 240.5, 1);
    add(0.5, 251, 1);
    add(0.7, 287, 1);
    add(0.9, 290, 1);
    add(1.1, 322.5, 1);
    report();
    changed(stakebook_add_frame(count, frame, sizeof frame, xs, ROOM, ys, ROOM, ws, ROOM, sums, STAKEBOOK_SUMS));
    /* a density was mistyped: 287 is 278 */
    changed(stakebook_correct(count, 3, 278, xs, ROOM, ys, ROOM, ws, ROOM, sums, STAKEBOOK_SUMS));
    report();
    /* the fifth sample was taken in a wind slab: it goes */
    changed(stakebook_withdraw(count, 4, xs, ROOM, ys, ROOM, ws, ROOM, sums, STAKEBOOK_SUMS));
    changed(stakebook_withdraw(count, 7, xs, ROOM, ys, ROOM, ws, ROOM, sums, STAKEBOOK_SUMS));
    fitted(stakebook_fit(count, 1, xs, ROOM, ys, ROOM, ws, ROOM, sums, STAKEBOOK_SUMS, scratch, ROOM, coefficients, STAKEBOOK_TERMS));
    fitted(stakebook_validate(count, 3, STAKEBOOK_CUSTOM_DEGREE, 2, STAKEBOOK_BIC, xs, ROOM, ys, ROOM, ws, ROOM, sums, STAKEBOOK_SUMS, scratch, ROOM,
                              coefficients, STAKEBOOK_TERMS));
    band(1, 1);
    band(2, 1);
    /* the observer's own lines; sent from elsewhere, with a CR at their ends, they are refused */
    add_lines("1.70 349.5\n1.90 377\n");
    add_lines("2.10 391\r\n");
    report();

    /* a pit dug by two people counts twice; one that nobody dug is refused */
    add(2.1, 391, 2);
    add(2.3, 402, 0);
    /* a frame of version 2 has the weights: 2.3 m 402 kg/m3, which counts half */
    static const uint8_t weighted[] = {0x00, 0x19, 0x02, 0x40, 0x02, 0x66, 0x66, 0x66, 0x66, 0x66, 0x66, 0x40, 0x79,
                                       0x20, 0x00, 0x00, 0x00, 0x00, 0x00, 0x3F, 0xE0, 0x00, 0x00, 0x00, 0x00, 0x00, 0x00};
    changed(stakebook_add_frame(count, weighted, sizeof weighted, xs, ROOM, ys, ROOM, ws, ROOM, sums, STAKEBOOK_SUMS));
    print_numbers("ws", ws, count);
    report_by_size();
    /* a correction keeps the weight, and a withdrawal moves the later ones */
    changed(stakebook_correct(count, 9, 388, xs, ROOM, ys, ROOM, ws, ROOM, sums, STAKEBOOK_SUMS));
    changed(stakebook_withdraw(count, 0, xs, ROOM, ys, ROOM, ws, ROOM, sums, STAKEBOOK_SUMS));
    print_numbers("ws", ws, count);
    report_by_size();
    fitted(stakebook_validate(count, 5, STAKEBOOK_CUSTOM_DEGREE, 2, STAKEBOOK_AIC, xs, ROOM, ys, ROOM, ws, ROOM, sums, STAKEBOOK_SUMS, scratch, ROOM,
                              coefficients, STAKEBOOK_TERMS));
    band(2.2, 1);
    return 0;
}
