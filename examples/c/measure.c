/* Prints the figures that README.md and stakebook.h give, of the library that it is linked with: make -C examples/c measure
 * Outliers among clean readings, the bounds by name, the degrees that raw years and times leave unsolved, and stack and time of each call at
 * n 4,096, and what a limit of a split costs. It takes a minute. */
#define _XOPEN_SOURCE 700
#include <math.h>
#include <stdio.h>
#include <string.h>
#include <time.h>
#include <ucontext.h>

#include "stakebook.h"

#define ROOM STAKEBOOK_MOST

static double xs[ROOM], ys[ROOM], ws[ROOM], sums[STAKEBOOK_SUMS], scratch[ROOM], numbers[STAKEBOOK_BAND], sample[STAKEBOOK_SAMPLE];
static double coefficients[STAKEBOOK_TERMS], errors[STAKEBOOK_TERMS], lower[ROOM], upper[ROOM];
static uint8_t pruned[STAKEBOOK_TERMS], outliers[ROOM], frame[3 + 16 * 4095], weighted[3 + 24 * 2730], text[11 * ROOM];
static size_t count;

/* what is lent for a list of no values: it is not read, and must not be NULL */
static const double no_values[1];

static uint64_t add(double x, double y) {
    uint64_t answer = stakebook_add(count, x, y, 1, xs, ROOM, ys, ROOM, ws, ROOM, sums, STAKEBOOK_SUMS);
    if (stakebook_refusal(answer) == 0) count = stakebook_count(answer);
    return answer;
}

static void opened(void) { count = stakebook_count(stakebook_open(sums, STAKEBOOK_SUMS)); }

static uint64_t fit(size_t degree) {
    return stakebook_fit(count, degree, xs, ROOM, ys, ROOM, ws, ROOM, sums, STAKEBOOK_SUMS, scratch, ROOM, coefficients, STAKEBOOK_TERMS);
}

static uint64_t validate(size_t folds, size_t most) {
    return stakebook_validate(count, folds, STAKEBOOK_CUSTOM_DEGREE, most, STAKEBOOK_AIC, xs, ROOM, ys, ROOM, ws, ROOM, sums, STAKEBOOK_SUMS, scratch, ROOM,
                              coefficients, STAKEBOOK_TERMS);
}

static uint64_t band(size_t degree) {
    return stakebook_band(count, xs[count / 2], degree, STAKEBOOK_P95, 0, STAKEBOOK_VARIANCE, 0.1, xs, ROOM, ys, ROOM, ws, ROOM, sums, STAKEBOOK_SUMS, scratch,
                          ROOM, numbers, STAKEBOOK_BAND);
}

/* what a report is lent */
#define LENT                                                                                                                                          \
    xs, ROOM, ys, ROOM, ws, ROOM, sums, STAKEBOOK_SUMS, scratch, ROOM, coefficients, STAKEBOOK_TERMS, errors, STAKEBOOK_TERMS, pruned, STAKEBOOK_TERMS, \
        lower, ROOM, upper, ROOM, outliers, ROOM

static uint64_t report(uint32_t bound, size_t most, uint32_t tolerance, double value) {
    return stakebook_report(count, bound, most, STAKEBOOK_AIC, STAKEBOOK_P95, 0, tolerance, value, LENT);
}

/* ---- readings */

static uint64_t state = 1;

/* even in (0, 1), by splitmix64 */
static double even(void) {
    uint64_t z = state += 0x9E3779B97F4A7C15u;
    z = (z ^ z >> 30) * 0xBF58476D1CE4E5B9u;
    z = (z ^ z >> 27) * 0x94D049BB133111EBu;
    return ((double)((z ^ z >> 31) >> 11) + 0.5) / 9007199254740992.0;
}

static double gaussian(void) { return sqrt(-2 * log(even())) * cos(6.283185307179586 * even()); }

/* n readings with x even from first to last, on a line from 200 to 300 with Gaussian noise of standard deviation 10 */
static void season(size_t n, double first, double last) {
    opened();
    for (size_t i = 0; i < n; i++) {
        double share = n < 2 ? 0 : (double)i / (double)(n - 1);
        add(first + (last - first) * share, 200 + 100 * share + 10 * gaussian());
    }
}

/* reports with Custom 1, AIC and P95, and a tolerance in the unit of y */
static void show_outliers(size_t n, int times, uint32_t tolerance, double value) {
    double marked = 0;
    int lines = 0;
    for (int i = 0; i < times; i++) {
        season(n, 0, 1);
        uint64_t answer = report(STAKEBOOK_CUSTOM_DEGREE, 1, tolerance, value);
        marked += stakebook_outliers(answer);
        lines += stakebook_degree(answer) == 1;
    }
    printf("clean readings marked as outliers, n %zu", n);
    if (tolerance == STAKEBOOK_ABSOLUTE) printf(", absolute %g", value);
    printf(": %.1f %% (%d books, %d with degree 1)\n", 100 * marked / (double)n / times, times, lines);
}

/* the number of readings from which a bound by name is each degree: with x in [-1, 1] every degree is solved, so that it is their number less 1 */
static void show_bound(const char *name, uint32_t bound) {
    unsigned last = 0;
    printf("%s:", name);
    for (size_t n = 1; n <= ROOM; n++) {
        season(n, -1, 1);
        uint64_t answer = report(bound, 0, STAKEBOOK_NO_TOLERANCE, 0);
        if (stakebook_refusal(answer) != 0) {
            printf(" refused by %u from n %zu", stakebook_refusal(answer), n);
            break;
        }
        if (stakebook_solved(answer) - 1 != last) printf(" degree %u from n %zu,", last = stakebook_solved(answer) - 1, n);
    }
    printf("\n");
}

static void show_unsolved(const char *name, size_t n, double first, double last) {
    season(n, first, last);
    printf("%s, n %zu, x %.17g to %.17g: unsolved degrees", name, n, first, last);
    for (size_t degree = 0; degree < STAKEBOOK_TERMS && degree < n; degree++)
        if (stakebook_refusal(fit(degree)) == 10) printf(" %zu", degree);
    printf("\n");
}

/* ---- stack and time */

static void nothing(void) {}
static void one_open(void) { stakebook_open(sums, STAKEBOOK_SUMS); }
static void one_add(void) { stakebook_add(count - 1, 0.5, 1, 0.3, xs, ROOM, ys, ROOM, ws, ROOM, sums, STAKEBOOK_SUMS); }
static void one_correct(void) { stakebook_correct(count, 0, 1, xs, ROOM, ys, ROOM, ws, ROOM, sums, STAKEBOOK_SUMS); }
static void two_column_withdraw(void) { stakebook_two_column_withdraw(count, 0, xs, ROOM, ys, ROOM, sums, STAKEBOOK_SUMS); }
static void one_withdraw(void) { stakebook_withdraw(count, 0, xs, ROOM, ys, ROOM, ws, ROOM, sums, STAKEBOOK_SUMS); }
static void one_window(void) { stakebook_add_window(count, 0.5, 1, 0.3, xs, ROOM, ys, ROOM, ws, ROOM, sums, STAKEBOOK_SUMS); }
static void one_frame(void) { stakebook_add_frame(0, frame, sizeof frame, xs, ROOM, ys, ROOM, ws, ROOM, sums, STAKEBOOK_SUMS); }
static void one_weighted(void) { stakebook_add_frame(0, weighted, sizeof weighted, xs, ROOM, ys, ROOM, ws, ROOM, sums, STAKEBOOK_SUMS); }
static void one_text(void) { stakebook_add_lines(0, text, sizeof text, xs, ROOM, ys, ROOM, ws, ROOM, sums, STAKEBOOK_SUMS); }
static void one_fit(void) { fit(15); }
static void one_band(void) { band(15); }
static void one_report(void) { report(STAKEBOOK_CUSTOM_DEGREE, 15, STAKEBOOK_VARIANCE, 0.1); }
static void one_report_by(void) {
    static const uint32_t settings[] = {STAKEBOOK_CUSTOM_DEGREE, 15, STAKEBOOK_AIC, STAKEBOOK_P95, STAKEBOOK_VARIANCE, STAKEBOOK_BY_SIZE};
    static const double values[] = {0, 0.1};
    stakebook_report_by(count, settings, 6, values, 2, LENT);
}
/* surfaces over the same x's, with a second coordinate of their own */
static double zs[ROOM];
static void surface_fit(void) { stakebook_surface_fit(count, 4, xs, ROOM, zs, ROOM, ys, ROOM, scratch, ROOM, coefficients, STAKEBOOK_TERMS); }
static void surface_report(void) {
    static const uint32_t settings[] = {STAKEBOOK_CUSTOM_DEGREE, 4, STAKEBOOK_AIC, STAKEBOOK_P95, STAKEBOOK_VARIANCE, STAKEBOOK_BY_SIZE};
    static const double values[] = {0, 0.1};
    stakebook_surface_report(count, settings, 6, values, 2, xs, ROOM, zs, ROOM, ys, ROOM, scratch, ROOM, coefficients, STAKEBOOK_TERMS, errors,
                             STAKEBOOK_TERMS, pruned, STAKEBOOK_TERMS, lower, ROOM, upper, ROOM, outliers, ROOM);
}
static void surface_band(void) {
    double numbers[STAKEBOOK_BAND];
    stakebook_surface_band(count, 0.1, 0.5, 4, STAKEBOOK_P95, 0, STAKEBOOK_NO_TOLERANCE, 0, xs, ROOM, zs, ROOM, ys, ROOM, scratch, ROOM, numbers,
                           STAKEBOOK_BAND);
}
/* of a group whose allowance never ends */
static size_t table[STAKEBOOK_TABLE];
static void group_report(void) {
    const uint32_t words[] = {STAKEBOOK_CUSTOM_DEGREE, 15};
    stakebook_group_report(0, count, words, 2, no_values, 0, LENT, table, STAKEBOOK_TABLE);
}
static void group_surface_report(void) {
    const uint32_t words[] = {STAKEBOOK_CUSTOM_DEGREE, 4};
    stakebook_group_surface_report(0, count, words, 2, no_values, 0, xs, ROOM, zs, ROOM, ys, ROOM, scratch, ROOM, coefficients, STAKEBOOK_TERMS, errors,
                                   STAKEBOOK_TERMS, pruned, STAKEBOOK_TERMS, lower, ROOM, upper, ROOM, outliers, ROOM, table, STAKEBOOK_TABLE);
}
static void group_split(void) {
    const uint32_t words[] = {STAKEBOOK_CUSTOM_DEGREE, 3};
    stakebook_group_split(0, count, words, 2, no_values, 0, xs, ROOM, ys, ROOM, ws, ROOM, sums, STAKEBOOK_SUMS, scratch, ROOM, coefficients,
                          STAKEBOOK_TERMS, errors, STAKEBOOK_TERMS, numbers, 1, table, STAKEBOOK_TABLE);
}
/* a season book, of which stake 31 has the book's readings and the others none */
#define WHOLE (STAKEBOOK_STAKES * ROOM)
static size_t counts[STAKEBOOK_STAKES];
static double all_xs[WHOLE], all_ys[WHOLE], all_ws[WHOLE], all_sums[STAKEBOOK_STAKES * STAKEBOOK_SUMS], all_scratch[WHOLE], all_lower[WHOLE], all_upper[WHOLE];
static double all_coefficients[STAKEBOOK_STAKES * STAKEBOOK_TERMS], all_errors[STAKEBOOK_STAKES * STAKEBOOK_TERMS];
static uint8_t all_pruned[STAKEBOOK_STAKES * STAKEBOOK_TERMS], all_outliers[WHOLE];
static uint64_t answers[STAKEBOOK_STAKES];
static const uint32_t up_to_15[] = {STAKEBOOK_CUSTOM_DEGREE, 15};
#define SEASON counts, STAKEBOOK_STAKES, all_xs, WHOLE, all_ys, WHOLE, all_ws, WHOLE, all_sums, STAKEBOOK_STAKES * STAKEBOOK_SUMS
#define SEASON_READ SEASON, all_scratch, WHOLE
#define SEASON_WRITTEN                                                                                                                             \
    all_coefficients, STAKEBOOK_STAKES *STAKEBOOK_TERMS, all_errors, STAKEBOOK_STAKES *STAKEBOOK_TERMS, all_pruned, STAKEBOOK_STAKES *STAKEBOOK_TERMS, \
        all_lower, WHOLE, all_upper, WHOLE, all_outliers, WHOLE
static void season_open(void) { stakebook_season_open(counts, STAKEBOOK_STAKES, all_sums, STAKEBOOK_STAKES * STAKEBOOK_SUMS); }
static void season_window(void) { stakebook_season_add_window(31, 0.5, 1, 0.3, SEASON); }
static void season_correct(void) { stakebook_season_correct(31, ROOM / 2, 1, SEASON); }
static void season_fit(void) { stakebook_season_fit(31, 15, SEASON_READ, all_coefficients, STAKEBOOK_STAKES * STAKEBOOK_TERMS); }
static void season_validate(void) {
    stakebook_season_validate(31, 10, STAKEBOOK_CUSTOM_DEGREE, 15, STAKEBOOK_AIC, SEASON_READ, all_coefficients, STAKEBOOK_STAKES * STAKEBOOK_TERMS);
}
static void season_band(void) {
    stakebook_season_band(31, 0.5, 15, STAKEBOOK_P95, 0, STAKEBOOK_VARIANCE, 0.1, SEASON_READ, numbers, STAKEBOOK_BAND);
}
static void season_losses(void) { stakebook_season_losses(31, up_to_15, 2, no_values, 0, SEASON_READ, lower, ROOM, numbers, STAKEBOOK_LOSSES); }
static void season_scores(void) {
    stakebook_season_scores(31, up_to_15, 2, no_values, 0, SEASON_READ, pruned, STAKEBOOK_TERMS, errors, STAKEBOOK_TERMS, numbers, 1);
}
static void season_split(void) {
    static const uint32_t up_to_3[] = {STAKEBOOK_CUSTOM_DEGREE, 3};
    stakebook_season_split(31, up_to_3, 2, no_values, 0, SIZE_MAX, SEASON_READ, coefficients, STAKEBOOK_TERMS, errors, STAKEBOOK_TERMS, numbers, 1);
}
static void season_report_stake(void) { stakebook_season_report_stake(31, up_to_15, 2, no_values, 0, SEASON_READ, SEASON_WRITTEN); }
static void season_report(void) { stakebook_season_report(up_to_15, 2, no_values, 0, SEASON_READ, SEASON_WRITTEN, answers, STAKEBOOK_STAKES); }
/* settings by two lists: Custom `most`, AIC */
static uint64_t split(uint32_t most) {
    const uint32_t words[] = {STAKEBOOK_CUSTOM_DEGREE, most};
    return stakebook_split(count, words, 2, no_values, 0, SIZE_MAX, xs, ROOM, ys, ROOM, ws, ROOM, sums, STAKEBOOK_SUMS, scratch, ROOM, coefficients,
                           STAKEBOOK_TERMS, errors, STAKEBOOK_TERMS, numbers, 1);
}
static void split_3(void) { split(3); }
static void split_8(void) { split(8); }
static void split_15(void) { split(15); }
static void one_losses(void) {
    const uint32_t words[] = {STAKEBOOK_CUSTOM_DEGREE, 15};
    stakebook_losses(count, words, 2, no_values, 0, xs, ROOM, ys, ROOM, ws, ROOM, sums, STAKEBOOK_SUMS, scratch, ROOM, lower, ROOM, numbers, 2);
}
static void one_scores(void) {
    const uint32_t words[] = {STAKEBOOK_CUSTOM_DEGREE, 15};
    stakebook_scores(count, words, 2, no_values, 0, xs, ROOM, ys, ROOM, ws, ROOM, sums, STAKEBOOK_SUMS, scratch, ROOM, pruned, STAKEBOOK_TERMS,
                     coefficients, STAKEBOOK_TERMS, numbers, 1);
}
static void one_reader(void) { stakebook_reader(frame, sizeof frame); }
static void one_next(void) { stakebook_next(weighted, sizeof weighted, 3, sample, STAKEBOOK_SAMPLE); }
static void ten_folds(void) { validate(10, 15); }
static void all_folds_3(void) { validate(ROOM, 3); }
static void all_folds_15(void) { validate(ROOM, 15); }

/* 16 adds and a report up to degree 15, in windows of 17 places */
#define CALLS 17
static uint32_t kinds[5 * CALLS];
static size_t words[9 * CALLS], results[5 * CALLS];
static double given[5 * CALLS], replayed_c[CALLS * CALLS], replayed_e[CALLS * CALLS];
static uint8_t replayed_p[CALLS * CALLS];

static void listed(void) {
    for (size_t k = 0; k < 16; k++) {
        given[5 * k] = given[5 * k + 1] = (double)k / 8 - 1;
        given[5 * k + 2] = 1;
    }
    const uint32_t kind[5] = {3, STAKEBOOK_CUSTOM_DEGREE, STAKEBOOK_AIC, STAKEBOOK_P95, STAKEBOOK_VARIANCE};
    memcpy(kinds + 5 * 16, kind, sizeof kind);
    const size_t word[9] = {0, 15, 16, 16, 16, 16, 16, 16, 16};
    memcpy(words + 9 * 16, word, sizeof word);
    given[5 * 16 + 4] = 0.1;
}

static void one_replay(void) {
    stakebook_replay(kinds, 5 * CALLS, words, 9 * CALLS, given, 5 * CALLS, CALLS, xs, ROOM, ys, ROOM, ws, ROOM, sums, STAKEBOOK_SUMS, results, 5 * CALLS,
                     scratch, ROOM, replayed_c, CALLS * CALLS, replayed_e, CALLS * CALLS, replayed_p, CALLS * CALLS, lower, ROOM, upper, ROOM, outliers,
                     ROOM);
}

#define STACK (1 << 20)
static unsigned char stack[STACK];
static ucontext_t here, there;

/* runs a call on a stack of its own, painted before: the bytes down to the deepest that is no longer as painted */
static size_t depth(void (*call)(void)) {
    memset(stack, 0xA5, STACK);
    getcontext(&there);
    there.uc_stack.ss_sp = stack;
    there.uc_stack.ss_size = STACK;
    there.uc_link = &here;
    makecontext(&there, call, 0);
    swapcontext(&here, &there);
    size_t clean = 0;
    while (clean < STACK && stack[clean] == 0xA5) clean++;
    return STACK - clean;
}

/* of the processor, so that other work beside it counts little */
static double seconds(void) {
    struct timespec now;
    clock_gettime(CLOCK_PROCESS_CPUTIME_ID, &now);
    return (double)now.tv_sec + (double)now.tv_nsec / 1e9;
}

/* the stack of one call, and the best time of so many */
static void show_cost(const char *name, void (*call)(void), int times) {
    double best = INFINITY;
    season(ROOM, -1, 1);
    size_t used = depth(call) - depth(nothing);
    for (int i = 0; i < times; i++) {
        season(ROOM, -1, 1);
        double begun = seconds();
        call();
        double took = seconds() - begun;
        if (took < best) best = took;
    }
    printf("%s: %zu bytes of stack, %.3f ms\n", name, used, 1000 * best);
}

int main(void) {
    show_outliers(10, 20000, STAKEBOOK_NO_TOLERANCE, NAN);
    show_outliers(30, 10000, STAKEBOOK_NO_TOLERANCE, NAN);
    show_outliers(100, 5000, STAKEBOOK_NO_TOLERANCE, NAN);
    show_outliers(1000, 1000, STAKEBOOK_NO_TOLERANCE, NAN);
    /* twice the noise's standard deviation */
    show_outliers(10, 20000, STAKEBOOK_ABSOLUTE, 20);
    show_outliers(100, 5000, STAKEBOOK_ABSOLUTE, 20);
    show_bound("conservative", STAKEBOOK_CONSERVATIVE);
    show_bound("relaxed", STAKEBOOK_RELAXED);
    show_bound("aggressive", STAKEBOOK_AGGRESSIVE);
    show_unsolved("years", 21, 2000, 2020);
    show_unsolved("the same less 2010", 21, -10, 10);
    show_unsolved("Unix seconds of a year's days", 366, 1704067200, 1735603200);
    show_unsolved("the same less their middle", 366, -15768000, 15768000);
    show_unsolved("Unix seconds of twenty years' months", 241, 946684800, 1577836800);
    show_unsolved("depth in m", 40, 0.05, 2);
    show_unsolved("day of year", 365, 1, 365);
    show_unsolved("elevation in m", 30, 2400, 3300);
    show_unsolved("from -1 to 1", 40, -1, 1);

    /* a frame of 4,095 readings, all (1, 1), and one of version 2 of 2,730, as many as its length can count, all of weight 1 */
    const uint8_t one[8] = {0x3F, 0xF0};
    frame[0] = (uint8_t)((sizeof frame - 2) >> 8);
    frame[1] = (uint8_t)((sizeof frame - 2) & 0xFF);
    frame[2] = 1;
    for (size_t i = 3; i < sizeof frame; i += 8) memcpy(frame + i, one, 8);
    weighted[0] = (uint8_t)((sizeof weighted - 2) >> 8);
    weighted[1] = (uint8_t)((sizeof weighted - 2) & 0xFF);
    weighted[2] = 2;
    for (size_t i = 3; i < sizeof weighted; i += 8) memcpy(weighted + i, one, 8);
    /* a text of 4,096 lines, all the same */
    for (size_t i = 0; i < sizeof text; i += 11) memcpy(text + i, "0.25 212.5\n", 11);
    puts("at n 4,096:");
    show_cost("open", one_open, 100);
    show_cost("add", one_add, 100);
    show_cost("correct", one_correct, 100);
    show_cost("withdraw", one_withdraw, 100);
    show_cost("withdraw from two columns", two_column_withdraw, 100);
    show_cost("add_window, full", one_window, 100);
    show_cost("add_frame", one_frame, 100);
    show_cost("add_frame of version 2 with 2,730 samples", one_weighted, 100);
    show_cost("add_lines", one_text, 100);
    show_cost("fit of degree 15", one_fit, 100);
    show_cost("band of degree 15", one_band, 100);
    show_cost("report up to degree 15", one_report, 100);
    show_cost("report_by up to degree 15", one_report_by, 100);
    show_cost("reader", one_reader, 100);
    show_cost("next", one_next, 100);
    listed();
    show_cost("replay of 16 adds and a report of these up to degree 15", one_replay, 100);
    if (results[5 * 16] != 0) printf("the replay's report was refused by %zu\n", results[5 * 16]);
    show_cost("validate in 10 folds up to degree 15", ten_folds, 20);
    show_cost("validate in 4,096 folds up to degree 3", all_folds_3, 3);
    show_cost("validate in 4,096 folds up to degree 15", all_folds_15, 3);
    show_cost("losses up to degree 15", one_losses, 100);
    show_cost("scores up to degree 15", one_scores, 100);
    for (size_t i = 0; i < ROOM; i++) zs[i] = even();
    show_cost("surface_fit of total degree 4", surface_fit, 100);
    show_cost("surface_band of total degree 4", surface_band, 100);
    show_cost("surface_report up to total degree 4", surface_report, 100);
    stakebook_start(SIZE_MAX, table, STAKEBOOK_TABLE);
    show_cost("group_report up to degree 15", group_report, 100);
    show_cost("group_surface_report up to total degree 4", group_surface_report, 100);
    show_cost("group_split up to degree 3", group_split, 3);
    show_cost("season_open", season_open, 100);
    for (size_t i = 0; i < count; i++) stakebook_season_add(31, xs[i], ys[i], 1, SEASON);
    show_cost("season_correct", season_correct, 100);
    show_cost("season_fit of degree 15", season_fit, 100);
    show_cost("season_band of degree 15", season_band, 100);
    show_cost("season_validate in 10 folds up to degree 15", season_validate, 20);
    show_cost("season_losses up to degree 15", season_losses, 100);
    show_cost("season_scores up to degree 15", season_scores, 100);
    show_cost("season_split up to degree 3", season_split, 3);
    show_cost("season_report_stake up to degree 15", season_report_stake, 100);
    show_cost("season_report up to degree 15, 31 of 32 stakes empty", season_report, 100);
    show_cost("season_add_window, full", season_window, 100);
    show_cost("split up to degree 3", split_3, 3);
    show_cost("split up to degree 8", split_8, 3);
    show_cost("split up to degree 15", split_15, 3);
    /* what a limit costs in time: of a search, the pivot tests and the time of one */
    const size_t lists[] = {100, 1000, ROOM};
    for (int i = 0; i < 3; i++)
        for (uint32_t most = 3; most <= 8; most += 5) {
            season(lists[i], 0, 1);
            double start = seconds();
            uint64_t answer = split(most);
            double took = seconds() - start;
            printf("split of %zu up to degree %u: %u pivot tests, %.3f ms, %.2f us a test\n", lists[i], most, stakebook_tests(answer), 1000 * took,
                   1e6 * took / stakebook_tests(answer));
        }
    return 0;
}
