/* Density by depth and elevation through the C interface: a surface over pits along a glacier. Depth in m, elevation above 2,800 m in hundreds of m, density
 * in kg/m3. The columns are the program's own and are only read; nothing is opened or added. It prints each answer and number as the program `journal` does
 * (docs/JOURNAL.md), so that its output can be compared, bit for bit, with what the judge prints for surface.calls. */
#include "printed.h"

#define PITS 12

/* the places of coefficients, errors and pruning bytes: the terms of total degree 4 */
#define TERMS 15

static const double depths[PITS] = {0.2, 0.8, 1.4, 2.0, 0.2, 0.8, 1.4, 2.0, 0.2, 0.8, 1.4, 2.0};
static const double elevations[PITS] = {-2, -2, -2, -2, 0.5, 0.5, 0.5, 0.5, 2.5, 2.5, 2.5, 2.5};
static const double densities[PITS] = {318, 371.5, 412, 441, 282.5, 335, 368, 401, 254, 305.5, 340, 361};

static double scratch[PITS], coefficients[TERMS], errors[TERMS], lower[PITS], upper[PITS];
static uint8_t pruned[TERMS], outliers[PITS];

/* the surface of a total degree: 1, x, z, x2, xz, z2, .. have 1, 3, 6, 10 and 15 terms up to total degree 0, 1, 2, 3 and 4 */
static void fit(size_t count, size_t degree) {
    uint64_t answer = stakebook_surface_fit(count, degree, depths, PITS, elevations, PITS, densities, PITS, scratch, PITS, coefficients, TERMS);
    if (refused(answer)) return;
    printf("fit %u\n", stakebook_degree(answer));
    print_numbers("coefficients", coefficients, TERMS);
}

/* up to a total degree, AIC, P95, pruning by size: bound, most, criterion, confidence, tolerance, pruning; score, value */
static void report(size_t count, uint32_t most) {
    const uint32_t words[] = {STAKEBOOK_CUSTOM_DEGREE, most, STAKEBOOK_AIC, STAKEBOOK_P95, STAKEBOOK_NO_TOLERANCE, STAKEBOOK_BY_SIZE};
    static const double values[] = {0, 0};
    uint64_t answer = stakebook_surface_report(count, words, 6, values, 2, depths, PITS, elevations, PITS, densities, PITS, scratch, PITS, coefficients,
                                               TERMS, errors, TERMS, pruned, TERMS, lower, PITS, upper, PITS, outliers, PITS);
    if (refused(answer)) return;
    printf("report %u %u %u %u\n", stakebook_degree(answer), stakebook_solved(answer), stakebook_outliers(answer), stakebook_pruned(answer));
    print_numbers("coefficients", coefficients, TERMS);
    print_numbers("errors", errors, TERMS);
    print_bytes("pruned", pruned, TERMS);
    print_numbers("lower", lower, count);
    print_numbers("upper", upper, count);
    print_bytes("outliers", outliers, count);
}

/* a score of 2, and 5 kg/m3 on both sides */
static void band(size_t count, double depth, double elevation, size_t degree) {
    double numbers[STAKEBOOK_BAND];
    uint64_t answer = stakebook_surface_band(count, depth, elevation, degree, STAKEBOOK_CUSTOM_SCORE, 2.0, STAKEBOOK_ABSOLUTE, 5.0, depths, PITS, elevations,
                                             PITS, densities, PITS, scratch, PITS, numbers, STAKEBOOK_BAND);
    if (!refused(answer)) print_numbers("band", numbers, STAKEBOOK_BAND);
}

int main(void) {
    fit(PITS, 1);
    report(PITS, 4);
    /* between the pits; above the highest there is no band */
    band(PITS, 1.1, 1.5, 1);
    band(PITS, 1.1, 3.0, 1);
    /* three elevations have no third power of their own: total degree 3 is unsolved, and a report passes over it */
    fit(PITS, 3);
    /* the lowest pit alone has one elevation, and four samples no six terms */
    fit(4, 1);
    fit(4, 2);
    report(4, 4);
    /* at most total degree 4 */
    report(PITS, 5);
    fit(PITS, 5);
    return 0;
}
