/* Answers and numbers as the program `journal` prints them (docs/JOURNAL.md). */
#ifndef PRINTED_H
#define PRINTED_H

#include <inttypes.h>
#include <stdio.h>
#include <string.h>

#include "stakebook.h"

static inline void print_number(double number) {
    uint64_t bits;
    memcpy(&bits, &number, sizeof bits);
    printf(" %016" PRIX64, number != number ? UINT64_C(0x7FF8000000000000) : bits);
}

static inline void print_numbers(const char *name, const double *numbers, size_t many) {
    printf("%s", name);
    for (size_t i = 0; i < many; i++) print_number(numbers[i]);
    printf("\n");
}

static inline void print_bytes(const char *name, const uint8_t *bytes, size_t many) {
    printf("%s", name);
    for (size_t i = 0; i < many; i++) printf(" %d", bytes[i]);
    printf("\n");
}

/* true if the call was refused, which is then printed */
static inline int refused(uint64_t answer) {
    if (stakebook_refusal(answer) != 0) printf("refused %u\n", stakebook_refusal(answer));
    return stakebook_refusal(answer) != 0;
}

/* a call that changes a book: the count after it, which is the one before it where it was refused */
static inline size_t changed_count(size_t count, uint64_t answer) {
    if (refused(answer)) return count;
    printf("book %zu\n", stakebook_count(answer));
    return stakebook_count(answer);
}

#endif
