/*
 * How long alba_verify takes at worst, for SECURITY.md: the median and the greatest of some calls, in milliseconds. Prints a line for each
 * of three inputs. Set_size is 1, so that every element is in the right bin and the chain is followed to its end.
 *
 *     cc -O2 c/worst_time.c dist/telescope.c -o target/worst_time && target/worst_time
 */
#define _POSIX_C_SOURCE 199309L
#include "telescope.h"

#include <stdio.h>
#include <stdlib.h>
#include <string.h>
#include <time.h>

enum { CALLS = 11 };

static uint8_t data[(size_t)ALBA_MAX_ELEMENTS * ALBA_MAX_DATA_BYTES];
static uint8_t ends[4 * ALBA_MAX_ELEMENTS], marks[ALBA_MAX_ELEMENTS], indexes[8 * ALBA_MAX_ELEMENTS];

static double milliseconds(void) {
    struct timespec t;
    clock_gettime(CLOCK_MONOTONIC, &t);
    return (double)t.tv_sec * 1e3 + (double)t.tv_nsec / 1e6;
}

static int compare(const void *a, const void *b) {
    const double x = *(const double *)a, y = *(const double *)b;
    return (x > y) - (x < y);
}

/* So many elements, each with an index and with data of this length. */
static void lay_out(size_t elements, size_t length) {
    for (size_t i = 0; i < elements; i++) {
        const size_t end = (i + 1) * length;
        for (size_t k = 0; k < 4; k++)
            ends[4 * i + k] = (uint8_t)(end >> (24 - 8 * k));
        marks[i] = 1;
    }
}

static void measure(size_t elements, size_t length, uint64_t proof_size) {
    double times[CALLS];
    uint32_t answer = 0;
    lay_out(elements, length);
    for (size_t i = 0; i < CALLS; i++) {
        const double start = milliseconds();
        answer = alba_verify(1, proof_size, 2, 1, 1, UINT64_MAX, UINT64_MAX, 1, 0, data, elements * length, ends, 4 * elements, marks, elements,
                             indexes, 8 * elements);
        times[i] = milliseconds() - start;
    }
    qsort(times, CALLS, sizeof times[0], compare);
    printf("elements %zu of %zu bytes, proof_size %u: answer %u, median %.2f ms, greatest %.2f ms\n", elements, length, (unsigned)proof_size,
           (unsigned)answer, times[CALLS / 2], times[CALLS - 1]);
}

int main(void) {
    memset(data, 0x5a, sizeof data);
    measure(ALBA_MAX_PROOF_SIZE, ALBA_MAX_DATA_BYTES, ALBA_MAX_PROOF_SIZE);
    measure(ALBA_MAX_ELEMENTS, ALBA_MAX_DATA_BYTES, ALBA_MAX_PROOF_SIZE);
    measure(328, 32, 328);
    return 0;
}
