/*
 * How much stack alba_verify takes, with no element and up to the longest proof that there is: it is run on a thread whose stack was
 * painted before, and so is a function that does nothing. The deepest byte that lost its paint tells; the difference is the verifier's.
 * It is to be linked so that names are bound at the start (-z now): otherwise the first call of memcpy is looked up on the stack measured.
 */
#define _POSIX_C_SOURCE 200809L

#include "telescope.h"

#include <inttypes.h>
#include <pthread.h>
#include <stdio.h>
#include <stdlib.h>
#include <string.h>

enum { ROOM = 1 << 20, PAINT = 0xa5, SIZE = ALBA_MAX_PROOF_SIZE, BYTES = ALBA_MAX_DATA_BYTES };

/* What telescope.h says that it takes. */
enum { SAID = 3000 };

static const uint64_t proof_sizes[] = {0, 1, 100, SIZE};

static uint8_t data[SIZE * BYTES], ends[4 * SIZE], marks[SIZE], indexes[8 * SIZE];
static uint64_t proof_size;
static uint32_t answer;

static void *nothing(void *unused) { return unused; }

/* With set_size 1 every chain exists, so all elements are hashed; with X all ones it passes, unless 16 bytes of a digest are all FF. */
static void *verify(void *unused) {
    answer = alba_verify(1, proof_size, 1, 1, 0, UINT64_MAX, UINT64_MAX, 0, 0, data, BYTES * proof_size, ends, 4 * proof_size, marks,
                         proof_size, indexes, 8 * proof_size);
    return unused;
}

static void stop(const char *what) {
    printf("stack: %s\n", what);
    exit(1);
}

/* The stack grows downwards: how far it was written, counted from its upper end. */
static size_t depth_of(void *(*function)(void *)) {
    pthread_attr_t attributes;
    pthread_t thread;
    uint8_t *stack = aligned_alloc(4096, ROOM);
    size_t untouched = 0;
    if (stack == NULL)
        stop("no memory");
    memset(stack, PAINT, ROOM);
    if (pthread_attr_init(&attributes) != 0 || pthread_attr_setstack(&attributes, stack, ROOM) != 0 ||
        pthread_create(&thread, &attributes, function, NULL) != 0 || pthread_join(thread, NULL) != 0)
        stop("no thread");
    while (untouched < ROOM && stack[untouched] == PAINT)
        untouched++;
    pthread_attr_destroy(&attributes);
    free(stack);
    return ROOM - untouched;
}

int main(void) {
    for (size_t i = 0; i < SIZE; i++) {
        const size_t end = (i + 1) * BYTES;
        for (size_t j = 0; j < 4; j++)
            ends[4 * i + j] = (uint8_t)(end >> (24 - 8 * j));
        marks[i] = 1;
    }
    const size_t without = depth_of(nothing);
    size_t most = 0;
    printf("stack: alba_verify takes");
    for (size_t i = 0; i < sizeof proof_sizes / sizeof *proof_sizes; i++) {
        proof_size = proof_sizes[i];
        const size_t taken = depth_of(verify) - without;
        if (answer != ALBA_ACCEPTED)
            stop("the proof isn't accepted");
        most = taken > most ? taken : most;
        printf("%s %zu bytes at proof_size %" PRIu64, i == 0 ? "" : ",", taken, proof_size);
    }
    printf(", with %d data bytes an element\n", BYTES);
    return most < SAID ? 0 : 1;
}
