/*
 * The stored answers of the original Rust (crates/vectors/data/answers.txt, whose head says what its lines are), asked of alba_threshold,
 * alba_sample_uniform, alba_sample_bernoulli and alba_verify: `test_answers FILE`. Lines about other calls are passed over.
 */
#include "telescope.h"

#include <inttypes.h>
#include <stdio.h>
#include <stdlib.h>
#include <string.h>

enum { LINE = 1 << 16, ELEMENTS = 2048, BYTES = 1 << 20 };

static char line[LINE];
static uint8_t data[BYTES], ends[4 * ELEMENTS], marks[ELEMENTS], indexes[8 * ELEMENTS];
static size_t count, data_len;
static unsigned long made, failed;

static void stop(const char *what) {
    printf("answers: %s: %s\n", what, line);
    exit(2);
}

static const char *word(void) {
    const char *found = strtok(NULL, " \n");
    if (found == NULL)
        stop("a word is missing");
    return found;
}

static uint64_t decimal(void) { return strtoull(word(), NULL, 10); }

static void put(uint8_t *bytes, unsigned size, uint64_t value) {
    while (size-- > 0) {
        bytes[size] = (uint8_t)value;
        value >>= 8;
    }
}

/* Bytes in hexadecimal, or - for none; answers how many. */
static size_t bytes_of(const char *text, uint8_t *bytes, size_t most) {
    size_t size = strcmp(text, "-") == 0 ? 0 : strlen(text) / 2;
    if (size > most)
        stop("too many bytes");
    for (size_t i = 0; i < size; i++) {
        char digits[3] = {text[2 * i], text[2 * i + 1], 0};
        bytes[i] = (uint8_t)strtoul(digits, NULL, 16);
    }
    return size;
}

/* X of the double whose bits are the next word. */
static void threshold(uint64_t x[2]) {
    uint64_t bits = strtoull(word(), NULL, 16);
    double q;
    memcpy(&q, &bits, sizeof q);
    if (alba_threshold(q, x, ALBA_X_WORDS) != ALBA_CONVERTED)
        stop("q is refused");
}

static void expect(const char *what, uint64_t got) {
    if (strcmp(word(), "=") != 0)
        stop("no = is there");
    uint64_t due = decimal();
    made++;
    if (got != due) {
        failed++;
        printf("FAILED: %s: %" PRIu64 ", due %" PRIu64 "\n", what, got, due);
    }
}

static void uniform(void) {
    uint8_t h[ALBA_HASH_BYTES], out[ALBA_DRAW_BYTES];
    size_t size = bytes_of(word(), h, sizeof h);
    uint32_t answer = alba_sample_uniform(h, size, decimal(), out, sizeof out);
    expect("uniform", answer);
    uint64_t value = 0;
    if (answer != ALBA_DRAWN)
        return;
    for (size_t i = 0; i < sizeof out; i++)
        value = value << 8 | out[i];
    if (value != decimal()) {
        failed++;
        printf("FAILED: uniform: another value\n");
    }
}

static void bernoulli(void) {
    uint8_t h[ALBA_HASH_BYTES];
    uint64_t x[ALBA_X_WORDS];
    size_t size = bytes_of(word(), h, sizeof h);
    threshold(x);
    expect("bernoulli", alba_sample_bernoulli(h, size, x[0], x[1]));
}

static void element(void) {
    if (count == ELEMENTS)
        stop("too many elements");
    data_len += bytes_of(word(), data + data_len, BYTES - data_len);
    const char *index = strtok(NULL, " \n");
    put(ends + 4 * count, 4, data_len);
    marks[count] = index != NULL;
    put(indexes + 8 * count, 8, index == NULL ? 0 : strtoull(index, NULL, 10));
    count++;
}

static void verify(void) {
    uint64_t s[5], x[ALBA_X_WORDS];
    for (size_t i = 0; i < 5; i++)
        s[i] = decimal();
    threshold(x);
    uint64_t retry = decimal(), search = decimal();
    expect("verify", alba_verify(s[0], s[1], s[2], s[3], s[4], x[0], x[1], retry, search, data, data_len, ends, 4 * count, marks, count,
                                 indexes, 8 * count));
}

int main(int arguments, char **argument) {
    FILE *file = arguments == 2 ? fopen(argument[1], "r") : NULL;
    if (file == NULL)
        stop("usage: test_answers FILE");
    while (fgets(line, LINE, file) != NULL) {
        const char *first = strtok(line, " \n");
        if (first == NULL)
            continue;
        if (strcmp(first, "list") == 0)
            count = data_len = 0;
        else if (strcmp(first, "+") == 0)
            element();
        else if (strcmp(first, "uniform") == 0)
            uniform();
        else if (strcmp(first, "bernoulli") == 0)
            bernoulli();
        else if (strcmp(first, "verify") == 0)
            verify();
    }
    fclose(file);
    printf("stored answers: %lu checks, %lu failed\n", made, failed);
    return made == 0 || failed > 0;
}
