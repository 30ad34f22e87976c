/*
 * The C file beside the archive, on calls that a generator makes: `difference CALLS SAMPLE` with SAMPLE a proof as c/sample_proof.txt has
 * one. With BOTH defined it is linked with both, the C file's calls being named dist_alba_..: each call is made of both, and they must
 * answer and write the same. Without BOTH it is linked with one, for a machine that has no archive. Either way it prints a sum over all
 * answers, which is the same for the same CALLS, and fails if an answer that the header names never came.
 */
#ifdef BOTH
#define _DEFAULT_SOURCE
#define alba_sample_uniform dist_alba_sample_uniform
#define alba_sample_bernoulli dist_alba_sample_bernoulli
#define alba_threshold dist_alba_threshold
#define alba_verify dist_alba_verify
#include "telescope.h"
#undef alba_sample_uniform
#undef alba_sample_bernoulli
#undef alba_threshold
#undef alba_verify
#undef ALBA_TELESCOPE_H
#else
#define dist_alba_sample_uniform alba_sample_uniform
#define dist_alba_sample_bernoulli alba_sample_bernoulli
#define dist_alba_threshold alba_threshold
#define dist_alba_verify alba_verify
#endif
#include "telescope.h"

#include <inttypes.h>
#include <stdio.h>
#include <stdlib.h>
#include <string.h>
#ifdef BOTH
#include <sys/mman.h>
#endif

enum { UNIFORM, BERNOULLI, THRESHOLD, VERIFY, KINDS, ANSWERS = 32, SAMPLE_SIZE = 328 };

static const char *const kinds[KINDS] = {"alba_sample_uniform", "alba_sample_bernoulli", "alba_threshold", "alba_verify"};
static unsigned long came[KINDS][ANSWERS];
static uint64_t state = UINT64_C(0x43c389a516), sum = UINT64_C(0xcbf29ce484222325);

static void stop(const char *what) {
    printf("difference: %s\n", what);
    exit(1);
}

/* xorshift64*. */
static uint64_t any(void) {
    state ^= state >> 12;
    state ^= state << 25;
    state ^= state >> 27;
    return state * UINT64_C(0x2545f4914f6cdd1d);
}

static uint64_t below(uint64_t n) { return any() % n; }

/* A number of any length in bits. Here and below no expression draws twice: C leaves it open which would be first. */
static uint64_t shifted(void) {
    uint64_t found = any();
    return found >> below(64);
}

/* Any number, and often one at an end of what a setting may be. */
static uint64_t number(uint64_t most) {
    uint64_t found = shifted();
    switch (below(8)) {
    case 0:
        return most;
    case 1:
        return most + 1;
    case 2:
        return found;
    default:
        return below(most + 1);
    }
}

static void add(const void *bytes, size_t size) {
    for (size_t i = 0; i < size; i++)
        sum = (sum ^ ((const uint8_t *)bytes)[i]) * UINT64_C(0x100000001b3);
}

static void add_number(uint64_t value) {
    uint8_t bytes[8];
    for (size_t i = 0; i < 8; i++)
        bytes[i] = (uint8_t)(value >> 8 * i);
    add(bytes, 8);
}

/* What both answered, and what lies in their buffers then. */
static void same(int kind, uint32_t answer, uint32_t other, const void *out, const void *other_out, size_t size) {
    if (answer != other || (size > 0 && memcmp(out, other_out, size) != 0)) {
        printf("difference: %s: %" PRIu32 " and %" PRIu32 "\n", kinds[kind], answer, other);
        exit(1);
    }
    if (answer >= ANSWERS)
        stop("an answer that the header doesn't name");
    came[kind][answer]++;
    add_number(answer);
}

/* A length that is mostly right. */
static size_t length(size_t right) { return below(16) == 0 ? (size_t)below(right + 10) : right; }

static void hash(uint8_t *h, size_t size) {
    unsigned way = (unsigned)below(4);
    for (size_t i = 0; i < size; i++)
        h[i] = way == 0 ? 0xff : (uint8_t)any();
}

static void uniform(void) {
    uint8_t h[ALBA_HASH_BYTES + 10], out[32] = {0}, other[32] = {0};
    size_t h_len = length(ALBA_HASH_BYTES), out_len = length(ALBA_DRAW_BYTES), at = (size_t)below(8);
    uint64_t n = below(4) == 0 ? UINT64_C(1) << below(64) : below(8) == 0 ? 0 : shifted();
    hash(h, sizeof h);
    uint32_t answer = alba_sample_uniform(h, h_len, n, out + at, out_len);
    same(UNIFORM, answer, dist_alba_sample_uniform(h, h_len, n, other + at, out_len), out, other, sizeof out);
    add(out, sizeof out);
}

static void bernoulli(void) {
    uint8_t h[ALBA_HASH_BYTES + 10];
    size_t h_len = length(ALBA_HASH_BYTES);
    uint64_t high = shifted(), low = any();
    hash(h, sizeof h);
    /* Close to X, too: the first half the same, and the second often. */
    if (below(2) == 0) {
        for (size_t i = 0; i < 8; i++)
            h[i] = (uint8_t)(high >> (56 - 8 * i));
        for (size_t i = 8; i < 16 && below(64) != 0; i++)
            h[i] = (uint8_t)(low >> (120 - 8 * i));
    }
    same(BERNOULLI, alba_sample_bernoulli(h, h_len, high, low), dist_alba_sample_bernoulli(h, h_len, high, low), NULL, NULL, 0);
}

/* Doubles of all kinds, most from 0 to 1: by their bits. */
static void threshold(void) {
    uint64_t out[5] = {0}, other[5] = {0}, bits = any();
    size_t out_len = below(16) == 0 ? (size_t)below(5) : ALBA_X_WORDS;
    double q;
    if (below(4) != 0)
        bits = (bits & UINT64_C(0x000fffffffffffff)) | (UINT64_C(870) + below(156)) << 52;
    else if (below(2) == 0)
        bits = UINT64_C(0x3ff0000000000000) + below(3) - 1;
    else if (below(4) == 0)
        bits = below(2) << 63;
    memcpy(&q, &bits, sizeof q);
    uint32_t answer = alba_threshold(q, out, out_len);
    same(THRESHOLD, answer, dist_alba_threshold(q, other, out_len), out, other, sizeof out);
    for (size_t i = 0; i < 5; i++)
        add_number(out[i]);
}

/* A string of exactly its length, at any alignment; none may be null. */
struct string {
    uint8_t *room, *bytes;
    size_t size;
};

struct proof {
    uint64_t set_size, proof_size, max_retries, search_width, dfs_bound, x_high, x_low, retry, search;
    struct string data, ends, marks, indexes;
};

static struct string string(size_t size) {
    size_t at = (size_t)below(8);
    struct string made = {malloc(at + size + (at + size == 0)), NULL, size};
    if (made.room == NULL)
        stop("no memory");
    made.bytes = size == 0 && below(2) == 0 ? NULL : made.room + at;
    return made;
}

static void put(uint8_t *bytes, unsigned size, uint64_t value) {
    while (size-- > 0) {
        bytes[size] = (uint8_t)value;
        value >>= 8;
    }
}

static void verify(struct proof p) {
    uint32_t answer = alba_verify(p.set_size, p.proof_size, p.max_retries, p.search_width, p.dfs_bound, p.x_high, p.x_low, p.retry, p.search,
                                  p.data.bytes, p.data.size, p.ends.bytes, p.ends.size, p.marks.bytes, p.marks.size, p.indexes.bytes,
                                  p.indexes.size);
    uint32_t other = dist_alba_verify(p.set_size, p.proof_size, p.max_retries, p.search_width, p.dfs_bound, p.x_high, p.x_low, p.retry,
                                      p.search, p.data.bytes, p.data.size, p.ends.bytes, p.ends.size, p.marks.bytes, p.marks.size,
                                      p.indexes.bytes, p.indexes.size);
    same(VERIFY, answer, other, NULL, NULL, 0);
}

static void drop(struct proof p) {
    free(p.data.room);
    free(p.ends.room);
    free(p.marks.room);
    free(p.indexes.room);
}

/* A list of elements of up to LONGEST bytes, in settings under which its chain exists and passes with some luck. */
static struct proof made(size_t count, size_t longest) {
    size_t sizes[8], data_len = 0;
    for (size_t i = 0; i < count; i++)
        sizes[i] = (size_t)below(longest + 1), data_len += sizes[i];
    struct proof p = {1 + below(3), count, 4, 5, 6, UINT64_MAX, 0, 0, 0, {0}, {0}, {0}, {0}};
    p.x_high >>= below(3);
    p.x_low = any();
    p.retry = below(4);
    p.search = below(5);
    p.data = string(data_len + (below(4) == 0 ? 3 : 0));
    p.ends = string(4 * count);
    p.marks = string(count);
    p.indexes = string(8 * count);
    for (size_t i = 0; i < p.data.size; i++)
        p.data.bytes[i] = (uint8_t)any();
    for (size_t i = 0, end = 0; i < count; i++) {
        put(p.ends.bytes + 4 * i, 4, end += sizes[i]);
        p.marks.bytes[i] = (uint8_t)below(2);
        put(p.indexes.bytes + 8 * i, 8, any());
    }
    return p;
}

/* One thing is spoilt: a setting, a counter, a length, or a byte of a string. */
static void spoil(struct proof *p) {
    struct string *strings[4] = {&p->data, &p->ends, &p->marks, &p->indexes}, *one = strings[below(4)];
    uint64_t *numbers[9] = {&p->set_size, &p->proof_size, &p->max_retries, &p->search_width, &p->dfs_bound,
                            &p->x_high,   &p->x_low,      &p->retry,       &p->search};
    static const uint64_t most[9] = {ALBA_MAX_SET_SIZE, ALBA_MAX_PROOF_SIZE, ALBA_MAX_MAX_RETRIES, ALBA_MAX_SEARCH_WIDTH, ALBA_MAX_DFS_BOUND,
                                     UINT64_MAX - 1,    UINT64_MAX - 1,      ALBA_MAX_MAX_RETRIES, ALBA_MAX_SEARCH_WIDTH};
    size_t which = (size_t)below(9);
    switch (below(4)) {
    case 0:
        *numbers[which] = number(most[which]);
        break;
    case 1:
        if (one->size > 0)
            one->size -= 1 + (size_t)below(one->size);
        break;
    default:
        if (one->size > 0) {
            size_t at = (size_t)below(one->size);
            one->bytes[at] ^= (uint8_t)(1u << below(8));
        }
    }
}

static void small(void) {
    size_t count = (size_t)below(7), longest = below(8) == 0 ? 200 : 20;
    struct proof p = made(count, longest);
    if (below(2) == 0)
        spoil(&p);
    verify(p);
    drop(p);
}

/* Data of about the most that an element may have, and lists of about the most elements that there may be. */
static void large(void) {
    struct proof p = made(1, 0);
    size_t size = ALBA_MAX_DATA_BYTES - 1 + (size_t)below(3), count = ALBA_MAX_ELEMENTS - 1 + (size_t)below(3);
    int many = below(64) == 0;
    drop(p);
    p.data = string(many ? 0 : size);
    p.ends = string(many ? 4 * count : 4);
    p.marks = string(many ? count : 1);
    p.indexes = string(many ? 8 * count : 8);
    memset(p.ends.bytes, 0, p.ends.size);
    memset(p.marks.bytes, 1, p.marks.size);
    memset(p.indexes.bytes, 2, p.indexes.size);
    if (!many) {
        memset(p.data.bytes, 1, size);
        put(p.ends.bytes, 4, size);
    }
    verify(p);
    drop(p);
}

/* The sample of a proof with its settings, each element of it in the four strings. */
static struct proof sample(const char *path) {
    struct proof p = {400, SAMPLE_SIZE, 10, 26082, 27625916, UINT64_C(0x000c7cd39b9e78f4), 0, 0, 0, {0}, {0}, {0}, {0}};
    FILE *file = fopen(path, "r");
    char text[256];
    if (file == NULL || fscanf(file, "proof %" SCNu64 " %" SCNu64 " ", &p.retry, &p.search) != 2)
        stop("the sample can't be read");
    p.data = string(32 * SAMPLE_SIZE);
    p.ends = string(4 * SAMPLE_SIZE);
    p.marks = string(SAMPLE_SIZE);
    p.indexes = string(8 * SAMPLE_SIZE);
    for (size_t i = 0; i < SAMPLE_SIZE; i++) {
        if (fgets(text, sizeof text, file) == NULL || strlen(text) < 65)
            stop("the sample is too short");
        for (size_t k = 0; k < 32; k++) {
            char digits[3] = {text[2 * k], text[2 * k + 1], 0};
            p.data.bytes[32 * i + k] = (uint8_t)strtoul(digits, NULL, 16);
        }
        put(p.ends.bytes + 4 * i, 4, 32 * (i + 1));
        p.marks.bytes[i] = text[64] == ' ';
        put(p.indexes.bytes + 8 * i, 8, p.marks.bytes[i] ? strtoull(text + 65, NULL, 10) : any());
    }
    fclose(file);
    return p;
}

/* The sample as it is, and with one thing spoilt. */
static void whole(const char *path) {
    struct proof p = sample(path);
    unsigned long before = came[VERIFY][ALBA_ACCEPTED];
    verify(p);
    if (came[VERIFY][ALBA_ACCEPTED] != before + 1)
        stop("the sample is not accepted");
    spoil(&p);
    verify(p);
    drop(p);
}

#ifdef BOTH
/* Lengths past 2^32, of memory that is mapped and never filled: not right because their low half is. */
static void past_32_bits(void) {
    const size_t more = (size_t)1 << 32;
    struct proof p = made(2, 20);
    uint8_t *room = mmap(NULL, more + 4096, PROT_READ | PROT_WRITE, MAP_PRIVATE | MAP_ANONYMOUS | MAP_NORESERVE, -1, 0);
    uint8_t h[16] = {0}, out[8] = {0};
    uint64_t n = 10;
    if (room == MAP_FAILED)
        stop("no room for a length past 2^32");
    same(UNIFORM, alba_sample_uniform(room, more + 16, n, out, 8), dist_alba_sample_uniform(room, more + 16, n, out, 8), NULL, NULL, 0);
    same(UNIFORM, alba_sample_uniform(h, 16, n, room, more + 8), dist_alba_sample_uniform(h, 16, n, room, more + 8), NULL, NULL, 0);
    same(BERNOULLI, alba_sample_bernoulli(room, more + 16, n, n), dist_alba_sample_bernoulli(room, more + 16, n, n), NULL, NULL, 0);
    free(p.data.room);
    p.data = (struct string){NULL, room, more};
    put(p.ends.bytes + 4, 4, 30);
    verify(p);
    p.data.size = more + 29;
    verify(p);
    drop(p);
    munmap(room, more + 4096);
}
#endif

static void all_came(void) {
    static const struct {
        int kind;
        uint32_t answer;
    } due[] = {{UNIFORM, ALBA_DRAWN},
               {UNIFORM, ALBA_NO_DRAW},
               {UNIFORM, ALBA_BAD_RANGE},
               {UNIFORM, ALBA_BAD_LENGTH},
               {BERNOULLI, ALBA_NO},
               {BERNOULLI, ALBA_YES},
               {BERNOULLI, ALBA_BAD_LENGTH},
               {THRESHOLD, ALBA_CONVERTED},
               {THRESHOLD, ALBA_BAD_PROBABILITY},
               {THRESHOLD, ALBA_BAD_LENGTH},
               {VERIFY, ALBA_ACCEPTED},
               {VERIFY, ALBA_BAD_SET_SIZE},
               {VERIFY, ALBA_BAD_LIMIT},
               {VERIFY, ALBA_MALFORMED},
               {VERIFY, ALBA_TOO_LARGE},
               {VERIFY, ALBA_INCORRECT_NUMBER_ELEMENTS},
               {VERIFY, ALBA_INVALID_PARAMETERS},
               {VERIFY, ALBA_INVALID_PROOF}};
    for (size_t i = 0; i < sizeof due / sizeof due[0]; i++) {
        unsigned long times = came[due[i].kind][due[i].answer];
        printf("  %s answered %" PRIu32 ": %lu times\n", kinds[due[i].kind], due[i].answer, times);
        if (times == 0)
            stop("an answer never came");
    }
}

int main(int arguments, char **argument) {
    if (arguments != 3)
        stop("usage: difference CALLS SAMPLE");
    unsigned long calls = strtoul(argument[1], NULL, 10);
    for (unsigned long i = 0; i < calls; i++) {
        unsigned way = i % 4096 == 0 ? 8 : i % 512 == 1 ? 9 : (unsigned)below(8);
        if (way < 3)
            small();
        else if (way < 5)
            uniform();
        else if (way == 5)
            bernoulli();
        else if (way < 8)
            threshold();
        else if (way == 8)
            whole(argument[2]);
        else
            large();
    }
    uint64_t over_all = sum;
#ifdef BOTH
    past_32_bits();
#endif
    all_came();
    printf("%lu calls, sum %016" PRIx64 "\n", calls, over_all);
    return 0;
}
