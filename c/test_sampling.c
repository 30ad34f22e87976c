/*
 * The sampler's exports and the one that makes X from q, called through telescope.h: the specification's cases a to g, those with a q
 * by way of X, every refusal, and that no parameter stands in another's place.
 */
#include "telescope.h"

#include <inttypes.h>
#include <math.h>
#include <stdbool.h>
#include <stdio.h>
#include <string.h>

enum { LONGEST = 40, GUARD = 32, ROOM = LONGEST + 2 * GUARD };

static unsigned made, failed;

/* Counts a check; a failure is printed as `what`, and the caller adds the values. */
static int check(int ok, const char *what) {
    made++;
    failed += !ok;
    if (!ok)
        printf("FAILED: %s\n", what);
    return ok;
}

/* 16 bytes: `count` times `lead`, then `then`, then `rest` up to the end. */
static const uint8_t *hash(unsigned count, uint8_t lead, uint8_t then, uint8_t rest) {
    static uint8_t h[ALBA_HASH_BYTES];
    for (unsigned i = 0; i < ALBA_HASH_BYTES; i++)
        h[i] = i < count ? lead : i == count ? then : rest;
    return h;
}

/* A call with out inside a larger buffer: the answer must be `answer`; if that is ALBA_DRAWN, out holds `value`; no other byte changes. */
static void uniform(const char *what, const uint8_t *h, size_t h_len, uint64_t n, size_t out_len, uint32_t answer, uint64_t value) {
    uint8_t room[ROOM], due[ROOM];
    for (unsigned i = 0; i < ROOM; i++)
        room[i] = due[i] = (uint8_t)(0xa5 ^ (i * 29));
    if (answer == ALBA_DRAWN)
        for (unsigned i = 0; i < ALBA_DRAW_BYTES; i++)
            due[GUARD + i] = (uint8_t)(value >> (8 * (ALBA_DRAW_BYTES - 1 - i)));
    uint32_t got = alba_sample_uniform(h, h_len, n, room + GUARD, out_len);
    if (!check(got == answer && memcmp(room, due, ROOM) == 0, what)) {
        printf("  h of %zu bytes, n = %" PRIu64 ", out of %zu bytes: %" PRIu32 ", due %" PRIu32 "; wrong bytes, counted from out:", h_len,
               n, out_len, got, answer);
        for (unsigned i = 0; i < ROOM; i++)
            if (room[i] != due[i])
                printf(" [%d] %02x, due %02x", (int)i - GUARD, room[i], due[i]);
        printf("\n");
    }
}

static void bernoulli(const char *what, const uint8_t *h, size_t h_len, uint64_t x_high, uint64_t x_low, uint32_t answer) {
    uint32_t got = alba_sample_bernoulli(h, h_len, x_high, x_low);
    if (!check(got == answer, what))
        printf("  h of %zu bytes, X = %016" PRIx64 " %016" PRIx64 ": %" PRIu32 ", due %" PRIu32 "\n", h_len, x_high, x_low, got, answer);
}

enum { WORDS = 5, WORDS_ROOM = WORDS + 4 };

/* A call with out inside a larger buffer: the answer must be `answer`; if that is ALBA_CONVERTED, out holds X; no other number changes. */
static void threshold(const char *what, double q, size_t out_len, uint32_t answer, uint64_t x_high, uint64_t x_low) {
    uint64_t room[WORDS_ROOM], due[WORDS_ROOM];
    for (unsigned i = 0; i < WORDS_ROOM; i++)
        room[i] = due[i] = UINT64_C(0xa5a5a5a5a5a5a5a5) ^ i;
    if (answer == ALBA_CONVERTED) {
        due[2] = x_high;
        due[3] = x_low;
    }
    uint32_t got = alba_threshold(q, room + 2, out_len);
    if (!check(got == answer && memcmp(room, due, sizeof room) == 0, what)) {
        printf("  q = %a, out of %zu numbers: %" PRIu32 ", due %" PRIu32 "; wrong numbers, counted from out:", q, out_len, got, answer);
        for (unsigned i = 0; i < WORDS_ROOM; i++)
            if (room[i] != due[i])
                printf(" [%d] %016" PRIx64 ", due %016" PRIx64, (int)i - 2, room[i], due[i]);
        printf("\n");
    }
}

/* The answer to h with the X of q, as a host makes it. */
static void by_q(const char *what, const uint8_t *h, double q, uint32_t answer) {
    uint64_t x[ALBA_X_WORDS] = {0, 0};
    check(alba_threshold(q, x, ALBA_X_WORDS) == ALBA_CONVERTED, what);
    bernoulli(what, h, ALBA_HASH_BYTES, x[0], x[1], answer);
}

static double of_bits(uint64_t bits) {
    double q;
    memcpy(&q, &bits, sizeof q);
    return q;
}

static void cases(void) {
    uniform("a: n = 8, eighth byte 0D: 5", hash(7, 0x00, 0x0d, 0xff), 16, 8, 8, ALBA_DRAWN, 5);
    uniform("b: n = 1, all zero: 0", hash(16, 0x00, 0, 0), 16, 1, 8, ALBA_DRAWN, 0);
    uniform("b: n = 1, all FF: 0", hash(16, 0xff, 0, 0), 16, 1, 8, ALBA_DRAWN, 0);
    uniform("c: n = 10, FF.. F9: 9", hash(15, 0xff, 0xf9, 0), 16, 10, 8, ALBA_DRAWN, 9);
    uniform("c: n = 10, FF.. FA: no draw", hash(15, 0xff, 0xfa, 0), 16, 10, 8, ALBA_NO_DRAW, 0);
    uniform("d: n = 3, FF.. FE: 2", hash(15, 0xff, 0xfe, 0), 16, 3, 8, ALBA_DRAWN, 2);
    uniform("d: n = 3, all FF: no draw", hash(16, 0xff, 0, 0), 16, 3, 8, ALBA_NO_DRAW, 0);
    by_q("e: q = 1, all FF: no", hash(16, 0xff, 0, 0), 1.0, ALBA_NO);
    by_q("e: q = 1, FF.. FE: yes", hash(15, 0xff, 0xfe, 0), 1.0, ALBA_YES);
    by_q("f: q = 0.5, 7F then FF: yes", hash(0, 0, 0x7f, 0xff), 0.5, ALBA_YES);
    by_q("f: q = 0.5, 80 then zeros: no", hash(0, 0, 0x80, 0x00), 0.5, ALBA_NO);
    by_q("g: q = 2^-128, all zero: yes", hash(16, 0x00, 0, 0), 0x1p-128, ALBA_YES);
    by_q("g: q = 2^-129, all zero: no", hash(16, 0x00, 0, 0), 0x1p-129, ALBA_NO);
    by_q("q = 0, all zero: no", hash(16, 0x00, 0, 0), 0.0, ALBA_NO);
    by_q("q = -0, all zero: no", hash(16, 0x00, 0, 0), -0.0, ALBA_NO);
    /* Each half of X counts, and in its order: h is the bytes 01 to 10 in hexadecimal. */
    const uint64_t high = 0x0102030405060708, low = 0x090a0b0c0d0e0f10;
    const uint8_t *h = (const uint8_t[]){1, 2, 3, 4, 5, 6, 7, 8, 9, 10, 11, 12, 13, 14, 15, 16};
    bernoulli("X is h's number: no", h, 16, high, low, ALBA_NO);
    bernoulli("X is the number after h's: yes", h, 16, high, low + 1, ALBA_YES);
    bernoulli("a greater high word, a low word of 0: yes", h, 16, high + 1, 0, ALBA_YES);
    bernoulli("a lesser high word, a low word of all ones: no", h, 16, high - 1, UINT64_MAX, ALBA_NO);
    bernoulli("X = 0: no", hash(16, 0x00, 0, 0), 16, 0, 0, ALBA_NO);
    bernoulli("X = 1, all zero: yes", hash(16, 0x00, 0, 0), 16, 0, 1, ALBA_YES);
    bernoulli("X = 2^64 - 1, zeros then FF: no", hash(8, 0x00, 0xff, 0xff), 16, 0, UINT64_MAX, ALBA_NO);
    bernoulli("X = 2^64, zeros then FF: yes", hash(8, 0x00, 0xff, 0xff), 16, 1, 0, ALBA_YES);
    bernoulli("X all ones, all FF: no", hash(16, 0xff, 0, 0), 16, UINT64_MAX, UINT64_MAX, ALBA_NO);
    bernoulli("X all ones, FF.. FE: yes", hash(15, 0xff, 0xfe, 0), 16, UINT64_MAX, UINT64_MAX, ALBA_YES);
    /* All eight bytes of a large value, in their order. */
    uniform("n = 2^64 - 1, the last 8 bytes 01 to 08: that number", (const uint8_t[]){0, 0, 0, 0, 0, 0, 0, 0, 1, 2, 3, 4, 5, 6, 7, 8}, 16,
            UINT64_MAX, 8, ALBA_DRAWN, 0x0102030405060708);
}

/* X by hand: the whole part of q * 2^128. */
static void thresholds(void) {
    threshold("q = 0: 0", 0.0, 2, ALBA_CONVERTED, 0, 0);
    threshold("q = -0: 0", -0.0, 2, ALBA_CONVERTED, 0, 0);
    threshold("q = 1: 2^128 - 1", 1.0, 2, ALBA_CONVERTED, UINT64_MAX, UINT64_MAX);
    threshold("q = 0.5: 2^127", 0.5, 2, ALBA_CONVERTED, UINT64_C(1) << 63, 0);
    threshold("q = 2^-64: 2^64", 0x1p-64, 2, ALBA_CONVERTED, 1, 0);
    threshold("q = 2^-65: 2^63", 0x1p-65, 2, ALBA_CONVERTED, 0, UINT64_C(1) << 63);
    threshold("q = 2^-128: 1", 0x1p-128, 2, ALBA_CONVERTED, 0, 1);
    threshold("q just below 2^-128: 0", 0x1.fffffffffffffp-129, 2, ALBA_CONVERTED, 0, 0);
    threshold("q just below 2^-127: 1", 0x1.fffffffffffffp-128, 2, ALBA_CONVERTED, 0, 1);
    threshold("the last double below 1: 53 ones", 0x1.fffffffffffffp-1, 2, ALBA_CONVERTED, UINT64_C(0xfffffffffffff800), 0);
    threshold("digits in both words", 0x1.23456789abcdfp-50, 2, ALBA_CONVERTED, 0x48d1, UINT64_C(0x59e26af37c000000));
    threshold("the least double: 0", 0x1p-1074, 2, ALBA_CONVERTED, 0, 0);
}

static void refusals(void) {
    uint8_t h[LONGEST];
    memset(h, 0x3c, sizeof h);
    for (size_t h_len = 0; h_len <= LONGEST; h_len++) {
        for (size_t out_len = 0; out_len <= LONGEST; out_len++) {
            uniform("n = 0 is refused by 7 before any length", h, h_len, 0, out_len, ALBA_BAD_RANGE, 0);
            if (h_len != ALBA_HASH_BYTES || out_len != ALBA_DRAW_BYTES)
                uniform("a wrong length is refused by 8", h, h_len, 10, out_len, ALBA_BAD_LENGTH, 0);
        }
        if (h_len != ALBA_HASH_BYTES) {
            bernoulli("a wrong length is refused by 8", h, h_len, 0, 0, ALBA_BAD_LENGTH);
            bernoulli("a wrong length is refused by 8", h, h_len, UINT64_MAX, UINT64_MAX, ALBA_BAD_LENGTH);
        }
    }
    const double bad[] = {0x1.0000000000001p0,
                          1.5,
                          2.0,
                          INFINITY,
                          -INFINITY,
                          -0x1p-1074,
                          -0x1p-128,
                          -0.5,
                          -1.0,
                          NAN,
                          -NAN,
                          of_bits(0x7ff0000000000001),
                          of_bits(0xfff0000000000001),
                          of_bits(0x7fffffffffffffff)};
    for (size_t i = 0; i < sizeof bad / sizeof *bad; i++)
        for (size_t out_len = 0; out_len <= WORDS; out_len++) {
            const bool is_right = out_len == ALBA_X_WORDS;
            threshold("q below 0, above 1 or NaN is refused by 3, a wrong length before it by 8", bad[i], out_len,
                      is_right ? ALBA_BAD_PROBABILITY : ALBA_BAD_LENGTH, 0, 0);
            if (!is_right)
                threshold("a wrong length is refused by 8", 0.5, out_len, ALBA_BAD_LENGTH, 0, 0);
        }

    uniform("h null with length 0 is refused by 8", NULL, 0, 10, 8, ALBA_BAD_LENGTH, 0);
    check(alba_sample_uniform(h, 16, 10, NULL, 0) == ALBA_BAD_LENGTH, "out null with length 0 is refused by 8");
    check(alba_sample_uniform(NULL, 0, 0, NULL, 0) == ALBA_BAD_RANGE, "n = 0 is refused by 7, all else null");
    check(alba_threshold(0.5, NULL, 0) == ALBA_BAD_LENGTH, "out null with length 0 is refused by 8");
    bernoulli("h null with length 0 is refused by 8", NULL, 0, 1, 1, ALBA_BAD_LENGTH);
}

/*
 * No contract numbers the parameters: a call that draws, and each two of its arguments of one type exchanged, which are due a refusal; and
 * the same of a call that says yes. alba_threshold has no two of one type.
 */
static void parameters(void) {
    uint8_t h[LONGEST];
    for (unsigned i = 0; i < LONGEST; i++)
        h[i] = (uint8_t)(i + 1);
    uniform("bytes 01 to 10 in hexadecimal, n = 20: 16", h, 16, 20, 8, ALBA_DRAWN, 16);
    uniform("h_len and n exchanged", h, 20, 16, 8, ALBA_BAD_LENGTH, 0);
    uniform("n and out_len exchanged", h, 16, 8, 20, ALBA_BAD_LENGTH, 0);
    uniform("h and out exchanged, each with its length", h, 8, 20, 16, ALBA_BAD_LENGTH, 0);
    bernoulli("the same bytes, a high word of 02 and a low one of 1: yes", h, 16, UINT64_C(0x0200000000000000), 1, ALBA_YES);
    bernoulli("x_high and x_low exchanged", h, 16, 1, UINT64_C(0x0200000000000000), ALBA_NO);
    bernoulli("h_len and x_high exchanged", h, (size_t)UINT64_C(0x0200000000000000), 16, 1, ALBA_BAD_LENGTH);
    bernoulli("h_len and x_low exchanged", h, 1, UINT64_C(0x0200000000000000), 16, ALBA_BAD_LENGTH);
}

int main(void) {
    cases();
    thresholds();
    refusals();
    parameters();
    printf("sampling: %u checks, %u failed\n", made, failed);
    return failed == 0 ? 0 : 1;
}
