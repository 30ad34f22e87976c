/*
 * The verifier's export, called through telescope.h: accepted proofs, every refusal and the order in which they are met, and that no
 * parameter stands in another's place.
 */
#include "telescope.h"

#include <inttypes.h>
#include <stdio.h>
#include <stdlib.h>
#include <string.h>

/* More elements than the 65536 that a list may have. */
enum { MANY = 70000 };

static unsigned made, failed;

struct settings {
    uint64_t set_size, proof_size, max_retries, search_width, dfs_bound, x_high, x_low;
};

/* With set_size 1 every draw is 0, so each chain exists; with X all ones it passes unless 16 bytes of a digest are all FF. */
static const struct settings any_chain = {1, 2, 3, 4, 5, UINT64_MAX, UINT64_MAX};

/* A list: each element has `size` data bytes and an index; `list` makes it, and a test then spoils what it is about. */
struct list {
    size_t data_len, ends_len, marks_len, indexes_len;
    uint8_t *data, *ends, *marks, *indexes;
};

static void put(uint8_t *bytes, unsigned count, uint64_t value) {
    while (count-- > 0) {
        bytes[count] = (uint8_t)value;
        value >>= 8;
    }
}

static uint8_t *room(size_t size) {
    uint8_t *bytes = calloc(size + 1, 1);
    if (bytes == NULL) {
        printf("no memory\n");
        exit(2);
    }
    return bytes;
}

static struct list list(size_t count, size_t size) {
    struct list l = {count * size, 4 * count, count, 8 * count, room(count * size), room(4 * count), room(count), room(8 * count)};
    for (size_t i = 0; i < l.data_len; i++)
        l.data[i] = (uint8_t)(i * 37 + 11);
    for (size_t i = 0; i < count; i++) {
        put(l.ends + 4 * i, 4, (i + 1) * size);
        l.marks[i] = 1;
        put(l.indexes + 8 * i, 8, i * 0x0102030405060708);
    }
    return l;
}

static void drop(struct list l) {
    free(l.data);
    free(l.ends);
    free(l.marks);
    free(l.indexes);
}

static void verify(const char *what, struct settings s, uint64_t retry, uint64_t search, struct list l, uint32_t answer) {
    uint32_t got = alba_verify(s.set_size, s.proof_size, s.max_retries, s.search_width, s.dfs_bound, s.x_high, s.x_low, retry, search,
                               l.data, l.data_len, l.ends, l.ends_len, l.marks, l.marks_len, l.indexes, l.indexes_len);
    made++;
    if (got != answer) {
        failed++;
        printf("FAILED: %s: %" PRIu32 ", due %" PRIu32 "\n", what, got, answer);
    }
}

static void accepted(void) {
    struct list two = list(2, 5), none = {0, 0, 0, 0, NULL, NULL, NULL, NULL}, most = list(1024, 3);
    struct settings s = any_chain;
    for (uint64_t retry = 0; retry < s.max_retries; retry++)
        for (uint64_t search = 0; search < s.search_width; search++)
            verify("any chain is accepted", s, retry, search, two, ALBA_ACCEPTED);
    two.marks[0] = 0;
    verify("no index at one element", s, 1, 0, two, ALBA_ACCEPTED);
    two.data_len--;
    put(two.ends + 4, 4, 9);
    verify("the last element a byte shorter", s, 1, 0, two, ALBA_ACCEPTED);
    put(two.ends, 4, 0);
    verify("an empty element", s, 1, 0, two, ALBA_ACCEPTED);
    s.proof_size = 0;
    verify("no element, all null", s, 0, 0, none, ALBA_ACCEPTED);
    s.proof_size = 1024;
    verify("the longest proof", s, 2, 3, most, ALBA_ACCEPTED);
    drop(two);
    drop(most);
}

static void settings(void) {
    struct list l = list(2, 5);
    struct settings s = any_chain;
    const uint64_t words[] = {0, 1, UINT64_C(0x3ff0000000000001), UINT64_C(0x7ff8000000000000), UINT64_MAX};
    l.ends_len = 7; /* each refusal of a setting comes before 4 */
    for (size_t i = 0; i < sizeof words / sizeof *words; i++)
        for (size_t j = 0; j < sizeof words / sizeof *words; j++) {
            s.x_high = words[i];
            s.x_low = words[j];
            verify("every X is lawful", s, 1, 0, l, ALBA_MALFORMED);
        }
    struct settings proof = s, retries = s, width = s, bound = s;
    proof.proof_size = 1025;
    retries.max_retries = 65536;
    width.search_width = UINT64_C(1) << 32;
    bound.dfs_bound = (UINT64_C(1) << 48) + 1;
    verify("proof_size 1025", proof, 1, 0, l, ALBA_BAD_LIMIT);
    verify("max_retries 65536", retries, 1, 0, l, ALBA_BAD_LIMIT);
    verify("search_width 2^32", width, 1, 0, l, ALBA_BAD_LIMIT);
    verify("dfs_bound 2^48 + 1", bound, 1, 0, l, ALBA_BAD_LIMIT);
    proof.set_size = 0;
    verify("set_size 0", proof, 1, 0, l, ALBA_BAD_SET_SIZE);
    proof.set_size = 32769;
    verify("set_size 32769", proof, 1, 0, l, ALBA_BAD_SET_SIZE);
    drop(l);
}

/* Each of these lists has another length than proof_size too, which is met later. */
static void malformed(void) {
    struct settings s = any_chain;
    struct list l = list(3, 5), bad = l;
    for (bad.ends_len = 0; bad.ends_len < 12; bad.ends_len++)
        verify("ends of another count, or of none that is whole", s, 1, 0, bad, ALBA_MALFORMED);
    bad = l;
    for (bad.indexes_len = 0; bad.indexes_len < 24; bad.indexes_len++)
        verify("indexes of another count, or of none that is whole", s, 1, 0, bad, ALBA_MALFORMED);
    bad = l;
    bad.marks_len = 2;
    verify("marks of another count", s, 1, 0, bad, ALBA_MALFORMED);
    bad = l;
    bad.data_len = 14;
    verify("an end past the data", s, 1, 0, bad, ALBA_MALFORMED);
    l.marks[2] = 2;
    verify("a mark over 1", s, 1, 0, l, ALBA_MALFORMED);
    l.marks[2] = 1;
    put(l.ends + 4, 4, 4);
    verify("an end that falls", s, 1, 0, l, ALBA_MALFORMED);
    put(l.ends + 4, 4, UINT32_MAX);
    verify("an end far past the data", s, 1, 0, l, ALBA_MALFORMED);
    drop(l);
}

static void too_large(void) {
    struct settings s = any_chain;
    struct list many = list(MANY, 1), limit = list(65536, 1), large = list(2, 4097), at_limit = list(2, 4096);
    verify("70000 elements", s, 1, 0, many, ALBA_TOO_LARGE);
    many.marks[MANY - 1] = 2;
    verify("70000 elements, a mark over 1 at the last", s, 1, 0, many, ALBA_MALFORMED);
    many.marks[MANY - 1] = 0;
    put(many.ends + 4 * (MANY - 1), 4, 0);
    verify("70000 elements, the last end falls", s, 1, 0, many, ALBA_MALFORMED);
    verify("65536 elements", s, 1, 0, limit, ALBA_INCORRECT_NUMBER_ELEMENTS);
    put(limit.ends + 4 * 65535, 4, 65535 + 4097);
    limit.data_len += 4096;
    limit.data = realloc(limit.data, limit.data_len);
    verify("65536 elements, the last of 4097 bytes", s, 1, 0, limit, ALBA_TOO_LARGE);
    verify("4097 data bytes", s, 1, 0, large, ALBA_TOO_LARGE);
    verify("4096 data bytes", s, 1, 0, at_limit, ALBA_ACCEPTED);
    large.marks[1] = 2;
    verify("4097 data bytes, and a mark over 1 behind them", s, 1, 0, large, ALBA_MALFORMED);
    drop(many);
    drop(limit);
    drop(large);
    drop(at_limit);
}

static void judged(void) {
    struct list l = list(2, 5), more = list(1025, 1);
    struct settings s = any_chain;
    s.proof_size = 3;
    verify("two elements for three", s, 9, 9, l, ALBA_INCORRECT_NUMBER_ELEMENTS);
    s.proof_size = 1024;
    verify("1025 elements for 1024", s, 1, 0, more, ALBA_INCORRECT_NUMBER_ELEMENTS);
    s = any_chain;
    s.x_high = s.x_low = 0; /* no chain passes */
    verify("R = max_retries", s, 3, 0, l, ALBA_INVALID_PARAMETERS);
    verify("S = search_width", s, 0, 4, l, ALBA_INVALID_PARAMETERS);
    verify("R = 2^64 - 1", s, UINT64_MAX, 0, l, ALBA_INVALID_PARAMETERS);
    verify("S = 2^64 - 1", s, 0, UINT64_MAX, l, ALBA_INVALID_PARAMETERS);
    verify("a chain that doesn't pass", s, 2, 3, l, ALBA_INVALID_PROOF);
    s = any_chain;
    s.set_size = 32768; /* a chain of two exists once in 2^30 or so */
    verify("a chain that doesn't exist", s, 2, 3, l, ALBA_INVALID_PROOF);
    drop(l);
    drop(more);
}

/*
 * A proof that the original Rust found and accepts, with q = 0.0015, under settings of which no two are equal. X is a little above the
 * number of its last hash, which the telescope's definition gives, and far below it with its words in each other's place.
 */
enum { NUMBERS = 9, SLICES = 4, X_HIGH = 5, X_LOW = 6 };
static const uint64_t number_high = UINT64_C(0x00224a2b3668aaa5), number_low = UINT64_C(0xf005ec1ec03979db);
static const uint64_t found[NUMBERS] = {11, 5, 7, 41, UINT64_C(1) << 33, UINT64_C(0x00224a2b3668aaa6), UINT64_C(1) << 49, 3, 20};
static uint8_t found_data[] = {0x3f, 0xe4, 0xe1, 0xe3, 0x0d, 0x8a, 0x2b, 0xe2, 0x60, 0x19, 0x1f, 0xe9, 0x00, 0xb8,
                               0xf9, 0xe6, 0x75, 0x44, 0xd0, 0x58, 0xb4, 0x34, 0xca, 0x9a, 0x36, 0xe6, 0xd7};
static uint8_t found_ends[] = {0, 0, 0, 3, 0, 0, 0, 10, 0, 0, 0, 13, 0, 0, 0, 18, 0, 0, 0, 27};
static uint8_t found_marks[] = {1, 1, 0, 0, 1};
static uint8_t found_indexes[] = {0x10, 0xc3, 0xe5, 0x23, 0x7f, 0x64, 0xd2, 0x42, 0x00, 0x23, 0xc4, 0xd0, 0xc5, 0x91,
                                  0xff, 0xdf, 0xf9, 0x8d, 0xfc, 0x6a, 0x44, 0x68, 0x25, 0xd0, 0xeb, 0xfe, 0x27, 0x50,
                                  0x21, 0xf7, 0xe3, 0x10, 0x00, 0x01, 0xe1, 0x5a, 0x40, 0x35, 0x02, 0xe0};

struct slice {
    uint8_t *bytes;
    size_t len;
};
static const struct slice found_list[SLICES] = {{found_data, sizeof found_data},
                                                {found_ends, sizeof found_ends},
                                                {found_marks, sizeof found_marks},
                                                {found_indexes, sizeof found_indexes}};

static const char *const number_names[NUMBERS] = {"set_size", "proof_size", "max_retries",   "search_width",  "dfs_bound",
                                                  "x_high",   "x_low",      "retry_counter", "search_counter"};
static const char *const slice_names[SLICES] = {"data", "ends", "marks", "indexes"};

/*
 * What is due with the row's and the column's number exchanged: a setting past its limit 1 or 2, another proof_size 20, a counter past
 * its limit 21; where none of these, the Rust's verdict or, with another X, the definition's, 22.
 */
static const uint32_t exchanged[NUMBERS][NUMBERS] = {
    /*                    set_size, proof_size, max_retries, search_width, dfs_bound, x_high, x_low, R, S */
    /* set_size       */ {0, 20, 22, 21, 1, 1, 1, 21, 22},
    /* proof_size     */ {0, 0, 20, 20, 2, 2, 2, 20, 20},
    /* max_retries    */ {0, 0, 0, 21, 2, 2, 2, 21, 22},
    /* search_width   */ {0, 0, 0, 0, 2, 2, 2, 21, 21},
    /* dfs_bound      */ {0, 0, 0, 0, 0, 2, 2, 21, 21},
    /* x_high         */ {0, 0, 0, 0, 0, 0, 22, 21, 21},
    /* x_low          */ {0, 0, 0, 0, 0, 0, 0, 21, 21},
    /* retry_counter  */ {0, 0, 0, 0, 0, 0, 0, 0, 21},
};

static void call(const char *what, const uint64_t *n, const struct slice *s, uint32_t answer) {
    const struct settings settings = {n[0], n[1], n[2], n[3], n[4], n[X_HIGH], n[X_LOW]};
    const struct list l = {s[0].len, s[1].len, s[2].len, s[3].len, s[0].bytes, s[1].bytes, s[2].bytes, s[3].bytes};
    verify(what, settings, n[7], n[8], l, answer);
}

static void under_x(const char *what, uint64_t x_high, uint64_t x_low, uint32_t answer) {
    uint64_t n[NUMBERS];
    memcpy(n, found, sizeof n);
    n[X_HIGH] = x_high;
    n[X_LOW] = x_low;
    call(what, n, found_list, answer);
}

/* The chain passes exactly when its number is below X. */
static void thresholds(void) {
    under_x("the X of the Rust's q", UINT64_C(0x00624dd2f1a9fbe8), 0, ALBA_ACCEPTED);
    under_x("X is the number's next", number_high, number_low + 1, ALBA_ACCEPTED);
    under_x("X is the number", number_high, number_low, ALBA_INVALID_PROOF);
    under_x("X has the number's high word and a low word of 0", number_high, 0, ALBA_INVALID_PROOF);
    under_x("X has the number's high word and a low word of all ones", number_high, UINT64_MAX, ALBA_ACCEPTED);
    under_x("X has the high word after the number's, and 0", number_high + 1, 0, ALBA_ACCEPTED);
    under_x("X has the high word before the number's, and all ones", number_high - 1, UINT64_MAX, ALBA_INVALID_PROOF);
    under_x("X is 0", 0, 0, ALBA_INVALID_PROOF);
    under_x("X is 1", 0, 1, ALBA_INVALID_PROOF);
    under_x("X is 2^64 - 1", 0, UINT64_MAX, ALBA_INVALID_PROOF);
    under_x("X is 2^64", 1, 0, ALBA_INVALID_PROOF);
    under_x("X is all ones", UINT64_MAX, UINT64_MAX, ALBA_ACCEPTED);
}

/* Names a call with two arguments exchanged. If it is accepted too, it doesn't tell them apart, and the test is at fault. */
static const char *exchange(const char *one, const char *other, uint32_t answer) {
    static char what[80];
    snprintf(what, sizeof what, "%s and %s exchanged", one, other);
    if (answer == ALBA_ACCEPTED) {
        failed++;
        printf("FAILED: the test itself: with %s the same answer is due\n", what);
    }
    return what;
}

/* No contract numbers the parameters: each two of one type are exchanged in a call that is accepted as it stands. */
static void parameters(void) {
    call("a proof of the Rust's", found, found_list, ALBA_ACCEPTED);
    for (unsigned i = 0; i < NUMBERS; i++)
        for (unsigned j = i + 1; j < NUMBERS; j++) {
            uint64_t n[NUMBERS];
            memcpy(n, found, sizeof n);
            n[i] = found[j];
            n[j] = found[i];
            call(exchange(number_names[i], number_names[j], exchanged[i][j]), n, found_list, exchanged[i][j]);
        }
    /* The four lengths are such that no exchange of two slices leaves whole and equal counts. */
    for (unsigned i = 0; i < SLICES; i++)
        for (unsigned j = i + 1; j < SLICES; j++) {
            struct slice s[SLICES];
            memcpy(s, found_list, sizeof s);
            s[i] = found_list[j];
            s[j] = found_list[i];
            call(exchange(slice_names[i], slice_names[j], ALBA_MALFORMED), found, s, ALBA_MALFORMED);
        }
}

int main(void) {
    accepted();
    settings();
    malformed();
    too_large();
    judged();
    thresholds();
    parameters();
    printf("verify: %u checks, %u failed\n", made, failed);
    return failed == 0 ? 0 : 1;
}
