/*
 * What a loader does around alba_verify: it reads a stored proof from a file, asks, and shows green or dark with the number.
 *
 *     example_loader PROOF
 *     example_loader PROOF SET_SIZE PROOF_SIZE MAX_RETRIES SEARCH_WIDTH DFS_BOUND X
 *
 * PROOF is a file as the program prove_and_verify writes it: a line `proof R S` with the two counters, then a line for each element: its
 * data in hexadecimal (`-` if it has none) and, if the element has an index, a space and the index.
 *
 * A drive has its settings built in and never takes them from whoever brings the proof. So does this loader, compiled with
 * -DALBA_SETTINGS='"FILE"': FILE is a header such as sample_settings.h, which the program `plan` prints. Compiled without one,
 * it takes them as arguments, X as 32 hexadecimal digits, so that the example can be tried with several.
 *
 * It ends with status 0 for green, 1 for dark by the verifier's number, and 2 for dark because there was nothing to ask about: a file that
 * can't be read or isn't in this form, or an argument that is no number. Nothing is allocated.
 */
#include "telescope.h"

#include <inttypes.h>
#include <stdbool.h>
#include <stdio.h>
#include <string.h>

/* An element and a byte more than the limits admit, so that a list past them still reaches the verifier and gets its number. */
enum { ELEMENTS = ALBA_MAX_PROOF_SIZE + 1, BYTES = ALBA_MAX_DATA_BYTES + 1 };
/* A line: the data in hexadecimal, a space and an index of 20 digits. */
enum { LINE = 2 * BYTES + 21 };

struct settings {
    uint64_t set_size, proof_size, max_retries, search_width, dfs_bound, x_high, x_low;
};

struct proof {
    uint64_t retry_counter, search_counter;
    size_t elements, data_len;
    uint8_t data[ELEMENTS * BYTES], ends[4 * ELEMENTS], marks[ELEMENTS], indexes[8 * ELEMENTS];
};

/* What is left of a line, or of an argument. */
struct text {
    const char *at, *end;
};

static bool is_at_end(const struct text *t) { return t->at == t->end; }

static bool skip(struct text *t, const char *word) {
    const size_t length = strlen(word);
    if ((size_t)(t->end - t->at) < length || memcmp(t->at, word, length) != 0)
        return false;
    t->at += length;
    return true;
}

/* The value of a hexadecimal digit, or -1. */
static int digit(char c) {
    if (c >= '0' && c <= '9')
        return c - '0';
    return c >= 'a' && c <= 'f' ? c - 'a' + 10 : -1;
}

/* A number of 64 bits in decimal: digits and nothing else. */
static bool take_number(struct text *t, uint64_t *number) {
    const char *first = t->at;
    *number = 0;
    for (; !is_at_end(t) && *t->at >= '0' && *t->at <= '9'; t->at++) {
        const unsigned value = (unsigned)(*t->at - '0');
        if (*number > (UINT64_MAX - value) / 10)
            return false;
        *number = 10 * *number + value;
    }
    return t->at != first;
}

/* A byte: two hexadecimal digits. */
static bool take_byte(struct text *t, uint8_t *byte) {
    if (t->end - t->at < 2 || digit(t->at[0]) < 0 || digit(t->at[1]) < 0)
        return false;
    *byte = (uint8_t)(16 * digit(t->at[0]) + digit(t->at[1]));
    t->at += 2;
    return true;
}

static void put(uint8_t *bytes, unsigned count, uint64_t value) {
    while (count-- > 0) {
        bytes[count] = (uint8_t)value;
        value >>= 8;
    }
}

/* The next line without its end: its length, -1 behind the last, -2 for one that is too long, -3 where the file can't be read. */
static int next_line(FILE *file, char line[LINE]) {
    int length = 0, c;
    while ((c = getc(file)) != EOF && c != '\n') {
        if (length == LINE)
            return -2;
        line[length++] = (char)c;
    }
    if (ferror(file))
        return -3;
    return c == EOF && length == 0 ? -1 : length;
}

/* What is wrong with the first line, or NULL. */
static const char *take_counters(struct text line, struct proof *p) {
    if (skip(&line, "proof ") && take_number(&line, &p->retry_counter) && skip(&line, " ") && take_number(&line, &p->search_counter) &&
        is_at_end(&line))
        return NULL;
    return "not `proof` and two counters";
}

static bool take_data(struct text *t, struct proof *p) {
    const size_t start = p->data_len;
    if (skip(t, "-"))
        return true;
    while (p->data_len - start < BYTES && take_byte(t, &p->data[p->data_len]))
        p->data_len++;
    return p->data_len > start;
}

/* What is wrong with another line, or NULL. */
static const char *take_element(struct text line, struct proof *p) {
    const size_t i = p->elements;
    uint64_t index = 0;
    if (i == ELEMENTS)
        return "more elements than any proof has";
    if (!take_data(&line, p))
        return "no data in hexadecimal";
    p->marks[i] = skip(&line, " ");
    if (p->marks[i] && !take_number(&line, &index))
        return "no index of 64 bits behind the space";
    if (!is_at_end(&line))
        return "something behind the element, or over 4097 data bytes";
    put(p->ends + 4 * i, 4, p->data_len);
    put(p->indexes + 8 * i, 8, index);
    p->elements++;
    return NULL;
}

/* Says why the verifier wasn't asked. What can't be read is never green. */
static int unread(const char *what, unsigned line, const char *why) {
    if (line > 0)
        printf("dark: %s, line %u: %s\n", what, line, why);
    else
        printf("dark: %s: %s\n", what, why);
    return 2;
}

static int read_proof(const char *name, struct proof *p) {
    char line[LINE];
    const char *wrong = NULL;
    unsigned number = 0;
    int length = 0;
    FILE *file = fopen(name, "rb");
    if (file == NULL)
        return unread(name, 0, "can't be opened");
    while (wrong == NULL && (length = next_line(file, line)) >= 0) {
        const struct text t = {line, line + length};
        wrong = number++ == 0 ? take_counters(t, p) : take_element(t, p);
    }
    fclose(file);
    if (wrong != NULL)
        return unread(name, number, wrong);
    if (length == -2)
        return unread(name, number + 1, "too long a line");
    if (length == -3)
        return unread(name, 0, "can't be read");
    return number == 0 ? unread(name, 0, "empty") : 0;
}

#ifdef ALBA_SETTINGS

#include ALBA_SETTINGS

enum { SETTINGS = 0 };
#define USAGE "example_loader PROOF"

static bool take_settings(char **arguments, struct settings *s) {
    (void)arguments;
    *s = (struct settings){
        ALBA_SET_SIZE, ALBA_PROOF_SIZE, ALBA_MAX_RETRIES, ALBA_SEARCH_WIDTH, ALBA_DFS_BOUND, ALBA_X_HIGH, ALBA_X_LOW,
    };
    return true;
}

#else

enum { SETTINGS = 6 };
#define USAGE "example_loader PROOF SET_SIZE PROOF_SIZE MAX_RETRIES SEARCH_WIDTH DFS_BOUND X"

/* A word of X: 16 hexadecimal digits. */
static bool take_word(struct text *t, uint64_t *word) {
    uint8_t byte;
    *word = 0;
    for (int i = 0; i < 8; i++) {
        if (!take_byte(t, &byte))
            return false;
        *word = *word << 8 | byte;
    }
    return true;
}

static bool take_settings(char **arguments, struct settings *s) {
    uint64_t *const numbers[5] = {&s->set_size, &s->proof_size, &s->max_retries, &s->search_width, &s->dfs_bound};
    for (int i = 0; i < 5; i++) {
        struct text t = {arguments[i], arguments[i] + strlen(arguments[i])};
        if (!take_number(&t, numbers[i]) || !is_at_end(&t))
            return false;
    }
    struct text t = {arguments[5], arguments[5] + strlen(arguments[5])};
    return take_word(&t, &s->x_high) && take_word(&t, &s->x_low) && is_at_end(&t);
}

#endif

static const char *words(uint32_t number) {
    switch (number) {
    case ALBA_ACCEPTED:
        return "the proof is accepted";
    case ALBA_BAD_SET_SIZE:
        return "the set size is not 1 to 32768";
    case ALBA_BAD_LIMIT:
        return "the proof size, the retries, the width or the bound is over its limit";
    case ALBA_MALFORMED:
        return "the elements make no list";
    case ALBA_TOO_LARGE:
        return "too many elements, or too many data bytes in one";
    case ALBA_INCORRECT_NUMBER_ELEMENTS:
        return "another number of elements than the proof size";
    case ALBA_INVALID_PARAMETERS:
        return "a counter is at its limit or over it";
    case ALBA_INVALID_PROOF:
        return "the elements' chain doesn't exist or doesn't pass";
    default:
        return "an answer that telescope.h doesn't have";
    }
}

int main(int count, char **arguments) {
    static struct proof p;
    struct settings s;
    if (count != 2 + SETTINGS)
        return unread("usage", 0, USAGE);
    if (!take_settings(arguments + 2, &s))
        return unread("a setting", 0, "five numbers, and the 32 hexadecimal digits of X");
    const int status = read_proof(arguments[1], &p);
    if (status != 0)
        return status;
    const uint32_t number =
        alba_verify(s.set_size, s.proof_size, s.max_retries, s.search_width, s.dfs_bound, s.x_high, s.x_low, p.retry_counter,
                    p.search_counter, p.data, p.data_len, p.ends, 4 * p.elements, p.marks, p.elements, p.indexes, 8 * p.elements);
    /*
     * Green says, by the telescope's theorem, which isn't proved here, that more than f different elements stand behind the proof but for a
     * chance of at most 2^-s (telescope.h). It doesn't say that any of them is genuine: invented bytes go green, so a drive also checks of
     * each element, its index included, that a bench made it.
     */
    printf("%s (%" PRIu32 "): %s\n", number == ALBA_ACCEPTED ? "green" : "dark", number, words(number));
    return number == ALBA_ACCEPTED ? 0 : 1;
}
