/*
 * The centralized telescope's sampler and verifier, for C and C++. For x86-64 (ELF) link libsampling.a for the sampler and for the call
 * that makes the threshold X from a probability, and libcentralized_telescope.a for the verifier; the first needs no library, the second
 * memcpy of C's own. For any machine compile telescope.c of the folder dist, which has all four calls, with a C99 compiler.
 *
 * No function has a precondition on its values: each input gets one of the answers below. A pointer must be valid for the length
 * that follows it, for reads (const) or for writes; with length 0 it may be null. What is lent for writing must not overlap what is
 * lent for reading. Nothing is kept after a call, nothing is allocated, and the functions may run on several threads at once.
 *
 * A loader has its settings as whole numbers, in a header of its own, such as the program plan prints: `plan security S C N F LONGEST`.
 * X, a number of 128 bits, stands there, and in every call that takes or gives it, as two words of 64 bits, the high one first. Only who
 * starts from a probability q, a host that makes such a header, has a double: alba_threshold makes X of it.
 *
 * What ALBA_ACCEPTED, green, means: the chain of the proof's elements exists and passes under the settings, which must be the loader's
 * own. It is a sign of more than f elements, f being smaller than set_size, in this sense: whatever someone sends who has at most f, he goes
 * green under at most one in 2^(s + 1) of all functions in SHA-256's place, where, with the small case's settings for completeness c,
 *
 *     set_size^proof_size * 1442695 >= f^proof_size * 2^(s + 5) * c * 1000000
 *
 * Both are proved, the count by the theorem seldom_green, in which an s above 207 counts as 207. What stays assumed:
 * - SHA-256 behaves as a function drawn at random, on the strings that are hashed here.
 * - The elements are fixed before that function is asked, and the f are all that he could send. Who can invent elements, or choose among
 *   many readings of a board, has more: so they must be genuine, and one to a board. With k such lists it is k times as many functions.
 * - Elements count by their Tail, the data with the index behind it. Two that have the same Tail are one.
 * - Completeness, that an honest server finds a proof, is a claim of the telescope's paper (NOTICE) and not proved here.
 *
 * Set_size 400, proof_size 328 and c = 10, say, have s = 128 against f = 300. `plan security` works proof_size out of s, c, set_size and f;
 * docs/GREEN.md says more of them, and has a table. What green doesn't mean:
 * - that elements are distinct: a proof may have one several times, and one that is listed often counts once. The server has to call
 *   check_distinct on its list: two elements are the same when data and mark agree and, where the mark is 1, the index.
 * - that an element is genuine: invented bytes go green, and so do one board's data under many indexes, which are different elements. A
 *   loader must know of each element of a proof, its index included, that a bench made it, by a signature or a key in its data.
 * - where data stop and an index starts: the hash takes the data and, right behind, the index in 8 bytes. An index can be rewritten as
 *   eight more data bytes, or eight data bytes as an index, and the proof stays green. Who reads board numbers out of elements must
 *   know that.
 */
#ifndef ALBA_TELESCOPE_H
#define ALBA_TELESCOPE_H

#include <stddef.h>
#include <stdint.h>

#ifdef __cplusplus
extern "C" {
#endif

/* Lengths. */
#define ALBA_HASH_BYTES 16u /* of h: the first 16 bytes of a digest */
#define ALBA_DRAW_BYTES 8u  /* of a draw's out: a number of 64 bits, big-endian */
#define ALBA_X_WORDS 2u     /* of alba_threshold's out: X's high word, then its low */

/* The most that a setting, a list or an element may be; past it alba_verify refuses by number. */
#define ALBA_MAX_SET_SIZE 32768u  /* and at least 1 */
#define ALBA_MAX_PROOF_SIZE 1024u /* a list of another length than proof_size gets 20, not 2 */
#define ALBA_MAX_MAX_RETRIES 65535u
#define ALBA_MAX_SEARCH_WIDTH UINT64_C(0xffffffff)
#define ALBA_MAX_DFS_BOUND (UINT64_C(1) << 48)
#define ALBA_MAX_ELEMENTS 65536u
#define ALBA_MAX_DATA_BYTES 4096u /* in one element */

/* Answers of alba_sample_uniform. */
#define ALBA_DRAWN 0u   /* a value is in out */
#define ALBA_NO_DRAW 1u /* h is in the part that no value gets; out is untouched */

/* Answers of alba_sample_bernoulli. */
#define ALBA_NO 0u
#define ALBA_YES 1u

/* Answer of alba_threshold. */
#define ALBA_CONVERTED 0u /* X is in out */

/* Answer of alba_verify. */
#define ALBA_ACCEPTED 0u

/* Refusals of the sampler and of alba_threshold. */
#define ALBA_BAD_PROBABILITY 3u /* q is no number from 0 to 1: alba_threshold's alone */
#define ALBA_BAD_RANGE 7u       /* n is 0: alba_sample_uniform's alone */
#define ALBA_BAD_LENGTH 8u      /* h_len is not 16, or out_len is not what the call writes: 8 bytes, or 2 numbers of alba_threshold's */

/* Refusals of the verifier. */
#define ALBA_BAD_SET_SIZE 1u               /* set_size is not 1 to 32768 */
#define ALBA_BAD_LIMIT 2u                  /* proof_size, max_retries, search_width or dfs_bound is over its limit; every X is lawful */
#define ALBA_MALFORMED 4u                  /* ends, marks and indexes don't make a list over the data */
#define ALBA_TOO_LARGE 5u                  /* too many elements, or too many data bytes in one */
#define ALBA_INCORRECT_NUMBER_ELEMENTS 20u /* the list's length is not proof_size */
#define ALBA_INVALID_PARAMETERS 21u        /* search_counter >= search_width, or retry_counter >= max_retries */
#define ALBA_INVALID_PROOF 22u             /* the elements make no chain that passes */

/*
 * Draws a number from 0 to n - 1 out of the 16 bytes of h.
 *
 * For n a power of two the first half of h, big-endian, is taken modulo n. For any other n all of h is, as one big-endian number, but
 * only if that is below the greatest multiple of n up to 2^128 - 1: from there on there is no draw.
 *
 * h, h_len      the hash; h_len must be 16
 * n             how many numbers there are to draw from: 1 to 2^64 - 1
 * out, out_len  where the number is written, as 8 big-endian bytes; out_len must be 8
 *
 * Answers ALBA_BAD_RANGE if n is 0; else ALBA_BAD_LENGTH if either length is wrong; else ALBA_NO_DRAW; else ALBA_DRAWN.
 * out is written only with ALBA_DRAWN.
 */
uint32_t alba_sample_uniform(const uint8_t *h, size_t h_len, uint64_t n, uint8_t *out, size_t out_len);

/*
 * Says yes where the 16 bytes of h, as one big-endian number, are below X: with probability X / 2^128, if h is random.
 *
 * h, h_len  the hash; h_len must be 16
 * x_high    X's high word
 * x_low     X's low word: X is x_high * 2^64 + x_low, and may be any number of 128 bits
 *
 * Answers ALBA_BAD_LENGTH if h_len is wrong; else ALBA_YES or ALBA_NO.
 */
uint32_t alba_sample_bernoulli(const uint8_t *h, size_t h_len, uint64_t x_high, uint64_t x_low);

/*
 * Makes X from a probability: the whole part of q * 2^128, q taken as exactly what the double says, but at most 2^128 - 1. Not every X is
 * that of a q, since a double has 53 digits.
 *
 * q             the probability: 0 to 1, both included; negative zero is zero
 * out, out_len  where X is written, its high word, then its low; out_len, a count of numbers, must be 2
 *
 * Answers ALBA_BAD_LENGTH if out_len is wrong; else ALBA_BAD_PROBABILITY; else ALBA_CONVERTED. out is written only with ALBA_CONVERTED.
 */
uint32_t alba_threshold(double q, uint64_t *out, size_t out_len);

/*
 * Says whether a proof, two counters and a list of elements, is accepted under the settings.
 *
 * The settings:
 * set_size        n, the size that the prover's set is taken to have; a proof shows a smaller bound (above): 1 to 32768
 * proof_size      how many elements a proof has: 0 to 1024
 * max_retries     the retry counter must be below it: 0 to 65535
 * search_width    the search counter must be below it: 0 to 2^32 - 1
 * dfs_bound       the prover's bound on its steps, which the verdict doesn't depend on: 0 to 2^48
 * x_high, x_low   X by its two words, any number of 128 bits: a chain passes if alba_sample_bernoulli says yes to a hash of its last round
 *
 * The proof:
 * retry_counter   the prover's try
 * search_counter  the start within that try
 * data            the data bytes of all elements, one element's after the other's; they may go on behind the last
 * ends            4 bytes for each element, big-endian: where its data stops, counted from the start of data; the first element's
 *                 starts at 0, every other element's where the data before it stops
 * marks           a byte for each element: 1 if it has an index, else 0
 * indexes         8 bytes for each element, big-endian: its index, ignored where the mark is 0
 *
 * Each ..._len is a count of bytes, so ends_len is 4 times and indexes_len 8 times marks_len.
 *
 * Answers the first of these that it meets: ALBA_BAD_SET_SIZE; ALBA_BAD_LIMIT; ALBA_MALFORMED, if ends_len is no multiple of 4 or
 * indexes_len none of 8, if the counts differ, if a mark is over 1, or if an end is before the one before it or past data_len;
 * ALBA_TOO_LARGE; ALBA_INCORRECT_NUMBER_ELEMENTS; ALBA_INVALID_PARAMETERS; ALBA_INVALID_PROOF. Else ALBA_ACCEPTED.
 * It takes time in proportion to what it is lent. The archive's takes less than 3,000 bytes of stack: 2,272 at most were measured, whatever
 * proof_size is (c/stack.c, with symbols bound before; a first call in which memcpy is still looked up took 4,920). What telescope.c takes on
 * a small machine stands in docs/C.md, under Its size; how long it takes at worst in SECURITY.md.
 */
uint32_t alba_verify(uint64_t set_size, uint64_t proof_size, uint64_t max_retries, uint64_t search_width, uint64_t dfs_bound,
                     uint64_t x_high, uint64_t x_low, uint64_t retry_counter, uint64_t search_counter, const uint8_t *data, size_t data_len,
                     const uint8_t *ends, size_t ends_len, const uint8_t *marks, size_t marks_len, const uint8_t *indexes,
                     size_t indexes_len);

#ifdef __cplusplus
}
#endif

#endif
