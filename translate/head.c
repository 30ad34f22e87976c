/*
 * The centralized telescope's sampler, converter and verifier in C99, for any machine that has uint8_t to uint64_t. telescope.h says what
 * the calls take and answer.
 *
 * Made by translate/mir_to_c.py out of the proved MIR of the crates sampling and centralized_telescope: not written by hand, and not to be
 * changed by hand. What is proved is the MIR; the translator and the C compiler are not. The head of the translator says what each form of
 * MIR becomes. A comment over each function has its path in Rattle; l0 is its result, l1 and so on are its parameters, then its locals, and
 * f0 and so on are the fields of a struct, all in the order in which Rattle has them. unsigned char * is an address, which counts bytes.
 *
 * Nothing is called that isn't here, but a compiler may call memcpy and memset to copy a struct or to clear it, and its own helpers, such
 * as for the division of 64-bit numbers. Switches, to be defined when it is compiled:
 *   ALBA_NO_DOUBLE    leaves alba_threshold out, which alone needs double
 *   ALBA_OWN_MEMORY   brings a plain memcpy and memset, for who has none to link with
 */
#include "telescope.h"

#ifdef ALBA_OWN_MEMORY
void *memcpy(void *to, const void *from, size_t size);
void *memset(void *to, int value, size_t size);

/* Volatile, since a compiler may make a call of memcpy of a loop that copies, and that would be a call of itself. */
void *memcpy(void *to, const void *from, size_t size) {
    volatile unsigned char *written = (volatile unsigned char *)to;
    const unsigned char *read = (const unsigned char *)from;
    size_t i;
    for (i = 0; i < size; i++)
        written[i] = read[i];
    return to;
}

void *memset(void *to, int value, size_t size) {
    volatile unsigned char *written = (volatile unsigned char *)to;
    size_t i;
    for (i = 0; i < size; i++)
        written[i] = (unsigned char)value;
    return to;
}
#endif

/* A slice: the address of its first element, and how many there are. */
struct slice {
    unsigned char *f0;
    uint64_t f1;
};

/* A slice as C lends it. With length 0 the pointer may be null, and C adds nothing to null, not even 0: what is never read stands in. */
static struct slice lent(const void *first, size_t count) {
    static const uint64_t nothing = 0;
    struct slice made;
    made.f0 = (unsigned char *)(count == 0 ? (const void *)&nothing : first);
    made.f1 = count;
    return made;
}

