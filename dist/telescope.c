/*
 * The centralized telescope's sampler, converter and verifier in C99, for any machine that has uint8_t to uint64_t. telescope.h says what
 * the calls take and answer.
 *
 * Made by translate/mir_to_c.py out of the proved MIR of the crates sampling and centralized_telescope: not written by hand, and not to be
 * changed by hand. What is proved is the MIR; the translator and the C compiler are not. The head of the translator says what each form of
 * MIR becomes. A comment over each function has its path in Rattle; l0 is its result, l1 and so on are its parameters, then its locals, and
 * f0 and so on are the fields of a struct, all in the order in which Rattle has them. unsigned char * is an address, which counts bytes.
 *
 * Nothing is called that isn't here, but a compiler may call memcpy and memset to copy a struct or to clear it, and its own helpers, such
 * as for the division of 64-bit numbers. Switches, to be defined when it is compiled:
 *   ALBA_NO_DOUBLE    leaves alba_threshold out, which alone needs double
 *   ALBA_OWN_MEMORY   brings a plain memcpy and memset, for who has none to link with
 */
#include "telescope.h"

#ifdef ALBA_OWN_MEMORY
void *memcpy(void *to, const void *from, size_t size);
void *memset(void *to, int value, size_t size);

/* Volatile, since a compiler may make a call of memcpy of a loop that copies, and that would be a call of itself. */
void *memcpy(void *to, const void *from, size_t size) {
    volatile unsigned char *written = (volatile unsigned char *)to;
    const unsigned char *read = (const unsigned char *)from;
    size_t i;
    for (i = 0; i < size; i++)
        written[i] = read[i];
    return to;
}

void *memset(void *to, int value, size_t size) {
    volatile unsigned char *written = (volatile unsigned char *)to;
    size_t i;
    for (i = 0; i < size; i++)
        written[i] = (unsigned char)value;
    return to;
}
#endif

/* A slice: the address of its first element, and how many there are. */
struct slice {
    unsigned char *f0;
    uint64_t f1;
};

/* A slice as C lends it. With length 0 the pointer may be null, and C adds nothing to null, not even 0: what is never read stands in. */
static struct slice lent(const void *first, size_t count) {
    static const uint64_t nothing = 0;
    struct slice made;
    made.f0 = (unsigned char *)(count == 0 ? (const void *)&nothing : first);
    made.f1 = count;
    return made;
}

/* core::option::Option<u64> */
struct core_option_Option_u64 {
    uint8_t tag;
    union {
        struct {
            uint64_t f0;
        } v1;
    } u;
};

/* sampling::sample::EmptyRange */
struct sampling_sample_EmptyRange {
    uint8_t nothing;
};

/* core::result::Result<core::option::Option<u64>, sampling::sample::EmptyRange> */
struct core_result_Result_Option_u64_EmptyRange {
    uint8_t tag;
    union {
        struct {
            struct core_option_Option_u64 f0;
        } v0;
        struct {
            struct sampling_sample_EmptyRange f0;
        } v1;
    } u;
};

struct array_16_uint8_t {
    uint8_t a[16];
};

/* sampling::sample::U128 */
struct sampling_sample_U128 {
    uint64_t f0;
    uint64_t f1;
};

/* core::cmp::Ordering */
struct core_cmp_Ordering {
    uint8_t tag;
};

/* core::option::Option<core::cmp::Ordering> */
struct core_option_Option_Ordering {
    uint8_t tag;
    union {
        struct {
            struct core_cmp_Ordering f0;
        } v1;
    } u;
};

/* sampling::sample::NotProbability */
struct sampling_sample_NotProbability {
    uint8_t nothing;
};

/* core::result::Result<sampling::sample::U128, sampling::sample::NotProbability> */
struct core_result_Result_U128_NotProbability {
    uint8_t tag;
    union {
        struct {
            struct sampling_sample_U128 f0;
        } v0;
        struct {
            struct sampling_sample_NotProbability f0;
        } v1;
    } u;
};

/* centralized_telescope::round::RetryCounter */
struct centralized_telescope_round_RetryCounter {
    uint64_t f0;
};

/* centralized_telescope::round::SearchCounter */
struct centralized_telescope_round_SearchCounter {
    uint64_t f0;
};

/* centralized_telescope::in_bytes::LentBytes */
struct centralized_telescope_in_bytes_LentBytes {
    struct slice f0;
    struct slice f1;
    struct slice f2;
    struct slice f3;
};

/* centralized_telescope::errors::Refusal */
struct centralized_telescope_errors_Refusal {
    uint8_t tag;
};

/* centralized_telescope::proof::Rejection */
struct centralized_telescope_proof_Rejection {
    uint8_t tag;
    union {
        struct {
            struct centralized_telescope_errors_Refusal f0;
        } v3;
    } u;
};

/* core::result::Result<unit, centralized_telescope::proof::Rejection> */
struct core_result_Result_unit_Rejection {
    uint8_t tag;
    union {
        struct {
            struct centralized_telescope_proof_Rejection f0;
        } v1;
    } u;
};

/* centralized_telescope::params::Params */
struct centralized_telescope_params_Params {
    uint64_t f0;
    uint64_t f1;
    uint64_t f2;
    uint64_t f3;
    uint64_t f4;
    struct sampling_sample_U128 f5;
};

/* centralized_telescope::in_bytes::AcceptedBytes */
struct centralized_telescope_in_bytes_AcceptedBytes {
    struct centralized_telescope_in_bytes_LentBytes f0;
};

/* centralized_telescope::proof::Proof<centralized_telescope::in_bytes::AcceptedBytes> */
struct centralized_telescope_proof_Proof_AcceptedBytes {
    struct centralized_telescope_round_RetryCounter f0;
    struct centralized_telescope_round_SearchCounter f1;
    struct centralized_telescope_in_bytes_AcceptedBytes f2;
};

/* core::result::ErrResidual<centralized_telescope::errors::Refusal> */
struct core_result_ErrResidual_Refusal {
    struct centralized_telescope_errors_Refusal f0;
};

/* core::ops::ControlFlow<core::result::ErrResidual<centralized_telescope::errors::Refusal>, unit> */
struct core_ops_ControlFlow_ErrResidual_Refusal_unit {
    uint8_t tag;
    union {
        struct {
            struct core_result_ErrResidual_Refusal f0;
        } v1;
    } u;
};

/* core::result::Result<unit, centralized_telescope::errors::Refusal> */
struct core_result_Result_unit_Refusal {
    uint8_t tag;
    union {
        struct {
            struct centralized_telescope_errors_Refusal f0;
        } v1;
    } u;
};

/* core::ops::ControlFlow<core::result::ErrResidual<centralized_telescope::errors::Refusal>, centralized_telescope::in_bytes::AcceptedBytes> */
struct core_ops_ControlFlow_ErrResidual_Refusal_AcceptedBytes {
    uint8_t tag;
    union {
        struct {
            struct centralized_telescope_in_bytes_AcceptedBytes f0;
        } v0;
        struct {
            struct core_result_ErrResidual_Refusal f0;
        } v1;
    } u;
};

/* core::result::Result<centralized_telescope::in_bytes::AcceptedBytes, centralized_telescope::errors::Refusal> */
struct core_result_Result_AcceptedBytes_Refusal {
    uint8_t tag;
    union {
        struct {
            struct centralized_telescope_in_bytes_AcceptedBytes f0;
        } v0;
        struct {
            struct centralized_telescope_errors_Refusal f0;
        } v1;
    } u;
};

/* centralized_telescope::types::EndsFound */
struct centralized_telescope_types_EndsFound {
    uint8_t f0;
    uint8_t f1;
};

/* centralized_telescope::types::fn::some_mark_over::any+Self */
struct centralized_telescope_types_fn_some_mark_over_any_Self {
    uint8_t nothing;
};

/* core::iter::slices::Iter<u8> */
struct core_iter_slices_Iter_u8 {
    struct slice f0;
};

/* core::option::Option<ref<u8>> */
struct core_option_Option_ref_u8 {
    uint8_t tag;
    union {
        struct {
            unsigned char *f0;
        } v1;
    } u;
};

/* centralized_telescope::exports::fn::find_in_bytes::find_in_ends+Self<slice<u8>> */
struct centralized_telescope_exports_fn_find_in_bytes_find_in_ends_Self_slice_u8 {
    struct slice f0;
};

/* core::result::ErrResidual<centralized_telescope::proof::Rejection> */
struct core_result_ErrResidual_Rejection {
    struct centralized_telescope_proof_Rejection f0;
};

/* core::ops::ControlFlow<core::result::ErrResidual<centralized_telescope::proof::Rejection>, unit> */
struct core_ops_ControlFlow_ErrResidual_Rejection_unit {
    uint8_t tag;
    union {
        struct {
            struct core_result_ErrResidual_Rejection f0;
        } v1;
    } u;
};

/* centralized_telescope::proof::fn::Proof::passes::is_some_and+Self<ref<sampling::sample::U128>> */
struct centralized_telescope_proof_fn_Proof_passes_is_some_and_Self_ref_U128 {
    unsigned char *f0;
};

struct array_32_uint8_t {
    uint8_t a[32];
};

/* centralized_telescope::round::Round */
struct centralized_telescope_round_Round {
    struct array_32_uint8_t f0;
    uint64_t f1;
};

/* core::option::Option<centralized_telescope::round::Round> */
struct core_option_Option_Round {
    uint8_t tag;
    union {
        struct {
            struct centralized_telescope_round_Round f0;
        } v1;
    } u;
};

/* core::option::NoValue */
struct core_option_NoValue {
    uint8_t nothing;
};

/* core::ops::ControlFlow<core::option::NoValue, centralized_telescope::round::Round> */
struct core_ops_ControlFlow_NoValue_Round {
    uint8_t tag;
    union {
        struct {
            struct centralized_telescope_round_Round f0;
        } v0;
        struct {
            struct core_option_NoValue f0;
        } v1;
    } u;
};

/* centralized_telescope::lists::Element */
struct centralized_telescope_lists_Element {
    struct core_option_Option_u64 f0;
    struct slice f1;
};

struct array_20_uint8_t {
    uint8_t a[20];
};

struct array_0_uint8_t {
    uint8_t a[1];
};

struct array_8_uint8_t {
    uint8_t a[8];
};

/* sampling::sha256::TooLong */
struct sampling_sha256_TooLong {
    uint8_t nothing;
};

/* core::result::Result<array<32, u8>, sampling::sha256::TooLong> */
struct core_result_Result_array_32_u8_TooLong {
    uint8_t tag;
    union {
        struct {
            struct array_32_uint8_t f0;
        } v0;
        struct {
            struct sampling_sha256_TooLong f0;
        } v1;
    } u;
};

/* sampling::sha256::State */
struct sampling_sha256_State {
    uint32_t f0;
    uint32_t f1;
    uint32_t f2;
    uint32_t f3;
    uint32_t f4;
    uint32_t f5;
    uint32_t f6;
    uint32_t f7;
};

struct array_64_uint8_t {
    uint8_t a[64];
};

/* sampling::sha256::Hasher */
struct sampling_sha256_Hasher {
    struct sampling_sha256_State f0;
    struct array_64_uint8_t f1;
    uint64_t f2;
};

struct array_128_uint8_t {
    uint8_t a[128];
};

struct array_64_uint32_t {
    uint32_t a[64];
};

struct array_8_uint32_t {
    uint32_t a[8];
};

/* core::ops::ControlFlow<core::option::NoValue, u64> */
struct core_ops_ControlFlow_NoValue_u64 {
    uint8_t tag;
    union {
        struct {
            uint64_t f0;
        } v0;
        struct {
            struct core_option_NoValue f0;
        } v1;
    } u;
};

/* centralized_telescope::exports::fn::start_in_bytes::start_of+Self<slice<u8>> */
struct centralized_telescope_exports_fn_start_in_bytes_start_of_Self_slice_u8 {
    struct slice f0;
};

struct array_18_uint8_t {
    uint8_t a[18];
};

static uint32_t leading_zeros(uint64_t x, uint32_t width) {
    uint32_t n = 0;
    while (n < width && ((x >> (width - 1 - n)) & 1) == 0)
        n++;
    return n;
}

/* sampling::copying::copy_over */
static void sampling_copying_copy_over(struct slice l1, struct slice l2) {
    uint64_t l3;
    uint64_t l4;
    uint8_t l5;
    unsigned char *l6;
    uint8_t l7;
    unsigned char *l8;
    l3 = UINT64_C(0);
    l4 = l1.f1;
    for (;;) {
        l5 = (uint8_t)(l3 < l4);
        if (!l5) {
            goto done_1;
        }
        l6 = l1.f0 + (size_t)l3;
        l7 = (*(uint8_t *)l6);
        l8 = l2.f0 + (size_t)l3;
        (*(uint8_t *)l8) = l7;
        l3 = (uint64_t)(l3 + UINT64_C(1));
    }
    done_1:;
    return;
}

/* sampling::exports::seed_of */
static struct array_16_uint8_t sampling_exports_seed_of(struct slice l1) {
    unsigned char *l4;
    struct array_16_uint8_t l0;
    struct array_16_uint8_t l2;
    struct slice l5;
    {
        const uint8_t value = UINT8_C(0);
        size_t i;
        for (i = 0; i < 16; i++)
            l2.a[i] = value;
    }
    l4 = (unsigned char *)&l2;
    l5 = (struct slice){.f0 = l4, .f1 = UINT64_C(16)};
    sampling_copying_copy_over(l1, l5);
    l0 = l2;
    return l0;
}

/* core::int::usize::min */
static uint64_t core_int_usize_min(uint64_t l1, uint64_t l2) {
    uint64_t l0;
    uint8_t l3;
    uint64_t l4;
    l3 = (uint8_t)(l2 < l1);
    if (l3) {
        l4 = l2;
    } else {
        l4 = l1;
    }
    l0 = l4;
    return l0;
}

/* core::convert::U64FromU8::from */
static uint64_t core_convert_U64FromU8_from(uint8_t l1) {
    uint64_t l0;
    l0 = (uint64_t)l1;
    return l0;
}

/* sampling::big_endian::number_of */
static uint64_t sampling_big_endian_number_of(struct slice l1) {
    uint64_t l0;
    uint64_t l2;
    uint64_t l4;
    unsigned char *l5;
    uint64_t l7;
    uint64_t l8;
    unsigned char *l9;
    uint64_t l10;
    uint8_t l11;
    unsigned char *l12;
    uint64_t l13;
    uint64_t l14;
    uint8_t l15;
    struct slice l3;
    l2 = UINT64_C(0);
    l8 = l1.f1;
    l7 = core_int_usize_min(l8, UINT64_C(8));
    l9 = l1.f0;
    l3 = (struct slice){.f0 = l9, .f1 = l7};
    l4 = UINT64_C(0);
    l10 = l3.f1;
    for (;;) {
        l11 = (uint8_t)(l4 < l10);
        if (!l11) {
            goto done_1;
        }
        l12 = l3.f0 + (size_t)l4;
        l5 = l12;
        l13 = (uint64_t)(l2 * UINT64_C(256));
        l15 = (*(uint8_t *)l5);
        l14 = core_convert_U64FromU8_from(l15);
        l2 = (uint64_t)(l13 + l14);
        l4 = (uint64_t)(l4 + UINT64_C(1));
    }
    done_1:;
    l0 = l2;
    return l0;
}

/* sampling::sample::u128_of */
static struct sampling_sample_U128 sampling_sample_u128_of(struct array_16_uint8_t l1) {
    uint64_t l3;
    uint64_t l4;
    unsigned char *l5;
    unsigned char *l7;
    unsigned char *l8;
    uint64_t l9;
    unsigned char *l10;
    struct sampling_sample_U128 l0;
    struct array_16_uint8_t l2;
    struct slice l6;
    struct slice l11;
    l2 = l1;
    l5 = (unsigned char *)&l2;
    l6 = (struct slice){.f0 = l5, .f1 = UINT64_C(8)};
    l3 = sampling_big_endian_number_of(l6);
    l7 = (unsigned char *)&l2;
    l8 = l7 + (size_t)UINT64_C(8);
    l9 = (uint64_t)(UINT64_C(16) - UINT64_C(8));
    l10 = l8;
    l11 = (struct slice){.f0 = l10, .f1 = l9};
    l4 = sampling_big_endian_number_of(l11);
    l0 = (struct sampling_sample_U128){.f0 = l3, .f1 = l4};
    return l0;
}

/* sampling::sample::is_power_of_two */
static uint8_t sampling_sample_is_power_of_two(uint64_t l1) {
    uint8_t l0;
    uint32_t l2;
    uint32_t l3;
    uint64_t l4;
    uint64_t l5;
    l2 = leading_zeros(l1, 64);
    l3 = (uint32_t)(UINT32_C(63) - l2);
    l4 = (uint64_t)l3;
    l5 = (uint64_t)(UINT64_C(1) << l4);
    l0 = (uint8_t)(l1 == l5);
    return l0;
}

/* sampling::sample::mod_power_of_2 */
static uint64_t sampling_sample_mod_power_of_2(uint64_t l1, uint64_t l2) {
    uint64_t l0;
    uint64_t l3;
    l3 = (uint64_t)(l2 - UINT64_C(1));
    l0 = (uint64_t)(l1 & l3);
    return l0;
}

/* sampling::sample::mod_by_halves */
static uint64_t sampling_sample_mod_by_halves(struct sampling_sample_U128 l1, uint64_t l2) {
    uint64_t l0;
    uint64_t l3;
    uint64_t l4;
    uint64_t l5;
    uint64_t l6;
    uint64_t l7;
    l3 = (uint64_t)(l1.f0 % l2);
    l5 = (uint64_t)(l3 * UINT64_C(4294967296));
    l6 = (uint64_t)(l1.f1 / UINT64_C(4294967296));
    l7 = (uint64_t)(l5 + l6);
    l4 = (uint64_t)(l7 % l2);
    l5 = (uint64_t)(l4 * UINT64_C(4294967296));
    l7 = (uint64_t)(l1.f1 % UINT64_C(4294967296));
    l6 = (uint64_t)(l5 + l7);
    l0 = (uint64_t)(l6 % l2);
    return l0;
}

/* sampling::sample::add_mod */
static uint64_t sampling_sample_add_mod(uint64_t l1, uint64_t l2, uint64_t l3) {
    uint64_t l0;
    uint64_t l4;
    uint8_t l5;
    l4 = (uint64_t)(l3 - l1);
    l5 = (uint8_t)(l2 < l4);
    if (l5) {
        l0 = (uint64_t)(l1 + l2);
        return l0;
    }
    l0 = (uint64_t)(l2 - l4);
    return l0;
}

/* sampling::sample::mod_by_doubling */
static uint64_t sampling_sample_mod_by_doubling(struct sampling_sample_U128 l1, uint64_t l2) {
    uint64_t l0;
    uint64_t l3;
    uint32_t l4;
    uint8_t l5;
    uint64_t l6;
    l3 = (uint64_t)(l1.f0 % l2);
    l4 = UINT32_C(0);
    for (;;) {
        l5 = (uint8_t)(l4 < UINT32_C(64));
        if (!l5) {
            goto done_1;
        }
        l3 = sampling_sample_add_mod(l3, l3, l2);
        l4 = (uint32_t)(l4 + UINT32_C(1));
    }
    done_1:;
    l6 = (uint64_t)(l1.f1 % l2);
    l0 = sampling_sample_add_mod(l3, l6, l2);
    return l0;
}

/* sampling::sample::mod_u128 */
static uint64_t sampling_sample_mod_u128(struct sampling_sample_U128 l1, uint64_t l2) {
    uint64_t l0;
    uint8_t l3;
    l3 = (uint8_t)(l2 <= UINT64_C(4294967296));
    if (l3) {
        l0 = sampling_sample_mod_by_halves(l1, l2);
        return l0;
    }
    l0 = sampling_sample_mod_by_doubling(l1, l2);
    return l0;
}

/* sampling::sample::mod_not_power_of_2 */
static struct core_option_Option_u64 sampling_sample_mod_not_power_of_2(struct sampling_sample_U128 l1, uint64_t l2) {
    uint64_t l3;
    uint8_t l4;
    uint64_t l6;
    uint8_t l7;
    uint64_t l8;
    struct core_option_Option_u64 l0;
    struct sampling_sample_U128 l5;
    l4 = (uint8_t)(l1.f0 == UINT64_C(18446744073709551615));
    if (l4) {
        l5 = (struct sampling_sample_U128){.f0 = UINT64_C(18446744073709551615), .f1 = UINT64_C(18446744073709551615)};
        l3 = sampling_sample_mod_u128(l5, l2);
        l6 = (uint64_t)(UINT64_C(18446744073709551615) - l1.f1);
        l7 = (uint8_t)(l6 <= l3);
        if (l7) {
            l0 = (struct core_option_Option_u64){.tag = 0};
            return l0;
        }
    }
    l8 = sampling_sample_mod_u128(l1, l2);
    l0 = (struct core_option_Option_u64){.tag = 1, .u = {.v1 = {.f0 = l8}}};
    return l0;
}

/* sampling::sample::sample_uniform */
static struct core_result_Result_Option_u64_EmptyRange sampling_sample_sample_uniform(struct array_16_uint8_t l1,
    uint64_t l2) {
    uint8_t l4;
    uint8_t l6;
    uint64_t l7;
    struct core_result_Result_Option_u64_EmptyRange l0;
    struct sampling_sample_U128 l3;
    struct sampling_sample_EmptyRange l5;
    struct core_option_Option_u64 l8;
    struct core_option_Option_u64 l9;
    l4 = (uint8_t)(l2 == UINT64_C(0));
    if (l4) {
        l5 = (struct sampling_sample_EmptyRange){.nothing = 0};
        l0 = (struct core_result_Result_Option_u64_EmptyRange){.tag = 1, .u = {.v1 = {.f0 = l5}}};
        return l0;
    }
    l3 = sampling_sample_u128_of(l1);
    l6 = sampling_sample_is_power_of_two(l2);
    if (l6) {
        l7 = sampling_sample_mod_power_of_2(l3.f0, l2);
        l8 = (struct core_option_Option_u64){.tag = 1, .u = {.v1 = {.f0 = l7}}};
        l0 = (struct core_result_Result_Option_u64_EmptyRange){.tag = 0, .u = {.v0 = {.f0 = l8}}};
        return l0;
    }
    l9 = sampling_sample_mod_not_power_of_2(l3, l2);
    l0 = (struct core_result_Result_Option_u64_EmptyRange){.tag = 0, .u = {.v0 = {.f0 = l9}}};
    return l0;
}

/* sampling::big_endian::write_number */
static void sampling_big_endian_write_number(uint64_t l1, struct slice l2) {
    uint64_t l3;
    uint64_t l4;
    uint8_t l5;
    uint64_t l6;
    uint8_t l7;
    unsigned char *l8;
    l3 = l1;
    l4 = l2.f1;
    for (;;) {
        l5 = (uint8_t)(UINT64_C(0) < l4);
        if (!l5) {
            goto done_1;
        }
        l4 = (uint64_t)(l4 - UINT64_C(1));
        l6 = (uint64_t)(l3 % UINT64_C(256));
        l7 = (uint8_t)l6;
        l8 = l2.f0 + (size_t)l4;
        (*(uint8_t *)l8) = l7;
        l3 = (uint64_t)(l3 / UINT64_C(256));
    }
    done_1:;
    return;
}

/* sampling::exports::alba_sample_uniform */
uint32_t alba_sample_uniform(const uint8_t *a1, size_t a1_len, uint64_t l2, uint8_t *a3, size_t a3_len) {
    struct slice l1 = lent(a1, a1_len);
    struct slice l3 = lent(a3, a3_len);
    uint32_t l0;
    uint64_t l4;
    uint8_t l5;
    uint8_t l6;
    uint64_t l7;
    uint64_t l8;
    uint8_t l9;
    uint32_t l12;
    unsigned char *l14;
    struct core_result_Result_Option_u64_EmptyRange l10;
    struct array_16_uint8_t l11;
    struct slice l15;
    l5 = (uint8_t)(l2 == UINT64_C(0));
    if (l5) {
        l0 = UINT32_C(7);
        return l0;
    }
    l7 = l1.f1;
    l6 = (uint8_t)(l7 != UINT64_C(16));
    if (!l6) {
        l8 = l3.f1;
        l6 = (uint8_t)(l8 != UINT64_C(8));
        l9 = l6;
        if (!l9) {
            goto done_2;
        }
    }
    l0 = UINT32_C(8);
    return l0;
    goto done_1;
    done_2:;
    done_1:;
    l11 = sampling_exports_seed_of(l1);
    l10 = sampling_sample_sample_uniform(l11, l2);
    switch (l10.tag) {
    case UINT8_C(0):
        switch (l10.u.v0.f0.tag) {
        case UINT8_C(1):
            l4 = l10.u.v0.f0.u.v1.f0;
            l14 = l3.f0;
            l15 = (struct slice){.f0 = l14, .f1 = l3.f1};
            sampling_big_endian_write_number(l4, l15);
            l12 = UINT32_C(0);
            break;
        case UINT8_C(0):
        default:
            l12 = UINT32_C(1);
            break;
        }
        break;
    case UINT8_C(1):
    default:
        l12 = UINT32_C(7);
        break;
    }
    l0 = l12;
    return l0;
}

/* core::cmp::numbers::U64Ord::cmp */
static struct core_cmp_Ordering core_cmp_numbers_U64Ord_cmp(unsigned char *l1, unsigned char *l2) {
    uint64_t l3;
    uint64_t l4;
    uint64_t l5;
    uint64_t l6;
    uint8_t l7;
    uint8_t l9;
    struct core_cmp_Ordering l0;
    struct core_cmp_Ordering l8;
    struct core_cmp_Ordering l10;
    l5 = (*(uint64_t *)l1);
    l6 = (*(uint64_t *)l2);
    l3 = l5;
    l4 = l6;
    l7 = (uint8_t)(l3 == l4);
    if (l7) {
        l8 = (struct core_cmp_Ordering){.tag = 1};
    } else {
        l9 = (uint8_t)(l3 < l4);
        if (l9) {
            l10 = (struct core_cmp_Ordering){.tag = 0};
        } else {
            l10 = (struct core_cmp_Ordering){.tag = 2};
        }
        l8 = l10;
    }
    l0 = l8;
    return l0;
}

/* core::cmp::numbers::U64PartialOrd::partial_cmp */
static struct core_option_Option_Ordering core_cmp_numbers_U64PartialOrd_partial_cmp(unsigned char *l1,
    unsigned char *l2) {
    struct core_option_Option_Ordering l0;
    struct core_cmp_Ordering l3;
    l3 = core_cmp_numbers_U64Ord_cmp(l1, l2);
    l0 = (struct core_option_Option_Ordering){.tag = 1, .u = {.v1 = {.f0 = l3}}};
    return l0;
}

/* core::cmp::Ordering::or_partial_cmp<u64> */
static struct core_option_Option_Ordering core_cmp_Ordering_or_partial_cmp_u64(struct core_option_Option_Ordering l1,
    unsigned char *l2, unsigned char *l3) {
    struct core_option_Option_Ordering l0;
    switch (l1.tag) {
    case UINT8_C(1):
        switch (l1.u.v1.f0.tag) {
        case UINT8_C(1):
            l0 = core_cmp_numbers_U64PartialOrd_partial_cmp(l2, l3);
            return l0;
        case UINT8_C(0):
        case UINT8_C(2):
        default:
            goto done_2;
        }
        break;
    case UINT8_C(0):
    default:
        goto done_2;
    }
    done_2:;
    l0 = l1;
    return l0;
}

/* sampling::sample::U128PartialOrd::partial_cmp */
static struct core_option_Option_Ordering sampling_sample_U128PartialOrd_partial_cmp(unsigned char *l1,
    unsigned char *l2) {
    unsigned char *l3;
    unsigned char *l4;
    unsigned char *l5;
    unsigned char *l6;
    struct core_option_Option_Ordering l0;
    struct core_option_Option_Ordering l7;
    l3 = (unsigned char *)&(*(struct sampling_sample_U128 *)l1).f0;
    l4 = (unsigned char *)&(*(struct sampling_sample_U128 *)l1).f1;
    l5 = (unsigned char *)&(*(struct sampling_sample_U128 *)l2).f0;
    l6 = (unsigned char *)&(*(struct sampling_sample_U128 *)l2).f1;
    l7 = core_cmp_numbers_U64PartialOrd_partial_cmp(l3, l5);
    l0 = core_cmp_Ordering_or_partial_cmp_u64(l7, l4, l6);
    return l0;
}

/* core::cmp::Ordering::is_lt */
static uint8_t core_cmp_Ordering_is_lt(struct core_cmp_Ordering l1) {
    uint8_t l0;
    uint8_t l2;
    switch (l1.tag) {
    case UINT8_C(0):
        l2 = 1;
        break;
    case UINT8_C(1):
        l2 = 0;
        break;
    case UINT8_C(2):
    default:
        l2 = 0;
        break;
    }
    l0 = l2;
    return l0;
}

/* core::cmp::PartialOrd::lt<sampling::sample::U128> */
static uint8_t core_cmp_PartialOrd_lt_U128(unsigned char *l1, unsigned char *l2) {
    uint8_t l0;
    uint8_t l5;
    struct core_option_Option_Ordering l4;
    l4 = sampling_sample_U128PartialOrd_partial_cmp(l1, l2);
    switch (l4.tag) {
    case UINT8_C(1):
        l5 = core_cmp_Ordering_is_lt(l4.u.v1.f0);
        break;
    case UINT8_C(0):
    default:
        l5 = 0;
        break;
    }
    l0 = l5;
    return l0;
}

/* sampling::sample::sample_bernoulli */
static uint8_t sampling_sample_sample_bernoulli(struct array_16_uint8_t l1, struct sampling_sample_U128 l2) {
    uint8_t l0;
    unsigned char *l6;
    unsigned char *l7;
    struct sampling_sample_U128 l3;
    struct sampling_sample_U128 l4;
    struct sampling_sample_U128 l5;
    l3 = l2;
    l4 = sampling_sample_u128_of(l1);
    l5 = l4;
    l6 = (unsigned char *)&l5;
    l7 = (unsigned char *)&l3;
    l0 = core_cmp_PartialOrd_lt_U128(l6, l7);
    return l0;
}

/* sampling::exports::alba_sample_bernoulli */
uint32_t alba_sample_bernoulli(const uint8_t *a1, size_t a1_len, uint64_t l2, uint64_t l3) {
    struct slice l1 = lent(a1, a1_len);
    uint32_t l0;
    uint64_t l5;
    uint8_t l6;
    uint8_t l7;
    struct sampling_sample_U128 l4;
    struct array_16_uint8_t l8;
    l5 = l1.f1;
    l6 = (uint8_t)(l5 != UINT64_C(16));
    if (l6) {
        l0 = UINT32_C(8);
        return l0;
    }
    l4 = (struct sampling_sample_U128){.f0 = l2, .f1 = l3};
    l8 = sampling_exports_seed_of(l1);
    l7 = sampling_sample_sample_bernoulli(l8, l4);
    if (l7) {
        l0 = UINT32_C(1);
        return l0;
    }
    l0 = UINT32_C(0);
    return l0;
}

/* centralized_telescope::params::settings_of */
static struct centralized_telescope_params_Params centralized_telescope_params_settings_of(uint64_t l1, uint64_t l2,
    uint64_t l3, uint64_t l4, uint64_t l5, uint64_t l6, uint64_t l7) {
    struct centralized_telescope_params_Params l0;
    struct sampling_sample_U128 l8;
    l8 = (struct sampling_sample_U128){.f0 = l6, .f1 = l7};
    l0 = (struct centralized_telescope_params_Params){.f0 = l1, .f1 = l2, .f2 = l3, .f3 = l4, .f4 = l5, .f5 = l8};
    return l0;
}

/* centralized_telescope::params::is_not_one_to */
static uint8_t centralized_telescope_params_is_not_one_to(uint64_t l1, uint64_t l2) {
    uint8_t l0;
    uint8_t l3;
    l3 = (uint8_t)(l2 < UINT64_C(1));
    if (!l3) {
        l3 = (uint8_t)(l1 < l2);
    }
    l0 = l3;
    return l0;
}

/* centralized_telescope::params::is_limit_broken */
static uint8_t centralized_telescope_params_is_limit_broken(const struct centralized_telescope_params_Params *l1) {
    uint8_t l0;
    uint8_t l2;
    uint8_t l3;
    uint8_t l4;
    l4 = (uint8_t)(UINT64_C(1024) < l1->f1);
    if (!l4) {
        l4 = (uint8_t)(UINT64_C(65535) < l1->f2);
    }
    l3 = l4;
    if (!l3) {
        l3 = (uint8_t)(UINT64_C(4294967295) < l1->f3);
    }
    l2 = l3;
    if (!l2) {
        l2 = (uint8_t)(UINT64_C(281474976710656) < l1->f4);
    }
    l0 = l2;
    return l0;
}

/* centralized_telescope::params::check_params */
static struct core_result_Result_unit_Refusal centralized_telescope_params_check_params(const struct centralized_telescope_params_Params *l1) {
    uint8_t l2;
    uint8_t l4;
    struct core_result_Result_unit_Refusal l0;
    struct centralized_telescope_errors_Refusal l3;
    struct centralized_telescope_errors_Refusal l5;
    l2 = centralized_telescope_params_is_not_one_to(UINT64_C(32768), l1->f0);
    if (l2) {
        l3 = (struct centralized_telescope_errors_Refusal){.tag = 0};
        l0 = (struct core_result_Result_unit_Refusal){.tag = 1, .u = {.v1 = {.f0 = l3}}};
        return l0;
    }
    l4 = centralized_telescope_params_is_limit_broken(l1);
    if (l4) {
        l5 = (struct centralized_telescope_errors_Refusal){.tag = 1};
        l0 = (struct core_result_Result_unit_Refusal){.tag = 1, .u = {.v1 = {.f0 = l5}}};
        return l0;
    }
    l0 = (struct core_result_Result_unit_Refusal){.tag = 0};
    return l0;
}

/* core::result::ResultTry::branch<unit, centralized_telescope::errors::Refusal> */
static struct core_ops_ControlFlow_ErrResidual_Refusal_unit core_result_ResultTry_branch_unit_Refusal(struct core_result_Result_unit_Refusal l1) {
    struct core_ops_ControlFlow_ErrResidual_Refusal_unit l0;
    struct core_ops_ControlFlow_ErrResidual_Refusal_unit l4;
    struct core_result_ErrResidual_Refusal l7;
    switch (l1.tag) {
    case UINT8_C(0):
        l4 = (struct core_ops_ControlFlow_ErrResidual_Refusal_unit){.tag = 0};
        break;
    case UINT8_C(1):
    default:
        l7 = (struct core_result_ErrResidual_Refusal){.f0 = l1.u.v1.f0};
        l4 = (struct core_ops_ControlFlow_ErrResidual_Refusal_unit){.tag = 1, .u = {.v1 = {.f0 = l7}}};
        break;
    }
    l0 = l4;
    return l0;
}

/* centralized_telescope::proof::RejectionFromRefusal::from */
static struct centralized_telescope_proof_Rejection centralized_telescope_proof_RejectionFromRefusal_from(struct centralized_telescope_errors_Refusal l1) {
    struct centralized_telescope_proof_Rejection l0;
    l0 = (struct centralized_telescope_proof_Rejection){.tag = 3, .u = {.v3 = {.f0 = l1}}};
    return l0;
}

/* core::result::ResultFromResidualErrResidual::from_residual<unit, centralized_telescope::errors::Refusal, centralized_telescope::proof::Rejection> */
static struct core_result_Result_unit_Rejection core_result_ResultFromResidualErrResidual_from_residual_unit_Refusal_Rejection(struct core_result_ErrResidual_Refusal l1) {
    struct core_result_Result_unit_Rejection l0;
    struct centralized_telescope_proof_Rejection l2;
    l2 = centralized_telescope_proof_RejectionFromRefusal_from(l1.f0);
    l0 = (struct core_result_Result_unit_Rejection){.tag = 1, .u = {.v1 = {.f0 = l2}}};
    return l0;
}

/* centralized_telescope::exports::end_count */
static uint64_t centralized_telescope_exports_end_count(struct slice l1) {
    uint64_t l0;
    uint64_t l2;
    l2 = l1.f1;
    l0 = (uint64_t)(l2 / UINT64_C(4));
    return l0;
}

/* core::iter::slices::slice+T::iter<u8> */
static struct core_iter_slices_Iter_u8 core_iter_slices_slice_T_iter_u8(struct slice l1) {
    struct core_iter_slices_Iter_u8 l0;
    l0 = (struct core_iter_slices_Iter_u8){.f0 = l1};
    return l0;
}

/* core::slice::slice+T::is_empty<u8> */
static uint8_t core_slice_slice_T_is_empty_u8(struct slice l1) {
    uint8_t l0;
    uint64_t l2;
    l2 = l1.f1;
    l0 = (uint8_t)(l2 == UINT64_C(0));
    return l0;
}

/* core::iter::slices::IterIterator::next<u8> */
static struct core_option_Option_ref_u8 core_iter_slices_IterIterator_next_u8(unsigned char *l1) {
    uint8_t l3;
    uint64_t l4;
    unsigned char *l5;
    uint64_t l6;
    unsigned char *l7;
    unsigned char *l9;
    unsigned char *l10;
    struct core_option_Option_ref_u8 l0;
    struct slice l2;
    struct slice l8;
    l2 = (*(struct core_iter_slices_Iter_u8 *)l1).f0;
    l3 = core_slice_slice_T_is_empty_u8(l2);
    if (l3) {
        l0 = (struct core_option_Option_ref_u8){.tag = 0};
        return l0;
    }
    l4 = (uint64_t)(UINT64_C(1) * UINT64_C(1));
    l5 = l2.f0 + (size_t)l4;
    l6 = (uint64_t)(l2.f1 - UINT64_C(1));
    l7 = l5;
    l8 = (struct slice){.f0 = l7, .f1 = l6};
    (*(struct core_iter_slices_Iter_u8 *)l1).f0 = l8;
    l4 = (uint64_t)(UINT64_C(0) * UINT64_C(1));
    l9 = l2.f0 + (size_t)l4;
    l10 = l9;
    l0 = (struct core_option_Option_ref_u8){.tag = 1, .u = {.v1 = {.f0 = l10}}};
    return l0;
}

/* centralized_telescope::types::fn::some_mark_over::any */
static uint8_t centralized_telescope_types_fn_some_mark_over_any(unsigned char *l1, unsigned char *l2) {
    uint8_t l0;
    uint8_t l3;
    (void)l1;
    l3 = (*(uint8_t *)l2);
    l0 = (uint8_t)(UINT8_C(1) < l3);
    return l0;
}

/* centralized_telescope::types::fn::some_mark_over::any+FnMut::call_mut */
static uint8_t centralized_telescope_types_fn_some_mark_over_any_FnMut_call_mut(unsigned char *l1, unsigned char *l2) {
    uint8_t l0;
    unsigned char *l3;
    l3 = l1;
    l0 = centralized_telescope_types_fn_some_mark_over_any(l3, l2);
    return l0;
}

/* centralized_telescope::Destruct++none::drop<centralized_telescope::types::fn::some_mark_over::any+Self> */
static void centralized_telescope_Destruct_none_drop_centralized_telescope_types_fn_some_mark_over_any_Self(struct centralized_telescope_types_fn_some_mark_over_any_Self l1) {
    (void)l1;
    return;
}

/* core::iter::base::Iterator::any<core::iter::slices::Iter<u8>, ref<u8>, centralized_telescope::types::fn::some_mark_over::any+Self> */
static uint8_t core_iter_base_Iterator_any_Iter_u8_ref_u8_centralized_telescope_types_fn_some_mark_over_any_Self(unsigned char *l1,
    struct centralized_telescope_types_fn_some_mark_over_any_Self l2) {
    uint8_t l0;
    unsigned char *l4;
    unsigned char *l6;
    uint8_t l7;
    unsigned char *l8;
    unsigned char *l9;
    struct centralized_telescope_types_fn_some_mark_over_any_Self l3;
    struct core_option_Option_ref_u8 l5;
    struct centralized_telescope_types_fn_some_mark_over_any_Self l10;
    struct centralized_telescope_types_fn_some_mark_over_any_Self l12;
    l3 = l2;
    for (;;) {
        l6 = l1;
        l5 = core_iter_slices_IterIterator_next_u8(l6);
        switch (l5.tag) {
        case UINT8_C(1):
            l4 = l5.u.v1.f0;
            l8 = (unsigned char *)&l3;
            l9 = l4;
            l7 = centralized_telescope_types_fn_some_mark_over_any_FnMut_call_mut(l8, l9);
            if (l7) {
                l0 = 1;
                l10 = l3;
                centralized_telescope_Destruct_none_drop_centralized_telescope_types_fn_some_mark_over_any_Self(l10);
                return l0;
            }
            break;
        case UINT8_C(0):
        default:
            goto done_1;
        }
    }
    done_1:;
    l0 = 0;
    l12 = l3;
    centralized_telescope_Destruct_none_drop_centralized_telescope_types_fn_some_mark_over_any_Self(l12);
    return l0;
}

/* centralized_telescope::types::some_mark_over */
static uint8_t centralized_telescope_types_some_mark_over(struct slice l1) {
    uint8_t l0;
    unsigned char *l4;
    struct core_iter_slices_Iter_u8 l2;
    struct core_iter_slices_Iter_u8 l3;
    struct centralized_telescope_types_fn_some_mark_over_any_Self l5;
    l2 = core_iter_slices_slice_T_iter_u8(l1);
    l3 = l2;
    l4 = (unsigned char *)&l3;
    l5 = (struct centralized_telescope_types_fn_some_mark_over_any_Self){.nothing = 0};
    l0 = core_iter_base_Iterator_any_Iter_u8_ref_u8_centralized_telescope_types_fn_some_mark_over_any_Self(l4, l5);
    return l0;
}

/* centralized_telescope::Destruct++none::drop<centralized_telescope::exports::fn::find_in_bytes::find_in_ends+Self<slice<u8>>> */
static void centralized_telescope_Destruct_none_drop_centralized_telescope_exports_fn_find_in_bytes_find_in_ends_Self_slice_u8(struct centralized_telescope_exports_fn_find_in_bytes_find_in_ends_Self_slice_u8 l1) {
    (void)l1;
    return;
}

/* centralized_telescope::numbers::number */
static uint64_t centralized_telescope_numbers_number(struct slice l1, uint64_t l2, uint64_t l3) {
    uint64_t l0;
    uint64_t l4;
    unsigned char *l5;
    uint64_t l6;
    unsigned char *l7;
    struct slice l8;
    l4 = (uint64_t)(l2 + l3);
    l5 = l1.f0 + (size_t)l2;
    l6 = (uint64_t)(l4 - l2);
    l7 = l5;
    l8 = (struct slice){.f0 = l7, .f1 = l6};
    l0 = sampling_big_endian_number_of(l8);
    return l0;
}

/* centralized_telescope::exports::end_at */
static uint64_t centralized_telescope_exports_end_at(struct slice l1, uint64_t l2) {
    uint64_t l0;
    uint64_t l3;
    uint64_t l4;
    l4 = (uint64_t)(UINT64_C(4) * l2);
    l3 = centralized_telescope_numbers_number(l1, l4, UINT64_C(4));
    l0 = l3;
    return l0;
}

/* centralized_telescope::exports::fn::find_in_bytes::find_in_ends */
static uint64_t centralized_telescope_exports_fn_find_in_bytes_find_in_ends(unsigned char *l1, uint64_t l2) {
    uint64_t l0;
    struct slice l3;
    l3 = (*(struct centralized_telescope_exports_fn_find_in_bytes_find_in_ends_Self_slice_u8 *)l1).f0;
    l0 = centralized_telescope_exports_end_at(l3, l2);
    return l0;
}

/* centralized_telescope::exports::fn::find_in_bytes::find_in_ends+Fn::call */
static uint64_t centralized_telescope_exports_fn_find_in_bytes_find_in_ends_Fn_call(unsigned char *l1, uint64_t l2) {
    uint64_t l0;
    l0 = centralized_telescope_exports_fn_find_in_bytes_find_in_ends(l1, l2);
    return l0;
}

/* core::int::usize::saturating_sub */
static uint64_t core_int_usize_saturating_sub(uint64_t l1, uint64_t l2) {
    uint64_t l0;
    uint8_t l3;
    uint64_t l4;
    l3 = (uint8_t)(l2 <= l1);
    if (l3) {
        l4 = (uint64_t)(l1 - l2);
    } else {
        l4 = UINT64_C(0);
    }
    l0 = l4;
    return l0;
}

/* centralized_telescope::types::find_in_ends<centralized_telescope::exports::fn::find_in_bytes::find_in_ends+Self<slice<u8>>> */
static struct centralized_telescope_types_EndsFound centralized_telescope_types_find_in_ends_centralized_telescope_exports_fn_find_in_bytes_find_in_ends_Self_slice_u8(uint64_t l1,
    struct centralized_telescope_exports_fn_find_in_bytes_find_in_ends_Self_slice_u8 l2, uint64_t l3) {
    uint64_t l5;
    uint8_t l6;
    uint8_t l7;
    uint64_t l8;
    uint64_t l9;
    uint8_t l10;
    uint8_t l11;
    uint8_t l12;
    uint8_t l13;
    uint8_t l14;
    unsigned char *l15;
    uint64_t l16;
    uint8_t l17;
    uint8_t l18;
    uint64_t l19;
    uint64_t l20;
    uint64_t l21;
    uint64_t l22;
    uint8_t l23;
    uint64_t l24;
    uint64_t l25;
    uint64_t l26;
    uint8_t l27;
    uint8_t l28;
    uint8_t l29;
    uint8_t l30;
    struct centralized_telescope_types_EndsFound l0;
    struct centralized_telescope_exports_fn_find_in_bytes_find_in_ends_Self_slice_u8 l4;
    struct centralized_telescope_exports_fn_find_in_bytes_find_in_ends_Self_slice_u8 l31;
    struct centralized_telescope_exports_fn_find_in_bytes_find_in_ends_Self_slice_u8 l33;
    l4 = l2;
    l5 = UINT64_C(0);
    l6 = 0;
    l7 = 0;
    l8 = UINT64_C(0);
    for (;;) {
        l10 = (uint8_t)(l8 < l1);
        if (!l10) {
            goto done_1;
        }
        l11 = l6;
        if (l11) {
            l11 = l7;
            l12 = l11;
            if (l12) {
                l13 = l6;
                l14 = l7;
                l0 = (struct centralized_telescope_types_EndsFound){.f0 = l13, .f1 = l14};
                l31 = l4;
                centralized_telescope_Destruct_none_drop_centralized_telescope_exports_fn_find_in_bytes_find_in_ends_Self_slice_u8(l31);
                return l0;
                goto done_3;
            }
        }
        done_3:;
        l15 = (unsigned char *)&l4;
        l16 = l8;
        l9 = centralized_telescope_exports_fn_find_in_bytes_find_in_ends_Fn_call(l15, l16);
        l19 = l9;
        l20 = l5;
        l18 = (uint8_t)(l19 < l20);
        if (!l18) {
            l21 = l3;
            l22 = l9;
            l18 = (uint8_t)(l21 < l22);
        }
        l17 = l18;
        l23 = l6;
        l6 = (uint8_t)(l23 | l17);
        l25 = l9;
        l26 = l5;
        l24 = core_int_usize_saturating_sub(l25, l26);
        l27 = (uint8_t)(UINT64_C(4096) < l24);
        l28 = l7;
        l7 = (uint8_t)(l28 | l27);
        l5 = l9;
        l8 = (uint64_t)(l8 + UINT64_C(1));
    }
    done_1:;
    l29 = l6;
    l30 = l7;
    l0 = (struct centralized_telescope_types_EndsFound){.f0 = l29, .f1 = l30};
    l33 = l4;
    centralized_telescope_Destruct_none_drop_centralized_telescope_exports_fn_find_in_bytes_find_in_ends_Self_slice_u8(l33);
    return l0;
}

/* centralized_telescope::exports::find_in_bytes */
static struct centralized_telescope_types_EndsFound centralized_telescope_exports_find_in_bytes(struct slice l1,
    uint64_t l2) {
    uint64_t l3;
    unsigned char *l4;
    struct centralized_telescope_types_EndsFound l0;
    struct slice l5;
    struct centralized_telescope_exports_fn_find_in_bytes_find_in_ends_Self_slice_u8 l6;
    l3 = centralized_telescope_exports_end_count(l1);
    l4 = l1.f0;
    l5 = (struct slice){.f0 = l4, .f1 = l1.f1};
    l6 = (struct centralized_telescope_exports_fn_find_in_bytes_find_in_ends_Self_slice_u8){.f0 = l5};
    l0 = centralized_telescope_types_find_in_ends_centralized_telescope_exports_fn_find_in_bytes_find_in_ends_Self_slice_u8(l3, l6, l2);
    return l0;
}

/* centralized_telescope::types::list_answer */
static struct core_result_Result_unit_Refusal centralized_telescope_types_list_answer(uint64_t l1, uint64_t l2,
    uint64_t l3, uint8_t l4, struct centralized_telescope_types_EndsFound l5) {
    uint8_t l6;
    uint8_t l7;
    uint8_t l8;
    uint8_t l9;
    uint8_t l11;
    uint8_t l12;
    struct core_result_Result_unit_Refusal l0;
    struct centralized_telescope_errors_Refusal l10;
    struct centralized_telescope_errors_Refusal l13;
    l8 = (uint8_t)(l1 != l2);
    if (!l8) {
        l8 = (uint8_t)(l1 != l3);
        l7 = l8;
        if (!l7) {
            l7 = l4;
            l6 = l7;
            if (!l6) {
                l6 = l5.f0;
                l9 = l6;
                if (!l9) {
                    goto done_2;
                }
            }
        }
    }
    l10 = (struct centralized_telescope_errors_Refusal){.tag = 2};
    l0 = (struct core_result_Result_unit_Refusal){.tag = 1, .u = {.v1 = {.f0 = l10}}};
    return l0;
    goto done_1;
    done_2:;
    done_1:;
    l11 = (uint8_t)(UINT64_C(65536) < l1);
    if (!l11) {
        l11 = l5.f1;
        l12 = l11;
        if (!l12) {
            goto done_6;
        }
    }
    l13 = (struct centralized_telescope_errors_Refusal){.tag = 3};
    l0 = (struct core_result_Result_unit_Refusal){.tag = 1, .u = {.v1 = {.f0 = l13}}};
    return l0;
    goto done_5;
    done_6:;
    done_5:;
    l0 = (struct core_result_Result_unit_Refusal){.tag = 0};
    return l0;
}

/* centralized_telescope::exports::check_bytes */
static struct core_result_Result_unit_Refusal centralized_telescope_exports_check_bytes(const struct centralized_telescope_in_bytes_LentBytes *l1) {
    uint64_t l2;
    uint64_t l4;
    uint64_t l5;
    uint64_t l6;
    uint8_t l7;
    uint64_t l11;
    struct core_result_Result_unit_Refusal l0;
    struct centralized_telescope_types_EndsFound l9;
    l2 = centralized_telescope_exports_end_count(l1->f1);
    l4 = l1->f2.f1;
    l5 = l1->f3.f1;
    l6 = (uint64_t)(l5 / UINT64_C(8));
    l7 = centralized_telescope_types_some_mark_over(l1->f2);
    l11 = l1->f0.f1;
    l9 = centralized_telescope_exports_find_in_bytes(l1->f1, l11);
    l0 = centralized_telescope_types_list_answer(l2, l4, l6, l7, l9);
    return l0;
}

/* core::convert::AnyFrom::from<centralized_telescope::errors::Refusal> */
static struct centralized_telescope_errors_Refusal core_convert_AnyFrom_from_Refusal(struct centralized_telescope_errors_Refusal l1) {
    struct centralized_telescope_errors_Refusal l0;
    l0 = l1;
    return l0;
}

/* core::result::ResultFromResidualErrResidual::from_residual<centralized_telescope::in_bytes::AcceptedBytes, centralized_telescope::errors::Refusal, centralized_telescope::errors::Refusal> */
static struct core_result_Result_AcceptedBytes_Refusal core_result_ResultFromResidualErrResidual_from_residual_AcceptedBytes_Refusal_Refusal(struct core_result_ErrResidual_Refusal l1) {
    struct core_result_Result_AcceptedBytes_Refusal l0;
    struct centralized_telescope_errors_Refusal l2;
    l2 = core_convert_AnyFrom_from_Refusal(l1.f0);
    l0 = (struct core_result_Result_AcceptedBytes_Refusal){.tag = 1, .u = {.v1 = {.f0 = l2}}};
    return l0;
}

/* centralized_telescope::exports::accept_bytes */
static struct core_result_Result_AcceptedBytes_Refusal centralized_telescope_exports_accept_bytes(const struct centralized_telescope_in_bytes_LentBytes *l1) {
    uint8_t l4;
    uint64_t l5;
    uint64_t l6;
    uint64_t l7;
    uint64_t l8;
    uint8_t l9;
    struct core_result_Result_AcceptedBytes_Refusal l0;
    struct centralized_telescope_errors_Refusal l10;
    struct core_ops_ControlFlow_ErrResidual_Refusal_unit l11;
    struct core_result_Result_unit_Refusal l12;
    struct centralized_telescope_in_bytes_AcceptedBytes l15;
    l5 = l1->f1.f1;
    l6 = (uint64_t)(l5 % UINT64_C(4));
    l4 = (uint8_t)(l6 != UINT64_C(0));
    if (!l4) {
        l7 = l1->f3.f1;
        l8 = (uint64_t)(l7 % UINT64_C(8));
        l4 = (uint8_t)(l8 != UINT64_C(0));
        l9 = l4;
        if (!l9) {
            goto done_2;
        }
    }
    l10 = (struct centralized_telescope_errors_Refusal){.tag = 2};
    l0 = (struct core_result_Result_AcceptedBytes_Refusal){.tag = 1, .u = {.v1 = {.f0 = l10}}};
    return l0;
    goto done_1;
    done_2:;
    done_1:;
    l12 = centralized_telescope_exports_check_bytes(l1);
    l11 = core_result_ResultTry_branch_unit_Refusal(l12);
    switch (l11.tag) {
    case UINT8_C(0):
        break;
    case UINT8_C(1):
    default:
        l0 = core_result_ResultFromResidualErrResidual_from_residual_AcceptedBytes_Refusal_Refusal(l11.u.v1.f0);
        return l0;
    }
    l15 = (struct centralized_telescope_in_bytes_AcceptedBytes){.f0 = *l1};
    l0 = (struct core_result_Result_AcceptedBytes_Refusal){.tag = 0, .u = {.v0 = {.f0 = l15}}};
    return l0;
}

/* core::result::ResultTry::branch<centralized_telescope::in_bytes::AcceptedBytes, centralized_telescope::errors::Refusal> */
static struct core_ops_ControlFlow_ErrResidual_Refusal_AcceptedBytes core_result_ResultTry_branch_AcceptedBytes_Refusal(const struct core_result_Result_AcceptedBytes_Refusal *l1) {
    struct core_ops_ControlFlow_ErrResidual_Refusal_AcceptedBytes l0;
    struct core_ops_ControlFlow_ErrResidual_Refusal_AcceptedBytes l4;
    struct core_result_ErrResidual_Refusal l7;
    switch (l1->tag) {
    case UINT8_C(0):
        l4 = (struct core_ops_ControlFlow_ErrResidual_Refusal_AcceptedBytes){.tag = 0, .u = {.v0 = {.f0 = l1->u.v0.f0}}};
        break;
    case UINT8_C(1):
    default:
        l7 = (struct core_result_ErrResidual_Refusal){.f0 = l1->u.v1.f0};
        l4 = (struct core_ops_ControlFlow_ErrResidual_Refusal_AcceptedBytes){.tag = 1, .u = {.v1 = {.f0 = l7}}};
        break;
    }
    l0 = l4;
    return l0;
}

/* centralized_telescope::exports::AcceptedBytesListed::len */
static uint64_t centralized_telescope_exports_AcceptedBytesListed_len(unsigned char *l1) {
    uint64_t l0;
    l0 = (*(struct centralized_telescope_in_bytes_AcceptedBytes *)l1).f0.f2.f1;
    return l0;
}

/* centralized_telescope::proof::Proof::judge_counts<centralized_telescope::in_bytes::AcceptedBytes> */
static struct core_result_Result_unit_Rejection centralized_telescope_proof_Proof_judge_counts_AcceptedBytes(unsigned char *l1,
    const struct centralized_telescope_params_Params *l2) {
    uint64_t l3;
    unsigned char *l4;
    uint64_t l5;
    uint8_t l6;
    uint8_t l8;
    uint64_t l9;
    uint8_t l10;
    struct core_result_Result_unit_Rejection l0;
    struct centralized_telescope_proof_Rejection l7;
    struct centralized_telescope_proof_Rejection l11;
    l4 = (unsigned char *)&(*(struct centralized_telescope_proof_Proof_AcceptedBytes *)l1).f2;
    l3 = centralized_telescope_exports_AcceptedBytesListed_len(l4);
    l5 = l3;
    l6 = (uint8_t)(l5 != l2->f1);
    if (l6) {
        l7 = (struct centralized_telescope_proof_Rejection){.tag = 0};
        l0 = (struct core_result_Result_unit_Rejection){.tag = 1, .u = {.v1 = {.f0 = l7}}};
        return l0;
    }
    l5 = (*(struct centralized_telescope_proof_Proof_AcceptedBytes *)l1).f1.f0;
    l8 = (uint8_t)(l2->f3 <= l5);
    if (!l8) {
        l9 = (*(struct centralized_telescope_proof_Proof_AcceptedBytes *)l1).f0.f0;
        l8 = (uint8_t)(l2->f2 <= l9);
        l10 = l8;
        if (!l10) {
            goto done_2;
        }
    }
    l11 = (struct centralized_telescope_proof_Rejection){.tag = 1};
    l0 = (struct core_result_Result_unit_Rejection){.tag = 1, .u = {.v1 = {.f0 = l11}}};
    return l0;
    goto done_1;
    done_2:;
    done_1:;
    l0 = (struct core_result_Result_unit_Rejection){.tag = 0};
    return l0;
}

/* core::result::ResultTry::branch<unit, centralized_telescope::proof::Rejection> */
static struct core_ops_ControlFlow_ErrResidual_Rejection_unit core_result_ResultTry_branch_unit_Rejection(const struct core_result_Result_unit_Rejection *l1) {
    struct core_ops_ControlFlow_ErrResidual_Rejection_unit l0;
    struct core_ops_ControlFlow_ErrResidual_Rejection_unit l4;
    struct core_result_ErrResidual_Rejection l7;
    switch (l1->tag) {
    case UINT8_C(0):
        l4 = (struct core_ops_ControlFlow_ErrResidual_Rejection_unit){.tag = 0};
        break;
    case UINT8_C(1):
    default:
        l7 = (struct core_result_ErrResidual_Rejection){.f0 = l1->u.v1.f0};
        l4 = (struct core_ops_ControlFlow_ErrResidual_Rejection_unit){.tag = 1, .u = {.v1 = {.f0 = l7}}};
        break;
    }
    l0 = l4;
    return l0;
}

/* core::convert::AnyFrom::from<centralized_telescope::proof::Rejection> */
static struct centralized_telescope_proof_Rejection core_convert_AnyFrom_from_Rejection(struct centralized_telescope_proof_Rejection l1) {
    struct centralized_telescope_proof_Rejection l0;
    l0 = l1;
    return l0;
}

/* core::result::ResultFromResidualErrResidual::from_residual<unit, centralized_telescope::proof::Rejection, centralized_telescope::proof::Rejection> */
static struct core_result_Result_unit_Rejection core_result_ResultFromResidualErrResidual_from_residual_unit_Rejection_Rejection(struct core_result_ErrResidual_Rejection l1) {
    struct core_result_Result_unit_Rejection l0;
    struct centralized_telescope_proof_Rejection l2;
    l2 = core_convert_AnyFrom_from_Rejection(l1.f0);
    l0 = (struct core_result_Result_unit_Rejection){.tag = 1, .u = {.v1 = {.f0 = l2}}};
    return l0;
}

/* sampling::big_endian::eight_bytes */
static struct array_8_uint8_t sampling_big_endian_eight_bytes(uint64_t l1) {
    unsigned char *l4;
    struct array_8_uint8_t l0;
    struct array_8_uint8_t l2;
    struct slice l5;
    {
        const uint8_t value = UINT8_C(0);
        size_t i;
        for (i = 0; i < 8; i++)
            l2.a[i] = value;
    }
    l4 = (unsigned char *)&l2;
    l5 = (struct slice){.f0 = l4, .f1 = UINT64_C(8)};
    sampling_big_endian_write_number(l1, l5);
    l0 = l2;
    return l0;
}

/* sampling::sha256::fits */
static uint8_t sampling_sha256_fits(uint64_t l1, uint64_t l2, uint64_t l3, uint64_t l4) {
    uint8_t l0;
    uint8_t l5;
    uint8_t l6;
    uint8_t l7;
    uint8_t l8;
    uint64_t l9;
    uint64_t l10;
    uint64_t l11;
    l7 = (uint8_t)(UINT64_C(64) <= l1);
    if (!l7) {
        l7 = (uint8_t)(UINT64_C(64) <= l2);
        l6 = l7;
        if (!l6) {
            l6 = (uint8_t)(UINT64_C(64) <= l3);
            l5 = l6;
            if (!l5) {
                l5 = (uint8_t)(UINT64_C(64) <= l4);
                l8 = l5;
                if (!l8) {
                    goto done_2;
                }
            }
        }
    }
    l0 = 0;
    return l0;
    goto done_1;
    done_2:;
    done_1:;
    l9 = (uint64_t)(l1 + l2);
    l10 = (uint64_t)(l9 + l3);
    l11 = (uint64_t)(l10 + l4);
    l0 = (uint8_t)(l11 <= UINT64_C(119));
    return l0;
}

/* sampling::sha256::with_bytes<128> */
static struct array_128_uint8_t sampling_sha256_with_bytes_128(const struct array_128_uint8_t *l1, uint64_t l2,
    struct slice l3) {
    unsigned char *l6;
    uint64_t l8;
    uint64_t l9;
    unsigned char *l10;
    uint64_t l11;
    unsigned char *l12;
    struct array_128_uint8_t l0;
    struct array_128_uint8_t l4;
    struct slice l5;
    struct slice l13;
    l4 = *l1;
    l6 = (unsigned char *)&l4;
    l5 = (struct slice){.f0 = l6, .f1 = UINT64_C(128)};
    l8 = l3.f1;
    l9 = (uint64_t)(l2 + l8);
    l10 = l5.f0 + (size_t)l2;
    l11 = (uint64_t)(l9 - l2);
    l12 = l10;
    l13 = (struct slice){.f0 = l12, .f1 = l11};
    sampling_copying_copy_over(l3, l13);
    l0 = l4;
    return l0;
}

/* sampling::sha256::length_at */
static uint64_t sampling_sha256_length_at(uint64_t l1) {
    uint64_t l0;
    uint8_t l2;
    l2 = (uint8_t)(UINT64_C(56) <= l1);
    if (l2) {
        l0 = UINT64_C(120);
        return l0;
    }
    l0 = UINT64_C(56);
    return l0;
}

/* sampling::sha256::pad */
static struct array_128_uint8_t sampling_sha256_pad(const struct array_128_uint8_t *l1, uint64_t l2, uint64_t l3) {
    unsigned char *l6;
    unsigned char *l7;
    uint64_t l9;
    uint64_t l10;
    uint64_t l12;
    unsigned char *l13;
    struct array_128_uint8_t l0;
    struct array_128_uint8_t l4;
    struct array_8_uint8_t l5;
    struct array_8_uint8_t l8;
    struct array_128_uint8_t l11;
    struct slice l14;
    l4 = *l1;
    l6 = (unsigned char *)&l4;
    l7 = l6 + (size_t)l2;
    (*(uint8_t *)l7) = UINT8_C(128);
    l9 = l3;
    l10 = (uint64_t)(UINT64_C(8) * l9);
    l8 = sampling_big_endian_eight_bytes(l10);
    l5 = l8;
    l11 = l4;
    l12 = sampling_sha256_length_at(l2);
    l13 = (unsigned char *)&l5;
    l14 = (struct slice){.f0 = l13, .f1 = UINT64_C(8)};
    l0 = sampling_sha256_with_bytes_128(&l11, l12, l14);
    return l0;
}

/* sampling::sha256::joined */
static struct array_128_uint8_t sampling_sha256_joined(struct slice l1, struct slice l2, struct slice l3,
    struct slice l4) {
    uint64_t l5;
    uint64_t l6;
    uint64_t l7;
    uint64_t l8;
    uint64_t l12;
    struct array_128_uint8_t l0;
    struct array_128_uint8_t l9;
    struct array_128_uint8_t l10;
    struct array_128_uint8_t l11;
    struct array_128_uint8_t l13;
    l5 = l1.f1;
    l12 = l2.f1;
    l6 = (uint64_t)(l5 + l12);
    l12 = l3.f1;
    l7 = (uint64_t)(l6 + l12);
    l12 = l4.f1;
    l8 = (uint64_t)(l7 + l12);
    {
        const uint8_t value = UINT8_C(0);
        size_t i;
        for (i = 0; i < 128; i++)
            l13.a[i] = value;
    }
    l9 = sampling_sha256_with_bytes_128(&l13, l5, l2);
    l10 = sampling_sha256_with_bytes_128(&l9, UINT64_C(0), l1);
    l11 = sampling_sha256_with_bytes_128(&l10, l6, l3);
    l13 = sampling_sha256_with_bytes_128(&l11, l7, l4);
    l0 = sampling_sha256_pad(&l13, l8, l8);
    return l0;
}

/* sampling::sha256::State::initial */
static struct sampling_sha256_State sampling_sha256_State_initial(void) {
    struct sampling_sha256_State l0;
    l0 = (struct sampling_sha256_State){.f0 = UINT32_C(1779033703), .f1 = UINT32_C(3144134277), .f2 = UINT32_C(1013904242), .f3 = UINT32_C(2773480762), .f4 = UINT32_C(1359893119), .f5 = UINT32_C(2600822924), .f6 = UINT32_C(528734635), .f7 = UINT32_C(1541459225)};
    return l0;
}

/* core::num::wrapping_add_u32 */
static uint32_t core_num_wrapping_add_u32(uint32_t l1, uint32_t l2) {
    uint32_t l0;
    l0 = (uint32_t)(l1 + l2);
    return l0;
}

/* sampling::sha256::add */
static uint32_t sampling_sha256_add(uint32_t l1, uint32_t l2) {
    uint32_t l0;
    l0 = core_num_wrapping_add_u32(l1, l2);
    return l0;
}

/* sampling::sha256::rotr */
static uint32_t sampling_sha256_rotr(uint32_t l1, uint32_t l2) {
    uint32_t l0;
    uint32_t l3;
    uint32_t l4;
    uint32_t l5;
    l3 = (uint32_t)(l1 >> l2);
    l4 = (uint32_t)(UINT32_C(32) - l2);
    l5 = (uint32_t)(l1 << l4);
    l0 = (uint32_t)(l3 | l5);
    return l0;
}

/* sampling::sha256::small_sigma0 */
static uint32_t sampling_sha256_small_sigma0(uint32_t l1) {
    uint32_t l0;
    uint32_t l2;
    uint32_t l3;
    uint32_t l4;
    uint32_t l5;
    l3 = sampling_sha256_rotr(l1, UINT32_C(11));
    l4 = (uint32_t)(l3 ^ l1);
    l2 = sampling_sha256_rotr(l4, UINT32_C(7));
    l5 = (uint32_t)(l1 >> UINT32_C(3));
    l0 = (uint32_t)(l2 ^ l5);
    return l0;
}

/* sampling::sha256::small_sigma1 */
static uint32_t sampling_sha256_small_sigma1(uint32_t l1) {
    uint32_t l0;
    uint32_t l2;
    uint32_t l3;
    uint32_t l4;
    uint32_t l5;
    l3 = sampling_sha256_rotr(l1, UINT32_C(2));
    l4 = (uint32_t)(l3 ^ l1);
    l2 = sampling_sha256_rotr(l4, UINT32_C(17));
    l5 = (uint32_t)(l1 >> UINT32_C(10));
    l0 = (uint32_t)(l2 ^ l5);
    return l0;
}

/* sampling::sha256::next_word */
static uint32_t sampling_sha256_next_word(unsigned char *l1, uint64_t l2) {
    uint32_t l0;
    uint32_t l3;
    uint32_t l4;
    uint64_t l5;
    uint64_t l6;
    unsigned char *l7;
    unsigned char *l8;
    uint32_t l9;
    uint64_t l10;
    uint64_t l11;
    unsigned char *l12;
    unsigned char *l13;
    uint32_t l14;
    uint32_t l15;
    uint64_t l16;
    uint64_t l17;
    unsigned char *l18;
    unsigned char *l19;
    uint32_t l20;
    uint32_t l21;
    uint64_t l22;
    uint64_t l23;
    unsigned char *l24;
    unsigned char *l25;
    uint32_t l26;
    l5 = (uint64_t)(l2 - UINT64_C(16));
    l6 = (uint64_t)(l5 * UINT64_C(4));
    l7 = l1;
    l8 = l7 + (size_t)l6;
    l9 = (*(uint32_t *)l8);
    l10 = (uint64_t)(l2 - UINT64_C(7));
    l11 = (uint64_t)(l10 * UINT64_C(4));
    l12 = l1;
    l13 = l12 + (size_t)l11;
    l14 = (*(uint32_t *)l13);
    l4 = sampling_sha256_add(l9, l14);
    l16 = (uint64_t)(l2 - UINT64_C(15));
    l17 = (uint64_t)(l16 * UINT64_C(4));
    l18 = l1;
    l19 = l18 + (size_t)l17;
    l20 = (*(uint32_t *)l19);
    l15 = sampling_sha256_small_sigma0(l20);
    l3 = sampling_sha256_add(l4, l15);
    l22 = (uint64_t)(l2 - UINT64_C(2));
    l23 = (uint64_t)(l22 * UINT64_C(4));
    l24 = l1;
    l25 = l24 + (size_t)l23;
    l26 = (*(uint32_t *)l25);
    l21 = sampling_sha256_small_sigma1(l26);
    l0 = sampling_sha256_add(l3, l21);
    return l0;
}

/* sampling::sha256::word_at */
static uint32_t sampling_sha256_word_at(struct slice l1, uint64_t l2) {
    uint32_t l0;
    uint64_t l3;
    uint64_t l4;
    unsigned char *l5;
    uint64_t l6;
    unsigned char *l7;
    struct slice l8;
    l3 = (uint64_t)(l2 + UINT64_C(4));
    l5 = l1.f0 + (size_t)l2;
    l6 = (uint64_t)(l3 - l2);
    l7 = l5;
    l8 = (struct slice){.f0 = l7, .f1 = l6};
    l4 = sampling_big_endian_number_of(l8);
    l0 = (uint32_t)l4;
    return l0;
}

/* sampling::sha256::word_of<0> */
static uint32_t sampling_sha256_word_of_0(unsigned char *l1, struct slice l2, uint64_t l3, uint64_t l4) {
    uint32_t l0;
    uint8_t l5;
    uint32_t l6;
    uint64_t l7;
    uint64_t l8;
    l5 = (uint8_t)(UINT8_C(0) != UINT8_C(0));
    if (l5) {
        l6 = sampling_sha256_next_word(l1, l4);
    } else {
        l7 = (uint64_t)(UINT64_C(4) * l4);
        l8 = (uint64_t)(l3 + l7);
        l6 = sampling_sha256_word_at(l2, l8);
    }
    l0 = l6;
    return l0;
}

/* sampling::sha256::ch */
static uint32_t sampling_sha256_ch(uint32_t l1, uint32_t l2, uint32_t l3) {
    uint32_t l0;
    uint32_t l4;
    uint32_t l5;
    l4 = (uint32_t)(l2 ^ l3);
    l5 = (uint32_t)(l4 & l1);
    l0 = (uint32_t)(l5 ^ l3);
    return l0;
}

/* sampling::sha256::big_sigma1 */
static uint32_t sampling_sha256_big_sigma1(uint32_t l1) {
    uint32_t l0;
    uint32_t l2;
    uint32_t l3;
    uint32_t l4;
    uint32_t l5;
    l3 = sampling_sha256_rotr(l1, UINT32_C(14));
    l4 = (uint32_t)(l3 ^ l1);
    l2 = sampling_sha256_rotr(l4, UINT32_C(5));
    l5 = (uint32_t)(l2 ^ l1);
    l0 = sampling_sha256_rotr(l5, UINT32_C(6));
    return l0;
}

/* sampling::sha256::big_sigma0 */
static uint32_t sampling_sha256_big_sigma0(uint32_t l1) {
    uint32_t l0;
    uint32_t l2;
    uint32_t l3;
    uint32_t l4;
    uint32_t l5;
    l3 = sampling_sha256_rotr(l1, UINT32_C(9));
    l4 = (uint32_t)(l3 ^ l1);
    l2 = sampling_sha256_rotr(l4, UINT32_C(11));
    l5 = (uint32_t)(l2 ^ l1);
    l0 = sampling_sha256_rotr(l5, UINT32_C(2));
    return l0;
}

/* sampling::sha256::maj */
static uint32_t sampling_sha256_maj(uint32_t l1, uint32_t l2, uint32_t l3) {
    uint32_t l0;
    uint32_t l4;
    uint32_t l5;
    uint32_t l6;
    l4 = (uint32_t)(l1 ^ l2);
    l5 = (uint32_t)(l2 ^ l3);
    l6 = (uint32_t)(l4 & l5);
    l0 = (uint32_t)(l6 ^ l2);
    return l0;
}

/* sampling::sha256::one_round */
static struct sampling_sha256_State sampling_sha256_one_round(const struct sampling_sha256_State *l1, uint32_t l2,
    uint32_t l3) {
    uint32_t l4;
    uint32_t l5;
    uint32_t l6;
    uint32_t l7;
    uint32_t l8;
    uint32_t l9;
    uint32_t l10;
    struct sampling_sha256_State l0;
    l8 = sampling_sha256_add(l1->f7, l3);
    l7 = sampling_sha256_add(l8, l2);
    l9 = sampling_sha256_ch(l1->f4, l1->f5, l1->f6);
    l6 = sampling_sha256_add(l7, l9);
    l10 = sampling_sha256_big_sigma1(l1->f4);
    l4 = sampling_sha256_add(l6, l10);
    l6 = sampling_sha256_big_sigma0(l1->f0);
    l10 = sampling_sha256_maj(l1->f0, l1->f1, l1->f2);
    l5 = sampling_sha256_add(l6, l10);
    l9 = sampling_sha256_add(l4, l5);
    l10 = sampling_sha256_add(l1->f3, l4);
    l0 = (struct sampling_sha256_State){.f0 = l9, .f1 = l1->f0, .f2 = l1->f1, .f3 = l1->f2, .f4 = l10, .f5 = l1->f4, .f6 = l1->f5, .f7 = l1->f6};
    return l0;
}

/* sampling::sha256::step<0> */
static struct sampling_sha256_State sampling_sha256_step_0(const struct sampling_sha256_State *l1, unsigned char *l2,
    struct slice l3, uint64_t l4, uint64_t l5) {
    uint32_t l6;
    uint32_t l7;
    unsigned char *l8;
    uint64_t l9;
    unsigned char *l10;
    unsigned char *l11;
    uint32_t l12;
    unsigned char *l13;
    unsigned char *l14;
    struct sampling_sha256_State l0;
    l8 = l2;
    l6 = sampling_sha256_word_of_0(l8, l3, l4, l5);
    l9 = (uint64_t)(l5 * UINT64_C(4));
    l10 = l2;
    l11 = l10 + (size_t)l9;
    l12 = (*(uint32_t *)l11);
    l7 = l12;
    l9 = (uint64_t)(l5 * UINT64_C(4));
    l13 = l2;
    l14 = l13 + (size_t)l9;
    (*(uint32_t *)l14) = l6;
    l0 = sampling_sha256_one_round(l1, l7, l6);
    return l0;
}

/* sampling::sha256::eight_steps<0> */
static struct sampling_sha256_State sampling_sha256_eight_steps_0(const struct sampling_sha256_State *l1,
    unsigned char *l2, struct slice l3, uint64_t l4, uint64_t l5) {
    uint64_t l7;
    uint8_t l8;
    unsigned char *l9;
    uint64_t l10;
    struct sampling_sha256_State l0;
    struct sampling_sha256_State l6;
    l6 = *l1;
    l7 = UINT64_C(0);
    for (;;) {
        l8 = (uint8_t)(l7 < UINT64_C(8));
        if (!l8) {
            goto done_1;
        }
        l9 = l2;
        l10 = (uint64_t)(l5 + l7);
        l6 = sampling_sha256_step_0(&l6, l9, l3, l4, l10);
        l7 = (uint64_t)(l7 + UINT64_C(1));
    }
    done_1:;
    l0 = l6;
    return l0;
}

/* sampling::sha256::rounds_from<0> */
static struct sampling_sha256_State sampling_sha256_rounds_from_0(const struct sampling_sha256_State *l1,
    unsigned char *l2, struct slice l3, uint64_t l4, uint64_t l5, uint64_t l6) {
    uint64_t l8;
    uint8_t l9;
    unsigned char *l10;
    uint64_t l11;
    uint64_t l12;
    struct sampling_sha256_State l0;
    struct sampling_sha256_State l7;
    l7 = *l1;
    l8 = UINT64_C(0);
    for (;;) {
        l9 = (uint8_t)(l8 < l6);
        if (!l9) {
            goto done_1;
        }
        l10 = l2;
        l11 = (uint64_t)(UINT64_C(8) * l8);
        l12 = (uint64_t)(l5 + l11);
        l7 = sampling_sha256_eight_steps_0(&l7, l10, l3, l4, l12);
        l8 = (uint64_t)(l8 + UINT64_C(1));
    }
    done_1:;
    l0 = l7;
    return l0;
}

/* sampling::sha256::word_of<1> */
static uint32_t sampling_sha256_word_of_1(unsigned char *l1, struct slice l2, uint64_t l3, uint64_t l4) {
    uint32_t l0;
    uint8_t l5;
    uint32_t l6;
    uint64_t l7;
    uint64_t l8;
    l5 = (uint8_t)(UINT8_C(1) != UINT8_C(0));
    if (l5) {
        l6 = sampling_sha256_next_word(l1, l4);
    } else {
        l7 = (uint64_t)(UINT64_C(4) * l4);
        l8 = (uint64_t)(l3 + l7);
        l6 = sampling_sha256_word_at(l2, l8);
    }
    l0 = l6;
    return l0;
}

/* sampling::sha256::step<1> */
static struct sampling_sha256_State sampling_sha256_step_1(const struct sampling_sha256_State *l1, unsigned char *l2,
    struct slice l3, uint64_t l4, uint64_t l5) {
    uint32_t l6;
    uint32_t l7;
    unsigned char *l8;
    uint64_t l9;
    unsigned char *l10;
    unsigned char *l11;
    uint32_t l12;
    unsigned char *l13;
    unsigned char *l14;
    struct sampling_sha256_State l0;
    l8 = l2;
    l6 = sampling_sha256_word_of_1(l8, l3, l4, l5);
    l9 = (uint64_t)(l5 * UINT64_C(4));
    l10 = l2;
    l11 = l10 + (size_t)l9;
    l12 = (*(uint32_t *)l11);
    l7 = l12;
    l9 = (uint64_t)(l5 * UINT64_C(4));
    l13 = l2;
    l14 = l13 + (size_t)l9;
    (*(uint32_t *)l14) = l6;
    l0 = sampling_sha256_one_round(l1, l7, l6);
    return l0;
}

/* sampling::sha256::eight_steps<1> */
static struct sampling_sha256_State sampling_sha256_eight_steps_1(const struct sampling_sha256_State *l1,
    unsigned char *l2, struct slice l3, uint64_t l4, uint64_t l5) {
    uint64_t l7;
    uint8_t l8;
    unsigned char *l9;
    uint64_t l10;
    struct sampling_sha256_State l0;
    struct sampling_sha256_State l6;
    l6 = *l1;
    l7 = UINT64_C(0);
    for (;;) {
        l8 = (uint8_t)(l7 < UINT64_C(8));
        if (!l8) {
            goto done_1;
        }
        l9 = l2;
        l10 = (uint64_t)(l5 + l7);
        l6 = sampling_sha256_step_1(&l6, l9, l3, l4, l10);
        l7 = (uint64_t)(l7 + UINT64_C(1));
    }
    done_1:;
    l0 = l6;
    return l0;
}

/* sampling::sha256::rounds_from<1> */
static struct sampling_sha256_State sampling_sha256_rounds_from_1(const struct sampling_sha256_State *l1,
    unsigned char *l2, struct slice l3, uint64_t l4, uint64_t l5, uint64_t l6) {
    uint64_t l8;
    uint8_t l9;
    unsigned char *l10;
    uint64_t l11;
    uint64_t l12;
    struct sampling_sha256_State l0;
    struct sampling_sha256_State l7;
    l7 = *l1;
    l8 = UINT64_C(0);
    for (;;) {
        l9 = (uint8_t)(l8 < l6);
        if (!l9) {
            goto done_1;
        }
        l10 = l2;
        l11 = (uint64_t)(UINT64_C(8) * l8);
        l12 = (uint64_t)(l5 + l11);
        l7 = sampling_sha256_eight_steps_1(&l7, l10, l3, l4, l12);
        l8 = (uint64_t)(l8 + UINT64_C(1));
    }
    done_1:;
    l0 = l7;
    return l0;
}

/* sampling::sha256::all_rounds */
static struct sampling_sha256_State sampling_sha256_all_rounds(const struct sampling_sha256_State *l1, struct slice l2,
    uint64_t l3) {
    unsigned char *l7;
    unsigned char *l8;
    struct sampling_sha256_State l0;
    struct array_64_uint32_t l4;
    struct sampling_sha256_State l5;
    struct array_64_uint32_t l6;
    {
        static const struct array_64_uint32_t value = {{
            UINT32_C(1116352408), UINT32_C(1899447441), UINT32_C(3049323471), UINT32_C(3921009573), UINT32_C(961987163),
            UINT32_C(1508970993), UINT32_C(2453635748), UINT32_C(2870763221), UINT32_C(3624381080),
            UINT32_C(310598401), UINT32_C(607225278), UINT32_C(1426881987), UINT32_C(1925078388), UINT32_C(2162078206),
            UINT32_C(2614888103), UINT32_C(3248222580), UINT32_C(3835390401), UINT32_C(4022224774),
            UINT32_C(264347078), UINT32_C(604807628), UINT32_C(770255983), UINT32_C(1249150122), UINT32_C(1555081692),
            UINT32_C(1996064986), UINT32_C(2554220882), UINT32_C(2821834349), UINT32_C(2952996808),
            UINT32_C(3210313671), UINT32_C(3336571891), UINT32_C(3584528711), UINT32_C(113926993), UINT32_C(338241895),
            UINT32_C(666307205), UINT32_C(773529912), UINT32_C(1294757372), UINT32_C(1396182291), UINT32_C(1695183700),
            UINT32_C(1986661051), UINT32_C(2177026350), UINT32_C(2456956037), UINT32_C(2730485921),
            UINT32_C(2820302411), UINT32_C(3259730800), UINT32_C(3345764771), UINT32_C(3516065817),
            UINT32_C(3600352804), UINT32_C(4094571909), UINT32_C(275423344), UINT32_C(430227734), UINT32_C(506948616),
            UINT32_C(659060556), UINT32_C(883997877), UINT32_C(958139571), UINT32_C(1322822218), UINT32_C(1537002063),
            UINT32_C(1747873779), UINT32_C(1955562222), UINT32_C(2024104815), UINT32_C(2227730452),
            UINT32_C(2361852424), UINT32_C(2428436474), UINT32_C(2756734187), UINT32_C(3204031479),
            UINT32_C(3329325298)}};
        l6 = value;
    }
    l4 = l6;
    l7 = (unsigned char *)&l4;
    l5 = sampling_sha256_rounds_from_0(l1, l7, l2, l3, UINT64_C(0), UINT64_C(2));
    l8 = (unsigned char *)&l4;
    l0 = sampling_sha256_rounds_from_1(&l5, l8, l2, l3, UINT64_C(16), UINT64_C(6));
    return l0;
}

/* sampling::sha256::State::plus */
static struct sampling_sha256_State sampling_sha256_State_plus(const struct sampling_sha256_State *l1,
    const struct sampling_sha256_State *l2) {
    uint32_t l3;
    uint32_t l4;
    uint32_t l5;
    uint32_t l6;
    uint32_t l7;
    uint32_t l8;
    uint32_t l9;
    uint32_t l10;
    struct sampling_sha256_State l0;
    l3 = sampling_sha256_add(l1->f0, l2->f0);
    l4 = sampling_sha256_add(l1->f1, l2->f1);
    l5 = sampling_sha256_add(l1->f2, l2->f2);
    l6 = sampling_sha256_add(l1->f3, l2->f3);
    l7 = sampling_sha256_add(l1->f4, l2->f4);
    l8 = sampling_sha256_add(l1->f5, l2->f5);
    l9 = sampling_sha256_add(l1->f6, l2->f6);
    l10 = sampling_sha256_add(l1->f7, l2->f7);
    l0 = (struct sampling_sha256_State){.f0 = l3, .f1 = l4, .f2 = l5, .f3 = l6, .f4 = l7, .f5 = l8, .f6 = l9, .f7 = l10};
    return l0;
}

/* sampling::sha256::State::compress */
static struct sampling_sha256_State sampling_sha256_State_compress(const struct sampling_sha256_State *l1,
    struct slice l2, uint64_t l3) {
    struct sampling_sha256_State l0;
    struct sampling_sha256_State l4;
    l4 = sampling_sha256_all_rounds(l1, l2, l3);
    l0 = sampling_sha256_State_plus(&l4, l1);
    return l0;
}

/* sampling::sha256::wide */
static uint64_t sampling_sha256_wide(uint32_t l1) {
    uint64_t l0;
    l0 = (uint64_t)l1;
    return l0;
}

/* sampling::sha256::State::digest */
static struct array_32_uint8_t sampling_sha256_State_digest(const struct sampling_sha256_State *l1) {
    unsigned char *l4;
    uint64_t l5;
    unsigned char *l6;
    unsigned char *l7;
    uint8_t l8;
    uint64_t l9;
    unsigned char *l10;
    unsigned char *l11;
    uint64_t l13;
    uint32_t l14;
    uint64_t l15;
    uint64_t l16;
    uint64_t l17;
    unsigned char *l18;
    unsigned char *l19;
    uint64_t l20;
    unsigned char *l21;
    struct array_32_uint8_t l0;
    struct array_8_uint32_t l2;
    struct array_32_uint8_t l3;
    struct slice l22;
    l2 = (struct array_8_uint32_t){{l1->f0, l1->f1, l1->f2, l1->f3, l1->f4, l1->f5, l1->f6, l1->f7}};
    {
        const uint8_t value = UINT8_C(0);
        size_t i;
        for (i = 0; i < 32; i++)
            l3.a[i] = value;
    }
    l7 = (unsigned char *)&l2;
    l4 = l7;
    l5 = UINT64_C(0);
    for (;;) {
        l8 = (uint8_t)(l5 < UINT64_C(8));
        if (!l8) {
            goto done_1;
        }
        l9 = (uint64_t)(l5 * UINT64_C(4));
        l10 = l4;
        l11 = l10 + (size_t)l9;
        l6 = l11;
        l14 = (*(uint32_t *)l6);
        l13 = sampling_sha256_wide(l14);
        l15 = (uint64_t)(UINT64_C(4) * l5);
        l16 = (uint64_t)(UINT64_C(4) * l5);
        l17 = (uint64_t)(l16 + UINT64_C(4));
        l18 = (unsigned char *)&l3;
        l19 = l18 + (size_t)l15;
        l20 = (uint64_t)(l17 - l15);
        l21 = l19;
        l22 = (struct slice){.f0 = l21, .f1 = l20};
        sampling_big_endian_write_number(l13, l22);
        l5 = (uint64_t)(l5 + UINT64_C(1));
    }
    done_1:;
    l0 = l3;
    return l0;
}

/* sampling::sha256::last_blocks */
static struct array_32_uint8_t sampling_sha256_last_blocks(const struct sampling_sha256_State *l1, unsigned char *l2,
    uint64_t l3) {
    unsigned char *l5;
    uint8_t l7;
    unsigned char *l8;
    struct array_32_uint8_t l0;
    struct sampling_sha256_State l4;
    struct slice l6;
    struct slice l9;
    l5 = l2;
    l6 = (struct slice){.f0 = l5, .f1 = UINT64_C(128)};
    l4 = sampling_sha256_State_compress(l1, l6, UINT64_C(0));
    l7 = (uint8_t)(UINT64_C(56) <= l3);
    if (l7) {
        l8 = l2;
        l9 = (struct slice){.f0 = l8, .f1 = UINT64_C(128)};
        l4 = sampling_sha256_State_compress(&l4, l9, UINT64_C(64));
    }
    l0 = sampling_sha256_State_digest(&l4);
    return l0;
}

/* sampling::sha256::hash_short */
static struct array_32_uint8_t sampling_sha256_hash_short(struct slice l1, struct slice l2, struct slice l3,
    struct slice l4) {
    unsigned char *l8;
    uint64_t l9;
    uint64_t l10;
    uint64_t l11;
    uint64_t l12;
    uint64_t l13;
    uint64_t l14;
    uint64_t l15;
    struct array_32_uint8_t l0;
    struct array_128_uint8_t l5;
    struct array_128_uint8_t l6;
    struct sampling_sha256_State l7;
    l6 = sampling_sha256_joined(l1, l2, l3, l4);
    l5 = l6;
    l7 = sampling_sha256_State_initial();
    l8 = (unsigned char *)&l5;
    l9 = l1.f1;
    l10 = l2.f1;
    l11 = (uint64_t)(l9 + l10);
    l12 = l3.f1;
    l13 = (uint64_t)(l11 + l12);
    l14 = l4.f1;
    l15 = (uint64_t)(l13 + l14);
    l0 = sampling_sha256_last_blocks(&l7, l8, l15);
    return l0;
}

/* sampling::sha256::Hasher::new */
static struct sampling_sha256_Hasher sampling_sha256_Hasher_new(void) {
    struct sampling_sha256_Hasher l0;
    struct sampling_sha256_State l1;
    struct array_64_uint8_t l2;
    l1 = sampling_sha256_State_initial();
    {
        const uint8_t value = UINT8_C(0);
        size_t i;
        for (i = 0; i < 64; i++)
            l2.a[i] = value;
    }
    l0 = (struct sampling_sha256_Hasher){.f0 = l1, .f1 = l2, .f2 = UINT64_C(0)};
    return l0;
}

/* sampling::sha256::Hasher::too_long */
static struct sampling_sha256_Hasher sampling_sha256_Hasher_too_long(void) {
    uint64_t l1;
    struct sampling_sha256_Hasher l0;
    struct sampling_sha256_Hasher l2;
    l1 = (uint64_t)(UINT64_C(536870912) + UINT64_C(1));
    l2 = sampling_sha256_Hasher_new();
    l0 = (struct sampling_sha256_Hasher){.f0 = l2.f0, .f1 = l2.f1, .f2 = l1};
    return l0;
}

/* sampling::sha256::with_bytes<64> */
static struct array_64_uint8_t sampling_sha256_with_bytes_64(const struct array_64_uint8_t *l1, uint64_t l2,
    struct slice l3) {
    unsigned char *l6;
    uint64_t l8;
    uint64_t l9;
    unsigned char *l10;
    uint64_t l11;
    unsigned char *l12;
    struct array_64_uint8_t l0;
    struct array_64_uint8_t l4;
    struct slice l5;
    struct slice l13;
    l4 = *l1;
    l6 = (unsigned char *)&l4;
    l5 = (struct slice){.f0 = l6, .f1 = UINT64_C(64)};
    l8 = l3.f1;
    l9 = (uint64_t)(l2 + l8);
    l10 = l5.f0 + (size_t)l2;
    l11 = (uint64_t)(l9 - l2);
    l12 = l10;
    l13 = (struct slice){.f0 = l12, .f1 = l11};
    sampling_copying_copy_over(l3, l13);
    l0 = l4;
    return l0;
}

/* sampling::sha256::Hasher::absorb_part */
static struct sampling_sha256_Hasher sampling_sha256_Hasher_absorb_part(const struct sampling_sha256_Hasher *l1,
    struct slice l2) {
    uint64_t l6;
    uint64_t l7;
    uint64_t l8;
    struct sampling_sha256_Hasher l0;
    struct array_64_uint8_t l4;
    l6 = (uint64_t)(l1->f2 % UINT64_C(64));
    l4 = sampling_sha256_with_bytes_64(&l1->f1, l6, l2);
    l7 = l2.f1;
    l8 = (uint64_t)(l1->f2 + l7);
    l0 = (struct sampling_sha256_Hasher){.f0 = l1->f0, .f1 = l4, .f2 = l8};
    return l0;
}

/* sampling::sha256::Hasher::absorb_blocks */
static struct sampling_sha256_Hasher sampling_sha256_Hasher_absorb_blocks(const struct sampling_sha256_Hasher *l1,
    struct slice l2) {
    uint64_t l4;
    uint64_t l5;
    uint64_t l6;
    uint8_t l7;
    uint64_t l8;
    uint64_t l10;
    struct sampling_sha256_Hasher l0;
    struct sampling_sha256_State l3;
    struct array_64_uint8_t l9;
    l3 = l1->f0;
    l4 = UINT64_C(0);
    l6 = l2.f1;
    l5 = (uint64_t)(l6 / UINT64_C(64));
    for (;;) {
        l7 = (uint8_t)(l4 < l5);
        if (!l7) {
            goto done_1;
        }
        l8 = (uint64_t)(UINT64_C(64) * l4);
        l3 = sampling_sha256_State_compress(&l3, l2, l8);
        l4 = (uint64_t)(l4 + UINT64_C(1));
    }
    done_1:;
    {
        const uint8_t value = UINT8_C(0);
        size_t i;
        for (i = 0; i < 64; i++)
            l9.a[i] = value;
    }
    l6 = l2.f1;
    l10 = (uint64_t)(l1->f2 + l6);
    l0 = (struct sampling_sha256_Hasher){.f0 = l3, .f1 = l9, .f2 = l10};
    return l0;
}

/* sampling::sha256::Hasher::absorb_aligned */
static struct sampling_sha256_Hasher sampling_sha256_Hasher_absorb_aligned(const struct sampling_sha256_Hasher *l1,
    struct slice l2) {
    uint64_t l3;
    uint64_t l4;
    uint8_t l5;
    uint64_t l6;
    unsigned char *l8;
    unsigned char *l10;
    unsigned char *l11;
    struct sampling_sha256_Hasher l0;
    struct sampling_sha256_Hasher l7;
    struct slice l9;
    struct slice l12;
    l4 = l2.f1;
    l5 = (uint8_t)(l4 < UINT64_C(64));
    if (l5) {
        l0 = sampling_sha256_Hasher_absorb_part(l1, l2);
        return l0;
    }
    l4 = l2.f1;
    l6 = (uint64_t)(l4 / UINT64_C(64));
    l3 = (uint64_t)(l6 * UINT64_C(64));
    l8 = l2.f0;
    l9 = (struct slice){.f0 = l8, .f1 = l3};
    l7 = sampling_sha256_Hasher_absorb_blocks(l1, l9);
    l10 = l2.f0 + (size_t)l3;
    l4 = (uint64_t)(l2.f1 - l3);
    l11 = l10;
    l12 = (struct slice){.f0 = l11, .f1 = l4};
    l0 = sampling_sha256_Hasher_absorb_part(&l7, l12);
    return l0;
}

/* sampling::sha256::Hasher::absorb_end */
static struct sampling_sha256_Hasher sampling_sha256_Hasher_absorb_end(const struct sampling_sha256_Hasher *l1,
    struct slice l2) {
    uint64_t l6;
    unsigned char *l9;
    uint64_t l11;
    struct sampling_sha256_Hasher l0;
    struct array_64_uint8_t l3;
    struct array_64_uint8_t l4;
    struct sampling_sha256_State l7;
    struct slice l10;
    l6 = (uint64_t)(l1->f2 % UINT64_C(64));
    l4 = sampling_sha256_with_bytes_64(&l1->f1, l6, l2);
    l3 = l4;
    l9 = (unsigned char *)&l3;
    l10 = (struct slice){.f0 = l9, .f1 = UINT64_C(64)};
    l7 = sampling_sha256_State_compress(&l1->f0, l10, UINT64_C(0));
    {
        const uint8_t value = UINT8_C(0);
        size_t i;
        for (i = 0; i < 64; i++)
            l4.a[i] = value;
    }
    l6 = l2.f1;
    l11 = (uint64_t)(l1->f2 + l6);
    l0 = (struct sampling_sha256_Hasher){.f0 = l7, .f1 = l4, .f2 = l11};
    return l0;
}

/* sampling::sha256::Hasher::absorb_all */
static struct sampling_sha256_Hasher sampling_sha256_Hasher_absorb_all(const struct sampling_sha256_Hasher *l1,
    struct slice l2) {
    uint64_t l3;
    uint64_t l4;
    uint8_t l5;
    uint64_t l6;
    unsigned char *l8;
    unsigned char *l10;
    unsigned char *l11;
    struct sampling_sha256_Hasher l0;
    struct sampling_sha256_Hasher l7;
    struct slice l9;
    struct slice l12;
    l3 = (uint64_t)(l1->f2 % UINT64_C(64));
    l5 = (uint8_t)(l3 == UINT64_C(0));
    if (l5) {
        l0 = sampling_sha256_Hasher_absorb_aligned(l1, l2);
        return l0;
    }
    l4 = (uint64_t)(UINT64_C(64) - l3);
    l6 = l2.f1;
    l5 = (uint8_t)(l6 < l4);
    if (l5) {
        l0 = sampling_sha256_Hasher_absorb_part(l1, l2);
        return l0;
    }
    l8 = l2.f0;
    l9 = (struct slice){.f0 = l8, .f1 = l4};
    l7 = sampling_sha256_Hasher_absorb_end(l1, l9);
    l10 = l2.f0 + (size_t)l4;
    l6 = (uint64_t)(l2.f1 - l4);
    l11 = l10;
    l12 = (struct slice){.f0 = l11, .f1 = l6};
    l0 = sampling_sha256_Hasher_absorb_aligned(&l7, l12);
    return l0;
}

/* sampling::sha256::Hasher::absorb */
static struct sampling_sha256_Hasher sampling_sha256_Hasher_absorb(const struct sampling_sha256_Hasher *l1,
    struct slice l2) {
    uint64_t l3;
    uint8_t l4;
    uint64_t l5;
    uint64_t l6;
    uint8_t l7;
    struct sampling_sha256_Hasher l0;
    l3 = l1->f2;
    l4 = (uint8_t)(UINT64_C(536870912) < l3);
    if (!l4) {
        l5 = (uint64_t)(UINT64_C(536870912) - l3);
        l6 = l2.f1;
        l4 = (uint8_t)(l5 < l6);
        l7 = l4;
        if (!l7) {
            goto done_2;
        }
    }
    l0 = sampling_sha256_Hasher_too_long();
    return l0;
    goto done_1;
    done_2:;
    done_1:;
    l0 = sampling_sha256_Hasher_absorb_all(l1, l2);
    return l0;
}

/* sampling::sha256::tail_of */
static struct array_128_uint8_t sampling_sha256_tail_of(const struct array_64_uint8_t *l1, uint64_t l2, uint64_t l3) {
    unsigned char *l7;
    struct array_128_uint8_t l0;
    struct array_64_uint8_t l4;
    struct array_128_uint8_t l5;
    struct array_128_uint8_t l6;
    struct slice l8;
    l4 = *l1;
    {
        const uint8_t value = UINT8_C(0);
        size_t i;
        for (i = 0; i < 128; i++)
            l6.a[i] = value;
    }
    l7 = (unsigned char *)&l4;
    l8 = (struct slice){.f0 = l7, .f1 = l2};
    l5 = sampling_sha256_with_bytes_128(&l6, UINT64_C(0), l8);
    l0 = sampling_sha256_pad(&l5, l2, l3);
    return l0;
}

/* sampling::sha256::Hasher::finish */
static struct core_result_Result_array_32_u8_TooLong sampling_sha256_Hasher_finish(const struct sampling_sha256_Hasher *l1) {
    uint64_t l2;
    uint64_t l5;
    uint8_t l7;
    unsigned char *l11;
    struct core_result_Result_array_32_u8_TooLong l0;
    struct array_128_uint8_t l6;
    struct sampling_sha256_TooLong l8;
    struct array_128_uint8_t l9;
    struct array_32_uint8_t l10;
    l2 = l1->f2;
    l7 = (uint8_t)(UINT64_C(536870912) < l2);
    if (l7) {
        l8 = (struct sampling_sha256_TooLong){.nothing = 0};
        l0 = (struct core_result_Result_array_32_u8_TooLong){.tag = 1, .u = {.v1 = {.f0 = l8}}};
        return l0;
    }
    l5 = (uint64_t)(l2 % UINT64_C(64));
    l9 = sampling_sha256_tail_of(&l1->f1, l5, l2);
    l6 = l9;
    l11 = (unsigned char *)&l6;
    l10 = sampling_sha256_last_blocks(&l1->f0, l11, l5);
    l0 = (struct core_result_Result_array_32_u8_TooLong){.tag = 0, .u = {.v0 = {.f0 = l10}}};
    return l0;
}

/* sampling::sha256::sha256 */
static struct core_result_Result_array_32_u8_TooLong sampling_sha256_sha256(struct slice l1, struct slice l2,
    struct slice l3, struct slice l4) {
    uint8_t l5;
    uint64_t l6;
    uint64_t l7;
    uint64_t l8;
    uint64_t l9;
    struct core_result_Result_array_32_u8_TooLong l0;
    struct array_32_uint8_t l10;
    struct sampling_sha256_Hasher l11;
    struct sampling_sha256_Hasher l12;
    struct sampling_sha256_Hasher l13;
    struct sampling_sha256_Hasher l14;
    struct sampling_sha256_Hasher l15;
    l6 = l1.f1;
    l7 = l2.f1;
    l8 = l3.f1;
    l9 = l4.f1;
    l5 = sampling_sha256_fits(l6, l7, l8, l9);
    if (l5) {
        l10 = sampling_sha256_hash_short(l1, l2, l3, l4);
        l0 = (struct core_result_Result_array_32_u8_TooLong){.tag = 0, .u = {.v0 = {.f0 = l10}}};
        return l0;
    }
    l15 = sampling_sha256_Hasher_new();
    l14 = sampling_sha256_Hasher_absorb(&l15, l1);
    l13 = sampling_sha256_Hasher_absorb(&l14, l2);
    l12 = sampling_sha256_Hasher_absorb(&l13, l3);
    l11 = sampling_sha256_Hasher_absorb(&l12, l4);
    l0 = sampling_sha256_Hasher_finish(&l11);
    return l0;
}

/* core::assertions::unreachable */
static void core_assertions_unreachable(void) {
    for (;;) {
    }
}

/* core::result::Result::unwrap<array<32, u8>, sampling::sha256::TooLong> */
static struct array_32_uint8_t core_result_Result_unwrap_array_32_u8_TooLong(const struct core_result_Result_array_32_u8_TooLong *l1) {
    struct array_32_uint8_t l0;
    struct array_32_uint8_t l3;
    switch (l1->tag) {
    case UINT8_C(0):
        l3 = l1->u.v0.f0;
        break;
    case UINT8_C(1):
    default:
        core_assertions_unreachable();
        for (;;) {
        }
    }
    l0 = l3;
    return l0;
}

/* centralized_telescope::round::digest */
static struct array_32_uint8_t centralized_telescope_round_digest(struct slice l1, struct slice l2, struct slice l3,
    struct slice l4) {
    struct array_32_uint8_t l0;
    struct core_result_Result_array_32_u8_TooLong l5;
    l5 = sampling_sha256_sha256(l1, l2, l3, l4);
    l0 = core_result_Result_unwrap_array_32_u8_TooLong(&l5);
    return l0;
}

/* centralized_telescope::round::start_hash */
static struct array_32_uint8_t centralized_telescope_round_start_hash(struct centralized_telescope_round_RetryCounter l1,
    struct centralized_telescope_round_SearchCounter l2) {
    unsigned char *l6;
    unsigned char *l7;
    unsigned char *l9;
    unsigned char *l11;
    unsigned char *l13;
    unsigned char *l14;
    struct array_32_uint8_t l0;
    struct array_8_uint8_t l3;
    struct array_8_uint8_t l4;
    struct array_8_uint8_t l5;
    struct slice l8;
    struct slice l10;
    struct slice l12;
    struct slice l15;
    l5 = sampling_big_endian_eight_bytes(l1.f0);
    l3 = l5;
    l5 = sampling_big_endian_eight_bytes(l2.f0);
    l4 = l5;
    {
        static const struct array_20_uint8_t value = {{
            UINT8_C(84), UINT8_C(101), UINT8_C(108), UINT8_C(101), UINT8_C(115), UINT8_C(99), UINT8_C(111), UINT8_C(112),
            UINT8_C(101), UINT8_C(45), UINT8_C(114), UINT8_C(111), UINT8_C(117), UINT8_C(110), UINT8_C(100),
            UINT8_C(95), UINT8_C(104), UINT8_C(97), UINT8_C(115), UINT8_C(104)}};
        l6 = (unsigned char *)&value;
    }
    l7 = l6;
    l8 = (struct slice){.f0 = l7, .f1 = UINT64_C(20)};
    l9 = (unsigned char *)&l3;
    l10 = (struct slice){.f0 = l9, .f1 = UINT64_C(8)};
    l11 = (unsigned char *)&l4;
    l12 = (struct slice){.f0 = l11, .f1 = UINT64_C(8)};
    {
        static const struct array_0_uint8_t value = {{0}};
        l13 = (unsigned char *)&value;
    }
    l14 = l13;
    l15 = (struct slice){.f0 = l14, .f1 = UINT64_C(0)};
    l0 = centralized_telescope_round_digest(l8, l10, l12, l15);
    return l0;
}

/* centralized_telescope::round::first_half */
static struct array_16_uint8_t centralized_telescope_round_first_half(const struct array_32_uint8_t *l1) {
    uint64_t l4;
    uint8_t l5;
    unsigned char *l6;
    unsigned char *l7;
    uint8_t l8;
    unsigned char *l9;
    unsigned char *l10;
    struct array_16_uint8_t l0;
    struct array_32_uint8_t l2;
    struct array_16_uint8_t l3;
    l2 = *l1;
    {
        const uint8_t value = UINT8_C(0);
        size_t i;
        for (i = 0; i < 16; i++)
            l3.a[i] = value;
    }
    l4 = UINT64_C(0);
    for (;;) {
        l5 = (uint8_t)(l4 < UINT64_C(16));
        if (!l5) {
            goto done_1;
        }
        l6 = (unsigned char *)&l2;
        l7 = l6 + (size_t)l4;
        l8 = (*(uint8_t *)l7);
        l9 = (unsigned char *)&l3;
        l10 = l9 + (size_t)l4;
        (*(uint8_t *)l10) = l8;
        l4 = (uint64_t)(l4 + UINT64_C(1));
    }
    done_1:;
    l0 = l3;
    return l0;
}

/* centralized_telescope::round::id_of */
static struct core_option_Option_u64 centralized_telescope_round_id_of(const struct core_result_Result_Option_u64_EmptyRange *l1) {
    struct core_option_Option_u64 l0;
    struct core_option_Option_u64 l3;
    switch (l1->tag) {
    case UINT8_C(0):
        l3 = l1->u.v0.f0;
        break;
    case UINT8_C(1):
    default:
        l3 = (struct core_option_Option_u64){.tag = 0};
        break;
    }
    l0 = l3;
    return l0;
}

/* centralized_telescope::round::round_id */
static struct core_option_Option_u64 centralized_telescope_round_round_id(const struct array_32_uint8_t *l1,
    uint64_t l2) {
    struct core_option_Option_u64 l0;
    struct core_result_Result_Option_u64_EmptyRange l3;
    struct array_16_uint8_t l4;
    l4 = centralized_telescope_round_first_half(l1);
    l3 = sampling_sample_sample_uniform(l4, l2);
    l0 = centralized_telescope_round_id_of(&l3);
    return l0;
}

/* core::option::OptionTry::branch<u64> */
static struct core_ops_ControlFlow_NoValue_u64 core_option_OptionTry_branch_u64(const struct core_option_Option_u64 *l1) {
    uint64_t l2;
    uint64_t l4;
    struct core_ops_ControlFlow_NoValue_u64 l0;
    struct core_ops_ControlFlow_NoValue_u64 l3;
    struct core_option_NoValue l5;
    switch (l1->tag) {
    case UINT8_C(1):
        l2 = l1->u.v1.f0;
        l4 = l2;
        l3 = (struct core_ops_ControlFlow_NoValue_u64){.tag = 0, .u = {.v0 = {.f0 = l4}}};
        break;
    case UINT8_C(0):
    default:
        l5 = (struct core_option_NoValue){.nothing = 0};
        l3 = (struct core_ops_ControlFlow_NoValue_u64){.tag = 1, .u = {.v1 = {.f0 = l5}}};
        break;
    }
    l0 = l3;
    return l0;
}

/* core::option::OptionFromResidualNoValue::from_residual<centralized_telescope::round::Round> */
static struct core_option_Option_Round core_option_OptionFromResidualNoValue_from_residual_Round(struct core_option_NoValue l1) {
    struct core_option_Option_Round l0;
    (void)l1;
    l0 = (struct core_option_Option_Round){.tag = 0};
    return l0;
}

/* centralized_telescope::round::round_of */
static struct core_option_Option_Round centralized_telescope_round_round_of(const struct array_32_uint8_t *l1,
    uint64_t l2) {
    uint64_t l3;
    uint64_t l6;
    uint64_t l10;
    uint64_t l11;
    struct core_option_Option_Round l0;
    struct array_32_uint8_t l5;
    struct core_ops_ControlFlow_NoValue_u64 l7;
    struct core_option_Option_u64 l8;
    struct centralized_telescope_round_Round l13;
    l5 = *l1;
    l10 = l2;
    l8 = centralized_telescope_round_round_id(l1, l10);
    l7 = core_option_OptionTry_branch_u64(&l8);
    switch (l7.tag) {
    case UINT8_C(0):
        l3 = l7.u.v0.f0;
        l11 = l3;
        break;
    case UINT8_C(1):
    default:
        l0 = core_option_OptionFromResidualNoValue_from_residual_Round(l7.u.v1.f0);
        return l0;
    }
    l6 = l11;
    l13 = (struct centralized_telescope_round_Round){.f0 = l5, .f1 = l6};
    l0 = (struct core_option_Option_Round){.tag = 1, .u = {.v1 = {.f0 = l13}}};
    return l0;
}

/* centralized_telescope::proof::first_round */
static struct core_option_Option_Round centralized_telescope_proof_first_round(const struct centralized_telescope_params_Params *l1,
    struct centralized_telescope_round_RetryCounter l2, struct centralized_telescope_round_SearchCounter l3) {
    struct core_option_Option_Round l0;
    struct array_32_uint8_t l4;
    l4 = centralized_telescope_round_start_hash(l2, l3);
    l0 = centralized_telescope_round_round_of(&l4, l1->f0);
    return l0;
}

/* core::option::OptionTry::branch<centralized_telescope::round::Round> */
static struct core_ops_ControlFlow_NoValue_Round core_option_OptionTry_branch_Round(const struct core_option_Option_Round *l1) {
    struct core_ops_ControlFlow_NoValue_Round l0;
    struct core_ops_ControlFlow_NoValue_Round l3;
    struct core_option_NoValue l5;
    switch (l1->tag) {
    case UINT8_C(1):
        l3 = (struct core_ops_ControlFlow_NoValue_Round){.tag = 0, .u = {.v0 = {.f0 = l1->u.v1.f0}}};
        break;
    case UINT8_C(0):
    default:
        l5 = (struct core_option_NoValue){.nothing = 0};
        l3 = (struct core_ops_ControlFlow_NoValue_Round){.tag = 1, .u = {.v1 = {.f0 = l5}}};
        break;
    }
    l0 = l3;
    return l0;
}

/* centralized_telescope::Destruct++none::drop<centralized_telescope::exports::fn::start_in_bytes::start_of+Self<slice<u8>>> */
static void centralized_telescope_Destruct_none_drop_centralized_telescope_exports_fn_start_in_bytes_start_of_Self_slice_u8(struct centralized_telescope_exports_fn_start_in_bytes_start_of_Self_slice_u8 l1) {
    (void)l1;
    return;
}

/* centralized_telescope::exports::fn::start_in_bytes::start_of */
static uint64_t centralized_telescope_exports_fn_start_in_bytes_start_of(unsigned char *l1, uint64_t l2) {
    uint64_t l0;
    struct slice l3;
    l3 = (*(struct centralized_telescope_exports_fn_start_in_bytes_start_of_Self_slice_u8 *)l1).f0;
    l0 = centralized_telescope_exports_end_at(l3, l2);
    return l0;
}

/* centralized_telescope::exports::fn::start_in_bytes::start_of+Fn::call */
static uint64_t centralized_telescope_exports_fn_start_in_bytes_start_of_Fn_call(unsigned char *l1, uint64_t l2) {
    uint64_t l0;
    l0 = centralized_telescope_exports_fn_start_in_bytes_start_of(l1, l2);
    return l0;
}

/* centralized_telescope::types::start_of<centralized_telescope::exports::fn::start_in_bytes::start_of+Self<slice<u8>>> */
static uint64_t centralized_telescope_types_start_of_centralized_telescope_exports_fn_start_in_bytes_start_of_Self_slice_u8(uint64_t l1,
    struct centralized_telescope_exports_fn_start_in_bytes_start_of_Self_slice_u8 l2) {
    uint64_t l0;
    uint8_t l4;
    unsigned char *l5;
    uint64_t l6;
    struct centralized_telescope_exports_fn_start_in_bytes_start_of_Self_slice_u8 l3;
    struct centralized_telescope_exports_fn_start_in_bytes_start_of_Self_slice_u8 l7;
    struct centralized_telescope_exports_fn_start_in_bytes_start_of_Self_slice_u8 l9;
    l3 = l2;
    l4 = (uint8_t)(l1 == UINT64_C(0));
    if (l4) {
        l0 = UINT64_C(0);
        l7 = l3;
        centralized_telescope_Destruct_none_drop_centralized_telescope_exports_fn_start_in_bytes_start_of_Self_slice_u8(l7);
        return l0;
    }
    l5 = (unsigned char *)&l3;
    l6 = (uint64_t)(l1 - UINT64_C(1));
    l0 = centralized_telescope_exports_fn_start_in_bytes_start_of_Fn_call(l5, l6);
    l9 = l3;
    centralized_telescope_Destruct_none_drop_centralized_telescope_exports_fn_start_in_bytes_start_of_Self_slice_u8(l9);
    return l0;
}

/* centralized_telescope::exports::start_in_bytes */
static uint64_t centralized_telescope_exports_start_in_bytes(struct slice l1, uint64_t l2) {
    uint64_t l0;
    unsigned char *l3;
    struct slice l4;
    struct centralized_telescope_exports_fn_start_in_bytes_start_of_Self_slice_u8 l5;
    l3 = l1.f0;
    l4 = (struct slice){.f0 = l3, .f1 = l1.f1};
    l5 = (struct centralized_telescope_exports_fn_start_in_bytes_start_of_Self_slice_u8){.f0 = l4};
    l0 = centralized_telescope_types_start_of_centralized_telescope_exports_fn_start_in_bytes_start_of_Self_slice_u8(l2, l5);
    return l0;
}

/* centralized_telescope::exports::index_at */
static struct core_option_Option_u64 centralized_telescope_exports_index_at(struct slice l1, struct slice l2,
    uint64_t l3) {
    unsigned char *l4;
    uint8_t l5;
    uint8_t l6;
    uint64_t l7;
    uint64_t l8;
    struct core_option_Option_u64 l0;
    l4 = l1.f0 + (size_t)l3;
    l5 = (*(uint8_t *)l4);
    l6 = (uint8_t)(l5 != UINT8_C(1));
    if (l6) {
        l0 = (struct core_option_Option_u64){.tag = 0};
        return l0;
    }
    l8 = (uint64_t)(UINT64_C(8) * l3);
    l7 = centralized_telescope_numbers_number(l2, l8, UINT64_C(8));
    l0 = (struct core_option_Option_u64){.tag = 1, .u = {.v1 = {.f0 = l7}}};
    return l0;
}

/* centralized_telescope::exports::AcceptedBytesListed::element */
static struct centralized_telescope_lists_Element centralized_telescope_exports_AcceptedBytesListed_element(unsigned char *l1,
    uint64_t l2) {
    uint64_t l4;
    uint64_t l5;
    unsigned char *l9;
    uint64_t l10;
    unsigned char *l11;
    struct centralized_telescope_lists_Element l0;
    struct centralized_telescope_in_bytes_LentBytes l3;
    struct slice l12;
    struct core_option_Option_u64 l13;
    l3 = (*(struct centralized_telescope_in_bytes_AcceptedBytes *)l1).f0;
    l4 = centralized_telescope_exports_start_in_bytes(l3.f1, l2);
    l5 = centralized_telescope_exports_end_at(l3.f1, l2);
    l9 = l3.f0.f0 + (size_t)l4;
    l10 = (uint64_t)(l5 - l4);
    l11 = l9;
    l12 = (struct slice){.f0 = l11, .f1 = l10};
    l13 = centralized_telescope_exports_index_at(l3.f2, l3.f3, l2);
    l0 = (struct centralized_telescope_lists_Element){.f0 = l13, .f1 = l12};
    return l0;
}

/* centralized_telescope::round::tail_digest */
static struct array_32_uint8_t centralized_telescope_round_tail_digest(struct slice l1, struct slice l2,
    const struct centralized_telescope_lists_Element *l3) {
    uint64_t l4;
    unsigned char *l9;
    unsigned char *l12;
    unsigned char *l13;
    struct array_32_uint8_t l0;
    struct array_32_uint8_t l5;
    struct array_8_uint8_t l7;
    struct array_8_uint8_t l8;
    struct slice l10;
    struct slice l11;
    struct slice l14;
    switch (l3->f0.tag) {
    case UINT8_C(1):
        l4 = l3->f0.u.v1.f0;
        l7 = sampling_big_endian_eight_bytes(l4);
        l8 = l7;
        l9 = (unsigned char *)&l8;
        l10 = (struct slice){.f0 = l9, .f1 = UINT64_C(8)};
        l5 = centralized_telescope_round_digest(l1, l2, l3->f1, l10);
        break;
    case UINT8_C(0):
    default:
        l11 = l3->f1;
        {
            static const struct array_0_uint8_t value = {{0}};
            l12 = (unsigned char *)&value;
        }
        l13 = l12;
        l14 = (struct slice){.f0 = l13, .f1 = UINT64_C(0)};
        l5 = centralized_telescope_round_digest(l1, l2, l11, l14);
        break;
    }
    l0 = l5;
    return l0;
}

/* centralized_telescope::round::bin_of */
static struct core_option_Option_u64 centralized_telescope_round_bin_of(struct centralized_telescope_round_RetryCounter l1,
    const struct centralized_telescope_lists_Element *l2, uint64_t l3) {
    unsigned char *l7;
    unsigned char *l8;
    unsigned char *l10;
    struct core_option_Option_u64 l0;
    struct array_8_uint8_t l4;
    struct array_8_uint8_t l5;
    struct array_32_uint8_t l6;
    struct slice l9;
    struct slice l11;
    l5 = sampling_big_endian_eight_bytes(l1.f0);
    l4 = l5;
    {
        static const struct array_18_uint8_t value = {{
            UINT8_C(84), UINT8_C(101), UINT8_C(108), UINT8_C(101), UINT8_C(115), UINT8_C(99), UINT8_C(111), UINT8_C(112),
            UINT8_C(101), UINT8_C(45), UINT8_C(98), UINT8_C(105), UINT8_C(110), UINT8_C(95), UINT8_C(104), UINT8_C(97),
            UINT8_C(115), UINT8_C(104)}};
        l7 = (unsigned char *)&value;
    }
    l8 = l7;
    l9 = (struct slice){.f0 = l8, .f1 = UINT64_C(18)};
    l10 = (unsigned char *)&l4;
    l11 = (struct slice){.f0 = l10, .f1 = UINT64_C(8)};
    l6 = centralized_telescope_round_tail_digest(l9, l11, l2);
    l0 = centralized_telescope_round_round_id(&l6, l3);
    return l0;
}

/* centralized_telescope::round::next_hash */
static struct array_32_uint8_t centralized_telescope_round_next_hash(const struct array_32_uint8_t *l1,
    const struct centralized_telescope_lists_Element *l2) {
    unsigned char *l4;
    unsigned char *l5;
    unsigned char *l7;
    struct array_32_uint8_t l0;
    struct array_32_uint8_t l3;
    struct slice l6;
    struct slice l8;
    l3 = *l1;
    {
        static const struct array_20_uint8_t value = {{
            UINT8_C(84), UINT8_C(101), UINT8_C(108), UINT8_C(101), UINT8_C(115), UINT8_C(99), UINT8_C(111), UINT8_C(112),
            UINT8_C(101), UINT8_C(45), UINT8_C(114), UINT8_C(111), UINT8_C(117), UINT8_C(110), UINT8_C(100),
            UINT8_C(95), UINT8_C(104), UINT8_C(97), UINT8_C(115), UINT8_C(104)}};
        l4 = (unsigned char *)&value;
    }
    l5 = l4;
    l6 = (struct slice){.f0 = l5, .f1 = UINT64_C(20)};
    l7 = (unsigned char *)&l3;
    l8 = (struct slice){.f0 = l7, .f1 = UINT64_C(32)};
    l0 = centralized_telescope_round_tail_digest(l6, l8, l2);
    return l0;
}

/* centralized_telescope::proof::next_round */
static struct core_option_Option_Round centralized_telescope_proof_next_round(const struct centralized_telescope_params_Params *l1,
    struct centralized_telescope_round_RetryCounter l2, const struct centralized_telescope_round_Round *l3,
    const struct centralized_telescope_lists_Element *l4) {
    uint64_t l5;
    uint64_t l7;
    uint64_t l12;
    uint64_t l13;
    uint64_t l15;
    uint8_t l16;
    uint64_t l20;
    struct core_option_Option_Round l0;
    struct core_ops_ControlFlow_NoValue_u64 l8;
    struct core_option_Option_u64 l9;
    struct array_32_uint8_t l17;
    l12 = l1->f0;
    l9 = centralized_telescope_round_bin_of(l2, l4, l12);
    l8 = core_option_OptionTry_branch_u64(&l9);
    switch (l8.tag) {
    case UINT8_C(0):
        l5 = l8.u.v0.f0;
        l13 = l5;
        break;
    case UINT8_C(1):
    default:
        l0 = core_option_OptionFromResidualNoValue_from_residual_Round(l8.u.v1.f0);
        return l0;
    }
    l7 = l13;
    l15 = l3->f1;
    l16 = (uint8_t)(l7 != l15);
    if (l16) {
        l0 = (struct core_option_Option_Round){.tag = 0};
        return l0;
    }
    l17 = centralized_telescope_round_next_hash(&l3->f0, l4);
    l20 = l1->f0;
    l0 = centralized_telescope_round_round_of(&l17, l20);
    return l0;
}

/* centralized_telescope::proof::Proof::last_round<centralized_telescope::in_bytes::AcceptedBytes> */
static struct core_option_Option_Round centralized_telescope_proof_Proof_last_round_AcceptedBytes(unsigned char *l1,
    const struct centralized_telescope_params_Params *l2) {
    uint64_t l6;
    uint64_t l14;
    unsigned char *l15;
    uint8_t l16;
    unsigned char *l21;
    struct core_option_Option_Round l0;
    struct centralized_telescope_round_Round l3;
    struct core_ops_ControlFlow_NoValue_Round l9;
    struct core_option_Option_Round l10;
    struct centralized_telescope_round_RetryCounter l11;
    struct centralized_telescope_round_SearchCounter l12;
    struct core_ops_ControlFlow_NoValue_Round l17;
    struct core_option_Option_Round l18;
    struct centralized_telescope_round_RetryCounter l19;
    struct centralized_telescope_lists_Element l20;
    l11 = (*(struct centralized_telescope_proof_Proof_AcceptedBytes *)l1).f0;
    l12 = (*(struct centralized_telescope_proof_Proof_AcceptedBytes *)l1).f1;
    l10 = centralized_telescope_proof_first_round(l2, l11, l12);
    l9 = core_option_OptionTry_branch_Round(&l10);
    switch (l9.tag) {
    case UINT8_C(0):
        l3 = l9.u.v0.f0;
        break;
    case UINT8_C(1):
    default:
        l0 = core_option_OptionFromResidualNoValue_from_residual_Round(l9.u.v1.f0);
        return l0;
    }
    l6 = UINT64_C(0);
    l15 = (unsigned char *)&(*(struct centralized_telescope_proof_Proof_AcceptedBytes *)l1).f2;
    l14 = centralized_telescope_exports_AcceptedBytesListed_len(l15);
    for (;;) {
        l16 = (uint8_t)(l6 < l14);
        if (!l16) {
            goto done_1;
        }
        l19 = (*(struct centralized_telescope_proof_Proof_AcceptedBytes *)l1).f0;
        l21 = (unsigned char *)&(*(struct centralized_telescope_proof_Proof_AcceptedBytes *)l1).f2;
        l20 = centralized_telescope_exports_AcceptedBytesListed_element(l21, l6);
        l18 = centralized_telescope_proof_next_round(l2, l19, &l3, &l20);
        l17 = core_option_OptionTry_branch_Round(&l18);
        switch (l17.tag) {
        case UINT8_C(0):
            l3 = l17.u.v0.f0;
            break;
        case UINT8_C(1):
        default:
            l0 = core_option_OptionFromResidualNoValue_from_residual_Round(l17.u.v1.f0);
            return l0;
        }
        l6 = (uint64_t)(l6 + UINT64_C(1));
    }
    done_1:;
    l0 = (struct core_option_Option_Round){.tag = 1, .u = {.v1 = {.f0 = l3}}};
    return l0;
}

/* centralized_telescope::round::proof_hash */
static uint8_t centralized_telescope_round_proof_hash(const struct array_32_uint8_t *l1, struct sampling_sample_U128 l2) {
    uint8_t l0;
    unsigned char *l6;
    unsigned char *l7;
    unsigned char *l9;
    unsigned char *l11;
    unsigned char *l12;
    unsigned char *l14;
    unsigned char *l15;
    struct array_32_uint8_t l3;
    struct array_16_uint8_t l4;
    struct array_32_uint8_t l5;
    struct slice l8;
    struct slice l10;
    struct slice l13;
    struct slice l16;
    l3 = *l1;
    {
        static const struct array_20_uint8_t value = {{
            UINT8_C(84), UINT8_C(101), UINT8_C(108), UINT8_C(101), UINT8_C(115), UINT8_C(99), UINT8_C(111), UINT8_C(112),
            UINT8_C(101), UINT8_C(45), UINT8_C(112), UINT8_C(114), UINT8_C(111), UINT8_C(111), UINT8_C(102),
            UINT8_C(95), UINT8_C(104), UINT8_C(97), UINT8_C(115), UINT8_C(104)}};
        l6 = (unsigned char *)&value;
    }
    l7 = l6;
    l8 = (struct slice){.f0 = l7, .f1 = UINT64_C(20)};
    l9 = (unsigned char *)&l3;
    l10 = (struct slice){.f0 = l9, .f1 = UINT64_C(32)};
    {
        static const struct array_0_uint8_t value = {{0}};
        l11 = (unsigned char *)&value;
    }
    l12 = l11;
    l13 = (struct slice){.f0 = l12, .f1 = UINT64_C(0)};
    {
        static const struct array_0_uint8_t value = {{0}};
        l14 = (unsigned char *)&value;
    }
    l15 = l14;
    l16 = (struct slice){.f0 = l15, .f1 = UINT64_C(0)};
    l5 = centralized_telescope_round_digest(l8, l10, l13, l16);
    l4 = centralized_telescope_round_first_half(&l5);
    l0 = sampling_sample_sample_bernoulli(l4, l2);
    return l0;
}

/* centralized_telescope::proof::fn::Proof::passes::is_some_and */
static uint8_t centralized_telescope_proof_fn_Proof_passes_is_some_and(struct centralized_telescope_proof_fn_Proof_passes_is_some_and_Self_ref_U128 l1,
    const struct centralized_telescope_round_Round *l2) {
    uint8_t l0;
    unsigned char *l3;
    struct sampling_sample_U128 l5;
    l3 = l1.f0;
    l5 = (*(struct sampling_sample_U128 *)l3);
    l0 = centralized_telescope_round_proof_hash(&l2->f0, l5);
    return l0;
}

/* centralized_telescope::proof::fn::Proof::passes::is_some_and+FnOnce::call_once */
static uint8_t centralized_telescope_proof_fn_Proof_passes_is_some_and_FnOnce_call_once(struct centralized_telescope_proof_fn_Proof_passes_is_some_and_Self_ref_U128 l1,
    const struct centralized_telescope_round_Round *l2) {
    uint8_t l0;
    l0 = centralized_telescope_proof_fn_Proof_passes_is_some_and(l1, l2);
    return l0;
}

/* centralized_telescope::Destruct++none::drop<centralized_telescope::proof::fn::Proof::passes::is_some_and+Self<ref<sampling::sample::U128>>> */
static void centralized_telescope_Destruct_none_drop_centralized_telescope_proof_fn_Proof_passes_is_some_and_Self_ref_U128(struct centralized_telescope_proof_fn_Proof_passes_is_some_and_Self_ref_U128 l1) {
    (void)l1;
    return;
}

/* core::option::Option::is_some_and<centralized_telescope::round::Round, centralized_telescope::proof::fn::Proof::passes::is_some_and+Self<ref<sampling::sample::U128>>> */
static uint8_t core_option_Option_is_some_and_Round_centralized_telescope_proof_fn_Proof_passes_is_some_and_Self_ref_U128(const struct core_option_Option_Round *l1,
    struct centralized_telescope_proof_fn_Proof_passes_is_some_and_Self_ref_U128 l2) {
    uint8_t l0;
    uint8_t l4;
    switch (l1->tag) {
    case UINT8_C(1):
        l4 = centralized_telescope_proof_fn_Proof_passes_is_some_and_FnOnce_call_once(l2, &l1->u.v1.f0);
        break;
    case UINT8_C(0):
    default:
        l4 = 0;
        centralized_telescope_Destruct_none_drop_centralized_telescope_proof_fn_Proof_passes_is_some_and_Self_ref_U128(l2);
        break;
    }
    l0 = l4;
    return l0;
}

/* centralized_telescope::proof::Proof::passes<centralized_telescope::in_bytes::AcceptedBytes> */
static uint8_t centralized_telescope_proof_Proof_passes_AcceptedBytes(unsigned char *l1,
    const struct centralized_telescope_params_Params *l2) {
    uint8_t l0;
    unsigned char *l6;
    struct centralized_telescope_params_Params l3;
    struct core_option_Option_Round l4;
    struct centralized_telescope_params_Params l5;
    struct centralized_telescope_proof_fn_Proof_passes_is_some_and_Self_ref_U128 l7;
    l3 = *l2;
    l5 = l3;
    l4 = centralized_telescope_proof_Proof_last_round_AcceptedBytes(l1, &l5);
    l6 = (unsigned char *)&l3.f5;
    l7 = (struct centralized_telescope_proof_fn_Proof_passes_is_some_and_Self_ref_U128){.f0 = l6};
    l0 = core_option_Option_is_some_and_Round_centralized_telescope_proof_fn_Proof_passes_is_some_and_Self_ref_U128(&l4, l7);
    return l0;
}

/* centralized_telescope::proof::Proof::judge<centralized_telescope::in_bytes::AcceptedBytes> */
static struct core_result_Result_unit_Rejection centralized_telescope_proof_Proof_judge_AcceptedBytes(unsigned char *l1,
    const struct centralized_telescope_params_Params *l2) {
    uint8_t l7;
    uint8_t l8;
    struct core_result_Result_unit_Rejection l0;
    struct core_ops_ControlFlow_ErrResidual_Rejection_unit l5;
    struct core_result_Result_unit_Rejection l6;
    struct centralized_telescope_proof_Rejection l9;
    l6 = centralized_telescope_proof_Proof_judge_counts_AcceptedBytes(l1, l2);
    l5 = core_result_ResultTry_branch_unit_Rejection(&l6);
    switch (l5.tag) {
    case UINT8_C(0):
        break;
    case UINT8_C(1):
    default:
        l0 = core_result_ResultFromResidualErrResidual_from_residual_unit_Rejection_Rejection(l5.u.v1.f0);
        return l0;
    }
    l7 = centralized_telescope_proof_Proof_passes_AcceptedBytes(l1, l2);
    l8 = (uint8_t)!l7;
    if (l8) {
        l9 = (struct centralized_telescope_proof_Rejection){.tag = 2};
        l0 = (struct core_result_Result_unit_Rejection){.tag = 1, .u = {.v1 = {.f0 = l9}}};
        return l0;
    }
    l0 = (struct core_result_Result_unit_Rejection){.tag = 0};
    return l0;
}

/* centralized_telescope::exports::verify_bytes */
static struct core_result_Result_unit_Rejection centralized_telescope_exports_verify_bytes(const struct centralized_telescope_params_Params *l1,
    struct centralized_telescope_round_RetryCounter l2, struct centralized_telescope_round_SearchCounter l3,
    const struct centralized_telescope_in_bytes_LentBytes *l4) {
    unsigned char *l23;
    struct core_result_Result_unit_Rejection l0;
    struct centralized_telescope_proof_Proof_AcceptedBytes l7;
    struct core_ops_ControlFlow_ErrResidual_Refusal_unit l10;
    struct core_result_Result_unit_Refusal l11;
    struct centralized_telescope_round_RetryCounter l15;
    struct centralized_telescope_round_SearchCounter l16;
    struct core_ops_ControlFlow_ErrResidual_Refusal_AcceptedBytes l18;
    struct core_result_Result_AcceptedBytes_Refusal l19;
    struct centralized_telescope_in_bytes_AcceptedBytes l21;
    l11 = centralized_telescope_params_check_params(l1);
    l10 = core_result_ResultTry_branch_unit_Refusal(l11);
    switch (l10.tag) {
    case UINT8_C(0):
        break;
    case UINT8_C(1):
    default:
        l0 = core_result_ResultFromResidualErrResidual_from_residual_unit_Refusal_Rejection(l10.u.v1.f0);
        return l0;
    }
    l15 = l2;
    l16 = l3;
    l19 = centralized_telescope_exports_accept_bytes(l4);
    l18 = core_result_ResultTry_branch_AcceptedBytes_Refusal(&l19);
    switch (l18.tag) {
    case UINT8_C(0):
        l21 = l18.u.v0.f0;
        break;
    case UINT8_C(1):
    default:
        l0 = core_result_ResultFromResidualErrResidual_from_residual_unit_Refusal_Rejection(l18.u.v1.f0);
        return l0;
    }
    l7 = (struct centralized_telescope_proof_Proof_AcceptedBytes){.f0 = l15, .f1 = l16, .f2 = l21};
    l23 = (unsigned char *)&l7;
    l0 = centralized_telescope_proof_Proof_judge_AcceptedBytes(l23, l1);
    return l0;
}

/* centralized_telescope::errors::U32FromRefusal::from */
static uint32_t centralized_telescope_errors_U32FromRefusal_from(struct centralized_telescope_errors_Refusal l1) {
    uint32_t l0;
    uint32_t l2;
    switch (l1.tag) {
    case UINT8_C(0):
        l2 = UINT32_C(1);
        break;
    case UINT8_C(1):
        l2 = UINT32_C(2);
        break;
    case UINT8_C(2):
        l2 = UINT32_C(4);
        break;
    case UINT8_C(3):
        l2 = UINT32_C(5);
        break;
    case UINT8_C(4):
        l2 = UINT32_C(6);
        break;
    case UINT8_C(5):
        l2 = UINT32_C(10);
        break;
    case UINT8_C(6):
        l2 = UINT32_C(30);
        break;
    case UINT8_C(7):
        l2 = UINT32_C(31);
        break;
    case UINT8_C(8):
        l2 = UINT32_C(40);
        break;
    case UINT8_C(9):
        l2 = UINT32_C(41);
        break;
    case UINT8_C(10):
        l2 = UINT32_C(42);
        break;
    case UINT8_C(11):
        l2 = UINT32_C(43);
        break;
    case UINT8_C(12):
        l2 = UINT32_C(44);
        break;
    case UINT8_C(13):
        l2 = UINT32_C(45);
        break;
    case UINT8_C(14):
        l2 = UINT32_C(46);
        break;
    case UINT8_C(15):
        l2 = UINT32_C(47);
        break;
    case UINT8_C(16):
        l2 = UINT32_C(48);
        break;
    case UINT8_C(17):
        l2 = UINT32_C(49);
        break;
    case UINT8_C(18):
    default:
        l2 = UINT32_C(50);
        break;
    }
    l0 = l2;
    return l0;
}

/* centralized_telescope::proof::U32FromRejection::from */
static uint32_t centralized_telescope_proof_U32FromRejection_from(struct centralized_telescope_proof_Rejection l1) {
    uint32_t l0;
    uint32_t l3;
    switch (l1.tag) {
    case UINT8_C(0):
        l3 = UINT32_C(20);
        break;
    case UINT8_C(1):
        l3 = UINT32_C(21);
        break;
    case UINT8_C(2):
        l3 = UINT32_C(22);
        break;
    case UINT8_C(3):
    default:
        l3 = centralized_telescope_errors_U32FromRefusal_from(l1.u.v3.f0);
        break;
    }
    l0 = l3;
    return l0;
}

/* centralized_telescope::proof::verdict_number */
static uint32_t centralized_telescope_proof_verdict_number(const struct core_result_Result_unit_Rejection *l1) {
    uint32_t l0;
    uint32_t l3;
    switch (l1->tag) {
    case UINT8_C(0):
        l3 = UINT32_C(0);
        break;
    case UINT8_C(1):
    default:
        l3 = centralized_telescope_proof_U32FromRejection_from(l1->u.v1.f0);
        break;
    }
    l0 = l3;
    return l0;
}

/* centralized_telescope::exports::alba_verify */
uint32_t alba_verify(uint64_t l1, uint64_t l2, uint64_t l3, uint64_t l4, uint64_t l5, uint64_t l6, uint64_t l7,
    uint64_t l8, uint64_t l9, const uint8_t *a10, size_t a10_len, const uint8_t *a11, size_t a11_len,
    const uint8_t *a12, size_t a12_len, const uint8_t *a13, size_t a13_len) {
    struct slice l10 = lent(a10, a10_len);
    struct slice l11 = lent(a11, a11_len);
    struct slice l12 = lent(a12, a12_len);
    struct slice l13 = lent(a13, a13_len);
    uint32_t l0;
    struct core_result_Result_unit_Rejection l14;
    struct centralized_telescope_params_Params l15;
    struct centralized_telescope_round_RetryCounter l16;
    struct centralized_telescope_round_SearchCounter l17;
    struct centralized_telescope_in_bytes_LentBytes l18;
    l15 = centralized_telescope_params_settings_of(l1, l2, l3, l4, l5, l6, l7);
    l16 = (struct centralized_telescope_round_RetryCounter){.f0 = l8};
    l17 = (struct centralized_telescope_round_SearchCounter){.f0 = l9};
    l18 = (struct centralized_telescope_in_bytes_LentBytes){.f0 = l10, .f1 = l11, .f2 = l12, .f3 = l13};
    l14 = centralized_telescope_exports_verify_bytes(&l15, l16, l17, &l18);
    l0 = centralized_telescope_proof_verdict_number(&l14);
    return l0;
}

#ifndef ALBA_NO_DOUBLE
#include <float.h>

#if defined(__FAST_MATH__) || (defined(__FINITE_MATH_ONLY__) && __FINITE_MATH_ONLY__)
#error "with -ffast-math or -ffinite-math-only floats are not IEEE 754's"
#endif
typedef char double_is_ieee_754[sizeof(double) == 8 && FLT_RADIX == 2 && DBL_MANT_DIG == 53 && DBL_MAX_EXP == 1024 ? 1 : -1];
union f64_bits {
    double value;
    uint64_t bits;
};

static uint64_t bits_of_f64(double x) {
    union f64_bits both;
    both.value = x;
    return both.bits;
}

static double f64_of_bits(uint64_t x) {
    union f64_bits both;
    both.bits = x;
    return both.value;
}

/* core::f64::is_nan */
static uint8_t core_f64_is_nan(double l1) {
    uint8_t l0;
    l0 = (uint8_t)(l1 != l1);
    return l0;
}

/* sampling::sample::is_outside_unit */
static uint8_t sampling_sample_is_outside_unit(double l1) {
    uint8_t l0;
    uint8_t l2;
    uint8_t l3;
    l3 = core_f64_is_nan(l1);
    if (!l3) {
        l3 = (uint8_t)(l1 < f64_of_bits(UINT64_C(0)));
    }
    l2 = l3;
    if (!l2) {
        l2 = (uint8_t)(f64_of_bits(UINT64_C(4607182418800017408)) < l1);
    }
    l0 = l2;
    return l0;
}

/* sampling::sample::unit_threshold */
static struct sampling_sample_U128 sampling_sample_unit_threshold(double l1) {
    uint64_t l2;
    uint64_t l3;
    uint64_t l4;
    uint64_t l5;
    uint8_t l6;
    uint64_t l7;
    uint64_t l8;
    uint64_t l9;
    uint64_t l10;
    uint64_t l11;
    uint64_t l12;
    uint64_t l13;
    uint64_t l14;
    struct sampling_sample_U128 l0;
    l2 = bits_of_f64(l1);
    l5 = (uint64_t)(l2 / UINT64_C(4503599627370496));
    l3 = (uint64_t)(l5 % UINT64_C(2048));
    l5 = (uint64_t)(l2 % UINT64_C(4503599627370496));
    l4 = (uint64_t)(UINT64_C(4503599627370496) + l5);
    l6 = (uint8_t)(l3 < UINT64_C(884));
    if (l6) {
        l0 = (struct sampling_sample_U128){.f0 = UINT64_C(0), .f1 = UINT64_C(0)};
        return l0;
    }
    l6 = (uint8_t)(l3 <= UINT64_C(947));
    if (l6) {
        l7 = (uint64_t)(UINT64_C(947) - l3);
        l8 = (uint64_t)(l4 >> l7);
        l0 = (struct sampling_sample_U128){.f0 = UINT64_C(0), .f1 = l8};
        return l0;
    }
    l6 = (uint8_t)(l3 < UINT64_C(1011));
    if (l6) {
        l9 = (uint64_t)(UINT64_C(1011) - l3);
        l10 = (uint64_t)(l4 >> l9);
        l11 = (uint64_t)(l3 - UINT64_C(947));
        l12 = (uint64_t)(l4 << l11);
        l0 = (struct sampling_sample_U128){.f0 = l10, .f1 = l12};
        return l0;
    }
    l6 = (uint8_t)(l3 < UINT64_C(1023));
    if (l6) {
        l13 = (uint64_t)(l3 - UINT64_C(1011));
        l14 = (uint64_t)(l4 << l13);
        l0 = (struct sampling_sample_U128){.f0 = l14, .f1 = UINT64_C(0)};
        return l0;
    }
    l0 = (struct sampling_sample_U128){.f0 = UINT64_C(18446744073709551615), .f1 = UINT64_C(18446744073709551615)};
    return l0;
}

/* sampling::sample::threshold_of */
static struct core_result_Result_U128_NotProbability sampling_sample_threshold_of(double l1) {
    uint8_t l2;
    struct core_result_Result_U128_NotProbability l0;
    struct sampling_sample_NotProbability l3;
    struct sampling_sample_U128 l4;
    l2 = sampling_sample_is_outside_unit(l1);
    if (l2) {
        l3 = (struct sampling_sample_NotProbability){.nothing = 0};
        l0 = (struct core_result_Result_U128_NotProbability){.tag = 1, .u = {.v1 = {.f0 = l3}}};
        return l0;
    }
    l4 = sampling_sample_unit_threshold(l1);
    l0 = (struct core_result_Result_U128_NotProbability){.tag = 0, .u = {.v0 = {.f0 = l4}}};
    return l0;
}

/* sampling::exports::alba_threshold */
uint32_t alba_threshold(double l1, uint64_t *a2, size_t a2_len) {
    struct slice l2 = lent(a2, a2_len);
    uint32_t l0;
    uint64_t l4;
    uint8_t l5;
    uint64_t l7;
    unsigned char *l8;
    uint64_t l9;
    unsigned char *l10;
    struct sampling_sample_U128 l3;
    struct core_result_Result_U128_NotProbability l6;
    l4 = l2.f1;
    l5 = (uint8_t)(l4 != UINT64_C(2));
    if (l5) {
        l0 = UINT32_C(8);
        return l0;
    }
    l6 = sampling_sample_threshold_of(l1);
    switch (l6.tag) {
    case UINT8_C(0):
        l3 = l6.u.v0.f0;
        break;
    case UINT8_C(1):
    default:
        l0 = UINT32_C(3);
        return l0;
    }
    l7 = l3.f0;
    l8 = l2.f0 + (size_t)UINT64_C(0);
    (*(uint64_t *)l8) = l7;
    l9 = l3.f1;
    l10 = l2.f0 + (size_t)UINT64_C(8);
    (*(uint64_t *)l10) = l9;
    l0 = UINT32_C(0);
    return l0;
}

#endif
