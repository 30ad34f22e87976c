/*
 * Made by: plan security 128 10 400 300 32
 *
 * For soundness 128 and completeness 10 against a lower bound of 300 of 400, in the sense of the telescope's paper:
 * the smallest proof size by the formula of the Rust's params.rs, log2 e cut to six decimals, and its small case.
 * Proved (seldom_green): who has at most 300 elements goes green under at most one in 2^130 of all functions
 * in SHA-256's place.
 *
 * The telescope's settings, X being ALBA_X_HIGH * 2^64 + ALBA_X_LOW; and what to reserve for a run under them,
 * if no element has more than 32 data bytes: a prover that is lent so much never answers 6, nor the writer
 * of its proof's ticket 42.
 *
 * The verifier refuses a proof of the last try, R = ALBA_MAX_RETRIES, with 21. So ask for one try more than you want:
 * with ALBA_MAX_RETRIES 1 nothing that the prover finds goes green.
 */
#ifndef ALBA_SETTINGS_H
#define ALBA_SETTINGS_H

#include <stdint.h>

#define ALBA_SET_SIZE UINT64_C(400)
#define ALBA_PROOF_SIZE UINT64_C(328)
#define ALBA_MAX_RETRIES UINT64_C(10)
#define ALBA_SEARCH_WIDTH UINT64_C(26082)
#define ALBA_DFS_BOUND UINT64_C(27625916)
#define ALBA_X_HIGH UINT64_C(0x000c7cd39b9e78f4)
#define ALBA_X_LOW UINT64_C(0x0000000000000000)

#define ALBA_PLACES UINT64_C(328) /* uint32_t numbers: the places that the prover is lent */
#define ALBA_BIN_TABLE UINT64_C(1201) /* uint32_t numbers: its bin table */
#define ALBA_MOST_STEPS UINT64_C(276259160) /* no run counts more */
#define ALBA_TICKET_BLOCKS UINT64_C(30) /* blocks of 512 bytes: the ticket of its proof */

#endif
