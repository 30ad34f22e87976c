/*
 * A header that the program plan prints, as C and as C++: it compiles by itself and, included again, adds nothing; its settings are within
 * their limits, its amounts are those of the settings, by arithmetic of this file, and they size buffers. ALBA_SETTINGS is the header's name
 * in quotes, LONGEST the most data bytes in an element that it was made for.
 */
#include ALBA_SETTINGS
#include ALBA_SETTINGS

#include "telescope.h"

#include <assert.h>
#include <stdio.h>

static_assert(1 <= ALBA_SET_SIZE && ALBA_SET_SIZE <= ALBA_MAX_SET_SIZE, "set_size is lawful");
static_assert(ALBA_PROOF_SIZE <= ALBA_MAX_PROOF_SIZE, "proof_size is lawful");
static_assert(ALBA_MAX_RETRIES <= ALBA_MAX_MAX_RETRIES, "max_retries is lawful");
static_assert(ALBA_SEARCH_WIDTH <= ALBA_MAX_SEARCH_WIDTH, "search_width is lawful");
static_assert(ALBA_DFS_BOUND <= ALBA_MAX_DFS_BOUND, "dfs_bound is lawful");
static_assert(sizeof ALBA_X_HIGH == 8 && sizeof ALBA_X_LOW == 8, "X is two words of 64 bits");

/* What the ticket of a proof of the longest elements holds: the number of blocks, R, S and the number of elements, then each element's mark,
 * index, length and data. */
#define BODY (4 + 8 + 8 + 4 + ALBA_PROOF_SIZE * (1 + 8 + 4 + LONGEST))

static_assert(ALBA_PLACES == ALBA_PROOF_SIZE, "a place for each element of a proof");
static_assert(ALBA_BIN_TABLE == (ALBA_SET_SIZE + 1) + 2 * ALBA_SET_SIZE, "the starts, and the kept places");
static_assert(ALBA_MOST_STEPS == ALBA_DFS_BOUND * ALBA_MAX_RETRIES, "the bound in each try");
static_assert(504 * (ALBA_TICKET_BLOCKS - 1) < BODY && BODY <= 504 * ALBA_TICKET_BLOCKS, "no block too many, and none too few");

/* C has no array of nothing, and a proof of no elements has no places. */
static uint32_t places[ALBA_PLACES > 0 ? ALBA_PLACES : 1];
static uint32_t bin_table[ALBA_BIN_TABLE];
static uint8_t ticket[512 * ALBA_TICKET_BLOCKS];

int main(void) {
    uint32_t *last_place = places + sizeof places / sizeof *places - 1, *last_number = bin_table + ALBA_BIN_TABLE - 1;
    uint8_t *last_byte = ticket + 512 * ALBA_TICKET_BLOCKS - 1;
    *last_place = *last_number = *last_byte = 1;
    printf("%zu bytes for places, %zu for a bin table, %zu for a ticket\n", sizeof places, sizeof bin_table, sizeof ticket);
    return *last_place + *last_number + *last_byte == 3 ? 0 : 1;
}
