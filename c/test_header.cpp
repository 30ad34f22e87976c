// telescope.h from C++: it compiles, and the names link as C names.
#include "telescope.h"

int main() {
    const uint8_t h[ALBA_HASH_BYTES] = {};
    uint8_t out[ALBA_DRAW_BYTES];
    uint64_t x[ALBA_X_WORDS];
    const bool converted = alba_threshold(1.0, x, ALBA_X_WORDS) == ALBA_CONVERTED && x[0] == UINT64_MAX && x[1] == UINT64_MAX;
    const bool drawn = alba_sample_uniform(h, sizeof h, 10, out, sizeof out) == ALBA_DRAWN && out[ALBA_DRAW_BYTES - 1] == 0;
    const bool accepted = alba_verify(1, 0, 1, 1, 0, x[0], x[1], 0, 0, nullptr, 0, nullptr, 0, nullptr, 0, nullptr, 0) == ALBA_ACCEPTED;
    return drawn && converted && accepted && alba_sample_bernoulli(h, sizeof h, 0, 1) == ALBA_YES ? 0 : 1;
}
