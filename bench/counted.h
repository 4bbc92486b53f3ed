// The same rule with its work counted, for the numbers that no clock gives.
#pragma once
#include <cstddef>
#include <cstdint>

struct Tally {
    uint64_t looks; // V of a face and a touch, over all steps
    uint64_t sides; // one side compared with one side
    uint64_t seen;  // faces that a touch sees
};
extern Tally tally;

extern "C" void counted_build(const int32_t *touches, size_t touches_len, uint16_t *faces, size_t faces_len, int64_t out[4]);
