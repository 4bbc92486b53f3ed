// Competitor (a): the rule of building in plain C++. The parameters are those of chienlohup_build.
#pragma once
#include <cstddef>
#include <cstdint>

extern "C" void plain_build(const int32_t *touches, size_t touches_len, uint16_t *faces, size_t faces_len, int64_t out[4]);
