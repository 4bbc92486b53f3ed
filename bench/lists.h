// The lists that every competitor gets, the same on every machine: a fixed seed, and no generator of the C++ library.
#pragma once
#include <cstddef>
#include <cstdint>
#include <string>
#include <vector>

using List = std::vector<int32_t>; // three numbers a touch

struct Row {
    std::string key;  // for the command line
    std::string name; // for the table
    size_t touches;
    std::vector<List> lists;
};

// The five rows of the comparison.
std::vector<Row> rows();
// Touches on a sphere, 8, 16, 32 and 64 of them.
std::vector<Row> growth();
