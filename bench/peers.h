// Competitors (b) and (c): qhull and CGAL, each over one list. Their own doubles are made ahead of the timing.
#pragma once
#include <cstddef>
#include <cstdint>
#include <memory>

class Peer {
public:
    virtual ~Peer() = default;
    // One hull, made and given back.
    virtual void build() = 0;
    // Six times the volume of one more hull, as the rule reports it.
    virtual double volume() = 0;
};

std::unique_ptr<Peer> qhull_over(const int32_t *touches, size_t touches_len);
std::unique_ptr<Peer> cgal_over(const int32_t *touches, size_t touches_len);
