// The dice of the engine and of the bench: splitmix64, so that every machine and every compiler
// rolls the same.
#pragma once

#include <cstdint>

class Dice {
public:
    explicit Dice(uint64_t seed) : state_(seed) {}

    uint32_t roll(uint32_t low, uint32_t high)
    {
        uint64_t z = state_ += 0x9e3779b97f4a7c15U;
        z = (z ^ (z >> 30)) * 0xbf58476d1ce4e5b9U;
        z = (z ^ (z >> 27)) * 0x94d049bb133111ebU;
        return low + static_cast<uint32_t>((z ^ (z >> 31)) % (high - low + 1));
    }

private:
    uint64_t state_;
};
