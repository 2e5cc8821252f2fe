// Sets made with dice: for calls on one set (bench.cpp) and on all sets of a room (rooms.cpp).
#pragma once

#include "dice.h"
#include "measure.h"

#include <cstdint>
#include <string_view>
#include <vector>

namespace sets {

// What is lent to one call.
struct Lent {
    measure::Bytes records;
    measure::Bytes deadlines;

    bool operator==(const Lent &other) const
    {
        return records == other.records && deadlines == other.deadlines;
    }
};

// A set that is accepted, with the deadlines assigned to it.
Lent accepted(Dice &dice, uint32_t size);

// The 32 sets of a size and a kind: accepted, field, pair, late or outside.
std::vector<Lent> of(std::string_view kind, uint32_t size);

// A set of any kind, with as many deadlines as sub-jobs.
Lent any(Dice &dice);
Lent any(Dice &dice, uint32_t size);

} // namespace sets
