// Random calls of the engine's door with the rules' answers; some are the call before, told in
// another order, or a room with sets of the room before.
#pragma once

#include "rules.hpp"
#include "sets.hpp"

enum Kind : u32 { ASSIGN = 1, CHECK = 2, CRITICAL_TIMES = 3, ROOM = 4 };

// The name behind `charoktan_`, and those of its slices.
struct Entry {
    std::string name;
    std::vector<std::string> slices;
};
const Entry& entry(Kind kind);

// The slices lent to a call; one that takes fewer leaves the others empty.
using Slices = std::array<Bytes, 5>;

// `placement` says where the runner puts the slices (see there): it is part of the call, so that a
// call that crashed can be made again just so.
struct Call {
    Kind kind = ASSIGN;
    u32 placement = 0;
    Slices slices;
};

// What a call returned, and what the slices hold after it.
struct Reply {
    u32 returned = 0;
    Slices slices;
    bool operator==(const Reply&) const = default;
};

struct Case {
    Call call;
    Reply reply;
    bool again = false;  // the call before it, told in another order, or its sets mixed anew
};

std::vector<Case> random_batch(Dice& dice, u64 size);
