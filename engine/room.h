// Rooms that are loaded by several cores: what room.cpp has for the engine.
#pragma once

#include "play.h"

// A room given by the sets of its cores, loaded with one call: the call's number, and if it was
// made how many sets got each of the numbers 0 to 5. `kept` says that it went as promised: the same
// as one call per set, and the accepted cores without a hitch; or refused as too large, and nothing
// written.
struct Cores {
    charoktan::refusal call;
    std::array<uint32_t, 6> numbers;
    bool kept;
};
Cores load_cores(const std::vector<Set> &sets);

// A console's room in which one core has too many doors, and then with one of them on another core;
// calls that are refused as a whole, the largest room, and calls without doors. True if all went as
// promised.
bool show_cores();
