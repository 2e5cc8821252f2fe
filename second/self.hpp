// What the checks of this program share.
#pragma once

#include "rules.hpp"

inline int failures = 0;
void expect(bool holds, const std::string& what);

inline u32 number_of(const Refused& refused) { return refused ? refused->number : 0; }

// The checks of self_graphs.cpp and of self_rooms.cpp.
void check_graphs();
void check_rooms();
