// Critical times from graphs: what graph.cpp has for the engine.
#pragma once

#include "play.h"

// The arcs of doors whose stages come one after the other.
Arcs chains_of(const Set &set);

// True if the critical times that the library finds from the arcs are those of the set.
bool found_as_typed(const Set &set, const Arcs &arcs);

// A room whose stages fork and join, loaded with every stage at its longest: its critical times are
// found first. `kept` says that it went as promised, accepted or refused.
struct Forked {
    bool accepted, kept;
};
Forked load_forked(const Room &room);

// A room with times that somebody forgot to type anew, beside the times found; and graphs that are
// refused, and without arcs. True if all went as promised.
bool show_graphs();
