// The rules of a room, whose cores' sets are assigned in one call: the room is cut into its sets,
// each is asked alone by the rules of a single set, and the answers are put together.
#pragma once

#include "rules.hpp"

// The sets of a room's cores, one after another in the same six lists, and a length for each. The
// lists of a damaged room differ in length, or its lengths do not add up to its places.
struct Room {
    Set sets;
    List lengths;
};

constexpr std::size_t MOST_SETS = 32, MOST_PLACES = 4096;

// What is lent beside the room: a deadline per place, a number and a place per set.
struct Outcome {
    List deadlines, numbers, places;
    bool operator==(const Outcome&) const = default;
};

// Whether the lengths add up to this many places, however large they are.
bool add_up(const List& lengths, std::size_t places);

// Numbers 1 and 22, both of the whole call.
Refused faults(const Room& room, const Outcome& outcome);

// One set's own part of a call: its sub-jobs, its stretch of the deadlines, its number and place.
struct Part {
    Set set;
    List deadlines;
    u32 number = 0, place = 0;
};

// The parts of a room without faults, and what they are put together.
std::vector<Part> cut(const Room& room, const Outcome& outcome);
Room room_of(const std::vector<Part>& parts);
Outcome outcome_of(const std::vector<Part>& parts);

// The call: the outcome is written if the call is not refused, whichever sets are.
Refused assign_room(const Room& room, Outcome& outcome);

// "The engine's door": records of 24 bytes, and four slices of 4 bytes per place or set.
u32 door_room(const Bytes& records, const Bytes& lengths, Bytes& deadlines, Bytes& numbers,
              Bytes& places);
Room decode_room(const Bytes& records, const Bytes& lengths);
Outcome decode_outcome(const Bytes& deadlines, const Bytes& numbers, const Bytes& places);
