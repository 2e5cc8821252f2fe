// Rooms made with dice, and the stored ones.
#pragma once

#include "room.hpp"
#include "sets.hpp"

// A room of these sets.
Room room_of(const std::vector<Set>& sets);

// n sub-jobs of any numbers: a set above 128 is refused by 2 whatever it holds.
Set any_numbers(Dice& dice, std::size_t n);

// So many sets, mostly of a few sub-jobs, some of none; some are late, some have something wrong.
// This many in a hundred are large: up to 128 sub-jobs, or refused by 2.
Room random_room(Dice& dice, u32 sets, u32 large);

// A room of about 4,096 places, on either side, most of them in sets above 128.
Room crowded_room(Dice& dice);

// Lengths made so that they do not add up any more: one wrong, one lost, one too many, or all of
// them together 2^32 too large.
void make_sum_wrong(Dice& dice, Room& room);

// All lists of a call.
std::vector<List*> lists(Room& room, Outcome& outcome);

// Any numbers to be lent with this room.
Outcome random_outcome(Dice& dice, const Room& room);

// A call of a room with its answer.
struct RoomCall {
    Room room;
    Outcome before, after;
    Refused refused;
};

// By the rules.
RoomCall answered(const Room& room, const Outcome& before);

// A room of sets from two calls that were not refused, in any order, some left out and some twice.
// Each brings the deadlines that it had before its call; its number, place and deadlines afterwards
// are those that it got there, whatever stands beside it now. The rules are not asked for them.
RoomCall mixed(Dice& dice, const RoomCall& one, const RoomCall& other);

class Trial;
void ask_rooms(Trial& trial);
