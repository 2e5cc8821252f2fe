// Dice with a fixed course, and sets of sub-jobs made with them. Only whole numbers of fixed width
// are used, and no call has two throws among its arguments (their order would be the compiler's
// choice): the same seed gives the same sets on every machine.
#pragma once

#include "rules.hpp"

#include <array>

constexpr u32 LARGEST = 4'294'967'295;

// Steele, Lea and Flood's SplitMix64.
class Dice {
public:
    explicit Dice(u64 seed) : state_(seed) {}

    u64 next();
    u32 below(u32 sides) { return static_cast<u32>(next() % sides); }
    u32 between(u32 low, u32 high) {
        return low + static_cast<u32>(next() % (u64{high} - low + 1));
    }
    bool chance(u32 percent) { return below(100) < percent; }
    template <std::size_t N>
    u32 one_of(const u32 (&values)[N]) {
        return values[below(static_cast<u32>(N))];
    }

private:
    u64 state_;
};

// A set from (release, execution, upper bound) triples: critical time 0, jobs 1, 2, .., subtask 1.
Set set_of(const std::vector<std::array<u32, 3>>& triples);

// The sets of the rules' P2 to P9.
Set p2();
Set p3();
Set p4();
Set p5();
Set p6();
Set p7();
Set p8();
Set p9();

// The paper's table 2, a set per core: two jobs go through four cores. On each they are released
// when the core before is done with them; the critical time is what they still have to do behind
// it.
std::vector<Set> table_2();

// The six lists in their order.
std::array<List*, 6> lists(Set& set);

// n sub-jobs, all fields in range and all pairs different, mostly of small times, sometimes late,
// and sometimes far apart.
Set random_set(Dice& dice, std::size_t n);

// The same with every field at an end of its range. Some have more to serve than single ticks can.
Set set_at_range_ends(Dice& dice, std::size_t n);

// The same with many ties: blocks of sub-jobs that are released together, most bounds of a block
// equal, and as much room in one block as in the other, so that slacks are equal too.
Set tied_set(Dice& dice, std::size_t n);

// Something made wrong in a set that is not empty: a field out of range, or one pair made
// another's.
void make_wrong(Dice& dice, Set& set);

// Any numbers, for a result list before a call.
List random_list(Dice& dice, std::size_t n);

// One of the lists made longer or shorter.
void make_unequal(Dice& dice, const std::vector<List*>& all);

// Proposed local deadlines: some that hold, some that miss by little, some far off.
List random_proposal(Dice& dice, const Set& set);

// ---------------------------------------------------------------- rearranging

// A rearrangement of a list: for each place the old place of what stands there now.
using Order = std::vector<std::size_t>;

Order random_order(Dice& dice, std::size_t n);
List in_order(const List& list, const Order& order);
Set in_order(const Set& set, const Order& order);

// Where the sub-job stands now that stood at this place.
std::size_t new_place(const Order& order, std::size_t place);
