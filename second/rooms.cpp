// Rooms by dice: small and crowded, with sets of all kinds side by side, damaged, mixed anew.
#include "rooms.hpp"

#include <algorithm>

Room room_of(const std::vector<Set>& sets) {
    std::vector<Part> parts;
    for (const Set& set : sets) parts.push_back({set, {}});
    return room_of(parts);
}

// ---------------------------------------------------------------- random rooms

Set any_numbers(Dice& dice, std::size_t n) {
    Set set;
    for (List* list : lists(set)) *list = random_list(dice, n);
    return set;
}

static std::size_t random_length(Dice& dice, u32 large) {
    if (dice.chance(large)) return dice.one_of({13, 20, 128, 129, 129, 130, 200, 256});
    const u32 roll = dice.below(100);
    if (roll < 12) return 0;
    if (roll < 30) return 1;
    return roll < 96 ? dice.between(2, 5) : dice.between(6, 8);
}

static Set set_of_a_room(Dice& dice, std::size_t n) {
    if (n > MOST_SUBJOBS + 2) return any_numbers(dice, n);
    const u32 roll = dice.below(100);
    Set set = roll < 4    ? set_at_range_ends(dice, n)
              : roll < 20 ? tied_set(dice, n)
                          : random_set(dice, n);
    while (n > 0 && dice.chance(15)) make_wrong(dice, set);
    return set;
}

Room random_room(Dice& dice, u32 sets, u32 large) {
    std::vector<Set> all;
    for (u32 k = 0; k < sets; ++k) all.push_back(set_of_a_room(dice, random_length(dice, large)));
    return room_of(all);
}

Room crowded_room(Dice& dice) {
    std::size_t left = dice.one_of({4095, 4096, 4096, 4096, 4097, 4097, 4120});
    const u32 longest = dice.one_of({128, 150, 400, 4097});
    std::vector<Set> all;
    while (left > 0) {
        const bool last = all.size() == MOST_SETS - 1;
        std::size_t n = std::min<std::size_t>(left, dice.between(longest - 20, longest));
        if (last)
            n = left;
        else if (dice.chance(5))
            n = 0;
        // Few of these sets are placed: a large one takes this program long.
        all.push_back(dice.chance(10) ? set_of_a_room(dice, n) : any_numbers(dice, n));
        left -= n;
    }
    return room_of(all);
}

// ---------------------------------------------------------------- damage

void make_sum_wrong(Dice& dice, Room& room) {
    List& lengths = room.lengths;
    const u32 sets = static_cast<u32>(lengths.size());
    if (sets == 0) {
        lengths.push_back(dice.one_of({1, LARGEST}));
        return;
    }
    u32& one = lengths[dice.below(sets)];
    u32& other = lengths[dice.below(sets)];
    switch (dice.below(6)) {
    case 0: one += dice.between(1, 3); break;
    case 1: one == 0 ? ++one : --one; break;
    case 2: one = dice.one_of({LARGEST, LARGEST - 1, 2'147'483'648}); break;
    case 3: lengths.push_back(dice.between(1, 3)); break;
    case 4:
        if (one == 0)
            one = 1;
        else
            lengths.erase(lengths.begin() + (&one - lengths.data()));
        break;
    default:
        // As much taken from one, past 0, as is given to the other: the sum has the same 32 bits.
        if (&one == &other) {
            one += 65'536;
        } else {
            const u32 much = dice.between(one + 1, LARGEST - other);
            one -= much;
            other += much;
        }
    }
}

std::vector<List*> lists(Room& room, Outcome& outcome) {
    std::vector<List*> all = {&room.lengths, &outcome.deadlines, &outcome.numbers, &outcome.places};
    for (List* list : lists(room.sets)) all.push_back(list);
    return all;
}

Outcome random_outcome(Dice& dice, const Room& room) {
    Outcome outcome;
    outcome.deadlines = random_list(dice, room.sets.job.size());
    outcome.numbers = random_list(dice, room.lengths.size());
    outcome.places = random_list(dice, room.lengths.size());
    return outcome;
}

// ---------------------------------------------------------------- calls

RoomCall answered(const Room& room, const Outcome& before) {
    RoomCall call{room, before, before, {}};
    call.refused = assign_room(room, call.after);
    return call;
}

RoomCall mixed(Dice& dice, const RoomCall& one, const RoomCall& other) {
    std::vector<Part> before, after;
    for (const RoomCall* call : {&one, &other}) {
        for (const Part& part : cut(call->room, call->before)) before.push_back(part);
        for (const Part& part : cut(call->room, call->after)) after.push_back(part);
    }
    const u32 parts = static_cast<u32>(before.size());
    const u32 most = std::min(parts + 1, static_cast<u32>(MOST_SETS));
    std::vector<Part> before_mixed, after_mixed;
    std::size_t places = 0;
    for (u32 sets = parts == 0 ? 0 : dice.between(1, most); sets > 0; --sets) {
        const u32 chosen = dice.below(parts);
        places += before[chosen].deadlines.size();
        if (places > MOST_PLACES) break;
        before_mixed.push_back(before[chosen]);
        after_mixed.push_back(after[chosen]);
    }
    const Room room = room_of(before_mixed);
    // What numbers and places held before is nobody's: they are written in any case.
    Outcome held = random_outcome(dice, room);
    held.deadlines = outcome_of(before_mixed).deadlines;
    return {room, held, outcome_of(after_mixed), {}};
}
