// The second program's checks of its rooms: some worked by hand, each set of a room against a call
// of its own, and what is promised of rooms.
#include "rooms.hpp"
#include "self.hpp"

#include <iostream>

// ---------------------------------------------------------------- worked by hand

static void sets_by_hand() {
    Set wrong = p4(), twice = p4();
    wrong.execution[3] = 0;
    twice.job[2] = twice.job[1];
    const Set late = set_of({{0, 1, 9}, {0, 2, 1}});
    const Set many = set_of(std::vector<std::array<u32, 3>>(129, {0, 1, 500}));
    const Room room = room_of({p4(), wrong, {}, many, twice, p5(), late, p6()});
    Outcome after{{2, 9, 8, 7}, {0, 3, 0, 2, 4, 0, 5, 0}, {0, 3, 0, 0, 2, 0, 1, 0}};
    after.deadlines.resize(4 + 4 + 129 + 4, 77);
    for (u32 deadline : {4, 7, 77, 77, 5, 3}) after.deadlines.push_back(deadline);
    const RoomCall call = answered(room, {List(147, 77), List(8, 66), List(8, 55)});
    expect(!call.refused && call.after == after, "sets of every kind in one room");

    const RoomCall none = answered({}, {});
    expect(!none.refused && none.after == Outcome{}, "a room without sets");
    const RoomCall empty = answered({{}, {0, 0}}, {{}, {66, 66}, {55, 55}});
    expect(!empty.refused && empty.after == Outcome{{}, {0, 0}, {0, 0}}, "sets of nothing");
}

// As many sets and places as there may be, the last set refused by 2.
static Room full_room(Dice& dice) {
    std::vector<Set> sets(31, p2());
    sets.push_back(any_numbers(dice, 4065));
    return room_of(sets);
}

static void expect_refused(const std::string& name, const Room& room, const Outcome& before,
                           u32 number) {
    const RoomCall call = answered(room, before);
    expect(call.refused == Refused(Refusal{.number = number}) && call.after == before, name);
}

// One thing wrong after the other, each to be told before those that are wrong already.
static void refusals_by_hand(Dice& dice) {
    Room room = full_room(dice);
    const RoomCall call = answered(room, random_outcome(dice, room));
    expect(!call.refused && call.after.numbers.back() == 2, "32 sets, 4,096 places");

    room.lengths.push_back(0);
    expect_refused("33 sets", room, random_outcome(dice, room), 22);
    room = full_room(dice);
    for (List* list : lists(room.sets)) list->push_back(0);
    ++room.lengths.back();
    expect_refused("4,097 places", room, random_outcome(dice, room), 22);

    room.lengths.push_back(0);
    for (u32 more : {1u, LARGEST}) {
        Room wrong = room;
        wrong.lengths.back() = more;
        if (more == LARGEST) ++wrong.lengths.front();
        expect_refused("33 sets that do not add up", wrong, random_outcome(dice, wrong), 1);
    }
    for (std::size_t k = 0; k < 10; ++k) {
        Room unequal = room;
        Outcome before = random_outcome(dice, room);
        lists(unequal, before)[k]->pop_back();
        expect_refused("lists of two lengths", unequal, before, 1);
    }
}

// ---------------------------------------------------------------- said in two ways

static Bytes stretch(const Bytes& bytes, std::size_t start, std::size_t length) {
    const auto from = bytes.begin() + static_cast<std::ptrdiff_t>(start);
    return {from, from + static_cast<std::ptrdiff_t>(length)};
}

// What the door writes for a room, against the door's calls of single sets on the same bytes.
static void sets_against_calls(const RoomCall& call) {
    const Bytes records = encode(call.room.sets), before = encode(call.before.deadlines);
    Bytes deadlines = before, numbers = encode(call.before.numbers);
    Bytes places = encode(call.before.places);
    expect(door_room(records, encode(call.room.lengths), deadlines, numbers, places) == 0 &&
               decode_outcome(deadlines, numbers, places) == call.after,
           "the door says what the call says");
    std::size_t start = 0;
    for (std::size_t k = 0; k < call.room.lengths.size(); ++k) {
        const std::size_t length = call.room.lengths[k];
        Bytes own = stretch(before, 4 * start, 4 * length);
        const u32 returned = door_assign(stretch(records, 24 * start, 24 * length), own);
        expect(stretch(deadlines, 4 * start, 4 * length) == own &&
                   number_at(numbers, 4 * k) + 65'536 * number_at(places, 4 * k) == returned,
               "a set of a room against a call of its own");
        start += length;
    }
}

static bool nothing_left(const List& lengths, std::size_t places) {
    for (u32 length : lengths) {
        if (length > places) return false;
        places -= length;
    }
    return places == 0;
}

static void expect_sum(const Room& room, bool right) {
    const std::size_t places = room.sets.job.size();
    expect(add_up(room.lengths, places) == right && nothing_left(room.lengths, places) == right,
           "the sum of the lengths");
}

// ---------------------------------------------------------------- what is promised

// Two rooms that agree on one set and on what the deadlines held there agree on all that it gets.
static void promised_of_one_set(Dice& dice, const RoomCall& call) {
    const std::vector<Part> first = cut(call.room, call.before);
    if (first.empty()) return;
    const u32 kept = dice.below(static_cast<u32>(first.size())), sets = dice.between(1, 6);
    const u32 there = dice.below(sets);
    const Room others = random_room(dice, sets, 1);
    std::vector<Part> parts = cut(others, random_outcome(dice, others));
    parts[there].set = first[kept].set;
    parts[there].deadlines = first[kept].deadlines;
    const RoomCall other = answered(room_of(parts), outcome_of(parts));
    const Part one = cut(call.room, call.after)[kept], two = cut(other.room, other.after)[there];
    expect(one.number == two.number && one.place == two.place && one.deadlines == two.deadlines,
           "one set, whatever the others are");
}

static void promised_of_mixes(Dice& dice, const RoomCall& call) {
    const Room room = random_room(dice, 3, 1);
    const RoomCall made = mixed(dice, call, answered(room, random_outcome(dice, room)));
    const RoomCall again = answered(made.room, made.before);
    expect(!again.refused && again.after == made.after, "mixed anew, each set gets the same");
}

// A refused set leaves its stretch as it was; an accepted one does not look at it.
static void promised_of_stretches(Dice& dice, const RoomCall& call) {
    const RoomCall other = answered(call.room, random_outcome(dice, call.room));
    const std::vector<Part> before = cut(call.room, call.before),
                            after = cut(call.room, call.after);
    const std::vector<Part> elsewhere = cut(other.room, other.after);
    for (std::size_t k = 0; k < after.size(); ++k) {
        const bool refused = after[k].number != 0;
        expect(after[k].deadlines == (refused ? before : elsewhere)[k].deadlines,
               "a stretch is written exactly if its set is accepted");
        expect(after[k].number == elsewhere[k].number && after[k].place == elsewhere[k].place,
               "what the lists held says nothing");
        expect(refused || after[k].place == 0, "an accepted set has place 0");
        expect(after[k].place == 0 || after[k].place < after[k].deadlines.size(),
               "places count from the start of the set");
    }
}

// A length that does not fit is number 1.
static void promised_of_the_door(Dice& dice, const RoomCall& call) {
    Bytes slices[] = {encode(call.room.sets), encode(call.room.lengths),
                      encode(call.before.deadlines), encode(call.before.numbers),
                      encode(call.before.places)};
    Bytes& one = slices[dice.below(5)];
    one.resize(one.size() + dice.one_of({1, 2, 3, 4, 24}));
    Bytes deadlines = slices[2], numbers = slices[3], places = slices[4];
    expect(door_room(slices[0], slices[1], deadlines, numbers, places) == 1 &&
               deadlines == slices[2] && numbers == slices[3] && places == slices[4],
           "the door's lengths");
}

// ---------------------------------------------------------------- random rooms

static void small_room(Dice& dice, std::array<int, 6>& seen) {
    const u32 sets = dice.chance(2) ? 32 : dice.below(7);
    const Room room = random_room(dice, sets, 1);
    const RoomCall call = answered(room, random_outcome(dice, room));
    expect(!call.refused, "a room is not refused for its sets");
    for (u32 number : call.after.numbers) ++seen[number];
    expect_sum(room, true);
    sets_against_calls(call);
    promised_of_one_set(dice, call);
    promised_of_mixes(dice, call);
    promised_of_stretches(dice, call);
    promised_of_the_door(dice, call);

    Room wrong = dice.chance(10) ? random_room(dice, 40, 0) : room;
    make_sum_wrong(dice, wrong);
    expect_sum(wrong, false);
    expect_refused("lengths that do not add up", wrong, random_outcome(dice, wrong), 1);
    Room unequal = room;
    Outcome before = random_outcome(dice, room);
    lists(unequal, before)[dice.below(10)]->push_back(0);
    expect_refused("lists of two lengths", unequal, before, 1);
}

static void large_rooms(Dice& dice) {
    for (u32 sets : {33u, 47u}) {
        const Room room = random_room(dice, sets, 0);
        expect_refused("too many sets", room, random_outcome(dice, room), 22);
    }
    const Room room = crowded_room(dice);
    const std::size_t places = room.sets.job.size();
    const RoomCall call = answered(room, random_outcome(dice, room));
    expect(number_of(call.refused) == (places > 4096 ? 22 : 0), "about 4,096 places");
    if (!call.refused) sets_against_calls(call);
}

void check_rooms() {
    constexpr int small = 4000, large = 30;
    Dice dice(3);
    std::array<int, 6> seen{};
    sets_by_hand();
    refusals_by_hand(dice);
    for (int k = 0; k < small && failures < 20; ++k) small_room(dice, seen);
    for (int k = 0; k < large && failures < 20; ++k) large_rooms(dice);
    std::cout << small << " small and " << large << " large rooms; sets accepted " << seen[0];
    for (std::size_t number = 2; number < 6; ++number)
        std::cout << ", refused by " << number << " " << seen[number];
    std::cout << "\n";
}
