// The stored rooms of `trial`: edges by hand, then random ones and some mixed from the sets of two;
// the seed is fixed.
#include "trial.hpp"

#include <algorithm>

// Asked with any numbers in deadlines, numbers and places.
static void ask(Trial& trial, Dice& dice, const Room& room) {
    trial.ask_room(room, random_outcome(dice, room));
}

// Refused sets, none of them at place 0.
static Set refused_by_3() {
    Set set = p4();
    set.execution[3] = 0;
    return set;
}
static Set refused_by_4() {
    Set set = p4();
    set.job[2] = set.job[1];
    return set;
}
static Set refused_by_5() { return set_of({{0, 1, 9}, {0, 2, 1}}); }  // at place 1

// n sub-jobs in short numbers, with just enough time for 128; 129 are refused by 2.
static Set crowd(u32 n) {
    Set set = set_of(std::vector<std::array<u32, 3>>(n, {0, 1, 128}));
    for (u32 place = 0; place < n; ++place) {
        set.job[place] = place % 10;
        set.subtask[place] = place / 10;
    }
    return set;
}

static Set zeros(std::size_t n) { return {List(n), List(n), List(n), List(n), List(n), List(n)}; }

// Lengths 2, 1 and 4; the middle one is refused by 5.
static Room three() { return room_of({p5(), p3(), p4()}); }

// ---------------------------------------------------------------- number 1

// The ten lists of a call, each too short, too long and empty.
static void unequal_edges(Trial& trial, Dice& dice) {
    for (std::size_t k = 0; k < 10; ++k)
        for (int more : {-1, 1, -9}) {
            Room room = three();
            Outcome before = random_outcome(dice, room);
            List& list = *lists(room, before)[k];
            const int length = static_cast<int>(list.size()) + more;
            list.resize(static_cast<std::size_t>(std::max(length, 0)), 1);
            trial.ask_room(room, before);
        }
    // Nothing but one list, or two of the three per set.
    trial.ask_room({}, {{7}, {}, {}});
    trial.ask_room({}, {{}, {7}, {}});
    trial.ask_room({}, {{}, {}, {7}});
    trial.ask_room({}, {{}, {7}, {8}});
    trial.ask_room({{}, {0}}, {{}, {7}, {}});
    trial.ask_room({{}, {0}}, {{}, {}, {7}});
    // A length of 0 too many, and the room is otherwise as it should be.
    Room room = three();
    const Outcome before = random_outcome(dice, room);
    room.lengths.push_back(0);
    trial.ask_room(room, before);
}

static void sum_edges(Trial& trial, Dice& dice) {
    // The same seven places cut otherwise.
    const Set seven = three().sets;
    for (const List& lengths : {List{2, 1, 4}, List{7}, List{1, 2, 4}, List{4, 2, 1}, List(7, 1),
                                List{0, 7}, List{7, 0}, List{0, 2, 0, 0, 1, 4, 0}})
        ask(trial, dice, {seven, lengths});
    // Lengths that do not add up to them.
    constexpr u32 half = 2'147'483'648;  // of 2^32
    for (const List& lengths :
         {List{}, List{0}, List{6}, List{8}, List{2, 1}, List{2, 1, 3}, List{2, 1, 5},
          List{3, 1, 4}, List{1, 1, 4}, List{2, 1, 4, 1}, List{LARGEST}, List{7 + 256},
          List{7 + 65'536}, List{7 + half}, List{7, half}, List{half, 7}, List(48, LARGEST)})
        ask(trial, dice, {seven, lengths});
    // The right sum and 2^32 besides, or twice that.
    List many(32, half / 16);
    many[0] += 7;
    for (const List& lengths :
         {List{2 + half, 1, 4 + half}, List{7, half, half}, List{LARGEST, 8}, List{8, LARGEST},
          List{7, 1, LARGEST}, List{LARGEST, LARGEST, 9}, List{half, half, half, half, 7}, many})
        ask(trial, dice, {seven, lengths});
    // No places at all.
    for (const List& lengths : {List{}, List{0}, List{0, 0, 0}, List{1}, List{0, 1},
                                List{half, half}, List{LARGEST, 1}, List{1, LARGEST}})
        ask(trial, dice, {{}, lengths});
}

// ---------------------------------------------------------------- number 22

static void set_limit_edges(Trial& trial, Dice& dice) {
    for (std::size_t n : {31, 32, 33, 48}) ask(trial, dice, room_of(std::vector<Set>(n)));
    for (std::size_t n : {32, 33}) ask(trial, dice, room_of(std::vector(n, p2())));
    // The 33rd set is the only one with a sub-job, or the only one without.
    std::vector<Set> sets(32);
    sets.push_back(p3());
    ask(trial, dice, room_of(sets));
    sets = std::vector(32, p2());
    sets.push_back({});
    ask(trial, dice, room_of(sets));
    // 1 comes before 22: every list once shorter and once longer, and the sum too small, too large
    // and 2^32 too large.
    const Room room = room_of(std::vector(33, p2()));
    for (std::size_t k = 0; k < 10; ++k) {
        Room unequal = room;
        Outcome before = random_outcome(dice, room);
        List& list = *lists(unequal, before)[k];
        list.resize(k % 2 == 0 ? list.size() - 1 : list.size() + 1);
        trial.ask_room(unequal, before);
    }
    for (u32 last : {0u, 2u, LARGEST}) {
        Room wrong = room;
        wrong.lengths[32] = last;
        if (last == LARGEST) wrong.lengths[0] = 3;
        ask(trial, dice, wrong);
    }
}

static void place_limit_edges(Trial& trial) {
    // 4,096 places, all sets full: the last one has a pair twice, at its last place.
    std::vector<Set> sets(32, crowd(128));
    sets[31].job[127] = sets[31].job[126];
    trial.ask_room(room_of(sets), {List(4096, 9), List(32, 8), List(32, 7)});
    // 4,096 places in one set are that set's 2; one place more is the call's 22.
    trial.ask_room(room_of({zeros(4096)}), {List(4096, 9), {8}, {7}});
    trial.ask_room(room_of({zeros(4096), p2()}), {List(4097, 9), {8, 8}, {7, 7}});
    // 1 comes before it.
    Room room = room_of({zeros(4096), p2()});
    room.lengths[1] = 2;
    trial.ask_room(room, {List(4097, 9), {8, 8}, {7, 7}});
}

// ---------------------------------------------------------------- set by set

// Each refusal in front of sets that are accepted, among them and behind them.
static void refused_among_others(Trial& trial, Dice& dice) {
    for (const Set& refused : {crowd(129), refused_by_3(), refused_by_4(), refused_by_5()})
        for (std::ptrdiff_t at : {0, 1, 3}) {
            std::vector<Set> sets = {p5(), p4(), p6()};
            sets.insert(sets.begin() + at, refused);
            ask(trial, dice, room_of(sets));
        }
    const std::vector<Set> all = {refused_by_3(), refused_by_4(), refused_by_5(), crowd(129)};
    for (const Set& one : all)
        for (const Set& other : all) {
            if (std::max(one.job.size(), other.job.size()) > 128) continue;
            ask(trial, dice, room_of({one, other}));
            ask(trial, dice, room_of({one, p4(), other}));
        }
    ask(trial, dice, room_of(all));
}

static void set_edges(Trial& trial, Dice& dice) {
    std::vector<Set> cases = {{}, p2(), p3(), p4(), p5(), p6(), p7(), p8(), p9()};
    for (const Set& set : cases) ask(trial, dice, room_of({set}));
    ask(trial, dice, room_of(cases));
    std::reverse(cases.begin(), cases.end());
    ask(trial, dice, room_of(cases));
    ask(trial, dice, room_of(table_2()));

    // One set has time for one tick: as one set, two of them would be late and have a pair twice.
    ask(trial, dice, room_of({p2(), p2(), p2()}));
    // Pairs again in another set, but not in their own.
    ask(trial, dice, room_of({p4(), p4(), refused_by_4(), p4()}));
    // A least slack that is not at place 0: the place of an accepted set is 0 all the same.
    ask(trial, dice, room_of({p4(), p5()}));

    // A set of none in front, between, behind, and nothing but such.
    ask(trial, dice, room_of({{}, p5(), {}, {}, refused_by_5(), {}}));
    ask(trial, dice, room_of(std::vector<Set>(3)));

    // Both sides of 128, with others behind them; 2 comes before 3.
    for (u32 n : {127u, 128u, 129u, 130u, 160u}) ask(trial, dice, room_of({crowd(n), p3(), p5()}));
    ask(trial, dice, room_of({zeros(128), zeros(129), p5()}));
    ask(trial, dice, room_of({p5(), zeros(300), refused_by_3()}));

    // Each field at both sides of its end, at the second place of the second set.
    const std::array<u32, 4> ends = {1'000'000'000, 1'000'000, 2'000'000'000, 1'000'000'000};
    for (std::size_t field = 0; field < 4; ++field)
        for (u32 value : {0u, ends[field], ends[field] + 1, LARGEST}) {
            Set set = set_of({{5, 2, 2'000'000'000}, {6, 3, 2'000'000'000}});
            (*lists(set)[field + 2])[1] = value;
            ask(trial, dice, room_of({p2(), set, p5()}));
        }
}

// Nothing depends on what deadlines, numbers and places held; refused stretches keep it.
static void held_edges(Trial& trial) {
    for (u32 held : {0u, 1u, 255u, LARGEST})
        for (const Room& room : {three(), room_of({refused_by_3(), refused_by_4()})}) {
            const std::size_t places = room.sets.job.size(), sets = room.lengths.size();
            trial.ask_room(room, {List(places, held), List(sets, held), List(sets, held)});
        }
}

// ---------------------------------------------------------------- random rooms

static void random_case(Trial& trial, Dice& dice) {
    const u32 sets = dice.chance(4) ? dice.between(30, 34) : dice.below(7);
    Room room = random_room(dice, sets, sets < 7 ? 2 : 0);
    if (dice.chance(10)) make_sum_wrong(dice, room);
    Outcome before = random_outcome(dice, room);
    if (dice.chance(5)) make_unequal(dice, lists(room, before));
    trial.ask_room(room, before);
}

// Two rooms, and a third mixed from their sets.
static void random_mix(Trial& trial, Dice& dice) {
    std::vector<RoomCall> calls;
    for (int k = 0; k < 2; ++k) {
        const u32 sets = dice.between(1, 4);
        const Room room = random_room(dice, sets, 1);
        const Outcome before = random_outcome(dice, room);
        trial.ask_room(room, before);
        calls.push_back(answered(room, before));
    }
    trial.ask_room_again(mixed(dice, calls[0], calls[1]));
}

void ask_rooms(Trial& trial) {
    Dice dice(20'261'116);
    trial.ask_room({}, {});
    unequal_edges(trial, dice);
    sum_edges(trial, dice);
    set_limit_edges(trial, dice);
    place_limit_edges(trial);
    refused_among_others(trial, dice);
    set_edges(trial, dice);
    held_edges(trial);
    for (int k = 0; k < 60; ++k) random_case(trial, dice);
    for (int k = 0; k < 20; ++k) random_mix(trial, dice);
}
