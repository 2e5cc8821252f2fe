// The stored cases: what `trial` reads and must answer, and the tables for `deadlines`.
// First the edges by hand, then random cases around them, then some rearranged; the seed is fixed.
// Whole tables by another seed are written in the same form and stored nowhere.
#include "commands.hpp"
#include "graphs.hpp"
#include "rooms.hpp"
#include "trial.hpp"

#include <algorithm>
#include <filesystem>
#include <fstream>
#include <iostream>
#include <numeric>
#include <stdexcept>

static constexpr u64 LARGEST_64 = 18'446'744'073'709'551'615u;
static constexpr u64 MOST_TICKS = 1'000'000'000'000'000'000;

// ---------------------------------------------------------------- edges by hand

// n sub-jobs that can be placed, whatever n is.
static Set many(std::size_t n) { return set_of(std::vector<std::array<u32, 3>>(n, {3, 1, 500})); }

// Six lists that are not all of one length: each one too short, too long, and empty.
static std::vector<Set> unequal_sets() {
    std::vector<Set> sets;
    for (std::size_t k = 0; k < 6; ++k)
        for (std::size_t length : {3, 5, 0}) {
            Set set = p4();
            lists(set)[k]->resize(length, 9);
            sets.push_back(set);
        }
    Set set = many(129);  // 1 comes before 2
    set.critical.pop_back();
    sets.push_back(set);
    set = many(128);
    set.job.push_back(900);
    sets.push_back(set);
    return sets;
}

// Both sides of numbers 2, 3 and 4, and several at once.
static std::vector<Set> edge_sets() {
    std::vector<Set> sets;
    for (std::size_t n : {128, 129, 160}) sets.push_back(many(n));
    Set set = many(129);  // 2 comes before 3
    set.execution[0] = 0;
    sets.push_back(set);
    set = many(128);
    set.execution[127] = 0;
    sets.push_back(set);
    set = many(128);
    set.job[127] = set.job[126];
    sets.push_back(set);

    // Each field at both sides of its ends: alone in the set, and at the last place of four.
    const std::vector<std::vector<u32>> ends = {
        {0, 999'999'999, 1'000'000'000, 1'000'000'001, 2'147'483'648, LARGEST},
        {0, 1, 999'999, 1'000'000, 1'000'001, 2'147'483'648, LARGEST},
        {0, 1, 1'999'999'999, 2'000'000'000, 2'000'000'001, 2'147'483'648, LARGEST},
        {0, 1, 999'999'999, 1'000'000'000, 1'000'000'001, 2'147'483'648, LARGEST}};
    for (std::size_t field = 0; field < 4; ++field)
        for (u32 value : ends[field]) {
            set = set_of({{5, 2, 2'000'000'000}});
            (*lists(set)[field + 2])[0] = value;
            sets.push_back(set);
            set = p4();
            (*lists(set)[field + 2])[3] = value;
            sets.push_back(set);
        }

    // Two fields wrong at one place, and at two places: the smallest place, then the first field.
    for (std::size_t one = 2; one < 6; ++one)
        for (std::size_t other = 2; other < 6; ++other) {
            set = p4();
            (*lists(set)[one])[2] = LARGEST;
            (*lists(set)[other])[2] = LARGEST;
            sets.push_back(set);
            set = p4();
            (*lists(set)[one])[1] = LARGEST;
            (*lists(set)[other])[3] = LARGEST;
            sets.push_back(set);
        }

    // Pairs: every two places of four alike; then alike in one number only, or the wrong way round.
    for (std::size_t later = 1; later < 4; ++later)
        for (std::size_t earlier = 0; earlier < later; ++earlier) {
            set = p4();
            set.job[later] = set.job[earlier];
            sets.push_back(set);
            set.execution[3] = 0;  // 3 comes before 4
            sets.push_back(set);
        }
    set = p4();
    set.job = {1, 1, 1, 1};
    sets.push_back(set);
    set.subtask = {1, 2, 3, 4};
    sets.push_back(set);
    set.subtask = {4, 3, 4, 3};
    sets.push_back(set);
    set.job = {1, 2, 2, 1};
    set.subtask = {2, 1, 2, 1};
    sets.push_back(set);
    set.job = {0, LARGEST, 0, LARGEST};
    set.subtask = {LARGEST, 0, 0, LARGEST};
    sets.push_back(set);
    set = p4();  // execution 0 at place 0 and equal pairs at 1 and 2
    set.execution[0] = 0;
    set.job[2] = set.job[1];
    sets.push_back(set);
    return sets;
}

static void assign_edges(Trial& trial, Dice& dice) {
    trial.ask_assign({}, {});
    for (const Set& set : {p2(), p3(), p4(), p5(), p6(), p7(), p8(), p9()})
        trial.ask_assign(set, random_list(dice, set.job.size()));
    for (const Set& set : table_2()) trial.ask_assign(set, {0, 0});

    std::vector<Set> sets = unequal_sets();
    for (const Set& set : edge_sets()) sets.push_back(set);
    for (const Set& set : sets) trial.ask_assign(set, random_list(dice, set.job.size()));
    for (std::size_t length : {0, 3, 5, 129}) trial.ask_assign(p4(), random_list(dice, length));
    trial.ask_assign({}, {7});
    trial.ask_assign(many(129), random_list(dice, 128));
    trial.ask_assign(many(128), random_list(dice, 129));

    // The bound on both sides of the completion, by deadline and by critical time.
    for (u32 deadline = 6; deadline <= 12; ++deadline)
        for (u32 critical = 0; critical <= 3; ++critical) {
            Set set = set_of({{2, 3, 40}, {4, 3, deadline}});
            set.critical[1] = critical;
            trial.ask_assign(set, {1, 2});
            set.deadline[0] = deadline;
            trial.ask_assign(set, {1, 2});
        }
    // Blocks that touch, overlap and part.
    for (u32 release = 2; release <= 6; ++release)
        for (u32 third = 5; third <= 9; ++third)
            trial.ask_assign(set_of({{third, 2, 30}, {0, 4, 30}, {release, 3, 30}}), {9, 9, 9});
}

// Runs of one or two sub-jobs, and P10 from totals of 0.
static void few_edges(Trial& trial) {
    const auto one = [&](u32 release, u32 execution, u32 ask, const Totals& totals) {
        trial.ask_simulate(set_of({{release, execution, 2'000'000'000}}), {LARGEST}, {ask}, {9},
                           totals);
    };
    one(1'000'000'000, 1'000'000, LARGEST, {0, 0});
    one(1'000'000'000, 1'000'000, 0, {0, 0});
    one(7, 0, 1, {3, 4});
    // 2 busy and 5 idle ticks, on both sides of number 8.
    for (const Totals& totals : {Totals{MOST_TICKS - 2, 0}, Totals{MOST_TICKS - 1, 0},
                                 Totals{0, MOST_TICKS - 5}, Totals{0, MOST_TICKS - 4},
                                 Totals{LARGEST_64, LARGEST_64}})
        one(5, 2, 2, totals);

    // The smaller deadline; of two alike the smaller job; of two alike again the smaller subtask.
    const auto two = [&](const List& jobs, const List& subtasks, const List& deadlines) {
        Set set = set_of({{0, 2, 9}, {0, 2, 9}});
        set.job = jobs;
        set.subtask = subtasks;
        trial.ask_simulate(set, deadlines, {2, 2}, {0, 0}, {0, 0});
    };
    two({1, 2}, {1, 1}, {5, 4});
    two({2, 1}, {1, 9}, {4, 4});
    two({3, 3}, {2, 1}, {4, 4});

    for (const List& asks : {List{2, 1, 0, 5}, List{2, 2, 2, 1}, List{2, 1, 0}})
        trial.ask_simulate(p4(), {2, 9, 8, 7}, asks, {0, 0, 0, 0}, {0, 0});
}

// Late releases and long idle stretches: before the first release, between two, and many of them.
static void idle_edges(Trial& trial) {
    trial.ask_simulate(set_of({{1'000'000'000, 3, 9}, {1'000'000'000, 2, 9}}), {7, 6}, {3, 2},
                       {0, 0}, {0, 0});
    trial.ask_simulate(set_of({{1'000'000'000, 1'000'000, 9}}), {7}, {LARGEST}, {0}, {0, 0});
    trial.ask_simulate(set_of({{5, 3, 9}, {1'000'000'000, 2, 9}}), {7, 6}, {0, 2}, {0, 0}, {0, 0});

    // Served at 5, then from `later` on: all ticks before that but three are idle.
    for (u32 later : {9'000'000u, 9'000'001u, 400'000'000u, 999'999'999u, 1'000'000'000u}) {
        const Set set = set_of({{5, 3, 2'000'000'000}, {later, 2, 2'000'000'000}});
        for (u64 idle : {u64{0}, MOST_TICKS - (later - 3), MOST_TICKS - (later - 3) + 1})
            trial.ask_simulate(set, {7, 6}, {3, 2}, {0, 0}, {0, idle});
        trial.ask_check(set, {8, later + 2});
        trial.ask_check(set, {8, later + 1});
        trial.ask_check(set, {7, later + 2});
        trial.ask_assign(set, {0, 0});
    }

    // Every 125,000,000 ticks one is released, and in the middle of its service a shorter one.
    Set set;
    List deadlines;
    for (u32 k = 0; k < 16; ++k) {
        const u32 turn = (k * 5 % 8) * 125'000'000;
        set.job.push_back(k % 3);
        set.subtask.push_back(k);
        set.release.push_back(k < 8 ? turn : turn + 17);
        set.execution.push_back(k < 8 ? 100'000 : 1000 + k);
        set.deadline.push_back(2'000'000'000);
        set.critical.push_back(k);
        deadlines.push_back(k < 8 ? turn + 102'000 : turn + 90'000);
    }
    trial.ask_assign(set, List(16, 1));
    trial.ask_check(set, deadlines);
    trial.ask_simulate(set, deadlines, set.execution, List(16, 2), {7, 8});
    // 40 ticks each: 640 busy, and 874,999,440 idle before the last 80.
    for (u64 idle : {MOST_TICKS - 874'999'440, MOST_TICKS - 874'999'439})
        trial.ask_simulate(set, deadlines, List(16, 40), List(16, 2), {7, idle});
    trial.ask_simulate(set, List(16, 3), List(16, LARGEST), List(16, 2), {7, 8});
}

static void simulate_edges(Trial& trial, Dice& dice) {
    const List local = {2, 9, 8, 7};  // P4's deadlines
    trial.ask_simulate({}, {}, {}, {}, {});
    for (const List& asks : {List{2, 1, 0, 5}, List{2, 2, 2, 1}, List{0, 0, 0, 0}, List{0, 0, 0, 1},
                             List{LARGEST, LARGEST, LARGEST, LARGEST}, List{1, 0, 0, 0}})
        for (const List& deadlines :
             {local, List{0, 0, 0, 0}, List{LARGEST, LARGEST, LARGEST, LARGEST},
              List{LARGEST, 0, LARGEST, 0}, List{9, 8, 7, 6}}) {
            Set set = p4();
            trial.ask_simulate(set, deadlines, asks, {1, 2, 3, 4}, {10, 20});
            set.release = {4, 4, 4, 4};  // released together: only the order decides
            trial.ask_simulate(set, deadlines, asks, {1, 2, 3, 4}, {10, 20});
            set.job = {3, 3, 1, 1};  // ties by job, then subtask
            set.subtask = {2, 1, LARGEST, 0};
            trial.ask_simulate(set, deadlines, asks, {1, 2, 3, 4}, {10, 20});
        }

    // Number 8, on each side of the most, with P10's four busy and three idle ticks, with a run
    // of no ticks, and with no sub-job at all.
    for (u64 busy : {u64{0}, MOST_TICKS - 4, MOST_TICKS - 3, MOST_TICKS, MOST_TICKS + 1,
                     LARGEST_64 - 3, LARGEST_64})
        for (u64 idle : {u64{0}, MOST_TICKS - 3, MOST_TICKS - 2, MOST_TICKS, MOST_TICKS + 1,
                         LARGEST_64 - 2, LARGEST_64}) {
            trial.ask_simulate(p4(), local, {2, 1, 0, 5}, {5, 6, 7, 8}, {busy, idle});
            trial.ask_simulate(p4(), local, {0, 0, 0, 0}, {5, 6, 7, 8}, {busy, idle});
            trial.ask_simulate({}, {}, {}, {}, {busy, idle});
        }

    std::vector<Set> sets = unequal_sets();
    for (const Set& set : edge_sets()) sets.push_back(set);
    for (const Set& set : sets) {
        const std::size_t n = set.job.size();
        const List before = random_list(dice, n);
        // 8 comes last.
        const Totals totals = dice.chance(30) ? Totals{LARGEST_64, LARGEST_64} : Totals{1, 2};
        trial.ask_simulate(set, set.deadline, List(n, 2), before, totals);
    }
    for (std::size_t length : {0, 3, 5, 129}) {
        const List wrong = random_list(dice, length);
        trial.ask_simulate(p4(), wrong, {1, 1, 1, 1}, {1, 2, 3, 4}, {3, 4});
        trial.ask_simulate(p4(), local, wrong, {1, 2, 3, 4}, {3, 4});
        trial.ask_simulate(p4(), local, {1, 1, 1, 1}, wrong, {3, 4});
        trial.ask_simulate({}, wrong, {}, {}, {3, 4});
    }

    few_edges(trial);
    idle_edges(trial);
    // A long one broken into by many short ones.
    Set set = set_of({{0, 400, 9}});
    for (u32 k = 0; k < 60; ++k) {
        set.job.push_back(9);
        set.subtask.push_back(k);
        set.release.push_back(7 * k + k % 3);
        set.execution.push_back(1 + k % 4);
        set.deadline.push_back(1000);
        set.critical.push_back(0);
    }
    List deadlines(set.job.size(), 5);
    deadlines[0] = 6;
    trial.ask_simulate(set, deadlines, List(deadlines.size(), 1000), deadlines, {0, 0});
}

static void check_edges(Trial& trial, Dice& dice) {
    trial.ask_check({}, {});
    trial.ask_check({}, {3});
    trial.ask_check(p4(), {2, 9, 8, 7});
    trial.ask_check(p5(), {7, 7});  // P11
    trial.ask_check(p5(), {3, 7});
    trial.ask_check(p8(), {3, 2});  // P12
    trial.ask_check(p7(), {0});
    trial.ask_check(p7(), {1});
    trial.ask_check(p7(), {LARGEST});
    trial.ask_check(p2(), {1, 1});
    for (u32 proposed : {1'000'999'999u, 1'001'000'000u, 2'000'000'000u, 2'000'000'001u})
        trial.ask_check(p9(), {proposed});
    for (const List& proposed : {List{20, 10}, List{21, 10}, List{20, 11}, List{0, 0}, List{4, 0},
                                 List{LARGEST, 7}, List{4, LARGEST}})
        trial.ask_check(p5(), proposed);

    // Every proposal around P5 and around a set of equal deadlines.
    for (u32 first = 3; first <= 8; ++first)
        for (u32 second = 6; second <= 11; ++second) trial.ask_check(p5(), {first, second});
    for (u32 first = 1; first <= 6; ++first)
        for (u32 second = 2; second <= 6; ++second) trial.ask_check(p6(), {first, second});
    for (u32 k = 0; k < 81; ++k)
        trial.ask_check(set_of({{0, 2, 6}, {1, 2, 6}, {1, 1, 5}, {3, 1, 6}}),
                        {2 + k % 3, 3 + k / 3 % 3, 2 + k / 9 % 3, 4 + k / 27});

    std::vector<Set> sets = unequal_sets();
    for (const Set& set : edge_sets()) sets.push_back(set);
    for (const Set& set : sets) trial.ask_check(set, List(set.job.size(), 200));
    for (const Set& set : edge_sets()) {
        if (set.job.size() > 4) continue;
        trial.ask_check(set, random_proposal(dice, set));
    }
    for (std::size_t length : {0, 3, 5, 129}) trial.ask_check(p4(), random_list(dice, length));
    for (u32 deadline : {130u, 131u, 132u, 500u, 501u})
        trial.ask_check(many(128), List(128, deadline));
}

// ---------------------------------------------------------------- ties by hand

// A set of three in each of its six orders, placed and run on equal deadlines.
static void ask_all_orders(Trial& trial, const Set& set) {
    const List before = {7, 8, 9}, deadlines = {4, 4, 4};
    trial.ask_assign(set, before);
    trial.ask_simulate(set, deadlines, set.execution, before, {0, 0});
    for (Order order = {0, 1, 2}; std::next_permutation(order.begin(), order.end());) {
        trial.ask_assign_again(set, before, order);
        trial.ask_simulate_again(set, deadlines, set.execution, before, {0, 0}, order);
    }
}

static Order reversed(std::size_t n) {
    Order order(n);
    std::iota(order.rbegin(), order.rend(), 0);
    return order;
}

// Ties that the list's order must not decide.
static void tie_edges(Trial& trial) {
    // Equal bounds, with room for all and with too little: the job first, then the subtask.
    struct Names {
        List jobs, subtasks;
    };
    for (const auto& [jobs, subtasks] :
         {Names{{1, 1, 2}, {2, 1, 0}}, Names{{7, 7, 7}, {0, LARGEST, 1}},
          Names{{0, LARGEST, LARGEST}, {LARGEST, 0, LARGEST}},
          Names{{2'147'483'648, 2'147'483'647, 2'147'483'647}, {0, 5, 4}}})
        for (u32 latest : {9u, 5u}) {
            Set set = set_of({{0, 1, latest}, {0, 2, latest}, {0, 3, latest}});
            set.job = jobs;
            set.subtask = subtasks;
            ask_all_orders(trial, set);
        }
    // Equal least slacks: the smallest place that has it.
    ask_all_orders(trial, set_of({{0, 1, 4}, {10, 1, 14}, {20, 1, 25}}));

    // Sets that are asked above.
    for (const Set& set : {p4(), p5(), p6(), p8(), many(128), many(129)}) {
        const std::size_t n = set.job.size();
        trial.ask_assign_again(set, List(n, 6), reversed(n));
    }
    trial.ask_table(plain_table(p6()));
    trial.ask_table_again(plain_table(p6()), {1, 0});
}

// ---------------------------------------------------------------- random cases

// Mostly small, some so large that they are placed by tails, a few around 128.
static std::size_t random_count(Dice& dice) {
    const u32 roll = dice.below(1000);
    if (roll < 20) return 0;
    if (roll < 750) return dice.between(1, 7);
    if (roll < 930) return dice.between(8, 12);
    if (roll < 985) return dice.between(13, 40);
    if (roll < 993) return dice.between(41, 127);
    return dice.between(128, 130);
}

static Set random_case(Dice& dice) {
    const std::size_t n = random_count(dice);
    Set set = dice.chance(6) ? set_at_range_ends(dice, std::min<std::size_t>(n, 20))
                             : random_set(dice, n);
    while (!set.job.empty() && dice.chance(12)) make_wrong(dice, set);
    return set;
}

static std::vector<List*> with(Set& set, std::vector<List*> others) {
    for (List* list : lists(set)) others.push_back(list);
    return others;
}

static void random_assign(Trial& trial, Dice& dice) {
    Set set = random_case(dice);
    List before = random_list(dice, set.job.size());
    if (dice.chance(3)) make_unequal(dice, with(set, {&before}));
    trial.ask_assign(set, before);
}

static List random_deadlines(Dice& dice, const Set& set) {
    List deadlines(set.job.size());
    const u32 way = dice.below(5);
    for (u32& deadline : deadlines) {
        if (way == 0) deadline = dice.below(3);
        if (way == 1) deadline = dice.below(40);
        if (way == 2) deadline = dice.one_of({0, 1, LARGEST - 1, LARGEST});
    }
    if (way == 3) deadlines = set.deadline;
    if (way == 4) assign(set, deadlines);
    return deadlines;
}

static List random_asks(Dice& dice, const Set& set) {
    List asks = set.execution;
    const u32 way = dice.below(4);
    for (u32& ask : asks) {
        if (way == 1) ask = dice.below(7);
        if (way == 2) ask = dice.one_of({0, 1, LARGEST});
        if (way == 3 && dice.chance(30)) ask = 0;
    }
    return asks;
}

static u64 random_total(Dice& dice) {
    const u32 roll = dice.below(20);
    if (roll == 0) return MOST_TICKS - dice.below(60);
    if (roll == 1) return LARGEST_64 - dice.below(60);
    return dice.below(1000);
}

static void random_simulate(Trial& trial, Dice& dice) {
    Set set = random_case(dice);
    List deadlines = random_deadlines(dice, set);
    List asks = random_asks(dice, set);
    List before = random_list(dice, set.job.size());
    Totals totals;
    totals.busy = random_total(dice);
    totals.idle = random_total(dice);
    if (dice.chance(3)) make_unequal(dice, with(set, {&deadlines, &asks, &before}));
    trial.ask_simulate(set, deadlines, asks, before, totals);
}

static void random_check(Trial& trial, Dice& dice) {
    Set set = random_case(dice);
    List proposed = random_proposal(dice, set);
    if (dice.chance(3)) make_unequal(dice, with(set, {&proposed}));
    trial.ask_check(set, proposed);
}

// Numbers with leading zeros and in quotes here and there, which changes nothing.
static std::string random_field(Dice& dice, u32 number, u32 adorned) {
    std::string field = std::to_string(number);
    if (dice.chance(adorned)) field.insert(0, dice.below(11 - static_cast<u32>(field.size())), '0');
    if (dice.chance(adorned)) field = '"' + field + '"';
    return field;
}

static std::string random_text(Dice& dice, Set& set) {
    const u32 adorned = dice.one_of({0, 10, 60});
    std::string text = TABLE_HEADER;
    for (std::size_t place = 0; place < set.job.size(); ++place) {
        text += "\r\n";
        for (const List* list : lists(set))
            text += random_field(dice, (*list)[place], adorned) + ',';
        text.pop_back();
    }
    if (dice.chance(70)) text += "\r\n";
    return text;
}

// One byte lost, changed or added, or the text cut short; mostly behind the header.
static void damage(Dice& dice, std::string& text) {
    static constexpr char strange[] = "0123456789,,\"\"\r\n\r\n +-.xX\t\0\x7F\x80\xB2\xFF";
    const u32 length = static_cast<u32>(text.size());
    const u32 header = static_cast<u32>(TABLE_HEADER.size());
    const u32 at =
        dice.chance(90) && length > header ? dice.between(header, length - 1) : dice.below(length);
    const char byte = strange[dice.below(sizeof strange - 1)];
    switch (dice.below(8)) {
    case 0:
    case 1: text.erase(at, 1); break;
    case 2:
    case 3:
    case 4: text[at] = byte; break;
    case 5:
    case 6: text.insert(at, 1, byte); break;
    default: text.resize(at);
    }
}

static void random_table(Trial& trial, Dice& dice) {
    Set set = random_set(dice, std::min<std::size_t>(random_count(dice), 60));
    while (!set.job.empty() && dice.chance(8)) make_wrong(dice, set);
    std::string text = random_text(dice, set);
    while (!text.empty() && dice.chance(35)) damage(dice, text);
    trial.ask_table(text);
}

// ---------------------------------------------------------------- whole tables

// A text as its lines, each with the line end behind it; the last may have none.
static std::vector<std::string> lines_of(const std::string& text) {
    std::vector<std::string> lines;
    for (std::size_t at = 0; at < text.size();) {
        const std::size_t end = text.find('\n', at);
        const std::size_t next = end == std::string::npos ? text.size() : end + 1;
        lines.push_back(text.substr(at, next - at));
        at = next;
    }
    return lines;
}

// What spreadsheets, editors and hands do to a table: a line lost, doubled, moved, emptied or cut,
// another line end, a field lost or added, a blank, other parting signs, a mark at the start, too
// much text. Mostly behind the header.
static void damage_lines(Dice& dice, std::string& text) {
    std::vector<std::string> lines = lines_of(text);
    const u32 count = static_cast<u32>(lines.size());
    const u32 at = dice.chance(85) && count > 1 ? dice.between(1, count - 1) : 0;
    const u32 other = dice.below(count);
    std::string& line = lines[at];
    switch (dice.below(16)) {
    case 0: lines.erase(lines.begin() + at); break;
    case 1: lines.insert(lines.begin() + at, std::string(lines[other])); break;
    case 2: std::swap(line, lines[other]); break;
    case 3: lines.insert(lines.begin() + at, "\r\n"); break;
    case 4: line.resize(dice.below(static_cast<u32>(line.size()) + 1)); break;
    case 5: std::erase(line, '\r'); break;
    case 6: std::erase(line, '\n'); break;
    case 7: line.insert(0, "0,"); break;
    case 8: line.erase(0, line.find(',') + 1); break;
    case 9: line.insert(dice.below(static_cast<u32>(line.size()) + 1), " "); break;
    case 10: std::replace(line.begin(), line.end(), ',', ';'); break;
    case 11: std::replace(line.begin(), line.end(), ',', '\t'); break;
    case 12: std::erase(line, '"'); break;
    case 13: lines.front().insert(0, "\xEF\xBB\xBF"); break;
    case 14: lines.push_back("\r\n"); break;
    default: lines.push_back(std::string(dice.chance(20) ? 16'384 : 3, '8'));
    }
    text.clear();
    for (const std::string& one : lines) text += one;
}

// A whole table, up to 128 records and sometimes more, over the whole range of times; some are
// damaged, some of these more than once, and some of the others follow once more, rearranged.
static void random_whole_table(Trial& trial, Dice& dice) {
    const std::size_t n = dice.chance(25) ? dice.between(124, 131) : dice.between(0, 100);
    Set set = dice.chance(20) ? tied_set(dice, n) : random_set(dice, n);
    while (n > 0 && dice.chance(10)) make_wrong(dice, set);
    const std::string whole = random_text(dice, set);
    std::string text = whole;
    while (!text.empty() && dice.chance(40)) damage_lines(dice, text);
    if (!text.empty() && dice.chance(10)) damage(dice, text);
    trial.ask_table(text);
    if (text == whole && dice.chance(50)) trial.ask_table_again(text, random_order(dice, n));
}

// ---------------------------------------------------------------- rearranged

// Mostly small and with many ties; some have something wrong.
static Set set_to_rearrange(Dice& dice) {
    const std::size_t n = dice.chance(4) ? dice.between(13, 24) : dice.between(2, 6);
    Set set = dice.chance(60) ? tied_set(dice, n) : random_set(dice, n);
    if (dice.chance(12)) make_wrong(dice, set);
    return set;
}

// Each of these asks a case, and then the same case rearranged.
static void assign_pair(Trial& trial, Dice& dice) {
    const Set set = set_to_rearrange(dice);
    const List before = random_list(dice, set.job.size());
    trial.ask_assign(set, before);
    trial.ask_assign_again(set, before, random_order(dice, set.job.size()));
}

static void simulate_pair(Trial& trial, Dice& dice) {
    const Set set = set_to_rearrange(dice);
    List deadlines = random_deadlines(dice, set);
    if (dice.chance(50))
        for (u32& deadline : deadlines) deadline = dice.below(2);
    const List asks = random_asks(dice, set);
    const List before = random_list(dice, set.job.size());
    Totals totals;
    totals.busy = random_total(dice);
    totals.idle = random_total(dice);
    trial.ask_simulate(set, deadlines, asks, before, totals);
    trial.ask_simulate_again(set, deadlines, asks, before, totals,
                             random_order(dice, set.job.size()));
}

static void check_pair(Trial& trial, Dice& dice) {
    const Set set = set_to_rearrange(dice);
    const List proposed = random_proposal(dice, set);
    trial.ask_check(set, proposed);
    trial.ask_check_again(set, proposed, random_order(dice, set.job.size()));
}

static void table_pair(Trial& trial, Dice& dice) {
    Set set = set_to_rearrange(dice);
    const std::string text = random_text(dice, set);
    trial.ask_table(text);
    trial.ask_table_again(text, random_order(dice, set.job.size()));
}

// ---------------------------------------------------------------- the command

static void write_file(const std::filesystem::path& path, const std::string& text) {
    std::ofstream file(path, std::ios::binary);
    file << text;
    file.close();
    if (!file) throw std::runtime_error("cannot write " + path.string());
}

// `trial` takes two mebibytes of cases.
static constexpr std::size_t MOST_BYTES = 2'097'152;

static void write_trial(Trial& trial, const std::filesystem::path& folder) {
    trial.ask_end();
    if (trial.in.size() > MOST_BYTES) throw std::runtime_error("more cases than trial takes");
    std::filesystem::create_directories(folder);
    write_file(folder / "trial.stdin", trial.in);
    write_file(folder / "trial.stdout", trial.out);
    std::cout << "assign " << trial.count[1] << ", simulate " << trial.count[2] << ", check "
              << trial.count[3] << ", table " << trial.count[4] << ", critical times "
              << trial.count[5] << ", room " << trial.count[6] << " cases; "
              << trial.in.size() + trial.out.size() << " bytes\n";
}

int write_cases(const std::string& folder) {
    Trial trial;
    Dice dice(20'240'601);
    most_looks = 200'000'000;  // the edges by hand are few, and all of them are asked
    assign_edges(trial, dice);
    simulate_edges(trial, dice);
    check_edges(trial, dice);
    tie_edges(trial);
    for (const NamedText& named : named_texts()) trial.ask_table(named.text);
    for (const std::string& text : further_texts()) trial.ask_table(text);
    most_looks = 20'000'000;
    for (int k = 0; k < 480; ++k) {
        random_assign(trial, dice);
        random_simulate(trial, dice);
        random_check(trial, dice);
        random_table(trial, dice);
    }
    for (int k = 0; k < 30; ++k) random_whole_table(trial, dice);
    for (int k = 0; k < 60; ++k) assign_pair(trial, dice);
    for (int k = 0; k < 40; ++k) simulate_pair(trial, dice);
    for (int k = 0; k < 30; ++k) check_pair(trial, dice);
    for (int k = 0; k < 30; ++k) table_pair(trial, dice);
    ask_graphs(trial);
    ask_rooms(trial);

    const std::filesystem::path top(folder);
    write_trial(trial, top);
    std::filesystem::create_directories(top / "tables");
    most_looks = 200'000'000;
    for (const auto& [name, text] : named_texts()) {
        write_file(top / "tables" / (name + ".in"), text);
        write_file(top / "tables" / (name + ".out"), table(text));
    }
    return 0;
}

int write_whole_tables(u64 count, u64 seed, const std::string& folder) {
    Trial trial;
    Dice dice(seed);
    for (u64 k = 0; k < count; ++k) random_whole_table(trial, dice);
    write_trial(trial, folder);
    return 0;
}
