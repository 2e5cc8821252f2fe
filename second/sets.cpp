// Sets of sub-jobs by dice: crowded and loose, tied, touching, late, damaged.
#include "sets.hpp"

#include <algorithm>
#include <numeric>
#include <utility>

static constexpr u32 LATEST_RELEASE = 1'000'000'000, LATEST_DEADLINE = 2'000'000'000,
                     LONGEST_CRITICAL = 1'000'000'000;

u64 Dice::next() {
    u64 z = state_ += 0x9E3779B97F4A7C15;
    z = (z ^ (z >> 30)) * 0xBF58476D1CE4E5B9;
    z = (z ^ (z >> 27)) * 0x94D049BB133111EB;
    return z ^ (z >> 31);
}

Set set_of(const std::vector<std::array<u32, 3>>& triples) {
    Set set;
    for (const auto& [release, execution, bound] : triples) {
        set.job.push_back(static_cast<u32>(set.job.size()) + 1);
        set.subtask.push_back(1);
        set.release.push_back(release);
        set.execution.push_back(execution);
        set.deadline.push_back(bound);
        set.critical.push_back(0);
    }
    return set;
}

Set p2() { return set_of({{0, 1, 1}}); }
Set p3() { return set_of({{0, 2, 1}}); }
Set p4() { return set_of({{0, 2, 35}, {4, 2, 42}, {5, 2, 39}, {6, 1, 35}}); }
Set p5() { return set_of({{0, 4, 20}, {4, 3, 10}}); }
Set p6() {
    Set set = set_of({{0, 2, 9}, {0, 3, 9}});
    set.job = {5, 2};
    return set;
}
Set p7() {
    Set set = set_of({{0, 1, 3}});
    set.critical = {5};
    return set;
}
Set p8() { return set_of({{0, 3, 3}, {1, 1, 2}}); }
Set p9() { return set_of({{1'000'000'000, 1'000'000, 2'000'000'000}}); }

// Jobs 1 and 2 on one core of the paper's table 2.
static Set core_of_table_2(const List& releases, const List& executions, const List& criticals) {
    return {{1, 2}, {1, 1}, releases, executions, {1100, 930}, criticals};
}

std::vector<Set> table_2() {
    return {core_of_table_2({0, 0}, {100, 70}, {900, 630}),
            core_of_table_2({100, 170}, {200, 430}, {700, 200}),
            core_of_table_2({300, 730}, {100, 100}, {600, 100}),
            core_of_table_2({400, 830}, {600, 100}, {0, 0})};
}

std::array<List*, 6> lists(Set& set) {
    return {&set.job, &set.subtask, &set.release, &set.execution, &set.deadline, &set.critical};
}

// ---------------------------------------------------------------- names

// n different pairs: rising, falling (ties by job then go against the list), of few values (ties
// go down to the subtask), or at the ends of the 32 bits.
static void name(Dice& dice, std::size_t n, Set& set) {
    const u32 way = dice.below(5);
    const u32 count = static_cast<u32>(n);
    for (u32 k = 0; k < count; ++k) {
        std::pair<u32, u32> pair;
        switch (way) {
        case 0: pair = {k + 1, 1}; break;
        case 1: pair = {7, k}; break;
        case 2: pair = {count - k, k % 3}; break;
        case 3: pair = {k % 2 == 0 ? 0 : LARGEST, LARGEST - k / 2}; break;
        default:
            // Few values: a pair drawn twice moves on through the grid to the next free one.
            u32 cell = dice.below(2 * count);
            const auto taken = [&](u32 c) {
                for (u32 j = 0; j < k; ++j)
                    if (set.job[j] == c % 4 && set.subtask[j] == c / 4) return true;
                return false;
            };
            while (taken(cell)) cell = (cell + 1) % (2 * count);
            pair = {cell % 4, cell / 4};
        }
        set.job.push_back(pair.first);
        set.subtask.push_back(pair.second);
    }
}

// ---------------------------------------------------------------- times

Set random_set(Dice& dice, std::size_t n) {
    Set set;
    if (n == 0) return set;
    name(dice, n, set);

    // The whole set's shape is drawn first: it decides how crowded the core is.
    const u32 count = static_cast<u32>(n);
    const bool far_apart = dice.chance(8);  // idle for millions of ticks between releases
    const u32 spread = far_apart ? dice.between(20'000'000, 900'000'000)
                                 : dice.one_of({0, 3, 3 + count, 3 + 2 * count, 20 + 4 * count});
    const u32 longest = far_apart ? dice.one_of({3, 100, 1000}) : dice.one_of({1, 3, 3, 6});
    const u32 room = dice.one_of({1, longest * count / 2, longest * count, 2 * longest * count});
    const u32 longest_critical = dice.one_of({0, 0, 4, 30});
    const bool touching = dice.chance(15);
    const bool equal_bounds = dice.chance(20);
    const bool negative_bounds = dice.chance(3);
    const u32 start = dice.chance(6)    ? LATEST_RELEASE - spread
                      : dice.chance(10) ? dice.below(100'000'000)
                                        : 0;
    const u32 common = start + longest + dice.below(spread + room + 1);

    u32 touch = start;
    for (u32 k = 0; k < count; ++k) {
        const u32 execution = dice.between(1, longest);
        u32 release = start + dice.below(spread + 1);
        if (touching && touch <= LATEST_RELEASE) release = touch;
        touch += execution + (dice.chance(20) ? 1 : 0);
        const u32 critical = dice.below(longest_critical + 1);
        u32 latest = release + execution + dice.below(room + 1);
        if (equal_bounds) latest = common + dice.below(2);
        set.release.push_back(release);
        set.execution.push_back(execution);
        set.deadline.push_back(negative_bounds ? dice.below(4) : latest + critical);
        set.critical.push_back(critical);
    }

    // Touching blocks were laid in list order; the list itself has no order to rely on.
    return touching ? in_order(set, random_order(dice, n)) : set;
}

Set tied_set(Dice& dice, std::size_t n) {
    Set set;
    name(dice, n, set);
    const u32 count = static_cast<u32>(n);
    const u32 blocks = dice.between(1, 3);
    const u32 longest = dice.one_of({1, 1, 2, 3});
    const u32 room = dice.between(count / blocks, longest * count + 2);
    const u32 uneven = dice.one_of({0, 0, 20});
    for (u32 k = 0; k < count; ++k) {
        const u32 release = k % blocks * (longest * count + 2);
        const u32 critical = dice.below(3);
        set.release.push_back(release);
        set.execution.push_back(dice.between(1, longest));
        set.deadline.push_back(release + room + critical + (dice.chance(uneven) ? 1 : 0));
        set.critical.push_back(critical);
    }
    return set;
}

Set set_at_range_ends(Dice& dice, std::size_t n) {
    Set set;
    name(dice, n, set);
    const bool generous = dice.chance(60);
    for (std::size_t k = 0; k < n; ++k) {
        set.release.push_back(dice.one_of({0, 1, LATEST_RELEASE - 1, LATEST_RELEASE}));
        set.execution.push_back(dice.one_of({1, 2, LONGEST_EXECUTION - 1, LONGEST_EXECUTION}));
        set.deadline.push_back(generous
                                   ? LATEST_DEADLINE - dice.below(2)
                                   : dice.one_of({0, 1, LATEST_DEADLINE - 1, LATEST_DEADLINE}));
        set.critical.push_back(
            generous ? dice.below(2) : dice.one_of({0, 1, LONGEST_CRITICAL - 1, LONGEST_CRITICAL}));
    }
    return set;
}

// ---------------------------------------------------------------- damage

void make_wrong(Dice& dice, Set& set) {
    const std::size_t n = set.job.size();
    const u32 place = dice.below(static_cast<u32>(n));
    switch (dice.below(7)) {
    case 0: set.release[place] = dice.one_of({LATEST_RELEASE + 1, LARGEST}); break;
    case 1: set.execution[place] = 0; break;
    case 2: set.execution[place] = dice.one_of({LONGEST_EXECUTION + 1, LARGEST}); break;
    case 3: set.deadline[place] = dice.one_of({LATEST_DEADLINE + 1, LARGEST}); break;
    case 4: set.critical[place] = dice.one_of({LONGEST_CRITICAL + 1, LARGEST}); break;
    default:
        const u32 other = dice.below(static_cast<u32>(n));
        set.job[place] = set.job[other];
        set.subtask[place] = set.subtask[other];
    }
}

// ---------------------------------------------------------------- lists beside the six

List random_list(Dice& dice, std::size_t n) {
    List list(n);
    for (u32& number : list)
        number = dice.chance(50) ? dice.below(100) : static_cast<u32>(dice.next());
    return list;
}

void make_unequal(Dice& dice, const std::vector<List*>& all) {
    List& list = *all[dice.below(static_cast<u32>(all.size()))];
    const std::size_t length = list.size();
    if (dice.chance(50))
        list.resize(length + 1 + dice.below(3), 1);
    else
        list.resize(length - std::min<std::size_t>(length, 1));
}

// The finishes of a run on the end-to-end deadlines, unless it takes too many single ticks.
static std::optional<List> some_finishes(const Set& set) {
    try {
        return run_core(set, set.deadline, set.execution).finish;
    } catch (const TooManyTicks&) {
        return {};
    }
}

List random_proposal(Dice& dice, const Set& set) {
    const std::size_t n = set.job.size();
    List proposed(n);
    const u32 way = dice.below(8);
    for (std::size_t place = 0; place < n; ++place) {
        // Any number that meets (6), if there is one.
        const i64 earliest = i64{set.release[place]} + set.execution[place];
        const i64 latest = std::max(earliest, bound(set, place));
        proposed[place] = dice.between(static_cast<u32>(earliest), static_cast<u32>(latest));
        // Or the latest that meets it.
        if (way >= 5 && bound(set, place) > 0)
            proposed[place] = static_cast<u32>(bound(set, place));
    }
    // The method's own answer, where there is one.
    if (way <= 2) assign(set, proposed);
    // Or the finishes of a run, which meet (7) always and (6) where the bounds leave room.
    if (way == 3 && !numbers_1_to_4(set, {n})) proposed = some_finishes(set).value_or(proposed);
    // Or something close by.
    if (n > 0 && way % 2 == 1) {
        u32& one = proposed[dice.below(static_cast<u32>(n))];
        one = dice.chance(50) ? one + dice.below(3) : one - std::min(one, dice.below(3));
    }
    if (n > 0 && dice.chance(4)) {
        u32& one = proposed[dice.below(static_cast<u32>(n))];
        one = dice.one_of({0, 1, LARGEST});
    }
    return proposed;
}

// ---------------------------------------------------------------- rearranging

Order random_order(Dice& dice, std::size_t n) {
    Order order(n);
    std::iota(order.begin(), order.end(), 0);
    for (std::size_t k = n; k > 1; --k)
        std::swap(order[k - 1], order[dice.below(static_cast<u32>(k))]);
    return order;
}

List in_order(const List& list, const Order& order) {
    List moved;
    for (std::size_t place : order) moved.push_back(list[place]);
    return moved;
}

Set in_order(const Set& set, const Order& order) {
    Set moved = set;
    for (List* list : lists(moved)) *list = in_order(*list, order);
    return moved;
}

std::size_t new_place(const Order& order, std::size_t place) {
    return static_cast<std::size_t>(std::find(order.begin(), order.end(), place) - order.begin());
}
