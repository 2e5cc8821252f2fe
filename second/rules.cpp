// The assignment, the simulated core and the checker of docs/RULES.md, by definition.
#include "rules.hpp"

#include <algorithm>
#include <array>
#include <limits>
#include <numeric>
#include <stdexcept>
#include <tuple>

i64 bound(const Set& set, std::size_t place) {
    return i64{set.deadline[place]} - i64{set.critical[place]};
}

// ---------------------------------------------------------------- refusals 1 to 4

bool execution_in_range(u32 execution) { return 1 <= execution && execution <= LONGEST_EXECUTION; }

static Field field_out_of_range(const Set& set, std::size_t place) {
    if (set.release[place] > 1'000'000'000) return RELEASE;
    if (!execution_in_range(set.execution[place])) return EXECUTION;
    if (set.deadline[place] > 2'000'000'000) return DEADLINE;
    if (set.critical[place] > 1'000'000'000) return CRITICAL;
    return NO_FIELD;
}

static bool pair_seen_earlier(const Set& set, std::size_t place) {
    for (std::size_t earlier = 0; earlier < place; ++earlier)
        if (set.job[earlier] == set.job[place] && set.subtask[earlier] == set.subtask[place])
            return true;
    return false;
}

Refused numbers_1_to_4(const Set& set, const std::vector<std::size_t>& others) {
    const std::size_t n = set.job.size();
    for (const List* list :
         {&set.subtask, &set.release, &set.execution, &set.deadline, &set.critical})
        if (list->size() != n) return Refusal{.number = 1};
    for (std::size_t length : others)
        if (length != n) return Refusal{.number = 1};

    if (n > MOST_SUBJOBS) return Refusal{.number = 2};

    for (std::size_t place = 0; place < n; ++place)
        if (const Field field = field_out_of_range(set, place); field != NO_FIELD)
            return Refusal{.number = 3, .place = place, .field = field};

    for (std::size_t place = 0; place < n; ++place)
        if (pair_seen_earlier(set, place)) return Refusal{.number = 4, .place = place};

    return {};
}

// ---------------------------------------------------------------- the assignment

i64 smallest_release(const Set& set, const Places& subset) {
    i64 smallest = set.release[subset.front()];
    for (std::size_t place : subset) smallest = std::min(smallest, i64{set.release[place]});
    return smallest;
}

static i64 sum_of_executions(const Set& set, const Places& subset) {
    i64 sum = 0;
    for (std::size_t place : subset) sum += set.execution[place];
    return sum;
}

i64 completion(const Set& set, const Places& subset) {
    return smallest_release(set, subset) + sum_of_executions(set, subset);
}

// The places of `from` whose bit is set; the mask's bits count along `from`.
static void take(const Places& from, u32 mask, Places& subset) {
    subset.clear();
    for (std::size_t k = 0; k < from.size(); ++k)
        if (mask >> k & 1) subset.push_back(from[k]);
}

// The greatest completion; of several, the greatest smallest release.
struct Greatest {
    const Set& set;
    Places subset = {};
    i64 completed = 0, starts = 0;

    void offer(const Places& other) {
        const i64 c = completion(set, other), s = smallest_release(set, other);
        if (subset.empty() || c > completed || (c == completed && s > starts)) {
            subset = other;
            completed = c;
            starts = s;
        }
    }
};

Places base_by_all_subsets(const Set& set, const Places& remaining) {
    Greatest greatest{set};
    Places subset;
    for (u32 mask = 1; mask < u32{1} << remaining.size(); ++mask) {
        take(remaining, mask, subset);
        greatest.offer(subset);
    }
    return greatest.subset;
}

// "It is enough to look at the tails": all those released at or after one release.
Places base_by_tails(const Set& set, const Places& remaining) {
    Greatest greatest{set};
    Places tail;
    for (std::size_t first : remaining) {
        tail.clear();
        for (std::size_t place : remaining)
            if (set.release[place] >= set.release[first]) tail.push_back(place);
        greatest.offer(tail);
    }
    return greatest.subset;
}

// The greatest upper bound; of several the greatest job, then the greatest subtask. No two have the
// same pair, so the list's order does not decide.
std::size_t base_subjob(const Set& set, const Places& base) {
    const auto order = [&](std::size_t place) {
        return std::tuple(bound(set, place), set.job[place], set.subtask[place]);
    };
    std::size_t chosen = base.front();
    for (std::size_t place : base)
        if (order(place) > order(chosen)) chosen = place;
    return chosen;
}

Assigned assign(const Set& set, List& results) {
    if (const Refused refused = numbers_1_to_4(set, {results.size()})) return {.refused = refused};
    if (results.empty()) return {.refused = {}, .nothing = true};

    List local(results.size());
    Places remaining(results.size());
    std::iota(remaining.begin(), remaining.end(), 0);
    while (!remaining.empty()) {
        const Places base = remaining.size() <= FEW ? base_by_all_subsets(set, remaining)
                                                    : base_by_tails(set, remaining);
        const i64 completed = completion(set, base);
        const std::size_t chosen = base_subjob(set, base);
        if (bound(set, chosen) < completed)
            return {.refused = Refusal{.number = 5,
                                       .place = chosen,
                                       .completion = completed,
                                       .bound = bound(set, chosen)}};
        local[chosen] = static_cast<u32>(completed);
        std::erase(remaining, chosen);
    }

    Assigned answer{.refused = {}, .slack = std::numeric_limits<i64>::max()};
    for (std::size_t place = 0; place < local.size(); ++place) {
        const i64 slack = bound(set, place) - local[place];
        if (slack < answer.slack) {
            answer.slack = slack;
            answer.place = place;
        }
    }
    results = local;
    return answer;
}

// ---------------------------------------------------------------- the published conditions

bool condition_6(const Set& set, const List& d, std::size_t place) {
    return i64{set.release[place]} + i64{set.execution[place]} <= i64{d[place]} &&
           i64{d[place]} <= bound(set, place);
}

bool condition_7(const Set& set, const List& d) {
    Places all(d.size());
    std::iota(all.begin(), all.end(), 0);
    Places subset;
    for (u32 mask = 1; mask < u32{1} << all.size(); ++mask) {
        take(all, mask, subset);
        i64 greatest = 0;
        for (std::size_t place : subset) greatest = std::max(greatest, i64{d[place]});
        if (greatest - smallest_release(set, subset) < sum_of_executions(set, subset)) return false;
    }
    return true;
}

// ---------------------------------------------------------------- the simulated core

// The smallest release of those still owed something.
static u64 next_release(const Set& set, const List& owed,
                        const std::array<u32, MOST_SUBJOBS>& served) {
    u64 next = std::numeric_limits<u64>::max();
    for (std::size_t place = 0; place < owed.size(); ++place)
        if (served[place] < owed[place]) next = std::min(next, u64{set.release[place]});
    return next;
}

Run run_core(const Set& set, const List& deadlines, const List& asks) {
    const std::size_t n = set.release.size();
    List owed(n);
    u64 still_owed = 0;
    for (std::size_t place = 0; place < n; ++place) {
        owed[place] = std::min(asks[place], set.execution[place]);
        still_owed += owed[place];
    }
    if (still_owed * n > most_looks) throw TooManyTicks{};

    Run run;
    run.finish = set.release;  // and so it stays for one that is owed nothing
    std::array<u32, MOST_SUBJOBS> served{};
    const auto order = [&](std::size_t place) {
        return std::tuple(deadlines[place], set.job[place], set.subtask[place]);
    };
    for (u64 tick = 0; still_owed > 0;) {
        std::optional<std::size_t> chosen;
        for (std::size_t place = 0; place < n; ++place) {
            const bool active = set.release[place] <= tick && served[place] < owed[place];
            if (active && (!chosen || order(place) < order(*chosen))) chosen = place;
        }
        if (chosen) {
            ++served[*chosen];
            run.finish[*chosen] = static_cast<u32>(tick + 1);
            ++run.busy;
            --still_owed;
            ++tick;
        } else {
            // Nobody is active in this tick, nor in any other before the next release: each of
            // them is idle. They are counted without a look at each.
            const u64 next = next_release(set, owed, served);
            run.idle += next - tick;
            tick = next;
        }
    }
    for (std::size_t place = 0; place < n; ++place)
        if (owed[place] > 0) run.end = std::max(run.end, u64{run.finish[place]});
    return run;
}

Simulated simulate(const Set& set, const List& deadlines, const List& asks, List& finishes,
                   Totals& totals) {
    if (const Refused refused =
            numbers_1_to_4(set, {deadlines.size(), asks.size(), finishes.size()}))
        return {.refused = refused};

    const Run run = run_core(set, deadlines, asks);
    // A record already above the most is asked first, so that the sums below do not wrap.
    constexpr u64 most = 1'000'000'000'000'000'000;
    if (totals.busy > most || totals.idle > most || totals.busy + run.busy > most ||
        totals.idle + run.idle > most)
        return {.refused = Refusal{.number = 8}};

    finishes = run.finish;
    totals.busy += run.busy;
    totals.idle += run.idle;
    return {.refused = {}, .end = run.end};
}

// ---------------------------------------------------------------- the checker

Refused check(const Set& set, const List& proposed) {
    if (const Refused refused = numbers_1_to_4(set, {proposed.size()})) return refused;

    for (std::size_t place = 0; place < proposed.size(); ++place)
        if (!condition_6(set, proposed, place)) return Refusal{.number = 6, .place = place};

    Refused late;
    const Run run = run_core(set, proposed, set.execution);
    for (std::size_t place = 0; place < proposed.size() && !late; ++place)
        if (run.finish[place] > proposed[place]) late = Refusal{.number = 7, .place = place};

    // The rules say the same twice: accepted is (6) and (7), number 7 is a late finish.
    const bool none_late = !late;
    if (proposed.size() <= FEW && condition_7(set, proposed) != none_late)
        throw std::logic_error("condition (7) and the finishes disagree");
    return late;
}
