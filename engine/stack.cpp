// The stack figures of charoktan.h, held to what calls of each entry take: sets of 0 to 128
// sub-jobs and more, rooms of 0 to 32 sets and more, graphs of 0 to 1,024 arcs and more, accepted
// and refused by every number.
#include "charoktan.h"
#include "painted.h"

#include <cstdio>
#include <initializer_list>
#include <vector>

namespace {

using Set = std::vector<charoktan_subjob>;
using Arcs = std::vector<charoktan_arc>;
using Moments = std::vector<uint32_t>;

// n sub-jobs with room enough, released four at a time.
Set accepted_set(uint32_t n)
{
    Set set;
    for (uint32_t i = 0; i < n; ++i)
        set.push_back({n - i, i % 3, i / 4 * 3, 1 + i % 5, 100000 + i, i % 7});
    return set;
}

// The most that a call of an entry took so far.
struct Measured {
    size_t most = 0;
    uint32_t numbers = 0; // one bit per number that was returned

    template <class Call> uint32_t add(const Call &call)
    {
        uint32_t returned = 0;
        most = std::max(most, painted::depth([&] { returned = call(); }));
        numbers |= 1U << charoktan_number(returned);
        return returned;
    }
};

Measured assign, room, check, critical;
uint32_t set_numbers = 0; // one bit per number that a set of a room got

// A room of so many sets, all alike, with fewer bytes of deadlines if one likes.
void add_room(const Set &set, size_t sets, size_t less = 0)
{
    Set all;
    for (size_t k = 0; k < sets; ++k)
        all.insert(all.end(), set.begin(), set.end());
    const Moments lengths(sets, static_cast<uint32_t>(set.size()));
    Moments deadlines(all.size()), numbers(sets), places(sets);
    const uint32_t returned = room.add([&] {
        return charoktan_room(reinterpret_cast<const uint8_t *>(all.data()), all.size() * 24,
                              reinterpret_cast<const uint8_t *>(lengths.data()), sets * 4,
                              reinterpret_cast<uint8_t *>(deadlines.data()),
                              deadlines.size() * 4 - less,
                              reinterpret_cast<uint8_t *>(numbers.data()), sets * 4,
                              reinterpret_cast<uint8_t *>(places.data()), sets * 4);
    });
    for (uint32_t number : numbers)
        if (returned == CHAROKTAN_ACCEPTED)
            set_numbers |= 1U << number;
}

// The entries on a set with these deadlines, or with fewer bytes of them.
void add_set(const Set &set, Moments deadlines, size_t less = 0)
{
    const auto *records = reinterpret_cast<const uint8_t *>(set.data());
    auto *bytes = reinterpret_cast<uint8_t *>(deadlines.data());
    const size_t length = deadlines.size() * 4 - less;
    check.add([&] { return charoktan_check(records, set.size() * 24, bytes, length); });
    assign.add([&] { return charoktan_assign(records, set.size() * 24, bytes, length); });
    for (size_t sets : {1, 2, 32})
        add_room(set, sets, less);
}

void measure_sets(uint32_t n)
{
    const Set set = accepted_set(n);
    Moments assigned(n);
    if (!charoktan::assign(set, assigned).accepted() && n <= CHAROKTAN_SUBJOBS_MAX)
        std::abort();
    add_set(set, assigned);
    if (n == 0)
        return;
    add_set(set, assigned, 4); // number 1
    Set other = set;
    other.back().critical = 1000000001;
    add_set(other, assigned); // number 3
    if (n > 1) {
        other = set;
        other.back() = other[n - 2];
        add_set(other, assigned); // number 4
    }
    other = set;
    for (charoktan_subjob &subjob : other)
        subjob.deadline = 0;
    add_set(other, assigned); // numbers 5 and 6
    Moments early;
    for (const charoktan_subjob &subjob : set)
        early.push_back(subjob.release + subjob.execution);
    add_set(set, early); // number 7, if there are two
}

void add_graph(const Moments &executions, const Arcs &arcs, size_t less = 0)
{
    Moments results(executions.size());
    critical.add([&] {
        return charoktan_critical(
            reinterpret_cast<const uint8_t *>(executions.data()), executions.size() * 4,
            reinterpret_cast<const uint8_t *>(arcs.data()), arcs.size() * 12,
            reinterpret_cast<uint8_t *>(results.data()), results.size() * 4 - less);
    });
}

// m arcs between n sub-jobs, each to a later place: a chain, and then by ever longer steps. Where
// there are no two sub-jobs, arcs that name none.
Arcs arcs_of(uint32_t n, uint32_t m)
{
    Arcs arcs(m, {0, n, 1});
    for (uint32_t i = 0; n > 1 && i < m; ++i) {
        const uint32_t before = i % (n - 1);
        arcs[i] = {before, std::min(n - 1, before + 1 + i / (n - 1)), i % 7};
    }
    return arcs;
}

void measure_graphs(uint32_t n, uint32_t m)
{
    Moments executions(n, 5);
    Arcs arcs = arcs_of(n, m);
    add_graph(executions, arcs);
    if (n == 0)
        return;
    add_graph(executions, arcs, 4); // number 1
    executions.back() = 0;
    add_graph(executions, arcs); // number 3
    executions.back() = 5;
    if (arcs.empty())
        return;
    arcs.back().hop = 100001;
    add_graph(executions, arcs); // number 3
    arcs.back() = {0, n, 1};
    add_graph(executions, arcs); // number 20
    arcs.back() = {n - 1, 0, 1};
    add_graph(executions, arcs); // number 21, if a path leads there
    arcs.back() = {0, 0, 1};
    add_graph(executions, arcs); // number 21
}

// These numbers came, one bit each, and no other.
bool came(const char *entry, uint32_t numbers, std::initializer_list<uint32_t> all)
{
    uint32_t wanted = 0;
    for (uint32_t number : all)
        wanted |= 1U << number;
    if (numbers != wanted)
        std::printf("the numbers of %s that came are %#x, not %#x\n", entry, numbers, wanted);
    return numbers == wanted;
}

// The figure is kept, and these numbers came.
bool holds(const char *entry, const Measured &measured, size_t figure,
           std::initializer_list<uint32_t> all)
{
    const bool kept = measured.most <= figure && 4 * measured.most >= 3 * figure;
    std::printf("%s takes %zu bytes of stack, charoktan.h says %zu%s\n", entry, measured.most,
                figure, kept ? "" : ": WRONG");
    return came(entry, measured.numbers, all) && kept;
}

} // namespace

int main()
{
    for (uint32_t n : {0, 1, 2, 3, 4, 7, 8, 9, 10, 16, 17, 64, 127, 128, 129})
        measure_sets(n);
    for (uint32_t n : {0, 1, 128})
        for (size_t sets : {0, 33})
            add_room(accepted_set(n), sets); // number 22 by the second
    for (uint32_t n : {0, 1, 2, 8, 9, 64, 128, 129})
        for (uint32_t m : {0, 1, 127, 1024, 1025})
            measure_graphs(n, m);
    bool kept = holds("charoktan_assign", assign, CHAROKTAN_STACK_ASSIGN, {0, 1, 2, 3, 4, 5});
    kept &= holds("charoktan_room", room, CHAROKTAN_STACK_ROOM, {0, 1, 22});
    kept &= came("its sets", set_numbers, {0, 2, 3, 4, 5});
    kept &= holds("charoktan_check", check, CHAROKTAN_STACK_CHECK, {0, 1, 2, 3, 4, 6, 7});
    kept &= holds("charoktan_critical", critical, CHAROKTAN_STACK_CRITICAL, {0, 1, 2, 3, 20, 21});
    return kept ? 0 : 1;
}
