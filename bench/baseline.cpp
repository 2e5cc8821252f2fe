// The baselines on sets. Each reads the 24-byte records, judges numbers 1 to 4 as the rules say,
// and writes results only on acceptance: the same job as the library does.

#include "baseline.h"

#include "charoktan.h"

#include <algorithm>
#include <cstring>

namespace {

using baseline::refused;

constexpr size_t most = CHAROKTAN_SUBJOBS_MAX;

struct Set {
    size_t count;
    charoktan_subjob at[most];
};

bool in_range(const charoktan_subjob &s)
{
    return s.release <= 1000000000U && s.execution - 1U < 1000000U && s.deadline <= 2000000000U &&
           s.critical <= 1000000000U;
}

uint64_t pair_of(const charoktan_subjob &s)
{
    return (static_cast<uint64_t>(s.job) << 32) | s.subtask;
}

// Number 4: sorted pairs tell whether two are equal; only then is the place looked for.
uint32_t judge_pairs(const Set &set)
{
    uint64_t pairs[most];
    for (size_t i = 0; i < set.count; ++i)
        pairs[i] = pair_of(set.at[i]);
    std::sort(pairs, pairs + set.count);
    if (std::adjacent_find(pairs, pairs + set.count) == pairs + set.count)
        return 0;
    size_t later = 1;
    for (;; ++later)
        for (size_t i = 0; i < later; ++i)
            if (pair_of(set.at[i]) == pair_of(set.at[later]))
                return refused(CHAROKTAN_PAIR, later);
}

// Numbers 1 to 4, in this order; 0 if there is none, and then the set is read.
uint32_t read(const uint8_t *records, size_t records_len, size_t deadlines_len, Set &set)
{
    set.count = records_len / sizeof(charoktan_subjob);
    if (records_len % sizeof(charoktan_subjob) != 0 || deadlines_len % 4 != 0 ||
        deadlines_len / 4 != set.count)
        return refused(CHAROKTAN_LENGTHS, 0);
    if (set.count > most)
        return refused(CHAROKTAN_TOO_MANY, 0);
    if (set.count == 0)
        return 0;
    std::memcpy(set.at, records, records_len);
    for (size_t i = 0; i < set.count; ++i)
        if (!in_range(set.at[i]))
            return refused(CHAROKTAN_FIELD, i);
    return judge_pairs(set);
}

int64_t bound_of(const charoktan_subjob &s)
{
    return static_cast<int64_t>(s.deadline) - static_cast<int64_t>(s.critical);
}

// The remaining sub-jobs, in release order. A completion is below 2^32: at most 1,000,000,000 and
// 128 times 1,000,000.
struct Remaining {
    uint32_t release, execution;
    int64_t bound;
    size_t place;
};

// A base subset is a tail: its first position and its completion.
struct Base {
    size_t first;
    uint32_t completion;
};

Base base_afresh(const Remaining *rest, size_t count)
{
    Base base = {0, 0};
    for (size_t first = 0; first < count; ++first) {
        uint32_t completion = rest[first].release;
        for (size_t i = first; i < count; ++i)
            completion += rest[i].execution;
        if (completion >= base.completion)
            base = {first, completion};
    }
    return base;
}

Base base_one_pass(const Remaining *rest, size_t count)
{
    Base base = {0, 0};
    uint32_t sum = 0;
    for (size_t first = count; first-- > 0;) {
        sum += rest[first].execution;
        if (rest[first].release + sum > base.completion)
            base = {first, rest[first].release + sum};
    }
    return base;
}

// The base sub-job: the greatest bound, of several the greatest pair. Pairs are left in the set,
// since few bounds are equal.
size_t base_subjob(const Set &set, const Remaining *rest, size_t first, size_t count)
{
    size_t chosen = first;
    for (size_t i = first + 1; i < count; ++i)
        if (rest[i].bound > rest[chosen].bound ||
            (rest[i].bound == rest[chosen].bound &&
             pair_of(set.at[rest[i].place]) > pair_of(set.at[rest[chosen].place])))
            chosen = i;
    return chosen;
}

template <Base (*base_of)(const Remaining *, size_t)>
uint32_t assign(const uint8_t *records, size_t records_len, uint8_t *deadlines,
                size_t deadlines_len)
{
    Set set;
    if (const uint32_t number = read(records, records_len, deadlines_len, set))
        return number;
    Remaining rest[most];
    uint32_t results[most];
    for (size_t i = 0; i < set.count; ++i)
        rest[i] = {set.at[i].release, set.at[i].execution, bound_of(set.at[i]), i};
    std::sort(rest, rest + set.count,
              [](const Remaining &a, const Remaining &b) { return a.release < b.release; });
    for (size_t count = set.count; count > 0; --count) {
        const Base base = base_of(rest, count);
        const size_t chosen = base_subjob(set, rest, base.first, count);
        if (rest[chosen].bound < static_cast<int64_t>(base.completion))
            return refused(CHAROKTAN_LATE, rest[chosen].place);
        results[rest[chosen].place] = base.completion;
        std::copy(rest + chosen + 1, rest + count, rest + chosen);
    }
    if (set.count > 0)
        std::memcpy(deadlines, results, deadlines_len);
    return 0;
}

// A waiting sub-job; the heap's first is the one with the smallest deadline, job and subtask.
struct Waiting {
    uint32_t deadline;
    uint64_t pair;
    uint32_t left;
    size_t place;
};

bool served_after(const Waiting &a, const Waiting &b)
{
    return a.deadline > b.deadline || (a.deadline == b.deadline && a.pair > b.pair);
}

// The smallest place that ends after its deadline when every sub-job is served in full; count if
// there is none.
size_t first_missed(const Set &set, const uint32_t *proposed)
{
    uint64_t order[most]; // release and place in one number, to be sorted
    for (size_t i = 0; i < set.count; ++i)
        order[i] = (static_cast<uint64_t>(set.at[i].release) << 32) | i;
    std::sort(order, order + set.count);
    Waiting heap[most];
    size_t waiting = 0;
    size_t next = 0;
    size_t missed = set.count;
    uint64_t now = 0;
    while (next < set.count || waiting > 0) {
        if (waiting == 0)
            now = std::max(now, order[next] >> 32);
        for (; next < set.count && order[next] >> 32 <= now; ++next) {
            const size_t place = order[next] & 0xffffffffU;
            const charoktan_subjob &s = set.at[place];
            heap[waiting++] = {proposed[place], pair_of(s), s.execution, place};
            std::push_heap(heap, heap + waiting, served_after);
        }
        Waiting &first = heap[0];
        const uint64_t released = next < set.count ? order[next] >> 32 : UINT64_MAX;
        if (now + first.left > released) {
            first.left -= static_cast<uint32_t>(released - now);
            now = released;
            continue;
        }
        now += first.left;
        if (now > first.deadline)
            missed = std::min(missed, first.place);
        std::pop_heap(heap, heap + waiting, served_after);
        --waiting;
    }
    return missed;
}

} // namespace

uint32_t baseline::assign_paper(const uint8_t *records, size_t records_len, uint8_t *deadlines,
                                size_t deadlines_len)
{
    return assign<base_afresh>(records, records_len, deadlines, deadlines_len);
}

uint32_t baseline::assign_one_pass(const uint8_t *records, size_t records_len, uint8_t *deadlines,
                                   size_t deadlines_len)
{
    return assign<base_one_pass>(records, records_len, deadlines, deadlines_len);
}

uint32_t baseline::check_events(const uint8_t *records, size_t records_len,
                                const uint8_t *deadlines, size_t deadlines_len)
{
    Set set;
    if (const uint32_t number = read(records, records_len, deadlines_len, set))
        return number;
    uint32_t proposed[most];
    if (set.count > 0)
        std::memcpy(proposed, deadlines, deadlines_len);
    for (size_t i = 0; i < set.count; ++i) {
        const charoktan_subjob &s = set.at[i];
        if (proposed[i] < s.release + s.execution ||
            static_cast<int64_t>(proposed[i]) > bound_of(s))
            return refused(CHAROKTAN_OUTSIDE, i);
    }
    const size_t missed = first_missed(set, proposed);
    return missed < set.count ? refused(CHAROKTAN_MISSED, missed) : 0;
}
