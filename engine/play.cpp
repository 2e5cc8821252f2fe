// The sets and the core of play.h, and what is printed of its runs.
#include "play.h"

#include <algorithm>
#include <cstdio>
#include <functional>
#include <queue>
#include <tuple>

namespace {

// A waiting stage; the one to serve has the smallest (deadline, job, subtask).
struct Waiting {
    uint32_t deadline, job, subtask;
    size_t place;

    bool operator>(const Waiting &other) const
    {
        return std::tie(deadline, job, subtask) >
               std::tie(other.deadline, other.job, other.subtask);
    }
};

// For each place the places of its forerunners.
std::vector<std::vector<uint32_t>> forerunners(const Set &set, const Arcs &arcs)
{
    std::vector<std::vector<uint32_t>> before(set.size());
    for (const charoktan::arc &arc : arcs)
        before[arc.after].push_back(arc.before);
    return before;
}

} // namespace

Set subjobs_of(const Room &room)
{
    Set set;
    for (const Door &door : room) {
        uint32_t before = 0;
        uint32_t after = 0;
        for (uint32_t longest : door.longest)
            after += longest;
        for (uint32_t stage = 0; stage < stage_count; ++stage) {
            const uint32_t longest = door.longest[stage];
            after -= longest;
            set.push_back({door.number, stage, door.seen + before, longest, door.opened, after});
            before += longest;
        }
    }
    return set;
}

Play play(const Set &set, const Arcs &arcs, const Moments &deadlines, const Moments &taken)
{
    Play result;
    result.ended.assign(set.size(), 0);
    const auto before = forerunners(set, arcs);
    Moments left = taken;
    const auto unended_at = [&left](uint32_t place) { return left[place] > 0; };
    std::priority_queue<Waiting, std::vector<Waiting>, std::greater<Waiting>> queue;
    size_t unended = set.size();
    for (uint32_t tick = 0; unended > 0; ++tick) {
        for (size_t place = 0; place < set.size(); ++place)
            if (set[place].release == tick)
                queue.push({deadlines[place], set[place].job, set[place].subtask, place});
        result.ticks = tick + 1;
        if (queue.empty())
            continue;
        const size_t place = queue.top().place;
        result.unready += std::any_of(before[place].begin(), before[place].end(), unended_at);
        if (--left[place] > 0)
            continue;
        queue.pop();
        --unended;
        const uint32_t moment = tick + 1;
        result.ended[place] = moment;
        if (moment > deadlines[place])
            ++result.late;
        if (set[place].subtask == stage_count - 1 && moment > set[place].deadline)
            ++result.hitches;
    }
    return result;
}

Moments in_full(const Set &set)
{
    Moments taken;
    for (const charoktan::subjob &subjob : set)
        taken.push_back(subjob.execution);
    return taken;
}

void print_answer(const char *what, charoktan::answer answer, const std::string &where)
{
    if (answer.accepted())
        std::printf("%s: accepted\n", what);
    else
        std::printf("%s: refused by number %u at place %u%s: %s\n", what,
                    static_cast<unsigned>(answer.number()), static_cast<unsigned>(answer.place()),
                    where.c_str(), answer.text());
}

void print_answer(const char *what, const Set &set, charoktan::answer answer)
{
    std::string where;
    if (answer.number() >= charoktan::refusal::field) {
        const charoktan::subjob &at = set[answer.place()];
        where =
            " (door " + std::to_string(at.job) + ", " + stage_names[at.subtask % stage_count] + ")";
    }
    print_answer(what, answer, where);
}

void print_run(const Set &set, const Moments &deadlines, const Moments &taken, const Play &run)
{
    std::printf("  door  stage           release  longest  bound  deadline  took  ended\n");
    for (size_t place = 0; place < set.size(); ++place)
        std::printf("  %4u  %-14s  %7u  %7u  %5d  %8u  %4u  %5u\n", set[place].job,
                    stage_names[set[place].subtask], set[place].release, set[place].execution,
                    static_cast<int>(set[place].deadline) - static_cast<int>(set[place].critical),
                    deadlines[place], taken[place], run.ended[place]);
    std::printf("  %u ticks, %u late stages, %u hitches\n", run.ticks, run.late, run.hitches);
}
