// Rooms that are loaded by several cores, each with a set of its own. The sets stand one after
// another, and one call of charoktan::room assigns them all. A core that is refused has its own
// number and place and does not stop the others, whose doors open in time. That the call was made
// says nothing of a core, so the engine asks the answer for each.
#include "room.h"

#include "graph.h"

#include <cstdio>

namespace {

// What a call is lent. The lists that it may write hold 77, so that it shows what it wrote.
struct Lent {
    Set subjobs;
    Moments lengths, deadlines, numbers, places;
};

Lent lend(const std::vector<Set> &sets)
{
    Lent lent;
    for (const Set &set : sets) {
        lent.subjobs.insert(lent.subjobs.end(), set.begin(), set.end());
        lent.lengths.push_back(static_cast<uint32_t>(set.size()));
    }
    lent.deadlines.assign(lent.subjobs.size(), 77);
    lent.numbers.assign(sets.size(), 77);
    lent.places.assign(sets.size(), 77);
    return lent;
}

charoktan::room_answer one_call(Lent &lent)
{
    return charoktan::room(lent.subjobs, lent.lengths, lent.deadlines, lent.numbers, lent.places);
}

// What one call of the assignment per set writes.
Lent call_by_call(const std::vector<Set> &sets)
{
    Lent lent = lend(sets);
    uint32_t *deadlines = lent.deadlines.data();
    for (size_t core = 0; core < sets.size(); ++core) {
        const Set &set = sets[core];
        const charoktan::answer answer =
            charoktan::assign(set.data(), set.size(), deadlines, set.size());
        lent.numbers[core] = static_cast<uint32_t>(answer.number());
        lent.places[core] = answer.place();
        deadlines += set.size();
    }
    return lent;
}

bool hold_the_same(const Lent &one, const Lent &other)
{
    return one.lengths == other.lengths && one.deadlines == other.deadlines &&
           one.numbers == other.numbers && one.places == other.places;
}

// The deadlines of each core, cut out of the list of all.
std::vector<Moments> cut_out(const Lent &lent)
{
    std::vector<Moments> stretches;
    auto from = lent.deadlines.begin();
    for (uint32_t length : lent.lengths) {
        stretches.emplace_back(from, from + length);
        from += length;
    }
    return stretches;
}

// A core of a console, and what is behind the doors that it loads.
struct Core {
    const char *name;
    Room doors;
};

std::vector<Set> sets_of(const std::vector<Core> &console)
{
    std::vector<Set> sets;
    for (const Core &core : console)
        sets.push_back(subjobs_of(core.doors));
    return sets;
}

// Loads a core whose deadlines these are, with every stage at its longest. True if each door's
// upload has ended when it opens.
bool load(const Core &core, const Set &set, const Moments &deadlines)
{
    const Play run = play(set, chains_of(set), deadlines, in_full(set));
    for (size_t at = 0; at < core.doors.size(); ++at)
        std::printf("  door %u opens at %u, its upload ends at %u\n", core.doors[at].number,
                    core.doors[at].opened, run.ended[at * stage_count + stage_count - 1]);
    return run.late + run.unready + run.hitches == 0;
}

// The designer has given the core of the textures three doors that are too close for it; the
// scripts have nothing to load.
bool show_console()
{
    std::vector<Core> console = {
        {"geometry", {{1, 0, 40, {6, 4, 5, 3}}, {2, 4, 30, {3, 2, 5, 2}}}},
        {"textures",
         {{1, 0, 40, {6, 4, 5, 3}}, {2, 4, 18, {3, 2, 5, 2}}, {3, 5, 19, {3, 1, 2, 2}}}},
        {"audio banks", {{1, 0, 40, {4, 1, 2, 1}}, {3, 5, 19, {5, 1, 3, 1}}}},
        {"animations", {{2, 4, 18, {2, 1, 4, 1}}}},
        {"light maps", {{1, 0, 40, {8, 1, 6, 5}}, {3, 5, 35, {4, 1, 3, 2}}}},
        {"scripts", {}}};
    const std::vector<Set> sets = sets_of(console);
    Lent lent = lend(sets);
    const charoktan::room_answer answer = one_call(lent);
    bool kept = answer.call().accepted() && !answer.all_accepted();
    if (!kept || !hold_the_same(lent, call_by_call(sets)))
        return false;
    const std::vector<Moments> deadlines = cut_out(lent);
    std::printf("a console's room on six cores, with one call\n");
    for (size_t core = 0; core < console.size(); ++core) {
        const std::string what = "core " + std::to_string(core) + ", " + console[core].name;
        print_answer(what.c_str(), sets[core], answer.of(core));
        if (answer.of(core).accepted())
            kept = load(console[core], sets[core], deadlines[core]) && kept;
        else
            kept = kept && core == 1 && deadlines[core] == Moments(sets[core].size(), 77);
    }

    console[5].doors.push_back(console[1].doors.back());
    console[1].doors.pop_back();
    const Cores shared = load_cores(sets_of(console));
    std::printf("with the textures of door 3 on the core of the scripts: %u cores accepted\n\n",
                shared.numbers[0]);
    return kept && shared.kept && shared.numbers[0] == console.size();
}

// Calls that are refused as a whole, each with its reason; all that was lent stays as it was, and
// the answer says of no core that it was accepted.
bool show_refused_calls()
{
    const Set door = subjobs_of({{1, 0, 40, {6, 4, 5, 3}}});
    const Lent good = lend({door, door, door});
    bool kept = true;
    const auto show = [&kept](const char *what, Lent lent, charoktan::refusal number) {
        const Lent before = lent;
        const charoktan::room_answer answer = one_call(lent);
        print_answer(what, answer.call(), "");
        kept = kept && answer.call().number() == number && answer.call().place() == 0 &&
               hold_the_same(lent, before) && !answer.all_accepted();
        for (size_t core = 0; core < lent.lengths.size(); ++core)
            kept = kept && answer.of(core).number() == number;
    };
    Lent lent = good;
    lent.deadlines.pop_back();
    show("a deadline too few", lent, charoktan::refusal::lengths);
    lent = good;
    lent.numbers.pop_back();
    show("a number too few", lent, charoktan::refusal::lengths);
    lent = good;
    lent.places.push_back(77);
    show("a place too many", lent, charoktan::refusal::lengths);
    lent = good;
    lent.lengths = {4, 3, 4};
    show("a stage that is no core's", lent, charoktan::refusal::lengths);
    lent.lengths = {4, 4, 5};
    show("a core with a stage that is not there", lent, charoktan::refusal::lengths);
    lent.lengths = {4, 0xfffffffc, 12};
    show("lengths that add up in 32 bits only", lent, charoktan::refusal::lengths);
    lent = lend(std::vector<Set>(CHAROKTAN_SETS_MAX + 1, door));
    show("33 cores", lent, charoktan::refusal::too_large);
    lent.lengths[0] = 3;
    show("33 cores and a stage that is none's", lent, charoktan::refusal::lengths);
    std::vector<Set> sets(CHAROKTAN_SETS_MAX, Set(CHAROKTAN_SUBJOBS_MAX, door[0]));
    sets[7].push_back(door[0]);
    show("4,097 stages", lend(sets), charoktan::refusal::too_large);
    std::printf("what was lent for the refused stayed %s\n", kept ? "as it was" : "NOT as it was");
    return kept;
}

// The largest room: 32 cores with 32 doors each.
bool show_largest()
{
    Room doors;
    for (uint32_t door = 1; door <= CHAROKTAN_SUBJOBS_MAX / stage_count; ++door)
        doors.push_back({door, 0, 160, {1, 1, 2, 1}});
    const Cores cores = load_cores(std::vector<Set>(CHAROKTAN_SETS_MAX, subjobs_of(doors)));
    std::printf("32 cores of 128 stages: %u accepted\n\n", cores.numbers[0]);
    return cores.kept && cores.numbers[0] == CHAROKTAN_SETS_MAX;
}

// A pointer may be null where no bytes are lent: by no cores, or by a core without doors.
bool without_doors()
{
    const uint32_t length = 0;
    uint32_t number = 77, place = 77;
    return charoktan::room(nullptr, 0, nullptr, 0, nullptr, 0, nullptr, 0, nullptr, 0)
               .all_accepted() &&
           charoktan::room(nullptr, 0, &length, 1, nullptr, 0, &number, 1, &place, 1)
               .all_accepted() &&
           number == 0 && place == 0;
}

} // namespace

Cores load_cores(const std::vector<Set> &sets)
{
    Lent lent = lend(sets);
    const Lent before = lent;
    const charoktan::room_answer answer = one_call(lent);
    const bool large =
        sets.size() > CHAROKTAN_SETS_MAX || lent.subjobs.size() > CHAROKTAN_PLACES_MAX;
    Cores cores = {answer.call().number(), {}, false};
    if (!answer.call().accepted()) {
        cores.kept =
            large && cores.call == charoktan::refusal::too_large && hold_the_same(lent, before);
        return cores;
    }
    cores.kept = !large && hold_the_same(lent, call_by_call(sets));
    if (!cores.kept)
        return cores;
    const std::vector<Moments> deadlines = cut_out(lent);
    for (size_t core = 0; core < sets.size(); ++core) {
        const Set &set = sets[core];
        ++cores.numbers.at(static_cast<size_t>(answer.of(core).number()));
        if (!answer.of(core).accepted())
            continue;
        const Play run = play(set, chains_of(set), deadlines[core], in_full(set));
        cores.kept =
            cores.kept && run.ended == deadlines[core] && run.late + run.unready + run.hitches == 0;
    }
    return cores;
}

bool show_cores()
{
    const bool console = show_console();
    const bool refused = show_refused_calls();
    const bool largest = show_largest();
    return console && refused && largest && without_doors();
}
