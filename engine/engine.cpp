// A small engine that loads rooms behind doors, as a game would use the library. A player sees a
// door, and some time later opens it; until then the job behind it must have been fetched, its
// pipelines built, its data unpacked and uploaded, all on one core. Before a room is loaded the
// engine asks charoktan for a local deadline per stage; then it serves, in each tick, the waiting
// stage whose deadline comes first. A door that opens before its upload has ended is a hitch.
// play.cpp is the core, graph.cpp the rooms whose stages fork and join, room.cpp those that are
// loaded by several cores.
//
// A stage is a sub-job: it is released when the stages before it can have ended at the earliest,
// and its critical time is what the stages after it may take. How long it really takes is rolled;
// it is cut off at its execution time. The dice are seeded: every run prints the same text.

#include "dice.h"
#include "graph.h"
#include "room.h"

#include <algorithm>
#include <cstdio>

namespace {

// The error that looks right: a door's time shared among its stages by their lengths, blind to the
// other doors.
Moments shared_by_length(const Room &room)
{
    Moments moments;
    for (const Door &door : room) {
        uint32_t whole = 0;
        uint32_t done = 0;
        for (uint32_t longest : door.longest)
            whole += longest;
        for (uint32_t longest : door.longest) {
            done += longest;
            moments.push_back(door.seen + (door.opened - door.seen) * done / whole);
        }
    }
    return moments;
}

// Rolled lengths: some stages are quick, some would take longer than they may and are cut off.
Moments rolled(Dice &dice, const Set &set, uint32_t &cut)
{
    Moments taken;
    for (const charoktan::subjob &subjob : set) {
        const uint32_t length = dice.roll(1, subjob.execution + subjob.execution / 4 + 1);
        cut += length > subjob.execution;
        taken.push_back(std::min(length, subjob.execution));
    }
    return taken;
}

// One room from its doors to its last upload. True if it went as promised.
bool show_room(Dice &dice)
{
    const Room room = {
        {1, 0, 30, {6, 4, 5, 3}}, {2, 4, 18, {3, 2, 5, 2}}, {3, 10, 43, {2, 3, 2, 4}}};
    const Set set = subjobs_of(room);
    const Arcs arcs = chains_of(set);
    Moments deadlines(set.size());
    const charoktan::answer answer = charoktan::assign(set, deadlines);
    print_answer("a room of three doors", set, answer);
    if (!answer.accepted())
        return false;
    uint32_t cut = 0;
    const Moments taken = rolled(dice, set, cut);
    const Play run = play(set, arcs, deadlines, taken);
    print_run(set, deadlines, taken, run);

    const Play longest = play(set, arcs, deadlines, in_full(set));
    std::printf("  with every stage at its longest: %u late stages, %u hitches, every end %s its "
                "deadline\n",
                longest.late, longest.hitches, longest.ended == deadlines ? "on" : "NOT on");

    const Moments shared = shared_by_length(room);
    print_answer("the same room, each door's time shared by length", set,
                 charoktan::check(set, shared));
    const Play blind = play(set, arcs, shared, in_full(set));
    std::printf("  with every stage at its longest: %u late stages, %u hitches\n\n", blind.late,
                blind.hitches);
    const bool kept = run.late + run.hitches + run.unready + longest.late + longest.hitches == 0;
    return kept && longest.ended == deadlines && charoktan::check(set, deadlines).accepted();
}

// Sets that are refused, each with its reason; the deadlines lent to the door stay as they were.
bool show_refusals()
{
    const Room room = {{1, 0, 40, {6, 4, 5, 3}}, {2, 4, 30, {3, 2, 5, 2}}};
    const Set good = subjobs_of(room);
    bool kept = true;
    const auto show = [&kept](const char *what, const Set &set, size_t deadlines_count,
                              charoktan::refusal number, uint32_t place) {
        Moments deadlines(deadlines_count, 77);
        const charoktan::answer answer = charoktan::assign(set, deadlines);
        print_answer(what, set, answer);
        kept = kept && answer.number() == number && answer.place() == place &&
               deadlines == Moments(deadlines_count, 77);
    };
    Set set = good;
    show("a deadline too few", good, good.size() - 1, charoktan::refusal::lengths, 0);
    Room many;
    for (uint32_t door = 1; door <= 33; ++door)
        many.push_back({door, 0, 10000, {1, 1, 1, 1}});
    const Set too_many = subjobs_of(many);
    show("a room of 33 doors", too_many, too_many.size(), charoktan::refusal::too_many, 0);
    set[5].execution = 0;
    show("a stage without length", set, set.size(), charoktan::refusal::field, 5);
    set = good;
    set[6].job = set[2].job;
    show("a stage that is there twice", set, set.size(), charoktan::refusal::pair, 6);
    set =
        subjobs_of({{1, 0, 40, {6, 4, 5, 3}}, {2, 4, 18, {3, 2, 5, 2}}, {3, 5, 19, {3, 1, 2, 2}}});
    show("a room with three doors too close", set, set.size(), charoktan::refusal::late, 11);

    std::printf("what was lent for the deadlines of the refused stayed %s\n\n",
                kept ? "as it was" : "NOT as it was");
    return kept;
}

// A pointer may be null where no bytes are lent.
bool show_nothing()
{
    const Set set = subjobs_of({{1, 0, 40, {6, 4, 5, 3}}});
    Moments deadlines(set.size());
    const charoktan::answer none = charoktan::assign(nullptr, 0, nullptr, 0);
    const charoktan::answer no_deadlines = charoktan::assign(set.data(), set.size(), nullptr, 0);
    const charoktan::answer no_doors = charoktan::assign(nullptr, 0, deadlines.data(), 4);
    print_answer("a room without doors", {}, none);
    print_answer("no deadlines at all", set, no_deadlines);
    print_answer("deadlines without doors", {}, no_doors);
    std::printf("\n");
    return none.accepted() && no_deadlines.number() == charoktan::refusal::lengths &&
           no_doors.number() == charoktan::refusal::lengths &&
           charoktan::check(nullptr, 0, nullptr, 0).accepted() &&
           !charoktan::check(set.data(), set.size(), nullptr, 0).accepted() &&
           !charoktan::check(nullptr, 0, deadlines.data(), 4).accepted();
}

// Another build of a room writes its folders in another order, here the other way round. Each stage
// keeps its deadline, or the refusal names the same stage.
bool same_in_another_build(const Set &set, charoktan::answer answer, const Moments &deadlines)
{
    const Set turned(set.rbegin(), set.rend());
    Moments again(set.size());
    const charoktan::answer other = charoktan::assign(turned, again);
    if (answer.accepted())
        return other.accepted() && std::equal(again.rbegin(), again.rend(), deadlines.begin());
    return other.number() == answer.number() && other.place() == set.size() - 1 - answer.place();
}

// Two doors that are alike but for their numbers, so that their stages have equal bounds.
bool show_two_builds()
{
    const Set set = subjobs_of({{1, 0, 50, {6, 4, 5, 3}}, {2, 0, 50, {6, 4, 5, 3}}});
    Moments deadlines(set.size());
    const charoktan::answer answer = charoktan::assign(set, deadlines);
    const bool same = same_in_another_build(set, answer, deadlines);
    std::printf("two doors alike, in two builds of their room: %s deadlines\n\n",
                same ? "the same" : "NOT the same");
    return answer.accepted() && same;
}

Room random_room(Dice &dice)
{
    Room room(dice.roll(1, 32));
    const uint32_t doors = static_cast<uint32_t>(room.size());
    const uint32_t span = dice.roll(1, 160) * doors;
    uint32_t number = 0;
    for (Door &door : room) {
        door.number = ++number;
        door.seen = dice.roll(0, span);
        door.opened = door.seen + dice.roll(40, 400 + 40 * doors);
        for (uint32_t &longest : door.longest)
            longest = dice.roll(1, 20);
    }
    return room;
}

// A long play: rooms by the dice, each loaded if it is accepted. The critical times that the
// library finds from a room's chains are those that subjobs_of adds up.
bool play_rooms(Dice &dice, uint32_t rooms)
{
    uint32_t accepted = 0, late = 0, unready = 0, hitches = 0, cut = 0;
    uint64_t stages = 0, ticks = 0;
    bool kept = true;
    for (uint32_t k = 0; k < rooms; ++k) {
        const Set set = subjobs_of(random_room(dice));
        const Arcs arcs = chains_of(set);
        Moments deadlines(set.size(), 0);
        const charoktan::answer answer = charoktan::assign(set, deadlines);
        kept = kept && found_as_typed(set, arcs) && same_in_another_build(set, answer, deadlines);
        if (!answer.accepted()) {
            kept = kept && answer.number() == charoktan::refusal::late;
            continue;
        }
        ++accepted;
        stages += set.size();
        const Play run = play(set, arcs, deadlines, rolled(dice, set, cut));
        ticks += run.ticks;
        late += run.late;
        unready += run.unready;
        hitches += run.hitches;
        kept = kept && charoktan::check(set, deadlines).accepted() &&
               play(set, arcs, deadlines, in_full(set)).ended == deadlines;
    }
    std::printf("%u rooms: %u accepted, %u refused by number 5\n", rooms, accepted,
                rooms - accepted);
    std::printf("the accepted: %llu stages (%u cut off) in %llu ticks, %u late, %u before their "
                "forerunner, %u hitches\n",
                static_cast<unsigned long long>(stages), cut,
                static_cast<unsigned long long>(ticks), late, unready, hitches);
    return kept && late + unready + hitches == 0;
}

// And rooms whose stages fork and join, their critical times found from their graphs.
bool play_forked(Dice &dice, uint32_t rooms)
{
    uint32_t accepted = 0, broken = 0;
    for (uint32_t k = 0; k < rooms; ++k) {
        const Forked forked = load_forked(random_room(dice));
        accepted += forked.accepted;
        broken += !forked.kept;
    }
    std::printf("%u rooms that fork and join: %u accepted, %u not as promised\n", rooms, accepted,
                broken);
    return broken == 0;
}

// The set of one core of a rolled room. Some have nothing to do, some are refused whatever their
// doors are.
Set random_set(Dice &dice)
{
    Set set = subjobs_of(random_room(dice));
    const uint32_t place = dice.roll(1, static_cast<uint32_t>(set.size()) - 1);
    switch (dice.roll(1, 12)) {
    case 1: return {};
    case 2: set.resize(dice.roll(CHAROKTAN_SUBJOBS_MAX + 1, 160), set[place]); break; // number 2
    case 3: set[place].execution = 0; break;                                          // number 3
    case 4: set[place] = set[0]; break;                                               // number 4
    }
    return set;
}

// And rooms of several cores, each assigned with one call.
bool play_cores(Dice &dice, uint32_t rooms)
{
    uint32_t large = 0, broken = 0;
    std::array<uint32_t, 6> numbers = {};
    for (uint32_t k = 0; k < rooms; ++k) {
        std::vector<Set> sets(dice.roll(0, CHAROKTAN_SETS_MAX + 2));
        for (Set &set : sets)
            set = random_set(dice);
        const Cores cores = load_cores(sets);
        large += cores.call == charoktan::refusal::too_large;
        broken += !cores.kept;
        for (size_t number = 0; number < numbers.size(); ++number)
            numbers[number] += cores.numbers[number];
    }
    std::printf("%u rooms of several cores, one call each: %u refused by number 22, %u not as "
                "promised\n",
                rooms, large, broken);
    std::printf("their cores: %u accepted; refused: %u by number 2, %u by 3, %u by 4, %u by 5\n",
                numbers[0], numbers[2], numbers[3], numbers[4], numbers[5]);
    return broken == 0;
}

} // namespace

int main()
{
    Dice dice(1);
    const bool room = show_room(dice);
    const bool refusals = show_refusals();
    const bool nothing = show_nothing();
    const bool builds = show_two_builds();
    const bool graphs = show_graphs();
    const bool cores = show_cores();
    const bool rooms = play_rooms(dice, 2000);
    const bool forked = play_forked(dice, 500);
    const bool many = play_cores(dice, 100);
    const bool kept =
        room && refusals && nothing && builds && graphs && cores && rooms && forked && many;
    std::printf("%s\n", kept ? "every promise was kept" : "A PROMISE WAS BROKEN");
    return kept ? 0 : 1;
}
