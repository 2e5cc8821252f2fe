// Rooms whose critical times come from the graphs of their doors' jobs. After its fetch a door's
// pipelines are built and its data is unpacked, in either order; the upload waits for both. It is
// not the core's: the graphics card does it, beside the core, once all has come over, a hop delay
// after each stage has ended. So what a stage must leave time for is the longest way from it to the
// end of the upload, and that is the critical time which charoktan::critical finds.
#include "graph.h"

#include <algorithm>
#include <cstdio>

namespace {

constexpr uint32_t upload = stage_count - 1; // the stages before it are the core's

// Before, after, hop. On the core a stage can follow at once; there are hops only to the card.
constexpr std::array<charoktan::arc, 4> loading = {{{0, 1, 0}, {0, 2, 0}, {1, 3, 1}, {2, 3, 3}}};

// The critical times of each door's stages.
std::vector<Stages> found(const Room &room, bool &kept)
{
    std::vector<Stages> critical(room.size());
    for (size_t door = 0; door < room.size(); ++door)
        kept = charoktan::critical(room[door].longest, loading, critical[door]).accepted() && kept;
    return critical;
}

// The core's stages as the library's sub-jobs, three places per door.
Set subjobs_of(const Room &room, const std::vector<Stages> &critical)
{
    Set set;
    for (size_t at = 0; at < room.size(); ++at)
        for (uint32_t stage = 0; stage < upload; ++stage) {
            const Door &door = room[at];
            const uint32_t release = door.seen + (stage == 0 ? 0 : door.longest[0]);
            set.push_back({door.number, stage, release, door.longest[stage], door.opened,
                           critical[at][stage]});
        }
    return set;
}

// What the core and the graphics card make of a set.
struct Loaded {
    charoktan::answer answer;
    Moments deadlines;
    Play run;
    Moments uploaded; // the moment per door at which its upload has ended
};

Loaded load(const Room &room, const Set &set)
{
    Moments deadlines(set.size());
    const charoktan::answer answer = charoktan::assign(set, deadlines);
    Loaded loaded = {answer, deadlines, {}, {}};
    if (!answer.accepted())
        return loaded;
    Arcs arcs; // of the core
    for (uint32_t at = 0; at < set.size(); at += upload)
        for (const charoktan::arc &arc : loading)
            if (arc.after != upload)
                arcs.push_back({at + arc.before, at + arc.after, arc.hop});
    loaded.run = play(set, arcs, deadlines, in_full(set));
    for (size_t at = 0; at < room.size(); ++at) {
        uint32_t come_over = 0;
        for (const charoktan::arc &arc : loading)
            if (arc.after == upload)
                come_over =
                    std::max(come_over, loaded.run.ended[at * upload + arc.before] + arc.hop);
        loaded.uploaded.push_back(come_over + room[at].longest[upload]);
        loaded.run.hitches += loaded.uploaded[at] > room[at].opened;
    }
    return loaded;
}

// Every stage ended on its deadline, none began before its forerunner had ended, no door opened
// before its upload had ended.
bool as_promised(const Set &set, const Loaded &loaded)
{
    return loaded.answer.accepted() && loaded.run.unready + loaded.run.hitches == 0 &&
           loaded.run.ended == loaded.deadlines &&
           charoktan::check(set, loaded.deadlines).accepted();
}

void print_uploads(const Room &room, const Loaded &loaded)
{
    for (size_t at = 0; at < loaded.uploaded.size(); ++at)
        std::printf("  door %u opens at %u, its upload ends at %u%s\n", room[at].number,
                    room[at].opened, loaded.uploaded[at],
                    loaded.uploaded[at] > room[at].opened ? ": a hitch" : "");
}

// The designer typed the critical times when door 1's upload took 2 ticks. It takes 8 now, and
// nobody has thought of them.
bool show_forgotten()
{
    const Room room = {{1, 0, 26, {4, 3, 5, 8}}, {2, 2, 24, {3, 4, 2, 2}}};
    Room once = room;
    once[0].longest[upload] = 2;
    bool kept = true;
    const std::vector<Stages> now = found(room, kept), typed = found(once, kept);
    std::printf("two doors that fork and join, and critical times typed when door 1's upload took "
                "2 ticks\n  door  stage           longest  typed  found\n");
    for (size_t at = 0; at < room.size(); ++at)
        for (uint32_t stage = 0; stage < stage_count; ++stage)
            std::printf("  %4u  %-14s  %7u  %5u  %5u\n", room[at].number, stage_names[stage],
                        room[at].longest[stage], typed[at][stage], now[at][stage]);

    const Set set = subjobs_of(room, now);
    const Loaded right = load(room, set);
    print_answer("their room with the times found", set, right.answer);
    print_run(set, right.deadlines, in_full(set), right.run);
    print_uploads(room, right);

    const Set forgotten = subjobs_of(room, typed);
    const Loaded wrong = load(room, forgotten);
    print_answer("their room with the times typed", forgotten, wrong.answer);
    std::printf("  with every stage at its longest: %u late stages, %u hitches\n", wrong.run.late,
                wrong.run.hitches);
    print_uploads(room, wrong);
    const charoktan::answer judged = charoktan::check(set, wrong.deadlines);
    print_answer("its deadlines, judged by the times found", set, judged);
    std::printf("\n");
    return kept && as_promised(set, right) && wrong.answer.accepted() && wrong.run.late == 0 &&
           wrong.run.hitches == 1 && judged.number() == charoktan::refusal::outside;
}

// What the place of a refusal is the place of. Number 3 is a hop's if no execution is wrong there.
std::string where(const Moments &executions, charoktan::answer answer)
{
    const uint32_t place = answer.place();
    if (answer.number() == charoktan::refusal::stray)
        return " (an arc)";
    if (answer.number() != charoktan::refusal::field)
        return "";
    const bool stage =
        place < executions.size() && (executions[place] < 1 || executions[place] > 1000000);
    return stage ? std::string(" (") + stage_names[place] + ")" : " (an arc)";
}

// Graphs that are refused, each with its reason; the results lent to the door stay as they were.
bool show_refused_graphs()
{
    const Moments lengths = {4, 3, 5, 8};
    const Arcs good(loading.begin(), loading.end());
    bool kept = true;
    const auto show = [&kept](const char *what, const Moments &executions, const Arcs &arcs,
                              size_t count, charoktan::refusal number, uint32_t place) {
        Moments results(count, 77);
        const charoktan::answer answer = charoktan::critical(executions, arcs, results);
        print_answer(what, answer, where(executions, answer));
        kept = kept && answer.number() == number && answer.place() == place &&
               results == Moments(count, 77);
    };
    show("a critical time too few", lengths, good, 3, charoktan::refusal::lengths, 0);
    show("1,025 arcs", lengths, Arcs(CHAROKTAN_ARCS_MAX + 1, good[0]), 4,
         charoktan::refusal::too_many, 0);
    show("a stage without length", {4, 3, 0, 8}, good, 4, charoktan::refusal::field, 2);
    Arcs arcs = good;
    arcs[2].hop = 100001;
    show("a hop too long", lengths, arcs, 4, charoktan::refusal::field, 2);
    arcs = good;
    arcs[1].after = 4;
    show("an arc to a fifth stage", lengths, arcs, 4, charoktan::refusal::stray, 1);
    arcs = good;
    arcs.push_back({3, 0, 0});
    show("a fetch that waits for its upload", lengths, arcs, 4, charoktan::refusal::cycle, 0);
    std::printf("what was lent for the critical times of the refused stayed %s\n\n",
                kept ? "as it was" : "NOT as it was");
    return kept;
}

// A pointer may be null where no bytes are lent.
bool without_arcs()
{
    Stages critical = {77, 77, 77, 77};
    const Stages lengths = {4, 3, 5, 8};
    return charoktan::critical(nullptr, 0, nullptr, 0, nullptr, 0).accepted() &&
           charoktan::critical(nullptr, 0, loading.data(), 1, nullptr, 0).number() ==
               charoktan::refusal::stray &&
           charoktan::critical(lengths.data(), 4, nullptr, 0, critical.data(), 4).accepted() &&
           critical == Stages{};
}

} // namespace

Arcs chains_of(const Set &set)
{
    Arcs arcs;
    for (uint32_t place = 0; place < set.size(); ++place)
        if (set[place].subtask > 0)
            arcs.push_back({place - 1, place, 0});
    return arcs;
}

bool found_as_typed(const Set &set, const Arcs &arcs)
{
    Moments typed, results(set.size());
    for (const charoktan::subjob &subjob : set)
        typed.push_back(subjob.critical);
    return charoktan::critical(in_full(set), arcs, results).accepted() && results == typed;
}

Forked load_forked(const Room &room)
{
    bool kept = true;
    const Set set = subjobs_of(room, found(room, kept));
    const Loaded loaded = load(room, set);
    const bool accepted = loaded.answer.accepted();
    return {accepted, kept && (accepted ? as_promised(set, loaded)
                                        : loaded.answer.number() == charoktan::refusal::late)};
}

bool show_graphs()
{
    const bool forgotten = show_forgotten();
    const bool refused = show_refused_graphs();
    return forgotten && refused && without_arcs();
}
