// What the engine's rooms are made of, and the core that serves them tick by tick.
#pragma once

#include "charoktan.h"

#include <array>
#include <string>
#include <vector>

constexpr uint32_t stage_count = 4;
constexpr std::array<const char *, stage_count> stage_names = {"fetch", "pipeline build", "unpack",
                                                               "upload"};

// A length or a critical time for each of a door's stages.
using Stages = std::array<uint32_t, stage_count>;

struct Door {
    uint32_t number;
    uint32_t seen;   // the moment from which its job may be served
    uint32_t opened; // the moment at which it must be there
    Stages longest;
};

using Room = std::vector<Door>;
using Set = std::vector<charoktan::subjob>;
using Arcs = std::vector<charoktan::arc>; // between places of a set
using Moments = std::vector<uint32_t>;

// A room's stages as the library's sub-jobs, four places per door.
Set subjobs_of(const Room &room);

// What a run of the core came to.
struct Play {
    Moments ended;
    uint32_t ticks = 0;
    uint32_t late = 0;    // stages that ended after their local deadline
    uint32_t unready = 0; // ticks served to a stage of which a forerunner had not ended
    uint32_t hitches = 0; // doors that opened before their upload had ended
};

// The core, tick by tick: stages join the queue at their release and leave it when they have taken
// what they take. The arcs do not hold a stage back; they tell when it was served too early.
Play play(const Set &set, const Arcs &arcs, const Moments &deadlines, const Moments &taken);

// Every stage at its longest.
Moments in_full(const Set &set);

// An answer in a line, for a set with the stage that its place names.
void print_answer(const char *what, charoktan::answer answer, const std::string &where);
void print_answer(const char *what, const Set &set, charoktan::answer answer);
void print_run(const Set &set, const Moments &deadlines, const Moments &taken, const Play &run);
