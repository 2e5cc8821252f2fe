// The program that is measured: the library and the baselines on the same random sets, graphs and
// rooms.
//
//   bench agree                             all of them answer alike, to the byte
//   bench calls PROGRAM KIND SIZE ROUNDS    ROUNDS calls of PROGRAM on each of 32 sets or graphs
//                                           of SIZE sub-jobs, or on rooms of such sets
//   bench stack                             the stack that one call takes, at most, in bytes
//   bench times KIND SIZE                   nanoseconds per room of such sets, at least, of each
//                                           program for rooms
//
// A run of `calls` with 0 rounds makes the same sets and calls nothing, so the difference of two
// runs is the calls alone. The dice are seeded: every run makes the same sets. Calls on one set are
// here, graphs in graphs.cpp, rooms in rooms.cpp.

#include "baseline.h"
#include "charoktan.h"
#include "graphs.h"
#include "measure.h"
#include "rooms.h"
#include "sets.h"

#include <cstdlib>

namespace {

using measure::alike, measure::no_such_program;
using sets::Lent;

using Assign = uint32_t (*)(const uint8_t *, size_t, uint8_t *, size_t);
using Check = uint32_t (*)(const uint8_t *, size_t, const uint8_t *, size_t);

// An assignment or a checker, under its name.
struct Program {
    const char *name;
    Assign assign;
    Check check;

    [[gnu::always_inline]] uint32_t operator()(Lent &lent) const
    {
        const auto run = [&lent](auto *door) {
            return door(lent.records.data(), lent.records.size(), lent.deadlines.data(),
                        lent.deadlines.size());
        };
        return assign != nullptr ? run(assign) : run(check);
    }
};

constexpr Program programs[] = {
    {"charoktan_assign", charoktan_assign, nullptr},
    {"assign_paper", baseline::assign_paper, nullptr},
    {"assign_one_pass", baseline::assign_one_pass, nullptr},
    {"charoktan_check", nullptr, charoktan_check},
    {"check_events", nullptr, baseline::check_events},
};
constexpr const Program &library_assign = programs[0];
constexpr const Program &paper = programs[1];
constexpr const Program &one_pass = programs[2];
constexpr const Program &library_check = programs[3];
constexpr const Program &events = programs[4];

// A set of any kind, some lengths damaged.
Lent any_set(Dice &dice)
{
    Lent lent = sets::any(dice);
    if (dice.roll(0, 49) == 0)
        lent.records.resize(dice.roll(0, 100));
    if (dice.roll(0, 49) == 0)
        lent.deadlines.resize(dice.roll(0, 24));
    return lent;
}

int agree()
{
    Dice dice(7);
    uint32_t assigns[8] = {};
    uint32_t checks[8] = {};
    const auto next_is_alike = [&] {
        Lent lent = any_set(dice);
        uint32_t assigned = 0;
        uint32_t checked = 0;
        bool same = alike(library_assign, paper, lent, assigned) &&
                    alike(library_assign, one_pass, lent, assigned);
        if (assigned == 0 && dice.roll(0, 3) == 0)
            same = same && library_assign(lent) == 0; // what was assigned is checked
        same = same && alike(library_check, events, lent, checked);
        ++assigns[charoktan_number(assigned) % 8];
        ++checks[charoktan_number(checked) % 8];
        return same;
    };
    if (!measure::agree(next_is_alike))
        return 1;
    measure::print(library_assign.name, "0 to 7", assigns);
    measure::print(library_check.name, "0 to 7", checks);
    const int status = graphs::agree();
    return status != 0 ? status : rooms::agree();
}

int calls(std::string_view name, std::string_view kind, uint32_t size, uint32_t rounds)
{
    if (const Program *program = measure::named(programs, name))
        return measure::calls(*program, sets::of(kind, size), rounds);
    const int status = graphs::calls(name, kind, size, rounds);
    return status != no_such_program ? status : rooms::calls(name, kind, size, rounds);
}

int stack()
{
    for (const Program &program : programs) {
        size_t most = 0;
        for (const char *kind : {"accepted", "field", "pair", "late", "outside"})
            most = std::max(most, measure::depth(program, sets::of(kind, 128)));
        std::printf("%s %zu\n", program.name, most);
    }
    const int status = graphs::stack();
    return status != 0 ? status : rooms::stack();
}

} // namespace

int main(int count, char **words)
{
    const std::string_view mode = count > 1 ? words[1] : "";
    if (mode == "agree" && count == 2)
        return agree();
    if (mode == "stack" && count == 2)
        return stack();
    if (mode == "times" && count == 4)
        return rooms::times(words[2], static_cast<uint32_t>(std::atoi(words[3])));
    if (mode == "calls" && count == 6)
        return calls(words[2], words[3], static_cast<uint32_t>(std::atoi(words[4])),
                     static_cast<uint32_t>(std::atoi(words[5])));
    return 2;
}
