// Sets made with dice. Those to be counted are all as a game has them; those to be compared have
// small numbers, so that ties and every refusal occur.

#include "sets.h"

#include "baseline.h"
#include "charoktan.h"

#include <cstdlib>

namespace {

using measure::bytes_of;
using Set = std::vector<charoktan_subjob>;

// A set as a game has it: jobs of four stages in no order, on a core that is loaded from half to
// twice over while they are released. Bounds are near the releases at first; they are moved later
// until the set is accepted. Then its deadlines are the assigned ones.
Set accepted_set(Dice &dice, uint32_t size, std::vector<uint32_t> &deadlines)
{
    Set set(size);
    uint32_t sum = 0;
    uint32_t index = 0;
    for (charoktan_subjob &s : set) {
        s = {1000 + index / 4, index % 4, 0, dice.roll(1, 100), 0, dice.roll(0, 200)};
        sum += s.execution;
        ++index;
    }
    const uint32_t span = sum * dice.roll(1, 4) / 2;
    for (charoktan_subjob &s : set) {
        s.release = dice.roll(0, span);
        s.deadline = s.release + s.execution + s.critical + dice.roll(0, sum / 4);
    }
    measure::shuffle(dice, set);
    measure::Bytes assigned(size * 4);
    for (;;) {
        const measure::Bytes records = bytes_of(set);
        if (baseline::assign_one_pass(records.data(), records.size(), assigned.data(),
                                      assigned.size()) == 0)
            break;
        for (charoktan_subjob &s : set)
            s.deadline += sum / 16 + 1;
    }
    deadlines.resize(size);
    if (size > 0)
        std::memcpy(deadlines.data(), assigned.data(), assigned.size());
    return set;
}

void same_pair(charoktan_subjob &later, const charoktan_subjob &earlier)
{
    later.job = earlier.job;
    later.subtask = earlier.subtask;
}

} // namespace

sets::Lent sets::accepted(Dice &dice, uint32_t size)
{
    std::vector<uint32_t> deadlines;
    const Set set = accepted_set(dice, size, deadlines);
    return {bytes_of(set), bytes_of(deadlines)};
}

// The kinds but the first are refused as late as they can be in what their number judges (`late`:
// at the first step), which tells where the instructions go.
std::vector<sets::Lent> sets::of(std::string_view kind, uint32_t size)
{
    Dice dice(size);
    std::vector<Lent> sets(32);
    for (Lent &lent : sets) {
        std::vector<uint32_t> deadlines;
        Set set = accepted_set(dice, size, deadlines);
        if (kind == "field")
            set.back().critical = 1000000001;
        else if (kind == "pair")
            same_pair(set[size - 1], set[size - 2]);
        else if (kind == "late")
            for (charoktan_subjob &s : set)
                s.deadline = 0;
        else if (kind == "outside")
            deadlines.back() = 0;
        else if (kind != "accepted")
            std::exit(2);
        lent = {bytes_of(set), bytes_of(deadlines)};
    }
    return sets;
}

sets::Lent sets::any(Dice &dice)
{
    return any(dice, dice.roll(0, 99) == 0 ? dice.roll(100, 130) : dice.roll(0, 10));
}

sets::Lent sets::any(Dice &dice, uint32_t size)
{
    const uint32_t start = dice.roll(0, 9) == 0 ? 999999990 : 0; // some at the end of the range
    const uint32_t span = start == 0 ? dice.roll(0, 3) * size * 3 : 10;
    const uint32_t room = dice.roll(1, 6) * (size + 4);
    Set set(size);
    std::vector<uint32_t> deadlines(size);
    for (uint32_t i = 0; i < size; ++i) {
        charoktan_subjob &s = set[i];
        const uint32_t job = dice.roll(0, 39) == 0 ? i / 2 : i;
        const uint32_t slack = dice.roll(0, room);
        const uint32_t over = dice.roll(0, 29) == 0 ? 1 : 0;
        s.job = size - job;
        s.subtask = dice.roll(0, 1);
        s.release = start + dice.roll(0, span);
        s.execution = dice.roll(1, 6);
        s.critical = dice.roll(0, 5);
        s.deadline = s.release + s.execution + slack + (dice.roll(0, 49) == 0 ? 0 : s.critical);
        deadlines[i] = s.release + s.execution + over + dice.roll(0, slack);
        if (dice.roll(0, 199) == 0)
            (dice.roll(0, 1) == 0 ? s.execution : s.release) = dice.roll(0, 1) * 1000000001;
    }
    return {bytes_of(set), bytes_of(deadlines)};
}
