// A room on three cores from C++, with one call: each core's deadlines, or why not. The gate runs
// it.
//   c++ -std=c++17 -Iinclude examples/cores.cpp target/staticlib/libcharoktan.a
#include "charoktan.h"

#include <cstdint>
#include <cstdio>
#include <vector>

int main()
{
    // job, subtask, release, execution, deadline, critical: one core's stages after another's
    const std::vector<charoktan::subjob> room = {
        {1, 1, 0, 20, 360, 0}, {1, 1, 0, 40, 90, 0}, {2, 1, 10, 60, 90, 0}, {2, 1, 10, 25, 380, 0}};
    std::vector<std::uint32_t> lengths = {1, 2, 1}; // how many stages each core has
    std::vector<std::uint32_t> deadlines(room.size()), numbers(3), places(3);

    for (int turn = 0; turn < 2; ++turn) {
        const charoktan::room_answer answer =
            charoktan::room(room, lengths, deadlines, numbers, places);
        for (std::size_t core = 0, at = 0; core < lengths.size(); at += lengths[core++])
            if (const charoktan::answer own = answer.of(core); !own.accepted())
                std::printf("core %zu: refused by number %u at place %u: %s\n", core,
                            static_cast<unsigned>(own.number()), own.place(), own.text());
            else
                for (std::size_t i = at; i < at + lengths[core]; ++i)
                    std::printf("core %zu: door %u, stage %u: done by tick %u\n", core, room[i].job,
                                room[i].subtask, deadlines[i]);
        lengths[2] = 2; // and once more with a stage that is not there
    }
}
