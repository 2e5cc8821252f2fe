// A room of two doors from C++: a deadline for each stage, or why not. The gate runs it.
//   c++ -std=c++17 -Iinclude examples/room.cpp target/staticlib/libcharoktan.a
#include "charoktan.h"

#include <cstdint>
#include <cstdio>
#include <vector>

int main()
{
    // job, subtask, release, execution, deadline, critical: two stages each of doors 1 and 2
    std::vector<charoktan::subjob> room = {{1, 1, 0, 20, 360, 30},
                                           {1, 2, 90, 30, 360, 0},
                                           {2, 1, 10, 25, 380, 20},
                                           {2, 2, 100, 20, 380, 0}};
    std::vector<std::uint32_t> deadlines(room.size());

    for (int turn = 0; turn < 2; ++turn) {
        const charoktan::answer answer = charoktan::assign(room, deadlines);
        if (answer.accepted())
            for (std::size_t i = 0; i < room.size(); ++i)
                std::printf("door %u, stage %u: done by tick %u\n", room[i].job, room[i].subtask,
                            deadlines[i]);
        else
            std::printf("refused by number %u at place %u: %s\n",
                        static_cast<unsigned>(answer.number()), answer.place(), answer.text());
        room[3].deadline = 119; // and once more with door 2 open too soon
    }
}
