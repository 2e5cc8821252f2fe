// A door whose stages fork and join, from C++: its critical times are found from its graph, and
// then its deadlines. The gate runs it.
//   c++ -std=c++17 -Iinclude examples/graph.cpp target/staticlib/libcharoktan.a
#include "charoktan.h"

#include <cstdint>
#include <cstdio>
#include <vector>

int main()
{
    // fetch, pipeline build, unpack, upload: nobody types their critical times, the last field
    std::vector<charoktan::subjob> door = {{1, 1, 0, 20, 360, 0},
                                           {1, 2, 20, 30, 360, 0},
                                           {1, 3, 20, 15, 360, 0},
                                           {1, 4, 70, 10, 360, 0}};
    // before, after, hop: build and unpack follow the fetch, and the upload both of them
    std::vector<charoktan::arc> arcs = {{0, 1, 0}, {0, 2, 0}, {1, 3, 5}, {2, 3, 0}};
    std::vector<std::uint32_t> executions, critical(door.size()), deadlines(door.size());
    for (const charoktan::subjob &stage : door)
        executions.push_back(stage.execution);

    for (int turn = 0; turn < 2; ++turn) {
        charoktan::answer answer = charoktan::critical(executions, arcs, critical);
        if (answer.accepted()) {
            for (std::size_t i = 0; i < door.size(); ++i)
                door[i].critical = critical[i];
            answer = charoktan::assign(door, deadlines);
        }
        for (std::size_t i = 0; answer.accepted() && i < door.size(); ++i)
            std::printf("stage %u: critical time %u, done by tick %u\n", door[i].subtask,
                        door[i].critical, deadlines[i]);
        if (!answer.accepted())
            std::printf("refused by number %u at place %u: %s\n",
                        static_cast<unsigned>(answer.number()), answer.place(), answer.text());
        arcs.push_back({3, 0, 0}); // and once more with a fetch that waits for the upload
    }
}
