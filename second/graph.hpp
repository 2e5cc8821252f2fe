// Critical times from the job graph, as docs/RULES.md says them: every path is looked at. Graphs
// with too many paths for that are answered in another way, which self_graphs.cpp holds to the
// first.
#pragma once

#include "rules.hpp"

// A job's sub-jobs, one execution per place, and arcs "this before that" by place, each with a hop
// delay. The lists of a damaged graph's arcs differ in length.
struct Graph {
    List execution;
    List before, after, hop;
};

constexpr std::size_t MOST_ARCS = 1024;
constexpr u32 LONGEST_HOP = 100'000;

// Numbers 1, 2, 3 and 20.
Refused faults(const Graph& graph, std::size_t results);

// Some arcs by their index, each from the place to which the one before it goes; at least one.
using Path = std::vector<std::size_t>;

// The hop delays of its arcs, and the executions of all its places but the first.
u64 weight(const Graph& graph, const Path& path);

// Every path from a place. One that is at some place for the second time is among them, but not the
// longer ones that go on from there: they would never end.
std::vector<Path> paths_from(const Graph& graph, std::size_t start);

// Whether some path comes back to its start. If none does, the second gives each place's greatest
// weight of a path from there, 0 if there is no path.
bool cycle_by_all_paths(const Graph& graph);
List critical_by_all_paths(const Graph& graph);

// The same, for graphs with many paths.
bool cycle_by_closure(const Graph& graph);
List critical_by_memory(const Graph& graph);

// All paths are looked at up to this many arcs.
constexpr std::size_t FEW_ARCS = 16;

// The call: the results are written if nothing is refused.
Refused critical_times(const Graph& graph, List& results);

// "The engine's door": executions and results 4 bytes each, arcs 12.
u32 door_critical(const Bytes& executions, const Bytes& arcs, Bytes& results);
Graph decode_graph(const Bytes& executions, const Bytes& arcs);
Bytes encode_arcs(const Graph& graph);
