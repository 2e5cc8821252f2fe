// Critical times from the job graph of docs/RULES.md, by definition.
#include "graph.hpp"

#include <algorithm>
#include <bitset>

// ---------------------------------------------------------------- refusals 1, 2, 3 and 20

Refused faults(const Graph& graph, std::size_t results) {
    const std::size_t places = graph.execution.size(), arcs = graph.before.size();
    if (results != places || graph.after.size() != arcs || graph.hop.size() != arcs)
        return Refusal{.number = 1};

    if (places > MOST_SUBJOBS || arcs > MOST_ARCS) return Refusal{.number = 2};

    for (std::size_t place = 0; place < places; ++place)
        if (!execution_in_range(graph.execution[place]))
            return Refusal{.number = 3, .place = place, .field = EXECUTION};

    for (std::size_t arc = 0; arc < arcs; ++arc)
        if (graph.hop[arc] > LONGEST_HOP) return Refusal{.number = 3, .place = arc, .field = HOP};

    for (std::size_t arc = 0; arc < arcs; ++arc)
        if (graph.before[arc] >= places || graph.after[arc] >= places)
            return Refusal{.number = 20, .place = arc};

    return {};
}

// ---------------------------------------------------------------- every path

u64 weight(const Graph& graph, const Path& path) {
    u64 sum = 0;
    for (std::size_t arc : path) sum += graph.hop[arc] + graph.execution[graph.after[arc]];
    return sum;
}

static bool been_there(const Graph& graph, const Path& path, std::size_t place) {
    for (std::size_t arc : path)
        if (graph.before[arc] == place) return true;
    return false;
}

// Adds the paths that go on from `path`, which ends at `place`.
static void go_on(const Graph& graph, Path& path, std::size_t place, std::vector<Path>& paths) {
    for (std::size_t arc = 0; arc < graph.before.size(); ++arc) {
        if (graph.before[arc] != place) continue;
        path.push_back(arc);
        paths.push_back(path);
        const std::size_t next = graph.after[arc];
        if (!been_there(graph, path, next)) go_on(graph, path, next, paths);
        path.pop_back();
    }
}

std::vector<Path> paths_from(const Graph& graph, std::size_t start) {
    std::vector<Path> paths;
    Path path;
    go_on(graph, path, start, paths);
    return paths;
}

// If any path comes back to its start, so does one that is twice at no other place: the parts
// between two visits can be left out. That one is looked at.
bool cycle_by_all_paths(const Graph& graph) {
    for (std::size_t start = 0; start < graph.execution.size(); ++start)
        for (const Path& path : paths_from(graph, start))
            if (graph.after[path.back()] == start) return true;
    return false;
}

List critical_by_all_paths(const Graph& graph) {
    List critical;
    for (std::size_t start = 0; start < graph.execution.size(); ++start) {
        u64 greatest = 0;
        for (const Path& path : paths_from(graph, start))
            greatest = std::max(greatest, weight(graph, path));
        critical.push_back(static_cast<u32>(greatest));
    }
    return critical;
}

// ---------------------------------------------------------------- many paths

// Which places a path leads to, from each place (Warshall): after each turn of the outer loop, by
// paths that go through no other places than those looked at so far.
bool cycle_by_closure(const Graph& graph) {
    const std::size_t places = graph.execution.size();
    std::vector<std::bitset<MOST_SUBJOBS>> reaches(places);
    for (std::size_t arc = 0; arc < graph.before.size(); ++arc)
        reaches[graph.before[arc]].set(graph.after[arc]);
    for (std::size_t through = 0; through < places; ++through)
        for (std::size_t from = 0; from < places; ++from)
            if (reaches[from][through]) reaches[from] |= reaches[through];
    for (std::size_t place = 0; place < places; ++place)
        if (reaches[place][place]) return true;
    return false;
}

// A heaviest path is its first arc and a heaviest path from there, if any. Each place's is worked
// out once.
static u32 remembered(const Graph& graph, std::size_t place,
                      std::vector<std::optional<u32>>& memory) {
    if (memory[place]) return *memory[place];
    u32 greatest = 0;
    for (std::size_t arc = 0; arc < graph.before.size(); ++arc) {
        if (graph.before[arc] != place) continue;
        const std::size_t next = graph.after[arc];
        greatest = std::max(
            greatest, graph.hop[arc] + graph.execution[next] + remembered(graph, next, memory));
    }
    memory[place] = greatest;
    return greatest;
}

List critical_by_memory(const Graph& graph) {
    List critical;
    std::vector<std::optional<u32>> memory(graph.execution.size());
    for (std::size_t place = 0; place < memory.size(); ++place)
        critical.push_back(remembered(graph, place, memory));
    return critical;
}

// ---------------------------------------------------------------- the call

Refused critical_times(const Graph& graph, List& results) {
    if (const Refused refused = faults(graph, results.size())) return refused;
    const bool few = graph.before.size() <= FEW_ARCS;
    if (few ? cycle_by_all_paths(graph) : cycle_by_closure(graph)) return Refusal{.number = 21};
    results = few ? critical_by_all_paths(graph) : critical_by_memory(graph);
    return {};
}
