// The second program's checks of its critical times: some worked by hand, the two ways to find them
// against each other, and what is promised of them.
#include "graphs.hpp"
#include "self.hpp"

#include <algorithm>
#include <iostream>

// ---------------------------------------------------------------- worked by hand

static void expect_found(const std::string& name, const Graph& graph, const List& critical) {
    List results(critical.size(), 77);
    expect(!critical_times(graph, results) && results == critical, name);
}

static void expect_refused(const std::string& name, const Graph& graph, std::size_t results,
                           const Refusal& refusal) {
    const List before(results, 77);
    List after = before;
    expect(critical_times(graph, after) == Refused(refusal) && after == before, name);
}

static void paths_by_hand() {
    expect_found("no place", {}, {});
    expect_found("places without arcs", graph_of({5, 1'000'000, 1}, {}), {0, 0, 0});
    expect_found("the first arc's hop delay counts", graph_of({9, 4}, {{0, 1, 30}}), {34, 0});
    expect_found("by two ways",
                 graph_of({3, 5, 2, 7}, {{0, 1, 1}, {0, 2, 4}, {1, 3, 0}, {2, 3, 2}}),
                 {15, 7, 9, 0});
    expect_found("the heavier of two ways", graph_of({1, 2, 3}, {{0, 2, 1}, {0, 1, 0}, {1, 2, 0}}),
                 {5, 3, 0});
    expect_found("the greater hop delay", graph_of({2, 3}, {{0, 1, 5}, {0, 1, 9}, {0, 1, 5}}),
                 {12, 0});
    expect_found("against the places", graph_of({1, 2, 3}, {{2, 1, 10}, {1, 0, 100}}),
                 {0, 101, 113});

    Graph many = graph_of({1, 1}, {});
    for (u32 arc = 0; arc < 1024; ++arc) add_arc(many, arc, {0, 1, arc % 500});
    expect_found("1,024 arcs", many, {500, 0});

    // The paper's table 2: what is still to do behind each core is the critical time there.
    const std::vector<Set> cores = table_2();
    for (std::size_t job : {0, 1}) {
        Graph graph = chain(4, 1, 0);
        List critical;
        for (std::size_t core = 0; core < 4; ++core) {
            graph.execution[core] = cores[core].execution[job];
            critical.push_back(cores[core].critical[job]);
        }
        expect_found("the paper's table 2", graph, critical);
    }

    List falling;
    for (u32 place = 0; place < 128; ++place) falling.push_back((127 - place) * 1'100'000);
    expect(falling.front() == 139'700'000, "127 arcs of 1,100,000");
    expect_found("the heaviest path", chain(128, 1'000'000, 100'000), falling);
}

// One thing wrong after the other, each to be told before those that are wrong already, which are
// at smaller places.
static void refusals_by_hand() {
    Graph graph = graph_of(List(5, 1), {{0, 1, 0}, {1, 2, 0}, {2, 3, 0}, {3, 4, 0}, {1, 4, 0}});
    expect_found("nothing wrong", graph, {4, 3, 2, 1, 0});
    std::swap(graph.before[4], graph.after[4]);
    expect_refused("a cycle beside place 0", graph, 5, {.number = 21});
    graph.after[0] = 0;
    expect_refused("an arc to itself", graph, 5, {.number = 21});
    graph.before[1] = graph.after[3] = 5;
    expect_refused("no sub-job", graph, 5, {.number = 20, .place = 1});
    graph.hop[2] = graph.hop[3] = 100'001;
    expect_refused("hop delay", graph, 5, {.number = 3, .place = 2, .field = HOP});
    graph.execution[3] = 0;
    graph.execution[4] = 1'000'001;
    expect_refused("execution", graph, 5, {.number = 3, .place = 3, .field = EXECUTION});

    Graph many = graph;
    while (many.before.size() < 1025) add_arc(many, 0, {0, 0, 0});
    expect_refused("1,025 arcs", many, 5, {.number = 2});
    graph.execution.resize(129, 0);
    expect_refused("129 places", graph, 129, {.number = 2});
    expect_refused("places and results of two lengths", graph, 128, {.number = 1});
    for (List Graph::*list : {&Graph::before, &Graph::after, &Graph::hop}) {
        Graph unequal = graph;
        (unequal.*list).pop_back();
        expect_refused("arcs of two lengths", unequal, 129, {.number = 1});
    }
}

// ---------------------------------------------------------------- said in two ways

static void two_ways(const Graph& graph) {
    const bool cycle = cycle_by_all_paths(graph);
    expect(cycle == cycle_by_closure(graph), "cycles, all paths against the closure");
    if (!cycle)
        expect(critical_by_all_paths(graph) == critical_by_memory(graph),
               "critical times, all paths against memory");
}

// ---------------------------------------------------------------- what is promised

// Each is the weight of a path and no path weighs more, every path looked at.
static void promised_of_all_paths(const Graph& graph, const List& critical) {
    for (std::size_t start = 0; start < critical.size(); ++start) {
        const std::vector<Path> paths = paths_from(graph, start);
        bool reached = false, exceeded = false;
        for (const Path& path : paths) {
            reached = reached || weight(graph, path) == critical[start];
            exceeded = exceeded || weight(graph, path) > critical[start];
        }
        expect(reached == !paths.empty() && !exceeded, "a path's weight, and none weighs more");
        expect((critical[start] == 0) == paths.empty(), "0 exactly where nothing follows");
    }
}

// The same of a large graph: no arc is too heavy for the place that it leaves, so no path is,
// however long; and by arcs that are just as heavy as that place allows one comes to the end of a
// path of that weight.
static void promised_by_arcs(const Graph& graph, const List& critical) {
    std::vector<std::optional<std::size_t>> heaviest(critical.size());
    for (std::size_t arc = 0; arc < graph.before.size(); ++arc) {
        const u32 from = graph.before[arc], to = graph.after[arc];
        const u32 heavy = graph.hop[arc] + graph.execution[to] + critical[to];
        expect(heavy <= critical[from], "no path weighs more");
        if (heavy == critical[from]) heaviest[from] = arc;
    }
    for (std::size_t start = 0; start < critical.size(); ++start) {
        Path path;
        for (std::size_t at = start; heaviest[at] && path.size() < critical.size();
             at = graph.after[path.back()])
            path.push_back(*heaviest[at]);
        expect(weight(graph, path) == critical[start], "the weight of a path");
        const bool follows = std::ranges::count(graph.before, start) > 0;
        expect((critical[start] == 0) == !follows, "0 exactly where nothing follows");
        expect(critical[start] <= 139'700'000, "not above 139,700,000");
    }
}

// Another order, arcs twice, and arcs with a smaller hop delay change nothing; an arc with a
// greater one is as if it stood alone.
static void promised_of_arcs(Dice& dice, const Graph& graph) {
    const u32 arcs = static_cast<u32>(graph.before.size());
    List first(graph.execution.size(), 7), again = first;
    const Refused refused = critical_times(graph, first);
    expect(critical_times(told_otherwise(dice, graph), again) == refused && again == first,
           "told otherwise, the results and number 21 stay");
    if (refused || arcs == 0) return;
    const u32 arc = dice.below(arcs), hop = dice.between(graph.hop[arc], LONGEST_HOP);
    Graph beside = graph, instead = graph;
    add_arc(beside, dice.below(arcs + 1), {graph.before[arc], graph.after[arc], hop});
    instead.hop[arc] = hop;
    expect(!critical_times(beside, first) && !critical_times(instead, again) && first == again,
           "the greater of two hop delays counts");
}

// The door says what the call says; a length that does not fit is number 1.
static void promised_of_the_door(Dice& dice, const Graph& graph, u32 number, const List& after) {
    const Bytes executions = encode(graph.execution), arcs = encode_arcs(graph);
    const Bytes before = encode(List(after.size(), 7));
    Bytes results = before;
    expect(door_critical(executions, arcs, results) == number && results == encode(after),
           "the door says what the call says");
    Bytes slices[] = {executions, arcs, before};
    Bytes& one = slices[dice.below(3)];
    one.resize(one.size() + dice.between(1, 3));
    results = slices[2];
    expect(door_critical(slices[0], slices[1], results) == 1 && results == slices[2],
           "the door's lengths");
}

// ---------------------------------------------------------------- random graphs

// A graph without a cycle, and the same with one.
static void small_graph(Dice& dice) {
    const u32 n = dice.between(1, 7);
    Graph graph = random_graph(dice, n, dice.below(3 * n));
    for (bool cycle : {false, true}) {
        if (cycle) close_cycle(dice, graph);
        List results(n, 7);
        const u32 number = number_of(critical_times(graph, results));
        expect(number == (cycle ? 21 : 0), "number 21 for a cycle");
        two_ways(graph);
        if (!cycle) promised_of_all_paths(graph, results);
        if (cycle) expect(results == List(n, 7), "a refused call changes nothing");
        promised_of_arcs(dice, graph);
        promised_of_the_door(dice, graph, number, results);
    }
    make_wrong(dice, graph);
    List results(n, 7);
    const u32 number = number_of(critical_times(graph, results));
    expect((number == 3 || number == 20) && results == List(n, 7), "3 and 20 before 21");
}

static void large_graph(Dice& dice) {
    const u32 n = dice.between(20, 128);
    Graph graph = random_graph(dice, n, dice.between(n, 1022));
    List results(n, 7);
    expect(!critical_times(graph, results), "a large graph without a cycle");
    promised_by_arcs(graph, results);
    promised_of_arcs(dice, graph);
    close_cycle(dice, graph);
    expect(number_of(critical_times(graph, results)) == 21, "number 21 in a large graph");
    promised_of_arcs(dice, graph);
}

void check_graphs() {
    paths_by_hand();
    refusals_by_hand();
    constexpr int small = 20'000, large = 300;
    Dice dice(2);
    for (int k = 0; k < small && failures < 20; ++k) small_graph(dice);
    for (int k = 0; k < large && failures < 20; ++k) large_graph(dice);
    std::cout << "critical times of " << small << " small and " << large
              << " large graphs, with and without a cycle\n";
}
