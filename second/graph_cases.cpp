// The stored graphs of `trial`: edges by hand, every graph of three places, then random ones and
// some of these told otherwise; the seed is fixed.
#include "graphs.hpp"
#include "trial.hpp"

#include <numeric>

// Asked with any numbers in the results.
static void ask(Trial& trial, Dice& dice, const Graph& graph) {
    trial.ask_critical(graph, random_list(dice, graph.execution.size()));
}

// By two ways from place 0 to place 3: the critical times are 15, 7, 9 and 0.
static Graph diamond() {
    return graph_of({3, 5, 2, 7}, {{0, 1, 1}, {0, 2, 4}, {1, 3, 0}, {2, 3, 2}});
}

static std::array<List*, 4> lists(Graph& graph) {
    return {&graph.execution, &graph.before, &graph.after, &graph.hop};
}

// ---------------------------------------------------------------- refusals

// The lists of a call, results included, each too short, too long and empty; 1 comes before 2.
static void unequal_edges(Trial& trial, Dice& dice) {
    for (std::size_t length : {0, 3, 5}) trial.ask_critical(diamond(), random_list(dice, length));
    for (std::size_t k = 0; k < 4; ++k)
        for (std::size_t length : {0, 3, 5}) {
            Graph graph = diamond();
            lists(graph)[k]->resize(length, 1);
            trial.ask_critical(graph, {1, 2, 3, 4});
        }
    trial.ask_critical({}, {7});
    trial.ask_critical(graph_of({}, {{0, 0, LARGEST}}), {7});
    trial.ask_critical(graph_of(List(129, 1), {}), List(128, 1));
    trial.ask_critical(graph_of(List(128, 1), {}), List(129, 1));
    Graph graph = diamond();
    graph.hop.resize(MOST_ARCS + 1);
    trial.ask_critical(graph, {1, 2, 3, 4});
}

// Both sides of each range: an execution alone, first and last, a hop delay first and last, and
// both places of the first and of the last arc. What is wrong at two places is told of the first.
static void range_edges(Trial& trial, Dice& dice) {
    Graph graph;
    for (u32 execution : {0u, 1u, 999'999u, 1'000'000u, 1'000'001u, 2'147'483'648u, LARGEST}) {
        ask(trial, dice, graph_of({execution}, {}));
        for (std::size_t place : {0, 3}) {
            graph = diamond();
            graph.execution[place] = execution;
            ask(trial, dice, graph);
        }
        graph.execution[1] = 0;
        ask(trial, dice, graph);
    }
    for (u32 hop : {99'999u, 100'000u, 100'001u, 2'147'483'648u, LARGEST}) {
        for (std::size_t arc : {0, 3}) {
            graph = diamond();
            graph.hop[arc] = hop;
            ask(trial, dice, graph);
        }
        graph.hop[1] = 100'001;
        ask(trial, dice, graph);
    }
    for (u32 place : {3u, 4u, 5u, 128u, 2'147'483'648u, LARGEST})
        for (std::size_t arc : {0, 3}) {
            graph = diamond();
            graph.before[arc] = place;
            ask(trial, dice, graph);
            graph = diamond();
            graph.after[arc] = place;
            ask(trial, dice, graph);
            graph.before[1] = 4;
            ask(trial, dice, graph);
        }
}

// Every two things that can be wrong, in one call, the one that comes first at the later place.
static void order_edges(Trial& trial, Dice& dice) {
    using Fault = void (*)(Graph&, List&);
    const std::vector<Fault> faults = {
        [](Graph&, List& results) { results.pop_back(); },
        [](Graph& graph, List&) { graph.after.push_back(0); },
        [](Graph& graph, List& results) {
            graph.execution.resize(graph.execution.size() + 125, 1);
            results.resize(results.size() + 125, 1);
        },
        [](Graph& graph, List&) { graph.execution[3] = 0; },
        [](Graph& graph, List&) { graph.hop[2] = 100'001; },
        [](Graph& graph, List&) { graph.after[1] = LARGEST; },
        [](Graph& graph, List&) { graph.after[0] = graph.before[0]; },
    };
    for (std::size_t one = 0; one < faults.size(); ++one)
        for (std::size_t other = one; other < faults.size(); ++other) {
            Graph graph = diamond();
            List results = random_list(dice, 4);
            faults[one](graph, results);
            if (other != one) faults[other](graph, results);
            trial.ask_critical(graph, results);
        }
    // An arc that leads both nowhere and, if one looks no further, back to itself.
    ask(trial, dice, graph_of({1}, {{1, 1, 0}}));
    ask(trial, dice, graph_of({}, {{0, 0, 0}}));
    ask(trial, dice, graph_of({1, 1}, {{0, 0, 0}, {2, 2, 0}}));
}

// ---------------------------------------------------------------- paths by hand

// Every graph of three places in which no arc leads to its own place, its arcs of different
// weights: all the ways in which paths part, meet and come back.
static void three_places(Trial& trial) {
    const std::array<u32, 3> arcs[] = {{0, 1, 1}, {0, 2, 30}, {1, 0, 0},
                                       {1, 2, 7}, {2, 0, 2},  {2, 1, 5}};
    for (u32 chosen = 0; chosen < 64; ++chosen) {
        Graph graph = graph_of({4, 20, 9}, {});
        for (u32 arc = 0; arc < 6; ++arc)
            if (chosen >> arc & 1) add_arc(graph, 0, arcs[arc]);
        trial.ask_critical(graph, {8, 8, 8});
    }
}

static void path_edges(Trial& trial, Dice& dice) {
    for (std::size_t n : {0, 1, 2, 3}) ask(trial, dice, graph_of(List(n, 6), {}));
    for (u32 place = 0; place < 4; ++place) {
        Graph graph = diamond();
        add_arc(graph, 2, {place, place, 0});
        ask(trial, dice, graph);
        add_arc(graph, 0, {3, 1, 5});
        ask(trial, dice, graph);
    }
    ask(trial, dice, diamond());
    // The first arc's hop delay counts, and the place's own execution does not.
    for (u32 hop : {0u, 1u, 100'000u}) ask(trial, dice, graph_of({1'000'000, 1}, {{0, 1, hop}}));
    // Two arcs between the same places: the greater hop delay counts, wherever it stands.
    for (const List& hops : {List{5, 5}, List{5, 6}, List{6, 5}, List{0, 100'000}, List{2, 9, 4}}) {
        Graph graph = graph_of({2, 3, 4}, {{1, 2, 7}});
        for (u32 hop : hops) add_arc(graph, 0, {0, 1, hop});
        ask(trial, dice, graph);
    }
    // One heavy arc against many, on both sides of the tie.
    for (u32 hop : {5u, 6u, 7u}) {
        Graph graph = chain(5, 2, 0);
        add_arc(graph, 0, {0, 4, hop});
        ask(trial, dice, graph);
    }
    // A cycle with places before it and behind it, one beside the others, and two.
    ask(trial, dice, graph_of(List(5, 1), {{0, 1, 0}, {1, 2, 0}, {2, 3, 0}, {3, 1, 0}, {3, 4, 0}}));
    ask(trial, dice, graph_of(List(5, 1), {{0, 1, 0}, {0, 2, 0}, {4, 3, 0}, {3, 4, 0}}));
    ask(trial, dice, graph_of(List(4, 1), {{3, 2, 9}, {1, 0, 0}, {2, 3, 0}, {0, 1, 0}}));
}

// ---------------------------------------------------------------- long chains, many arcs

static void chain_edges(Trial& trial, Dice& dice) {
    for (std::size_t n : {128, 129, 160}) trial.ask_critical(graph_of(List(n, 1), {}), List(n, 9));
    // 127 arcs of 1,100,000: no result is above 139,700,000.
    trial.ask_critical(chain(128, 1'000'000, 100'000), List(128));
    // The arcs in the list along the path, against it, and in no order with the path against the
    // places.
    Graph graph = chain(128, 1, 0);
    trial.ask_critical(graph, List(128));
    Order reversed(127);
    std::iota(reversed.rbegin(), reversed.rend(), 0);
    trial.ask_critical(in_order(graph, reversed), List(128));
    std::swap(graph.before, graph.after);
    trial.ask_critical(in_order(graph, random_order(dice, 127)), List(128));
    // A cycle through all places but place 0, closed by the last arc.
    graph = chain(128, 1, 0);
    add_arc(graph, 127, {127, 1, 0});
    trial.ask_critical(graph, List(128));
}

static void many_arcs(Trial& trial, Dice& dice) {
    // 1,024 arcs, each place before the next eight, in no order of the list.
    Graph graph = graph_of(List(128, 1), {});
    for (u32 arc = 0; graph.before.size() < MOST_ARCS; ++arc) {
        const u32 before = arc / 8 % 127, after = before + 1 + arc % 8;
        if (after < 128) add_arc(graph, 0, {before, after, dice.below(10)});
    }
    trial.ask_critical(in_order(graph, random_order(dice, MOST_ARCS)), List(128));
    // One arc too many, in a call in which all that comes later is wrong too.
    graph = graph_of({0, 1}, {{0, 0, 0}, {0, 2, LARGEST}});
    while (graph.before.size() <= MOST_ARCS) add_arc(graph, 1, {0, 1, 0});
    trial.ask_critical(graph, {3, 4});
}

// ---------------------------------------------------------------- random graphs

static void random_case(Trial& trial, Dice& dice) {
    const u32 n = dice.chance(4) ? dice.between(9, 20) : dice.between(1, 7);
    const u32 arcs = dice.below(5 * n / 2 + 1);
    Graph graph = random_graph(dice, n, arcs);
    while (dice.chance(25)) close_cycle(dice, graph);
    while (dice.chance(10)) make_wrong(dice, graph);
    List before = random_list(dice, n);
    if (dice.chance(3))
        make_unequal(dice, {&graph.execution, &graph.before, &graph.after, &graph.hop, &before});
    trial.ask_critical(graph, before);
}

// A graph, and the same told otherwise.
static void random_pair(Trial& trial, Dice& dice) {
    const u32 n = dice.between(2, 6);
    Graph graph = random_graph(dice, n, dice.between(n - 1, 2 * n));
    if (dice.chance(25)) close_cycle(dice, graph);
    const List before = random_list(dice, n);
    trial.ask_critical(graph, before);
    trial.ask_critical_again(graph, before, told_otherwise(dice, graph));
}

void ask_graphs(Trial& trial) {
    Dice dice(20'261'115);
    unequal_edges(trial, dice);
    range_edges(trial, dice);
    order_edges(trial, dice);
    three_places(trial);
    path_edges(trial, dice);
    chain_edges(trial, dice);
    many_arcs(trial, dice);
    for (int k = 0; k < 90; ++k) random_case(trial, dice);
    for (int k = 0; k < 25; ++k) random_pair(trial, dice);
}
