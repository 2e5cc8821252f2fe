// Job graphs by dice: chains, trees, layers and thickets, with cycles, damaged, told otherwise.
#include "graphs.hpp"

#include <algorithm>

Graph graph_of(const List& executions, const std::vector<std::array<u32, 3>>& arcs) {
    Graph graph;
    graph.execution = executions;
    for (const auto& arc : arcs) add_arc(graph, graph.before.size(), arc);
    return graph;
}

Graph chain(std::size_t n, u32 execution, u32 hop) {
    Graph graph = graph_of(List(n, execution), {});
    for (u32 place = 1; place < n; ++place) add_arc(graph, place - 1, {place - 1, place, hop});
    return graph;
}

void add_arc(Graph& graph, std::size_t index, const std::array<u32, 3>& arc) {
    const auto at = static_cast<std::ptrdiff_t>(index);
    graph.before.insert(graph.before.begin() + at, arc[0]);
    graph.after.insert(graph.after.begin() + at, arc[1]);
    graph.hop.insert(graph.hop.begin() + at, arc[2]);
}

// ---------------------------------------------------------------- random graphs

// Numbers of one kind for a whole graph: all the smallest, small ones, any, or the range's ends.
static List random_numbers(Dice& dice, std::size_t n, u32 smallest, u32 largest) {
    const u32 way = dice.below(8);
    List numbers(n, smallest);
    for (u32& number : numbers) {
        if (way >= 2 && way <= 5) number = dice.between(smallest, 9);
        if (way == 6) number = dice.between(smallest, largest);
        if (way == 7) number = dice.one_of({smallest, largest - 1, largest});
    }
    return numbers;
}

Graph random_graph(Dice& dice, std::size_t n, std::size_t arcs) {
    Graph graph;
    graph.execution = random_numbers(dice, n, 1, LONGEST_EXECUTION);
    if (n < 2) return graph;
    graph.hop = random_numbers(dice, arcs, 0, LONGEST_HOP);

    // A hidden order of the places: arcs go forward in it, so no path comes back.
    const Order order = random_order(dice, n);
    const u32 last = static_cast<u32>(n) - 1;
    // How far they go: to the next place (a chain, if there are enough arcs), to one nearby, or to
    // any; or all from the first few places.
    const u32 farthest = dice.one_of({1, 3, last, last});
    const u32 latest = dice.chance(10) ? std::min(last - 1, 2u) : last - 1;
    const bool in_turn = dice.chance(40);
    for (u32 arc = 0; arc < arcs; ++arc) {
        const u32 from = in_turn ? arc % (latest + 1) : dice.below(latest + 1);
        const u32 to = dice.between(from + 1, std::min(last, from + farthest));
        graph.before.push_back(static_cast<u32>(order[from]));
        graph.after.push_back(static_cast<u32>(order[to]));
    }
    // Arcs in turn were laid along the hidden order; the list itself has none to rely on.
    return in_turn ? in_order(graph, random_order(dice, arcs)) : graph;
}

// ---------------------------------------------------------------- cycles and damage

void close_cycle(Dice& dice, Graph& graph) {
    // From some arc's end on, as far as the dice and the graph go: the new arc leads back.
    u32 start = dice.below(static_cast<u32>(graph.execution.size())), end = start;
    const u32 arcs = static_cast<u32>(graph.before.size());
    if (arcs > 0 && dice.chance(85)) {
        const u32 first = dice.below(arcs);
        start = graph.before[first];
        end = graph.after[first];
        for (u32 throws = 0; throws < 4 * arcs; ++throws)
            if (const u32 arc = dice.below(arcs); graph.before[arc] == end) end = graph.after[arc];
    }
    const u32 index = dice.below(arcs + 1);
    add_arc(graph, index, {end, start, dice.below(3)});
}

void make_wrong(Dice& dice, Graph& graph) {
    const u32 places = static_cast<u32>(graph.execution.size());
    const u32 arcs = static_cast<u32>(graph.before.size());
    if (places == 0) return add_arc(graph, 0, {0, 0, 0});
    const u32 place = dice.below(places), arc = dice.below(std::max(arcs, 1u));
    switch (arcs == 0 ? 0 : dice.below(4)) {
    case 0: graph.execution[place] = dice.one_of({0, LONGEST_EXECUTION + 1, LARGEST}); break;
    case 1: graph.hop[arc] = dice.one_of({LONGEST_HOP + 1, LARGEST}); break;
    case 2: graph.before[arc] = dice.one_of({places, LARGEST}); break;
    default: graph.after[arc] = dice.one_of({places, LARGEST});
    }
}

// ---------------------------------------------------------------- told otherwise

Graph in_order(const Graph& graph, const Order& arcs) {
    return {graph.execution, in_order(graph.before, arcs), in_order(graph.after, arcs),
            in_order(graph.hop, arcs)};
}

Graph told_otherwise(Dice& dice, const Graph& graph) {
    const u32 arcs = static_cast<u32>(graph.before.size());
    const u32 most = std::min(arcs, static_cast<u32>(MOST_ARCS) - arcs);
    const u32 more = most == 0 ? 0 : dice.between(1, most);
    Order order = random_order(dice, arcs);
    for (u32 k = 0; k < more; ++k) order.push_back(dice.below(arcs));
    Graph told = in_order(graph, order);
    const bool smaller = dice.chance(60);
    for (u32 arc = arcs; smaller && arc < arcs + more; ++arc)
        told.hop[arc] = dice.below(told.hop[arc] + 1);
    return in_order(told, random_order(dice, order.size()));
}
