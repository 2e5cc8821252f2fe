// Job graphs made with dice, and the stored ones.
#pragma once

#include "graph.hpp"
#include "sets.hpp"

// A graph from its executions and (before, after, hop) triples.
Graph graph_of(const List& executions, const std::vector<std::array<u32, 3>>& arcs);

// n places one after the other, all with this execution, and all arcs with this hop delay.
Graph chain(std::size_t n, u32 execution, u32 hop);

// Another arc, among the others at this index.
void add_arc(Graph& graph, std::size_t index, const std::array<u32, 3>& arc);

// n places and this many arcs (no arcs for fewer than two places), all in range and no path coming
// back: chains, trees, layers and thickets, with arcs of one kind and mixed.
Graph random_graph(Dice& dice, std::size_t n, std::size_t arcs);

// An arc more, which makes a path of a graph with places come back to its start.
void close_cycle(Dice& dice, Graph& graph);

// Something made wrong: an execution, a hop delay or the place of an arc; if there are no places,
// an arc more.
void make_wrong(Dice& dice, Graph& graph);

// The same graph with its arcs in another order.
Graph in_order(const Graph& graph, const Order& arcs);

// A graph that is accepted or has a cycle, told otherwise: its arcs in another order, some of them
// twice, and some with a smaller hop delay besides.
Graph told_otherwise(Dice& dice, const Graph& graph);

class Trial;
void ask_graphs(Trial& trial);
