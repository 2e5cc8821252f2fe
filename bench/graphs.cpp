// Job graphs made with dice. A kind is a shape and a listing of the arcs, as `tree-shuffled`.

#include "graphs.h"

#include "baseline.h"
#include "charoktan.h"
#include "measure.h"

#include <cstdlib>
#include <numeric>

namespace {

// What is lent to one call.
struct Lent {
    measure::Bytes executions;
    measure::Bytes arcs;
    measure::Bytes results;

    bool operator==(const Lent &other) const
    {
        return executions == other.executions && arcs == other.arcs && results == other.results;
    }
};

struct Program {
    const char *name;
    uint32_t (*critical)(const uint8_t *, size_t, const uint8_t *, size_t, uint8_t *, size_t);

    [[gnu::always_inline]] uint32_t operator()(Lent &lent) const
    {
        return critical(lent.executions.data(), lent.executions.size(), lent.arcs.data(),
                        lent.arcs.size(), lent.results.data(), lent.results.size());
    }
};

constexpr Program programs[] = {
    {"charoktan_critical", charoktan_critical},
    {"critical_topological", baseline::critical_topological},
};
constexpr const Program &library = programs[0];
constexpr const Program &topological = programs[1];

using Numbers = std::vector<uint32_t>;
using Arcs = std::vector<charoktan_arc>;

// Each sub-job but the first follows an earlier one: the one before it, or in a tree any.
Arcs chain_or_tree(Dice &dice, uint32_t size, bool tree)
{
    Arcs arcs;
    for (uint32_t after = 1; after < size; ++after)
        arcs.push_back({tree ? dice.roll(0, after - 1) : after - 1, after, dice.roll(0, 20)});
    return arcs;
}

// Eight arcs per sub-job from earlier to later ones, no two alike; all arcs if there are fewer.
Arcs dense(Dice &dice, uint32_t size)
{
    Arcs arcs;
    uint32_t pairs = size * (size - 1) / 2;
    uint32_t wanted = std::min(pairs, 8 * size);
    for (uint32_t before = 0; before < size; ++before)
        for (uint32_t after = before + 1; after < size; ++after)
            if (dice.roll(1, pairs--) <= wanted) {
                arcs.push_back({before, after, dice.roll(0, 20)});
                --wanted;
            }
    return arcs;
}

void renumber(Dice &dice, uint32_t size, Arcs &arcs)
{
    Numbers places(size);
    std::iota(places.begin(), places.end(), 0U);
    measure::shuffle(dice, places);
    for (charoktan_arc &arc : arcs) {
        arc.before = places[arc.before];
        arc.after = places[arc.after];
    }
}

// A graph of this shape. Along each path the arcs come in order.
Arcs shaped(Dice &dice, std::string_view shape, uint32_t size)
{
    if (shape == "chain" || shape == "tree")
        return chain_or_tree(dice, size, shape == "tree");
    Arcs arcs = dense(dice, size);
    if (shape == "cyclic") // the second arc goes back along the first
        arcs[1] = {arcs[0].after, arcs[0].before, arcs[1].hop};
    else if (shape != "dense")
        std::exit(2);
    return arcs;
}

// Every second arc, then the others: whichever way the list is read, a path is found out of order.
void zigzag(Arcs &arcs)
{
    Arcs others;
    for (size_t i = 0; i < arcs.size(); ++i)
        (i % 2 == 0 ? arcs[i / 2] : others.emplace_back()) = arcs[i];
    std::copy(others.begin(), others.end(), arcs.end() - static_cast<ptrdiff_t>(others.size()));
}

void list(Dice &dice, std::string_view listing, Arcs &arcs)
{
    if (listing == "reversed")
        std::reverse(arcs.begin(), arcs.end());
    else if (listing == "zigzag")
        zigzag(arcs);
    else if (listing == "shuffled")
        measure::shuffle(dice, arcs);
    else if (listing != "ordered")
        std::exit(2);
}

// The 32 graphs of a size and a kind. Those of one shape differ only in how they are listed.
std::vector<Lent> graphs_of(std::string_view kind, uint32_t size)
{
    const size_t dash = kind.find('-');
    if (dash == std::string_view::npos)
        std::exit(2);
    Dice dice(size);
    Dice listing_dice(1000 + size);
    std::vector<Lent> graphs(32);
    for (Lent &lent : graphs) {
        Numbers executions(size);
        for (uint32_t &execution : executions)
            execution = dice.roll(1, 100);
        Arcs arcs = shaped(dice, kind.substr(0, dash), size);
        list(listing_dice, kind.substr(dash + 1), arcs);
        lent = {measure::bytes_of(executions), measure::bytes_of(arcs), measure::Bytes(size * 4)};
    }
    return graphs;
}

// Makes some number of a graph wrong, or the greatest that is right, or closes a cycle.
void disturb(Dice &dice, Numbers &executions, Arcs &arcs)
{
    const auto size = static_cast<uint32_t>(executions.size());
    const auto one_of = [&dice](uint32_t a, uint32_t b, uint32_t c) {
        const uint32_t chosen = dice.roll(0, 2);
        return chosen == 0 ? a : chosen == 1 ? b : c;
    };
    if (size > 0 && dice.roll(0, 2) == 0)
        executions[dice.roll(0, size - 1)] = one_of(0, 1000000, 1000001);
    if (arcs.empty())
        return;
    charoktan_arc &arc = arcs[dice.roll(0, static_cast<uint32_t>(arcs.size()) - 1)];
    switch (dice.roll(0, 3)) {
    case 0: arc.hop = one_of(100000, 100001, UINT32_MAX); break;
    case 1: arc.before = one_of(size, size + 1, UINT32_MAX); break;
    case 2: arc.after = one_of(size, size + 1, UINT32_MAX); break;
    default: std::swap(arc.before, arc.after);
    }
}

// Arcs between any of the sub-jobs, the same ones again too; from earlier to later ones if need be.
Arcs any_arcs(Dice &dice, uint32_t size, uint32_t count, bool acyclic)
{
    Arcs arcs;
    const uint32_t last = std::max(size, 1U) - 1;
    for (uint32_t i = 0; i < count; ++i) {
        charoktan_arc arc = {dice.roll(0, last), dice.roll(0, last), dice.roll(0, 5)};
        if (acyclic && arc.before > arc.after)
            std::swap(arc.before, arc.after);
        if (!acyclic || arc.before < arc.after)
            arcs.push_back(arc);
    }
    return arcs;
}

// A graph of any kind, mostly small so that every refusal occurs, some lengths damaged.
Lent any_graph(Dice &dice)
{
    const bool large = dice.roll(0, 99) == 0;
    const uint32_t size = large ? dice.roll(100, 130) : dice.roll(0, 10);
    const uint32_t count = large ? dice.roll(900, 1050) : dice.roll(0, 2 * size + 1);
    const uint32_t least = dice.roll(0, 9) == 0 ? 999995 : 1; // some at the end of the range
    Numbers executions(size);
    Numbers results(size);
    for (uint32_t i = 0; i < size; ++i) {
        executions[i] = least + dice.roll(0, 5);
        results[i] = dice.roll(1, UINT32_MAX);
    }
    Arcs arcs = any_arcs(dice, size, count, dice.roll(0, 4) != 0);
    if (size > 0)
        renumber(dice, size, arcs);
    while (dice.roll(0, 5) == 0)
        disturb(dice, executions, arcs);
    Lent lent = {measure::bytes_of(executions), measure::bytes_of(arcs),
                 measure::bytes_of(results)};
    for (measure::Bytes *bytes : {&lent.executions, &lent.arcs, &lent.results})
        if (dice.roll(0, 49) == 0)
            bytes->resize(dice.roll(0, 50));
    return lent;
}

} // namespace

int graphs::agree()
{
    Dice dice(7);
    uint32_t tally[6] = {};
    const auto next_is_alike = [&] {
        uint32_t returned = 0;
        const bool same = measure::alike(library, topological, any_graph(dice), returned);
        const uint32_t number = charoktan_number(returned);
        ++tally[(number < 20 ? number : number - 16) % 6];
        return same;
    };
    if (!measure::agree(next_is_alike))
        return 1;
    measure::print(library.name, "0 to 3, 20 and 21", tally);
    return 0;
}

int graphs::calls(std::string_view name, std::string_view kind, uint32_t size, uint32_t rounds)
{
    const Program *program = measure::named(programs, name);
    return program != nullptr ? measure::calls(*program, graphs_of(kind, size), rounds)
                              : measure::no_such_program;
}

int graphs::stack()
{
    for (const Program &program : programs) {
        size_t most = 0;
        for (const char *kind : {"chain-shuffled", "tree-shuffled", "dense-shuffled",
                                 "dense-zigzag", "cyclic-shuffled"})
            most = std::max(most, measure::depth(program, graphs_of(kind, 128)));
        std::printf("%s %zu\n", program.name, most);
    }
    return 0;
}
