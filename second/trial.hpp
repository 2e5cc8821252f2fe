// The cases of `trial` and their answers, as two texts that grow. README.md has their form.
#pragma once

#include "graph.hpp"
#include "rooms.hpp"
#include "sets.hpp"

class Trial {
public:
    std::string in, out;
    std::array<std::size_t, 7> count{};  // by kind; kind 0 is the end

    // Each is answered by the rules. A case that single ticks cannot answer in time is left out.
    void ask_assign(const Set& set, const List& before);
    void ask_simulate(const Set& set, const List& deadlines, const List& asks, const List& before,
                      const Totals& totals);
    void ask_check(const Set& set, const List& proposed);
    void ask_table(const std::string& text);
    void ask_critical(const Graph& graph, const List& before);
    void ask_room(const Room& room, const Outcome& before);

    // The same case again, its list rearranged. Its answer is made from the first one and must be
    // the rules' own. All lists are of one length, and a table's records are well-formed.
    void ask_assign_again(const Set& set, const List& before, const Order& order);
    void ask_simulate_again(const Set& set, const List& deadlines, const List& asks,
                            const List& before, const Totals& totals, const Order& order);
    void ask_check_again(const Set& set, const List& proposed, const Order& order);
    void ask_table_again(const std::string& text, const Order& order);

    // An accepted graph or one with a cycle, told otherwise. Its answer must be the first one.
    void ask_critical_again(const Graph& graph, const List& before, const Graph& told);

    // A room mixed from others. Its answer, made from theirs, must be the rules' own.
    void ask_room_again(const RoomCall& made);

    void ask_end();

private:
    void put_assign(const Set& set, const List& before);
    void put_simulate(const Set& set, const List& deadlines, const List& asks, const List& before,
                      const Totals& totals);
    void put_check(const Set& set, const List& proposed);
    void put_table(const std::string& text);
    void put_room(const Room& room, const Outcome& before);
    void say_assign(const Assigned& answer, const List& results);
    void say_simulate(const Simulated& answer, const Totals& totals, const List& finishes);
    void say_check(const Refused& answer);
    void say_table(const std::string& output);
    void say_room(const Refused& answer, const Outcome& after);
};
