// Cases of `trial` as text: what it reads, and what it must answer.
#include "trial.hpp"
#include "rearranged.hpp"

#include <stdexcept>

// Every number is followed by one space, the last one of a case by LF instead.
static void put(std::string& text, u64 number) { text += std::to_string(number) + ' '; }

static void put(std::string& text, const List& list) {
    put(text, list.size());
    for (u32 number : list) put(text, number);
}

// The same, for a list of `trial` that has room for so many numbers.
static void put(std::string& text, const List& list, std::size_t room) {
    if (list.size() > room) throw std::logic_error("a list is too long for trial");
    put(text, list);
}

static void put(std::string& text, const Set& set) {
    for (const List* list :
         {&set.job, &set.subtask, &set.release, &set.execution, &set.deadline, &set.critical})
        put(text, *list);
}

static void end_line(std::string& text) { text.back() = '\n'; }

template <class Number>
static void say(std::string& text, Number number) {
    text += ' ';
    text += std::to_string(number);
}

static void say(std::string& text, const Refusal& refusal) {
    text += "refused";
    say(text, refusal.number);
    say(text, refusal.place);
    if (refusal.number == 3) say(text, u32{refusal.field});
    if (refusal.number == 5) {
        say(text, refusal.completion);
        say(text, refusal.bound);
    }
}

// The refusal, or this word if there is none.
static void say(std::string& text, const Refused& refused, const std::string& otherwise) {
    if (refused)
        say(text, *refused);
    else
        text += otherwise;
}

static void say_list(std::string& text, const List& list) {
    text += " :";
    for (u32 number : list) say(text, number);
}

// ---------------------------------------------------------------- assignment

void Trial::put_assign(const Set& set, const List& before) {
    put(in, 1);
    put(in, set);
    put(in, before);
    end_line(in);
    ++count[1];
}

void Trial::say_assign(const Assigned& answer, const List& results) {
    if (answer.refused) {
        say(out, *answer.refused);
    } else if (answer.nothing) {
        out += "nothing";
    } else {
        out += "placed";
        say(out, answer.slack);
        say(out, answer.place);
    }
    say_list(out, results);
    out += '\n';
}

void Trial::ask_assign(const Set& set, const List& before) {
    List results = before;
    const Assigned answer = assign(set, results);
    put_assign(set, before);
    say_assign(answer, results);
}

void Trial::ask_assign_again(const Set& set, const List& before, const Order& order) {
    List results = before, results_again = in_order(before, order);
    const Assigned first = assign(set, results);
    const Assigned again = assign(in_order(set, order), results_again);
    const Assigned moved = rearranged(first, set, results, order, again);
    const List results_moved = in_order(results, order);
    must_agree(moved == again && results_moved == results_again);
    put_assign(in_order(set, order), in_order(before, order));
    say_assign(moved, results_moved);
}

// ---------------------------------------------------------------- simulator

void Trial::put_simulate(const Set& set, const List& deadlines, const List& asks,
                         const List& before, const Totals& totals) {
    put(in, 2);
    put(in, set);
    put(in, deadlines);
    put(in, asks);
    put(in, before);
    put(in, totals.busy);
    put(in, totals.idle);
    end_line(in);
    ++count[2];
}

void Trial::say_simulate(const Simulated& answer, const Totals& totals, const List& finishes) {
    if (answer.refused) {
        say(out, *answer.refused);
    } else {
        out += "ran";
        say(out, answer.end);
    }
    out += " :";
    say(out, totals.busy);
    say(out, totals.idle);
    say_list(out, finishes);
    out += '\n';
}

void Trial::ask_simulate(const Set& set, const List& deadlines, const List& asks,
                         const List& before, const Totals& totals_before) try {
    List finishes = before;
    Totals totals = totals_before;
    const Simulated answer = simulate(set, deadlines, asks, finishes, totals);
    put_simulate(set, deadlines, asks, before, totals_before);
    say_simulate(answer, totals, finishes);
} catch (const TooManyTicks&) {
}

void Trial::ask_simulate_again(const Set& set, const List& deadlines, const List& asks,
                               const List& before, const Totals& totals_before,
                               const Order& order) try {
    const Set set_moved = in_order(set, order);
    const List deadlines_moved = in_order(deadlines, order), asks_moved = in_order(asks, order);
    List finishes = before, finishes_again = in_order(before, order);
    Totals totals = totals_before, totals_again = totals_before;
    const Simulated first = simulate(set, deadlines, asks, finishes, totals);
    const Simulated again =
        simulate(set_moved, deadlines_moved, asks_moved, finishes_again, totals_again);
    // The end and the totals are the same, the finishes go with their sub-jobs.
    const Simulated moved{rearranged(first.refused, order, again.refused), first.end};
    const List finishes_moved = in_order(finishes, order);
    must_agree(moved == again && totals == totals_again && finishes_moved == finishes_again);
    put_simulate(set_moved, deadlines_moved, asks_moved, in_order(before, order), totals_before);
    say_simulate(moved, totals, finishes_moved);
} catch (const TooManyTicks&) {
}

// ---------------------------------------------------------------- checker

void Trial::put_check(const Set& set, const List& proposed) {
    put(in, 3);
    put(in, set);
    put(in, proposed);
    end_line(in);
    ++count[3];
}

void Trial::say_check(const Refused& answer) {
    say(out, answer, "accepted");
    out += '\n';
}

void Trial::ask_check(const Set& set, const List& proposed) try {
    const Refused answer = check(set, proposed);
    put_check(set, proposed);
    say_check(answer);
} catch (const TooManyTicks&) {
}

void Trial::ask_check_again(const Set& set, const List& proposed, const Order& order) try {
    const Refused first = check(set, proposed);
    const Refused again = check(in_order(set, order), in_order(proposed, order));
    const Refused moved = rearranged(first, order, again);
    must_agree(moved == again);
    put_check(in_order(set, order), in_order(proposed, order));
    say_check(moved);
} catch (const TooManyTicks&) {
}

// ---------------------------------------------------------------- table

void Trial::put_table(const std::string& text) {
    put(in, 4);
    put(in, text.size());
    end_line(in);
    in += text + '\n';
    ++count[4];
}

void Trial::say_table(const std::string& output) {
    out += std::to_string(output.size()) + '\n' + output + '\n';
}

void Trial::ask_table(const std::string& text) try {
    const std::string output = table(text);
    put_table(text);
    say_table(output);
} catch (const TooManyTicks&) {
}

void Trial::ask_table_again(const std::string& text, const Order& order) try {
    const std::string text_moved = rearranged_text(text, order);
    const std::string again = table(text_moved);
    const std::string moved = rearranged_answer(table(text), order, again);
    must_agree(moved == again);
    put_table(text_moved);
    say_table(moved);
} catch (const TooManyTicks&) {
}

// ---------------------------------------------------------------- critical times

void Trial::ask_critical(const Graph& graph, const List& before) {
    List results = before;
    const Refused answer = critical_times(graph, results);
    put(in, 5);
    put(in, graph.execution, 160);
    for (const List* list : {&graph.before, &graph.after, &graph.hop}) put(in, *list, 1100);
    put(in, before, 160);
    end_line(in);
    ++count[5];
    say(out, answer, "found");
    say_list(out, results);
    out += '\n';
}

void Trial::ask_critical_again(const Graph& graph, const List& before, const Graph& told) {
    List results = before, results_again = before;
    const Refused first = critical_times(graph, results);
    must_agree(critical_times(told, results_again) == first && results_again == results);
    ask_critical(told, before);
}

// ---------------------------------------------------------------- rooms

void Trial::put_room(const Room& room, const Outcome& before) {
    put(in, 6);
    const Set& sets = room.sets;
    for (const List* list :
         {&sets.job, &sets.subtask, &sets.release, &sets.execution, &sets.deadline, &sets.critical})
        put(in, *list, 4200);
    put(in, room.lengths, 48);
    put(in, before.deadlines, 4200);
    put(in, before.numbers, 48);
    put(in, before.places, 48);
    end_line(in);
    ++count[6];
}

void Trial::say_room(const Refused& answer, const Outcome& after) {
    say(out, answer, "assigned");
    for (const List* list : {&after.deadlines, &after.numbers, &after.places}) {
        say_list(out, *list);
        out += '\n';
    }
}

void Trial::ask_room(const Room& room, const Outcome& before) {
    const RoomCall call = answered(room, before);
    put_room(room, before);
    say_room(call.refused, call.after);
}

void Trial::ask_room_again(const RoomCall& made) {
    const RoomCall again = answered(made.room, made.before);
    must_agree(again.refused == made.refused && again.after == made.after);
    put_room(made.room, made.before);
    say_room(made.refused, made.after);
}

// ---------------------------------------------------------------- the end

void Trial::ask_end() {
    put(in, 0);
    end_line(in);
}
