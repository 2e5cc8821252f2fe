// The second program's checks of itself: the rules' own cases, each thing that the rules say in two
// ways, compared on many small sets, and the same sets rearranged.
#include "self.hpp"
#include "commands.hpp"
#include "sets.hpp"

#include <iostream>
#include <map>
#include <numeric>

void expect(bool holds, const std::string& what) {
    if (holds) return;
    ++failures;
    std::cerr << "fails: " << what << "\n";
}

// ---------------------------------------------------------------- P1 to P12

static void expect_placed(const std::string& name, const Set& set, const List& deadlines, i64 slack,
                          std::size_t place) {
    List results(set.job.size(), 77);
    const Assigned answer = assign(set, results);
    expect(!answer.refused && !answer.nothing && results == deadlines && answer.slack == slack &&
               answer.place == place,
           name);
}

static void expect_refused_5(const std::string& name, const Set& set, std::size_t place,
                             i64 completed, i64 limit) {
    const List before(set.job.size(), 77);
    List results = before;
    const Refused refused = assign(set, results).refused;
    expect(refused && refused->number == 5 && refused->place == place &&
               refused->completion == completed && refused->bound == limit && results == before,
           name);
}

static void expect_checked(const std::string& name, const Set& set, const List& proposed,
                           u32 number, std::size_t place) {
    const Refused refused = check(set, proposed);
    expect(number == 0 ? !refused : refused && refused->number == number && refused->place == place,
           name);
}

static void edges_of_the_rules() {
    List none;
    const Assigned empty = assign({}, none);
    expect(!empty.refused && empty.nothing, "P1");
    expect_placed("P2", p2(), {1}, 0, 0);
    expect_refused_5("P3", p3(), 0, 2, 1);
    expect_placed("P4", p4(), {2, 9, 8, 7}, 28, 3);
    expect(base_by_all_subsets(p4(), {0, 1, 2, 3}) == Places{1, 2, 3}, "P4's first base subset");
    expect(completion(p4(), {1, 2, 3}) == 9, "P4's first completion");
    expect_placed("P5", p5(), {4, 7}, 3, 1);
    expect_placed("P6", p6(), {5, 3}, 4, 0);
    expect_refused_5("P7", p7(), 0, 1, -2);
    expect_refused_5("P8", p8(), 0, 4, 3);
    expect_placed("P9", p9(), {1'001'000'000}, 999'000'000, 0);

    const std::vector<List> placed = {{100, 170}, {300, 730}, {400, 830}, {1100, 930}};
    const std::vector<i64> slacks = {100, 0, 0, 0};
    const Places tightest = {0, 1, 1, 0};
    for (std::size_t core = 0; core < 4; ++core)
        expect_placed("the paper's table 2", table_2()[core], placed[core], slacks[core],
                      tightest[core]);

    List finishes(4, 77);
    Totals totals{100, 200};
    const Simulated p10 = simulate(p4(), {2, 9, 8, 7}, {2, 1, 0, 5}, finishes, totals);
    expect(!p10.refused && p10.end == 7 && finishes == List{2, 5, 5, 7} && totals.busy == 104 &&
               totals.idle == 203,
           "P10");
    expect_checked("P11 accepted", p5(), {7, 7}, 0, 0);
    expect_checked("P11 refused", p5(), {3, 7}, 6, 0);
    expect_checked("P12", p8(), {3, 2}, 7, 0);

    Set wrong = set_of({{0, 0, 9}, {0, 1, 9}, {0, 1, 9}});
    wrong.job = {1, 2, 2};
    const Refused refused = numbers_1_to_4(wrong, {});
    expect(refused && refused->number == 3 && refused->place == 0 && refused->field == EXECUTION,
           "execution 0 at place 0 and equal pairs at 1 and 2");
    const std::vector<std::array<u32, 3>> triples(129, {0, 1, 500});
    expect(numbers_1_to_4(set_of(triples), {})->number == 2, "129 sub-jobs");
    expect(!numbers_1_to_4(set_of({triples.begin() + 1, triples.end()}), {}), "128 sub-jobs");

    expect(table(plain_table(p4())) ==
               "job,subtask,deadline,finish,slack\r\n"
               "1,1,2,2,33\r\n2,1,9,9,33\r\n3,1,8,8,31\r\n4,1,7,7,28\r\n",
           "the worked example");
    expect(table(plain_table(p3())) == "refused,5,2\r\n", "P3 as the only record");
}

// ---------------------------------------------------------------- said in two ways

// The tails give the base subset of all subsets, whatever has been taken out so far.
static void tails_against_all_subsets(const Set& set) {
    Places remaining(set.job.size());
    std::iota(remaining.begin(), remaining.end(), 0);
    while (!remaining.empty()) {
        const Places base = base_by_all_subsets(set, remaining);
        expect(base == base_by_tails(set, remaining), "tails against all subsets");
        std::erase(remaining, base[base.size() / 2]);
    }
}

// No other subset has the base subset's completion and smallest release: "the" base subset is one.
static bool no_tie_at_the_base(const Set& set) {
    Places all(set.job.size());
    std::iota(all.begin(), all.end(), 0);
    const Places base = base_by_all_subsets(set, all);
    int reaching = 0;
    for (u32 mask = 1; mask < u32{1} << all.size(); ++mask) {
        Places subset;
        for (std::size_t place : all)
            if (mask >> place & 1) subset.push_back(place);
        if (completion(set, subset) == completion(set, base) &&
            smallest_release(set, subset) == smallest_release(set, base))
            ++reaching;
    }
    return reaching == 1;
}

// (6) and (7) over all subsets against "no finish after its deadline".
static void conditions_against_finishes(const Set& set, const List& proposed,
                                        std::array<int, 3>& seen) {
    bool six = true, in_time = true;
    const List finish = run_core(set, proposed, set.execution).finish;
    for (std::size_t place = 0; place < proposed.size(); ++place) {
        six = six && condition_6(set, proposed, place);
        in_time = in_time && finish[place] <= proposed[place];
    }
    const bool seven = condition_7(set, proposed);
    if (six) expect(seven == in_time, "condition (7) against the finishes");
    const Refused refused = check(set, proposed);
    expect(!refused == (six && seven), "the checker against conditions (6) and (7)");
    ++seen[!six ? 1 : !seven ? 2 : 0];
}

// What an accepted set promises: (6) and (7), and every finish exactly at its local deadline.
static void accepted_sets(const Set& set, std::array<int, 2>& seen) {
    List local(set.job.size());
    const Assigned answer = assign(set, local);
    ++seen[answer.refused ? 1 : 0];
    if (answer.refused) return;
    expect(!check(set, local), "the checker accepts what was assigned");
    const Run run = run_core(set, local, set.execution);
    expect(run.finish == local, "finishes exactly at the local deadlines");
    expect(run.busy + run.idle == run.end, "busy and idle ticks make up the run");
}

// ---------------------------------------------------------------- rearranged

// A set's list in another order.
struct Rearranged {
    const Set& set;
    Order order;
    Set moved = in_order(set, order);
};

// What each sub-job has in a list, by its job and subtask: the same wherever it stands.
static std::map<std::pair<u32, u32>, u32> by_pair(const Set& set, const List& list) {
    std::map<std::pair<u32, u32>, u32> numbers;
    for (std::size_t place = 0; place < list.size(); ++place)
        numbers[{set.job[place], set.subtask[place]}] = list[place];
    return numbers;
}

static bool same_pair(const Set& set, std::size_t place, const Set& other, std::size_t there) {
    return set.job[place] == other.job[there] && set.subtask[place] == other.subtask[there];
}

static void rearranged_assignment(const Rearranged& r) {
    List local(r.order.size()), local_moved(r.order.size());
    const Assigned first = assign(r.set, local), again = assign(r.moved, local_moved);
    const bool stays = number_of(again.refused) == number_of(first.refused);
    expect(stays, "rearranged, accepted and number 5 stay");
    if (!stays) return;
    if (first.refused) {
        expect(again.refused->completion == first.refused->completion &&
                   again.refused->bound == first.refused->bound &&
                   same_pair(r.set, first.refused->place, r.moved, again.refused->place),
               "rearranged, number 5 is of the same sub-job");
        return;
    }
    expect(by_pair(r.set, local) == by_pair(r.moved, local_moved),
           "rearranged, each keeps its deadline");
    const auto slack_at = [&](std::size_t place) {
        return bound(r.moved, place) - local_moved[place];
    };
    bool smallest = slack_at(again.place) == first.slack;
    for (std::size_t place = 0; place < again.place; ++place)
        smallest = smallest && slack_at(place) > first.slack;
    expect(again.slack == first.slack && smallest,
           "rearranged, the least slack stays, at the smallest place that has it");
}

static void rearranged_run(const Rearranged& r, const List& deadlines, const List& asks,
                           const Totals& before) {
    List finishes(r.order.size()), finishes_moved(r.order.size());
    Totals totals = before, totals_moved = before;
    const Simulated first = simulate(r.set, deadlines, asks, finishes, totals);
    const Simulated again = simulate(r.moved, in_order(deadlines, r.order),
                                     in_order(asks, r.order), finishes_moved, totals_moved);
    expect(first == again && totals == totals_moved, "rearranged, end, totals and number 8 stay");
    expect(by_pair(r.set, finishes) == by_pair(r.moved, finishes_moved),
           "rearranged, each keeps its finish");
}

static void rearranged_check(const Rearranged& r, const List& proposed) {
    expect(number_of(check(r.set, proposed)) ==
               number_of(check(r.moved, in_order(proposed, r.order))),
           "rearranged, accepted and numbers 6 and 7 stay");
}

// Numbers 1 to 4; 1 if the list beside the six is longer than they are.
static void rearranged_faults(const Rearranged& r, std::size_t longer) {
    const std::vector<std::size_t> others = {r.order.size() + longer};
    expect(number_of(numbers_1_to_4(r.set, others)) == number_of(numbers_1_to_4(r.moved, others)),
           "rearranged, numbers 1 to 4 stay");
}

// Sets with a tie for the first base sub-job, with one among a job's own subtasks, and with one for
// the least slack.
struct Ties {
    int bounds = 0, within_a_job = 0, slacks = 0;

    void look_at(const Set& set) {
        Places all(set.job.size());
        std::iota(all.begin(), all.end(), 0);
        const Places base = base_by_all_subsets(set, all);
        const std::size_t chosen = base_subjob(set, base);
        int equal = 0, of_the_job = 0, least = 0;
        for (std::size_t place : base) {
            if (bound(set, place) != bound(set, chosen)) continue;
            ++equal;
            of_the_job += set.job[place] == set.job[chosen];
        }
        List local(all.size());
        const Assigned answer = assign(set, local);
        for (std::size_t place : all)
            least += !answer.refused && bound(set, place) - local[place] == answer.slack;
        bounds += equal > 1;
        within_a_job += of_the_job > 1;
        slacks += least > 1;
    }
};

static List small_list(Dice& dice, std::size_t n, u32 sides) {
    List list(n);
    for (u32& number : list) number = dice.below(sides);
    return list;
}

static void rearranged_sets(Dice& dice, const Set& set, const List& proposed, Ties& ties) {
    const std::size_t n = set.job.size();
    const Rearranged r{set, random_order(dice, n)};
    ties.look_at(set);
    rearranged_assignment(r);
    rearranged_check(r, proposed);
    const List deadlines = small_list(dice, n, 3), asks = small_list(dice, n, 5);
    const u64 idle = dice.chance(10) ? 1'000'000'000'000'000'000 - dice.below(20) : 6;
    rearranged_run(r, deadlines, asks, {5, idle});
    rearranged_run(r, proposed, set.execution, {5, idle});

    Set wrong = set;
    make_wrong(dice, wrong);
    rearranged_faults({wrong, r.order}, dice.chance(10) ? 1 : 0);
}

// ---------------------------------------------------------------- the command

int check_self() {
    edges_of_the_rules();

    Dice dice(1);
    std::array<int, 2> assigned{};
    std::array<int, 3> checked{};
    Ties ties;
    for (int k = 0; k < 20'000; ++k) {
        const u32 n = dice.chance(5) ? dice.between(8, FEW) : dice.between(1, 7);
        const Set set = dice.chance(25) ? tied_set(dice, n) : random_set(dice, n);
        const List proposed = random_proposal(dice, set);
        tails_against_all_subsets(set);
        if (k % 10 == 0) expect(no_tie_at_the_base(set), "one base subset");
        conditions_against_finishes(set, proposed, checked);
        accepted_sets(set, assigned);
        rearranged_sets(dice, set, proposed, ties);
        if (failures > 20) break;
    }
    const Set many = tied_set(dice, MOST_SUBJOBS + 1);
    rearranged_faults({many, random_order(dice, MOST_SUBJOBS + 1)}, 0);
    check_graphs();
    check_rooms();
    if (failures == 0)
        expect(ties.bounds > 2000 && ties.within_a_job > 1000 && ties.slacks > 2000,
               "many ties");
    std::cout << "sets placed " << assigned[0] << ", refused by 5 " << assigned[1]
              << "; proposals accepted " << checked[0] << ", against (6) " << checked[1]
              << ", against (7) " << checked[2] << "\n"
              << "rearranged with a tie of bounds " << ties.bounds << ", within a job "
              << ties.within_a_job << ", of least slacks " << ties.slacks << "; failures "
              << failures << "\n";
    return failures == 0 ? 0 : 1;
}
