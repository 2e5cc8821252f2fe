// Random calls of the engine's door: sets, graphs and rooms as bytes, damaged here and there.
#include "calls.hpp"
#include "graphs.hpp"
#include "rearranged.hpp"
#include "rooms.hpp"

#include <algorithm>

const Entry& entry(Kind kind) {
    static const Entry entries[] = {
        {"assign", {"records", "deadlines"}},
        {"check", {"records", "deadlines"}},
        {"critical", {"executions", "arcs", "results"}},
        {"room", {"records", "lengths", "deadlines", "numbers", "places"}}};
    return entries[kind - 1];
}

static Reply expected(const Call& call) {
    Reply reply{0, call.slices};
    auto& [a, b, c, d, e] = reply.slices;
    switch (call.kind) {
    case ASSIGN: reply.returned = door_assign(a, b); break;
    case CHECK: reply.returned = door_check(a, b); break;
    case CRITICAL_TIMES: reply.returned = door_critical(a, b, c); break;
    case ROOM: reply.returned = door_room(a, b, c, d, e);
    }
    return reply;
}

// ---------------------------------------------------------------- slices

static Bytes random_bytes(Dice& dice, std::size_t n) {
    Bytes bytes(n);
    for (u8& byte : bytes) byte = static_cast<u8>(dice.next());
    return bytes;
}

// A length that does not fit: some bytes or whole entries more or fewer, or none.
static void damage_length(Dice& dice, Bytes& bytes) {
    const u32 by = dice.one_of({1, 2, 3, 4, 8, 12, 20, 23, 24, 25});
    if (dice.chance(10))
        bytes.clear();
    else if (dice.chance(50))
        bytes.resize(bytes.size() + by, 1);
    else
        bytes.erase(bytes.begin(), bytes.begin() + std::min<std::ptrdiff_t>(std::ssize(bytes), by));
}

// A slice of entries of one width, in another order.
static Bytes in_order(const Bytes& bytes, const Order& order, std::ptrdiff_t width) {
    Bytes moved;
    for (std::size_t place : order) {
        const auto from = bytes.begin() + static_cast<std::ptrdiff_t>(place) * width;
        moved.insert(moved.end(), from, from + width);
    }
    return moved;
}

// ---------------------------------------------------------------- sets

static std::size_t random_count(Dice& dice) {
    const u32 roll = dice.below(1000);
    if (roll < 20) return 0;
    if (roll < 800) return dice.between(1, 6);
    if (roll < 970) return dice.between(7, 9);
    if (roll < 985) return dice.between(10, 12);
    if (roll < 997) return dice.between(13, 60);
    return dice.between(120, 130);
}

static void lend_set(Dice& dice, Call& call) {
    const std::size_t n = random_count(dice);
    const u32 roll = dice.below(100);
    Set set = roll < 4    ? set_at_range_ends(dice, n)
              : roll < 20 ? tied_set(dice, n)
                          : random_set(dice, n);
    while (n > 0 && dice.chance(7)) make_wrong(dice, set);
    Bytes &records = call.slices[0], &deadlines = call.slices[1];
    records = encode(set);
    if (call.kind == ASSIGN)
        deadlines = random_bytes(dice, 4 * n);
    else
        deadlines = encode(random_proposal(dice, set));
}

static Refused refused(u32 returned) {
    if (returned == 0) return {};
    return Refusal{.number = returned % 65'536, .place = returned / 65'536};
}

// A call whose slices fit, on the same records in another order. The reply is made from the first
// one's and must be the rules' own.
static Case rearranged_set(Dice& dice, const Case& first) {
    const Bytes &records = first.call.slices[0], &deadlines = first.call.slices[1];
    const Order order = random_order(dice, records.size() / 24);
    const Call call{first.call.kind,
                    first.call.placement,
                    {in_order(records, order, 24), in_order(deadlines, order, 4)}};
    const Reply again = expected(call);
    const Refused moved = rearranged(refused(first.reply.returned), order, refused(again.returned));
    const Reply reply{moved ? moved->number + 65'536 * static_cast<u32>(moved->place) : 0,
                      {call.slices[0], in_order(first.reply.slices[1], order, 4)}};
    must_agree(reply == again);
    return {call, reply, true};
}

// ---------------------------------------------------------------- graphs

// Mostly so few that every path is looked at, some of all sizes, a few around the limits.
static Graph graph_of_some_size(Dice& dice) {
    const u32 roll = dice.below(1000);
    u32 places = dice.below(8), arcs = dice.below(2 * places + 2);
    if (roll < 60) {
        places = dice.between(1, 30);
        arcs = dice.below(80);
    } else if (roll < 75) {
        places = dice.between(2, 128);
        arcs = dice.below(1025);
    } else if (roll < 80) {
        places = dice.between(120, 130);
        arcs = dice.between(1016, 1028);
    }
    return random_graph(dice, places, arcs);
}

static void lend_graph(Dice& dice, Call& call) {
    Graph graph = graph_of_some_size(dice);
    while (!graph.execution.empty() && dice.chance(20)) close_cycle(dice, graph);
    while (dice.chance(10)) make_wrong(dice, graph);
    Bytes &executions = call.slices[0], &arcs = call.slices[1], &results = call.slices[2];
    executions = encode(graph.execution);
    arcs = encode_arcs(graph);
    results = random_bytes(dice, executions.size());
}

// An accepted call or one refused by 21 with its graph told otherwise: the reply is the same, and
// must be the rules' own.
static Case told_again(Dice& dice, const Case& first) {
    const Graph graph = decode_graph(first.call.slices[0], first.call.slices[1]);
    Case again = first;
    again.call.slices[1] = again.reply.slices[1] = encode_arcs(told_otherwise(dice, graph));
    must_agree(expected(again.call) == again.reply);
    again.again = true;
    return again;
}

// ---------------------------------------------------------------- rooms

// Mostly a few sets, some of all numbers up to the most and beyond it, a few around the most
// places.
static Room room_of_some_size(Dice& dice) {
    const u32 roll = dice.below(1000);
    if (roll < 4) return crowded_room(dice);
    const u32 sets = roll < 40   ? dice.between(32, 34)
                     : roll < 80 ? dice.between(7, 31)
                                 : dice.below(7);
    return random_room(dice, sets, 1);
}

static Slices encode(const Room& room, const Outcome& outcome) {
    return {encode(room.sets), encode(room.lengths), encode(outcome.deadlines),
            encode(outcome.numbers), encode(outcome.places)};
}

static void lend_room(Dice& dice, Call& call) {
    Room room = room_of_some_size(dice);
    if (dice.chance(6)) make_sum_wrong(dice, room);
    call.slices = encode(room, random_outcome(dice, room));
}

// A room with sets of one that was not refused, and with others. What each set gets was answered
// with the room it comes from, and must be the rules' own here too.
static Case mixed_room(Dice& dice, const Case& first) {
    const auto& [records, lengths, deadlines, numbers, places] = first.call.slices;
    const Slices& after = first.reply.slices;
    const RoomCall one{decode_room(records, lengths),
                       decode_outcome(deadlines, numbers, places),
                       decode_outcome(after[2], after[3], after[4]),
                       {}};
    const Room others = random_room(dice, 2, 0);
    const RoomCall made = mixed(dice, one, answered(others, random_outcome(dice, others)));
    const Call call{ROOM, first.call.placement, encode(made.room, made.before)};
    const Reply reply{0, encode(made.room, made.after)};
    must_agree(expected(call) == reply);
    return {call, reply, true};
}

// ---------------------------------------------------------------- cases

static Call random_call(Dice& dice) {
    Call call;
    const u32 roll = dice.below(16);
    call.kind = roll < 2 ? ROOM : roll < 6 ? CRITICAL_TIMES : roll < 11 ? ASSIGN : CHECK;
    call.placement = dice.below(64);
    if (call.kind == ROOM)
        lend_room(dice, call);
    else if (call.kind == CRITICAL_TIMES)
        lend_graph(dice, call);
    else
        lend_set(dice, call);
    for (std::size_t k = 0; k < entry(call.kind).slices.size(); ++k)
        if (dice.chance(3)) damage_length(dice, call.slices[k]);
    return call;
}

// A call with its answer. Where the checker would need too many single ticks, the same bytes go to
// the assignment instead, which needs none.
static Case random_case(Dice& dice) {
    Call call = random_call(dice);
    try {
        return {call, expected(call)};
    } catch (const TooManyTicks&) {
        call.kind = ASSIGN;
        return {call, expected(call)};
    }
}

// Whether the rules say what becomes of a case in another order.
static bool stays(const Case& one) {
    const u32 number = one.reply.returned % 65'536;
    switch (one.call.kind) {
    case CRITICAL_TIMES: return number == 0 || number == 21;
    case ROOM: return number == 0;
    default: return number != 1;
    }
}

static Case once_more(Dice& dice, const Case& first) {
    switch (first.call.kind) {
    case CRITICAL_TIMES: return told_again(dice, first);
    case ROOM: return mixed_room(dice, first);
    default: return rearranged_set(dice, first);
    }
}

std::vector<Case> random_batch(Dice& dice, u64 size) {
    std::vector<Case> batch;
    while (batch.size() < size) {
        batch.push_back(random_case(dice));
        const Case& first = batch.back();
        if (!stays(first) || batch.size() == size || !dice.chance(25)) continue;
        batch.push_back(once_more(dice, first));
    }
    return batch;
}
