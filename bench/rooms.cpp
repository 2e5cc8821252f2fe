// Rooms made with dice. A kind is one of sets.h, whose 32 sets of a size are then one room, or
// `mixed`: rooms of 32 accepted sets of any sizes up to the one given.

#include "rooms.h"

#include "baseline.h"
#include "charoktan.h"
#include "measure.h"
#include "sets.h"

#include <chrono>

namespace {

using Numbers = std::vector<uint32_t>;

// What is lent to one call.
struct Lent {
    measure::Bytes records;
    measure::Bytes lengths;
    measure::Bytes deadlines;
    measure::Bytes numbers;
    measure::Bytes places;

    bool operator==(const Lent &other) const
    {
        return records == other.records && lengths == other.lengths &&
               deadlines == other.deadlines && numbers == other.numbers && places == other.places;
    }
};

struct Program {
    const char *name;
    uint32_t (*room)(const uint8_t *, size_t, const uint8_t *, size_t, uint8_t *, size_t, uint8_t *,
                     size_t, uint8_t *, size_t);

    [[gnu::always_inline]] uint32_t operator()(Lent &lent) const
    {
        return room(lent.records.data(), lent.records.size(), lent.lengths.data(),
                    lent.lengths.size(), lent.deadlines.data(), lent.deadlines.size(),
                    lent.numbers.data(), lent.numbers.size(), lent.places.data(),
                    lent.places.size());
    }
};

// What a caller does who has the door for one set alone: one call after another. He made the room
// himself, so he does not ask whether its lengths fit.
template <uint32_t (*door)(const uint8_t *, size_t, uint8_t *, size_t)>
uint32_t set_by_set(const uint8_t *records, size_t, const uint8_t *lengths, size_t lengths_len,
                    uint8_t *deadlines, size_t, uint8_t *numbers, size_t, uint8_t *places, size_t)
{
    for (size_t at = 0; at < lengths_len; at += 4) {
        uint32_t length;
        std::memcpy(&length, lengths + at, 4);
        const size_t records_len = length * sizeof(charoktan_subjob);
        const size_t deadlines_len = size_t{length} * 4;
        const uint32_t returned = door(records, records_len, deadlines, deadlines_len);
        const uint32_t number = charoktan_number(returned);
        const uint32_t place = charoktan_place(returned);
        std::memcpy(numbers + at, &number, 4);
        std::memcpy(places + at, &place, 4);
        records += records_len;
        deadlines += deadlines_len;
    }
    return 0;
}

constexpr Program programs[] = {
    {"charoktan_room", charoktan_room},
    {"room_by_assign", set_by_set<charoktan_assign>},
    {"room_by_paper", set_by_set<baseline::assign_paper>},
    {"room_by_one_pass", set_by_set<baseline::assign_one_pass>},
};
constexpr const Program &library = programs[0];

// The sets of a room one after another. Numbers and places hold what no call gives.
Lent room_of(const std::vector<sets::Lent> &sets)
{
    Lent room;
    Numbers lengths;
    for (const sets::Lent &set : sets) {
        room.records.insert(room.records.end(), set.records.begin(), set.records.end());
        room.deadlines.insert(room.deadlines.end(), set.deadlines.begin(), set.deadlines.end());
        lengths.push_back(static_cast<uint32_t>(set.deadlines.size() / 4));
    }
    room.lengths = measure::bytes_of(lengths);
    room.numbers.assign(room.lengths.size(), 0xee);
    room.places.assign(room.lengths.size(), 0xdd);
    return room;
}

// One room of the 32 sets of this kind, or eight of sets of mixed sizes.
std::vector<Lent> rooms_of(std::string_view kind, uint32_t size)
{
    if (kind != "mixed")
        return {room_of(sets::of(kind, size))};
    Dice dice(1000 + size);
    std::vector<Lent> rooms(8);
    for (Lent &room : rooms) {
        std::vector<sets::Lent> sets(32);
        for (sets::Lent &set : sets)
            set = sets::accepted(dice, dice.roll(0, size));
        room = room_of(sets);
    }
    return rooms;
}

// Some lengths other than those of the sets: now and then the sum stays, and then the sets are
// others; or it stays only if it is taken modulo 2^32.
void other_lengths(Dice &dice, Lent &room)
{
    Numbers lengths(room.lengths.size() / 4);
    if (lengths.empty())
        return;
    std::memcpy(lengths.data(), room.lengths.data(), room.lengths.size());
    const auto last = static_cast<uint32_t>(lengths.size()) - 1;
    uint32_t &one = lengths[dice.roll(0, last)];
    uint32_t &other = lengths[dice.roll(0, last)];
    const uint32_t moved = dice.roll(0, 2) == 0 ? 0x80000000U : dice.roll(0, one);
    one -= moved;
    other += dice.roll(0, 3) == 0 ? dice.roll(0, 3) : moved;
    room.lengths = measure::bytes_of(lengths);
}

// Any sets, mostly few and small; some as many as a room may have, or one more or less.
std::vector<sets::Lent> any_sets(Dice &dice)
{
    std::vector<sets::Lent> sets(dice.roll(0, 9) == 0 ? dice.roll(31, 33) : dice.roll(0, 12));
    for (sets::Lent &set : sets)
        set = sets::any(dice);
    return sets;
}

// Large sets, with which a room has nearly the most places, or just too many.
std::vector<sets::Lent> large_sets(Dice &dice)
{
    std::vector<sets::Lent> sets(32);
    uint32_t places = dice.roll(4094, 4098);
    for (sets::Lent &set : sets) {
        const uint32_t size = &set == &sets.back() ? places : dice.roll(124, 131);
        set = sets::any(dice, size);
        places -= size;
    }
    return sets;
}

// A room of any kind, some lengths damaged.
Lent any_room(Dice &dice)
{
    Lent room = room_of(dice.roll(0, 99) == 0 ? large_sets(dice) : any_sets(dice));
    if (dice.roll(0, 9) == 0)
        other_lengths(dice, room);
    for (measure::Bytes *bytes :
         {&room.records, &room.lengths, &room.deadlines, &room.numbers, &room.places})
        if (dice.roll(0, 99) == 0)
            bytes->resize(bytes->size() + dice.roll(0, 8));
    return room;
}

uint32_t number_at(const measure::Bytes &bytes, size_t at)
{
    uint32_t number;
    std::memcpy(&number, bytes.data() + at, 4);
    return number;
}

constexpr uint32_t room_too_large = 22;

// Numbers 1 and 22, in this order; 0 if there is none, and then the sets can be gone through.
uint32_t judge(const Lent &room)
{
    const size_t subjobs = room.records.size() / sizeof(charoktan_subjob);
    if (room.records.size() % sizeof(charoktan_subjob) != 0 ||
        room.deadlines.size() != subjobs * 4 || room.lengths.size() % 4 != 0 ||
        room.numbers.size() != room.lengths.size() || room.places.size() != room.lengths.size())
        return baseline::refused(CHAROKTAN_LENGTHS, 0);
    uint64_t sum = 0;
    for (size_t at = 0; at < room.lengths.size(); at += 4)
        sum += number_at(room.lengths, at);
    if (sum != subjobs)
        return baseline::refused(CHAROKTAN_LENGTHS, 0);
    const bool too_large = room.lengths.size() / 4 > 32 || subjobs > 4096;
    return too_large ? baseline::refused(room_too_large, 0) : 0;
}

// One call per set, in a room that nobody has looked at before.
struct Judged {
    const Program &program;

    uint32_t operator()(Lent &room) const
    {
        const uint32_t number = judge(room);
        return number != 0 ? number : program(room);
    }
};

} // namespace

int rooms::agree()
{
    constexpr uint32_t count = 20000;
    Dice dice(7);
    uint32_t tally[3] = {};
    uint32_t set_tally[6] = {};
    const auto next_is_alike = [&] {
        Lent room = any_room(dice);
        uint32_t returned = 0;
        for (const Program &program : programs)
            if (&program != &library && !measure::alike(library, Judged{program}, room, returned))
                return false;
        ++tally[std::min(returned, 2U)];
        if (library(room) == 0)
            for (size_t at = 0; at < room.numbers.size(); at += 4)
                ++set_tally[number_at(room.numbers, at) % 6];
        return true;
    };
    if (!measure::agree(next_is_alike, count))
        return 1;
    measure::print(library.name, "0, 1 and 22", tally, count);
    std::printf("  their sets by number 0 to 5:");
    for (uint32_t n : set_tally)
        std::printf(" %u", n);
    std::printf("\n");
    return 0;
}

int rooms::calls(std::string_view name, std::string_view kind, uint32_t size, uint32_t rounds)
{
    const Program *program = measure::named(programs, name);
    return program != nullptr ? measure::calls(*program, rooms_of(kind, size), rounds)
                              : measure::no_such_program;
}

// One call per set takes the stack of a call on one set, so only the library's is asked for.
int rooms::stack()
{
    size_t most = 0;
    for (const char *kind : {"accepted", "field", "pair", "late", "mixed"})
        most = std::max(most, measure::depth(library, rooms_of(kind, 128)));
    std::printf("%s %zu\n", library.name, most);
    return 0;
}

// The least time that a room takes each program, over two seconds in which they take turns, so that
// they share what else the machine does. A turn is long enough to forget the program before, which
// may have left caches and branches as this one wants them.
int rooms::times(std::string_view kind, uint32_t size)
{
    using Clock = std::chrono::steady_clock;
    std::vector<Lent> all = rooms_of(kind, size);
    Clock::duration least[std::size(programs)];
    std::fill(std::begin(least), std::end(least), Clock::duration::max());
    uint32_t sum = 0;
    const Clock::time_point end = Clock::now() + std::chrono::seconds(2);
    while (Clock::now() < end)
        for (size_t p = 0; p < std::size(programs); ++p)
            for (uint32_t call = 0; call < 10; ++call) {
                const Clock::time_point start = Clock::now();
                for (Lent &room : all)
                    sum += programs[p](room);
                least[p] = std::min(least[p], Clock::now() - start);
            }
    for (size_t p = 0; p < std::size(programs); ++p) {
        const std::chrono::nanoseconds whole = least[p];
        std::printf("%s %.0f\n", programs[p].name,
                    static_cast<double>(whole.count()) / static_cast<double>(all.size()));
    }
    return sum == 0 ? 0 : 1; // the rooms of every kind fit
}
