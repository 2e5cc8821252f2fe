// The rules of a room of docs/RULES.md, by definition.
#include "room.hpp"

static constexpr List Set::*SIX[] = {&Set::job,       &Set::subtask,  &Set::release,
                                     &Set::execution, &Set::deadline, &Set::critical};

// ---------------------------------------------------------------- refusals 1 and 22

bool add_up(const List& lengths, std::size_t places) {
    u64 sum = 0;
    for (u32 length : lengths) {
        sum += length;
        // It only grows. Let alone from here on, it cannot come round to the number of places.
        if (sum > places) return false;
    }
    return sum == places;
}

Refused faults(const Room& room, const Outcome& outcome) {
    const std::size_t places = outcome.deadlines.size(), sets = room.lengths.size();
    for (List Set::*list : SIX)
        if ((room.sets.*list).size() != places) return Refusal{.number = 1};
    if (outcome.numbers.size() != sets || outcome.places.size() != sets)
        return Refusal{.number = 1};
    if (!add_up(room.lengths, places)) return Refusal{.number = 1};

    if (sets > MOST_SETS || places > MOST_PLACES) return Refusal{.number = 22};

    return {};
}

// ---------------------------------------------------------------- cutting and putting together

static List stretch(const List& list, std::size_t start, std::size_t length) {
    const auto from = list.begin() + static_cast<std::ptrdiff_t>(start);
    return {from, from + static_cast<std::ptrdiff_t>(length)};
}

static void append(List& list, const List& more) {
    list.insert(list.end(), more.begin(), more.end());
}

std::vector<Part> cut(const Room& room, const Outcome& outcome) {
    std::vector<Part> parts;
    std::size_t start = 0;
    for (std::size_t k = 0; k < room.lengths.size(); ++k) {
        const std::size_t length = room.lengths[k];
        Part part{
            {}, stretch(outcome.deadlines, start, length), outcome.numbers[k], outcome.places[k]};
        for (List Set::*list : SIX) part.set.*list = stretch(room.sets.*list, start, length);
        parts.push_back(part);
        start += length;
    }
    return parts;
}

Room room_of(const std::vector<Part>& parts) {
    Room room;
    for (const Part& part : parts) {
        for (List Set::*list : SIX) append(room.sets.*list, part.set.*list);
        room.lengths.push_back(static_cast<u32>(part.set.job.size()));
    }
    return room;
}

Outcome outcome_of(const std::vector<Part>& parts) {
    Outcome outcome;
    for (const Part& part : parts) {
        append(outcome.deadlines, part.deadlines);
        outcome.numbers.push_back(part.number);
        outcome.places.push_back(part.place);
    }
    return outcome;
}

// ---------------------------------------------------------------- the call

Refused assign_room(const Room& room, Outcome& outcome) {
    if (const Refused refused = faults(room, outcome)) return refused;
    std::vector<Part> parts = cut(room, outcome);
    for (Part& part : parts) {
        // A set that is refused leaves its part of the deadlines alone, and the next one is asked.
        const Refused refused = assign(part.set, part.deadlines).refused;
        part.number = refused ? refused->number : 0;
        part.place = refused ? static_cast<u32>(refused->place) : 0;
    }
    outcome = outcome_of(parts);
    return {};
}
