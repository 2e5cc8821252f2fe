// Answers to rearranged lists, from the answers to the lists as they were.
#include "rearranged.hpp"

#include <algorithm>
#include <stdexcept>

void must_agree(bool agree) {
    if (!agree) throw std::logic_error("the rules answer otherwise than the first answer says");
}

Refused rearranged(const Refused& first, const Order& order, const Refused& again) {
    Refused moved = first;  // 1, 2 and 8 have place 0 in every order
    if (!first) return moved;
    const u32 number = first->number;
    if (number == 5) moved->place = new_place(order, first->place);
    if (number == 3 || number == 4 || number == 6 || number == 7) {
        must_agree(again && again->number == number);
        moved = again;
    }
    return moved;
}

Assigned rearranged(const Assigned& first, const Set& set, const List& results, const Order& order,
                    const Assigned& again) {
    Assigned moved = first;
    moved.refused = rearranged(first.refused, order, again.refused);
    if (moved.refused || moved.nothing) return moved;
    const auto slack = [&](std::size_t place) { return bound(set, place) - results[place]; };
    moved.place = 0;
    while (moved.place < order.size() && slack(order[moved.place]) != first.slack) ++moved.place;
    return moved;
}

// ---------------------------------------------------------------- tables

static const std::string LINE_END = "\r\n";

// A text's lines without their line ends; an end behind the last line starts no other. There is
// always a first line.
static std::vector<std::string> lines_of(const std::string& text) {
    std::vector<std::string> lines;
    std::size_t at = 0;
    do {
        const std::size_t end = std::min(text.find(LINE_END, at), text.size());
        lines.push_back(text.substr(at, end - at));
        at = end + LINE_END.size();
    } while (at < text.size());
    return lines;
}

std::size_t count_records(const std::string& text) { return lines_of(text).size() - 1; }

std::string rearranged_text(const std::string& text, const Order& order) {
    const std::vector<std::string> lines = lines_of(text);
    std::string moved = lines.front() + LINE_END;
    for (std::size_t place : order) moved += lines[place + 1] + LINE_END;
    if (!text.ends_with(LINE_END)) moved.resize(moved.size() - LINE_END.size());
    return moved;
}

std::string rearranged_answer(const std::string& first, const Order& order,
                              const std::string& again) {
    if (!first.starts_with("refused")) return rearranged_text(first, order);
    const std::size_t comma = first.rfind(',');
    const std::string refused = first.substr(0, comma + 1);  // with the number
    if (refused == "refused,3," || refused == "refused,4,") {
        must_agree(again.starts_with(refused));
        return again;
    }
    if (refused != "refused,5,") return first;
    const std::size_t line = std::stoul(first.substr(comma + 1));
    return refused + std::to_string(new_place(order, line - 2) + 2) + LINE_END;
}
