// The answer to a call on a rearranged list, made from the answer to the list as it was by what
// docs/RULES.md says of rearranging. The rules are not asked again for it, with one exception: of
// numbers 3, 4, 6 and 7 only the number stays, so their place is taken from `again`, the rules'
// answer to the rearranged list.
#pragma once

#include "sets.hpp"

Refused rearranged(const Refused& first, const Order& order, const Refused& again);

// `set` and `results` are those of the first call, after it.
Assigned rearranged(const Assigned& first, const Set& set, const List& results, const Order& order,
                    const Assigned& again);

// Throws unless what was made from the first answer is what the rules say.
void must_agree(bool agree);

// A table's text with its records in another order, and the answer to it if every record is
// well-formed. The header stays the first line, and the last line has a line end if it had one.
std::size_t count_records(const std::string& text);
std::string rearranged_text(const std::string& text, const Order& order);
std::string rearranged_answer(const std::string& first, const Order& order,
                              const std::string& again);
