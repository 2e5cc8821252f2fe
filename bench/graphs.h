// The graph side of the bench: charoktan_critical and its baseline on random job graphs. Each is
// the mode of bench.cpp that it is named after, and returns the program's exit status.
#pragma once

#include <cstdint>
#include <string_view>

namespace graphs {

int agree();
int calls(std::string_view name, std::string_view kind, uint32_t size, uint32_t rounds);
int stack();

} // namespace graphs
