// The room side of the bench: charoktan_room beside one call per set, on rooms of 32 sets. Each is
// the mode of bench.cpp that it is named after, and returns the program's exit status.
#pragma once

#include <cstdint>
#include <string_view>

namespace rooms {

int agree();
int calls(std::string_view name, std::string_view kind, uint32_t size, uint32_t rounds);
int stack();
int times(std::string_view kind, uint32_t size);

} // namespace rooms
