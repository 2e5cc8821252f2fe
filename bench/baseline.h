// What the library is measured against: the same door, written in plain C++ as one would for a
// console: no allocation, fixed arrays, std::sort and std::push_heap. Sets are in baseline.cpp, job
// graphs in baseline_graph.cpp.
#pragma once

#include <cstddef>
#include <cstdint>

namespace baseline {

// A refusal as the door returns it.
inline uint32_t refused(uint32_t number, size_t place)
{
    return number + 65536U * static_cast<uint32_t>(place);
}

// The paper's Algorithm 2: in each step every tail's completion is added up afresh.
uint32_t assign_paper(const uint8_t *records, size_t records_len, uint8_t *deadlines,
                      size_t deadlines_len);

// The same with one pass per step: from the latest release to the earliest, carrying the sum.
uint32_t assign_one_pass(const uint8_t *records, size_t records_len, uint8_t *deadlines,
                         size_t deadlines_len);

// The checker by a run of the core from event to event, the waiting ones in a binary heap.
uint32_t check_events(const uint8_t *records, size_t records_len, const uint8_t *deadlines,
                      size_t deadlines_len);

// Critical times: the longest paths over a topological order, one relaxation per arc.
uint32_t critical_topological(const uint8_t *executions, size_t executions_len, const uint8_t *arcs,
                              size_t arcs_len, uint8_t *results, size_t results_len);

} // namespace baseline
