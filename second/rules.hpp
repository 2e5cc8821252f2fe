// The rules of docs/RULES.md, written as they are there: every subset is looked at, every tick in
// which something is served is one turn of a loop. Nothing here is proved and nothing is fast; read
// it beside that page.
#pragma once

#include <cstddef>
#include <cstdint>
#include <optional>
#include <string>
#include <vector>

using u8 = std::uint8_t;
using u32 = std::uint32_t;
using u64 = std::uint64_t;
using i64 = std::int64_t;

using List = std::vector<u32>;            // one number per place
using Places = std::vector<std::size_t>;  // some of a set's places, rising
using Bytes = std::vector<u8>;

// "A sub-job": six numbers, held in six lists. The lists of a damaged set differ in length.
struct Set {
    List job, subtask, release, execution, deadline, critical;
};

constexpr std::size_t MOST_SUBJOBS = 128;
constexpr u32 LONGEST_EXECUTION = 1'000'000;

// The numbers by which an answer names a field for refusal 3.
enum Field : u32 { NO_FIELD = 0, RELEASE = 1, EXECUTION = 2, DEADLINE = 3, CRITICAL = 4, HOP = 5 };

// "Numbers a refusal carries". Completion and bound belong to number 5 alone, the field to 3.
struct Refusal {
    u32 number = 0;
    std::size_t place = 0;
    Field field = NO_FIELD;
    i64 completion = 0;
    i64 bound = 0;
    bool operator==(const Refusal&) const = default;
};
using Refused = std::optional<Refusal>;

// The upper bound: signed, and not cut off at zero.
i64 bound(const Set& set, std::size_t place);

bool execution_in_range(u32 execution);

// Numbers 1 to 4; `others` are the lengths of the lists beside the six.
Refused numbers_1_to_4(const Set& set, const std::vector<std::size_t>& others);

// "The assignment".
i64 smallest_release(const Set& set, const Places& subset);
i64 completion(const Set& set, const Places& subset);
Places base_by_all_subsets(const Set& set, const Places& remaining);
Places base_by_tails(const Set& set, const Places& remaining);
std::size_t base_subjob(const Set& set, const Places& base);

// All subsets are looked at up to this many sub-jobs; beyond it 2^n is too long.
constexpr std::size_t FEW = 12;

struct Assigned {
    Refused refused;
    bool nothing = false;  // the empty set's own report
    i64 slack = 0;         // the least slack, and the smallest place that has it
    std::size_t place = 0;
    bool operator==(const Assigned&) const = default;
};
Assigned assign(const Set& set, List& results);

// "The published conditions".
bool condition_6(const Set& set, const List& d, std::size_t place);
bool condition_7(const Set& set, const List& d);  // over all subsets: for few sub-jobs only

// "The simulated core", one tick at a time.
struct Run {
    List finish;
    u64 end = 0, busy = 0, idle = 0;
};
Run run_core(const Set& set, const List& deadlines, const List& asks);

// Thrown by run_core where it would look at places more often than this. A case that meets it is
// not asked at all.
struct TooManyTicks {};
inline u64 most_looks = 20'000'000;  // some hundredths of a second

struct Totals {
    u64 busy = 0, idle = 0;
    bool operator==(const Totals&) const = default;
};
struct Simulated {
    Refused refused;
    u64 end = 0;
    bool operator==(const Simulated&) const = default;
};
Simulated simulate(const Set& set, const List& deadlines, const List& asks, List& finishes,
                   Totals& totals);

// The checker: nothing is refused if it accepts.
Refused check(const Set& set, const List& proposed);

// "The table program": from the whole input text to the whole output text.
std::string table(const std::string& text);
inline const std::string TABLE_HEADER = "job,subtask,release,execution,deadline,critical";

// "The engine's door".
u32 door_assign(const Bytes& records, Bytes& deadlines);
u32 door_check(const Bytes& records, const Bytes& deadlines);
Bytes encode(const Set& set);
Bytes encode(const List& list);
u32 number_at(const Bytes& bytes, std::size_t at);
