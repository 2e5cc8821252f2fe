/* Charoktan: local deadlines for the loading sub-jobs of preemptive console cores.
 *
 * For C11 and C++17 and later. Link libcharoktan.a; it is for x86-64 Linux, there is none for
 * Windows, and of the C library it needs at most memcpy and memset. A set is the 0 to 128 sub-jobs
 * of one core, an array of the struct below; places in it count from 0, time is counted in whole
 * ticks. charoktan_assign gives every sub-job its local deadline or refuses the set, charoktan_room
 * does so for the sets of all cores of a room in one call, charoktan_check judges deadlines that
 * anybody proposes, and charoktan_critical finds the sub-jobs' critical times from the graph of
 * what comes before what. The number that they return and every byte that they write are proved,
 * for all bytes and all lengths lent to them. docs/RULES.md has the rules.
 *
 * What the caller owes
 *
 *   - A call is lent two to five slices, each a pointer and a length. Each pointer points to that
 *     many bytes that may be read until the call returns. Those that the entry takes without const
 *     may be written too: the deadlines of charoktan_assign, the deadlines, numbers and places of
 *     charoktan_room, the results of charoktan_critical.
 *   - No two slices of a call overlap.
 *   - During the call no other thread writes to any of them, nor reads those that it may be
 *     writing.
 *   - A null pointer comes only with length 0; it is then the slice of no bytes.
 *   - The stack has room for one call: enum charoktan_stack below, as measured.
 *   - The processor has SSE 4.2 (x86-64-v2): today's kit compiles the archive for it.
 *
 * That is all. Every length may be given (the wrong ones are refusal 1), every content too, and no
 * address needs to be aligned.
 *
 * What the caller gets
 *
 *   - Nothing outside the slices of the call is touched, and records, lengths, executions and arcs
 *     are never written. After acceptance charoktan_assign has written all the deadlines and
 *     charoktan_critical all the results; after a refusal they hold what they held before.
 *     charoktan_room has written all the numbers and places, and all the deadlines of each set that
 *     it accepted; those of a set that it refused, and after a refusal of the call itself all
 *     three, hold what they held before. charoktan_check writes nothing.
 *   - No memory is allocated, no exception thrown, no state kept: any number of threads may call
 *     at once, also on the same records, lengths, executions and arcs.
 *
 * Sanitizers: the archive is not instrumented. They do not see what it reads and writes, and
 * MemorySanitizer takes the deadlines, numbers, places and critical times that it wrote for
 * uninitialised: after an acceptance call __msan_unpoison on them.
 */
#ifndef CHAROKTAN_H
#define CHAROKTAN_H

#if defined(__cplusplus)
#if __cplusplus < 201703L
#error "charoktan.h: C++17 or later is needed (-std=c++17)"
#endif
#elif !defined(__STDC_VERSION__) || __STDC_VERSION__ < 201112L
#error "charoktan.h: C11 or later is needed (-std=c11)"
#endif

/* The calls are those of x86-64 Linux. The door reads little-endian numbers, and this header hands
 * it the host's own. */
#if defined(_WIN32)
#error "charoktan.h: libcharoktan.a is for x86-64 Linux, and there is none for Windows"
#elif !defined(__BYTE_ORDER__) || !defined(__ORDER_LITTLE_ENDIAN__)
#error "charoktan.h: this compiler does not say that the host is little-endian"
#elif __BYTE_ORDER__ != __ORDER_LITTLE_ENDIAN__
#error "charoktan.h: the host is not little-endian"
#endif

#include <assert.h>
#include <stddef.h>
#include <stdint.h>

#if defined(__cplusplus)
#define CHAROKTAN_INLINE constexpr
#define CHAROKTAN_NODISCARD [[nodiscard]]
#define CHAROKTAN_NOEXCEPT noexcept
extern "C" {
#else
#define CHAROKTAN_INLINE static inline
#if defined(__GNUC__)
#define CHAROKTAN_NODISCARD __attribute__((warn_unused_result))
#else
#define CHAROKTAN_NODISCARD
#endif
#define CHAROKTAN_NOEXCEPT
#endif

/* A sub-job. Its upper bound is deadline minus critical: it may be negative. */
typedef struct charoktan_subjob {
    uint32_t job;       /* all values; the pair (job, subtask) differs from every other pair */
    uint32_t subtask;   /* all values */
    uint32_t release;   /* the moment from which it may be served: 0 to 1,000,000,000 */
    uint32_t execution; /* the most ticks that it is served: 1 to 1,000,000 */
    uint32_t deadline;  /* end to end, of its whole job: 0 to 2,000,000,000 */
    uint32_t critical;  /* ticks that its job needs after it: 0 to 1,000,000,000 */
} charoktan_subjob;

static_assert(sizeof(charoktan_subjob) == 24, "charoktan.h: six 32-bit numbers, no padding");

/* An arc of a graph: one sub-job comes before another. Both are named by their places. */
typedef struct charoktan_arc {
    uint32_t before; /* the place of the one that comes first */
    uint32_t after;  /* the place of the one that follows it */
    uint32_t hop;    /* ticks from the end of the first until the other can start: 0 to 100,000 */
} charoktan_arc;

static_assert(sizeof(charoktan_arc) == 12, "charoktan.h: three 32-bit numbers, no padding");

/* The most sub-jobs of a set, and the most arcs of a graph. */
enum { CHAROKTAN_SUBJOBS_MAX = 128, CHAROKTAN_ARCS_MAX = 1024 };

/* The most sets of a room, and the most sub-jobs of all its sets. */
enum { CHAROKTAN_SETS_MAX = 32, CHAROKTAN_PLACES_MAX = 4096 };

/* The stack that one call takes at most, in bytes, on any set, room or graph, with its return
 * address and what memcpy and memset take. A small one may take as much as a large one.
 * engine/stack.cpp measures it on painted stacks: the gate fails if a call takes more, or if no
 * call takes three quarters. Where memset is bound at its first call, the dynamic linker's own
 * stack comes on top (-Wl,-z,now binds it before). */
enum charoktan_stack {
    CHAROKTAN_STACK_ASSIGN = 6656,   /* charoktan_assign */
    CHAROKTAN_STACK_ROOM = 6784,     /* charoktan_room */
    CHAROKTAN_STACK_CHECK = 6144,    /* charoktan_check */
    CHAROKTAN_STACK_CRITICAL = 20480 /* charoktan_critical */
};

/* The numbers that the door gives, and the place that comes with each. charoktan_assign judges 1 to
 * 5, charoktan_check 1 to 4, 6 and 7, charoktan_critical 1 to 3, 20 and 21, each in this order;
 * charoktan_room judges 1 and 22, and then 2 to 5 of each set. */
enum charoktan_refusal {
    CHAROKTAN_ACCEPTED = 0, /* no refusal (place 0); no sub-jobs, with no arcs, are accepted */
    CHAROKTAN_LENGTHS = 1,  /* not the bytes that the entry says, or not adding up (place 0) */
    CHAROKTAN_TOO_MANY = 2, /* more than 128 sub-jobs, or more than 1,024 arcs (place 0) */
    CHAROKTAN_FIELD = 3,    /* a field is out of range (smallest such place; a hop: its arc's) */
    CHAROKTAN_PAIR = 4,     /* the pair (job, subtask) was seen earlier (smallest later place) */
    CHAROKTAN_LATE = 5,     /* the base sub-job's upper bound is below the completion (its place) */
    CHAROKTAN_OUTSIDE = 6,  /* not release + execution <= deadline <= upper bound (smallest) */
    CHAROKTAN_MISSED = 7,   /* served in full by these deadlines it ends after its own (smallest) */
    CHAROKTAN_STRAY = 20,   /* an arc names no sub-job (smallest such arc's place) */
    CHAROKTAN_CYCLE = 21,   /* a path comes back to its start (place 0) */
    CHAROKTAN_TOO_LARGE = 22 /* more than 32 sets, or more than 4,096 sub-jobs in all (place 0) */
};

/* Assigns: reads a charoktan_subjob per sub-job, 24 bytes each, and writes its local deadline, 4
 * bytes each (a uint32_t), in the records' order. Returns 0, or the refusal's number plus 65,536
 * times its place. Lengths are in bytes. The order of the records does not matter: in another order
 * each sub-job gets the same deadline. */
CHAROKTAN_NODISCARD uint32_t charoktan_assign(const uint8_t *records, size_t records_len,
                                              uint8_t *deadlines,
                                              size_t deadlines_len) CHAROKTAN_NOEXCEPT;

/* Assigns for all cores of a room: reads the charoktan_subjobs of its sets, 24 bytes each, one set
 * after another, and the length of each set, 4 bytes each (a uint32_t: how many sub-jobs it has).
 * With each set in turn it does what charoktan_assign does with that set alone. It writes the set's
 * deadlines, 4 bytes each, at the places where its sub-jobs stand, and into two further lists the
 * set's number and place, 4 bytes each, one entry per set; that place counts from the start of the
 * set. A refused set leaves its deadlines as they were and does not stop the next. A length of 0 is
 * a set with nothing to place; a length above 128 is that set's number 2. Returns 0; or 1 if the
 * bytes are not those or the lengths do not add up to the sub-jobs, and otherwise 22 if there are
 * more than 32 sets or 4,096 sub-jobs.
 *
 * 0 says that the call was made. It does NOT say that a set was accepted: look at each number. 1
 * and 22 come before anything is written, so the lists of numbers and places say nothing then. */
CHAROKTAN_NODISCARD uint32_t charoktan_room(const uint8_t *records, size_t records_len,
                                            const uint8_t *lengths, size_t lengths_len,
                                            uint8_t *deadlines, size_t deadlines_len,
                                            uint8_t *numbers, size_t numbers_len, uint8_t *places,
                                            size_t places_len) CHAROKTAN_NOEXCEPT;

/* Judges proposed deadlines, 4 bytes per sub-job and record of 24: returns 0 exactly when, numbers
 * 1 to 4 passed, every one lies between release + execution and the upper bound, and of every
 * non-empty subset the greatest deadline minus the smallest release is at least the sum of the
 * executions. */
CHAROKTAN_NODISCARD uint32_t charoktan_check(const uint8_t *records, size_t records_len,
                                             const uint8_t *deadlines,
                                             size_t deadlines_len) CHAROKTAN_NOEXCEPT;

/* Finds critical times: reads an execution per sub-job, 4 bytes each (a uint32_t, 1 to 1,000,000),
 * and the charoktan_arcs between them, 12 bytes each, and writes a critical time per sub-job, 4
 * bytes each. It is the greatest sum along any path of arcs that starts at the sub-job: the hops,
 * the first one's too, and the executions of those that follow, its own not counted. It is 0
 * exactly where nothing follows, and never above 139,700,000, so that it goes into `critical` as it
 * is. The order of the arcs does not matter. They may come twice; of two hops between the same
 * sub-jobs the greater counts. Number 3 is an execution's if there is one at its place and it is
 * out of range; otherwise they are all in range, and it is the hop of the arc at that place. The
 * other entries read no arcs: what they know of them is the critical times. */
CHAROKTAN_NODISCARD uint32_t charoktan_critical(const uint8_t *executions, size_t executions_len,
                                                const uint8_t *arcs, size_t arcs_len,
                                                uint8_t *results,
                                                size_t results_len) CHAROKTAN_NOEXCEPT;

/* The refusal number in what the door returned: one of enum charoktan_refusal. (The numbers and
 * places that charoktan_room wrote are apart already.) */
CHAROKTAN_INLINE uint32_t charoktan_number(uint32_t returned) CHAROKTAN_NOEXCEPT
{
    return returned % 65536U;
}

/* The place in what the door returned: a sub-job's, or an arc's. */
CHAROKTAN_INLINE uint32_t charoktan_place(uint32_t returned) CHAROKTAN_NOEXCEPT
{
    return returned / 65536U;
}

/* What a refusal number means, in a sentence. */
CHAROKTAN_INLINE const char *charoktan_refusal_text(uint32_t number) CHAROKTAN_NOEXCEPT
{
    switch (number) {
    case CHAROKTAN_ACCEPTED: return "The call is accepted.";
    case CHAROKTAN_LENGTHS:
        return "The lists leave bytes over or differ in length, or a room's lengths do not add up.";
    case CHAROKTAN_TOO_MANY: return "There are more than 128 sub-jobs, or more than 1,024 arcs.";
    case CHAROKTAN_FIELD:
        return "A field of this sub-job, or the hop delay of this arc, is out of its range.";
    case CHAROKTAN_PAIR: return "An earlier sub-job has the same job and subtask.";
    case CHAROKTAN_LATE: return "There is too much work to be done by this sub-job's upper bound.";
    case CHAROKTAN_OUTSIDE:
        return "The deadline is not between release plus execution and the upper bound.";
    case CHAROKTAN_MISSED: return "By these deadlines this sub-job would end after its own.";
    case CHAROKTAN_STRAY: return "This arc names a place at which there is no sub-job.";
    case CHAROKTAN_CYCLE: return "Some path of arcs comes back to the sub-job that it starts at.";
    case CHAROKTAN_TOO_LARGE: return "The room has more than 32 sets or more than 4,096 sub-jobs.";
    default: return "This is no number of the door.";
    }
}

#if defined(__cplusplus)
}

#include <iterator>
#if __has_include(<span>)
#include <span>
#endif

/* The same door with types: sub-jobs in, uint32_t deadlines out, for a room with uint32_t lengths
 * in and numbers and places out; uint32_t executions and arcs in, uint32_t critical times out;
 * counts in the place of bytes. The caller owes what is written above. Nothing is copied. */
namespace charoktan {

using subjob = charoktan_subjob;
using arc = charoktan_arc;

enum class refusal : uint32_t {
    none = CHAROKTAN_ACCEPTED,
    lengths = CHAROKTAN_LENGTHS,
    too_many = CHAROKTAN_TOO_MANY,
    field = CHAROKTAN_FIELD,
    pair = CHAROKTAN_PAIR,
    late = CHAROKTAN_LATE,
    outside = CHAROKTAN_OUTSIDE,
    missed = CHAROKTAN_MISSED,
    stray = CHAROKTAN_STRAY,
    cycle = CHAROKTAN_CYCLE,
    too_large = CHAROKTAN_TOO_LARGE
};

/* What the door returned, or wrote of a room's set, taken apart. */
class [[nodiscard]] answer {
public:
    constexpr explicit answer(uint32_t returned) noexcept
        : answer(charoktan_number(returned), charoktan_place(returned))
    {
    }
    constexpr answer(uint32_t number, uint32_t place) noexcept : number_(number), place_(place) {}
    [[nodiscard]] constexpr bool accepted() const noexcept { return number() == refusal::none; }
    [[nodiscard]] constexpr refusal number() const noexcept
    {
        return static_cast<refusal>(number_);
    }
    [[nodiscard]] constexpr uint32_t place() const noexcept { return place_; }
    [[nodiscard]] constexpr const char *text() const noexcept
    {
        return charoktan_refusal_text(number_);
    }

private:
    uint32_t number_, place_;
};

/* What a call for a room came to. It has no accepted(), since a call that was made may have refused
 * any of its sets: ask for all of them, or for each. It reads the numbers and places where they
 * were lent to the call, so it is good for as long as these are there and hold what was written. */
class [[nodiscard]] room_answer {
public:
    constexpr room_answer(answer call, const uint32_t *numbers, const uint32_t *places,
                          size_t sets) noexcept
        : call_(call), numbers_(numbers), places_(places), sets_(sets)
    {
    }
    /* The call itself: accepted, or refused by 1 or 22 before it looked at a set. */
    [[nodiscard]] constexpr answer call() const noexcept { return call_; }
    /* The set at this index, which is below the count of lengths; if the call was refused, then
     * each set is, by the same number. */
    [[nodiscard]] constexpr answer of(size_t set) const noexcept
    {
        return call_.accepted() ? answer(numbers_[set], places_[set]) : call_;
    }
    /* The call was made, and every set was accepted. */
    [[nodiscard]] constexpr bool all_accepted() const noexcept
    {
        for (size_t set = 0; set < sets_; ++set)
            if (!of(set).accepted())
                return false;
        return call_.accepted();
    }

private:
    answer call_;
    const uint32_t *numbers_, *places_;
    size_t sets_;
};

[[nodiscard]] inline answer assign(const subjob *subjobs, size_t subjobs_count, uint32_t *deadlines,
                                   size_t deadlines_count) noexcept
{
    return answer(charoktan_assign(
        reinterpret_cast<const uint8_t *>(subjobs), subjobs_count * sizeof(subjob),
        reinterpret_cast<uint8_t *>(deadlines), deadlines_count * sizeof(uint32_t)));
}

[[nodiscard]] inline room_answer room(const subjob *subjobs, size_t subjobs_count,
                                      const uint32_t *lengths, size_t lengths_count,
                                      uint32_t *deadlines, size_t deadlines_count,
                                      uint32_t *numbers, size_t numbers_count, uint32_t *places,
                                      size_t places_count) noexcept
{
    const answer call(
        charoktan_room(reinterpret_cast<const uint8_t *>(subjobs), subjobs_count * sizeof(subjob),
                       reinterpret_cast<const uint8_t *>(lengths), lengths_count * sizeof(uint32_t),
                       reinterpret_cast<uint8_t *>(deadlines), deadlines_count * sizeof(uint32_t),
                       reinterpret_cast<uint8_t *>(numbers), numbers_count * sizeof(uint32_t),
                       reinterpret_cast<uint8_t *>(places), places_count * sizeof(uint32_t)));
    return room_answer(call, numbers, places, lengths_count);
}

[[nodiscard]] inline answer check(const subjob *subjobs, size_t subjobs_count,
                                  const uint32_t *deadlines, size_t deadlines_count) noexcept
{
    return answer(charoktan_check(
        reinterpret_cast<const uint8_t *>(subjobs), subjobs_count * sizeof(subjob),
        reinterpret_cast<const uint8_t *>(deadlines), deadlines_count * sizeof(uint32_t)));
}

[[nodiscard]] inline answer critical(const uint32_t *executions, size_t executions_count,
                                     const arc *arcs, size_t arcs_count, uint32_t *results,
                                     size_t results_count) noexcept
{
    return answer(charoktan_critical(
        reinterpret_cast<const uint8_t *>(executions), executions_count * sizeof(uint32_t),
        reinterpret_cast<const uint8_t *>(arcs), arcs_count * sizeof(arc),
        reinterpret_cast<uint8_t *>(results), results_count * sizeof(uint32_t)));
}

#if defined(__cpp_lib_span)

[[nodiscard]] inline answer assign(std::span<const subjob> subjobs,
                                   std::span<uint32_t> deadlines) noexcept
{
    return assign(subjobs.data(), subjobs.size(), deadlines.data(), deadlines.size());
}

[[nodiscard]] inline room_answer room(std::span<const subjob> subjobs,
                                      std::span<const uint32_t> lengths,
                                      std::span<uint32_t> deadlines, std::span<uint32_t> numbers,
                                      std::span<uint32_t> places) noexcept
{
    return room(subjobs.data(), subjobs.size(), lengths.data(), lengths.size(), deadlines.data(),
                deadlines.size(), numbers.data(), numbers.size(), places.data(), places.size());
}

[[nodiscard]] inline answer check(std::span<const subjob> subjobs,
                                  std::span<const uint32_t> deadlines) noexcept
{
    return check(subjobs.data(), subjobs.size(), deadlines.data(), deadlines.size());
}

[[nodiscard]] inline answer critical(std::span<const uint32_t> executions,
                                     std::span<const arc> arcs,
                                     std::span<uint32_t> results) noexcept
{
    return critical(executions.data(), executions.size(), arcs.data(), arcs.size(), results.data(),
                    results.size());
}

#else /* C++17: any range that std::data and std::size know, as arrays and vectors are */

template <class Subjobs, class Deadlines>
[[nodiscard]] answer assign(const Subjobs &subjobs, Deadlines &&deadlines) noexcept
{
    return assign(std::data(subjobs), std::size(subjobs), std::data(deadlines),
                  std::size(deadlines));
}

/* No temporaries for the numbers and places: the answer reads them after the call. */
template <class Subjobs, class Lengths, class Deadlines, class Numbers, class Places>
[[nodiscard]] room_answer room(const Subjobs &subjobs, const Lengths &lengths,
                               Deadlines &&deadlines, Numbers &numbers, Places &places) noexcept
{
    return room(std::data(subjobs), std::size(subjobs), std::data(lengths), std::size(lengths),
                std::data(deadlines), std::size(deadlines), std::data(numbers), std::size(numbers),
                std::data(places), std::size(places));
}

template <class Subjobs, class Deadlines>
[[nodiscard]] answer check(const Subjobs &subjobs, const Deadlines &deadlines) noexcept
{
    return check(std::data(subjobs), std::size(subjobs), std::data(deadlines),
                 std::size(deadlines));
}

template <class Executions, class Arcs, class Results>
[[nodiscard]] answer critical(const Executions &executions, const Arcs &arcs,
                              Results &&results) noexcept
{
    return critical(std::data(executions), std::size(executions), std::data(arcs), std::size(arcs),
                    std::data(results), std::size(results));
}

#endif

} // namespace charoktan
#endif

#undef CHAROKTAN_INLINE
#undef CHAROKTAN_NODISCARD
#undef CHAROKTAN_NOEXCEPT

#endif
