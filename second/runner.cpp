// The thin side of the door comparison: an x86-64 program around libcharoktan.a. It reads batches
// of calls from standard input, makes them, and writes what was returned and what the slices hold.
//
// Each slice lies in a space of its own between two guards that may not be touched, pressed to the
// end of its space or to the start of it as the call asks: a read or write by the archive outside
// the slice ends this program. door.cpp says how the pipe is written.
#include <cstddef>
#include <cstdint>
#include <cstdio>
#include <cstdlib>
#include <cstring>
#include <vector>

#include <sys/mman.h>

extern "C" {
std::uint32_t charoktan_assign(const std::uint8_t* records, std::size_t records_len,
                               std::uint8_t* deadlines, std::size_t deadlines_len);
std::uint32_t charoktan_check(const std::uint8_t* records, std::size_t records_len,
                              const std::uint8_t* deadlines, std::size_t deadlines_len);
std::uint32_t charoktan_critical(const std::uint8_t* executions, std::size_t executions_len,
                                 const std::uint8_t* arcs, std::size_t arcs_len,
                                 std::uint8_t* results, std::size_t results_len);
std::uint32_t charoktan_room(const std::uint8_t* records, std::size_t records_len,
                             const std::uint8_t* lengths, std::size_t lengths_len,
                             std::uint8_t* deadlines, std::size_t deadlines_len,
                             std::uint8_t* numbers, std::size_t numbers_len,
                             std::uint8_t* places, std::size_t places_len);
}

[[noreturn]] static void fail(const char* why) {
    std::fprintf(stderr, "runner: %s\n", why);
    std::exit(3);
}

// 128 KiB is a multiple of every page size in use, also of an emulator's host, and more than 4,096
// records take.
static constexpr std::size_t SPACE = 131'072;

class GuardedSpace {
public:
    GuardedSpace() {
        void* all = mmap(nullptr, 4 * SPACE, PROT_NONE, MAP_PRIVATE | MAP_ANONYMOUS, -1, 0);
        if (all == MAP_FAILED) fail("no memory");
        const auto address = reinterpret_cast<std::uintptr_t>(all);
        start_ = static_cast<std::uint8_t*>(all) + (2 * SPACE - address % SPACE);
        if (mprotect(start_, SPACE, PROT_READ | PROT_WRITE) != 0) fail("no guards");
    }

    std::uint8_t* place(const std::uint8_t* bytes, std::size_t length, bool at_end) {
        if (length > SPACE) fail("a slice is too long");
        std::uint8_t* slice = at_end ? start_ + SPACE - length : start_;
        if (length > 0) std::memcpy(slice, bytes, length);
        return slice;
    }

private:
    std::uint8_t* start_ = nullptr;
};

static std::uint32_t number_at(const std::uint8_t* bytes) {
    std::uint32_t number;
    std::memcpy(&number, bytes, sizeof number);  // x86-64 is little-endian, as the pipe is
    return number;
}

static void append(std::vector<std::uint8_t>& bytes, const void* more, std::size_t length) {
    const auto* from = static_cast<const std::uint8_t*>(more);
    bytes.insert(bytes.end(), from, from + length);
}

struct Slice {
    std::uint8_t* start;
    std::size_t length;
};
static constexpr std::size_t SLICES = 5;

static std::uint32_t call(std::uint32_t kind, const Slice (&slices)[SLICES]) {
    const auto& [a, b, c, d, e] = slices;
    switch (kind) {
    case 1: return charoktan_assign(a.start, a.length, b.start, b.length);
    case 2: return charoktan_check(a.start, a.length, b.start, b.length);
    case 3: return charoktan_critical(a.start, a.length, b.start, b.length, c.start, c.length);
    case 4:
        return charoktan_room(a.start, a.length, b.start, b.length, c.start, c.length, d.start,
                              d.length, e.start, e.length);
    default: fail("there is no such call");
    }
}

// Makes the call at `at`, appends its reply and returns where the next call starts.
static std::size_t make_call(const std::vector<std::uint8_t>& batch, std::size_t at,
                             std::vector<std::uint8_t>& replies) {
    static GuardedSpace spaces[SLICES];
    constexpr std::size_t head = 8 + 4 * SLICES;
    if (batch.size() - at < head) fail("a batch is cut off");
    const std::uint32_t kind = number_at(&batch[at]), placement = number_at(&batch[at + 4]);
    Slice slices[SLICES];
    std::size_t next = at + head;
    for (std::size_t k = 0; k < SLICES; ++k) {
        const std::size_t length = number_at(&batch[at + 8 + 4 * k]);
        if (batch.size() - next < length) fail("a batch is cut off");
        slices[k] = {spaces[k].place(batch.data() + next, length, placement >> k & 1), length};
        // An empty slice may be passed as null.
        if (placement >> SLICES & 1 && length == 0) slices[k].start = nullptr;
        next += length;
    }
    const std::uint32_t returned = call(kind, slices);
    append(replies, &returned, sizeof returned);
    for (const auto& [start, length] : slices) append(replies, start, length);
    return next;
}

int main() {
    std::uint8_t length[4];
    while (std::fread(length, 1, 4, stdin) == 4) {
        std::vector<std::uint8_t> batch(number_at(length)), replies;
        if (std::fread(batch.data(), 1, batch.size(), stdin) != batch.size())
            fail("a batch is cut off");
        for (std::size_t at = 0; at < batch.size();) at = make_call(batch, at, replies);
        if (std::fwrite(replies.data(), 1, replies.size(), stdout) != replies.size() ||
            std::fflush(stdout) != 0)
            fail("nobody reads the replies");
    }
    return 0;
}
