// What the bench does with sets (bench.cpp), graphs (graphs.cpp) and rooms (rooms.cpp) alike. A
// program has a name and is called with what is lent to it, as bytes. It is called inlined, so that
// the stack is measured from the library's caller on.
#pragma once

#include "dice.h"
#include "painted.h"

#include <algorithm>
#include <cstddef>
#include <cstdint>
#include <cstdio>
#include <cstring>
#include <iterator>
#include <string_view>
#include <utility>
#include <vector>

namespace measure {

using Bytes = std::vector<uint8_t>;

template <class T> Bytes bytes_of(const std::vector<T> &items)
{
    Bytes bytes(items.size() * sizeof(T));
    if (!bytes.empty())
        std::memcpy(bytes.data(), items.data(), bytes.size());
    return bytes;
}

template <class T> void shuffle(Dice &dice, std::vector<T> &items)
{
    for (auto i = static_cast<uint32_t>(items.size()); i > 1; --i)
        std::swap(items[i - 1], items[dice.roll(0, i - 1)]);
}

// The exit status of calls of a program that is none of those asked.
constexpr int no_such_program = 2;

// The program of this name, or null.
template <class Program, size_t count>
const Program *named(const Program (&programs)[count], std::string_view name)
{
    const auto *program = std::find_if(std::begin(programs), std::end(programs),
                                       [&](const Program &p) { return name == p.name; });
    return program != std::end(programs) ? program : nullptr;
}

// Rounds of calls, each on every one of the lent.
template <class Program, class Lent>
int calls(const Program &program, std::vector<Lent> all, uint32_t rounds)
{
    // What memset and memcpy execute hangs on the stack's place in its page: it is the same in
    // every run.
    alignas(4096) volatile uint8_t pin = 0;
    uint32_t sum = pin;
    for (uint32_t round = 0; round < rounds; ++round)
        for (Lent &lent : all)
            sum += program(lent);
    std::printf("%u\n", sum); // so that no call can be left out
    return 0;
}

// True if the second program leaves the same number and the same bytes as the first.
template <class First, class Second, class Lent>
bool alike(const First &first, const Second &second, Lent lent, uint32_t &number)
{
    Lent copy = lent;
    number = first(lent);
    return second(copy) == number && copy == lent;
}

constexpr uint32_t agreements = 100000;

// False, and says which, if one of so many calls, each made by all programs, is not alike.
template <class Alike> bool agree(const Alike &next_is_alike, uint32_t calls = agreements)
{
    for (uint32_t k = 0; k < calls; ++k)
        if (!next_is_alike()) {
            std::printf("call %u: the library and a baseline differ\n", k);
            return false;
        }
    return true;
}

// How many of the calls were answered by each of the numbers.
template <size_t count>
void print(const char *name, const char *numbers, const uint32_t (&tally)[count],
           uint32_t calls = agreements)
{
    std::printf("%s: %u calls agree; by number %s:", name, calls, numbers);
    for (uint32_t n : tally)
        std::printf(" %u", n);
    std::printf("\n");
}

// The stack that a call takes, at most, over everything lent.
template <class Program, class Lent> size_t depth(const Program &program, std::vector<Lent> all)
{
    size_t most = 0;
    for (Lent &lent : all)
        most = std::max(most, painted::depth([&program, &lent] { program(lent); }));
    return most;
}

} // namespace measure
