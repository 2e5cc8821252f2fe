// How much stack a call takes. It is made on a stack of its own that was painted before; the
// deepest byte that lost its paint tells. x86-64, for the bench and the figures of charoktan.h.
#pragma once

#include <ucontext.h>

#include <algorithm>
#include <cstddef>
#include <cstdint>
#include <cstdlib>
#include <cstring>
#include <iterator>

namespace painted {

alignas(16) inline uint8_t stack[1 << 20];
inline ucontext_t outside, inside;
inline uint8_t *top;
template <class Call> const Call *job = nullptr;

template <class Call> void on_the_stack()
{
    asm volatile("mov %%rsp, %0" : "=r"(top));
    (*job<Call>)();
}

// Runs `start` on the stack, and comes back.
[[gnu::noinline]] inline void change_over(void (*start)())
{
    if (getcontext(&inside) != 0)
        std::abort();
    inside.uc_stack.ss_sp = stack;
    inside.uc_stack.ss_size = sizeof stack;
    inside.uc_link = &outside;
    makecontext(&inside, start, 0);
    if (swapcontext(&outside, &inside) != 0)
        std::abort();
}

// The bytes from where `call` is made down to the deepest that it wrote, over two paints.
template <class Call> size_t depth(const Call &call)
{
    size_t most = 0;
    job<Call> = &call;
    for (const uint8_t paint : {uint8_t{0x5a}, uint8_t{0xa5}}) {
        std::memset(stack, paint, sizeof stack);
        change_over(on_the_stack<Call>);
        const uint8_t *lowest = std::find_if(std::begin(stack), std::end(stack),
                                             [paint](uint8_t byte) { return byte != paint; });
        most = std::max(most, static_cast<size_t>(top - lowest));
    }
    return most;
}

} // namespace painted
