/* What the tests of livevec.hpp share. */
#ifndef TESTS_CPP_HPP
#define TESTS_CPP_HPP

#include "livevec.hpp"

#include <chrono>
#include <cstdint>
#include <cstdio>
#include <cstdlib>
#include <thread>

/* Ends the program where a check doesn't hold. */
inline void is(bool holds, const char *what, int line)
{
    if (!holds) {
        std::printf("line %d: %s does not hold\n", line, what);
        std::exit(1);
    }
}
#define IS(what) is(what, #what, __LINE__)

/* What a call was refused with, 0 where it went through. */
template <class Call> std::uint32_t refusal_of(Call call)
{
    try {
        call();
        return 0;
    } catch (const livevec::refused &refused) {
        return refused.number();
    }
}

/* Waits for what another thread does soon. */
template <class Call> void until(Call is_so)
{
    const auto start = std::chrono::steady_clock::now();
    while (!is_so()) {
        IS(std::chrono::steady_clock::now() - start < std::chrono::seconds(20));
        std::this_thread::sleep_for(std::chrono::milliseconds(1));
    }
}

/* The tests that stand in files of their own. */
void boards();
void series();
void series_kinds();
void lent();
void places();
void samples();
void transcripts();
void queries();
void nothing_is_lost();
void other_sorts();

#endif
