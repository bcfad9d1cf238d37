/* livevec.hpp from outside: boards and seats. */
#include "tests_cpp.hpp"

#include <algorithm>
#include <cstdint>
#include <numeric>
#include <optional>
#include <thread>
#include <utility>
#include <vector>

using livevec::refused;
using numbers = std::vector<std::int64_t>;

static void sits_at_a_board()
{
    livevec::board board(livevec::kind::least, 2, {1, 100});
    livevec::seat one = board.sit();
    std::optional<livevec::seat> two = board.sit();
    IS(refusal_of([&] { (void)board.sit(); }) == LIVEVEC_NO_SEAT);
    IS(one.push(-7) == 0 && two->push(12) == 1 && one.write(0, 5) == -7 && two->size() == 2 && (*two)[1] == 12);
    const livevec_reduced least = one.reduce(0, 2);
    IS(least.edit == 3 && least.values.any && least.values.least == 5);
    IS(refusal_of([&] { one.push(1, -1); }) == LIVEVEC_OUT_OF_RANGE);
    IS(refusal_of([&] { one.push(40000); }) == LIVEVEC_TOO_WIDE && refusal_of([&] { one.refresh(0); }) == LIVEVEC_OUT_OF_RANGE);
    IS(refusal_of([&] { (void)board.close(); }) == LIVEVEC_SEATS_OUT);
    IS(refused(LIVEVEC_CONTENDED).is_outrun() && refused(LIVEVEC_OVERTAKEN).is_outrun() && !refused(LIVEVEC_FULL).is_outrun());
    // a seat comes back from whatever thread, and may be taken again
    std::thread([&] { two.reset(); }).join();
    two = board.sit();
    IS(two->pop() == 12 && two->push(3) == 1);
    livevec::seat moved = std::move(one);
    IS(refusal_of([&] { one.pop(); }) == LIVEVEC_NULL);
    moved.close();
    moved.close();
    two.reset();
    const livevec::closed closed = board.close();
    IS(closed.edits() == 5 && closed.size() == 2 && closed[0] == 5 && (closed.elements() == numbers{5, 3}));
    IS(std::count(closed.begin(), closed.end(), 3) == 1 && refusal_of([&] { (void)closed[2]; }) == LIVEVEC_OUT_OF_RANGE);
    std::int64_t room[1];
    IS(refusal_of([&] { closed.read_into(room); }) == LIVEVEC_SHORT_BUFFER);
    IS(refusal_of([&] { (void)board.sit(); }) == LIVEVEC_NULL);
    IS(refusal_of([] { livevec::board(livevec::kind::sum, 9); }) == LIVEVEC_BAD_LIMITS);
}

/* Four threads count, and let their seats go as they end; one seat outlives its board. */
static void threads_share_a_board()
{
    std::optional<livevec::board> board(std::in_place, livevec::kind::sum, 4u);
    std::vector<std::thread> threads;
    for (int number = 0; number < 4; number++)
        threads.emplace_back([seat = board->sit()]() mutable {
            for (int event = 1; event <= 100;)
                event += refusal_of([&] { seat.push(event); }) == 0;
        });
    for (std::thread &thread : threads)
        thread.join();
    threads.clear();
    livevec::seat last = board->sit();
    IS(last.size() == 400 && last.reduce(0, 400).values.sum == 4 * 5050);
    last.close();
    const livevec::closed closed = board->close();
    IS(closed.edits() == 400 && std::accumulate(closed.begin(), closed.end(), std::int64_t{0}) == 4 * 5050);
    board.emplace(livevec::kind::sum, 1u);
    last = board->sit();
    board.reset();
    IS(last.push(1) == 0);
}

void boards()
{
    sits_at_a_board();
    threads_share_a_board();
}
