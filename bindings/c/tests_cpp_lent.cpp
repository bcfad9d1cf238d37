/* livevec.hpp from outside: elements of a series, and of samples, that are lent. */
#include "tests_cpp.hpp"

#include <algorithm>
#include <cstdint>
#include <numeric>
#include <optional>
#include <utility>
#include <vector>

/* A range as it lies, while no other call goes through; and what comes after. */
static void of_a_series()
{
    std::vector<std::int64_t> row(70000);
    std::iota(row.begin(), row.end(), -300);
    livevec::series readings;
    readings.push_many(row);
    readings.expire(40000);
    {
        const livevec::lent some = readings.lend(50000, 70000);
        IS(some.size() == 20000 && some.edit() == 70001 && some[1] == row[50001] && !some.empty());
        IS(std::equal(some.begin(), some.end(), row.begin() + 50000) && some.data() == &*some.begin());
        IS(refusal_of([&] { readings.push(1); }) == LIVEVEC_BUSY && refusal_of([&] { (void)readings.size(); }) == LIVEVEC_BUSY);
        IS(refusal_of([&] { (void)readings.lend(50000, 50001); }) == LIVEVEC_BUSY);
    }
    IS(readings.push(7) == 70000);
    IS(refusal_of([&] { (void)readings.lend(50001, 50000); }) == LIVEVEC_BAD_RANGE);
    IS(refusal_of([&] { (void)readings.lend(39999, 50000); }) == LIVEVEC_OUT_OF_RANGE);
    IS(readings.lend(50000, 50000).empty());
    IS(readings.length() == 30001);
}

/* A loan moves with what holds it, and other elements may be pushed straight from it. */
static void moved()
{
    livevec::series from{1, 2, 3}, to;
    livevec::lent some = from.lend(0, 2), same = std::move(some);
    IS(some.empty() && same.size() == 2 && refusal_of([&] { from.pop(); }) == LIVEVEC_BUSY);
    to.push_many(same);
    IS(to.elements() == std::vector<std::int64_t>({1, 2}));
    same = to.lend(1, 2);
    IS(same.size() == 1 && same[0] == 2);
    some = std::move(same);
    IS(refusal_of([&] { to.pop(); }) == LIVEVEC_BUSY);
}

/* What lent the elements may end, move or take others' while they are out. The sanitizer of addresses sees that they are there, and freed in the end. */
static void outlives_its_series()
{
    livevec::lent some = livevec::series{1, 2, 3}.lend(1, 3);
    IS(some.size() == 2 && some[0] == 2 && some[1] == 3);
    livevec::series from{4, 5, 6}, to;
    livevec::lent of_from = from.lend(0, 2);
    to = std::move(from);
    IS(refusal_of([&] { to.push(7); }) == LIVEVEC_BUSY && refusal_of([&] { (void)from.size(); }) == LIVEVEC_NULL && of_from[1] == 5);
    to = livevec::series{8};
    IS(to.push(9) == 1 && of_from[1] == 5);
    some = std::move(of_from);
    IS(some.size() == 2 && some[0] == 4);
    std::optional<livevec::samples> load(livevec::samples{{1, 50}, {3, 70}});
    some = load->lend(0, 2);
    load.reset();
    IS(some[1] == 70);
    livevec::shared<livevec::series> shared(livevec::series{1, 2});
    shared.with([&](livevec::series &within) { some = within.lend(0, 2); });
    IS(refusal_of([&] { shared.push(3); }) == LIVEVEC_BUSY);
    livevec::series back = shared.close();
    IS(refusal_of([&] { back.push(3); }) == LIVEVEC_BUSY && some[1] == 2);
    { const livevec::lent last = std::move(some); }
    IS(back.push(3) == 2);
}

void lent()
{
    of_a_series();
    moved();
    outlives_its_series();
    livevec::samples load{{1, 50}, {3, 70}, {3, 60}};
    IS(load.lend(1, 3)[1] == 60);
    IS(load.push(4, 80) == 3);
}
