/* livevec.hpp from outside: vectors, jobs. Expected values are worked out by hand. */
#include "tests_cpp.hpp"

#include <algorithm>
#include <array>
#include <atomic>
#include <cstdint>
#include <cstdio>
#include <deque>
#include <initializer_list>
#include <iterator>
#include <list>
#include <numeric>
#include <optional>
#include <set>
#include <stdexcept>
#include <string>
#include <thread>
#include <type_traits>
#include <utility>
#include <vector>

using livevec::refused;
using numbers = std::vector<std::int64_t>;

/* Each class is moved alone, and gives up nothing by it. */
template <class Owner> constexpr bool is_moved_alone =
    !std::is_copy_constructible_v<Owner> && !std::is_copy_assignable_v<Owner> && std::is_nothrow_move_constructible_v<Owner> &&
    std::is_nothrow_move_assignable_v<Owner>;
static_assert(is_moved_alone<livevec::vector> && is_moved_alone<livevec::job> && is_moved_alone<livevec::outcome>);
static_assert(is_moved_alone<livevec::queries> && is_moved_alone<livevec::series> && is_moved_alone<livevec::samples>);
static_assert(is_moved_alone<livevec::loading<livevec::series>> && is_moved_alone<livevec::loading<livevec::samples>>);
static_assert(is_moved_alone<livevec::board> && is_moved_alone<livevec::seat> && is_moved_alone<livevec::closed>);

static void goes_in_and_comes_out()
{
    const numbers row{4, -6, 9};
    const std::list<short> shorts{1, -2};
    livevec::vector all(row);
    all.push_many(std::array<std::int64_t, 2>{5, 6});
    all.push_many({0, 2});
    all.push_many(shorts.begin(), shorts.end());
    IS((all.elements() == numbers{4, -6, 9, 5, 6, 0, 2, 1, -2}));
    IS((livevec::vector(shorts.begin(), shorts.end()) == livevec::vector{1, -2}));
    std::fill_n(std::back_inserter(all), 2, 7);
    std::int64_t room[4] = {0, 0, 0, 8};
    IS(all.read_into(8, 11, room) == 3 && room[0] == -2 && room[2] == 7 && room[3] == 8);
    try {
        all.read_into(0, 5, room);
        IS(false);
    } catch (const refused &refused) {
        IS(refused.number() == LIVEVEC_SHORT_BUFFER && refused.detail() == 5);
    }
    all.push_many(livevec::array_view());
    IS(refusal_of([&] { all.push_many(nullptr, 1); }) == LIVEVEC_NULL);

    livevec::vector small(row, {1, 100});
    try {
        small.push_many(row);
        small.push_many(row);
        IS(false);
    } catch (const livevec::stopped &stopped) {
        IS(stopped.number() == LIVEVEC_FULL && stopped.pushed() == 0);
    }
    IS((small.elements() == numbers{4, -6, 9, 4, -6, 9}) && small.edits() == 6);
}

/* What isn't an element, a kind or limits doesn't compile as one. */
template <class Value, class = void> constexpr bool is_pushed = false;
template <class Value> constexpr bool is_pushed<Value, std::void_t<decltype(std::declval<livevec::vector &>().push(std::declval<Value>()))>> = true;
static_assert(is_pushed<int> && is_pushed<std::int64_t> && is_pushed<std::size_t> && is_pushed<short>);
static_assert(!is_pushed<double> && !is_pushed<float> && !is_pushed<livevec_kind> && !is_pushed<livevec::kind> && !is_pushed<const char *>);
static_assert(!std::is_constructible_v<livevec::vector, livevec_kind> && !std::is_constructible_v<livevec::vector, livevec_kind, livevec::limits>);
static_assert(!std::is_constructible_v<livevec::vector, int, int> && !std::is_constructible_v<livevec::vector, std::uint32_t>);
static_assert(!std::is_constructible_v<livevec::vector, std::initializer_list<double>> && !std::is_constructible_v<livevec::series, livevec_kind>);
static_assert(!std::is_convertible_v<livevec::kind, std::int64_t> && std::is_constructible_v<livevec::vector, livevec::kind>);
/* An index is any integer, and nothing that would be cut to one. */
static_assert(!std::is_convertible_v<double, livevec::position> && !std::is_convertible_v<float, livevec::position_long>);
static_assert(std::is_convertible_v<short, livevec::position_long> && std::is_convertible_v<std::uint64_t, livevec::position>);
static_assert(std::is_base_of_v<std::exception, livevec::inner::thrown<livevec::not_kept, std::out_of_range>>);

static void takes_ranges_of_integers()
{
    const std::list<unsigned char> bytes{1, 200};
    livevec::vector all(bytes);
    all.push_many(std::deque<int>{-3, 4});
    all.push_many(std::set<std::uint32_t>{9, 8});
    all.push_many(livevec::vector{5, 6});
    const short shorts[] = {7, -7};
    all.push_many(shorts);
    all.push(std::size_t(11));
    IS((all.elements() == numbers{1, 200, -3, 4, 8, 9, 5, 6, 7, -7, 11}));
    IS((livevec::vector{livevec::kind::best}.kind() == livevec::kind::best && livevec::vector{10, 20}.size() == 2));
    IS(livevec::vector(livevec::limits{10, 20}).empty() && livevec::vector(bytes, {1, 2}).verdict_push(0).refusal == LIVEVEC_WORN);
    livevec::series some(bytes);
    some.push_many(std::list<int>{3, 4});
    IS((std::equal(some.cbegin(), some.cend(), numbers{1, 200, 3, 4}.begin()) && some.front() == 1 && some.back() == 4 && some.at(1) == 200));
    some.pop_back();
    IS(some.back() == 3 && some.expire(3) == 3 && refusal_of([&] { (void)some.front(); }) == LIVEVEC_OUT_OF_RANGE);
    IS(refusal_of([&] { (void)some.back(); }) == LIVEVEC_OUT_OF_RANGE);
}

/* What a call throws is caught as livevec's, and as the standard library's. */
template <class Error, class Call> static std::string said_by(Call call)
{
    try {
        call();
        return "";
    } catch (const Error &error) {
        return error.what();
    }
}

static void throws_what_the_library_throws()
{
    livevec::vector all{1, 2, 3};
    livevec::series some{1, 2, 3};
    some.expire(1);
    const auto past = [&] { (void)all.at(3); };
    IS(said_by<std::out_of_range>(past) == "out of range: past the end (index 3, size 3)");
    IS(said_by<std::exception>(past) == said_by<std::out_of_range>(past) && said_by<livevec::refused>(past) == said_by<std::out_of_range>(past));
    IS(said_by<std::out_of_range>([&] { (void)all.sum(1, 4); }) == "out of range: past the end (range 1 to 4, size 3)");
    IS(said_by<std::out_of_range>([&] { (void)all.read(2, 1); }) == "a range whose start is past its end (range 2 to 1)");
    IS(said_by<std::out_of_range>([&] { all.swap_elements(1, 7); }) == "out of range: past the end (index 7, size 3)");
    IS(said_by<std::out_of_range>([&] { all.write_many({0, 5}, {1, 1}); }) == "out of range: past the end (index 5 at place 1, size 3)");
    IS(said_by<std::out_of_range>([&] { (void)all.value_many(livevec::kind::sum, {{0, 1}, {0, 4}}); }) == "out of range: past the end (range 0 to 4 at place 1, size 3)");
    IS(said_by<livevec::not_kept_at>([&] { some.write_many({1, 0}, {1, 1}); }) == "out of range: past the end (index 0 at place 1, kept from 1 up to 3)");
    IS(said_by<std::out_of_range>([&] { (void)all[-1]; }) == "out of range: past the end (index -1, size 3)");
    IS(said_by<std::out_of_range>([&] { (void)all[INT64_C(4294967297)]; }) == "out of range: past the end (index 4294967297, size 3)");
    IS(said_by<livevec::not_kept>([&] { (void)some.sum(0, -1); }) == "out of range: past the end (range 0 to -1, kept from 1 up to 3)");
    IS(said_by<std::out_of_range>([] { (void)livevec::samples().between(7, 6); }) == "a range whose start is past its end (times 7 to 6)");
    IS(said_by<std::out_of_range>([&] { (void)some[0]; }) == "out of range: past the end (index 0, kept from 1 up to 3)");
    IS(said_by<livevec::not_kept>([&] { (void)some.sum(0, 3); }) == "out of range: past the end (range 0 to 3, kept from 1 up to 3)");
    IS(said_by<std::runtime_error>([] { livevec::vector(livevec::limits{0, 1}); }) == "limits outside their ranges");
    IS(said_by<livevec::earlier>([] { livevec::samples{{5, 1}}.push(4, 1); }) == "a time before that of the last sample (time 4, the last one's 5)");
    IS(all.front() == 1 && all.back() == 3 && all.at(1) == 2);
    all.pop_back();
    IS(all.back() == 2 && *all.cbegin() == 1 && all.cend() == all.end());
    all.clear();
    IS(said_by<std::out_of_range>([&] { (void)all.front(); }) == "out of range: past the end (index 0, size 0)");
    IS(said_by<std::out_of_range>([&] { (void)all.back(); }) == "out of range: past the end (index 0, size 0)");
}

/* Exact totals: of elements whose bounds leave one number, and of the widest. */
static void adds_up_exactly()
{
    const std::int64_t most = INT64_MAX, least = INT64_MIN;
    const livevec::vector wide{most, most, most, least, -1}, narrow{-3, 1, -7};
    IS(narrow.total(0, 3) == -9 && narrow.total(1, 1) == 0 && narrow.sum(0, 3) == -9 && narrow.unsigned_sum(0, 3) == std::uint64_t(-9));
    IS(wide.total(0, 3) == livevec::int128(most) * 3 && wide.total(0, 5) == livevec::int128(most) * 2 - 2);
    IS(wide.total(3, 5) == livevec::int128(least) - 1 && wide.summarise(0, 3).total() == livevec::int128(most) * 3);
    IS(livevec::vector(numbers(1000, most)).total(0, 1000) == livevec::int128(most) * 1000);
    IS(livevec::vector(numbers(1000, least)).total(0, 1000) == livevec::int128(least) * 1000);
    // two sums of 16,384 and of some more tell this one; of one kind, the elements are gone through
    const std::int64_t far = std::int64_t(1) << 50;
    numbers apart(20000, far);
    apart[7] = 0;
    IS(livevec::vector(apart).total(0, 20000) == livevec::int128(far) * 19999 && livevec::series(apart).total(0, 20000) == livevec::int128(far) * 19999);
    livevec::vector only(livevec::kind::sum);
    only.push_many({most, most, least});
    IS(only.total(0, 2) == livevec::int128(most) * 2 && only.total(1, 3) == -1 && refusal_of([&] { (void)only.total(2, 1); }) == LIVEVEC_BAD_RANGE);
    IS(said_by<std::out_of_range>([&] { (void)wide.total(0, 6); }) == "out of range: past the end (range 0 to 6, size 5)");
    livevec::shared_vector shared(livevec::vector{most, most, -5});
    IS(shared.total(0, 3) == livevec::int128(most) * 2 - 5 && shared.sum(1, 3) == most - 5 && shared.unsigned_sum(2, 3) == std::uint64_t(-5));
}

/* A vector as bytes: all, in pieces, and back; into a series, and from one. */
static void as_bytes()
{
    const numbers elements{9, -20, INT64_MIN, 19};
    livevec::vector vector(elements);
    vector.push(1);
    vector.pop();
    const std::vector<std::uint8_t> bytes = vector.save();
    IS(bytes.size() == 88 + 4 * 8 && vector.saved_length() == bytes.size() && bytes[16] == 1 && bytes[24] == 0 && bytes[32] == 4 && bytes[80] == 9);
    std::vector<std::uint8_t> pieces, room(37);
    for (std::size_t took; (took = vector.save_into(pieces.size(), room));)
        pieces.insert(pieces.end(), room.begin(), room.begin() + static_cast<std::ptrdiff_t>(took));
    IS(pieces == bytes && refusal_of([&] { (void)vector.save_into(4, room); }) == LIVEVEC_BAD_RANGE);
    const livevec::vector back = livevec::vector::load(bytes, {1, 5});
    IS(back.elements() == elements && back.edits() == 4 && back.save() == bytes && livevec::series::load(bytes).elements() == elements);
    livevec::loading<livevec::vector> loading;
    for (std::uint8_t byte : bytes)
        loading.give(livevec::byte_view(&byte, 1));
    IS(loading.end() == back && refusal_of([&] { (void)loading.end(); }) != 0);
    livevec::series readings(elements);
    readings.expire(1);
    livevec::vector two(livevec::limits{1, 9});
    two.push_saved(readings.save());
    two.push_saved(bytes);
    IS((two.elements() == numbers{-20, INT64_MIN, 19, 9, -20, INT64_MIN, 19}) && two.edits() == 7);
    IS(refusal_of([&] { two.push_saved(bytes); }) == LIVEVEC_FULL && two.edits() == 7);
    IS(refusal_of([&] { (void)livevec::vector::load(bytes, {1, 3}); }) == LIVEVEC_WORN);
    std::vector<std::uint8_t> wrong = bytes;
    wrong[81] ^= 1;
    IS(refusal_of([&] { two.push_saved(wrong); }) == LIVEVEC_NOT_SAVED && refusal_of([] { (void)livevec::vector::load({}); }) == LIVEVEC_NOT_SAVED);
    IS(refusal_of([] { (void)livevec::vector::load(livevec::samples{{1, 2}}.save()); }) == LIVEVEC_NOT_SAVED && two.size() == 7);
    IS(said_by<std::runtime_error>([&] { (void)livevec::vector::load(wrong); }) == "bytes that are no saved vector, series or samples");
}

static void is_asked_by_one_kind()
{
    livevec::vector all{4, -6, 1027, 1025};
    IS(all.value(livevec::kind::sum, 0, 4).values.sum == 2050 && all.value(livevec::kind::sum, 0, 4).values.greatest == 0);
    IS(all.value(livevec::kind::affine, 0, 4).values.affine_b == 3949 && all.value(livevec::kind::automaton, 0, 4).values.automaton[3] == 7);
    IS(all.greatest(0, 2) == 4 && all.best(1, 2) == -6 && all.best(0, 4) == 2052 && !all.best(2, 2));
    const std::vector<livevec_values> least = all.value_many(livevec::kind::least, {{0, 4}, {2, 4}, {1, 1}});
    IS(least.size() == 3 && least[0].least == -6 && least[1].least == 1025 && !least[2].any);
    const std::vector<livevec_range> ranges{{0, 1}, {3, 5}};
    try {
        (void)all.value_many(livevec::kind::sum, ranges);
        IS(false);
    } catch (const livevec::refused_at &refused) {
        IS(refused.number() == LIVEVEC_OUT_OF_RANGE && refused.detail() == 4 && refused.place() == 1 && refused.done() == 0);
    }
    IS(all.value_many(livevec::kind::sum, livevec::range_view()).empty());
    IS(refusal_of([&] { (void)all.value(livevec::kind{6}, 0, 0); }) == LIVEVEC_BAD_KIND);
    IS(refusal_of([&] { (void)all.value(livevec::kind::sum, 1, 0); }) == LIVEVEC_BAD_RANGE);
}

static void is_of_one_kind()
{
    livevec::vector least(livevec::kind::least, {3, 1000});
    IS(least.kind() == livevec::kind::least && !livevec::vector().kind());
    least.push_many({4, -6, 9});
    IS(least.least(0, 3) == -6 && least.where_least(0, 3)->index == 1 && (least.elements() == numbers{4, -6, 9}));
    IS((least.scan_inclusive<livevec::kind::least>(0, 3) == numbers{4, -6, -6}) && least.value_many(livevec::kind::least, {{2, 3}})[0].least == 9);
    IS(refusal_of([&] { (void)least.sum(0, 3); }) == LIVEVEC_BAD_KIND && refusal_of([&] { (void)least.ask(0, 3); }) == LIVEVEC_BAD_KIND);
    IS(refusal_of([&] { (void)least.where_best(0, 9); }) == LIVEVEC_BAD_KIND);
    IS(refusal_of([&] { (void)least.scan_inclusive<livevec::kind::best>(0, 3); }) == LIVEVEC_BAD_KIND);
    const livevec::vector clone = least.clone();
    IS(clone == least && clone.kind() == livevec::kind::least && refusal_of([&] { (void)clone.reduce(0, 1); }) == LIVEVEC_BAD_KIND);
    IS(refusal_of([] { livevec::vector(livevec::kind{6}); }) == LIVEVEC_BAD_KIND);
    IS(refusal_of([] { livevec::vector(livevec::kind::sum, {18, 1}); }) == LIVEVEC_BAD_LIMITS);
}

static void finds_where()
{
    livevec::vector all{4, -6, 9, 9, -6, -1, 20, -2};
    const auto least = all.where_least(0, 8), greatest = all.where_greatest(0, 5);
    IS(least && least->index == 1 && least->value == -6 && greatest && greatest->index == 2 && greatest->value == 9);
    IS(all.where_least(2, 8)->index == 4 && !all.where_least(3, 3) && !all.where_greatest(8, 8));
    const auto best = all.where_best(0, 8);
    IS(best && best->lo == 2 && best->hi == 7 && best->sum == 31 && !all.where_best(1, 1));
    IS(all.where_reaches(0, 8, 16) == 4 && all.where_reaches(0, 8, 17) == 7 && all.where_reaches(3, 8, -1) == 3 && !all.where_reaches(0, 8, 30));
    const std::int64_t most = INT64_MAX;
    livevec::vector wide{most, most, most};
    IS(wide.where_best(0, 3)->sum == livevec::int128(most) * 3 && wide.where_reaches(0, 3, most) == 1);
    IS(refusal_of([&] { (void)all.where_best(1, 0); }) == LIVEVEC_BAD_RANGE && refusal_of([&] { (void)all.where_least(0, 9); }) == LIVEVEC_OUT_OF_RANGE);
}

static void takes_many_writes()
{
    livevec::vector all{1, 2, 3};
    const std::vector<std::uint32_t> indices{2, 0, 2};
    IS(all.write_many(indices, numbers{7, 8, 9}) == 6 && (all.elements() == numbers{8, 2, 9}));
    IS(all.write_many({1}, {5}) == 7 && all.write_many({}, {}) == 7);
    try {
        all.write_many({0, 3}, {1, 1});
        IS(false);
    } catch (const livevec::refused_at &refused) {
        IS(refused.number() == LIVEVEC_OUT_OF_RANGE && refused.place() == 1 && refused.done() == 0);
    }
    try {
        all.write_many({0, 9, 1}, {1, 1, 1});
        IS(false);
    } catch (const livevec::refused_at &refused) {
        IS(refused.number() == LIVEVEC_OUT_OF_RANGE && refused.place() == 1 && refused.done() == 0);
    }
    IS(refusal_of([&] { all.write_many({0, 1}, {1}); }) == LIVEVEC_SHORT_BUFFER);
    IS((all.elements() == numbers{8, 5, 9}) && all.edits() == 7);
}

static void goes_through_a_copy()
{
    livevec::vector all{3, 1, 2};
    numbers seen;
    for (std::int64_t element : all) {
        seen.push_back(element);
        all.push(9);
    }
    IS((seen == numbers{3, 1, 2}) && all.size() == 6);
    IS(std::accumulate(all.begin(), all.end(), std::int64_t{0}) == 33 && std::count(all.begin(), all.end(), 9) == 3);
    auto at = all.begin();
    const auto again = at++;
    all.clear();
    IS(*at == 1 && *again == 3 && at != again && ++at != all.end());
    IS(all.begin() == all.end() && all.empty() && all.edits() == 7);
}

static void is_cloned_and_compared()
{
    livevec_table table = {};
    table.next[0][3] = 1;
    livevec::vector first(table, {1, 9});
    first.push_many({3, 0});
    first.write(1, 7);
    livevec::vector second = first.clone();
    IS(first == second && second.edits() == 2 && second.reduce(0, 1).values.automaton[0] == 1);
    second.push(1);
    IS(first != second && first.size() == 2);
    second.push_many(numbers(5));
    IS(second.verdict_push(1).refusal == LIVEVEC_FULL && second.verdict_pop().refusal == LIVEVEC_OK);
    second.pop();
    IS(second.verdict_pop().refusal == LIVEVEC_WORN);
    IS(first.verdict_write(2, 0).refusal == LIVEVEC_OUT_OF_RANGE && first.verdict_write(2, 0).detail == 2);
    IS(first.verdict_reserve(9).refusal == LIVEVEC_TOO_LARGE && first.verdict_swap(0, 1).refusal == LIVEVEC_OK && first.verdict_truncate(3).detail == 2);
    livevec::vector gone = std::move(first);
    IS(refusal_of([&] { (void)first.verdict_pop(); }) == LIVEVEC_NULL && refusal_of([&] { (void)first.clone(); }) == LIVEVEC_NULL);
}

static void is_scanned()
{
    const livevec::vector all{3, -5, 4};
    const auto including = all.scan_inclusive(0, 3), excluding = all.scan_exclusive(1, 3);
    IS(including.size() == 3 && including[1].least == -5 && including[2].sum == 2 && excluding.size() == 2 && !excluding[0].any);
    IS(refusal_of([&] { (void)all.scan_inclusive(0, 4); }) == LIVEVEC_OUT_OF_RANGE);
    const std::int64_t most = INT64_MAX;
    IS(*livevec::vector({most, most, -1}).best(0, 3) == 2 * livevec::int128(most) && *livevec::vector({-4, -4}).best(0, 2) == -4);
    IS(!all.best(1, 1));
}

static void is_scanned_into_columns()
{
    const livevec::vector all{3, -5, 4};
    const std::vector<std::int64_t> sums = all.scan_inclusive<livevec::kind::sum>(0, 3);
    IS(sums.size() == 3 && sums[0] == 3 && sums[1] == -2 && sums[2] == 2);
    const std::vector<livevec_total> best = all.scan_exclusive<livevec::kind::best>(0, 3);
    IS(livevec::total(best[0]) == 0 && livevec::total(best[1]) == 3 && livevec::total(livevec_total{1, -1}) == 1 - (livevec::int128(1) << 64));
    std::vector<std::int64_t> least(4, 7);
    IS(all.scan_exclusive_into<livevec::kind::least>(0, 3, least) == 3 && least[0] == 0 && least[1] == 3 && least[2] == -5 && least[3] == 7);
    IS(all.scan_inclusive<livevec::kind::automaton>(2, 3)[0].to[1] == 2 && all.scan_inclusive<livevec::kind::affine>(0, 1)[0].b == 3);
    IS(refusal_of([&] { all.scan_inclusive_into<livevec::kind::greatest>(0, 3, livevec::buffer_view(least.data(), 2)); }) == LIVEVEC_SHORT_BUFFER);
    IS(refusal_of([&] { (void)all.scan_inclusive<livevec::kind::sum>(2, 1); }) == LIVEVEC_BAD_RANGE && all.scan_inclusive<livevec::kind::sum>(1, 1).empty());
}

/* Eight threads make const calls at one vector and at one series: none is refused. */
static void is_read_by_threads()
{
    const livevec::vector all(numbers(1000, 1));
    const livevec::series long_ones(numbers(1000, 1));
    std::atomic<int> wrong{0};
    std::vector<std::thread> readers;
    for (int reader = 0; reader < 8; reader++)
        readers.emplace_back([&] {
            for (std::uint32_t i = 0; i < 2000; i++) {
                const std::uint32_t lo = i % 900;
                wrong += refusal_of([&] {
                    IS(all.sum(lo, lo + 50) == 50 && all.best(lo, 1000) == 1000 - lo && all.where_reaches(lo, 1000, 7) == lo + 7 && all[lo] == 1);
                    IS(all.read(lo, lo + 3).size() == 3 && all.size() == 1000 && all.verdict_pop().refusal == 0 && all.reduce(lo, lo).values.sum == 0);
                    IS(long_ones.sum(lo, lo + 50) == 50 && long_ones.least(lo, 1000) == 1 && long_ones.length() == 1000 && long_ones.elements().size() == 1000);
                }) != LIVEVEC_OK;
            }
        });
    for (std::thread &reader : readers)
        reader.join();
    IS(wrong == 0);
}

/* No index is cut to one that there is. */
static void takes_any_integer_as_an_index()
{
    livevec::vector of{3, -1, 4};
    const std::uint64_t wide = (std::uint64_t(1) << 32) + 1;
    const std::size_t place = 1;
    enum { SECOND = 1 };
    IS(of[place] == -1 && of[SECOND] == -1 && of.sum(place, 3) == 3 && of.value(livevec::kind::least, 0, place).values.least == 3);
    IS(refusal_of([&] { (void)of[wide]; }) == LIVEVEC_OUT_OF_RANGE && refusal_of([&] { of.write(wide, 7); }) == LIVEVEC_OUT_OF_RANGE);
    IS(refusal_of([&] { (void)of[-1]; }) == LIVEVEC_OUT_OF_RANGE && refusal_of([&] { (void)of.sum(0, wide + 1); }) == LIVEVEC_OUT_OF_RANGE);
    IS(refusal_of([&] { (void)of.sum(-1, 2); }) == LIVEVEC_BAD_RANGE && refusal_of([&] { of.truncate(wide); }) == LIVEVEC_OUT_OF_RANGE);
    IS(of.verdict_write(wide, 7).refusal == LIVEVEC_OUT_OF_RANGE && refusal_of([&] { of.swap_elements(0, wide); }) == LIVEVEC_OUT_OF_RANGE);
    IS(of.elements() == std::vector<std::int64_t>({3, -1, 4}) && of.edits() == 3);
    IS(livevec::to_string(0) == "0" && livevec::to_string(livevec::vector{INT64_MIN, INT64_MIN}.total(0, 2)) == "-18446744073709551616");
}

/* A count is no negative number, and one that is too large is as many as there are. */
static void takes_no_negative_count()
{
    livevec::vector of{1, 2, 3, 4, 5, 6, 7, 8};
    IS(refusal_of([&] { of.refresh(-1); }) == LIVEVEC_OUT_OF_RANGE && refusal_of([&] { (void)of.copy_blocks(0, -1); }) == LIVEVEC_OUT_OF_RANGE);
    IS(refusal_of([&] { (void)of.copy_subtree(-1); }) == LIVEVEC_OUT_OF_RANGE && refusal_of([&] { (void)livevec::transcript::journal(of, -1); }) == LIVEVEC_OUT_OF_RANGE);
    std::vector<std::uint8_t> room(8);
    IS(refusal_of([&] { (void)of.save_into(-8, room); }) == LIVEVEC_OUT_OF_RANGE && refusal_of([] { livevec::board(livevec::kind::sum, -1); }) == LIVEVEC_OUT_OF_RANGE);
    IS(of.refresh((std::uint64_t(1) << 32) + 1) == 1 && of.refresh(1) == 0);
}

int main()
{
    takes_any_integer_as_an_index();
    takes_no_negative_count();
    goes_in_and_comes_out();
    goes_through_a_copy();
    takes_ranges_of_integers();
    throws_what_the_library_throws();
    adds_up_exactly();
    as_bytes();
    is_cloned_and_compared();
    is_scanned();
    is_scanned_into_columns();
    is_asked_by_one_kind();
    is_of_one_kind();
    finds_where();
    takes_many_writes();
    queries();
    series();
    series_kinds();
    lent();
    places();
    samples();
    transcripts();
    boards();

    livevec::vector prices{300, 120, 500, 80};
    IS(prices.write(0, 180) == 300);
    IS(prices.sum(0, 4) == 880 && prices.least(0, 2) == 120 && prices.edits() == 5);
    IS(prices.push(7) == 4 && prices[4] == 7 && prices.pop() == 7);
    IS((prices.read(1, 3) == std::vector<std::int64_t>{120, 500}));
    IS(!prices.least(2, 2));
    prices.swap_elements(0, 3);
    IS(prices[0] == 80 && prices.truncate(1) == 3 && prices.size() == 1);
    IS(refusal_of([&] { (void)prices.read(1, 3); }) == LIVEVEC_OUT_OF_RANGE);
    IS(refusal_of([&] { (void)prices.read(3, 1); }) == LIVEVEC_BAD_RANGE);
    IS(refusal_of([] { livevec::vector(livevec::limits{18, 1}); }) == LIVEVEC_BAD_LIMITS);
    try {
        prices.write(9, 1);
        IS(false);
    } catch (const livevec::refused &refused) {
        IS(refused.number() == LIVEVEC_OUT_OF_RANGE && refused.detail() == 1);
        IS(refused.what() == std::string("out of range: past the end (index 9, size 1)"));
    }

    livevec::vector moved = std::move(prices);
    IS(moved.size() == 1);
    IS(refusal_of([&] { prices.push(1); }) == LIVEVEC_NULL);

    livevec::vector eight{1, 2, 3, 4, 5, 6, 7, 8};
    std::optional<livevec::job> job = eight.claim();
    IS(job.has_value() && !eight.claim());
    std::optional<livevec::outcome> outcome;
    std::thread worker([&] { outcome = job->run(); });
    worker.join();
    IS(refusal_of([&] { (void)job->run(); }) == LIVEVEC_NO_HANDLE);
    IS(eight.vets(*outcome));
    IS(eight.deliver(*outcome) == LIVEVEC_INSTALLED && eight.deliver(*outcome) == LIVEVEC_HELD);
    eight.write(0, 9);
    IS(eight.deliver(*outcome) == LIVEVEC_STALE);
    // last: what its threads leave of memory would be had by the test that wants none
    is_read_by_threads();
    std::puts("C++: each call answered as it should");
}
