/* A series and samples that threads share, by livevec_shared.hpp, and a vector that goes on as its copy. Values are worked out by hand. */
#include "tests_cpp.hpp"

#include <atomic>
#include <chrono>
#include <cstdint>
#include <optional>
#include <string>
#include <thread>
#include <type_traits>
#include <utility>
#include <vector>

using list = std::vector<std::int64_t>;
using livevec::kind;

/* What only a vector has is there only for it. */
template <class Shared, class = void> struct has_workers : std::false_type {};
template <class Shared> struct has_workers<Shared, std::void_t<decltype(std::declval<Shared &>().start_workers(1))>> : std::true_type {};
template <class Shared, class = void> struct renews : std::false_type {};
template <class Shared> struct renews<Shared, std::void_t<decltype(std::declval<Shared &>().renew())>> : std::true_type {};
template <class Shared, class = void> struct expires : std::false_type {};
template <class Shared> struct expires<Shared, std::void_t<decltype(std::declval<Shared &>().expire(1))>> : std::true_type {};
using livevec::shared;
static_assert(has_workers<livevec::shared_vector>::value && !has_workers<shared<livevec::series>>::value && !has_workers<shared<livevec::samples>>::value);
static_assert(renews<livevec::shared_vector>::value && !renews<shared<livevec::series>>::value && !renews<shared<livevec::samples>>::value);
static_assert(!expires<livevec::shared_vector>::value && expires<shared<livevec::series>>::value && expires<shared<livevec::samples>>::value);
static_assert(std::is_same_v<livevec::shared_vector, shared<livevec::vector>> && std::is_nothrow_move_assignable_v<shared<livevec::series>>);

static void a_series()
{
    shared<livevec::series> of(livevec::series{4, 5});
    livevec::subscriber alerts = of.subscribe({{"all", kind::sum}, {"front", livevec::query(kind::least).between(0, 2)}}), late = of.subscribe({{"most", kind::greatest}});
    IS(of.push(6).edit == 3 && of.size() == 3 && of[2] == 6 && of.edits() == 3);
    livevec::noted told = *alerts.next();
    IS(told.edit() == 3 && told.size() == 2 && told[0].name == std::string("all") && told[0].values.sum == 15 && told[1].values.least == 4);
    IS(of.write(0, 7).value == 4 && of.swap_elements(0, 1).value == 5 && of.pop().value == 6 && of.edits() == 6);
    told = *alerts.next();
    IS(told.edit() == 6 && told[0].values.sum == 12 && told[1].values.least == 5 && told[1].edit == 6);
    IS(of.push_many(list{1, 2, 3}) == 9 && of.write_many(std::vector<std::uint64_t>{4}, list{30}) == 10 && of.expire(1).place == 1 && of.first() == 1);
    IS(of.truncate(4).place == 1 && of.sum(1, 4) == 10 && of.unsigned_sum(1, 4) == 10 && *of.least(1, 4) == 1 && *of.greatest(1, 4) == 7);
    IS(*of.best(1, 3) == 8 && of.value(kind::sum, 1, 2).edit == 12 && of.reduce(1, 4).values.least == 1 && !of.least(2, 2));
    IS(refusal_of([&] { (void)of[0]; }) == LIVEVEC_OUT_OF_RANGE && refusal_of([&] { of.write(4, 1); }) == LIVEVEC_OUT_OF_RANGE);
    IS(refusal_of([&] { (void)of.subscribe({{"seventeen letters", kind::sum}}); }) == LIVEVEC_BAD_NAME);
    IS(refusal_of([&] { (void)of.subscribe({{"back", livevec::query(kind::sum).between(2, 1)}}); }) == LIVEVEC_BAD_RANGE);
    of.with([&](livevec::series &within) {
        IS(refusal_of([&] { (void)of.size(); }) == LIVEVEC_BUSY);
        within = livevec::series{9};
    });
    // the exchange is edit 13, and the other's push is 14
    told = alerts.look();
    IS(of.edits() == 14 && told.edit() == 14 && told[0].values.sum == 9 && told[1].values.least == 9);
    std::atomic<bool> has_heard{false};
    std::thread sleeps([&] {
        IS(late.next()->at(0).values.greatest == 9);
        has_heard = true;
        IS(late.next()->at(0).values.greatest == 50 && !late.next());
    });
    while (!has_heard)
        std::this_thread::yield();
    of.push(50);
    const livevec::series back = of.close();
    sleeps.join();
    IS((back.elements() == list{9, 50}) && refusal_of([&] { of.push(1); }) == LIVEVEC_NO_HANDLE && alerts.next()->edit() == 15 && !alerts.next());
}

static void some_samples()
{
    shared<livevec::samples> load(livevec::samples{{0, 20}, {12, 22}});
    livevec::subscriber alerts = load.subscribe({{"most", kind::greatest}});
    IS(load.push(61, 30).place == 2 && load.push_many(list{75, 80}, list{26, 28}) == 5 && load.at(3).time == 75 && load[3] == 26);
    IS(alerts.next()->at(0).values.greatest == 30 && load.value_of_last(kind::sum, 60).values.sum == 84 && load.value_between(kind::least, 0, 13).edit == 5);
    IS(load.expire_before(70).place == 3 && load.expire(4).place == 1 && load.first() == 4 && load.size() == 5 && load.edits() == 7);
    IS(refusal_of([&] { load.push(79, 1); }) == LIVEVEC_EARLIER && load.write(4, 29).value == 28);
    const livevec::noted told = *alerts.next();
    IS(told.edit() == 8 && told[0].values.greatest == 29 && load.close().times() == list{80});
}

/* Threads push to a series twos alone, so that the sum tells how many there are. */
static void threads_share_a_series()
{
    shared<livevec::series> of;
    livevec::subscriber alerts = of.subscribe({{"all", kind::sum}});
    alerts.set_pause(std::chrono::nanoseconds(0));
    std::uint64_t last = 0;
    std::thread listener([&] {
        while (const std::optional<livevec::noted> told = alerts.next()) {
            IS(told->edit() > last && told->at(0).values.sum == 2 * told->edit());
            last = told->edit();
        }
    });
    std::vector<std::thread> feeders;
    for (int i = 0; i < 4; i++)
        feeders.emplace_back([&] {
            for (std::uint64_t before = 0, pushes = 0; pushes < 2000; pushes++) {
                const std::uint64_t edit = of.push(2).edit;
                IS(before < edit);
                before = edit;
            }
        });
    for (std::thread &feeder : feeders)
        feeder.join();
    IS(of.close().size() == 8000);
    listener.join();
    IS(last == 8000);
}

/* A vector of few edits goes on and on: numbers rise, and who listens is told the same as of one that isn't worn. */
static void a_vector_goes_on()
{
    shared<livevec::vector> of{livevec::vector(kind::sum, livevec::limits{1, 6})};
    livevec::queries sum;
    sum.watch("all", kind::sum);
    livevec::subscriber alerts = of.subscribe(std::move(sum));
    of.start_workers(2);
    std::int64_t wanted = 0;
    for (std::uint64_t edit = 1; edit <= 50; edit++) {
        if (of.with([](const livevec::vector &within) { return within.edits(); }) == 6) {
            IS(refusal_of([&] { of.push(1); }) == LIVEVEC_WORN);
            of.renew();
            IS(of.edits() == edit - 1 && alerts.look().empty() && refusal_of([&] { (void)of.least(0, 1); }) == LIVEVEC_BAD_KIND);
        }
        // of at most two elements, so that a copy has four edits left
        const livevec::receipt did = of.size() < 2 ? of.push(1) : of.pop();
        wanted += did.place || !did.value ? 1 : -did.value;
        const livevec::noted told = alerts.look();
        IS(did.edit == edit && told.edit() == edit && told[0].edit == edit && told[0].values.sum == static_cast<std::uint64_t>(wanted));
        IS(of.sum(0, of.size()) == wanted && of.value(kind::sum, 0, 1).edit == edit);
    }
    IS(refusal_of([&] { of.with([&](livevec::vector &) { of.renew(); }); }) == LIVEVEC_BUSY);
    shared<livevec::vector> full(livevec::vector(list(4, 1), livevec::limits{1, 4}));
    full.renew();
    IS(full.edits() == 4 && refusal_of([&] { full.pop(); }) == LIVEVEC_WORN && full.close().elements() == list(4, 1));
    IS(refusal_of([&] { full.renew(); }) == LIVEVEC_NO_HANDLE && of.close().edits() <= 6 && !alerts.next());
}

template <class Answer> static std::int64_t place_of(const std::optional<Answer> &told) { return told ? static_cast<std::int64_t>(told->index) : -1; }

/* Of {3, -1, 4, 1, -5, 9, 2, 6} what is shared answers as what isn't, and that is as by hand. */
template <class Of> static void as_alone(Of alone)
{
    shared<Of> of(alone.clone());
    IS(place_of(of.where_least(0, 8)) == 4 && place_of(of.where_greatest(0, 5)) == 2 && place_of(of.where_least(2, 2)) == -1);
    IS(of.where_best(0, 8)->lo == 0 && of.where_best(0, 8)->hi == 8 && *of.where_reaches(0, 8, 6) == 3 && *of.where_reaches_back(0, 8, 8) == 6);
    IS(*of.where_first_at_least(0, 8, 4) == 2 && *of.where_first_at_most(2, 8, -1) == 4 && *of.where_last_at_least(0, 5, 4) == 2);
    IS(*of.where_last_at_most(0, 8, 1) == 4 && !of.where_first_at_least(0, 8, 10) && of.total(0, 8) == 19 && alone.total(1, 5) == -1);
    const std::vector<livevec_values> many = of.value_many(kind::sum, {{0, 3}, {2, 8}});
    IS(many.size() == 2 && many[0].sum == 6 && many[1].sum == 17 && of.ask(0, 8).values.greatest == 9 && of.ask(0, 8).edit == 8);
    IS((of.template scan_inclusive<kind::sum>(6, 8) == list{2, 8} && of.template scan_exclusive<kind::least>(0, 2) == list{0, 3}));
    IS(of.scan_inclusive(6, 8)[1].sum == 8 && of.scan_exclusive(6, 8)[1].sum == 2 && refusal_of([&] { (void)of.where_least(0, 9); }) == LIVEVEC_OUT_OF_RANGE);
    IS((of.front() == 3 && of.back() == 6 && !of.empty() && of.read(2, 4) == list{4, 1} && of.elements() == alone.elements()));
    std::int64_t sum = 0, own = 0;
    for (std::int64_t each : of)
        sum += each;
    for (std::int64_t each : alone)
        own += each;
    IS(sum == 19 && own == 19 && alone.cbegin() != alone.cend() && of.clone() == alone && alone.front() == 3 && alone.back() == 6);
    alone.pop_back();
    IS(of.clone() != alone && of.cbegin() != of.cend() && !(of != of) && of.clear() == 9 && of.empty() && refusal_of([&] { (void)of.front(); }) == LIVEVEC_OUT_OF_RANGE);
    IS(alone.size() == 7 && (alone.clear(), alone.empty()));
}

static void each_form_as_alone()
{
    const list elements{3, -1, 4, 1, -5, 9, 2, 6};
    as_alone(livevec::vector(elements));
    as_alone(livevec::series(elements));
    const list times{0, 5, 5, 10, 20, 30, 31, 40};
    as_alone(livevec::samples(times, elements));
    const shared<livevec::vector> vector{livevec::vector(elements)};
    IS(vector.capacity() == 8 && vector.summarise(0, 3).total() == 6 && vector.at(5) == 9);
    IS(livevec::vector::load(vector.save()) == vector.clone() && vector.edits() == 8);
    shared<livevec::series> series{livevec::series(elements)};
    series.prepare(kind::best);
    IS(livevec::series::load(series.save()) == series.clone() && series.length() == 8);
    list column(3);
    IS(vector.scan_inclusive_into<kind::sum>(0, 3, column) == 3 && (column == list{3, 2, 6}) && refusal_of([&] { (void)vector.scan_inclusive_into<kind::sum>(0, 4, column); }) == LIVEVEC_SHORT_BUFFER);
    IS(vector.scan_exclusive_into<kind::greatest>(0, 2, column) == 2 && (column == list{0, 3, 6}));
    IS(series.scan_inclusive_into<kind::sum>(0, 3, 8, column) == 3 && (column == list{7, 2, 11}) && series.scan_exclusive_into<kind::least>(0, 6, 8, column) == 2 && (column == list{-5, -5, 11}));
    shared<livevec::series> pushed{livevec::series(elements)};
    IS(series == pushed);
    pushed.push_back(7);
    IS(series != pushed && pushed.back() == 7);
    pushed.pop_back();
    IS(series == pushed);
    const shared<livevec::samples> load{livevec::samples(times, elements)};
    IS((load.times(1, 4) == list{5, 5, 10} && load.between(5, 10).lo == 1 && load.last(10).lo == 6 && load.last(10).edit == 8));
    IS(livevec::samples::load(load.save()) == load.clone() && load.clone() != livevec::samples(times, list(8)));
    // sums that 64 bits don't hold, told by bounds, and element by element where these leave it open
    const list large{INT64_MAX, INT64_MAX - 7, INT64_MAX}, apart{INT64_MAX, INT64_MIN, INT64_MAX};
    IS(livevec::series(large).total(0, 3) == livevec::int128(INT64_MAX) * 3 - 7 && livevec::vector(large).total(0, 3) == livevec::int128(INT64_MAX) * 3 - 7);
    IS(livevec::series(apart).total(0, 3) == livevec::int128(INT64_MAX) - 1 && livevec::vector(apart).total(0, 3) == livevec::int128(INT64_MAX) - 1);
    IS(livevec::series(apart).total(2, 2) == 0 && refusal_of([&] { (void)livevec::series(apart).total(0, 4); }) == LIVEVEC_OUT_OF_RANGE);
}

void other_sorts()
{
    each_form_as_alone();
    a_series();
    some_samples();
    threads_share_a_series();
    a_vector_goes_on();
}
