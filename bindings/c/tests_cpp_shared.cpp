/* A shared vector of livevec_shared.hpp: subscribers, workers, what is refused or thrown, and want of memory. */
#include "tests_cpp.hpp"

#include <algorithm>
#include <chrono>
#include <cstdint>
#include <cstdio>
#include <cstdlib>
#include <new>
#include <numeric>
#include <optional>
#include <stdexcept>
#include <thread>
#include <type_traits>
#include <utility>
#include <vector>

using list = std::vector<std::int64_t>;
using notes = std::vector<livevec_note>;

/* A thread has no more memory by `new` while it says so; but under a sanitizer, which has a `new` of its own. */
#ifdef __has_feature
#define HAS_NEW_OF_ITS_OWN (__has_feature(thread_sanitizer) || __has_feature(address_sanitizer))
#elif defined(__SANITIZE_THREAD__) || defined(__SANITIZE_ADDRESS__)
#define HAS_NEW_OF_ITS_OWN 1
#else
#define HAS_NEW_OF_ITS_OWN 0
#endif
#if !HAS_NEW_OF_ITS_OWN
static thread_local bool is_starved = false;

// not inline: the compiler takes their calls of malloc and free for a mistake where it sees them
__attribute__((noinline)) void *operator new(std::size_t size)
{
    void *made = is_starved ? nullptr : std::malloc(size);
    if (!made)
        throw std::bad_alloc();
    return made;
}
__attribute__((noinline)) void operator delete(void *it) noexcept
{
    std::free(it);
}
__attribute__((noinline)) void operator delete(void *it, std::size_t) noexcept
{
    std::free(it);
}
#endif

static_assert(!std::is_copy_constructible_v<livevec::shared_vector> && std::is_nothrow_move_constructible_v<livevec::shared_vector>);
static_assert(!std::is_copy_constructible_v<livevec::subscriber> && std::is_nothrow_move_assignable_v<livevec::shared_vector>);

static livevec::queries watching(livevec::kind kind)
{
    livevec::queries made;
    made.watch("all", kind);
    return made;
}

static void looks_sleeps_and_has_the_last_notes()
{
    livevec::shared_vector shared(livevec::vector{4, 5});
    livevec::subscriber alerts = shared.subscribe(watching(livevec::kind::sum)), late = shared.subscribe(watching(livevec::kind::least));
    IS(shared.push(6).edit == 3);
    const notes told = *alerts.next();
    IS(told.size() == 1 && told[0].edit == 3 && told[0].values.sum == 15);
    IS(shared.write(0, 4).value == 4 && alerts.look().empty());
    // a pause doesn't hold up the close, nor does a sleep
    IS(refusal_of([&] { alerts.set_pause(std::chrono::nanoseconds(-1)); }) == LIVEVEC_OUT_OF_RANGE);
    IS(refusal_of([&] { shared.start_workers(-1); }) == LIVEVEC_OUT_OF_RANGE);
    alerts.set_pause(std::chrono::hours(1));
    shared.push(1);
    IS((*alerts.next())[0].values.sum == 16);
    livevec::subscriber sleeping = shared.subscribe(watching(livevec::kind::greatest));
    std::thread pauses([&] {
        const auto last = alerts.next();
        IS(last && last->at(0).edit == 6 && last->at(0).values.sum == 3 && !alerts.next() && alerts.look().empty());
    });
    std::thread sleeps([&] { IS(sleeping.next()->at(0).values.greatest == 6 && !sleeping.next()); });
    std::this_thread::sleep_for(std::chrono::milliseconds(20));
    shared.write(0, -9);
    const livevec::vector vector = shared.close();
    pauses.join();
    sleeps.join();
    IS((vector.elements() == list{-9, 5, 6, 1}));
    IS(late.look().at(0).values.least == -9 && !late.next());
    for (std::uint32_t number : {refusal_of([&] { shared.push(1); }), refusal_of([&] { shared.push_many(list{1}); }),
                                 refusal_of([&] { (void)shared.sum(0, 0); }), refusal_of([&] { shared.start_workers(1); }),
                                 refusal_of([&] { (void)shared.subscribe(livevec::queries()); }), refusal_of([&] { (void)shared.close(); }),
                                 refusal_of([&] { shared.with([](livevec::vector &) {}); })})
        IS(number == LIVEVEC_NO_HANDLE);
    livevec::shared_vector moved = std::move(shared);
    IS(refusal_of([&] { shared.push(1); }) == LIVEVEC_NULL && refusal_of([&] { moved.push(1); }) == LIVEVEC_NO_HANDLE);
}

static void what_is_refused_changes_nothing()
{
    livevec::shared_vector shared(livevec::vector(livevec::limits{1, 20}));
    livevec::subscriber alerts = shared.subscribe(watching(livevec::kind::sum));
    IS(refusal_of([&] { shared.pop(); }) == LIVEVEC_EMPTY);
    IS(refusal_of([&] { shared.write(0, 1); }) == LIVEVEC_OUT_OF_RANGE);
    IS(refusal_of([&] { shared.swap_elements(0, 1); }) == LIVEVEC_OUT_OF_RANGE);
    IS(refusal_of([&] { shared.truncate(1); }) == LIVEVEC_OUT_OF_RANGE);
    IS(refusal_of([&] { shared.reserve(9); }) == LIVEVEC_TOO_LARGE);
    IS(shared.edits() == 0 && alerts.look().empty());
    try {
        shared.push_many(list(9, 2));
        IS(false);
    } catch (const livevec::stopped &stopped) {
        IS(stopped.number() == LIVEVEC_FULL && stopped.pushed() == 0 && shared.edits() == 0 && alerts.look().empty());
    }
    IS(shared.push_many(list(8, 2)) == 8);
    IS((*alerts.next())[0].values.sum == 16);
    IS(refusal_of([&] { shared.write_many(std::vector<std::uint32_t>{0, 8}, list{1, 1}); }) == LIVEVEC_OUT_OF_RANGE);
    IS(alerts.look().empty() && shared[7] == 2 && shared.size() == 8 && *shared.best(1, 3) == 4 && shared.least(0, 8) == 2);
    IS(shared.greatest(1, 1) == std::nullopt && shared.reduce(0, 8).edit == 8 && shared.value(livevec::kind::sum, 0, 2).values.sum == 4);
    livevec::shared_vector sums{livevec::vector(livevec::kind::sum)};
    livevec::subscriber early = sums.subscribe(watching(livevec::kind::least)), late = sums.subscribe(watching(livevec::kind::least));
    IS(refusal_of([&] { (void)early.look(); }) == LIVEVEC_BAD_KIND && refusal_of([&] { (void)early.next(); }) == LIVEVEC_BAD_KIND);
    IS(sums.subscribe(watching(livevec::kind::sum)).look().empty());
    IS(refusal_of([&] { sums.start_workers(SIZE_MAX); }) == LIVEVEC_NO_MEMORY);
    (void)sums.close();
    IS(refusal_of([&] { (void)late.next(); }) == LIVEVEC_BAD_KIND && !late.next());
}

static void what_is_thrown_within_stops_nobody()
{
    livevec::shared_vector shared;
    shared.start_workers(1);
    livevec::subscriber alerts = shared.subscribe(watching(livevec::kind::sum));
    std::optional<livevec::subscriber> gone = shared.subscribe(watching(livevec::kind::best));
    try {
        shared.with([&](livevec::vector &of) {
            of.push(3);
            IS(refusal_of([&] { (void)shared.size(); }) == LIVEVEC_BUSY);
            IS(refusal_of([&] { (void)alerts.next(); }) == LIVEVEC_BUSY);
            IS(refusal_of([&] { shared.stop_workers(); }) == LIVEVEC_BUSY);
            IS(refusal_of([&] { (void)shared.close(); }) == LIVEVEC_BUSY);
            gone.reset();
            throw std::runtime_error("within");
        });
        IS(false);
    } catch (const std::runtime_error &error) {
        IS(!std::strcmp(error.what(), "within"));
    }
    IS((*alerts.next())[0].values.sum == 3 && shared.push(4).edit == 2 && (*alerts.next())[0].values.sum == 7);
    IS(shared.with([](livevec::vector &of) -> livevec::vector & { return of; }).size() == 2);
}

static void workers_compute_stop_and_start_again()
{
    livevec::shared_vector shared;
    shared.start_workers(2);
    for (std::uint32_t round = 1; round < 4; round++) {
        list many(10000);
        std::iota(many.begin(), many.end(), 0);
        shared.push_many(many);
        // a reduction reads few cells once the summaries are there, and nothing keeps them but the workers
        until([&] { return shared.reduce(0, shared.size()).cells < 8; });
        IS(shared.reduce(0, shared.size()).values.sum == round * 49995000ull);
        shared.stop_workers();
        shared.start_workers(1 + round);
    }
    // a vector put in the place of another takes no outcome of its jobs
    shared.push_many(list(20000, 1));
    shared.with([](livevec::vector &of) { of = livevec::vector(list(64, 5)); });
    until([&] { return shared.reduce(0, 64).cells == 0; });
    IS(shared.close().sum(0, 64) == 320);
}

static void batches_come_late()
{
    list many(100004);
    std::iota(many.begin(), many.end(), 0);
    livevec::vector of(many), other(list(100, 5));
    const std::uint64_t blocks = many.size() / 8;
    std::optional<livevec::batch> first = of.copy_blocks(0, UINT32_MAX), again = of.copy_blocks(0, UINT32_MAX), strange = of.copy_blocks(0, 12);
    IS(first && first->size() == blocks && !of.copy_blocks(12501, 1) && !of.copy_blocks(0, 0));
    of.write(17, 0);
    of.truncate(99999);
    IS(refusal_of([&] { (void)of.take_in(std::move(*of.copy_blocks(0, 1))); }) == LIVEVEC_NO_HANDLE);
    first->run();
    IS(refusal_of([&] { first->run(); }) == LIVEVEC_NO_HANDLE);
    livevec_taken taken = of.take_in(std::move(*first));
    IS(taken.installed == blocks - 2 && taken.held == 0 && taken.stale == 2 && taken.strangers == 0);
    again->run();
    taken = of.take_in(std::move(*again));
    IS(taken.installed == 0 && taken.held == blocks - 2 && taken.stale == 2 && taken.strangers == 0);
    strange->run();
    taken = other.take_in(std::move(*strange));
    IS(taken.installed == 0 && taken.strangers == 12 && other.sum(0, 100) == 500);
    IS(of.reduce(0, 99999).values.sum == std::uint64_t{99998} * 99999 / 2 - 17);
}

/* All elements of a vector by its own answer, against a plain fold of a list. */
static void is_like(const livevec_reduced &told, const list &elements)
{
    std::uint64_t sum = 0;
    std::int64_t best = 0, run = 0;
    for (std::int64_t it : elements) {
        sum += static_cast<std::uint64_t>(it);
        run = std::max(run, std::int64_t{0}) + it;
        best = std::max(best, run);
    }
    IS(told.values.sum == sum && told.values.best_low == static_cast<std::uint64_t>(best));
    IS(told.values.least == *std::min_element(elements.begin(), elements.end()));
    IS(told.values.greatest == *std::max_element(elements.begin(), elements.end()));
}

/* Element `i` of lists that rise and fall. */
static std::int64_t wave(std::int64_t i)
{
    return i * 7919 % 2003 - 1000;
}

static list waves(std::size_t size)
{
    list made(size);
    for (std::size_t i = 0; i < size; i++)
        made[i] = wave(static_cast<std::int64_t>(i));
    return made;
}

static void subtrees_come_late()
{
    list many = waves(9000);
    const list first_part(many.begin(), many.begin() + 4096), second_part(many.begin() + 4096, many.begin() + 8192);
    livevec::vector of(many), other(list(5000, 5));
    IS(!of.copy_subtree(2) && !of.copy_subtree(UINT32_MAX) && !livevec::vector().copy_subtree(0));
    std::optional<livevec::subtree> first = of.copy_subtree(0), again = of.copy_subtree(0), late = of.copy_subtree(1);
    IS(first && again && late && first->number() == 0 && late->number() == 1);
    IS(refusal_of([&] { (void)of.take_subtree(*first); }) == LIVEVEC_NO_HANDLE);
    first->run(), again->run(), late->run();
    IS(!other.take_subtree(*first) && other.reduce(0, 4096).summaries == 0 && other.sum(0, 5000) == 25000);
    IS(of.take_subtree(*first) && !of.take_subtree(*first) && !of.copy_subtree(0) && !of.copy_blocks(0, 512));
    IS(of.reduce(0, 4096).summaries == 1 && of.reduce(0, 4096).cells == 0 && of.reduce(0, 512).summaries == 1 && of.reduce(8, 16).summaries == 1);
    is_like(of.reduce(0, 4096), first_part);
    // what stands there still may be taken in again, by another job
    IS(of.take_subtree(*again) && refusal_of([&] { again->run(); }) == LIVEVEC_NO_HANDLE);
    // a write comes between, and is made good by another
    of.write(5000, -1);
    IS(!of.take_subtree(*late) && of.reduce(4096, 8192).summaries == 0);
    of.write(5000, many[5000]);
    IS(of.take_subtree(*late) && of.reduce(4096, 8192).summaries == 1);
    is_like(of.reduce(4096, 8192), second_part);
    is_like(of.reduce(0, 9000), many);
    // a subtree of which the last block is there is gone over by its blocks
    of.write(0, 1);
    IS(!of.copy_subtree(0) && of.copy_blocks(0, 512)->size() == 1);
}

/* Whether each whole node of each level is read as one summary. */
static bool is_all_fresh(const livevec::shared_vector &of, std::uint32_t size)
{
    for (std::uint32_t wide = 8; wide <= size; wide *= 8)
        for (std::uint32_t end = wide; end <= size; end += wide)
            if (of.reduce(end - wide, end).cells || of.reduce(end - wide, end).summaries != 1)
                return false;
    return true;
}

/* A writer writes all over while four workers compute; then they become idle, and have left nothing out. */
static void workers_get_on_beside_a_writer()
{
    list many = waves(100000);
    livevec::shared_vector shared{livevec::vector(many)};
    shared.start_workers(4);
    for (std::uint32_t i = 0; i < 60000; i++) {
        const std::uint32_t index = i * 7919 % 100000;
        shared.write(index, many[index] = wave(i) + i);
        if (i == 30000) {
            shared.stop_workers();
            shared.start_workers(4);
        }
    }
    until([&] { return is_all_fresh(shared, 100000); });
    is_like(shared.reduce(0, 100000), many);
    IS(shared.reduce(0, 100000).cells == 0 && shared.close().refresh(UINT32_MAX) == 0);
}

/* Four workers share all blocks, again and again, while edits go on. */
static void workers_share_many_blocks()
{
    list many(200004);
    std::iota(many.begin(), many.end(), 0);
    livevec::shared_vector shared{livevec::vector(many)};
    std::vector<std::uint32_t> indices(many.size());
    std::iota(indices.begin(), indices.end(), 0u);
    shared.start_workers(4);
    for (int round = 1; round < 6; round++) {
        // one summary has 32,768 elements once all below it are there, and nothing keeps them but the workers
        until([&] { return shared.reduce(0, 6 * 32768).summaries <= 6; });
        IS(static_cast<std::int64_t>(shared.reduce(0, shared.size()).values.sum) == std::accumulate(many.begin(), many.end(), std::int64_t{0}));
        for (std::int64_t &it : many)
            it += round;
        shared.write_many(indices, many);
        for (std::uint32_t i = 0; i < 50; i++)
            shared.write(i * 4001, many[i * 4001] = round);
        if (round % 2) {
            shared.stop_workers();
            shared.start_workers(4);
        }
    }
    IS(shared.close().sum(0, 200004) == std::accumulate(many.begin(), many.end(), std::int64_t{0}));
}

static void subscribers_come_and_go_while_edits_go_on()
{
    livevec::shared_vector shared;
    shared.start_workers(1);
    std::thread feeder([&] {
        for (int i = 0; i < 5000; i++)
            shared.push(2);
    });
    for (int i = 0; i < 100; i++) {
        livevec::subscriber alerts = shared.subscribe(watching(livevec::kind::sum));
        for (const livevec_note &note : alerts.look())
            IS(note.values.sum == 2ull * note.edit);
    }
    feeder.join();
    // the end of the vector ends workers and sleep as well
    std::optional<livevec::subscriber> alerts;
    {
        const livevec::shared_vector ended = std::move(shared);
        IS(ended.sum(0, 5000) == 10000);
        alerts = std::optional<livevec::subscriber>(const_cast<livevec::shared_vector &>(ended).subscribe(watching(livevec::kind::sum)));
    }
    IS(alerts->next()->at(0).values.sum == 10000 && !alerts->next());
}

#if !HAS_NEW_OF_ITS_OWN
/* Whether a call is refused for want of memory by `new`. */
template <class Call> static bool is_wanting(Call call)
{
    is_starved = true;
    try {
        call();
        is_starved = false;
        return false;
    } catch (const std::bad_alloc &) {
        is_starved = false;
        return true;
    } catch (const livevec::refused &refused) {
        is_starved = false;
        return refused.number() == LIVEVEC_NO_MEMORY;
    }
}

static void want_of_memory_loses_nothing()
{
    livevec::shared_vector shared(livevec::vector{1, 2});
    livevec::subscriber alerts = shared.subscribe(watching(livevec::kind::sum)), late = shared.subscribe(watching(livevec::kind::least));
    livevec::queries asked = watching(livevec::kind::best);
    IS(is_wanting([&] { (void)alerts.look(); }) && is_wanting([&] { (void)alerts.next(); }));
    IS(is_wanting([&] { shared.start_workers(1); }) && is_wanting([&] { (void)shared.subscribe(std::move(asked)); }));
    IS((*alerts.next())[0].values.sum == 3 && alerts.look().empty());
    // an edit and the end take no memory by `new`
    IS(!is_wanting([&] { shared.push(-4); }) && !is_wanting([&] { (void)shared.close(); }));
    IS(late.next()->at(0).values.least == -4 && alerts.next()->at(0).edit == 3);
}
#endif

int main()
{
    nothing_is_lost();
    looks_sleeps_and_has_the_last_notes();
    what_is_refused_changes_nothing();
#if !HAS_NEW_OF_ITS_OWN
    want_of_memory_loses_nothing();
#endif
    what_is_thrown_within_stops_nobody();
    batches_come_late();
    subtrees_come_late();
    workers_compute_stop_and_start_again();
    workers_share_many_blocks();
    workers_get_on_beside_a_writer();
    subscribers_come_and_go_while_edits_go_on();
    other_sorts();
    std::puts("livevec_shared.hpp: all hold");
}
