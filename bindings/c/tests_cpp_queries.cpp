/* livevec.hpp from outside: standing queries. */
#include "tests_cpp.hpp"

#include <cstdint>
#include <string>
#include <utility>
#include <vector>

/* The notes of a set, in words. */
template <class Of> static std::string told(livevec::queries &set, const Of &of)
{
    std::string text;
    const std::uint64_t edit = set.notes(of, [&text](const livevec_note &note) {
        text += std::string(note.name) + " " + (note.kind == LIVEVEC_SUM ? std::to_string(note.values.sum) : std::to_string(note.values.least)) + " at " + std::to_string(note.edit) + "; ";
    });
    return text + std::to_string(edit);
}

/* The last so many, bounds, and windows of time: values are worked out by hand. */
static void spans_and_bounds()
{
    livevec::queries set{{"two", livevec::query(livevec::kind::sum).last(2)}, {"high", livevec::query(livevec::kind::greatest).last(3).at_least(10)},
                         {"low", livevec::query(livevec::kind::least).at_most(-1)}};
    livevec::series feed;
    IS(set.notes(feed).empty());
    feed.push(4);
    IS(told(set, feed) == "two 4 at 1; 1");
    feed.push(10);
    const std::vector<livevec_note> notes = set.notes(feed);
    IS(notes.size() == 2 && notes[0].values.sum == 14 && notes[1].values.greatest == 10 && notes[1].edit == 2);
    feed.push(4);
    IS(told(set, feed) == "3");
    feed.push(-1);
    IS(told(set, feed) == "two 3 at 4; low -1 at 4; 4");
    IS(set.answer(feed, "high").values.greatest == 10 && set.answer(feed, "high").edit == 4);
    livevec::queries windows{{"ten", livevec::query(livevec::kind::sum).within(10)}};
    livevec::samples load{{0, 7}, {5, 1}, {9, 2}};
    IS(told(windows, load) == "ten 10 at 3; 3");
    load.push(15, 3);
    IS(told(windows, load) == "ten 5 at 4; 4" && windows.answer(load, "ten").values.sum == 5);
    IS(refusal_of([&] { (void)windows.notes(feed); }) == LIVEVEC_BAD_KIND && refusal_of([&] { (void)windows.answer(livevec::vector(), "ten"); }) == LIVEVEC_BAD_KIND);
}

/* A negative span, count or end is refused before there is a query; what is too long is all. */
static void negative_spans()
{
    const livevec::query sum(livevec::kind::sum);
    livevec::queries set;
    const int below = -1;
    IS(refusal_of([&] { (void)sum.last(below); }) == LIVEVEC_OUT_OF_RANGE && refusal_of([&] { (void)sum.within(INT64_MIN); }) == LIVEVEC_OUT_OF_RANGE);
    IS(refusal_of([&] { (void)sum.between(below, 2); }) == LIVEVEC_OUT_OF_RANGE && refusal_of([&] { (void)sum.between(0, below); }) == LIVEVEC_OUT_OF_RANGE);
    IS(refusal_of([&] { set.watch("all", livevec::kind::sum, 0, below); }) == LIVEVEC_OUT_OF_RANGE);
    set.watch("all", sum.last(UINT64_MAX));
    IS(told(set, livevec::vector{4, 5}) == "all 9 at 2; 2");
}

void queries()
{
    spans_and_bounds();
    negative_spans();
    livevec::vector feed;
    livevec::queries set;
    set.watch("total", livevec::kind::sum);
    set.watch("dip", livevec::kind::least, 0, 2);
    set.watch("first", livevec::kind::sum, 0, 1);
    IS(told(set, feed) == "0");
    feed.push(4);
    IS(told(set, feed) == "total 4 at 1; dip 4 at 1; first 4 at 1; 1");
    IS(told(set, feed) == "1");
    feed.push(-7);
    IS(told(set, feed) == "total 18446744073709551613 at 2; dip -7 at 2; 2");
    feed.push(3);
    feed.push(0);
    IS(told(set, feed) == "total 0 at 4; 4");
    feed.swap_elements(0, 1);
    IS(told(set, feed) == "first 18446744073709551609 at 5; 5");
    IS(set.answer(feed, "dip").values.least == -7 && set.answer(feed, "dip").edit == 5);
    set.unwatch("total");
    feed.write(0, 4);
    const std::vector<livevec_note> notes = set.notes(feed);
    IS(notes.size() == 2 && notes[0].name == std::string("dip") && notes[0].values.least == 4 && notes[1].name == std::string("first"));
    IS(refusal_of([&] { set.watch("dip", livevec::kind::sum); }) == LIVEVEC_NAME_TAKEN);
    IS(refusal_of([&] { set.watch("Dip", livevec::kind::sum); }) == LIVEVEC_BAD_NAME);
    IS(refusal_of([&] { set.watch({}, livevec::kind::sum); }) == LIVEVEC_BAD_NAME);
    IS(refusal_of([&] { set.watch("back", livevec::kind::sum, 2, 1); }) == LIVEVEC_BAD_RANGE);
    IS(refusal_of([&] { set.unwatch("total"); }) == LIVEVEC_NO_SUCH_NAME);
    IS(refusal_of([&] { (void)set.answer(feed, "total"); }) == LIVEVEC_NO_SUCH_NAME);
    livevec::vector sums(livevec::kind::sum);
    sums.push(9);
    try {
        (void)set.notes(sums);
        IS(false);
    } catch (const livevec::refused &refused) {
        IS(refused.number() == LIVEVEC_BAD_KIND && refused.detail() == 0);
    }
    livevec::queries moved = std::move(set);
    IS(moved.notes(feed).empty());
    IS(refusal_of([&] { set.unwatch("dip"); }) == LIVEVEC_NULL);
}
