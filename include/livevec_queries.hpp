/** @file
 * Part of livevec.hpp, which is what programs include: standing queries, names for queries of one kind, and notes of those whose answer has changed. */
#ifndef LIVEVEC_QUERIES_HPP
#define LIVEVEC_QUERIES_HPP

#include "livevec.hpp"

#include <array>
#include <cstdint>
#include <initializer_list>
#include <string_view>
#include <utility>
#include <vector>

namespace livevec {

namespace inner {
/** The handle that is asked, or shared. */
inline livevec_vector *handle_of(const vector &of) noexcept { return of.slot(); }
/** The handle that is asked, or shared. */
template <class Self, class Slot, std::uint32_t (*Free)(Slot *)> livevec_series *handle_of(const by_index<Self, Slot, Free> &of) noexcept { return of.series_slot(); }
} // namespace inner

/** What a standing query asks: `query(kind::greatest).last(100).at_least(90)`. Of all, and told of at each change, if nothing is said. What is negative
 * where a livevec::amount_long is wanted is refused with LIVEVEC_OUT_OF_RANGE. */
class query {
  public:
    /** By a kind. */
    query(kind of) noexcept : asked_{inner::number(of), LIVEVEC_BETWEEN, LIVEVEC_EACH_CHANGE, 0, UINT64_MAX, 0} {}
    /** Of a range, which may reach past the end: what of it exists is asked. */
    query between(amount_long lo, amount_long hi) const noexcept { return over(LIVEVEC_BETWEEN, lo, hi); }
    /** Of the last so many elements, or of all if there are fewer. */
    query last(amount_long count) const noexcept { return over(LIVEVEC_LAST, count, 0); }
    /** Of the samples of the last so much time, as samples::last has them. */
    query within(amount_long time) const noexcept { return over(LIVEVEC_WITHIN, time, 0); }
    /** Told of only as its answer begins or ends to be at least so much. No elements, a map and states never are; a sum is signed here. */
    query at_least(std::int64_t x) const noexcept { return by(LIVEVEC_AT_LEAST, x); }
    /** The same of at most so much. */
    query at_most(std::int64_t x) const noexcept { return by(LIVEVEC_AT_MOST, x); }

  private:
    friend class queries;
    query over(livevec_span span, std::uint64_t lo, std::uint64_t hi) const noexcept
    {
        query made = *this;
        made.asked_.span = span, made.asked_.lo = lo, made.asked_.hi = hi;
        return made;
    }
    query by(livevec_bound bound, std::int64_t x) const noexcept
    {
        query made = *this;
        made.asked_.bound = bound, made.asked_.x = x;
        return made;
    }
    livevec_query asked_;
};

/** A set of at most 64 standing queries, which may be asked of any vector, series and samples. `notes` tells which answers differ from those that were
 * told last, or have crossed their bound, in the order in which the queries were named: called after each edit, it tells the notes of that edit. Before
 * its first note a query counts as told its answer of no elements. A name is 1 to 16 bytes of a-z, 0-9 and _, else it is refused with
 * LIVEVEC_BAD_NAME. What may not be asked is refused with LIVEVEC_BAD_KIND: at a vector of one kind another, and of the last so much time what has no
 * times. q is the number of queries. */
class [[nodiscard]] queries : public inner::owned<livevec_queries, livevec_free_queries> {
  public:
    /** An empty set. O(1). */
    queries() { inner::check(livevec_queries_new(slot())); }

    /** A set of these, under their names, in order. O(q^2) of q. */
    queries(std::initializer_list<std::pair<std::string_view, query>> named) : queries()
    {
        for (const auto &one : named)
            watch(one.first, one.second);
    }

    /** Registers a query. O(q). */
    void watch(std::string_view name, const query &asked) { inner::check(livevec_watch_query(slot(), bytes(name), name.size(), &asked.asked_)); }

    /** Registers a query: the value of a range by a kind. The range may reach past the end, and what of it exists is asked; left out, it is all. O(q). */
    void watch(std::string_view name, kind of, amount_long lo = 0, amount_long hi = UINT64_MAX) { watch(name, query(of).between(lo, hi)); }

    /** Forgets one; the others keep their order, and what they were told. O(q). */
    void unwatch(std::string_view name) { inner::check(livevec_unwatch(slot(), bytes(name), name.size())); }

    /** The answer of one now, by a vector, as `vector::value` answers. Nothing counts as told by it. O(q), and as `vector::value`. */
    [[nodiscard]] livevec_reduced answer(const vector &of, std::string_view name) const
    {
        return inner::checked(livevec_answer(slot(), of.slot(), bytes(name), name.size()));
    }
    /** The same by a series, or by samples. O(q), and as `series::value`. */
    template <class Of> [[nodiscard]] livevec_series_reduced answer(const Of &of, std::string_view name) const
    {
        const livevec_series_reduced told = livevec_series_answer(slot(), inner::handle_of(of), bytes(name), name.size());
        inner::check(told.refusal);
        return told;
    }

    /** The notes that there are by a vector, a series or samples. If one of the queries may not be asked, nothing is told; the detail is which one it is.
     * As `value` for each query. */
    template <class Of> [[nodiscard]] std::vector<livevec_note> notes(const Of &of)
    {
        std::vector<livevec_note> told;
        notes(of, [&told](const livevec_note &note) { told.push_back(note); });
        return told;
    }

    /** The same, each handed to a call in order; gives the last edit. All of them count as told before the first call: notes that a call leaves out by
     * throwing aren't told again. */
    template <class Of, class Call> auto notes(const Of &of, Call call)
    {
        std::array<livevec_note, LIVEVEC_MOST_QUERIES> room;
        const auto told = inner::checked(noted(of, room));
        for (std::uint32_t i = 0; i < told.count; i++)
            call(static_cast<const livevec_note &>(room[i]));
        return told.edit;
    }

  private:
    using places = std::array<livevec_note, LIVEVEC_MOST_QUERIES>;
    /* An empty view may have no pointer. */
    static const char *bytes(std::string_view name) noexcept { return name.data() ? name.data() : ""; }
    livevec_noted noted(const vector &of, places &room) { return livevec_notes(slot(), of.slot(), room.data(), room.size()); }
    template <class Of> livevec_series_noted noted(const Of &of, places &room)
    {
        return livevec_series_notes(slot(), inner::handle_of(of), room.data(), room.size());
    }
};

} // namespace livevec

#endif
