/** @file
 * Part of livevec.hpp, which is what programs include: positions in a range, and what vectors, series and samples are asked alike. */
#ifndef LIVEVEC_PLACES_HPP
#define LIVEVEC_PLACES_HPP

#include "livevec_base.hpp"

#include <cstdint>
#include <initializer_list>
#include <optional>
#include <vector>

namespace livevec {

/** An element of a vector, and its index. */
struct placed {
    std::uint32_t index; /**< its index */
    std::int64_t value;  /**< the element */
};
/** The same of a series, or of the values of samples. */
struct placed_long {
    std::uint64_t index; /**< its index */
    std::int64_t value;  /**< the element */
};

/** Neighbours in a vector that add up to the most. */
struct best_run {
    std::uint32_t lo; /**< the index of the first */
    std::uint32_t hi; /**< the index behind the last */
    int128 sum;       /**< what they add up to, exactly */
};
/** The same in a series, or among the values of samples. */
struct best_run_long {
    std::uint64_t lo; /**< the index of the first */
    std::uint64_t hi; /**< the index behind the last */
    int128 sum;       /**< what they add up to, exactly */
};

namespace inner {

/** What goes with an index. */
template <class Range, class Placed, class Run, class Found> struct answers {
    using range = Range;   /**< what a range of many is */
    using placed = Placed; /**< an element with its index */
    using run = Run;       /**< a best run */
    using found = Found;   /**< C's answer to a search */
};
/** What goes with an index of this type. */
template <class Index> struct by_position;
template <> struct by_position<position> : answers<livevec_range, placed, best_run, livevec_found> {};
template <> struct by_position<position_long> : answers<livevec_series_range, placed_long, best_run_long, livevec_series_found> {};

/** What a vector, a series, samples, and what threads share of these answer alike. Where a comment says O(log n), it costs as `value` of the same: of a
 * vector more after edits; of a series and samples it is by a tree of the kind, which the first query of the kind makes in O(n). */
template <class Self, class Index>
class asked {
  public:
    using value_type = std::int64_t;                      /**< an element */
    using position_type = Index;                          /**< an index as calls take it */
    using size_type = decltype(Index::value);             /**< an index, or a count */
    using range_type = typename by_position<Index>::range; /**< one of many ranges */
    using iterator = element_iterator;                    /**< goes through a copy */
    using const_iterator = element_iterator;              /**< goes through a copy */

    /** Drops the last element. As `pop`. */
    void pop_back() { self().pop(); }
    /** The element at an index; the index is checked. O(1). */
    [[nodiscard]] std::int64_t at(Index index) const { return self()[index]; }

    /** Through a copy of the elements as they are now. O(n). */
    [[nodiscard]] const_iterator begin() const { return const_iterator(self().elements()); }
    /** The end of each copy. O(1). */
    [[nodiscard]] const_iterator end() const noexcept { return const_iterator(); }
    /** As begin(). O(n). */
    [[nodiscard]] const_iterator cbegin() const { return begin(); }
    /** As end(). O(1). */
    [[nodiscard]] const_iterator cend() const noexcept { return end(); }
    /** Whether two differ, as `==` compares them. O(n). */
    friend bool operator!=(const Self &a, const Self &b) { return !(a == b); }

    /** The values of many ranges by one kind, all after one edit. If a range is refused, `refused_at` is thrown, or `not_kept_at` of a series and of
     * samples if it isn't kept. As `value` for each. */
    [[nodiscard]] std::vector<livevec_values> value_many(kind of, view<const range_type> ranges) const { return self().values_of(of, ranges); }
    /** The same of a list in braces. */
    [[nodiscard]] std::vector<livevec_values> value_many(kind of, std::initializer_list<range_type> ranges) const
    {
        return value_many(of, view<const range_type>(ranges.begin(), ranges.size()));
    }

    /** The sum of a range modulo 2^64, as a signed number: exact if it fits. O(log n). */
    [[nodiscard]] std::int64_t sum(Index lo, Index hi) const { return static_cast<std::int64_t>(unsigned_sum(lo, hi)); }
    /** The sum of a range modulo 2^64, from 0 up. O(log n). */
    [[nodiscard]] std::uint64_t unsigned_sum(Index lo, Index hi) const { return values(kind::sum, lo, hi).sum; }
    /** The minimum of a range, if it isn't empty. O(log n). */
    [[nodiscard]] std::optional<std::int64_t> least(Index lo, Index hi) const { return some(values(kind::least, lo, hi), &livevec_values::least); }
    /** The maximum of a range, if it isn't empty. O(log n). */
    [[nodiscard]] std::optional<std::int64_t> greatest(Index lo, Index hi) const { return some(values(kind::greatest, lo, hi), &livevec_values::greatest); }
    /** The best run of a range, the maximum subarray sum, if it isn't empty; exact. O(log n). */
    [[nodiscard]] std::optional<int128> best(Index lo, Index hi) const
    {
        const livevec_values told = values(kind::best, lo, hi);
        return told.any ? std::optional<int128>(joined(told.best_high, told.best_low)) : std::nullopt;
    }

    /** The position of the first minimum of a range. O(log n). */
    [[nodiscard]] auto where_least(Index lo, Index hi) const { return element_at(found(LIVEVEC_WHERE_LEAST, lo, hi)); }
    /** The position of the first maximum of a range. O(log n). */
    [[nodiscard]] auto where_greatest(Index lo, Index hi) const { return element_at(found(LIVEVEC_WHERE_GREATEST, lo, hi)); }
    /** The position of the best run: of several the one that ends first, and of those the shortest. O(log n). */
    [[nodiscard]] auto where_best(Index lo, Index hi) const
    {
        const auto told = found(LIVEVEC_WHERE_BEST, lo, hi);
        return told.found ? std::optional<best_of>(best_of{told.lo, told.hi, joined(told.sum_high, told.sum_low)}) : std::nullopt;
    }
    /** The least end, from lo to hi, such that the elements from lo up to it add up to `sum` or more. No sum wraps. O(log n). */
    [[nodiscard]] std::optional<size_type> where_reaches(Index lo, Index hi, element sum) const
    {
        const auto told = found(LIVEVEC_WHERE_REACHES, lo, hi, sum);
        return told.found ? std::optional<size_type>(told.hi) : std::nullopt;
    }
    /** The greatest start, from hi down to lo, such that the elements from it up to hi add up to `sum` or more. O(log n). */
    [[nodiscard]] std::optional<size_type> where_reaches_back(Index lo, Index hi, element sum) const { return start(LIVEVEC_WHERE_REACHES_BACK, lo, hi, sum); }
    /** The index of the first element of a range that is at least a bound. O(log n). */
    [[nodiscard]] std::optional<size_type> where_first_at_least(Index lo, Index hi, element bound) const { return start(LIVEVEC_WHERE_FIRST_AT_LEAST, lo, hi, bound); }
    /** The index of the first element that is at most a bound. O(log n). */
    [[nodiscard]] std::optional<size_type> where_first_at_most(Index lo, Index hi, element bound) const { return start(LIVEVEC_WHERE_FIRST_AT_MOST, lo, hi, bound); }
    /** The index of the last element that is at least a bound. O(log n). */
    [[nodiscard]] std::optional<size_type> where_last_at_least(Index lo, Index hi, element bound) const { return start(LIVEVEC_WHERE_LAST_AT_LEAST, lo, hi, bound); }
    /** The index of the last element that is at most a bound. O(log n). */
    [[nodiscard]] std::optional<size_type> where_last_at_most(Index lo, Index hi, element bound) const { return start(LIVEVEC_WHERE_LAST_AT_MOST, lo, hi, bound); }

  private:
    using placed_at = typename by_position<Index>::placed;
    using best_of = typename by_position<Index>::run;
    using answer_to = typename by_position<Index>::found;

    Self &self() noexcept { return static_cast<Self &>(*this); }
    const Self &self() const noexcept { return static_cast<const Self &>(*this); }
    livevec_values values(kind of, Index lo, Index hi) const { return self().value(of, lo, hi).values; }
    answer_to found(livevec_wanted what, Index lo, Index hi, std::int64_t x = 0) const { return self().found_by(what, lo, hi, x); }
    static std::optional<placed_at> element_at(const answer_to &told)
    {
        return told.found ? std::optional<placed_at>(placed_at{told.lo, told.value}) : std::nullopt;
    }
    std::optional<size_type> start(livevec_wanted what, Index lo, Index hi, std::int64_t x) const
    {
        const answer_to told = found(what, lo, hi, x);
        return told.found ? std::optional<size_type>(told.lo) : std::nullopt;
    }
};

} // namespace inner

} // namespace livevec

#endif
