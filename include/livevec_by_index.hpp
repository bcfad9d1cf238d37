/** @file
 * Part of livevec.hpp, which is what programs include: what is done and asked by index at a livevec::series, and at the values of livevec::samples. */
#ifndef LIVEVEC_BY_INDEX_HPP
#define LIVEVEC_BY_INDEX_HPP

#include "livevec_base.hpp"
#include "livevec_places.hpp"
#include "livevec_series_columns.hpp"

#include <cstddef>
#include <cstdint>
#include <initializer_list>
#include <memory>
#include <optional>
#include <string>
#include <utility>
#include <vector>

namespace livevec {

namespace inner {

/** An answer of a series that was not refused; of an index or a range, which is told if it was. */
template <class Answer, class... Asked> Answer kept(Answer answer, Asked... asked)
{
    if (answer.refusal == LIVEVEC_OUT_OF_RANGE)
        raise(not_kept(answer.first, answer.size), words(asked...) + ", " + words_of_kept(answer.first, answer.size));
    if (answer.refusal == LIVEVEC_BAD_RANGE)
        raise(refused(answer.refusal), words(asked...));
    check(answer.refusal);
    return answer;
}

/** A count that was not refused. */
inline std::uint64_t counted_long(livevec_series_count count)
{
    check(count.refusal);
    return count.value;
}

template <class Self, class Slot, std::uint32_t (*Free)(Slot *)> class by_index;
template <class Of> class shared_form;

/** The handle of the elements. */
inline livevec_series *elements_of(livevec_series *slot) noexcept { return slot; }
/** The handle of the elements. */
inline livevec_series *elements_of(livevec_samples *slot) noexcept { return slot ? &slot->values : nullptr; }

} // namespace inner

/** The elements of a range in place: they are lent by a series, or by samples, and nothing is copied. They are good while this exists, also if what lent
 * them is moved, is given others' elements, or ends: its memory is freed when both have ended. The end of this gives them back. Until then each other
 * call at what lent them, or at what that was moved to, is refused with LIVEVEC_BUSY. */
class lent {
  public:
    using value_type = std::int64_t;              /**< an element */
    using const_iterator = const std::int64_t *; /**< goes through the elements */

    /** Takes what another has. O(1). */
    lent(lent &&other) noexcept : slot_(std::move(other.slot_)), edit_(other.edit_), elements_(std::exchange(other.elements_, array_view())) {}
    /** Exchanges with another. O(1). */
    lent &operator=(lent &&other) noexcept
    {
        std::swap(slot_, other.slot_);
        std::swap(edit_, other.edit_);
        std::swap(elements_, other.elements_);
        return *this;
    }
    /** Gives them back. O(1). */
    ~lent()
    {
        if (slot_)
            livevec_series_give_back(slot_.get());
    }

    /** The first element. O(1). */
    const std::int64_t *data() const noexcept { return elements_.data(); }
    /** How many there are. O(1). */
    std::size_t size() const noexcept { return elements_.size(); }
    /** Whether there is none. O(1). */
    bool empty() const noexcept { return size() == 0; }
    /** The first element. O(1). */
    const std::int64_t *begin() const noexcept { return elements_.begin(); }
    /** Behind the last element. O(1). */
    const std::int64_t *end() const noexcept { return elements_.end(); }
    /** An element, counted from 0; the place is not checked. O(1). */
    const std::int64_t &operator[](std::size_t place) const noexcept { return data()[place]; }
    /** The edit at which these are the elements. O(1). */
    std::uint64_t edit() const noexcept { return edit_; }

  private:
    template <class Self, class Slot, std::uint32_t (*Free)(Slot *)> friend class inner::by_index;
    lent(std::shared_ptr<livevec_series> slot, const livevec_series_view &view) noexcept
        : slot_(std::move(slot)), edit_(view.edit), elements_(view.elements, view.length)
    {
    }

    std::shared_ptr<livevec_series> slot_;
    std::uint64_t edit_;
    array_view elements_;
};

namespace inner {

/** What a series is asked, and what samples are asked of their values; and the edits that both have. The elements that are kept are those from index
 * `first` up to `size`: any other index is refused by livevec::not_kept. A kind has a tree from the first query of that kind on. With it a query is
 * O(log n), and each edit renews the tree at once. */
template <class Self, class Slot, std::uint32_t (*Free)(Slot *)>
class by_index : public owned<Slot, Free, std::shared_ptr<Slot>>, public asked<Self, position_long> {
  public:
    /** Drops the last element, and gives it. Each edit that is accepted has the next number. O(1) for each tree. */
    std::int64_t pop() { return kept(livevec_series_pop(series_slot()), std::uint64_t(0)).value; }
    /** Overwrites the element under an index, and gives the one before. O(log n) for each tree. */
    std::int64_t write(position_long index, element value) { return kept(livevec_series_write(series_slot(), index, value), index).value; }

    /** Drops the elements from an index on, which is `size` then, and gives how many they were. O(1) for each tree. */
    std::uint64_t truncate(position_long size) { return kept(livevec_series_truncate(series_slot(), size), size).place; }
    /** Drops all that is kept by one edit, and gives how many elements that was. O(1) for each tree. */
    std::uint64_t clear() { return truncate(first()); }
    /** Drops the elements before an index, which is `first` then, and gives how many they were. O(1) amortised. */
    std::uint64_t expire(position_long index) { return kept(livevec_series_expire(series_slot(), index), index).place; }

    /** The element under an index; the index is checked. O(1). */
    [[nodiscard]] std::int64_t operator[](position_long index) const { return kept(livevec_series_get(series_slot(), index), index).value; }
    /** The first index that is kept. O(1). */
    [[nodiscard]] std::uint64_t first() const { return counted_long(livevec_series_first(series_slot())); }
    /** The index behind the last element. O(1). */
    [[nodiscard]] std::uint64_t size() const { return counted_long(livevec_series_size(series_slot())); }
    /** The number of the last edit. O(1). */
    [[nodiscard]] std::uint64_t edits() const { return counted_long(livevec_series_edits(series_slot())); }
    /** How many elements are kept. O(1). */
    [[nodiscard]] std::uint64_t length() const { return size() - first(); }
    /** Whether none is kept. O(1). */
    [[nodiscard]] bool empty() const { return length() == 0; }

    /** The first element that is kept; `not_kept` is thrown if there is none. O(1). */
    [[nodiscard]] std::int64_t front() const { return (*this)[first()]; }
    /** The last element; `not_kept` is thrown if there is none. O(1). */
    [[nodiscard]] std::int64_t back() const
    {
        const std::uint64_t size = this->size();
        return (*this)[size > first() ? size - 1 : size];
    }

    /** The elements of a range, from its start on, into a buffer: as many as it takes, and how many they are. O(length). */
    std::size_t read_into(position_long lo, position_long hi, buffer_view buffer) const
    {
        return kept(livevec_series_read(series_slot(), lo, hi, buffer.data(), buffer.size()), lo, hi).length;
    }
    /** The elements of a range. O(length). */
    [[nodiscard]] std::vector<std::int64_t> read(position_long lo, position_long hi) const
    {
        kept(livevec_series_read(series_slot(), lo, hi, nullptr, 0), lo, hi);
        std::vector<std::int64_t> elements(hi - lo);
        read_into(lo, hi, elements);
        return elements;
    }
    /** All elements that are kept. O(n). */
    [[nodiscard]] std::vector<std::int64_t> elements() const { return read(first(), size()); }

    /** The elements of a range without a copy, lent until what this gives ends: no other call succeeds meanwhile. O(1). */
    [[nodiscard]] lent lend(position_long lo, position_long hi)
    {
        const livevec_series_view told = kept(livevec_series_lend(series_slot(), lo, hi), lo, hi);
        return lent(std::shared_ptr<livevec_series>(this->slot_, series_slot()), told);
    }

    /** Makes the tree of a kind, if there is none. O(n) then. */
    void prepare(kind of) { check(livevec_series_prepare(series_slot(), number(of))); }

    /** The value of a range by one kind, and the edit at which it holds. Of the values only those of the kind are told, and `any`. O(log n); the first
     * time O(n), which makes the tree. */
    [[nodiscard]] livevec_series_reduced value(kind of, position_long lo, position_long hi) const
    {
        return kept(livevec_series_value(series_slot(), number(of), lo, hi), lo, hi);
    }
    /** The values of a range by all six kinds, as `value` computes each. O(log n); the first time O(n), which makes the six trees. */
    livevec_series_reduced ask(position_long lo, position_long hi) const { return kept(livevec_series_ask(series_slot(), lo, hi), lo, hi); }
    /** The values of a range by all six kinds, from the trees that there are. **Linear in the range for each kind without a tree**: use `value` or
     * `ask` unless you ask once. */
    [[nodiscard]] livevec_series_reduced reduce(position_long lo, position_long hi) const { return kept(livevec_series_reduce(series_slot(), lo, hi), lo, hi); }

    /** The exact sum of a range, by three trees: those of the sum, the minimum and the maximum. O(log n), and as much again for each 2^64 of the length
     * times the difference of the maximum and the minimum, at most O(length). */
    [[nodiscard]] int128 total(position_long lo, position_long hi) const
    {
        return livevec::total(kept(livevec_series_exact_sum(series_slot(), lo, hi), lo, hi).sum);
    }
    /** The values of each prefix of a range by all six kinds, with its last element. O(length). */
    [[nodiscard]] std::vector<livevec_values> scan_inclusive(position_long lo, position_long hi) const
    {
        return scanned<livevec_values>(LIVEVEC_ALL_SIX, true, lo, hi);
    }
    /** The same without its last element. O(length). */
    [[nodiscard]] std::vector<livevec_values> scan_exclusive(position_long lo, position_long hi) const
    {
        return scanned<livevec_values>(LIVEVEC_ALL_SIX, false, lo, hi);
    }
    /** A piece of scan_inclusive: the prefixes that end at `at` and behind it, as many as a buffer takes, and how many they are. `at` starts at `lo`, and
     * goes on by what was told. O(length), and O(at - lo) more for each kind without a tree: `ask` or `prepare` first if there are many pieces. */
    std::size_t scan_inclusive_into(position_long lo, position_long at, position_long hi, view<livevec_values> buffer) const
    {
        return kept(livevec_series_scan(series_slot(), LIVEVEC_ALL_SIX, true, lo, at, hi, buffer.data(), buffer.size()), lo, hi).length;
    }
    /** The same of scan_exclusive. */
    std::size_t scan_exclusive_into(position_long lo, position_long at, position_long hi, view<livevec_values> buffer) const
    {
        return kept(livevec_series_scan(series_slot(), LIVEVEC_ALL_SIX, false, lo, at, hi, buffer.data(), buffer.size()), lo, hi).length;
    }

    /** The running values of a range by one kind, as scan_inclusive<livevec::kind::sum>(0, n), in a column of its own. Of no elements the minimum, the
     * maximum and the best run are 0. O(length). */
    template <kind Kind> [[nodiscard]] std::vector<cell<Kind>> scan_inclusive(position_long lo, position_long hi) const
    {
        return scanned<cell<Kind>>(number(Kind), true, lo, hi);
    }
    /** The same, each without the element at its place. O(length). */
    template <kind Kind> [[nodiscard]] std::vector<cell<Kind>> scan_exclusive(position_long lo, position_long hi) const
    {
        return scanned<cell<Kind>>(number(Kind), false, lo, hi);
    }
    /** A piece of the former into a column of the caller's, from `at` on, and how many they are. O(length), and O(at - lo) more without a tree. */
    template <kind Kind> std::size_t scan_inclusive_into(position_long lo, position_long at, position_long hi, view<cell<Kind>> column) const
    {
        return kept(livevec_series_scan(series_slot(), number(Kind), true, lo, at, hi, column.data(), column.size()), lo, hi).length;
    }
    /** A piece of the latter. */
    template <kind Kind> std::size_t scan_exclusive_into(position_long lo, position_long at, position_long hi, view<cell<Kind>> column) const
    {
        return kept(livevec_series_scan(series_slot(), number(Kind), false, lo, at, hi, column.data(), column.size()), lo, hi).length;
    }

    /** How many bytes `save` gives. O(1). */
    [[nodiscard]] std::uint64_t saved_length() const { return counted_long(livevec_series_saved_length(series_slot())); }
    /** The saved bytes from a place on, in whole numbers of 8, as many as a buffer takes, and how many they are; 0 at the end. `from` starts at 0, and goes
     * on by what was told. O(length); the piece with the checksum, the last 8 bytes, O(n). */
    std::size_t save_into(amount_long from, view<std::uint8_t> buffer) const
    {
        const livevec_series_scanned told = livevec_series_save(series_slot(), from, buffer.data(), buffer.size());
        check(told.refusal);
        return told.length;
    }
    /** All of it as bytes, which `load` takes. O(n). */
    [[nodiscard]] std::vector<std::uint8_t> save() const { return saved(*this); }

    /** The handle of the elements, for calls of livevec.h; null if this was moved from. */
    [[nodiscard]] livevec_series *series_slot() const noexcept { return elements_of(this->slot()); }

  private:
    friend class asked<Self, position_long>;
    template <class Of> friend class shared_form;

    livevec_series_found found_by(livevec_wanted what, position_long lo, position_long hi, std::int64_t x) const
    {
        return kept(livevec_series_find(series_slot(), what, lo, hi, x), lo, hi);
    }
    std::vector<livevec_values> values_of(kind of, series_range_view ranges) const
    {
        std::vector<livevec_values> values(ranges.size());
        each_of_series(livevec_series_value_many(series_slot(), number(of), ranges.data(), values.data(), ranges.size()), ranges);
        return values;
    }
    template <class Cell> std::vector<Cell> scanned(std::uint32_t kind, bool inclusive, position_long lo, position_long hi) const
    {
        kept(livevec_series_read(series_slot(), lo, hi, nullptr, 0), lo, hi);
        std::vector<Cell> cells(hi - lo);
        kept(livevec_series_scan(series_slot(), kind, inclusive, lo, lo, hi, cells.data(), cells.size()), lo, hi);
        return cells;
    }
};

} // namespace inner

} // namespace livevec

#endif
