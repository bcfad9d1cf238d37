/** @file
 * livevec for C++17: livevec.h as move-only classes that free what they own. Programs include this header; it brings the others in. It is header
 * only; link what livevec.h links.
 *
 * @par Threads
 * Calls that are const may run at the same time at one object, and never fail because of each other: one waits until the other ends. Any other call
 * needs the object for itself, as in the standard library. Unlike there, a call that overlaps with one that isn't const is refused with
 * LIVEVEC_BUSY, and nothing has happened: put a mutex round the object, or take a livevec::shared_vector. A job may be run by any thread, at the
 * same time as any call at its vector.
 *
 * @par Exceptions
 * A call that is refused throws what is a livevec::refused, and changes nothing. If an index or a range is wrong, it is a std::out_of_range too, and
 * what() tells the index and the size; else it is a std::runtime_error. A call at an object that was moved from is refused with LIVEVEC_NULL.
 *
 * @par Elements
 * They go in as integers (livevec::element), as a list in braces, as two iterators, as any range of integers, or as a view of an array of
 * std::int64_t. They come out as a copy: in a std::vector, or in a buffer of the caller's. begin() makes one copy, and the iterators go through it:
 * later edits change nothing of what they show, and no reference leads into the vector itself. Ranges are of indices from `lo` up to `hi`, `hi`
 * excluded; an index is any integer (livevec::position), and so is a count or a span of time that isn't negative (livevec::amount).
 *
 * @par Costs
 * n is the number of elements. "After edits" a query of a kind costs at most O(log n) more for each edit since the last query of that kind, and the
 * first one after n pushes O(n). Memory that is moved is shared among the edits before ("amortised"). A call whose comment gives no cost is O(1). */
#ifndef LIVEVEC_HPP
#define LIVEVEC_HPP

#include "livevec_base.hpp"
#include "livevec_board.hpp"
#include "livevec_columns.hpp"
#include "livevec_jobs.hpp"
#include "livevec_places.hpp"
#include "livevec_samples.hpp"
#include "livevec_series.hpp"
#include "livevec_summary.hpp"

#include <cstddef>
#include <cstdint>
#include <initializer_list>
#include <iterator>
#include <optional>
#include <utility>
#include <vector>

namespace livevec {

namespace inner {
template <class Of> class shared_form;
}

/** A growable vector of 64-bit integers that answers reductions of any range. */
class vector : public inner::with_jobs, public inner::asked<vector, position> {
  public:
    /** An empty one. O(1). */
    explicit vector(limits most = {}) : limits_(most) { inner::check(livevec_new(slot(), most.buckets, most.edits)); }

    /** An empty one with an automaton of this table. O(1). */
    explicit vector(const livevec_table &table, limits most = {}) : limits_(most), table_(table)
    {
        inner::check(livevec_new_with_table(slot(), most.buckets, most.edits, &table));
    }

    /** An empty one of one kind, if no other will be asked: it answers `value`, `value_many`, the value and the scans of that kind, and the searches
     * that use it. Other queries, and those of all six kinds, are refused with LIVEVEC_BAD_KIND. O(1). */
    explicit vector(livevec::kind only, limits most = {}) : limits_(most), only_(only)
    {
        inner::check(livevec_new_of(slot(), inner::number(only), most.buckets, most.edits));
    }
    /** Elements are written in braces, `vector{10, 20}`, limits by their type, `vector(livevec::limits{10, 20})`. */
    vector(std::uint32_t, std::uint32_t) = delete;
    /** As above. */
    explicit vector(std::uint32_t) = delete;
    /** A kind is a livevec::kind. */
    template <class... More> explicit vector(livevec_kind, More...) = delete;

    /** The kind, if it is of one. O(1). */
    [[nodiscard]] std::optional<livevec::kind> kind() const noexcept { return only_; }

    /** One with these elements, which are pushed. If one is refused nothing is left. O(n). */
    vector(std::initializer_list<element> elements) : vector() { push_many(elements); }
    /** One with the elements of an array. O(n). */
    explicit vector(array_view elements, limits most = {}) : vector(most) { push_many(elements); }
    /** One with the elements of any range of integers. O(n). */
    template <class Row, class = std::enable_if_t<inner::is_row<Row>::value && !std::is_same_v<std::decay_t<Row>, vector>>>
    explicit vector(Row &&row, limits most = {}) : vector(most)
    {
        push_many(row);
    }
    /** One with the elements that two iterators enclose. O(n). */
    template <class Iterator, class = typename std::iterator_traits<Iterator>::iterator_category> vector(Iterator first, Iterator last) : vector()
    {
        push_many(first, last);
    }

    /** One with the elements of the bytes that `save` gave, of a vector or of a series, as `push_saved` pushes them: into a vector of another kind, or
     * with a table, by that. O(n). */
    [[nodiscard]] static vector load(byte_view saved, limits most = {})
    {
        vector made(most);
        made.push_saved(saved);
        return made;
    }

    /** One of its own with the same elements, limits, table and kind. Its edits are the pushes of its elements, so their numbers begin anew. O(n). */
    [[nodiscard]] vector clone() const
    {
        vector made = unfilled_like();
        made.push_many(elements());
        return made;
    }

    /** Puts an element at the end, and gives its index. Each edit that is accepted has the next number. O(log n) amortised. */
    std::uint32_t push(element value) { return inner::checked(livevec_push(slot(), value)).place; }
    /** The same. O(log n) amortised. */
    void push_back(element value) { push(value); }
    /** Drops the last element, and gives it. O(log n). */
    std::int64_t pop() { return inner::checked(livevec_pop(slot())).value; }
    /** Overwrites the element at an index, and gives the one before. O(log n) amortised. */
    std::int64_t write(position index, element value) { return inner::checked(livevec_write(slot(), index, value), index).value; }
    /** Exchanges the elements at two indices. O(log n) amortised. */
    void swap_elements(position first, position second)
    {
        const livevec_edited did = livevec_swap(slot(), first, second);
        inner::checked(did, first < did.detail ? second : first);
    }
    /** Keeps so many elements, the first ones, and gives how many were dropped. O(log n) amortised. */
    std::uint32_t truncate(position elements) { return inner::checked(livevec_truncate(slot(), elements), elements).place; }
    /** Drops all elements by one edit. O(log n) amortised. */
    void clear() { truncate(0); }
    /** Makes room for so many elements in all, and gives how many now fit. O(1), and the memory that is asked for. */
    std::uint32_t reserve(position elements) { return inner::checked(livevec_reserve(slot(), elements)).place; }

    /** Pushes an array in order: all are pushed, or `stopped` is thrown and none is. O(length) amortised. */
    void push_many(const std::int64_t *values, std::size_t length)
    {
        livevec_pushed pushed = livevec_push_many(slot(), values, length);
        if (pushed.refusal)
            inner::raise(stopped(pushed));
    }
    /** The same of a view. O(length) amortised. */
    void push_many(array_view values) { push_many(values.data(), values.size()); }
    /** The same of a list in braces. O(length) amortised. */
    void push_many(std::initializer_list<element> values) { push_many(array_view(inner::copied(values))); }
    /** The same of any range of integers, which is gone through before anything is pushed. O(length) amortised. */
    template <class Row, class = std::enable_if_t<inner::is_row<Row>::value>> void push_many(Row &&row)
    {
        const std::vector<std::int64_t> values = inner::elements_of_row(row);
        push_many(values.data(), values.size());
    }
    /** The same of what two iterators enclose. O(length) amortised. */
    template <class Iterator, class = typename std::iterator_traits<Iterator>::iterator_category> void push_many(Iterator first, Iterator last)
    {
        static_assert(inner::gives_elements<Iterator>, "elements are integers");
        std::vector<std::int64_t> values(first, last);
        push_many(values.data(), values.size());
    }

    /** Writes each value at the index of the same place, in order, and gives the last edit. All are made, or `refused_at` is thrown and none is. There
     * must be as many values as indices, else it is refused with LIVEVEC_SHORT_BUFFER. O(length * log n) amortised. */
    std::uint32_t write_many(index_view indices, array_view values)
    {
        if (indices.size() != values.size())
            inner::raise(refused(LIVEVEC_SHORT_BUFFER, static_cast<std::uint32_t>(indices.size())));
        return inner::each(livevec_write_many(slot(), indices.data(), values.data(), indices.size()), indices);
    }
    /** The same of two lists in braces. O(length * log n) amortised. */
    std::uint32_t write_many(std::initializer_list<std::uint32_t> indices, std::initializer_list<element> values)
    {
        return write_many(index_view(indices.begin(), indices.size()), array_view(inner::copied(values)));
    }

    /** Pushes the elements of the bytes that `save` gave, of a vector or of a series: all are pushed, or `stopped` is thrown and none is, also if no
     * such has these bytes (LIVEVEC_NOT_SAVED). O(length) amortised. */
    void push_saved(byte_view saved)
    {
        livevec_pushed pushed = livevec_push_saved(slot(), saved.data(), saved.size());
        if (pushed.refusal)
            inner::raise(stopped(pushed));
    }

    /** Why that push would be refused, out of memory apart: a ::livevec_refusal, 0 if it would be accepted, with its detail. O(1). */
    [[nodiscard]] livevec_verdict verdict_push(element value) const { return inner::judged(livevec_verdict_push(slot(), value)); }
    /** The same of a pop. O(1). */
    [[nodiscard]] livevec_verdict verdict_pop() const { return inner::judged(livevec_verdict_pop(slot())); }
    /** The same of a write. O(1). */
    [[nodiscard]] livevec_verdict verdict_write(position index, element value) const
    {
        return inner::judged(livevec_verdict_write(slot(), index, value));
    }
    /** The same of a reserve. O(1). */
    [[nodiscard]] livevec_verdict verdict_reserve(position elements) const { return inner::judged(livevec_verdict_reserve(slot(), elements)); }
    /** The same of a swap. O(1). */
    [[nodiscard]] livevec_verdict verdict_swap(position first, position second) const
    {
        return inner::judged(livevec_verdict_swap(slot(), first, second));
    }
    /** The same of a truncate. O(1). */
    [[nodiscard]] livevec_verdict verdict_truncate(position elements) const { return inner::judged(livevec_verdict_truncate(slot(), elements)); }

    /** The element at an index; the index is checked. O(1). */
    [[nodiscard]] std::int64_t operator[](position index) const { return inner::checked(livevec_get(slot(), index), index).value; }
    /** The first element; std::out_of_range is thrown if there is none. O(1). */
    [[nodiscard]] std::int64_t front() const { return (*this)[0]; }
    /** The last element; std::out_of_range is thrown if there is none. O(1). */
    [[nodiscard]] std::int64_t back() const
    {
        const std::uint32_t size = this->size();
        return (*this)[size ? size - 1 : 0];
    }
    /** How many elements there are. O(1). */
    [[nodiscard]] std::uint32_t size() const { return inner::counted(livevec_size(slot())); }
    /** How many elements fit into the memory that is held. O(1). */
    [[nodiscard]] std::uint32_t capacity() const { return inner::counted(livevec_capacity(slot())); }
    /** The number of the last edit. O(1). */
    [[nodiscard]] std::uint32_t edits() const { return inner::counted(livevec_edits(slot())); }
    /** Whether there is no element. O(1). */
    [[nodiscard]] bool empty() const { return size() == 0; }

    /** The elements of a range. O(length). */
    [[nodiscard]] std::vector<std::int64_t> read(position lo, position hi) const
    {
        std::vector<std::int64_t> elements(lo < hi && hi <= size() ? hi - lo : 0);
        inner::checked(livevec_read(slot(), lo, hi, elements.data(), elements.size()), lo, hi);
        return elements;
    }
    /** All elements. O(n). */
    [[nodiscard]] std::vector<std::int64_t> elements() const { return read(0, size()); }
    /** The elements of a range into the front of a buffer, and how many they are. O(length). */
    std::uint32_t read_into(position lo, position hi, buffer_view buffer) const
    {
        return inner::checked(livevec_read(slot(), lo, hi, buffer.data(), buffer.size()), lo, hi).length;
    }

    /** How many bytes `save` gives: 88, and 8 for each element. O(1). */
    [[nodiscard]] std::uint32_t saved_length() const { return inner::counted(livevec_saved_length(slot())); }
    /** The saved bytes from a place on, in whole numbers of 8, as many as a buffer takes, and how many they are; 0 at the end. `from` starts at 0, and goes
     * on by what was told. O(n) for each piece. */
    std::size_t save_into(amount_long from, view<std::uint8_t> buffer) const
    {
        return inner::checked(livevec_save(slot(), from, buffer.data(), buffer.size())).length;
    }
    /** The elements as bytes, which `load` takes, and that of a series; limits, table, kind and edits aren't saved. O(n). */
    [[nodiscard]] std::vector<std::uint8_t> save() const { return inner::saved(*this); }

    /** Whether two vectors have the same elements. O(n). */
    friend bool operator==(const vector &a, const vector &b) { return a.size() == b.size() && a.elements() == b.elements(); }

    /** The value of a range by one kind, and the edit at which it holds. Only this kind is computed, and what is computed is kept. Of the values only
     * those of the kind are told, and `any`. O(log n), and more after edits. */
    [[nodiscard]] livevec_reduced value(livevec::kind kind, position lo, position hi) const
    {
        return inner::checked(livevec_value(slot(), inner::number(kind), lo, hi), lo, hi);
    }
    /** The values of a range by all six kinds, as `value` computes each. O(log n), and more after edits. */
    livevec_reduced ask(position lo, position hi) const { return inner::checked(livevec_ask(slot(), lo, hi), lo, hi); }
    /** The values of a range by all six kinds, from the summaries that `refresh` and jobs computed, and keeps nothing. **Linear in the range if nothing
     * was refreshed**, O(log n) if all was: use `value` or `ask` unless you refresh. */
    [[nodiscard]] livevec_reduced reduce(position lo, position hi) const { return inner::checked(livevec_reduce(slot(), lo, hi), lo, hi); }

    /** The exact sum of a range, by its sums modulo 2^64, its minimum and its maximum. O(log n), and more after edits; and as much again for each 2^64 of
     * the length times the difference of the maximum and the minimum, at most O(length). Of a vector of one kind O(length). */
    [[nodiscard]] int128 total(position lo, position hi) const
    {
        return livevec::total(inner::checked(livevec_exact_sum(slot(), lo, hi), lo, hi).sum);
    }
    /** The summary of a range, which holds nothing of the vector and may travel. **Linear in the range if nothing was refreshed**, O(log n) if all
     * was. */
    summary summarise(position lo, position hi) const { return summary(inner::checked(livevec_summary_of(slot(), lo, hi), lo, hi).summary); }

    /** The values of each prefix of a range by all six kinds, with its last element. O(length). */
    [[nodiscard]] std::vector<livevec_values> scan_inclusive(position lo, position hi) const { return column<livevec_values>(LIVEVEC_ALL_SIX, true, lo, hi); }
    /** The same without its last element. O(length). */
    [[nodiscard]] std::vector<livevec_values> scan_exclusive(position lo, position hi) const { return column<livevec_values>(LIVEVEC_ALL_SIX, false, lo, hi); }

    /** The running values of a range by one kind, as scan_inclusive<livevec::kind::sum>(0, n), in a column of its own. Of no elements the minimum, the
     * maximum and the best run are 0. O(length). */
    template <livevec::kind Kind> [[nodiscard]] std::vector<cell<Kind>> scan_inclusive(position lo, position hi) const
    {
        return column<cell<Kind>>(inner::number(Kind), true, lo, hi);
    }
    /** The same, each without the element at its place. O(length). */
    template <livevec::kind Kind> [[nodiscard]] std::vector<cell<Kind>> scan_exclusive(position lo, position hi) const
    {
        return column<cell<Kind>>(inner::number(Kind), false, lo, hi);
    }
    /** The same as scan_inclusive into the front of a column of the caller's, and how many they are. O(length). */
    template <livevec::kind Kind> std::uint32_t scan_inclusive_into(position lo, position hi, view<cell<Kind>> column) const
    {
        return inner::checked(livevec_scan(slot(), inner::number(Kind), true, lo, hi, column.data(), column.size()), lo, hi).length;
    }
    /** The same as scan_exclusive into the front of a column of the caller's, and how many they are. O(length). */
    template <livevec::kind Kind> std::uint32_t scan_exclusive_into(position lo, position hi, view<cell<Kind>> column) const
    {
        return inner::checked(livevec_scan(slot(), inner::number(Kind), false, lo, hi, column.data(), column.size()), lo, hi).length;
    }

  private:
    /* One whose handle is still empty, for `transcript` to fill. */
    friend class transcript;
    template <class Of> friend class shared;
    template <class Of> friend class inner::shared_form;
    friend class inner::asked<vector, position>;
    struct unmade {};
    vector(unmade, limits most, std::optional<livevec::kind> only) : limits_(most), only_(only) {}

    livevec_found found_by(livevec_wanted what, position lo, position hi, std::int64_t x) const
    {
        return inner::checked(livevec_find(slot(), what, lo, hi, x), lo, hi);
    }
    std::vector<livevec_values> values_of(livevec::kind kind, range_view ranges) const
    {
        std::vector<livevec_values> values(ranges.size());
        inner::each(livevec_value_many(slot(), inner::number(kind), ranges.data(), values.data(), ranges.size()), ranges);
        return values;
    }

    /* A column of its own, that a scan fills by a kind or by all six. */
    template <class Cell> std::vector<Cell> column(std::uint32_t kind, bool inclusive, position lo, position hi) const
    {
        std::vector<Cell> cells(lo < hi && hi <= size() ? hi - lo : 0);
        inner::checked(livevec_scan(slot(), kind, inclusive, lo, hi, cells.data(), cells.size()), lo, hi);
        return cells;
    }

    /* One without elements that is like it else. */
    vector unfilled_like() const { return table_ ? vector(*table_, limits_) : only_ ? vector(*only_, limits_) : vector(limits_); }

    /* What a clone is made by. */
    limits limits_;
    std::optional<livevec_table> table_;
    std::optional<livevec::kind> only_;
};

/** Loads a vector in pieces, as `loading` says, from the bytes of a vector or of a series. */
template <> class loading<vector> {
  public:
    /** Takes the next piece. O(length) amortised. */
    void give(byte_view bytes) { elements_.give(bytes); }
    /** Gives a vector of these limits, of the elements. O(n). */
    [[nodiscard]] vector end(limits most = {}) { return vector(elements_.end().elements(), most); }

  private:
    loading<series> elements_;
};

} // namespace livevec

#include "livevec_queries.hpp"
#include "livevec_shared.hpp"
#include "livevec_transcripts.hpp"

#endif
