/** @file
 * Part of livevec.hpp, which is what programs include: the series, an unbounded vector whose front may expire. */
#ifndef LIVEVEC_SERIES_HPP
#define LIVEVEC_SERIES_HPP

#include "livevec_base.hpp"
#include "livevec_by_index.hpp"
#include "livevec_loading.hpp"
#include "livevec_series_columns.hpp"

#include <cstdint>
#include <initializer_list>
#include <type_traits>
#include <vector>

namespace livevec {

/** Why the push of many elements at a series was refused. None of them was pushed. */
class stopped_long : public refused {
  public:
    /** Of C's answer. */
    explicit stopped_long(const livevec_series_pushed &pushed) noexcept : refused(pushed.refusal), pushed_(pushed.pushed) {}
    /** How many were pushed: 0. */
    std::uint64_t pushed() const noexcept { return pushed_; }

  private:
    std::uint64_t pushed_;
};

/** A vector whose elements and edits are bounded by memory only. Indices count from the first element that was ever pushed, and an element keeps its
 * index for as long as it is kept: the elements from `first` up to `size` are. Any other index is refused by `not_kept`. */
class series : public inner::by_index<series, livevec_series, livevec_free_series> {
  public:
    /** An empty one. O(1). */
    series() { inner::check(livevec_series_new(slot())); }
    /** One with these elements, which are pushed. O(n). */
    series(std::initializer_list<element> elements) : series() { push_many(elements); }
    /** One with the elements of an array. O(n). */
    explicit series(array_view elements) : series() { push_many(elements); }
    /** One with the elements of any range of integers. O(n). */
    template <class Row, class = std::enable_if_t<inner::is_row<Row>::value && !std::is_same_v<std::decay_t<Row>, series>>> explicit series(Row &&row) : series()
    {
        push_many(row);
    }
    /** A kind is asked for by `prepare`. */
    template <class... More> explicit series(livevec_kind, More...) = delete;
    /** One of the bytes that `save` gave, whose indices and edit numbers go on. O(n). */
    [[nodiscard]] static series load(byte_view bytes) { return inner::loaded<series>(bytes); }

    /** Puts an element at the end, and gives its index. O(1) amortised for each tree. */
    std::uint64_t push(element value) { return inner::kept(livevec_series_push(slot(), value), std::uint64_t(0)).place; }
    /** The same. O(1) amortised for each tree. */
    void push_back(element value) { push(value); }
    /** Exchanges the elements under two indices. O(log n) for each tree. */
    void swap_elements(position_long first, position_long second)
    {
        const livevec_series_edited did = livevec_series_swap(slot(), first, second);
        inner::kept(did, did.first <= first && first < did.size ? second : first);
    }

    /** One of its own with the same elements under the same indices, whose next edit has the same number. O(n). */
    [[nodiscard]] series clone() const { return load(save()); }
    /** Whether two have the same elements, whatever their indices. O(n). */
    friend bool operator==(const series &a, const series &b) { return a.length() == b.length() && a.elements() == b.elements(); }

    /** Pushes an array in order: all are pushed, or `stopped_long` is thrown and none is. O(length) amortised for each tree. */
    void push_many(array_view values)
    {
        livevec_series_pushed pushed = livevec_series_push_many(slot(), values.data(), values.size());
        if (pushed.refusal)
            inner::raise(stopped_long(pushed));
    }
    /** The same of a list in braces. */
    void push_many(std::initializer_list<element> values) { push_many(array_view(inner::copied(values))); }
    /** The same of any range of integers, which is gone through before anything is pushed. */
    template <class Row, class = std::enable_if_t<inner::is_row<Row>::value>> void push_many(Row &&row) { push_many(array_view(inner::elements_of_row(row))); }

    /** Writes each value under the index of the same place, in order, and gives the last edit. All are made, or none: if one is refused, `not_kept_at`
     * is thrown, or `refused_at`. There must be as many values as indices, else it is refused with LIVEVEC_SHORT_BUFFER. O(length * log n) for each
     * tree. */
    std::uint64_t write_many(series_index_view indices, array_view values)
    {
        if (indices.size() != values.size())
            inner::raise(refused(LIVEVEC_SHORT_BUFFER, static_cast<std::uint32_t>(indices.size())));
        return inner::each_of_series(livevec_series_write_many(slot(), indices.data(), values.data(), indices.size()), indices);
    }
    /** The same of two lists in braces. */
    std::uint64_t write_many(std::initializer_list<std::uint64_t> indices, std::initializer_list<element> values)
    {
        return write_many(series_index_view(indices.begin(), indices.size()), array_view(inner::copied(values)));
    }

  private:
    friend class loading<series>;
    explicit series(inner::unfilled) {}
};

} // namespace livevec

#endif
