/** @file
 * Part of livevec.hpp, which is what programs include: values with times that do not fall, and their windows of time. */
#ifndef LIVEVEC_SAMPLES_HPP
#define LIVEVEC_SAMPLES_HPP

#include "livevec_base.hpp"
#include "livevec_by_index.hpp"
#include "livevec_loading.hpp"

#include <cstddef>
#include <cstdint>
#include <initializer_list>
#include <string>
#include <vector>

namespace livevec {

/** A time before that of the last sample. */
class earlier : public refused {
  public:
    /** With the time of the last sample. */
    explicit earlier(std::int64_t newest) noexcept : refused(LIVEVEC_EARLIER), newest_(newest) {}
    /** The time of the last sample. */
    std::int64_t newest() const noexcept { return newest_; }

  private:
    std::int64_t newest_;
};

/** A value with a time. */
struct sample {
    std::int64_t time;  /**< in a unit of the caller's */
    std::int64_t value; /**< the value */
};

/** Samples, each under an index as an element of a series, with a time in a unit of the caller's. Times do not fall: a time before that of the last
 * sample is refused by `earlier`. Calls by index ask and edit the values, as those of a series. A window of time is a range of indices, from `lo` up to
 * `hi`, which `between` and `last` tell. */
class samples : public inner::by_index<samples, livevec_samples, livevec_free_samples> {
  public:
    /** None yet. O(1). */
    samples() { inner::check(livevec_samples_new(slot())); }
    /** These, which are pushed. O(n). */
    samples(std::initializer_list<sample> some) : samples()
    {
        for (const sample &each : some)
            push(each.time, each.value);
    }
    /** As many as times, which are pushed. O(n). */
    samples(array_view times, array_view values) : samples() { push_many(times, values); }
    /** Those of the bytes that `save` gave, whose indices and edit numbers go on. O(n). */
    [[nodiscard]] static samples load(byte_view bytes) { return inner::loaded<samples>(bytes); }

    /** Samples of their own, the same under the same indices, whose next edit has the same number. O(n). */
    [[nodiscard]] samples clone() const { return load(save()); }
    /** Whether two have the same times and values, whatever their indices. O(n). */
    friend bool operator==(const samples &a, const samples &b)
    {
        return a.length() == b.length() && a.times() == b.times() && a.elements() == b.elements();
    }

    /** Puts a sample at the end, and gives its index. O(1) amortised for each tree. */
    std::uint64_t push(element time, element value)
    {
        const livevec_series_edited did = livevec_samples_push(slot(), time, value);
        if (did.refusal == LIVEVEC_EARLIER)
            inner::raise(earlier(did.value), "time " + std::to_string(time.value) + ", the last one's " + std::to_string(did.value));
        return inner::kept(did, std::uint64_t(0)).place;
    }

    /** Pushes in order, up to the first that is refused, and gives the last edit: `refused_at` is thrown for that one, with how many were pushed. There
     * must be as many values as times, else it is refused with LIVEVEC_SHORT_BUFFER. O(length) amortised for each tree. */
    std::uint64_t push_many(array_view times, array_view values)
    {
        if (times.size() != values.size())
            inner::raise(refused(LIVEVEC_SHORT_BUFFER, static_cast<std::uint32_t>(times.size())));
        return inner::each_of_series(livevec_samples_push_many(slot(), times.data(), values.data(), times.size()), times);
    }

    /** Drops the samples that were taken before a time, and gives how many they were. O(log n), and O(1) amortised. */
    std::uint64_t expire_before(element time) { return inner::kept(livevec_samples_expire_before(slot(), time), std::uint64_t(0)).place; }

    /** The sample under an index; the index is checked. O(1). */
    [[nodiscard]] sample at(position_long index) const
    {
        const livevec_sample told = inner::kept(livevec_samples_get(slot(), index), index);
        return {told.time, told.value};
    }
    /** The times of a range of indices, from its start on, into a buffer: as many as it takes, and how many they are. O(length). */
    std::size_t times_into(position_long lo, position_long hi, buffer_view buffer) const
    {
        return inner::kept(livevec_samples_times(slot(), lo, hi, buffer.data(), buffer.size()), lo, hi).length;
    }
    /** The times of a range of indices. O(length). */
    [[nodiscard]] std::vector<std::int64_t> times(position_long lo, position_long hi) const
    {
        inner::kept(livevec_samples_times(slot(), lo, hi, nullptr, 0), lo, hi);
        std::vector<std::int64_t> times(hi - lo);
        times_into(lo, hi, times);
        return times;
    }
    /** All times. O(n). */
    [[nodiscard]] std::vector<std::int64_t> times() const { return times(first(), size()); }

    /** The samples from time `since` up to `until`: one at `since` is among them, one at `until` isn't. O(log n). */
    [[nodiscard]] livevec_window between(element since, element until) const { return window(livevec_samples_between(slot(), since, until), since, until); }
    /** The samples of the last `span` of time, whose times are above that of the last sample minus `span`. A negative span is refused with
     * LIVEVEC_OUT_OF_RANGE, here and below. O(log n). */
    [[nodiscard]] livevec_window last(amount_long span) const { return window(livevec_samples_last(slot(), span)); }

    /** The value of the window that `between` gives, by one kind. O(log n); the first time O(n), which makes the tree. */
    [[nodiscard]] livevec_series_reduced value_between(kind of, element since, element until) const
    {
        return window(livevec_samples_value(slot(), inner::number(of), since, until), since, until);
    }
    /** The value of the window that `last` gives, by one kind. O(log n); the first time O(n), which makes the tree. */
    [[nodiscard]] livevec_series_reduced value_of_last(kind of, amount_long span) const
    {
        return window(livevec_samples_value_of_last(slot(), inner::number(of), span));
    }

  private:
    friend class loading<samples>;
    explicit samples(inner::unfilled) {}

    template <class Answer> static Answer window(Answer told)
    {
        inner::check(told.refusal);
        return told;
    }
    template <class Answer> static Answer window(Answer told, element since, element until)
    {
        if (told.refusal == LIVEVEC_BAD_RANGE)
            inner::raise(refused(told.refusal), "times " + std::to_string(since.value) + " to " + std::to_string(until.value));
        return window(told);
    }
};

} // namespace livevec

#endif
