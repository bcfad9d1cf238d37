/** @file
 * Part of livevec.hpp, which is what programs include: the columns that scans of a livevec::series by one kind write, and how an index is refused. */
#ifndef LIVEVEC_SERIES_COLUMNS_HPP
#define LIVEVEC_SERIES_COLUMNS_HPP

#include "livevec_base.hpp"
#include "livevec_columns.hpp"

#include <cstddef>
#include <cstdint>
#include <string>

namespace livevec {

/** An index, or an end of a range, that isn't kept: those from `first` up to `size` are. What is thrown is a std::out_of_range too. */
class not_kept : public refused {
  public:
    /** With the indices that are kept. */
    explicit not_kept(std::uint64_t first, std::uint64_t size) noexcept : refused(LIVEVEC_OUT_OF_RANGE), first_(first), size_(size) {}
    /** The first index that is kept. */
    std::uint64_t first() const noexcept { return first_; }
    /** The index behind the last element. */
    std::uint64_t size() const noexcept { return size_; }

  private:
    std::uint64_t first_, size_;
};

/** The same of one of many writes or ranges. */
class not_kept_at : public not_kept {
  public:
    /** Of C's answer. */
    explicit not_kept_at(const livevec_series_many &many) noexcept : not_kept(many.first, many.size), place_(many.place) {}
    /** Which one it was, counted from 0. */
    std::size_t place() const noexcept { return place_; }

  private:
    std::size_t place_;
};

/** Where many writes at a series go. */
using series_index_view = view<const std::uint64_t>;
/** Of which ranges many queries at a series are. */
using series_range_view = view<const livevec_series_range>;

namespace inner {

/** Which indices are kept, in words. */
inline std::string words_of_kept(std::uint64_t first, std::uint64_t size) { return "kept from " + std::to_string(first) + " up to " + std::to_string(size); }

/** The edit of many writes, pushes of samples or queries, none of which was refused. */
template <class Asked> std::uint64_t each_of_series(const livevec_series_many &many, view<const Asked> asked)
{
    const std::string at = many.refusal ? words_at(many.refusal, many.place, asked) : "";
    if (many.refusal == LIVEVEC_OUT_OF_RANGE)
        raise(not_kept_at(many), at + ", " + words_of_kept(many.first, many.size));
    if (many.refusal)
        raise(refused_at(livevec_many{many.refusal, 0, 0, many.done, many.place}), at);
    return many.edit;
}

} // namespace inner

} // namespace livevec

#endif
