/** @file
 * Part of livevec.hpp, which is what programs include: loading of saved bytes, for livevec::vector, livevec::series and livevec::samples. */
#ifndef LIVEVEC_LOADING_HPP
#define LIVEVEC_LOADING_HPP

#include "livevec_base.hpp"

#include <cstdint>
#include <utility>

namespace livevec {

/** Bytes that were saved. */
using byte_view = view<const std::uint8_t>;

namespace inner {

/** Asks for an empty handle. */
struct unfilled {};

/** Begins to load. */
inline std::uint32_t begin_load(livevec_series *slot) { return livevec_series_begin_load(slot); }
/** Begins to load. */
inline std::uint32_t begin_load(livevec_samples *slot) { return livevec_samples_begin_load(slot); }
/** Ends it. */
inline std::uint32_t end_load(livevec_series *slot) { return livevec_series_end_load(slot); }
/** Ends it. */
inline std::uint32_t end_load(livevec_samples *slot) { return livevec_samples_end_load(slot); }

} // namespace inner

/** Loads what was saved, as loading<series>, loading<samples> or loading<vector>: bytes are given in order, in pieces of any length, and `end` gives the
 * whole. Bytes that no such has are refused with LIVEVEC_NOT_SAVED. After the end, refused or not, every call is refused. What was given is in
 * memory until then. */
template <class Whole>
class loading {
  public:
    /** Begins. O(1). */
    loading() : whole_(inner::unfilled()) { inner::check(inner::begin_load(whole_.slot())); }
    /** Takes the next piece. O(length) amortised. */
    void give(byte_view bytes) { inner::check(livevec_series_load(whole_.series_slot(), bytes.data(), bytes.size())); }
    /** Gives what the bytes are of. O(n). */
    [[nodiscard]] Whole end()
    {
        inner::check(inner::end_load(whole_.slot()));
        return std::move(whole_);
    }

  private:
    Whole whole_;
};

namespace inner {

/** All bytes at once. */
template <class Whole> Whole loaded(byte_view bytes)
{
    loading<Whole> loading;
    loading.give(bytes);
    return loading.end();
}

} // namespace inner

} // namespace livevec

#endif
