/** @file
 * Part of livevec.hpp, which is what programs include: the columns that scans of a livevec::vector by one kind write. */
#ifndef LIVEVEC_COLUMNS_HPP
#define LIVEVEC_COLUMNS_HPP

#include "livevec_base.hpp"

namespace livevec {

/** A cell of a column of best runs, as a number. O(1). */
constexpr int128 total(const livevec_total &cell) noexcept { return inner::joined(cell.high, cell.low); }

namespace inner {

/** The cell of a kind: a number. */
template <kind Kind> struct by { using cell = std::int64_t; /**< the cell */ };
/** That of the best run. */
template <> struct by<kind::best> { using cell = livevec_total; /**< the cell */ };
/** That of a map. */
template <> struct by<kind::affine> { using cell = livevec_map; /**< the cell */ };
/** That of an automaton. */
template <> struct by<kind::automaton> { using cell = livevec_states; /**< the cell */ };

} // namespace inner

/** The cell of a kind: of a sum std::int64_t, modulo 2^64; of the minimum and the maximum std::int64_t; else a struct of livevec.h. */
template <kind Kind> using cell = typename inner::by<Kind>::cell;

} // namespace livevec

#endif
