/** @file
 * Part of livevec.hpp, which is what programs include: summaries, values of plain bytes that any thread, process or machine may read and join. */
#ifndef LIVEVEC_SUMMARY_HPP
#define LIVEVEC_SUMMARY_HPP

#include "livevec_base.hpp"

#include <cstddef>
#include <cstdint>
#include <cstring>
#include <optional>

namespace livevec {

/** The values of a list of elements by each of the six kinds, how many elements there are, the automaton's table, and the edit at which a vector had
 * them. It holds nothing of a vector, is copied freely, and is equal to one with the same bytes. Unless it says otherwise a call is O(1). */
class [[nodiscard]] summary {
  public:
    /** Of no elements, by the automaton of a new vector. */
    summary() : bytes_(made(livevec_summary_empty())) {}
    /** Of no elements, by the automaton of a table. */
    explicit summary(const livevec_table &table) : bytes_(made(livevec_summary_empty_with_table(&table))) {}

    /** Of the elements of an array, by the automaton of a new vector. O(length). */
    explicit summary(array_view elements) : bytes_(made(livevec_summary_of_elements(elements.data(), elements.size()))) {}

    /** The one that has these bytes; refused if none has. */
    static summary from_bytes(const livevec_summary &bytes)
    {
        inner::check(livevec_summary_values(&bytes).refusal);
        return summary(bytes);
    }
    /** Its bytes. */
    [[nodiscard]] const livevec_summary &bytes() const noexcept { return bytes_; }

    /** Of its elements, and then those of another. */
    summary join(const summary &right) const { return summary(made(livevec_summary_join(&bytes_, &right.bytes_))); }
    /** Of its elements, and then those of an array. O(length). */
    summary extend(array_view elements) const { return summary(made(livevec_summary_extend(&bytes_, elements.data(), elements.size()))); }

    /** Its values by all six kinds. */
    [[nodiscard]] livevec_values values() const { return opened().values; }
    /** How many elements there are. */
    [[nodiscard]] std::uint64_t count() const { return opened().count; }
    /** The exact sum of the elements. */
    [[nodiscard]] int128 total() const
    {
        inner::check(livevec_summary_values(&bytes_).refusal);
        return inner::joined(static_cast<std::int64_t>(word(64)), word(56));
    }
    /** The automaton's table. */
    [[nodiscard]] livevec_table table() const { return opened().table; }
    /** The edit at which a vector had these elements, if they are of one. */
    [[nodiscard]] std::optional<std::uint32_t> edit() const
    {
        const livevec_opened says = opened();
        return says.at_edit ? std::optional<std::uint32_t>(says.edit) : std::nullopt;
    }

    /** Whether two have the same bytes. */
    friend bool operator==(const summary &a, const summary &b) noexcept { return std::memcmp(&a.bytes_, &b.bytes_, sizeof a.bytes_) == 0; }
    /** Whether they haven't. */
    friend bool operator!=(const summary &a, const summary &b) noexcept { return !(a == b); }

  private:
    friend class vector;
    explicit summary(const livevec_summary &bytes) noexcept : bytes_(bytes) {}

    static livevec_summary made(livevec_summarised answer) { return inner::checked(answer).summary; }
    livevec_opened opened() const
    {
        livevec_opened says = livevec_summary_values(&bytes_);
        inner::check(says.refusal);
        return says;
    }

    /* A number of 64 bits at a place that docs/engines.md tells. */
    std::uint64_t word(std::size_t at) const noexcept
    {
        std::uint64_t word = 0;
        for (std::size_t i = 8; i-- > 0;)
            word = word << 8 | bytes_.bytes[at + i];
        return word;
    }

    livevec_summary bytes_;
};

} // namespace livevec

#endif
