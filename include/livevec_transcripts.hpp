/** @file
 * Part of livevec.hpp, which is what programs include: the journal of a vector, and transcripts, texts that are written, audited and restored. */
#ifndef LIVEVEC_TRANSCRIPTS_HPP
#define LIVEVEC_TRANSCRIPTS_HPP

#include "livevec.hpp"

#include <cstddef>
#include <cstdint>
#include <string>
#include <string_view>
#include <vector>

namespace livevec {

/** Why a text was not restored: of LIVEVEC_NO_FRONT the verdict and the line of the first fault; of an edit that the limits refuse how many edits come
 * before it. */
class not_restored : public refused {
  public:
    /** Of C's answer. */
    explicit not_restored(const livevec_audited &told) noexcept : refused(told.refusal, told.detail), told_(told) {}
    /** What the audit found. */
    livevec_found_of_text verdict() const noexcept { return static_cast<livevec_found_of_text>(told_.verdict); }
    /** The line of the first fault, counted from 1. */
    std::uint32_t line() const noexcept { return told_.line; }
    /** How many edits come before the one that was refused. */
    std::uint32_t edits() const noexcept { return told_.edits; }

  private:
    livevec_audited told_;
};

/** What is done with the journal and with transcripts; nothing is kept of either. */
class transcript {
  public:
    /** All accepted edits of a vector behind the first `from`. O(length). */
    [[nodiscard]] static std::vector<livevec_edit> journal(const vector &v, amount from = 0)
    {
        const std::uint32_t last = v.edits();
        std::vector<livevec_edit> edits(from < last ? last - from : 0);
        edits.resize(journal_into(v, from, view<livevec_edit>(edits.data(), edits.size())));
        return edits;
    }
    /** The same into a buffer, as many as it takes, and how many they are. O(length). */
    static std::size_t journal_into(const vector &v, amount from, view<livevec_edit> edits)
    {
        const livevec_journal_read told = livevec_journal(v.slot(), from, edits.data(), edits.size());
        inner::check(told.refusal);
        return told.length;
    }

    /** The text of the whole journal and of answers, which rise by their edits. Whether an answer is true is for an audit. O(edits and answers). */
    [[nodiscard]] static std::string of(const vector &v, view<const livevec_recorded> answers = {})
    {
        livevec_text_put told = livevec_transcript(v.slot(), answers.data(), answers.size(), nullptr, 0);
        if (told.refusal != LIVEVEC_SHORT_BUFFER)
            inner::check(told.refusal);
        std::string text(told.length, '\0');
        told = livevec_transcript(v.slot(), answers.data(), answers.size(), text.data(), text.size());
        inner::check(told.refusal);
        return text;
    }

    /** What an audit says of a transcript. Each edit is made anew and each answer computed by a loop: O(edits), and O(n) for each answer. */
    [[nodiscard]] static livevec_audited audit(std::string_view text) { return inner::checked(livevec_audit(text.data(), text.size())); }
    /** What an audit says of a prefix (*front*) of a transcript. As `audit`. */
    [[nodiscard]] static livevec_audited audit_front(std::string_view text) { return inner::checked(livevec_audit_front(text.data(), text.size())); }

    /** A vector with the edits of a prefix (*front*); else `not_restored` is thrown. As `audit`. */
    [[nodiscard]] static vector restore(std::string_view text, limits most = {})
    {
        vector made{vector::unmade{}, most, std::nullopt};
        check(livevec_restore(made.slot(), most.buckets, most.edits, text.data(), text.size()));
        return made;
    }
    /** The same of one kind. */
    [[nodiscard]] static vector restore(kind only, std::string_view text, limits most = {})
    {
        vector made{vector::unmade{}, most, only};
        check(livevec_restore_of(made.slot(), inner::number(only), most.buckets, most.edits, text.data(), text.size()));
        return made;
    }

  private:
    static void check(const livevec_audited &told)
    {
        if (told.refusal)
            inner::raise(not_restored(told), told.line ? "line " + std::to_string(told.line) : "");
    }
};

} // namespace livevec

#endif
