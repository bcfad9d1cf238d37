/** @file
 * Part of livevec.hpp, which is what programs include: those who are told of changes by a shared form. */
#ifndef LIVEVEC_SUBSCRIBER_HPP
#define LIVEVEC_SUBSCRIBER_HPP

#include "livevec.hpp"
#include "livevec_queries.hpp"

#include <chrono>
#include <cstdint>
#include <memory>
#include <optional>
#include <utility>
#include <vector>

namespace livevec {

/** Notes that a subscriber is told together. Each has the low 32 bits of the edit. */
class noted : public std::vector<livevec_note> {
  public:
    /** Room for all that there may be. */
    noted() : std::vector<livevec_note>(LIVEVEC_MOST_QUERIES) {}
    /** The number of the edit after which all answers are so; 0 if there is no note. O(1). */
    std::uint64_t edit() const noexcept { return edit_; }

  private:
    friend class subscriber;
    std::uint64_t edit_ = 0;
};

namespace inner {
template <class Of> class shared_form;
}

/** One who is told by a shared form which of its answers have changed; made by `shared::subscribe`. It may outlive what it listens to, and may end at any
 * time. It is one thread's at a time. */
class [[nodiscard]] subscriber {
  public:
    /** Sleeps until an edit changes an answer, and gives a note of each query whose answer differs from the one that was told last, in the order in
     * which they were named. All notes of one list are at one edit, and these rise. A change that is undone between two looks is not told. Once the
     * shared form is closed it gives the notes at the last edit, if there are any, and then nothing. Refused with LIVEVEC_BAD_KIND if a query is among
     * them that may not be asked, as queries::notes is. A look costs as queries::notes, under the lock. */
    [[nodiscard]] std::optional<noted> next()
    {
        noted made;
        if (put(made, livevec_subscriber_next(slot(), made.data(), made.size(), UINT64_MAX)))
            return std::nullopt;
        return made;
    }

    /** The notes that there are now; none if nothing has changed. It neither sleeps nor pauses. As queries::notes, under the lock. */
    [[nodiscard]] noted look()
    {
        noted made;
        put(made, livevec_subscriber_look(slot(), made.data(), made.size()));
        return made;
    }

    /** Makes it pause so long after each look from now on, or twice as long as the look took if that is longer, so that edits are not held up; at first
     * it is a millisecond. With 0 it doesn't pause at all: each edit may be looked at then, and waits for the look. A negative pause is refused with
     * LIVEVEC_OUT_OF_RANGE. O(1). */
    void set_pause(std::chrono::nanoseconds pause) { inner::check(livevec_subscriber_set_pause(slot(), amount_long(pause.count()))); }

  private:
    template <class Of> friend class inner::shared_form;
    template <class Of> friend class shared;

    /* Its set, which it asks until it ends. */
    struct seat {
        std::optional<queries> asked;
        livevec_subscriber slot{};
        ~seat() { livevec_free_subscriber(&slot); }
    };

    subscriber() : seat_(new seat) {}
    livevec_subscriber *slot() const noexcept { return seat_ ? &seat_->slot : nullptr; }

    /* Keeps the notes that were told, and tells whether it is over. */
    static bool put(noted &made, livevec_told told)
    {
        inner::checked(told);
        made.resize(told.count);
        made.edit_ = told.edit;
        return told.is_over;
    }

    std::unique_ptr<seat> seat_;
};

} // namespace livevec

#endif
