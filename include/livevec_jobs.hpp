/** @file
 * Part of livevec.hpp, which is what programs include: jobs and outcomes, summaries of a vector that any thread may compute. Those of many blocks and
 * of subtrees are in livevec_blocks.hpp. */
#ifndef LIVEVEC_JOBS_HPP
#define LIVEVEC_JOBS_HPP

#include "livevec_base.hpp"
#include "livevec_blocks.hpp"

#include <cstdint>
#include <optional>
#include <utility>

namespace livevec {

/** The result of a job. It may be delivered any number of times, at any time. */
class [[nodiscard]] outcome : public inner::owned<livevec_outcome, livevec_free_outcome> {
  private:
    friend class job;
    outcome() = default;
};

/** A node's summary that is still to be computed. It holds nothing of its vector. */
class [[nodiscard]] job : public inner::owned<livevec_job, livevec_free_job> {
  public:
    /** Its node, and the edit that touched that last. O(1). */
    [[nodiscard]] const livevec_claimed &claimed() const noexcept { return claimed_; }
    /** Computes it, once: then it is empty. O(1). */
    outcome run()
    {
        outcome made;
        inner::check(livevec_run(slot(), made.slot()));
        return made;
    }

  private:
    friend class inner::with_jobs;
    job() = default;

    livevec_claimed claimed_{};
};

namespace inner {

/** A vector's refresh: its summaries are computed in place, or by jobs, so that `reduce` reads less. No answer changes by it. */
class with_jobs : public owned<livevec_vector, livevec_free> {
  public:
    /** Computes at most so many summaries in place, and gives how many. O(log n) for each. */
    std::uint32_t refresh(amount jobs) { return counted(livevec_refresh(slot(), jobs)); }
    /** Forgets all claims, so that their nodes may be claimed again. O(n). */
    void forget() { check(livevec_forget(slot())); }
    /** Whether an outcome would be taken. O(1). */
    [[nodiscard]] bool vets(const outcome &made) const
    {
        livevec_vetted vetted = livevec_vet(slot(), made.slot());
        check(vetted.refusal);
        return vetted.yes;
    }
    /** Takes an outcome, and tells what became of it. O(log n). */
    livevec_became deliver(const outcome &made)
    {
        livevec_accepted accepted = livevec_accept(slot(), made.slot());
        check(accepted.refusal);
        return static_cast<livevec_became>(accepted.became);
    }
    /** A job for the least node that needs one, if there is one. O(log n) amortised. */
    [[nodiscard]] std::optional<job> claim()
    {
        job made;
        made.claimed_ = livevec_claim(slot(), made.slot());
        check(made.claimed_.refusal);
        return made.claimed_.found ? std::optional<job>(std::move(made)) : std::nullopt;
    }
    /** Jobs of the blocks that need one, of at most `limit` from block `first` on, if there are any. None is claimed: threads that share the work ask for
     * different blocks. O(limit). */
    [[nodiscard]] std::optional<batch> copy_blocks(amount first, amount limit) const
    {
        batch made;
        made.size_ = counted(livevec_blocks(slot(), made.slot(), first, limit));
        return made.size_ ? std::optional<batch>(std::move(made)) : std::nullopt;
    }
    /** The job of a subtree: of the 4,096 elements from 4096 * number on. None if these aren't all there, or if the first or the last of their blocks
     * has its summary already: then `copy_blocks` does less. None is claimed. It copies 32 KB. */
    [[nodiscard]] std::optional<subtree> copy_subtree(amount number) const
    {
        subtree made(number);
        return counted(livevec_subtree(slot(), made.slot(), number)) ? std::optional<subtree>(std::move(made)) : std::nullopt;
    }
    /** Keeps all 585 summaries of a subtree that was run, if its elements are still here, and tells whether it did; else nothing changes. Each is taken
     * once; its memory stays with it. Refused with LIVEVEC_NO_HANDLE if it was not run. It compares 32 KB. */
    bool take_subtree(subtree &made) { return counted(livevec_accept_subtree(slot(), made.slot())) > 0; }
    /** Takes the outcomes of a batch that was run, each if it is valid here, and tells what became of them. O(log n) for each. */
    livevec_taken take_in(batch made)
    {
        const livevec_taken taken = livevec_accept_blocks(slot(), made.slot());
        check(taken.refusal);
        return taken;
    }

  protected:
    with_jobs() = default;
};

} // namespace inner

} // namespace livevec

#endif
