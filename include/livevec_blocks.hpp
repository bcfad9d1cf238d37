/** @file
 * Part of livevec.hpp, which is what programs include: jobs of many blocks at once and of subtrees.
 * A block is 8 elements side by side; a subtree is 512 blocks side by side, with the nodes above them up to the one of all. */
#ifndef LIVEVEC_BLOCKS_HPP
#define LIVEVEC_BLOCKS_HPP

#include "livevec_base.hpp"

#include <cstdint>

namespace livevec {

namespace inner {
class with_jobs;
}

/** Jobs of blocks, and their outcomes once they are run. It holds nothing of its vector, so any thread may run it. */
class [[nodiscard]] batch : public inner::owned<livevec_batch, livevec_free_batch> {
  public:
    /** How many jobs there are. O(1). */
    [[nodiscard]] std::uint32_t size() const noexcept { return size_; }
    /** Computes all, once. Refused with LIVEVEC_NO_MEMORY the jobs stay. O(1) for each. */
    void run() { inner::check(livevec_run_blocks(slot())); }

  private:
    friend class inner::with_jobs;
    batch() = default;

    std::uint32_t size_ = 0;
};

/** The job of a subtree: of all 585 summaries of the 4,096 elements from 4096 * number on, and its outcome once it is run. It holds nothing of its vector,
 * so any thread may run it. It has some 150 KB, which its end frees: best without a lock that others wait for. */
class [[nodiscard]] subtree : public inner::owned<livevec_batch, livevec_free_batch> {
  public:
    /** How many blocks a subtree has. */
    static constexpr std::uint32_t blocks = 512;

    /** Which subtree it is. O(1). */
    [[nodiscard]] std::uint32_t number() const noexcept { return number_; }
    /** Computes all, once: a second time is refused with LIVEVEC_NO_HANDLE. Refused with LIVEVEC_NO_MEMORY the job stays. Linear in its 4,096 elements. */
    void run() { inner::check(livevec_run_blocks(slot())); }

  private:
    friend class inner::with_jobs;
    explicit subtree(std::uint32_t number) : number_(number) {}

    std::uint32_t number_;
};

} // namespace livevec

#endif
