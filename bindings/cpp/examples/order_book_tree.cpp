/* The same order book by two flat segment trees of sums: node i has the nodes 2i and 2i + 1 below it, and no quantity is negative, so that a best level is
 * found by a descent. */
#include "order_book.hpp"

#include <vector>

namespace {

class tree {
  public:
    void change(std::uint32_t level, std::int64_t by)
    {
        for (std::uint32_t node = level + LEVELS; node > 0; node /= 2)
            sums_[node] += by;
    }
    /* The last level with something, or the first. */
    std::uint32_t found(bool is_last) const
    {
        std::uint32_t node = 1;
        if (sums_[node] == 0)
            return LEVELS;
        while (node < LEVELS) {
            node = 2 * node + is_last;
            node ^= sums_[node] == 0;
        }
        return node - LEVELS;
    }
    std::int64_t sum(std::uint32_t lo, std::uint32_t hi) const
    {
        std::int64_t sum = 0;
        for (lo += LEVELS, hi += LEVELS; lo < hi; lo /= 2, hi /= 2) {
            if (lo % 2)
                sum += sums_[lo++];
            if (hi % 2)
                sum += sums_[--hi];
        }
        return sum;
    }

  private:
    std::vector<std::int64_t> sums_ = std::vector<std::int64_t>(2 * LEVELS);
};

class book {
  public:
    void change(side of, std::uint32_t level, std::int64_t by) { sides_[of].change(level, by); }
    std::uint32_t best_bid() const { return sides_[BID].found(true); }
    std::uint32_t best_ask() const { return sides_[ASK].found(false); }
    std::int64_t depth(side of, std::uint32_t lo, std::uint32_t hi) const { return sides_[of].sum(lo, hi); }

  private:
    tree sides_[2];
};

} // namespace

int main(int argc, char **argv)
{
    book levels;
    return day(levels, "tree", argc, argv);
}
