/* The same order book by two arrays and loops. */
#include "order_book.hpp"

#include <numeric>
#include <vector>

namespace {

class book {
  public:
    void change(side of, std::uint32_t level, std::int64_t by) { sides_[of][level] += by; }
    std::uint32_t best_bid() const
    {
        for (std::uint32_t level = LEVELS; level-- > 0;)
            if (sides_[BID][level] > 0)
                return level;
        return LEVELS;
    }
    std::uint32_t best_ask() const
    {
        for (std::uint32_t level = 0; level < LEVELS; level++)
            if (sides_[ASK][level] > 0)
                return level;
        return LEVELS;
    }
    std::int64_t depth(side of, std::uint32_t lo, std::uint32_t hi) const
    {
        return std::accumulate(sides_[of].begin() + lo, sides_[of].begin() + hi, std::int64_t{0});
    }

  private:
    std::vector<std::int64_t> sides_[2] = {std::vector<std::int64_t>(LEVELS), std::vector<std::int64_t>(LEVELS)};
};

} // namespace

int main(int argc, char **argv)
{
    book levels;
    return day(levels, "plain", argc, argv);
}
