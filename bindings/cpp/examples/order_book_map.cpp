/* The same order book by two std::map, which have the levels at which there is something. */
#include "order_book.hpp"

#include <map>

namespace {

class book {
  public:
    void change(side of, std::uint32_t level, std::int64_t by)
    {
        const auto at = sides_[of].try_emplace(level, 0).first;
        if ((at->second += by) == 0)
            sides_[of].erase(at);
    }
    std::uint32_t best_bid() const { return sides_[BID].empty() ? std::uint32_t(LEVELS) : sides_[BID].rbegin()->first; }
    std::uint32_t best_ask() const { return sides_[ASK].empty() ? std::uint32_t(LEVELS) : sides_[ASK].begin()->first; }
    std::int64_t depth(side of, std::uint32_t lo, std::uint32_t hi) const
    {
        std::int64_t sum = 0;
        for (auto at = sides_[of].lower_bound(lo); at != sides_[of].end() && at->first < hi; ++at)
            sum += at->second;
        return sum;
    }

  private:
    std::map<std::uint32_t, std::int64_t> sides_[2];
};

} // namespace

int main(int argc, char **argv)
{
    book levels;
    return day(levels, "map", argc, argv);
}
