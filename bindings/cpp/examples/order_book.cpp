/* An order book by livevec: two vectors, one for each side. The best levels are searches, and the depth of any levels is a sum. */
#include "order_book.hpp"

#include <livevec.hpp>
#include <vector>

namespace {

class book {
  public:
    void change(side of, std::uint32_t level, std::int64_t by) { sides_[of].write(level, sides_[of][level] + by); }
    std::uint32_t best_bid() const { return sides_[BID].where_last_at_least(0, LEVELS, 1).value_or(LEVELS); }
    std::uint32_t best_ask() const { return sides_[ASK].where_first_at_least(0, LEVELS, 1).value_or(LEVELS); }
    std::int64_t depth(side of, std::uint32_t lo, std::uint32_t hi) const { return sides_[of].sum(lo, hi); }

  private:
    static livevec::vector empty() { return livevec::vector(std::vector<std::int64_t>(LEVELS)); }

    livevec::vector sides_[2] = {empty(), empty()};
};

} // namespace

int main(int argc, char **argv)
{
    book levels;
    return day(levels, "livevec", argc, argv);
}
