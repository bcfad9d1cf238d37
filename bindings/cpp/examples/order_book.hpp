/* A day of an order book with 65,536 price levels, by any of four books that print the same: order_book.cpp has livevec, order_book_plain.cpp loops,
 * order_book_tree.cpp a flat segment tree, and order_book_map.cpp std::map.
 *
 * A book has what is bid and what is offered at each level. It has change(side, level, by), best_bid(), the highest level at which something is bid,
 * best_ask(), the lowest at which something is offered, both LEVELS if there is none, and depth(side, lo, hi), all that a side has at the levels from
 * lo up to hi. Both bests are asked after each message. */
#ifndef ORDER_BOOK_HPP
#define ORDER_BOOK_HPP

#include <algorithm>
#include <chrono>
#include <cstdint>
#include <cstdlib>
#include <iostream>

enum : std::uint32_t { LEVELS = 65536, MESSAGES = 4000, SHOWN = 20, NEAR = 256 };
enum side { BID, ASK };

/* The numbers of a fixed sequence, from 0 up to `below`. */
class numbers {
  public:
    std::uint32_t operator()(std::uint32_t below)
    {
        state_ = state_ * 6364136223846793005u + 1442695040888963407u;
        return static_cast<std::uint32_t>(state_ >> 33) % below;
    }

  private:
    std::uint64_t state_ = 1;
};

/* An order comes in behind the middle, mostly near it; each fourth message takes all that the best level of a side has. */
template <class Book> void receive(Book &book, numbers &next, std::uint32_t middle, std::uint32_t bid, std::uint32_t ask)
{
    const side which = next(2) ? BID : ASK;
    const std::uint32_t best = which == BID ? bid : ask;
    if (next(4) == 0 && best != LEVELS)
        return book.change(which, best, -book.depth(which, best, best + 1));
    const std::uint32_t away = next(next(8) ? NEAR : middle / 2);
    book.change(which, which == BID ? middle - 1 - away : middle + away, 1 + next(1000));
}

/* A bid at the level of an offer, or above, is a trade. */
template <class Book> void trade(Book &book, std::uint32_t bid, std::uint32_t ask)
{
    const std::int64_t most = std::min(book.depth(BID, bid, bid + 1), book.depth(ASK, ask, ask + 1));
    book.change(BID, bid, -most);
    book.change(ASK, ask, -most);
}

/* A day of so many messages as the program is told, or MESSAGES: the middle wanders, and after each message both bests are asked. Tells now and then
 * what the book has, and at last on standard error how many nanoseconds all messages took, and how many they were. */
template <class Book> int day(Book &book, const char *name, int argc, char **argv)
{
    const std::uint32_t messages = argc > 1 ? static_cast<std::uint32_t>(std::atol(argv[1])) : MESSAGES;
    numbers next;
    std::uint64_t bests = 0;
    std::uint32_t middle = LEVELS / 2, bid = LEVELS, ask = LEVELS;
    const auto start = std::chrono::steady_clock::now();
    for (std::uint32_t message = 1; message <= messages; message++) {
        middle = std::clamp<std::uint32_t>(middle + next(9) - 4, LEVELS / 4, LEVELS / 4 * 3);
        receive(book, next, middle, bid, ask);
        bid = book.best_bid(), ask = book.best_ask();
        if (bid != LEVELS && ask != LEVELS && bid >= ask) {
            trade(book, bid, ask);
            bid = book.best_bid(), ask = book.best_ask();
        }
        bests = bests * 31 + bid * 7 + ask;
        if (messages >= SHOWN && message % (messages / SHOWN) == 0)
            std::cout << "after " << message << ": bid " << bid << ", ask " << ask << ", depth " << book.depth(BID, middle - NEAR, middle) << " and "
                      << book.depth(ASK, middle, middle + NEAR) << ", checksum " << bests << '\n';
    }
    const std::chrono::duration<double, std::nano> took = std::chrono::steady_clock::now() - start;
    std::cerr << name << " order book: " << took.count() << ' ' << messages << '\n';
    return 0;
}

#endif
