/** @file
 * Part of livevec.hpp, which is what programs include: the board, one vector of 16-bit integers that up to eight threads edit and query together,
 * without a lock.
 *
 * One thread makes the board and a seat for each thread. A seat serves one thread at a time, and no call at it waits for another seat.
 * What another seat's edit outran is refused with LIVEVEC_CONTENDED or LIVEVEC_OVERTAKEN (`is_outrun`), and has not happened: call again.
 * Exceptions cost some microseconds: where many calls are outrun, livevec_seat_push and the like at `slot()` answer without one. */
#ifndef LIVEVEC_BOARD_HPP
#define LIVEVEC_BOARD_HPP

#include "livevec_base.hpp"

#include <algorithm>
#include <cstdint>
#include <memory>
#include <mutex>
#include <utility>
#include <vector>

namespace livevec {

namespace inner {

/** Owns a seat of C. */
using held_seat = std::unique_ptr<livevec_seat, freed<livevec_seat, livevec_free_seat>>;

/** The seats of a board that were let go, on whatever thread. The board takes them back at its next call, for its slot serves one
 * call at a time. Those that it never took back are freed with the last of them. */
class lobby {
  public:
    /** Room for all seats, so that none that is let go takes memory. */
    explicit lobby(std::uint32_t seats) { waiting_.reserve(std::min(seats, 8u)); }

    /** Takes one that was let go. */
    void enter(livevec_seat *seat) noexcept
    {
        std::lock_guard<std::mutex> held(lock_);
        waiting_.emplace_back(seat);
    }

    /** Each goes back, unless another call is at the board. */
    void go_back(livevec_board *board)
    {
        std::lock_guard<std::mutex> held(lock_);
        auto is_done = [&](const held_seat &seat) { return livevec_board_take_back(board, seat.get()) != LIVEVEC_BUSY; };
        waiting_.erase(std::remove_if(waiting_.begin(), waiting_.end(), is_done), waiting_.end());
    }

  private:
    std::mutex lock_;
    std::vector<held_seat> waiting_;
};

/** Lets a seat go. */
struct let_go {
    std::shared_ptr<lobby> at; /**< where to */
    /** Lets it go. */
    void operator()(livevec_seat *seat) const noexcept { at->enter(seat); }
};

} // namespace inner

/** A thread's place at a board, made by `board::sit`. Its end gives the seat back. It stays valid if the board ends first. An edit is tried at most
 * `tries` times, and once at least; the other calls make one try. */
class [[nodiscard]] seat {
  public:
    /** The handle, for calls of livevec.h; null once it is closed. */
    livevec_seat *slot() const noexcept { return slot_.get(); }
    /** The board's kind. O(1). */
    livevec::kind kind() const noexcept { return kind_; }

    /** Puts an element from -32768 to 32767 at the end, and gives its index. O(1) a try. */
    std::uint32_t push(element value, amount tries = 1000) { return inner::checked(livevec_seat_push(slot(), value, tries)).place; }
    /** Drops the last element, and gives it. O(1) a try. */
    std::int64_t pop(amount tries = 1000) { return inner::checked(livevec_seat_pop(slot(), tries)).value; }
    /** Overwrites the element at an index, and gives the one before. O(1) a try. */
    std::int64_t write(position index, element value, amount tries = 1000)
    {
        return inner::checked(livevec_seat_write(slot(), index, value, tries), index).value;
    }

    /** The element at an index; the index is checked. O(1). */
    [[nodiscard]] std::int64_t operator[](position index) const { return inner::checked(livevec_seat_get(slot(), index), index).value; }
    /** How many elements there are. Another seat may change it at once. O(1). */
    [[nodiscard]] std::uint32_t size() const { return inner::counted(livevec_seat_size(slot())); }

    /** The value of a range by the board's kind, all as it was after one edit. Of the values only those of that kind are told, and `any`. O(length / 8) if
     * the blocks were refreshed, else O(length). */
    [[nodiscard]] livevec_reduced reduce(position lo, position hi) const { return inner::checked(livevec_seat_reduce(slot(), lo, hi), lo, hi); }

    /** Computes the summary of a block, the eight elements from index 8 * block on, so that reductions read less. O(1). */
    livevec_renewed refresh(amount block) { return inner::checked(livevec_seat_refresh(slot(), block)); }

    /** Gives the seat back now. Every later call is refused with LIVEVEC_NULL. O(1). */
    void close() noexcept { slot_.reset(); }

  private:
    friend class board;
    seat(inner::held_seat held, std::shared_ptr<inner::lobby> lobby, livevec::kind kind)
        : slot_(held.release(), inner::let_go{std::move(lobby)}), kind_(kind)
    {
    }

    std::unique_ptr<livevec_seat, inner::let_go> slot_;
    livevec::kind kind_;
};

/** The elements of a closed board. */
class [[nodiscard]] closed {
  public:
    using value_type = std::int64_t;         /**< an element */
    using size_type = std::uint32_t;         /**< an index, or a count */
    using iterator = element_iterator;       /**< goes through a copy */
    using const_iterator = element_iterator; /**< goes through a copy */

    /** The handle, for calls of livevec.h; null if this was moved from. */
    livevec_board *slot() const noexcept { return slot_.get(); }
    /** How many edits were accepted at all seats together. O(1). */
    std::uint32_t edits() const noexcept { return edits_; }
    /** How many elements there are. O(1). */
    [[nodiscard]] std::uint32_t size() const { return inner::counted(livevec_closed_size(slot())); }
    /** Whether there is none. O(1). */
    [[nodiscard]] bool empty() const { return size() == 0; }
    /** The element at an index; the index is checked. O(1). */
    [[nodiscard]] std::int64_t operator[](position index) const { return inner::checked(livevec_closed_get(slot(), index), index).value; }

    /** All elements. O(n). */
    [[nodiscard]] std::vector<std::int64_t> elements() const
    {
        std::vector<std::int64_t> elements(size());
        read_into(elements);
        return elements;
    }
    /** All elements into the front of a buffer, and how many they are. O(n). */
    std::uint32_t read_into(buffer_view buffer) const
    {
        std::uint32_t count = 0;
        std::uint32_t refusal = livevec_closed_read(slot(), buffer.data(), buffer.size(), &count);
        inner::check(refusal, count);
        return count;
    }

    /** Through a copy of the elements. O(n). */
    [[nodiscard]] const_iterator begin() const { return const_iterator(elements()); }
    /** The end of each copy. O(1). */
    [[nodiscard]] const_iterator end() const noexcept { return const_iterator(); }

  private:
    friend class board;
    using held_board = std::unique_ptr<livevec_board, inner::freed<livevec_board, livevec_free_board>>;
    closed(held_board held, std::uint32_t edits) : slot_(std::move(held)), edits_(edits) {}

    held_board slot_;
    std::uint32_t edits_;
};

/** A board. It takes all its memory at the start. */
class board : public inner::owned<livevec_board, livevec_free_board> {
  public:
    /** Of a kind, 1 to 8 seats, 1 to 9 buckets (k hold 8 * (2^k - 1) elements, 9 hold 4,088) and 1 to 16,777,215 edits. O(elements it may hold). */
    explicit board(livevec::kind kind, amount seats = 8, limits most = {9, 16777215}) : lobby_(std::make_shared<inner::lobby>(seats)), kind_(kind)
    {
        inner::check(livevec_board_new(slot(), inner::number(kind), most.buckets, most.edits, seats));
    }

    /** The kind. O(1). */
    livevec::kind kind() const noexcept { return kind_; }

    /** A seat: one that nobody has yet, or one that came back. O(1). */
    seat sit()
    {
        gather();
        inner::held_seat held(new livevec_seat{});
        inner::check(livevec_board_sit(slot(), held.get()));
        return seat(std::move(held), lobby_, kind_);
    }

    /** Closes a board whose seats are all back, and gives its elements; the board is then as one that was moved from. If it is refused the board is as it
     * was. O(n). */
    closed close()
    {
        gather();
        std::uint32_t edits = inner::counted(livevec_board_close(slot()));
        return closed(std::move(slot_), edits);
    }

  private:
    void gather()
    {
        if (slot())
            lobby_->go_back(slot());
    }

    std::shared_ptr<inner::lobby> lobby_;
    livevec::kind kind_;
};

} // namespace livevec

#endif
