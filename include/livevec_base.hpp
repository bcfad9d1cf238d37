/** @file
 * Part of livevec.hpp, which is what programs include: what its classes share. These are kinds, limits, elements, refusals as exceptions, views of
 * arrays, iterators, and owners of handles. */
#ifndef LIVEVEC_BASE_HPP
#define LIVEVEC_BASE_HPP

#include "livevec.h"

#include <cstddef>
#include <cstdint>
#include <iterator>
#include <limits>
#include <memory>
#include <optional>
#include <stdexcept>
#include <string>
#include <type_traits>
#include <utility>
#include <vector>

/** livevec for C++17. */
namespace livevec {

/** An integer of 128 bits, which a best run or a total may need: the compiler's own. It is compared and computed with as any other. */
__extension__ typedef __int128 int128;

/** The built-in reductions. A type of its own, so that none is taken for an element. */
enum class kind : std::uint32_t {
    sum = LIVEVEC_SUM,             /**< the sum modulo 2^64 */
    least = LIVEVEC_LEAST,         /**< the minimum */
    greatest = LIVEVEC_GREATEST,   /**< the maximum */
    best = LIVEVEC_BEST,           /**< the maximum subarray sum, exact */
    affine = LIVEVEC_AFFINE,       /**< the composition of affine maps modulo 2^32 */
    automaton = LIVEVEC_AUTOMATON, /**< the composition of an automaton's transitions */
};

/** How much a vector may take in its life. */
struct limits {
    std::uint32_t buckets = 17;     /**< 1 to 17: k buckets hold 8 * (2^k - 1) elements, 17 hold 1,048,568 */
    std::uint32_t edits = 16777215; /**< 1 to 16,777,215: how many edits are accepted; each is logged in 16 bytes */
};

/** An element as calls take it: made of any integer of at most 64 bits, an unsigned one modulo 2^64. Neither a floating-point number nor an enum
 * converts to it. */
struct element {
    std::int64_t value; /**< the integer */
    /** Takes an integer. */
    template <class Integer, class = std::enable_if_t<std::is_integral_v<Integer> && sizeof(Integer) <= sizeof(std::int64_t)>>
    constexpr element(Integer integer) noexcept : value(static_cast<std::int64_t>(integer))
    {
    }
    /** Gives the integer. */
    constexpr operator std::int64_t() const noexcept { return value; }
};

/** An index as calls take it, or an end of a range, or a count: any integer, and no floating-point number. One that there is nowhere, as a negative one
 * or one that doesn't fit Word, is refused as any that is past the end, and never cut to one that there is; what() tells it as it was given. */
template <class Word> struct index_of {
    Word value;          /**< the integer; the greatest Word, which is past each end, if it doesn't fit */
    std::uint64_t given; /**< the integer as it was given, modulo 2^64 */
    bool is_negative;    /**< whether that is below 0 */
    /** Takes an integer, or an unscoped enum. */
    template <class Integer, class = std::enable_if_t<std::is_integral_v<Integer> || (std::is_enum_v<Integer> && std::is_convertible_v<Integer, std::int64_t>)>>
    constexpr index_of(Integer at) noexcept
        : value(most), given(static_cast<std::uint64_t>(at)), is_negative(!std::is_unsigned_v<Integer> && static_cast<std::int64_t>(at) < 0)
    {
        if (!is_negative && given <= most)
            value = static_cast<Word>(given);
    }
    /** Gives it. */
    constexpr operator Word() const noexcept { return value; }

  private:
    static constexpr Word most = std::numeric_limits<Word>::max();
};
/** An index of a vector. */
using position = index_of<std::uint32_t>;
/** An index of a series, or of samples. */
using position_long = index_of<std::uint64_t>;

namespace inner {
[[noreturn]] void refuse_negative(std::int64_t given);
}

/** A count, a span of time, or a place to go on from, as calls take it: any integer but a negative one, and no floating-point number. One that doesn't fit
 * Word is the greatest Word, which is as good as any that reaches past the end. */
template <class Word> struct amount_of : index_of<Word> {
    /** Takes an integer, or an unscoped enum. One below 0 is refused with LIVEVEC_OUT_OF_RANGE, so before the call that takes it; what() tells it. */
    template <class Integer, class = std::enable_if_t<std::is_constructible_v<index_of<Word>, Integer>>>
    constexpr amount_of(Integer much) : index_of<Word>(much)
    {
        if (this->is_negative)
            inner::refuse_negative(static_cast<std::int64_t>(this->given));
    }
};
/** A count of 32 bits. */
using amount = amount_of<std::uint32_t>;
/** A count, or a span of time, of 64 bits. */
using amount_long = amount_of<std::uint64_t>;

/** Why a call was refused: a ::livevec_refusal, and its detail. What is thrown is also a std::out_of_range if an index or a range is wrong, else a
 * std::runtime_error; it can be caught as either. A refused call changes nothing. */
class refused {
  public:
    /** Of a number of ::livevec_refusal, and its detail. */
    explicit refused(std::uint32_t number, std::uint32_t detail = 0) noexcept : number_(number), detail_(detail) {}
    /** Says what another says. */
    refused(const refused &) noexcept = default;
    /** Takes what another says. */
    refused &operator=(const refused &) noexcept = default;
    /** Ends it. */
    virtual ~refused() = default;
    /** The ::livevec_refusal. */
    std::uint32_t number() const noexcept { return number_; }
    /** A size, a limit, an edit or a length; 0 if there is none. */
    std::uint32_t detail() const noexcept { return detail_; }
    /** Whether only another seat's edit was in the way, so that the same call may succeed if it is made again. */
    bool is_outrun() const noexcept { return number_ == LIVEVEC_CONTENDED || number_ == LIVEVEC_OVERTAKEN; }
    /** The refusal in words; of an index or a range also which it was, and the size. */
    virtual const char *what() const noexcept { return livevec_refusal_text(number_); }

  private:
    std::uint32_t number_, detail_;
};

/** Why the push of many elements was refused. None of them was pushed. */
class stopped : public refused {
  public:
    /** Of C's answer. */
    explicit stopped(const livevec_pushed &pushed) noexcept : refused(pushed.refusal, pushed.detail), pushed_(pushed.pushed) {}
    /** How many were pushed: 0. */
    std::uint32_t pushed() const noexcept { return pushed_; }

  private:
    std::uint32_t pushed_;
};

/** Why many writes or queries were refused. None was made; only of samples that are pushed, those before it were. */
class refused_at : public refused {
  public:
    /** Of C's answer. */
    explicit refused_at(const livevec_many &many) noexcept : refused(many.refusal, many.detail), place_(many.place), done_(many.done) {}
    /** Which one it was, counted from 0. */
    std::size_t place() const noexcept { return place_; }
    /** How many were made: 0, or of samples how many were pushed. */
    std::size_t done() const noexcept { return done_; }

  private:
    std::size_t place_, done_;
};

/** An array that somebody else owns: to be read if Number is const, else to be written to. Whatever has data() and size() of such numbers converts
 * to one, as std::vector, std::array, an array and std::span. */
template <class Number> class view {
    template <class Row> using shown_by = decltype(std::data(std::declval<Row &>()));

  public:
    /** An empty one. */
    constexpr view() noexcept = default;
    /** Of a pointer and a length. */
    constexpr explicit view(Number *first, std::size_t size) noexcept : first_(first), size_(size) {}
    /** Of what has data() and size(). */
    template <class Row, class = std::enable_if_t<!std::is_same_v<std::decay_t<Row>, view> && std::is_convertible_v<shown_by<Row>, Number *>>>
    constexpr view(Row &&row) : first_(std::data(row)), size_(std::size(row))
    {
    }
    /** The first number. */
    constexpr Number *data() const noexcept { return first_; }
    /** How many there are. */
    constexpr std::size_t size() const noexcept { return size_; }
    /** The first number. */
    constexpr Number *begin() const noexcept { return first_; }
    /** Behind the last number. */
    constexpr Number *end() const noexcept { return first_ + size_; }

  private:
    Number *first_ = nullptr;
    std::size_t size_ = 0;
};

/** What elements are read from. */
using array_view = view<const std::int64_t>;
/** What elements are read into. */
using buffer_view = view<std::int64_t>;
/** Where many writes go. */
using index_view = view<const std::uint32_t>;
/** Of which ranges many queries are. */
using range_view = view<const livevec_range>;

/** Goes through a copy of elements, which all iterators of it share. One without a copy is the end of each. */
class element_iterator {
  public:
    using iterator_category = std::forward_iterator_tag; /**< it may go through more than once */
    using value_type = std::int64_t;                     /**< an element */
    using difference_type = std::ptrdiff_t;              /**< a distance */
    using pointer = const std::int64_t *;                /**< leads into the copy */
    using reference = const std::int64_t &;              /**< leads into the copy */

    /** The end. */
    element_iterator() noexcept = default;
    /** The first of these elements. */
    explicit element_iterator(std::vector<std::int64_t> elements) : copy_(std::make_shared<const std::vector<std::int64_t>>(std::move(elements))) {}
    /** The element. */
    reference operator*() const { return (*copy_)[index_]; }
    /** The element. */
    pointer operator->() const { return &**this; }
    /** Goes on. */
    element_iterator &operator++() noexcept
    {
        ++index_;
        return *this;
    }
    /** Goes on, and gives where it was. */
    element_iterator operator++(int)
    {
        element_iterator before = *this;
        ++index_;
        return before;
    }
    /** Whether two are at one place of one copy, or both at an end. */
    friend bool operator==(const element_iterator &a, const element_iterator &b) noexcept
    {
        return a.is_end() ? b.is_end() : a.copy_ == b.copy_ && a.index_ == b.index_;
    }
    /** Whether they aren't. */
    friend bool operator!=(const element_iterator &a, const element_iterator &b) noexcept { return !(a == b); }

  private:
    bool is_end() const noexcept { return !copy_ || index_ >= copy_->size(); }

    std::shared_ptr<const std::vector<std::int64_t>> copy_;
    std::size_t index_ = 0;
};

/** The digits of an integer of 128 bits, which no stream prints. */
inline std::string to_string(int128 number)
{
    __extension__ typedef unsigned __int128 from_zero;
    std::string digits;
    for (from_zero rest = number < 0 ? -static_cast<from_zero>(number) : static_cast<from_zero>(number); rest || digits.empty(); rest /= 10)
        digits.insert(digits.begin(), static_cast<char>('0' + static_cast<int>(rest % 10)));
    return number < 0 ? '-' + digits : digits;
}

/** What the classes of livevec.hpp are made of. Names in it may change at any time. */
namespace inner {

/** What is thrown: what was refused, and an exception of the standard library. */
template <class Refused, class Error> class thrown final : public Refused, public Error {
  public:
    /** With a text. */
    thrown(const Refused &why, const std::string &text) : Refused(why), Error(text) {}
    /** The text. */
    const char *what() const noexcept override { return Error::what(); }
};

/** Throws what was refused, with words for what was asked, if there are any. */
template <class Refused> [[noreturn]] void raise(const Refused &why, const std::string &asked = {})
{
    const std::string text = livevec_refusal_text(why.number()) + (asked.empty() ? "" : " (" + asked + ")");
    if (why.number() == LIVEVEC_OUT_OF_RANGE || why.number() == LIVEVEC_BAD_RANGE)
        throw thrown<Refused, std::out_of_range>(why, text);
    throw thrown<Refused, std::runtime_error>(why, text);
}

/** Throws as no amount is negative. */
[[noreturn]] inline void refuse_negative(std::int64_t given)
{
    throw thrown<refused, std::out_of_range>(refused(LIVEVEC_OUT_OF_RANGE), "out of range: " + std::to_string(given) + " is below 0");
}

/** The digits of an index. */
template <class Integer> std::string digits(Integer index) { return std::to_string(index); }
/** The digits of an index as it was given. */
template <class Word> std::string digits(index_of<Word> index)
{
    return index.is_negative ? std::to_string(static_cast<std::int64_t>(index.given)) : std::to_string(index.given);
}
/** An index that was asked for, in words. */
template <class Index> std::string words(Index index) { return "index " + digits(index); }
/** A range that was asked for, in words. */
template <class Index> std::string words(Index lo, Index hi) { return "range " + digits(lo) + " to " + digits(hi); }
/** One of many ranges, in words. */
inline std::string words(const livevec_range &range) { return words(range.lo, range.hi); }
/** One of many ranges at a series, in words. */
inline std::string words(const livevec_series_range &range) { return words(range.lo, range.hi); }

/** Which one of many was refused, in words: the index or the range at its place, if that is what was wrong. */
template <class Asked> std::string words_at(std::uint32_t refusal, std::size_t place, view<const Asked> asked)
{
    const bool is_told = refusal == LIVEVEC_OUT_OF_RANGE || refusal == LIVEVEC_BAD_RANGE;
    return (is_told && place < asked.size() ? words(asked.data()[place]) + " " : "") + "at place " + std::to_string(place);
}

/** Throws if a number refuses. */
inline void check(std::uint32_t number, std::uint32_t detail = 0)
{
    if (number != LIVEVEC_OK)
        raise(refused(number, detail));
}

/** Throws with an index or a range, and with the size if one was past it. */
template <class... Asked> [[noreturn]] void raise_asked(std::uint32_t number, std::uint32_t detail, Asked... asked)
{
    std::string text;
    if (number == LIVEVEC_OUT_OF_RANGE)
        text = words(asked...) + ", size " + std::to_string(detail);
    else if (number == LIVEVEC_BAD_RANGE)
        text = words(asked...);
    raise(refused(number, detail), text);
}

/** An answer that was not refused; of an index or a range, which is told if it was. */
template <class Answer, class... Asked> Answer checked(Answer answer, Asked... asked)
{
    if (answer.refusal != LIVEVEC_OK) {
        if constexpr (sizeof...(asked) > 0)
            raise_asked(answer.refusal, answer.detail, asked...);
        else
            raise(refused(answer.refusal, answer.detail));
    }
    return answer;
}

/** The edit of many writes or queries, none of which was refused. */
template <class Asked> std::uint32_t each(const livevec_many &many, view<const Asked> asked)
{
    if (many.refusal)
        raise(refused_at(many), words_at(many.refusal, many.place, asked) + (many.refusal == LIVEVEC_OUT_OF_RANGE ? ", size " + std::to_string(many.detail) : ""));
    return many.edit;
}

/** A count that was not refused. */
inline std::uint32_t counted(livevec_count count)
{
    check(count.refusal);
    return count.value;
}

/** A verdict of an object that is there. */
inline livevec_verdict judged(livevec_verdict verdict)
{
    if (verdict.refusal >= LIVEVEC_NO_HANDLE)
        raise(refused(verdict.refusal));
    return verdict;
}

/** A kind as C has it. */
constexpr std::uint32_t number(kind of) noexcept { return static_cast<std::uint32_t>(of); }

/** 128 bits of two halves. */
constexpr int128 joined(std::int64_t high, std::uint64_t low) noexcept { return int128(high) * (int128(1) << 64) + low; }

/** Frees a handle, and what it holds. */
template <class Slot, std::uint32_t (*Free)(Slot *)> struct freed {
    /** Frees it. */
    void operator()(Slot *slot) const noexcept
    {
        Free(slot);
        delete slot;
    }
};

/** Owns a handle, whose place stays the same: a handle is never copied, so that a pointer to it is what moves. That is a std::shared_ptr<Slot> if loans
 * hold the handle too. */
template <class Slot, std::uint32_t (*Free)(Slot *), class Pointer = std::unique_ptr<Slot, freed<Slot, Free>>> class owned {
  public:
    /** Takes what another has. */
    owned(owned &&) noexcept = default;
    /** Takes what another has. */
    owned &operator=(owned &&) noexcept = default;
    /** The handle, for calls of livevec.h; null if this was moved from. */
    Slot *slot() const noexcept { return slot_.get(); }

  protected:
    /** An empty handle. */
    owned() : slot_(new Slot{}, freed<Slot, Free>()) {}
    /** Frees it. */
    ~owned() = default;

    /** The handle. */
    Pointer slot_;
};

/** The elements of a list in braces. */
inline std::vector<std::int64_t> copied(std::initializer_list<element> elements) { return {elements.begin(), elements.end()}; }

/** Whether something is a range of integers, which isn't a view of elements already. */
template <class Row, class = void> struct is_row : std::false_type {};
template <class Row>
struct is_row<Row, std::void_t<decltype(std::begin(std::declval<Row &>())), decltype(std::end(std::declval<Row &>()))>>
    : std::bool_constant<std::is_convertible_v<decltype(*std::begin(std::declval<Row &>())), element> && !std::is_convertible_v<Row &, array_view>> {};

/** The elements of a range of integers. */
template <class Row> std::vector<std::int64_t> elements_of_row(Row &row)
{
    std::vector<std::int64_t> elements;
    for (element each : row)
        elements.push_back(each);
    return elements;
}

/** Whether iterators give integers. */
template <class Iterator, class = typename std::iterator_traits<Iterator>::iterator_category>
constexpr bool gives_elements = std::is_convertible_v<typename std::iterator_traits<Iterator>::reference, element>;

/** All bytes of what is saved in pieces. */
template <class Of> std::vector<std::uint8_t> saved(const Of &of)
{
    std::vector<std::uint8_t> bytes(of.saved_length());
    of.save_into(0, bytes);
    return bytes;
}

/** One of the values, if there is one. */
inline std::optional<std::int64_t> some(const livevec_values &values, std::int64_t livevec_values::*which)
{
    return values.any ? std::optional<std::int64_t>(values.*which) : std::nullopt;
}

} // namespace inner

} // namespace livevec

#endif
