/** @file
 * Part of livevec.hpp, which is what programs include: a vector, a series or samples that threads share, with a lock, subscribers, and for a vector
 * threads that compute its summaries. It stands on livevec_shared.h, so its programs are linked with -pthread. */
#ifndef LIVEVEC_SHARED_HPP
#define LIVEVEC_SHARED_HPP

#include "livevec.hpp"
#include "livevec_subscriber.hpp"

#include <algorithm>
#include <cstddef>
#include <cstdint>
#include <exception>
#include <functional>
#include <iterator>
#include <memory>
#include <optional>
#include <thread>
#include <utility>
#include <vector>

namespace livevec {

/** What an edit of a shared form answers: its number, and what it did. */
struct receipt {
    std::uint64_t edit;      /**< the edit's number */
    std::uint64_t place = 0; /**< of a push the index; of a reserve how many elements now fit; of what drops elements how many were dropped; else 0 */
    std::int64_t value = 0;  /**< of a pop the element that was dropped; of a write the one before; of a swap the one at the first index now; else 0 */
    /** As C answers for a vector, with the low 32 bits of the number. */
    operator livevec_edited() const noexcept { return {0, 0, static_cast<std::uint32_t>(edit), static_cast<std::uint32_t>(place), value}; }
};

/** What threads share: a vector, a series or samples, which its end closes. Each call may be made by any thread at any time: edits and queries take a lock
 * for one call. An edit gives a receipt. Once it is closed each call is refused with LIVEVEC_NO_HANDLE. A call of a thread within a `with` of its own is
 * refused with LIVEVEC_BUSY: it would wait for itself. A call costs what it costs at what is shared, and the lock.
 *
 * Numbers of edits have 64 bits, and go on rising where a `renew` or a `with` puts another vector in its place. If an answer has 32 bits for one, these
 * are its low ones.
 *
 * If a call that is handed to `with` throws, the edits that it made before stay; the lock is let go, subscribers are told, and the exception goes on
 * only to the caller of `with`. Nothing else of a caller's runs under the lock. If C++ itself is out of memory, std::bad_alloc is thrown, and nothing
 * has changed or counts as told. */
template <class Of> class shared;

namespace inner {

/** A lock round a vector. */
inline std::uint32_t put_round(livevec_shared *lock, livevec_vector *of) { return livevec_shared_new(lock, of); }
/** A lock round a series. */
inline std::uint32_t put_round(livevec_shared *lock, livevec_series *of) { return livevec_shared_new_series(lock, of); }
/** Another vector within. */
inline std::uint32_t exchange(livevec_shared *lock, livevec_vector *of) { return livevec_shared_exchange(lock, of); }
/** Another series within. */
inline std::uint32_t exchange(livevec_shared *lock, livevec_series *of) { return livevec_shared_exchange_series(lock, of); }

/** A thread that computes summaries. Its end dismisses it, and waits for it. */
class shared_worker : public owned<livevec_worker, livevec_free_worker> {
  public:
    /** Hires one, and starts it. */
    explicit shared_worker(livevec_shared *at)
    {
        check(livevec_shared_hire(at, slot()));
        thread_ = std::thread([slot = slot()] { livevec_worker_work(slot); });
    }
    /** Takes what another has. */
    shared_worker(shared_worker &&other) noexcept = default;
    /** Dismisses it, and waits for it. */
    ~shared_worker()
    {
        if (!thread_.joinable())
            return;
        livevec_worker_dismiss(slot());
        thread_.join();
    }

  private:
    std::thread thread_;
};

/** What all shared forms have. */
template <class Of>
class shared_form : public asked<shared<Of>, typename Of::position_type> {
  public:
    using size_type = typename Of::size_type;         /**< an index, or a count */
    using position_type = typename Of::position_type; /**< an index as calls take it */

    /** Closes it, and has another's in its place. */
    shared_form &operator=(shared_form &&other) noexcept = default;

    /** Puts an element at the end; `place` is its index. As what is shared. */
    receipt push(element value) { return edit([=](Of &of) { return receipt{0, of.push(value)}; }); }
    /** Puts an element at the end. As what is shared. */
    void push_back(element value) { push(value); }
    /** Pushes all or none, with no other edit between, and gives the last edit. As what is shared. */
    std::uint64_t push_many(array_view values) { return edit_many([=](Of &of) { of.push_many(values); }); }
    /** Exchanges the elements at two indices; `value` is the element at the first one now. As what is shared. */
    receipt swap_elements(position_type first, position_type second)
    {
        return edit([=](Of &of) { return of.swap_elements(first, second), receipt{0, 0, of[first]}; });
    }
    /** Writes all or none, with no other edit between, and gives the last edit. As what is shared. */
    std::uint64_t write_many(view<const size_type> indices, array_view values) { return edit_many([=](Of &of) { of.write_many(indices, values); }); }
    /** Drops the last element; `value` is that element. As what is shared. */
    receipt pop() { return edit([](Of &of) { return receipt{0, 0, of.pop()}; }); }
    /** Overwrites the element at an index; `value` is the one before. As what is shared. */
    receipt write(position_type index, element value) { return edit([=](Of &of) { return receipt{0, 0, of.write(index, value)}; }); }
    /** Drops the elements from an index on; `place` is how many were dropped. As what is shared. */
    receipt truncate(position_type size) { return edit([=](Of &of) { return receipt{0, of.truncate(size)}; }); }

    /** Drops all elements by one edit. As what is shared. */
    std::uint64_t clear() { return edit_many([](Of &of) { of.clear(); }); }

    /** The element at an index; the index is checked. O(1). */
    [[nodiscard]] std::int64_t operator[](position_type index) const { return reads([=](const Of &of) { return of[index]; }); }
    /** The first element; std::out_of_range is thrown if there is none. O(1). */
    [[nodiscard]] std::int64_t front() const { return reads(&Of::front); }
    /** The last element; std::out_of_range is thrown if there is none. O(1). */
    [[nodiscard]] std::int64_t back() const { return reads(&Of::back); }
    /** Whether there is no element. O(1). */
    [[nodiscard]] bool empty() const { return reads(&Of::empty); }
    /** The elements of a range, all after one edit. O(length). */
    [[nodiscard]] std::vector<std::int64_t> read(position_type lo, position_type hi) const { return reads(&Of::read, lo, hi); }
    /** All elements, after one edit. O(n). */
    [[nodiscard]] std::vector<std::int64_t> elements() const { return reads(&Of::elements); }
    /** One of its own, which no other thread has, as `clone` of what is shared. O(n). */
    [[nodiscard]] Of clone() const { return reads(&Of::clone); }
    /** Whether two have the same, as `==` of what is shared: they are copied one after the other. O(n). */
    friend bool operator==(const shared<Of> &a, const shared<Of> &b) { return a.clone() == b.clone(); }
    /** How many elements there are; of a series and samples the index behind the last. O(1). */
    [[nodiscard]] size_type size() const { return reads(&Of::size); }
    /** The number of the last edit. O(1). */
    [[nodiscard]] std::uint64_t edits() const
    {
        turn mine(here());
        return mine.leave();
    }
    /** The values of a range by all six kinds, as `reduce` of what is shared: **linear in the range** for what no worker, refresh or query computed. */
    [[nodiscard]] auto reduce(position_type lo, position_type hi) const { return answer(&Of::reduce, lo, hi); }
    /** The values of a range by all six kinds, as `ask` of what is shared. O(log n), and more after edits. */
    auto ask(position_type lo, position_type hi) const { return answer(&Of::ask, lo, hi); }
    /** The value of a range by one kind, as `value` of what is shared. O(log n), and more after edits. */
    [[nodiscard]] auto value(kind by, position_type lo, position_type hi) const { return answer(&Of::value, by, lo, hi); }
    /** The exact sum of a range, as `total` of what is shared. */
    [[nodiscard]] int128 total(position_type lo, position_type hi) const { return reads(&Of::total, lo, hi); }

    /** All of it as bytes, after one edit, which `load` takes. O(n). */
    [[nodiscard]] std::vector<std::uint8_t> save() const { return reads(&Of::save); }

    /** The values of each prefix of a range by all six kinds, with its last element, all after one edit. O(length). */
    [[nodiscard]] std::vector<livevec_values> scan_inclusive(position_type lo, position_type hi) const
    {
        return reads([=](const Of &of) { return of.scan_inclusive(lo, hi); });
    }
    /** The same by one kind, in a column of its own. O(length). */
    template <kind Kind> [[nodiscard]] std::vector<cell<Kind>> scan_inclusive(position_type lo, position_type hi) const
    {
        return reads([=](const Of &of) { return of.template scan_inclusive<Kind>(lo, hi); });
    }
    /** The same without its last element. O(length). */
    [[nodiscard]] std::vector<livevec_values> scan_exclusive(position_type lo, position_type hi) const
    {
        return reads([=](const Of &of) { return of.scan_exclusive(lo, hi); });
    }
    /** The same by one kind, in a column of its own. O(length). */
    template <kind Kind> [[nodiscard]] std::vector<cell<Kind>> scan_exclusive(position_type lo, position_type hi) const
    {
        return reads([=](const Of &of) { return of.template scan_exclusive<Kind>(lo, hi); });
    }

    /** Several calls, with no other thread's between them: hands what is shared to a call, and gives what that gives. Another that is put in its place
     * counts as an edit. */
    template <class Calls> decltype(auto) with(Calls &&calls)
    {
        turn mine(here());
        return std::forward<Calls>(calls)(mine.at.of);
    }

    /** One more that is told which answers of these queries change. Before its first look each counts as told what `queries` says. O(1). */
    subscriber subscribe(queries questions)
    {
        subscriber made;
        made.seat_->asked.emplace(std::move(questions));
        check(livevec_shared_subscribe(&here().lock, made.slot(), made.seat_->asked->slot()));
        return made;
    }

    /** Ends edits, workers and subscribers, and waits for the workers; gives what is shared back. Each subscriber has its last notes then, at the last
     * edit. As queries::notes for each subscriber. */
    Of close()
    {
        state &ended = here();
        check(livevec_shared_close(&ended.lock));
        ended.workers.clear();
        return std::move(ended.of);
    }

  protected:
    /** What is shared, its lock, and its workers, which the lock guards. The end of it closes. */
    struct state {
        Of of;                                                  /**< what is shared */
        decltype(handle_of(std::declval<const Of &>())) handle; /**< its handle, as the lock knows it */
        livevec_shared lock{};                                  /**< the lock */
        std::vector<shared_worker> workers{};                   /**< the workers */
        /** A lock round it. */
        explicit state(Of taken) : of(std::move(taken)), handle(handle_of(of)) { check(put_round(&lock, handle)); }
        /** Closes. */
        ~state() { livevec_free_shared(&lock); }
    };

    /** A thread that has entered. Its end lets the lock go, and wakes who sleeps. */
    struct turn {
        state &at;            /**< what it entered */
        bool is_left = false; /**< whether it has left */
        /** Enters. */
        explicit turn(state &entered) : at(entered) { check(livevec_shared_enter(&at.lock)); }
        turn(const turn &) = delete;
        /** Leaves, if it hasn't yet. */
        ~turn() { leave(); }
        /** Leaves, and gives the number of the last edit. */
        std::uint64_t leave() noexcept
        {
            if (std::exchange(is_left, true))
                return 0;
            if (at.handle != handle_of(at.of) && !exchange(&at.lock, handle_of(at.of)))
                at.handle = handle_of(at.of);
            return livevec_shared_leave(&at.lock).edit;
        }
    };

    /** A lock round it. */
    explicit shared_form(Of of) : state_(new state(std::move(of))) {}
    /** Takes what another has. */
    shared_form(shared_form &&other) noexcept = default;
    /** Closes. */
    ~shared_form() = default;

    /** What there is, unless it was moved from. */
    state &here() const
    {
        if (!state_)
            raise(refused(LIVEVEC_NULL));
        return *state_;
    }
    /** A call that reads, or a member of what is shared with what it is asked. */
    template <class Call, class... Asked> auto reads(Call call, Asked... asked) const
    {
        const turn mine(here());
        return std::invoke(call, static_cast<const Of &>(mine.at.of), asked...);
    }
    /** An answer that names the edit after which it is so. */
    template <class Call, class... Asked> auto answer(Call call, Asked... asked) const
    {
        turn mine(here());
        auto told = std::invoke(call, static_cast<const Of &>(mine.at.of), asked...);
        told.edit = static_cast<decltype(told.edit)>(mine.leave());
        return told;
    }
    /** One edit. */
    template <class Call> receipt edit(Call call)
    {
        turn mine(here());
        receipt did = call(mine.at.of);
        did.edit = mine.leave();
        return did;
    }
    /** Many edits, of which the last is told. */
    template <class Call> std::uint64_t edit_many(Call call)
    {
        turn mine(here());
        call(mine.at.of);
        return mine.leave();
    }

  private:
    friend class asked<shared<Of>, position_type>;
    auto found_by(livevec_wanted what, position_type lo, position_type hi, std::int64_t x) const { return reads(&Of::found_by, what, lo, hi, x); }
    std::vector<livevec_values> values_of(kind by, view<const typename Of::range_type> ranges) const { return reads(&Of::values_of, by, ranges); }

    std::unique_ptr<state> state_;
};

} // namespace inner

/** A vector that threads share, as livevec::shared says. */
template <>
class [[nodiscard]] shared<vector> : public inner::shared_form<vector> {
  public:
    /** Puts a lock round a vector. O(1). */
    explicit shared(vector of = vector()) : shared_form(std::move(of)) {}

    /** Makes room for so many elements in all; `place` is how many now fit. O(1). */
    receipt reserve(position elements) { return edit([=](vector &of) { return receipt{0, of.reserve(elements)}; }); }
    /** How many elements fit into the memory that is held. O(1). */
    [[nodiscard]] std::uint32_t capacity() const { return reads(&vector::capacity); }
    /** A scan by one kind into the front of a column of the caller's, and how many cells that is. O(length). */
    template <kind Kind> std::uint32_t scan_inclusive_into(position lo, position hi, view<cell<Kind>> column) const
    {
        return reads([=](const vector &of) { return of.scan_inclusive_into<Kind>(lo, hi, column); });
    }
    /** The same, each without the element at its place. O(length). */
    template <kind Kind> std::uint32_t scan_exclusive_into(position lo, position hi, view<cell<Kind>> column) const
    {
        return reads([=](const vector &of) { return of.scan_exclusive_into<Kind>(lo, hi, column); });
    }
    /** The summary of a range, as vector::summarise. */
    [[nodiscard]] summary summarise(position lo, position hi) const { return reads(&vector::summarise, lo, hi); }

    /** Goes on as a copy, before the vector is worn: with the same elements, limits, table and kind, and no edits yet but the pushes of its elements.
     * Numbers of edits go on as if nothing were, and subscribers are told nothing. Refused as the pushes would be, with nothing changed. O(n). */
    void renew()
    {
        turn mine(here());
        vector fresh = mine.at.of.unfilled_like();
        inner::check(livevec_shared_renew(&mine.at.lock, fresh.slot()));
        mine.at.handle = fresh.slot();
        mine.at.of = std::move(fresh);
    }

    /** Starts so many more workers, or is refused with LIVEVEC_NO_MEMORY and starts none. Each computes summaries as livevec_worker_work says: no answer
     * changes by it, `reduce` gets quick. O(count). */
    void start_workers(amount_long count)
    {
        std::vector<inner::shared_worker> made;
        try {
            for (made.reserve(count); made.size() < count;)
                made.emplace_back(&here().lock);
            const turn mine(here());
            mine.at.workers.reserve(mine.at.workers.size() + count);
            std::move(made.begin(), made.end(), std::back_inserter(mine.at.workers));
        } catch (const refused &) {
            throw;
        } catch (const std::exception &) {
            inner::raise(refused(LIVEVEC_NO_MEMORY));
        }
    }
    /** Ends all workers, and waits for them. More may be started later. */
    void stop_workers()
    {
        std::vector<inner::shared_worker> ended;
        try {
            const turn mine(here());
            ended.swap(mine.at.workers);
        } catch (const refused &why) {
            if (why.number() != LIVEVEC_NO_HANDLE)
                throw;
        }
    }
};

namespace inner {

/** What a series and samples that are shared have in common. */
template <class Of>
class shared_by_index : public shared_form<Of> {
  public:
    /** Drops the elements before an index; `place` is how many were dropped. O(1) amortised. */
    receipt expire(position_long index) { return this->edit([=](Of &of) { return receipt{0, of.expire(index)}; }); }
    /** The first index that is kept. O(1). */
    [[nodiscard]] std::uint64_t first() const { return this->reads(&Of::first); }
    /** How many elements are kept. O(1). */
    [[nodiscard]] std::uint64_t length() const { return this->reads(&Of::length); }
    /** A piece of a scan by one kind into a column of the caller's, from `at` on, and how many cells that is. O(length), and O(at - lo) more without a
     * tree. */
    template <kind Kind> std::size_t scan_inclusive_into(position_long lo, position_long at, position_long hi, view<cell<Kind>> column) const
    {
        return this->reads([=](const Of &of) { return of.template scan_inclusive_into<Kind>(lo, at, hi, column); });
    }
    /** The same, each without the element at its place. */
    template <kind Kind> std::size_t scan_exclusive_into(position_long lo, position_long at, position_long hi, view<cell<Kind>> column) const
    {
        return this->reads([=](const Of &of) { return of.template scan_exclusive_into<Kind>(lo, at, hi, column); });
    }
    /** Makes the tree of a kind, if there is none. O(n) then. */
    void prepare(kind by) { this->edit_many([=](Of &of) { of.prepare(by); }); }

  protected:
    using shared_form<Of>::shared_form;
};

} // namespace inner

/** A series that threads share, as livevec::shared says. */
template <>
class [[nodiscard]] shared<series> : public inner::shared_by_index<series> {
  public:
    /** Puts a lock round a series. O(1). */
    explicit shared(series of = series()) : shared_by_index(std::move(of)) {}
};

/** Samples that threads share, as livevec::shared says. */
template <>
class [[nodiscard]] shared<samples> : public inner::shared_by_index<samples> {
  public:
    /** Puts a lock round samples. O(1). */
    explicit shared(samples of = samples()) : shared_by_index(std::move(of)) {}
    /** Samples don't change places. */
    receipt swap_elements(position_long, position_long) = delete;
    /** Samples have times. */
    void push_back(element) = delete;
    /** They are written one by one. */
    std::uint64_t write_many(series_index_view, array_view) = delete;

    /** Puts a sample at the end; `place` is its index. O(1) amortised for each tree. */
    receipt push(element time, element value) { return edit([=](samples &of) { return receipt{0, of.push(time, value)}; }); }
    /** Pushes in order, up to the first that is refused, as samples::push_many, and gives the last edit. O(length) amortised for each tree. */
    std::uint64_t push_many(array_view times, array_view values) { return edit_many([=](samples &of) { of.push_many(times, values); }); }
    /** Drops the samples that were taken before a time; `place` is how many they were. O(log n), and O(1) amortised. */
    receipt expire_before(element time) { return edit([=](samples &of) { return receipt{0, of.expire_before(time)}; }); }
    /** The sample under an index; the index is checked. O(1). */
    [[nodiscard]] sample at(position_long index) const { return reads([=](const samples &of) { return of.at(index); }); }
    /** The times of a range of indices, all after one edit. O(length). */
    [[nodiscard]] std::vector<std::int64_t> times(position_long lo, position_long hi) const
    {
        return reads([=](const samples &of) { return of.times(lo, hi); });
    }
    /** The samples of a window of time, as samples::between. Another thread may edit before the next call: within a `with` it doesn't. O(log n). */
    [[nodiscard]] livevec_window between(element since, element until) const { return answer(&samples::between, since, until); }
    /** The samples of the last `span` of time, as samples::last. Another thread may edit before the next call: within a `with` it doesn't. O(log n). */
    [[nodiscard]] livevec_window last(amount_long span) const { return answer(&samples::last, span); }
    /** The value of a window of time by one kind, as samples::value_between. O(log n); the first time O(n), which makes the tree. */
    [[nodiscard]] livevec_series_reduced value_between(kind by, element since, element until) const
    {
        return answer(&samples::value_between, by, since, until);
    }
    /** The value of the last `span` of time by one kind, as samples::value_of_last. O(log n); the first time O(n), which makes the tree. */
    [[nodiscard]] livevec_series_reduced value_of_last(kind by, amount_long span) const { return answer(&samples::value_of_last, by, span); }
};

/** A vector that threads share. */
using shared_vector = shared<vector>;

} // namespace livevec

#endif
