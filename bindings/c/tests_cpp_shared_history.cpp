/* A shared vector of livevec_shared.hpp, beside a plain list of what its receipts say. */
#include "tests_cpp.hpp"

#include <algorithm>
#include <atomic>
#include <chrono>
#include <cstdint>
#include <cstring>
#include <map>
#include <string>
#include <thread>
#include <utility>
#include <vector>

using list = std::vector<std::int64_t>;
using notes = std::vector<livevec_note>;

/* Numbers of a fixed sequence, each below what is asked for. */
class numbers {
  public:
    explicit numbers(std::uint64_t seed) : state_(seed) {}
    std::uint32_t below(std::uint32_t most)
    {
        state_ = state_ * 6364136223846793005u + 1442695040888963407u;
        return static_cast<std::uint32_t>(state_ >> 33) % most;
    }

  private:
    std::uint64_t state_;
};

/* What an edit did, as a plain list does it. */
struct did {
    enum { push, pop, write, swap, truncate } what;
    std::int64_t value;
    std::uint32_t first, second;
};
using receipts = std::map<std::uint64_t, did>;

static void redo(list &all, const did &it)
{
    switch (it.what) {
    case did::push: all.push_back(it.value); break;
    case did::pop:
        IS(!all.empty() && all.back() == it.value);
        all.pop_back();
        break;
    case did::write: all.at(it.first) = it.value; break;
    case did::swap: std::swap(all.at(it.first), all.at(it.second)); break;
    case did::truncate: all.resize(it.first); break;
    }
}

struct query {
    livevec::kind kind;
    std::uint32_t lo, hi;
};
static const livevec::kind kinds[] = {livevec::kind::sum, livevec::kind::least, livevec::kind::greatest, livevec::kind::best, livevec::kind::affine, livevec::kind::automaton};

/* What a kind says of the elements that a query has, by a loop over them; the others are 0, as in a note. */
static livevec_values plain(const query &of, const list &all)
{
    livevec_values values{};
    const std::size_t hi = std::min<std::size_t>(of.hi, all.size());
    livevec::int128 best = 0, here = 0;
    std::uint32_t a = 1, b = 0;
    std::uint8_t states[8] = {0, 1, 2, 3, 4, 5, 6, 7};
    for (std::size_t i = of.lo; i < hi; i++) {
        const std::int64_t x = all[i];
        values.sum += static_cast<std::uint64_t>(x);
        values.least = values.any ? std::min(values.least, x) : x;
        values.greatest = values.any ? std::max(values.greatest, x) : x;
        here = x + (values.any ? std::max<livevec::int128>(here, 0) : 0);
        best = values.any ? std::max(best, here) : here;
        const std::int64_t by = x >= 0 ? x / 256 : -((-x + 255) / 256);
        a *= static_cast<std::uint32_t>(by);
        b = b * static_cast<std::uint32_t>(by) + static_cast<std::uint32_t>(x - 256 * by);
        for (std::uint8_t &state : states)
            state = static_cast<std::uint8_t>((2 * state + ((x % 4) + 4) % 4) % 8);
        values.any = true;
    }
    livevec_values told{};
    told.any = values.any;
    switch (of.kind) {
    case livevec::kind::sum: told.sum = values.sum; break;
    case livevec::kind::least: told.least = values.least; break;
    case livevec::kind::greatest: told.greatest = values.greatest; break;
    case livevec::kind::best:
        told.best_low = static_cast<std::uint64_t>(best);
        told.best_high = static_cast<std::int64_t>(best >> 64);
        break;
    case livevec::kind::affine:
        told.affine_a = a;
        told.affine_b = b;
        break;
    default: std::memcpy(told.automaton, states, sizeof states);
    }
    return told;
}

static bool same(const livevec_values &a, const livevec_values &b, livevec::kind kind)
{
    if (a.any != b.any)
        return false;
    switch (kind) {
    case livevec::kind::sum: return a.sum == b.sum;
    case livevec::kind::least: return a.least == b.least;
    case livevec::kind::greatest: return a.greatest == b.greatest;
    case livevec::kind::best: return a.best_low == b.best_low && a.best_high == b.best_high;
    case livevec::kind::affine: return a.affine_a == b.affine_a && a.affine_b == b.affine_b;
    default: return !std::memcmp(a.automaton, b.automaton, sizeof a.automaton);
    }
}

/* Edits of all forms; what was refused is in no receipt. */
static receipts feed(livevec::shared_vector &shared, std::uint64_t seed, int rounds)
{
    numbers next(seed);
    receipts all;
    for (int round = 0; round < rounds; round++) {
        const std::int64_t value = static_cast<std::int64_t>(next.below(2001)) - 1000;
        const std::uint32_t index = next.below(700), other = next.below(700);
        try {
            switch (next.below(12)) {
            case 0: {
                const livevec_edited it = shared.pop();
                all[it.edit] = {did::pop, it.value, 0, 0};
                break;
            }
            case 1: case 2: case 3: case 4: all[shared.write(index, value).edit] = {did::write, value, index, 0}; break;
            case 5: all[shared.swap_elements(index, other).edit] = {did::swap, 0, index, other}; break;
            case 6:
                if (next.below(40) == 0)
                    all[shared.truncate(index).edit] = {did::truncate, 0, index, 0};
                break;
            case 7: {
                const list many{value, 5, -value};
                const std::uint64_t last = shared.push_many(many);
                for (std::uint32_t i = 0; i < 3; i++)
                    all[last - 2 + i] = {did::push, many[i], 0, 0};
                break;
            }
            case 8: {
                const std::uint64_t last = shared.write_many(std::vector<std::uint32_t>{index, other}, list{value, 9});
                all[last - 1] = {did::write, value, index, 0};
                all[last] = {did::write, 9, other, 0};
                break;
            }
            case 9: {
                const auto [edit, pushed] = shared.with([](livevec::vector &of) {
                    const std::int64_t size = of.size();
                    IS(of.push(size) == size);
                    return std::pair(of.edits(), size);
                });
                all[edit] = {did::push, pushed, 0, 0};
                break;
            }
            default: all[shared.push(value).edit] = {did::push, value, 0, 0};
            }
        } catch (const livevec::refused &refused) {
            IS(refused.number() == LIVEVEC_EMPTY || refused.number() == LIVEVEC_OUT_OF_RANGE);
        }
    }
    return all;
}

/* Each note is the plain value at its edit, edits rise, and the last told are the values at the end. */
static void check_told(const std::vector<notes> &told, const std::map<std::string, query> &names, const receipts &all)
{
    list elements;
    std::uint32_t at = 0;
    auto next = all.begin();
    std::map<std::string, livevec_values> last;
    for (const auto &[name, of] : names)
        last[name] = plain(of, {});
    for (const notes &some : told) {
        IS(at < some[0].edit);
        for (at = some[0].edit; next != all.end() && next->first <= at; ++next)
            redo(elements, next->second);
        for (const livevec_note &note : some) {
            const query &of = names.at(note.name);
            IS(note.edit == at && note.kind == static_cast<std::uint32_t>(of.kind) && same(note.values, plain(of, elements), of.kind));
            IS(!same(note.values, last[note.name], of.kind));
            last[note.name] = note.values;
        }
    }
    for (; next != all.end(); ++next)
        redo(elements, next->second);
    for (const auto &[name, of] : names)
        IS(same(last[name], plain(of, elements), of.kind));
}

void nothing_is_lost()
{
    livevec::shared_vector shared;
    shared.start_workers(2);
    std::map<std::string, query> names[2];
    std::vector<notes> told[2];
    std::atomic<std::size_t> heard[2] = {};
    std::vector<std::thread> listeners, feeders;
    for (std::uint32_t who = 0; who < 2; who++) {
        numbers next(who + 3);
        livevec::queries asked;
        for (int i = 0; i < 16; i++) {
            const std::uint32_t lo = next.below(400);
            const query of{kinds[i % 6], lo, lo + 1 + next.below(500)};
            asked.watch("q" + std::to_string(i), of.kind, of.lo, of.hi);
            names[who]["q" + std::to_string(i)] = of;
        }
        livevec::subscriber alerts = shared.subscribe(std::move(asked));
        alerts.set_pause(std::chrono::microseconds(200 * who));
        listeners.emplace_back([&, who, alerts = std::move(alerts)]() mutable {
            while (auto some = alerts.next()) {
                told[who].push_back(*some);
                heard[who]++;
            }
        });
    }
    receipts parts[4];
    for (int i = 0; i < 4; i++)
        feeders.emplace_back([&, i] {
            parts[i] = feed(shared, 11 + static_cast<unsigned>(i), 2000);
            until([&] { return heard[0] > 0 && heard[1] > 0; });
            parts[i].merge(feed(shared, 21 + static_cast<unsigned>(i), 2000));
        });
    for (std::thread &feeder : feeders)
        feeder.join();
    const livevec::vector vector = shared.close();
    for (std::thread &listener : listeners)
        listener.join();

    receipts all;
    std::size_t count = 0;
    for (const receipts &part : parts) {
        all.insert(part.begin(), part.end());
        count += part.size();
    }
    IS(all.size() == count && vector.edits() == count && all.begin()->first == 1 && all.rbegin()->first == count);
    list elements;
    for (const auto &[edit, it] : all)
        redo(elements, it);
    IS(vector.elements() == elements);
    for (int who = 0; who < 2; who++) {
        IS(told[who].size() > 1);
        check_told(told[who], names[who], all);
    }
}
