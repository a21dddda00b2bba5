// Extra drives by a table of parities: street after street, the least length for each way in which the open crossings can be odd. No pairing, no distances.
#pragma once
#include <algorithm>
#include <cstdint>
#include <limits>
#include <optional>
#include <utility>
#include <vector>
#include "../planner/town.hpp"

// A crossing is open from its first street to its last. With n open at once the table has 2^n places, so it is made only where no more than a limit are.
class Parities {
  public:
    static constexpr int limit = 16;

    explicit Parities(const Town &town) : town(town), is_odd(town.crossings, 0), at(town.crossings) {
        for (size_t k = 0; k < town.streets.size(); k++) {
            const Street &street = town.streets[k];
            if (street.one == street.two) continue;
            for (int end : {street.one, street.two}) {
                is_odd[end] ^= 1;
                at[end].push_back(k);
            }
        }
    }

    // The length of a shortest round, if no more crossings than the limit are open at once.
    std::optional<int64_t> run() {
        const std::optional<std::vector<int>> order = closing_order();
        if (!order) return std::nullopt;
        place.assign(town.crossings, -1);
        used.assign(town.streets.size(), 0);
        least = {0};
        for (int v : *order) close(v);
        int64_t all = least[0];
        for (const Street &street : town.streets) all += street.length;
        return all;
    }

  private:
    static constexpr int64_t far = std::numeric_limits<int64_t>::max() / 4;
    const Town &town;
    std::vector<char> is_odd, used;
    std::vector<std::vector<int>> at;
    std::vector<int> open, place;  // the open crossings in the order of their bits, and the bit of each
    std::vector<int64_t> least;    // by the parities of the open crossings

    // Closes next the crossing that opens the fewest others.
    std::optional<std::vector<int>> closing_order() const {
        std::vector<char> is_open(town.crossings, 0), is_closed(town.crossings, 0);
        std::vector<int> order;
        int width = 0;
        for (int i = 0; i < town.crossings; i++) {
            int best = -1, fewest = town.crossings + 1;
            for (int v = 0; v < town.crossings; v++) {
                if (is_closed[v]) continue;
                const int more = opened_by(v, is_open) - is_open[v];
                if (more < fewest) {
                    fewest = more;
                    best = v;
                }
            }
            width += opened_by(best, is_open);
            if (width > limit) return std::nullopt;
            mark_open(best, is_open);
            is_closed[best] = 1;
            width--;
            order.push_back(best);
        }
        return order;
    }

    int opened_by(int v, const std::vector<char> &is_open) const {
        std::vector<int> fresh;
        if (!is_open[v]) fresh.push_back(v);
        for (int k : at[v]) {
            const int w = town.streets[k].other(v);
            if (!is_open[w] && std::find(fresh.begin(), fresh.end(), w) == fresh.end()) fresh.push_back(w);
        }
        return fresh.size();
    }

    void mark_open(int v, std::vector<char> &is_open) const {
        is_open[v] = 1;
        for (int k : at[v]) is_open[town.streets[k].other(v)] = 1;
    }

    void close(int v) {
        open_up(v);
        for (int k : at[v]) {
            if (used[k]) continue;
            used[k] = 1;
            open_up(town.streets[k].other(v));
            drive(k);
        }
        settle(v);
    }

    // One bit more, which is even as yet.
    void open_up(int v) {
        if (place[v] >= 0) return;
        place[v] = open.size();
        open.push_back(v);
        least.resize(2 * least.size(), far);
    }

    // A street is driven once more, or not.
    void drive(int k) {
        const Street &street = town.streets[k];
        const size_t first = size_t(1) << place[street.one], both = first | size_t(1) << place[street.two];
        for (size_t s = 0; s < least.size(); s++) {
            if (s & first) continue;
            int64_t &one = least[s], &other = least[s ^ both];
            const int64_t a = std::min(one, other + street.length), b = std::min(other, one + street.length);
            one = a;
            other = b;
        }
    }

    // All of a crossing's streets are done: its parity has to be right, and the last open crossing gets its bit.
    void settle(int v) {
        const int bit = place[v], last = open.size() - 1;
        const size_t half = least.size() / 2, low = size_t(1) << bit, wanted = is_odd[v] ? low : 0;
        std::vector<int64_t> left(half);
        for (size_t s = 0; s < half; s++) {
            const size_t moved = bit == last ? s : (s & ~low) | (s & low ? size_t(1) << last : 0);
            left[s] = least[moved | wanted];
        }
        least = std::move(left);
        open[bit] = open[last];
        place[open[bit]] = bit;
        open.pop_back();
        place[v] = -2;
    }
};
