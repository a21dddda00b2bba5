// Least extra drives by the method of the crate join, where the class of a crossing is searched for anew at each stage.
#pragma once
#include <algorithm>
#include <bitset>
#include <cstdint>
#include <limits>
#include <optional>
#include <queue>
#include <tuple>
#include <utility>
#include <vector>
#include "town.hpp"

using Drives = std::bitset<300>;
using Marks = std::vector<char>;
using Numbers = std::vector<int64_t>;

// A class that is charged, with the lengths and potentials before the charge.
struct Stage {
    Marks marks;
    int64_t charge;
    int base;
    Numbers lengths, potential;
};

// Extra drives for a crossing.
struct Found {
    int crossing;
    Drives drives;
};

// A street out of a set of crossings, with its ends.
struct Exit {
    int street, inner, outer;
};

class Search {
  public:
    uint64_t passes = 0, turns = 0;
    Numbers price;
    std::vector<Drives> extra;
    std::vector<Stage> stages;

    explicit Search(const Town &town) : town(town), count(town.streets.size()) {
        for (const Street &street : town.streets) costs.push_back(2 * street.length);
    }

    void run() {
        start();
        for (std::optional<Found> found = pass(); found; found = pass()) {
            price[found->crossing] = cost(found->drives, costs);
            extra[found->crossing] = found->drives;
            relax();
        }
    }

    // Whether the drives make every crossing even, cost what the depot's price says, and the stages that do not hold the depot show it.
    bool is_certified() const {
        return is_even() && cost(extra[town.depot], costs) == price[town.depot] && charges() == price[town.depot] && is_sheet();
    }

  private:
    static constexpr int64_t far = std::numeric_limits<int64_t>::max() / 4;
    const Town &town;
    const int count;
    Numbers costs;
    Marks reached;

    int64_t cost(const Drives &drives, const Numbers &lengths) const {
        int64_t sum = 0;
        for (int k = 0; k < count; k++)
            if (drives[k]) sum += lengths[k];
        return sum;
    }

    bool cuts(const Marks &marks, int k) const { return marks[town.streets[k].one] != marks[town.streets[k].two]; }

    Exit exit_at(const Marks &marks, int k) const {
        const Street &street = town.streets[k];
        int inner = marks[street.one] ? street.one : street.two;
        return {k, inner, street.other(inner)};
    }

    int outs(const Drives &drives, const Marks &marks) const {
        int n = 0;
        for (int k = 0; k < count; k++) n += drives[k] && cuts(marks, k);
        return n;
    }

    // The crossings that can be come to over allowed streets.
    template <class Allowed> Marks reach(int from, Allowed allowed) const {
        Marks marks(town.crossings, 0);
        std::vector<int> left{from};
        marks[from] = 1;
        while (!left.empty()) {
            int here = left.back();
            left.pop_back();
            for (int k = 0; k < count; k++) {
                const Street &street = town.streets[k];
                if (!allowed(k) || (street.one != here && street.two != here)) continue;
                int next = street.other(here);
                if (marks[next]) continue;
                marks[next] = 1;
                left.push_back(next);
            }
        }
        return marks;
    }

    // A way over allowed streets to a crossing that can be come to.
    template <class Allowed> Drives path(int from, int to, Allowed allowed) const {
        std::vector<int> by(town.crossings, -1), before(town.crossings, -1);
        Marks marks(town.crossings, 0);
        std::queue<int> left;
        left.push(from);
        marks[from] = 1;
        while (!left.empty() && left.front() != to) {
            int here = left.front();
            left.pop();
            for (int k = 0; k < count; k++) {
                const Street &street = town.streets[k];
                if (!allowed(k) || (street.one != here && street.two != here)) continue;
                int next = street.other(here);
                if (marks[next]) continue;
                marks[next] = 1;
                by[next] = k;
                before[next] = here;
                left.push(next);
            }
        }
        Drives drives;
        for (int v = to; v != from; v = before[v]) drives.flip(by[v]);
        return drives;
    }

    // A set that goes on from its crossing to an end inside of a street out, and over the street.
    template <class Allowed> Drives lead_on(const Drives &drives, int from, const Exit &exit, Allowed allowed) const {
        Drives on = drives ^ path(from, exit.inner, allowed);
        return on.flip(exit.street);
    }

    bool relax_over(int k, int x, int y) {
        int64_t sum = price[x] + (extra[x][k] ? -costs[k] : costs[k]);
        if (sum >= price[y]) return false;
        price[y] = sum;
        extra[y] = extra[x];
        extra[y].flip(k);
        return true;
    }

    // Comes over streets until no price gets lower.
    void relax() {
        for (bool more = true; more;) {
            more = false;
            for (int k = 0; k < count; k++) {
                const Street &street = town.streets[k];
                if (street.one == street.two) continue;
                bool there = relax_over(k, street.one, street.two);
                bool back = relax_over(k, street.two, street.one);
                more = more || there || back;
            }
        }
    }

    struct Distances {
        Numbers length;
        std::vector<int> by;
    };

    Distances distances(int from) const {
        Distances out{Numbers(town.crossings, far), std::vector<int>(town.crossings, -1)};
        Marks done(town.crossings, 0);
        out.length[from] = 0;
        while (true) {
            int here = -1;
            for (int v = 0; v < town.crossings; v++)
                if (!done[v] && out.length[v] < far && (here < 0 || out.length[v] < out.length[here])) here = v;
            if (here < 0) return out;
            done[here] = 1;
            for (int k = 0; k < count; k++) {
                const Street &street = town.streets[k];
                if (street.one == street.two || (street.one != here && street.two != here)) continue;
                int next = street.other(here);
                if (out.length[here] + costs[k] >= out.length[next]) continue;
                out.length[next] = out.length[here] + costs[k];
                out.by[next] = k;
            }
        }
    }

    struct Pair {
        int64_t length;
        int one, two;
        bool operator<(const Pair &other) const { return std::tie(length, one, two) < std::tie(other.length, other.one, other.two); }
    };

    std::vector<int> odd_crossings() const {
        std::vector<int> ends(town.crossings, 0), odd;
        for (const Street &street : town.streets) ends[street.one]++, ends[street.two]++;
        for (int v = 0; v < town.crossings; v++)
            if (ends[v] % 2) odd.push_back(v);
        return odd;
    }

    // The odd crossings joined in pairs along shortest ways, the nearest pair first.
    Drives pair_off() const {
        std::vector<Distances> from;
        for (int v = 0; v < town.crossings; v++) from.push_back(distances(v));
        std::vector<Pair> pairs;
        for (int one : odd_crossings())
            for (int two : odd_crossings())
                if (one < two) pairs.push_back({from[one].length[two], one, two});
        std::sort(pairs.begin(), pairs.end());
        Drives drives;
        Marks joined(town.crossings, 0);
        for (const Pair &pair : pairs) {
            if (joined[pair.one] || joined[pair.two]) continue;
            joined[pair.one] = joined[pair.two] = 1;
            for (int v = pair.two; v != pair.one;) {
                int k = from[pair.one].by[v];
                drives.flip(k);
                v = town.streets[k].other(v);
            }
        }
        return drives;
    }

    void start() {
        reached = reach(town.depot, [](int) { return true; });
        extra.assign(town.crossings, Drives());
        price.assign(town.crossings, far);
        extra[town.depot] = pair_off();
        price[town.depot] = cost(extra[town.depot], costs);
        relax();
    }

    // A street of drives that differ, out of the class, with another that leads to the same crossings outside.
    std::optional<std::pair<Exit, Exit>> circuit(const Drives &differ, const Marks &marks) const {
        auto outside = [&](int k) { return differ[k] && !marks[town.streets[k].one] && !marks[town.streets[k].two]; };
        for (int k = 0; k < count; k++) {
            if (!differ[k] || !cuts(marks, k)) continue;
            Exit out = exit_at(marks, k);
            Marks there = reach(out.outer, outside);
            for (int j = 0; j < count; j++) {
                if (j == k || !differ[j] || !cuts(marks, j)) continue;
                Exit back = exit_at(marks, j);
                if (there[back.outer]) return std::make_pair(out, back);
            }
        }
        return std::nullopt;
    }

    // Carries cheaper drives down over one stage.
    Found carry(const Stage &stage, Found found) const {
        auto zero = [&](int k) { return stage.lengths[k] == 0; };
        while (outs(found.drives, stage.marks) > (stage.marks[found.crossing] ? 0 : 1)) {
            Drives differ = found.drives ^ extra[stage.base];
            auto outside = [&](int k) { return differ[k] && !stage.marks[town.streets[k].one] && !stage.marks[town.streets[k].two]; };
            auto [out, back] = circuit(differ, stage.marks).value();
            Drives round = path(out.outer, back.outer, outside) ^ path(out.inner, back.inner, zero);
            round.flip(out.street).flip(back.street);
            Drives turned = extra[stage.base] ^ round;
            if (cost(turned, stage.lengths) < stage.potential[stage.base] + 2 * stage.charge)
                found = {out.outer, lead_on(turned, stage.base, out, zero)};
            else
                found.drives ^= round;
        }
        return found;
    }

    Found descend(Found found) const {
        for (size_t i = stages.size(); i-- > 0;) found = carry(stages[i], found);
        return found;
    }

    int least(const Numbers &potential) const {
        int base = -1;
        for (int u = 0; u < town.crossings; u++)
            if (reached[u] && (base < 0 || potential[u] < potential[base])) base = u;
        return base;
    }

    // Cheaper drives for some crossing; or none, and then the stages show that all prices are least.
    std::optional<Found> pass() {
        passes++;
        stages.clear();
        Numbers lengths = costs, potential = price;
        auto zero = [&](int k) { return lengths[k] == 0; };
        while (true) {
            int base = least(potential);
            Marks marks = reach(base, zero);
            const Drives &drives = extra[base];
            if (cost(drives, lengths) < potential[base]) return descend({base, drives});
            int64_t slack = far;
            std::optional<Exit> driven;
            for (int k = 0; k < count; k++) {
                if (!cuts(marks, k)) continue;
                Exit exit = exit_at(marks, k);
                if (drives[k]) driven = exit;
                slack = std::min(slack, potential[exit.outer] + lengths[k] - potential[exit.inner]);
            }
            if (driven) return descend({driven->outer, lead_on(drives, base, *driven, zero)});
            if (slack == far) return look_inside(base, lengths);
            stages.push_back({marks, slack / 2, base, lengths, potential});
            turns++;
            for (int k = 0; k < count; k++)
                if (cuts(marks, k)) lengths[k] -= slack / 2;
            for (int u = 0; u < town.crossings; u++)
                if (reached[u] && !marks[u]) potential[u] -= slack / 2;
        }
    }

    // Where no street leads out of the class: drives round over a street that has a length are cheaper.
    std::optional<Found> look_inside(int base, const Numbers &lengths) const {
        auto zero = [&](int k) { return lengths[k] == 0; };
        for (int k = 0; k < count; k++) {
            if (!extra[base][k] || lengths[k] == 0) continue;
            Drives drives = extra[base] ^ path(town.streets[k].one, town.streets[k].two, zero);
            return descend({base, drives.flip(k)});
        }
        return std::nullopt;
    }

    bool is_even() const {
        Numbers ends(town.crossings, 0);
        for (int k = 0; k < count; k++) {
            ends[town.streets[k].one] += 1 + extra[town.depot][k];
            ends[town.streets[k].two] += 1 + extra[town.depot][k];
        }
        return std::all_of(ends.begin(), ends.end(), [](int64_t n) { return n % 2 == 0; });
    }

    bool is_part(const Stage &stage) const { return !stage.marks[town.depot]; }

    int64_t charges() const {
        int64_t sum = 0;
        for (const Stage &stage : stages)
            if (is_part(stage)) sum += stage.charge;
        return sum;
    }

    // Whether an odd number of streets lead out of each part, and no street bears more than it costs.
    bool is_sheet() const {
        Numbers left = costs;
        for (const Stage &stage : stages) {
            if (!is_part(stage)) continue;
            int n = 0;
            for (int k = 0; k < count; k++) {
                if (!cuts(stage.marks, k)) continue;
                n++;
                left[k] -= stage.charge;
            }
            if (n % 2 == 0) return false;
        }
        return std::all_of(left.begin(), left.end(), [](int64_t n) { return n >= 0; });
    }
};
