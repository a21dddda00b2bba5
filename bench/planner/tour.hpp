// The tour of a town by the method of the crate round, to tell how deep its calls go, and the town where they go deepest.
#pragma once
#include <algorithm>
#include <cstdint>
#include <optional>
#include <vector>
#include "town.hpp"

// The tour of a town where an even number of streets meets at each crossing, as numbers of legs.
class Tour {
  public:
    std::vector<uint64_t> legs;
    int depth = 0;

    explicit Tour(const Town &town) : town(town), left(town.streets.size(), true) { close(town.depot, 1); }

  private:
    const Town &town;
    std::vector<bool> left;

    struct Leg {
        size_t by;
        bool back;
    };

    int begin_of(const Leg &leg) const { return leg.back ? town.streets[leg.by].two : town.streets[leg.by].one; }

    std::optional<Leg> next(int at) const {
        for (size_t k = 0; k < left.size(); k++) {
            if (!left[k]) continue;
            if (town.streets[k].one == at) return Leg{k, false};
            if (town.streets[k].two == at) return Leg{k, true};
        }
        return std::nullopt;
    }

    std::vector<Leg> walk(int at) {
        std::vector<Leg> walked;
        while (std::optional<Leg> leg = next(at)) {
            left[leg->by] = false;
            walked.push_back(*leg);
            at = town.streets[leg->by].other(at);
        }
        return walked;
    }

    void close(int start, int calls) {
        depth = std::max(depth, calls);
        for (const Leg &leg : walk(start)) {
            close(begin_of(leg), calls + 1);
            legs.push_back(2 * leg.by + leg.back);
        }
    }
};

// 100 crossings in a row with two streets from each to the next, and 102 streets from a crossing to itself, at least one at each:
// a walk from a crossing goes to the next one and back, so the tour has a call for each crossing inside that for the one before.
// No town takes more calls, since a walk leaves no street at its start.
inline Town deepest_town() {
    Town town{100, 0, {}};
    for (int i = 0; i < 198; i++) town.streets.push_back({i / 2, i / 2 + 1, 1000});
    for (int i = 0; i < 102; i++) town.streets.push_back({std::min(i, 99), std::min(i, 99), 1000});
    return town;
}
