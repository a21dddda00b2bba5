// Towns as numbers, and the kinds of towns that the benchmark runs on.
#pragma once
#include <cstdint>
#include <random>
#include <string>
#include <vector>

struct Street {
    int one, two;
    int64_t length;
    int other(int end) const { return one ^ two ^ end; }
};

struct Town {
    int crossings, depot;
    std::vector<Street> streets;
};

struct Kind {
    std::string name;
    enum Plan { random, grid, ladder } plan;
    int64_t shortest, longest;
};

inline const std::vector<Kind> kinds = {
    {"random", Kind::random, 0, 1000},
    {"grid", Kind::grid, 0, 1000},
    {"ladder, nearly equal", Kind::ladder, 1000, 1009},
    {"lengths to 100,000", Kind::random, 0, 100000},
    {"lengths 0 and 1", Kind::random, 0, 1},
};

class TownMaker {
  public:
    explicit TownMaker(uint64_t seed) : numbers(seed) {}

    // A town in one piece, of 100 crossings or of another even number of them.
    Town make(const Kind &kind, size_t streets, int crossings = 100) {
        town = {crossings, below(crossings), {}};
        switch (kind.plan) {
            case Kind::random: lay_tree(); break;
            case Kind::grid: lay_grid(); break;
            case Kind::ladder: lay_ladder(); break;
        }
        while (town.streets.size() < streets) lay_one_more(kind.plan);
        for (Street &street : town.streets) street.length = kind.shortest + below(kind.longest - kind.shortest + 1);
        return town;
    }

  private:
    std::mt19937_64 numbers;
    Town town;

    int below(int64_t n) { return numbers() % n; }
    void lay(int one, int two) { town.streets.push_back({one, two, 0}); }

    void lay_tree() {
        for (int i = 1; i < town.crossings; i++) lay(i, below(i));
    }

    // How many crossings a row of a grid has: 10 of 100, and as near to a square as can be.
    int row() const {
        int wide = 1;
        for (int i = 2; i * i <= town.crossings; i++)
            if (town.crossings % i == 0) wide = i;
        return wide;
    }

    // Rows of crossings.
    void lay_grid() {
        const int wide = row();
        for (int i = 0; i < town.crossings; i++) {
            if (i % wide < wide - 1) lay(i, i + 1);
            if (i + wide < town.crossings) lay(i, i + wide);
        }
    }

    // Rungs between two sides.
    void lay_ladder() {
        const int rungs = town.crossings / 2;
        for (int i = 0; i < rungs; i++) {
            lay(2 * i, 2 * i + 1);
            if (i < rungs - 1) lay(2 * i, 2 * i + 2);
            if (i < rungs - 1) lay(2 * i + 1, 2 * i + 3);
        }
    }

    // A diagonal of a grid; elsewhere a street between any two crossings.
    void lay_one_more(Kind::Plan plan) {
        if (plan == Kind::grid) {
            const int wide = row(), rows = town.crossings / wide;
            int corner = wide * below(rows - 1) + below(wide - 1);
            lay(corner, corner + wide + 1);
        } else {
            int one = below(town.crossings);
            lay(one, below(town.crossings));
        }
    }
};
