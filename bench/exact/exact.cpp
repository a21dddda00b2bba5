// Towns of 20 to 100 crossings: whole plans beside three other exact planners, written for this benchmark. All lengths have to be the same.
#include <sys/resource.h>
#include <sys/wait.h>
#include <unistd.h>
#include <algorithm>
#include <cmath>
#include <cstdint>
#include <cstdio>
#include <cstring>
#include <functional>
#include <optional>
#include <string>
#include <vector>
#include "../planner/planner.hpp"
#include "../planner/times.hpp"
#include "../planner/town.hpp"
#include "pairing.hpp"
#include "parities.hpp"
#include "street_ends.hpp"

namespace {

constexpr uint64_t towns = 15;
const std::vector<int> sizes = {20, 40, 60, 80, 100};
// Streets for ten crossings.
const std::vector<int> densities = {18, 30};

// A planner gives the length of a shortest round, or none if the town is too much for it.
struct Planner {
    std::string name;
    std::function<std::optional<int64_t>(const Town &)> length;
};

std::optional<int64_t> planned(const Town &town) { return plan(town).length; }

const std::vector<Planner> planners = {
    {"planner", planned},
    {"classical", [](const Town &town) { return std::optional(Classical(town).run()); }},
    {"street ends", [](const Town &town) { return std::optional(StreetEnds(town).run()); }},
    {"parities", [](const Town &town) { return Parities(town).run(); }},
};

// Towns of one kind, with so many crossings and streets.
struct Group {
    Kind kind;
    int crossings;
    size_t streets;

    Town town(uint64_t seed) const { return TownMaker(seed).make(kind, streets, crossings); }
    std::string name() const { return kind.plan == Kind::grid && densities.back() * crossings == 10 * (int)streets ? "grid with diagonals" : kind.name; }
};

std::vector<Group> groups_of(const Kind &kind, int density) {
    std::vector<Group> out;
    for (int crossings : sizes) out.push_back({kind, crossings, size_t(crossings * density / 10)});
    return out;
}

std::vector<Group> all_groups() {
    std::vector<Group> out;
    for (int density : densities)
        for (const Kind &kind : kinds)
            for (const Group &group : groups_of(kind, density)) out.push_back(group);
    return out;
}

struct Times {
    std::vector<double> took;

    double middle() const { return took.empty() ? HUGE_VAL : median(took); }
    double most() const { return took.empty() ? HUGE_VAL : worst(took); }

    void add(const Times &other) { took.insert(took.end(), other.took.begin(), other.took.end()); }

    std::string cell(size_t of) const {
        if (took.empty()) return "not run";
        char text[80];
        int n = std::snprintf(text, sizeof text, "%.3f, worst %.3f", middle(), most());
        if (took.size() < of) std::snprintf(text + n, sizeof text - n, " (%zu of %zu)", took.size(), of);
        return text;
    }
};

struct Row {
    std::vector<Times> times{planners.size()};
    std::vector<double> passes;

    // Whether all planners that run find the same length.
    bool measure(const Group &group, uint64_t seed) {
        const Town town = group.town(seed);
        std::vector<std::optional<int64_t>> lengths(planners.size());
        for (size_t i = 0; i < planners.size(); i++) {
            const double took = median_time([&] { lengths[i] = planners[i].length(town); });
            if (lengths[i]) times[i].took.push_back(took);
        }
        passes.push_back(in_rattle(town).passes);
        return agree(lengths, group, seed);
    }

    static bool agree(const std::vector<std::optional<int64_t>> &lengths, const Group &group, uint64_t seed) {
        bool same = true;
        for (const auto &length : lengths) same = same && (!length || length == lengths[0]);
        if (same) return true;
        std::printf("%s, %d crossings, %zu streets, town %d:", group.name().c_str(), group.crossings, group.streets, (int)seed);
        for (size_t i = 0; i < planners.size(); i++) std::printf(" %s %lld", planners[i].name.c_str(), (long long)lengths[i].value_or(-1));
        std::printf("\n");
        return false;
    }

    void add(const Row &other) {
        for (size_t i = 0; i < times.size(); i++) times[i].add(other.times[i]);
    }

    // The planner to the best of those that ran in all towns.
    template <class What> double ratio(size_t of, What what) const {
        double best = HUGE_VAL;
        for (size_t i = 1; i < times.size(); i++)
            if (times[i].took.size() == of) best = std::min(best, what(times[i]));
        return what(times[0]) / best;
    }

    void print_times() const {
        const size_t of = times[0].took.size();
        for (const Times &time : times) std::printf(" %s |", time.cell(of).c_str());
        std::printf(" %.1f, worst %.1f |", ratio(of, [](const Times &t) { return t.middle(); }), ratio(of, [](const Times &t) { return t.most(); }));
    }
};

void print_line(const std::vector<std::string> &cells) {
    for (const std::string &cell : cells) std::printf("| %s ", cell.c_str());
    std::printf("|\n");
    for (size_t i = 0; i < cells.size(); i++) std::printf("|---");
    std::printf("|\n");
}

std::vector<std::string> time_heads() { return {"Planner, ms", "Classical, ms", "Street ends, ms", "Parities, ms", "Ratio"}; }

std::vector<std::string> heads(std::vector<std::string> first, const std::vector<std::string> &last) {
    for (const std::string &head : time_heads()) first.push_back(head);
    first.insert(first.end(), last.begin(), last.end());
    return first;
}

// The most memory of a process that runs one planner on all towns of a size, in megabytes.
double memory(const Planner &planner, int crossings) {
    const pid_t child = fork();
    if (child == 0) {
        for (const Group &group : all_groups())
            for (uint64_t seed = 1; group.crossings == crossings && seed <= towns; seed++) planner.length(group.town(seed));
        _exit(0);
    }
    int status;
    rusage used{};
    wait4(child, &status, 0, &used);
    return used.ru_maxrss / 1024.0;
}

using Memory = std::vector<std::vector<double>>;

Memory memory_of_all() {
    Memory out;
    for (int crossings : sizes) {
        out.emplace_back();
        for (const Planner &planner : planners) out.back().push_back(memory(planner, crossings));
    }
    return out;
}

void print_row(const Group &group, const Row &row) {
    std::printf("| %s | %d | %zu |", group.name().c_str(), group.crossings, group.streets);
    row.print_times();
    std::printf(" %.1f, most %.0f |\n", mean(row.passes), worst(row.passes));
    std::fflush(stdout);
}

// Towns of one size of all kinds together, with the memory.
void print_size(int crossings, const Row &row, const std::vector<double> &memory) {
    std::printf("| %d |", crossings);
    row.print_times();
    for (double megabytes : memory) std::printf(" %.1f |", megabytes);
    std::printf("\n");
}

int compare_all() {
    const Memory used = memory_of_all();
    std::vector<Row> by_size(sizes.size());
    print_line(heads({"Towns", "Crossings", "Streets"}, {"Passes"}));
    for (const Group &group : all_groups()) {
        Row row;
        for (uint64_t seed = 1; seed <= towns; seed++)
            if (!row.measure(group, seed)) return 1;
        print_row(group, row);
        by_size[std::find(sizes.begin(), sizes.end(), group.crossings) - sizes.begin()].add(row);
    }
    std::printf("\n");
    print_line(heads({"Crossings"}, {"Planner, MB", "Classical, MB", "Street ends, MB", "Parities, MB"}));
    for (size_t i = 0; i < sizes.size(); i++) print_size(sizes[i], by_size[i], used[i]);
    return 0;
}

// A line for each of the first towns of each group: the length of a shortest round, and then the ends and the length of each street.
int print_towns() {
    for (const Group &group : all_groups())
        for (uint64_t seed = 1; seed <= 2; seed++) {
            const Town town = group.town(seed);
            std::printf("%llu", (unsigned long long)plan(town).length);
            for (const Street &street : town.streets) std::printf(" %d %d %lld", street.one, street.two, (long long)street.length);
            std::printf("\n");
        }
    return 0;
}

}  // namespace

int main(int count, char **words) { return count > 1 && std::strcmp(words[1], "--towns") == 0 ? print_towns() : compare_all(); }
