// Towns of 100 crossings: least extra drives beside the same method in C++, whole plans beside least extra drives alone, and the deepest tour.
#include <algorithm>
#include <cstdint>
#include <cstdio>
#include <optional>
#include <vector>
#include "planner.hpp"
#include "search.hpp"
#include "small_stack.hpp"
#include "times.hpp"
#include "tour.hpp"
#include "town.hpp"

namespace {

constexpr uint64_t towns = 20;

Effort in_cpp(const Town &town) {
    Search search(town);
    search.run();
    return {search.price[town.depot], search.passes, search.turns, search.stages.size()};
}

bool is_certified(const Town &town) {
    Search search(town);
    search.run();
    return search.is_certified();
}

// What the towns of a kind took.
struct Column {
    std::vector<double> times, passes, turns;

    template <class Method> int64_t add(const Town &town, Method method) {
        Effort effort;
        times.push_back(median_time([&] { effort = method(town); }));
        passes.push_back(effort.passes);
        turns.push_back(effort.turns);
        return effort.price;
    }

    void print_effort(const char *name) const {
        std::printf("    %s: passes %.1f, at most %.0f; stages %.0f, at most %.0f\n", name, mean(passes), worst(passes), mean(turns), worst(turns));
    }
};

bool compare(const Kind &kind, size_t streets) {
    Column here, there;
    for (uint64_t seed = 1; seed <= towns; seed++) {
        const Town town = TownMaker(seed).make(kind, streets);
        int64_t price = here.add(town, in_rattle), other = there.add(town, in_cpp);
        if (price != other || !is_certified(town)) {
            std::printf("%s, %zu streets, town %llu: the prices are %lld and %lld\n", kind.name.c_str(), streets, (unsigned long long)seed,
                        (long long)price, (long long)other);
            return false;
        }
    }
    std::printf("%s, %zu streets: median %.2f ms, C++ %.2f ms, ratio %.3f; worst %.2f ms, C++ %.2f ms, ratio %.3f\n", kind.name.c_str(), streets,
                median(here.times), median(there.times), median(here.times) / median(there.times), worst(here.times), worst(there.times),
                worst(here.times) / worst(there.times));
    here.print_effort("join");
    there.print_effort("C++ ");
    return true;
}

uint64_t all_streets(const Town &town) {
    uint64_t sum = 0;
    for (const Street &street : town.streets) sum += street.length;
    return sum;
}

// How long whole plans take beside least extra drives alone, without the check of the town;
// none if a town is refused or a round has not the length of all streets and the extra drives.
std::optional<double> compare_plans(const Kind &kind, size_t streets) {
    std::vector<double> whole, alone;
    for (uint64_t seed = 1; seed <= towns; seed++) {
        const Town town = TownMaker(seed).make(kind, streets);
        bool sound;
        Effort effort;
        Planned planned;
        const double checked = median_time([&] { sound = check(town); });
        alone.push_back(median_time([&] { effort = in_rattle(town); }) - checked);
        whole.push_back(median_time([&] { planned = plan(town); }));
        if (!sound || planned.length != all_streets(town) + effort.price / 2) {
            std::printf("%s, %zu streets, town %llu: the round has length %llu\n", kind.name.c_str(), streets, (unsigned long long)seed,
                        (unsigned long long)planned.length);
            return std::nullopt;
        }
    }
    const double ratio = median(whole) / median(alone);
    std::printf("    whole plan: median %.2f ms, LeastDrives::new alone %.2f ms, ratio %.3f\n", median(whole), median(alone), ratio);
    return ratio;
}

template <class Each> bool each_kind(Each each) {
    for (size_t streets : {180, 300})
        for (const Kind &kind : kinds)
            if (!each(kind, streets)) return false;
    return true;
}

bool plan_towns(const Kind &kind, size_t streets) {
    for (uint64_t seed = 1; seed <= towns; seed++) plan(TownMaker(seed).make(kind, streets));
    return true;
}

bool compare_all() {
    double most = 0;
    const bool agree = each_kind([&](const Kind &kind, size_t streets) {
        if (!compare(kind, streets)) return false;
        const std::optional<double> ratio = compare_plans(kind, streets);
        most = std::max(most, ratio.value_or(0));
        return ratio.has_value();
    });
    if (agree) std::printf("whole plan to LeastDrives::new alone: ratio at most %.3f\n", most);
    return agree;
}

// Plans the town of the deepest tour on a small stack; whether the legs are those of the tour whose depth is printed.
bool plan_deepest() {
    const Town town = deepest_town();
    const Tour tour(town);
    Planned planned;
    const size_t taken = stack_taken([&] { planned = plan(town); });
    if (planned.legs != tour.legs.size() || !std::equal(tour.legs.begin(), tour.legs.end(), legs.begin())) {
        std::printf("the deepest tour has other legs\n");
        return false;
    }
    std::printf("deepest tour, %zu streets: went through, %d calls in one another, %zu KiB of a stack of %zu KiB\n", town.streets.size(), tour.depth,
                (taken + 1023) / 1024, stack_size / 1024);
    return true;
}

}  // namespace

int main() {
    each_kind(plan_towns);
    const double memory = peak_memory();
    if (!compare_all() || !plan_deepest()) return 1;
    std::printf("plans of all towns: at most %.1f MB\n", memory);
}
