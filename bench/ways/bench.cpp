// All distances of a town of 100 crossings and 300 streets: the crate ways beside the same method in C++.
#include <algorithm>
#include <chrono>
#include <cstdint>
#include <cstdio>
#include <optional>
#include <vector>

extern "C" uint64_t all_distances(uint64_t crossings, const uint64_t *numbers, size_t count);

namespace {

struct Street { size_t one, two; uint64_t length; };
struct Leg { size_t by; bool back; };
struct Way { uint64_t length; std::vector<Leg> legs; };
using Ways = std::vector<std::optional<Way>>;

// Comes over a leg if that is shorter, and says whether it is.
bool come_over(const std::vector<Street> &streets, Ways &ways, Leg leg) {
    const Street &s = streets[leg.by];
    const std::optional<Way> &from = ways[leg.back ? s.two : s.one];
    std::optional<Way> &to = ways[leg.back ? s.one : s.two];
    if (!from) return false;
    uint64_t length = from->length + s.length;
    if (to && length >= to->length) return false;
    Way longer{length, from->legs};
    longer.legs.push_back(leg);
    to = std::move(longer);
    return true;
}

Ways ways_from(const std::vector<Street> &streets, size_t crossings, size_t start) {
    Ways ways(crossings);
    ways[start] = Way{0, {}};
    for (bool more = true; more;) {
        more = false;
        for (size_t k = 0; k < streets.size(); k++) {
            bool there = come_over(streets, ways, Leg{k, false});
            bool back = come_over(streets, ways, Leg{k, true});
            more = more || there || back;
        }
    }
    return ways;
}

uint64_t all_in_cpp(uint64_t crossings, const std::vector<uint64_t> &numbers) {
    std::vector<Street> streets;
    for (size_t i = 0; i + 2 < numbers.size(); i += 3) streets.push_back({numbers[i], numbers[i + 1], numbers[i + 2]});
    uint64_t sum = 0;
    for (size_t start = 0; start < crossings; start++)
        for (const auto &way : ways_from(streets, crossings, start))
            if (way) sum += way->length;
    return sum;
}

// A road through all crossings, and streets between any two.
std::vector<uint64_t> town() {
    uint64_t seed = 1;
    auto below = [&](uint64_t n) { return ((seed = seed * 6364136223846793005u + 1442695040888963407u) >> 33) % n; };
    std::vector<uint64_t> numbers;
    for (uint64_t k = 0; k < 300; k++) {
        numbers.push_back(k < 99 ? k : below(100));
        numbers.push_back(k < 99 ? k + 1 : below(100));
        numbers.push_back(below(1000));
    }
    return numbers;
}

template <class F> double milliseconds(F f) {
    auto begin = std::chrono::steady_clock::now();
    f();
    return std::chrono::duration<double, std::milli>(std::chrono::steady_clock::now() - begin).count();
}

double median(std::vector<double> xs) {
    std::sort(xs.begin(), xs.end());
    return xs[xs.size() / 2];
}

}  // namespace

int main() {
    const std::vector<uint64_t> numbers = town();
    uint64_t here = 0, there = 0;
    std::vector<double> rattle, cpp;
    for (int i = 0; i < 101; i++) {
        rattle.push_back(milliseconds([&] { here = all_distances(100, numbers.data(), numbers.size()); }));
        cpp.push_back(milliseconds([&] { there = all_in_cpp(100, numbers); }));
    }
    if (here != there || here == 0) {
        std::printf("the sums differ: %llu and %llu\n", (unsigned long long)here, (unsigned long long)there);
        return 1;
    }
    std::printf("ways %.3f ms, C++ %.3f ms, ratio %.2f\n", median(rattle), median(cpp), median(rattle) / median(cpp));
}
