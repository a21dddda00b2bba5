// The planner as C++ calls it.
#pragma once
#include <array>
#include <cstddef>
#include <cstdint>
#include <vector>
#include "town.hpp"

// The depot's price in half metres, how many passes and stages it took, and how many stages show that it is least.
struct Effort {
    int64_t price;
    uint64_t passes, turns, stages;
};

// How many legs and parts a plan has, and the length of its round in metres.
struct Planned {
    uint64_t legs, parts, length;
};

extern "C" bool is_sound(uint64_t crossings, const uint64_t *numbers, size_t count, uint64_t depot);
extern "C" Effort least_drives(uint64_t crossings, const uint64_t *numbers, size_t count, uint64_t depot);
extern "C" Planned plan_town(uint64_t crossings, const uint64_t *numbers, size_t count, uint64_t depot, uint64_t *legs, size_t leg_room,
                             uint64_t *parts, size_t part_room);

inline std::vector<uint64_t> numbers_of(const Town &town) {
    std::vector<uint64_t> numbers;
    for (const Street &street : town.streets) {
        numbers.push_back(street.one);
        numbers.push_back(street.two);
        numbers.push_back(street.length);
    }
    return numbers;
}

// What comes before the least extra drives: the town is taken, and checked for streets that cannot be come to.
inline bool check(const Town &town) {
    const std::vector<uint64_t> numbers = numbers_of(town);
    return is_sound(town.crossings, numbers.data(), numbers.size(), town.depot);
}

inline Effort in_rattle(const Town &town) {
    const std::vector<uint64_t> numbers = numbers_of(town);
    return least_drives(town.crossings, numbers.data(), numbers.size(), town.depot);
}

// Rooms for any plan: a street is driven at most twice, and a sheet has at most 400 parts.
inline std::array<uint64_t, 600> legs;
inline std::array<uint64_t, 400 * 101> parts;

inline Planned plan(const Town &town) {
    const std::vector<uint64_t> numbers = numbers_of(town);
    return plan_town(town.crossings, numbers.data(), numbers.size(), town.depot, legs.data(), legs.size(), parts.data(), parts.size());
}
