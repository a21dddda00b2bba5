// How long work takes, in processor time, so that other work on the machine does not count; and how much memory.
#pragma once
#include <sys/resource.h>
#include <time.h>
#include <algorithm>
#include <vector>

inline double milliseconds() {
    timespec now;
    clock_gettime(CLOCK_PROCESS_CPUTIME_ID, &now);
    return 1e3 * now.tv_sec + 1e-6 * now.tv_nsec;
}

inline double median(std::vector<double> xs) {
    std::sort(xs.begin(), xs.end());
    return (xs[(xs.size() - 1) / 2] + xs[xs.size() / 2]) / 2;
}

inline double worst(const std::vector<double> &xs) { return *std::max_element(xs.begin(), xs.end()); }

inline double mean(const std::vector<double> &xs) {
    double sum = 0;
    for (double x : xs) sum += x;
    return sum / xs.size();
}

// The median of five runs.
template <class Work> double median_time(Work work) {
    std::vector<double> took;
    for (int i = 0; i < 5; i++) {
        double begin = milliseconds();
        work();
        took.push_back(milliseconds() - begin);
    }
    return median(took);
}

// The most memory that the process took so far, in megabytes.
inline double peak_memory() {
    rusage used{};
    getrusage(RUSAGE_SELF, &used);
    return used.ru_maxrss / 1024.0;
}
