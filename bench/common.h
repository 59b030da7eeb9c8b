/* What the load generator and the sync benchmark share: a clock, and a histogram of times. */
#ifndef COMMON_H
#define COMMON_H

#include <stdint.h>
#include <string.h>
#include <time.h>

/* Nanoseconds since some moment before. */
static inline uint64_t now_ns(void) {
    struct timespec time;
    clock_gettime(CLOCK_MONOTONIC, &time);
    return (uint64_t)time.tv_sec * 1000000000u + (uint64_t)time.tv_nsec;
}

/* Times in nanoseconds. Each power of two is parted into 32 steps, so a step is 3 % wide. */
#define HISTOGRAM_STEPS 32
#define HISTOGRAM_PLACES (64 * HISTOGRAM_STEPS)
struct histogram {
    uint64_t count;
    uint64_t places[HISTOGRAM_PLACES];
};

static inline int place_of(uint64_t ns) {
    if (ns < HISTOGRAM_STEPS) return (int)ns;
    int power = 63 - __builtin_clzll(ns);
    return (power - 4) * HISTOGRAM_STEPS + (int)(ns >> (power - 5)) % HISTOGRAM_STEPS;
}

/* The middle of a place. */
static inline double time_of(int place) {
    if (place < HISTOGRAM_STEPS) return place;
    int power = place / HISTOGRAM_STEPS + 4;
    double step = (double)(1ull << (power - 5));
    return (HISTOGRAM_STEPS + place % HISTOGRAM_STEPS + 0.5) * step;
}

static inline void histogram_add(struct histogram *all, uint64_t ns) {
    all->places[place_of(ns)]++;
    all->count++;
}

static inline void histogram_merge(struct histogram *all, const struct histogram *more) {
    for (int i = 0; i < HISTOGRAM_PLACES; i++) all->places[i] += more->places[i];
    all->count += more->count;
}

/* The time, in microseconds, that this part of all times does not exceed. */
static inline double histogram_us(const struct histogram *all, double part) {
    uint64_t wanted = (uint64_t)(part * (double)all->count), seen = 0;
    for (int i = 0; i < HISTOGRAM_PLACES; i++) {
        seen += all->places[i];
        if (seen > wanted) return time_of(i) / 1000.0;
    }
    return 0;
}

#endif
