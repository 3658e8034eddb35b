/* Random numbers, the same for each seed. */
#ifndef RANDOM_H
#define RANDOM_H
#include <stddef.h>
#include <stdint.h>

struct random { uint64_t state; };

/* splitmix64 */
static inline uint64_t next(struct random *it) {
    uint64_t z = it->state += 0x9e3779b97f4a7c15;
    z = (z ^ z >> 30) * 0xbf58476d1ce4e5b9;
    z = (z ^ z >> 27) * 0x94d049bb133111eb;
    return z ^ z >> 31;
}

static inline size_t below(struct random *it, size_t n) { return (uint32_t)next(it) * (uint64_t)n >> 32; }
static inline size_t between(struct random *it, size_t least, size_t most) { return least + below(it, most - least + 1); }
/* Whether it is one of so many times in a thousand. */
static inline int chance(struct random *it, size_t thousandths) { return below(it, 1000) < thousandths; }
#define ONE_OF(it, ...) ((const size_t[]){__VA_ARGS__})[below(it, sizeof((const size_t[]){__VA_ARGS__}) / sizeof(size_t))]
#endif
