/* Random numbers, the same for the same seed, and heap buffers of exactly the length that is lent, for valgrind. */
#ifndef LENT_H
#define LENT_H

#include <stdint.h>
#include <stdlib.h>
#include <string.h>

static uint64_t random_state = 1;

/* Starts the random numbers anew. Without it, the seed is 1. */
static inline void start_random(uint64_t seed) { random_state = seed; }

/* A random number below n, which is at most 2^32. */
static inline uint32_t below(size_t n) {
    random_state = random_state * 6364136223846793005u + 1442695040888963407u;
    return (uint32_t)((random_state >> 32) * n >> 32);
}

/* Not filled, so that valgrind reports bytes that are read before they are written. A buffer of length 0 has no byte at
 * all, so that it reports the first one too. */
static inline void *lent(size_t bytes) {
    void *p = malloc(bytes);
    if (!p)
        abort();
    return p;
}

static inline void *filled(size_t bytes, uint8_t byte) { return memset(lent(bytes), byte, bytes); }

static inline void *copy_of(const void *from, size_t bytes) { return memcpy(lent(bytes), from, bytes); }

/* Filled with random bytes. */
static inline void *noise(size_t bytes) {
    uint8_t *p = lent(bytes);
    for (size_t i = 0; i < bytes; i++)
        p[i] = (uint8_t)below(256);
    return p;
}

#endif
