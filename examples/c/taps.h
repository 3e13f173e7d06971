/* Numbers out of the little-endian bytes that the library writes, and into those that it reads, whatever the machine's
 * own order. */
#ifndef TAPS_H
#define TAPS_H

#include <stddef.h>
#include <stdint.h>
#include <string.h>

static inline uint64_t bits_at(const uint8_t *bytes, size_t width)
{
    uint64_t bits = 0;
    for (size_t i = width; i-- > 0;)
        bits = bits << 8 | bytes[i];
    return bits;
}

/* Number i of a buffer of doubles, of floats, and of Q15 or Q14 numbers. */
static inline double f64_at(const uint8_t *bytes, size_t i)
{
    uint64_t bits = bits_at(bytes + 8 * i, 8);
    double x;
    memcpy(&x, &bits, sizeof x);
    return x;
}

static inline float f32_at(const uint8_t *bytes, size_t i)
{
    uint32_t bits = (uint32_t)bits_at(bytes + 4 * i, 4);
    float x;
    memcpy(&x, &bits, sizeof x);
    return x;
}

static inline int i16_at(const uint8_t *bytes, size_t i)
{
    int bits = (int)bits_at(bytes + 2 * i, 2);
    return bits < 32768 ? bits : bits - 65536;
}

/* A double as number i of a buffer. */
static inline void put_f64(uint8_t *bytes, size_t i, double x)
{
    uint64_t bits;
    memcpy(&bits, &x, sizeof bits);
    for (size_t k = 0; k < 8; k++)
        bytes[8 * i + k] = (uint8_t)(bits >> 8 * k);
}

#endif
