/*
 * The two fields that shares are in, for programs that look into them.
 */
#ifndef FIELD_H
#define FIELD_H

#include "clockivy.h"

/*
 * Amounts, modulo the prime. The product is by doubling, with as many steps as the
 * second factor has bits.
 */

CLOCKIVY_INLINE uint64_t plus(uint64_t a, uint64_t b)
{
    return (a + b) % CLOCKIVY_PRIME;
}

CLOCKIVY_INLINE uint64_t times(uint64_t a, uint64_t b)
{
    uint64_t product = 0;

    for (; b != 0; b >>= 1) {
        if (b & 1)
            product = plus(product, a);
        a = plus(a, a);
    }
    return product;
}

/* The inverse of a number that is not 0: its power prime - 2. */
CLOCKIVY_INLINE uint64_t inverse(uint64_t a)
{
    uint64_t exponent = CLOCKIVY_PRIME - 2;
    uint64_t power = 1;

    for (; exponent != 0; exponent >>= 1) {
        if (exponent & 1)
            power = times(power, a);
        a = times(a, a);
    }
    return power;
}

/* Bytes: adding is exclusive or, multiplying is modulo the polynomial 11Bh. */

CLOCKIVY_INLINE uint8_t byte_times(uint8_t a, uint8_t b)
{
    unsigned shifted = a;
    unsigned product = 0;

    for (; b != 0; b = (uint8_t)(b >> 1)) {
        if (b & 1)
            product ^= shifted;
        shifted <<= 1;
        if (shifted > 255)
            shifted ^= 0x11B;
    }
    return (uint8_t)product;
}

/* The inverse of a byte that is not 0: its power 254. */
CLOCKIVY_INLINE uint8_t byte_inverse(uint8_t a)
{
    uint8_t power = 1;
    int i;

    for (i = 0; i < 254; i++)
        power = byte_times(power, a);
    return power;
}

#endif /* FIELD_H */
