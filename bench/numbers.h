/* Numbers of bytes and of digits in plain C: what the yardsticks beside it share. */
#pragma once
#include <stdint.h>

/* a number, low byte first */
static uint64_t low_first(const unsigned char *bytes, unsigned length) {
    uint64_t number = 0;
    for (unsigned at = 0; at < length; at++) number |= (uint64_t)bytes[at] << 8 * at;
    return number;
}

/* the two digits of a byte, high half first */
static unsigned two_digits(unsigned byte) { return (byte >> 4) * 10 + (byte & 15); }
