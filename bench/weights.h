/* The families of terminals, and what may be a weight, in plain C: what the yardsticks beside it share. */
#pragma once

enum family { PLAIN, OF_000, OF_001, OF_002 };

static int is_decimal(int byte) { return byte >> 4 <= 9 && (byte & 15) <= 9; }

/* 002 reserves bit 6 of the status */
static int is_weight(enum family family, const unsigned char *data) {
    return is_decimal(data[0]) && is_decimal(data[1]) && is_decimal(data[2]) && !(family == OF_002 && data[3] & 0x40);
}
