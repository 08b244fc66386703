/* The replies of the table in plain C: what the yardsticks beside it share. */

#include "weights.h"

/* 6, 7, 8 of a reply, in this order; 0 of a good one */
static int judged_reply(enum family family, int code, const unsigned char *data, unsigned count) {
    switch (code) {
    case 0xA1: return count == 3 ? 0 : 7;
    case 0xBF: return count != 1 ? 7 : data[0] < 0x80 ? 0 : 8;
    case 0xC0: case 0xCD: case 0xCE: case 0xD0: case 0xD2: return count == 0 ? 0 : 7;
    case 0xC2: case 0xC3: return count != 4 ? 7 : is_weight(family, data) ? 0 : 8;
    case 0xC4: case 0xC5: return count == 4 ? 0 : 7;
    case 0xC6: return count < 2 || count != 2u + data[1] ? 7 : data[0] >= 0x1F && data[0] <= 0x21 ? 0 : 8;
    case 0xC7: return count != 7 ? 7 : data[0] != 0x70 ? 0 : 8;
    case 0xCC: return count == 5 ? 0 : 7;
    case 0xEE: return count == 1 ? 0 : 7;
    default: return 6;
    }
}
