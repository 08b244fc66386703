/* The weekday and hour table in plain C: the yardstick of "table". Standard input is a log; one table is filled from its blocks, as crates/table_meter
   fills it, and the counts and the sum at the end are those that crates/table_meter tells. It is a program of its own, as that is. */
#include "records.h"
#include "blocks.h"
#include <stdio.h>

enum { WEEKDAYS = 7, HOURS = 24, SETTLED = 0x10, OVERLOAD = 0x08, MINUS = 0x80 };

struct cell {
    uint16_t weights, refused;
    int64_t sum;
};

static const int64_t steps[] = {10000000, 1000000, 100000, 10000, 1000, 100, 10, 1};

static int64_t tenths_of(const struct record *item) {
    int64_t number = two_digits(item->w2) * 10000 + two_digits(item->w1) * 100 + two_digits(item->w0);
    int64_t size = number * steps[item->status & 7];
    return item->status & MINUS ? -size : size;
}

static bool is_sound(const struct cell *cell) {
    int64_t most = cell->weights * INT64_C(9999990000000);
    return -most <= cell->sum && cell->sum <= most;
}

/* 11, 23; 0 where the record went in */
static int enter(struct cell table[WEEKDAYS][HOURS], const struct record *item) {
    if (!is_good(item)) return 11;
    struct cell *cell = &table[item->time / 86400 % 7][item->time / 3600 % 24];
    if (item->kind == 3) {
        if (cell->refused == UINT16_MAX) return 23;
        cell->refused++;
    } else if (item->kind == 1 && item->status & SETTLED && !(item->status & OVERLOAD)) {
        if (cell->weights == UINT16_MAX) return 23;
        cell->weights++;
        cell->sum += tenths_of(item);
    }
    return 0;
}

static bool is_sound_table(struct cell table[WEEKDAYS][HOURS]) {
    for (int weekday = 0; weekday < WEEKDAYS; weekday++) {
        for (int hour = 0; hour < HOURS; hour++) {
            if (!is_sound(&table[weekday][hour])) return false;
        }
    }
    return true;
}

/* 31, and then record by record 10, 11, 23; 0 where the whole log went in */
static int fill(struct cell table[WEEKDAYS][HOURS], const unsigned char *log, size_t length, uint64_t *records) {
    if (!is_sound_table(table)) return 31;
    for (; length > 0; log += RECORD, length -= RECORD) {
        if (length < RECORD) return 10;
        if (log[18] != 0 || log[19] != 0) return 11;
        struct record item = record_in(log);
        int number = enter(table, &item);
        if (number != 0) return number;
        ++*records;
    }
    return 0;
}

static uint64_t sum_of_table(struct cell table[WEEKDAYS][HOURS]) {
    uint64_t sum = 0;
    for (int weekday = 0; weekday < WEEKDAYS; weekday++) {
        for (int hour = 0; hour < HOURS; hour++) {
            const struct cell *cell = &table[weekday][hour];
            sum += cell->weights + cell->refused + (uint64_t)(cell->sum < 0 ? -cell->sum : cell->sum);
        }
    }
    return sum;
}

int main(void) {
    static unsigned char block[BLOCK];
    static struct cell table[WEEKDAYS][HOURS];
    uint64_t good = 0, refused = 0;
    for (size_t length; (length = read_full(block)) > 0;) {
        if (fill(table, block, length, &good) != 0) refused++;
    }
    printf("good %llu refused %llu sum %llu\n", (unsigned long long)good, (unsigned long long)refused, (unsigned long long)sum_of_table(table));
    return 0;
}
