/* The poll that bindings/c/README.md prints, as it prints it: what it leaves to the caller, and a line for it to hear.
 * tests/host/run lays the printed file beside this one as printed.c. */
#include "printed.c"

#include <stdbool.h>
#include <string.h>

static unsigned sent, noted, overloaded;

/* 60 tonnes, settled, with the overload bit: W0 W1 W2 CON, and the check of the reply that says them. */
static const uint8_t sixty[] = {0x00, 0x00, 0x06, 0x18, 0xA2};

void send_bytes(const uint8_t *bytes, size_t length)
{
    const uint8_t wanted[] = {0xFF, 0x01, 0xC3, 0xE3, 0xFF, 0xFF}; /* E1 of the rules paper */
    sent += length == sizeof wanted && memcmp(bytes, wanted, length) == 0;
}

/* A weighing with the family of the line, or a refusal without one. */
void append_to_log(const uint8_t *bytes, size_t length)
{
    bool weighed = bytes[8] == QUAY_RECORD_GROSS && bytes[17] == QUAY_FAMILY_002;
    bool refused = bytes[8] == QUAY_RECORD_REFUSED && bytes[17] == QUAY_FAMILY_PLAIN;
    noted += length == QUAY_RECORD_BYTES && (weighed || refused);
    overloaded += weighed && bytes[13] == sixty[3] && memcmp(bytes + 14, sixty, 3) == 0; /* its digits are shown nowhere, and not lost */
}

/* Every family with bit 5 clear and set, and a number that is none. */
static void print_modes(void)
{
    printf("modes:");
    for (uint8_t of = QUAY_FAMILY_PLAIN; of <= QUAY_FAMILY_002 + 1; of++) {
        for (uint8_t bit5 = 0; bit5 <= 1; bit5++)
            printf(" %s", mode_of((QuayReading){.family = of, .bit5 = bit5}));
    }
    printf("\n");
}

/* The README says that an initialiser without a family is plain, so that bit 6 is not judged. */
static void print_left_out(void)
{
    QuayWeight left_out = {.w0 = 0x51, .w1 = 0x02, .con = 0x41}, said = {.w0 = 0x51, .w1 = 0x02, .con = 0x41, .family = family};
    printf("family left out: refusal %d, said: refusal %d\n", quay_value(left_out).refusal, quay_value(said).refusal);
}

/* The digits are in the reading, and no function makes a weight of them. */
static void print_overload(void)
{
    QuayWeight heavy = {sixty[0], sixty[1], sixty[2], sixty[3], family}, good = {0x51, 0x02, 0x00, 0x01, family};
    QuayReading reading = quay_read_weight(heavy);
    printf("overload: reading refusal %d, overload %d, number %u; refusals of value %d, kilograms %d, as gross %d, as net %d\n", reading.refusal,
           reading.overload, (unsigned)reading.number, quay_value(heavy).refusal, quay_kilograms(heavy).refusal, quay_difference(heavy, good).refusal,
           quay_difference(good, heavy).refusal);
}

int main(void)
{
    /* E3, cut in two, and a frame whose check is wrong (E6). */
    const uint8_t first[] = {0xFF, 0x01, 0xC3, 0x51, 0x02}, second[] = {0x00, 0x01, 0xDE, 0xFF, 0xFF, 0xFF, 0x01, 0xC3, 0xE2, 0xFF, 0xFF};
    /* The weight of E3 with bit 5 set, and with bit 6 set: 002 refuses that one by 8. */
    const uint8_t third[] = {0xFF, 0x01, 0xC3, 0x51, 0x02, 0x00, 0x21, 0xA9, 0xFF, 0xFF};
    const uint8_t fourth[] = {0xFF, 0x01, 0xC3, 0x51, 0x02, 0x00, 0x41, 0x30, 0xFF, 0xFF};
    const uint8_t fifth[] = {0xFF, 0x01, 0xC3, sixty[0], sixty[1], sixty[2], sixty[3], sixty[4], 0xFF, 0xFF};
    ask();
    hear(first, sizeof first, 1000);
    hear(second, sizeof second, 1001);
    hear(third, sizeof third, 1002);
    hear(fourth, sizeof fourth, 1003);
    hear(fifth, sizeof fifth, 1004);
    printf("sent %u, noted %u, of these overloaded %u\n", sent, noted, overloaded);
    print_modes();
    print_left_out();
    print_overload();
    return 0;
}
