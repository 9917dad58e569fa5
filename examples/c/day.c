/* A morning of a logger in one call: four readings, one of which has no humidity and one a code that there is not. Prints what each
 * says, and the mean of the temperatures that are there. examples/c/build builds and runs it. */
#include <stdio.h>

#include "onegrish.h"

enum { READINGS = 4 };

/* The calibration blocks of one chip, as read once from 0x88 to 0xA1 and 0xE1 to 0xE7. */
static const uint8_t one[ONEGRISH_BLOCK_ONE] = {
    0x70, 0x6B, 0x43, 0x67, 0x18, 0xFC, 0x7D, 0x8E, 0x43, 0xD6, 0xD0, 0x0B, 0x27, 0x0B, 0x8C, 0x00,
    0xF9, 0xFF, 0x8C, 0x3C, 0xF8, 0xC6, 0x70, 0x17, 0x00, 0x4B,
};
static const uint8_t two[ONEGRISH_BLOCK_TWO] = {0x6A, 0x01, 0x00, 0x13, 0x29, 0x03, 0x1E};

/* Eight data bytes each, then the oversampling codes of temperature, pressure and humidity. */
static const uint8_t readings[READINGS][ONEGRISH_DAY_READING] = {
    {0x65, 0x5A, 0xC0, 0x7E, 0xED, 0x00, 0x6E, 0x00, 1, 1, 1},
    {0x65, 0x5B, 0x20, 0x7E, 0xF1, 0x40, 0x6E, 0x20, 1, 1, 0}, /* humidity skipped */
    {0x65, 0x5B, 0x80, 0x7E, 0xF5, 0x80, 0x6E, 0x40, 1, 9, 1}, /* there is no code 9 */
    {0x65, 0x5B, 0xE0, 0x7E, 0xF9, 0xC0, 0x6E, 0x60, 1, 1, 1},
};

/* One channel: its value in its unit, or the number that says why there is none. */
static void print_channel(const char *name, int64_t number, double value) {
    if (number == ONEGRISH_DONE) printf("  %s %.2f", name, value);
    else printf("  %s none (%lld)", name, (long long)number);
}

int main(void) {
    int64_t answers[READINGS][ONEGRISH_DAY_NUMBERS];
    int64_t sum = 0, there = 0;
    if (onegrish_day(one, sizeof one, two, sizeof two, readings[0], sizeof readings, answers[0], READINGS * ONEGRISH_DAY_NUMBERS) != ONEGRISH_DONE)
        return 1;
    for (int i = 0; i < READINGS; i++) {
        const int64_t *a = answers[i];
        printf("reading %d:", i + 1);
        print_channel("degrees", a[ONEGRISH_DAY_NUMBER_T], (double)a[ONEGRISH_DAY_VALUE_T] / 100);
        print_channel("Pa", a[ONEGRISH_DAY_NUMBER_P], (double)a[ONEGRISH_DAY_VALUE_P] / 256);
        print_channel("%RH", a[ONEGRISH_DAY_NUMBER_H], (double)a[ONEGRISH_DAY_VALUE_H] / 1024);
        putchar('\n');
        if (a[ONEGRISH_DAY_NUMBER_T] == ONEGRISH_DONE) sum += a[ONEGRISH_DAY_VALUE_T], there++;
    }
    printf("mean of %lld temperatures: %.2f degrees\n", (long long)there, (double)sum / (double)there / 100);
    return 0;
}
