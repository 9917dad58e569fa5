/* Prints a reading of a part that may be a BME280 or a BMP280: its chip id says which call its bytes take. Here both have the chip and the
 * counts of K1 and K2 of the bench sheet, and the BMP280 has no humidity. examples/c/build builds and runs it. */
#include <stdio.h>

#include "onegrish.h"

static const uint8_t one[ONEGRISH_BLOCK_ONE] = {
    0x70, 0x6B, 0x43, 0x67, 0x18, 0xFC, 0x7D, 0x8E, 0x43, 0xD6, 0xD0, 0x0B, 0x27,
    0x0B, 0x8C, 0x00, 0xF9, 0xFF, 0x8C, 0x3C, 0xF8, 0xC6, 0x70, 0x17, 0x00, 0x4B,
};
static const uint8_t two[ONEGRISH_BLOCK_TWO] = {0x6A, 0x01, 0x00, 0x13, 0x29, 0x03, 0x1E};
static const uint8_t bytes[ONEGRISH_DATA] = {0x65, 0x5A, 0xC0, 0x7E, 0xED, 0x00, 0x6D, 0x60};

/* The reading of a part with this chip id. A BMP280 gives its block one and six bytes, and nothing for block two. */
static uint8_t compensate(uint8_t chip_id, uint8_t *numbers, int64_t *values) {
    const uint8_t code = ONEGRISH_CODE_1;
    if (chip_id == ONEGRISH_CHIP_ID_BMP280)
        return onegrish_compensate_bmp280(one, ONEGRISH_BLOCK_ONE, NULL, 0, bytes, ONEGRISH_DATA_BMP280, code, code, code, numbers, ONEGRISH_NUMBERS,
                                          values, ONEGRISH_VALUES);
    return onegrish_compensate(one, ONEGRISH_BLOCK_ONE, two, ONEGRISH_BLOCK_TWO, bytes, ONEGRISH_DATA, code, code, code, numbers, ONEGRISH_NUMBERS, values,
                               ONEGRISH_VALUES);
}

static void print_channel(const char *name, uint8_t number, double value) {
    if (number == ONEGRISH_DONE) printf(", %s %.3f", name, value);
    else printf(", no %s (%u)", name, number);
}

int main(void) {
    static const uint8_t ids[2] = {ONEGRISH_CHIP_ID, ONEGRISH_CHIP_ID_BMP280};
    for (int i = 0; i < 2; i++) {
        uint8_t numbers[ONEGRISH_NUMBERS];
        int64_t values[ONEGRISH_VALUES] = {0};
        uint8_t answer = compensate(ids[i], numbers, values);
        if (answer != ONEGRISH_DONE) {
            printf("refused with %u\n", answer);
            return 1;
        }
        printf("chip id 0x%02X", ids[i]);
        print_channel("degrees", numbers[ONEGRISH_NUMBER_T], (double)values[ONEGRISH_VALUE_T] / 100);
        print_channel("Pa", numbers[ONEGRISH_NUMBER_P], (double)values[ONEGRISH_VALUE_P] / 256);
        print_channel("%RH", numbers[ONEGRISH_NUMBER_H], (double)values[ONEGRISH_VALUE_H] / 1024);
        putchar('\n');
    }
    return 0;
}
