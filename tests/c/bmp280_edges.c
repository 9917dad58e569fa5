/* What no line can ask of a BMP280's reading in C: places that are too few, places that stay as they were, every length about the right ones,
 * every code, and null pointers with no element behind them. Says what is wrong, and answers 1 then. */
#include <stdio.h>

#include "onegrish.h"

static int wrong, asked;

static void expect(int holds, const char *what) {
    asked++;
    if (!holds) wrong++, printf("tests/c/bmp280_edges: not so: %s\n", what);
}

/* The chip and the counts of K1 and K2 of the bench sheet; a byte or two more than a BMP280 has. */
static const uint8_t one[ONEGRISH_BLOCK_ONE + 1] = {
    0x70, 0x6B, 0x43, 0x67, 0x18, 0xFC, 0x7D, 0x8E, 0x43, 0xD6, 0xD0, 0x0B, 0x27,
    0x0B, 0x8C, 0x00, 0xF9, 0xFF, 0x8C, 0x3C, 0xF8, 0xC6, 0x70, 0x17, 0x00, 0x4B,
};
static const uint8_t two[ONEGRISH_BLOCK_TWO + 1] = {0x6A, 0x01, 0x00, 0x13, 0x29, 0x03, 0x1E};
static const uint8_t bytes[ONEGRISH_DATA + 1] = {0x65, 0x5A, 0xC0, 0x7E, 0xED, 0x00, 0x6D, 0x60};

enum { UNTOUCHED = 99 };

static uint8_t numbers[5];
static int64_t values[6];

static void fill(void) {
    for (int i = 0; i < 5; i++) numbers[i] = UNTOUCHED;
    for (int i = 0; i < 6; i++) values[i] = UNTOUCHED;
}

/* Whether numbers and values stand as they were filled, from these places on. */
static int stay_from(int number, int value) {
    int stay = 1;
    for (int i = number; i < 5; i++) stay &= numbers[i] == UNTOUCHED;
    for (int i = value; i < 6; i++) stay &= values[i] == UNTOUCHED;
    return stay;
}

static uint8_t by_lengths(size_t l, size_t m, size_t k) {
    fill();
    return onegrish_compensate_bmp280(one, l, two, m, bytes, k, 1, 1, 1, numbers, 5, values, 6);
}

static uint8_t by_codes(uint8_t t, uint8_t p, uint8_t h, size_t n, size_t v) {
    fill();
    return onegrish_compensate_bmp280(one, ONEGRISH_BLOCK_ONE, NULL, 0, bytes, ONEGRISH_DATA_BMP280, t, p, h, numbers, n, values, v);
}

/* Whether the reading is that of K1 and K2, with no humidity. */
static int is_whole(void) {
    return numbers[0] == ONEGRISH_DONE && numbers[1] == ONEGRISH_DONE && numbers[2] == ONEGRISH_SKIPPED && stay_from(3, 3) &&
           values[ONEGRISH_VALUE_T] == 2508 && values[ONEGRISH_VALUE_FINE] == 128422 && values[ONEGRISH_VALUE_P] == 25767233;
}

static void try_lengths(void) {
    for (size_t l = 0; l <= ONEGRISH_BLOCK_ONE + 1; l++)
        for (size_t m = 0; m <= ONEGRISH_BLOCK_TWO + 1; m++)
            for (size_t k = 0; k <= ONEGRISH_DATA + 1; k++)
                if (l == ONEGRISH_BLOCK_ONE && m == 0 && k == ONEGRISH_DATA_BMP280)
                    expect(by_lengths(l, m, k) == ONEGRISH_DONE && is_whole(), "26, 0 and 6 bytes are K1 and K2");
                else expect(by_lengths(l, m, k) == ONEGRISH_WRONG_LENGTH && stay_from(0, 0), "other lengths give 2, and write nothing");
    fill();
    expect(onegrish_compensate_bmp280(one, 26, two, 7, bytes, 8, 8, 8, 8, numbers, 2, values, 3) == ONEGRISH_WRONG_LENGTH && stay_from(0, 0),
           "2 comes before 7 and 9");
    expect(onegrish_compensate(one, 26, NULL, 0, bytes, 6, 1, 1, 1, numbers, 3, values, 4) == ONEGRISH_WRONG_LENGTH && stay_from(0, 0),
           "a BME280 has other lengths");
}

static void try_codes(void) {
    for (int code = 0; code < 256; code++) {
        uint8_t c = (uint8_t)code;
        expect(by_codes(c, 1, 1, 5, 6) == (code > 7 ? ONEGRISH_OUT_OF_RANGE : ONEGRISH_DONE) && (code > 7 ? stay_from(0, 0) : !code || is_whole()),
               "the first code is one of 0 to 7");
        expect(by_codes(1, c, 1, 5, 6) == (code > 7 ? ONEGRISH_OUT_OF_RANGE : ONEGRISH_DONE) && (code > 7 ? stay_from(0, 0) : !code || is_whole()),
               "the second code is one of 0 to 7");
        expect(by_codes(1, 1, c, 5, 6) == (code > 7 ? ONEGRISH_OUT_OF_RANGE : ONEGRISH_DONE) && (code > 7 ? stay_from(0, 0) : is_whole()),
               "the third code is one of 0 to 7, and is not used");
    }
    expect(by_codes(1, 0, 1, 5, 6) == ONEGRISH_DONE && numbers[1] == ONEGRISH_SKIPPED && numbers[2] == ONEGRISH_SKIPPED && stay_from(3, 2),
           "a skipped pressure leaves its place");
    expect(by_codes(0, 1, 1, 5, 6) == ONEGRISH_DONE && numbers[0] == ONEGRISH_SKIPPED && numbers[1] == ONEGRISH_NO_TEMPERATURE &&
           numbers[2] == ONEGRISH_SKIPPED && stay_from(3, 0), "with no temperature there is no pressure, and humidity is 10 and not 11");
}

static void try_places(void) {
    expect(by_codes(1, 1, 1, 3, 4) == ONEGRISH_DONE && is_whole(), "3 numbers and 4 values are enough");
    expect(by_codes(1, 1, 1, 2, 4) == ONEGRISH_BUFFER_TOO_SHORT && stay_from(0, 0), "2 numbers give 9, and write nothing");
    expect(by_codes(1, 1, 1, 3, 3) == ONEGRISH_BUFFER_TOO_SHORT && stay_from(0, 0), "3 values give 9, though humidity has none");
    expect(by_codes(1, 1, 8, 2, 3) == ONEGRISH_OUT_OF_RANGE && stay_from(0, 0), "7 comes before 9");
    expect(onegrish_compensate_bmp280(NULL, 0, NULL, 0, NULL, 0, 1, 1, 1, NULL, 0, NULL, 0) == ONEGRISH_WRONG_LENGTH, "no bytes at all give 2");
    expect(onegrish_compensate_bmp280(one, 26, NULL, 0, bytes, 6, 1, 1, 1, NULL, 0, NULL, 0) == ONEGRISH_BUFFER_TOO_SHORT, "no places give 9");
}

int main(void) {
    try_lengths();
    try_codes();
    try_places();
    if (wrong == 0) printf("tests/c: %d facts of a BMP280's reading hold\n", asked);
    return wrong != 0;
}
