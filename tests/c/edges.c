/* What no line can ask of the library for C: places that are too few, places that stay as they were, words that their types can't
 * hold, values of 64 bits, null pointers with no element behind them, and the version. Says what is wrong, and answers 1 then. */
#include <stdio.h>

#include "onegrish.h"

static int wrong, asked;

static void expect(int holds, const char *what) {
    asked++;
    if (!holds) wrong++, printf("tests/c/edges: not so: %s\n", what);
}

/* The chip and the counts of K1 and K2 of the bench sheet, with H1 to H6 of a usual chip. */
static const uint8_t one[ONEGRISH_BLOCK_ONE] = {
    0x70, 0x6B, 0x43, 0x67, 0x18, 0xFC, 0x7D, 0x8E, 0x43, 0xD6, 0xD0, 0x0B, 0x27,
    0x0B, 0x8C, 0x00, 0xF9, 0xFF, 0x8C, 0x3C, 0xF8, 0xC6, 0x70, 0x17, 0x00, 0x4B,
};
static const uint8_t two[ONEGRISH_BLOCK_TWO] = {0x6A, 0x01, 0x00, 0x13, 0x29, 0x03, 0x1E};
static const uint8_t bytes[ONEGRISH_DATA] = {0x65, 0x5A, 0xC0, 0x7E, 0xED, 0x00, 0x6D, 0x60};

enum { UNTOUCHED = 99 };

static uint8_t numbers[5];
static int64_t values[6];
static int16_t words[20];

static void fill(void) {
    for (int i = 0; i < 5; i++) numbers[i] = UNTOUCHED;
    for (int i = 0; i < 6; i++) values[i] = UNTOUCHED;
}

/* Whether numbers and values stand as they were filled, from these places on. */
static int stay_from(int number, int value) {
    int stay = 1;
    for (int i = number; i < 5; i++) stay &= numbers[i] == UNTOUCHED;
    for (int i = value; i < 6; i++) stay &= values[i] == UNTOUCHED;
    return stay;
}

static uint8_t by_blocks(uint8_t t, uint8_t p, uint8_t h, size_t n, size_t v) {
    fill();
    return onegrish_compensate(one, 26, two, 7, bytes, 8, t, p, h, numbers, n, values, v);
}

static uint8_t by_words(const int16_t *kept, size_t k, uint8_t t, uint8_t p, uint8_t h, size_t n, size_t v) {
    fill();
    return onegrish_compensate_words(kept, k, bytes, 8, t, p, h, numbers, n, values, v);
}

static void try_words(void) {
    for (int i = 0; i < 20; i++) words[i] = UNTOUCHED;
    expect(onegrish_words(one, 26, two, 7, words, 17) == ONEGRISH_BUFFER_TOO_SHORT, "17 places for words give 9");
    for (int i = 0; i < 20; i++) expect(words[i] == UNTOUCHED, "9 writes no word");
    expect(onegrish_words(one, 25, two, 7, words, 17) == ONEGRISH_WRONG_LENGTH, "2 comes before 9");
    expect(onegrish_words(one, 26, two, 7, words, 20) == ONEGRISH_DONE, "20 places for words are enough");
    expect(words[18] == UNTOUCHED && words[19] == UNTOUCHED, "places past the words stay");
    expect((uint16_t)words[ONEGRISH_P1] == 36477 && words[ONEGRISH_P2] == -10685, "P1 has no sign, P2 has one");
}

static void try_places(void) {
    expect(by_blocks(1, 1, 1, 2, 4) == ONEGRISH_BUFFER_TOO_SHORT && stay_from(0, 0), "2 numbers give 9, and write nothing");
    expect(by_blocks(1, 1, 1, 3, 3) == ONEGRISH_BUFFER_TOO_SHORT && stay_from(0, 0), "3 values give 9, and write nothing");
    expect(by_blocks(8, 1, 1, 2, 3) == ONEGRISH_OUT_OF_RANGE && stay_from(0, 0), "7 comes before 9, and writes nothing");
    expect(by_blocks(1, 1, 1, 5, 6) == ONEGRISH_DONE && stay_from(3, 4), "places past a reading stay");
    expect(values[ONEGRISH_VALUE_T] == 2508 && values[ONEGRISH_VALUE_FINE] == 128422, "K1");
    expect(values[ONEGRISH_VALUE_P] == 25767233, "K2");
    expect(by_blocks(1, 0, 1, 5, 6) == ONEGRISH_DONE && numbers[ONEGRISH_NUMBER_P] == ONEGRISH_SKIPPED, "a skipped pressure is 10");
    expect(values[ONEGRISH_VALUE_P] == UNTOUCHED, "a skipped pressure leaves its place");
    expect(by_blocks(0, 1, 0, 5, 6) == ONEGRISH_DONE && numbers[1] == ONEGRISH_NO_TEMPERATURE && stay_from(3, 0),
           "a reading of no channel leaves every value");
}

static void try_kept(void) {
    int16_t kept[ONEGRISH_WORDS];
    static const struct { int place, low, high; } narrow[3] = {{ONEGRISH_H1, 0, 255}, {ONEGRISH_H3, 0, 255}, {ONEGRISH_H6, -128, 127}};
    expect(by_words(words, 17, 1, 1, 1, 3, 4) == ONEGRISH_WRONG_LENGTH && stay_from(0, 0), "17 words give 2");
    expect(by_words(words, 19, 1, 1, 1, 3, 4) == ONEGRISH_WRONG_LENGTH && stay_from(0, 0), "19 words give 2");
    expect(by_words(words, 18, 1, 1, 1, 2, 4) == ONEGRISH_BUFFER_TOO_SHORT && stay_from(0, 0), "2 numbers give 9");
    expect(by_words(words, 18, 1, 1, 1, 3, 3) == ONEGRISH_BUFFER_TOO_SHORT && stay_from(0, 0), "3 values give 9");
    expect(by_words(words, 18, 1, 1, 8, 2, 3) == ONEGRISH_OUT_OF_RANGE && stay_from(0, 0), "7 comes before 9");
    expect(onegrish_compensate_words(words, 18, bytes, 7, 9, 1, 1, numbers, 3, values, 4) == ONEGRISH_WRONG_LENGTH, "7 bytes give 2 before 7");
    expect(by_words(words, 18, 1, 1, 1, 5, 6) == ONEGRISH_DONE && stay_from(3, 4), "places past a reading stay");
    expect(values[0] == 2508 && values[1] == 128422 && values[2] == 25767233, "kept words answer as the blocks do");
    for (int i = 0; i < 3; i++) {
        for (int k = 0; k < ONEGRISH_WORDS; k++) kept[k] = words[k];
        kept[narrow[i].place] = (int16_t)(narrow[i].low - 1);
        expect(by_words(kept, 18, 1, 1, 1, 3, 4) == ONEGRISH_OUT_OF_RANGE && stay_from(0, 0), "a word below its type gives 7");
        expect(onegrish_compensate_words(kept, 18, bytes, 7, 1, 1, 1, numbers, 3, values, 4) == ONEGRISH_WRONG_LENGTH, "2 comes before a word's 7");
        kept[narrow[i].place] = (int16_t)(narrow[i].high + 1);
        expect(by_words(kept, 18, 1, 1, 1, 3, 4) == ONEGRISH_OUT_OF_RANGE && stay_from(0, 0), "a word above its type gives 7");
        kept[narrow[i].place] = (int16_t)narrow[i].low;
        expect(by_words(kept, 18, 1, 1, 1, 3, 4) == ONEGRISH_DONE, "the lowest word of a type is taken");
        kept[narrow[i].place] = (int16_t)narrow[i].high;
        expect(by_words(kept, 18, 1, 1, 1, 3, 4) == ONEGRISH_DONE, "the highest word of a type is taken");
    }
}

/* Four places for each part of a point, and for verdicts. */
static const double untouched = 99.5;
static double doubles[4];
static uint8_t known[4], marks[4], verdicts[4];

/* The point of those bytes, or of so many less, in so many places. */
static uint8_t by_point(uint8_t t, uint8_t p, uint8_t h, size_t short_by, size_t d, size_t k, size_t n) {
    for (int i = 0; i < 4; i++) doubles[i] = untouched, known[i] = marks[i] = UNTOUCHED;
    return onegrish_point(one, 26, two, 7, bytes, 8 - short_by, t, p, h, doubles, d, known, k, marks, n);
}

static uint64_t bits_of(int place) {
    union { double value; uint64_t bits; } at;
    at.value = doubles[place];
    return at.bits;
}

/* Whether a point's three arrays stand as they were filled, from this place on. */
static int points_stay_from(int place) {
    int stay = 1;
    for (int i = place; i < 4; i++) stay &= doubles[i] == untouched && known[i] == UNTOUCHED && marks[i] == UNTOUCHED;
    return stay;
}

/* Whether a channel of the point is missing, with this number: its double is positive zero, all of whose bits are 0. */
static int is_missing(int place, uint8_t number) {
    return bits_of(place) == 0 && known[place] == 0 && marks[place] == number;
}

static void try_points(void) {
    expect(by_point(1, 1, 1, 0, 2, 3, 3) == ONEGRISH_BUFFER_TOO_SHORT && points_stay_from(0), "2 doubles give 9, and write nothing");
    expect(by_point(1, 1, 1, 0, 3, 2, 3) == ONEGRISH_BUFFER_TOO_SHORT && points_stay_from(0), "2 flags give 9, and write nothing");
    expect(by_point(1, 1, 1, 0, 3, 3, 2) == ONEGRISH_BUFFER_TOO_SHORT && points_stay_from(0), "2 numbers of a point give 9, and write nothing");
    expect(by_point(8, 1, 1, 1, 2, 2, 2) == ONEGRISH_BUFFER_TOO_SHORT && points_stay_from(0), "9 is all that a point refuses");
    expect(by_point(1, 1, 0, 0, 3, 3, 3) == ONEGRISH_DONE && points_stay_from(3), "3 places of each are enough");
    expect(bits_of(ONEGRISH_POINT_T) == 0x40A3980000000000 && known[0] == 1 && marks[0] == ONEGRISH_DONE, "K1 as a double");
    expect(bits_of(ONEGRISH_POINT_P) == 0x40F892D410000000 && known[1] == 1 && marks[1] == ONEGRISH_DONE, "K2 as a double");
    expect(is_missing(ONEGRISH_POINT_H, ONEGRISH_SKIPPED), "a skipped humidity is missing on the point");
    expect(by_point(1, 1, 1, 0, 4, 4, 4) == ONEGRISH_DONE && points_stay_from(3), "places past a point stay");
    expect(known[ONEGRISH_POINT_H] == 1 && marks[ONEGRISH_POINT_H] == ONEGRISH_DONE, "an enabled humidity has a value");
    expect(by_point(0, 1, 0, 0, 4, 4, 4) == ONEGRISH_DONE && points_stay_from(3), "a point of no channel");
    expect(is_missing(0, 10) && is_missing(1, 11) && is_missing(2, 10), "10 and 11 stand on the point");
    expect(by_point(1, 1, 1, 1, 4, 4, 4) == ONEGRISH_DONE && points_stay_from(3), "a reading of 7 bytes is a point");
    expect(is_missing(0, 2) && is_missing(1, 2) && is_missing(2, 2), "with three missing by 2");
    expect(by_point(1, 8, 1, 0, 4, 4, 4) == ONEGRISH_DONE && points_stay_from(3), "a reading with code 8 is a point");
    expect(is_missing(0, 7) && is_missing(1, 7) && is_missing(2, 7), "with three missing by 7");
    expect(onegrish_point(NULL, 0, NULL, 0, NULL, 0, 1, 1, 1, NULL, 0, NULL, 0, NULL, 0) == ONEGRISH_BUFFER_TOO_SHORT, "no place for a point gives 9");
    expect(by_point(1, 1, 1, 0, 3, 3, 3) == ONEGRISH_DONE && known[0] == 1, "an old point");
    expect(onegrish_point(NULL, 0, NULL, 0, NULL, 0, 1, 1, 1, doubles, 3, known, 3, marks, 3) == ONEGRISH_DONE, "no bytes at all are a point");
    expect(is_missing(0, 2) && is_missing(1, 2) && is_missing(2, 2), "and the old one is gone");
}

/* Those bytes compared with themselves, or with so many less, and with another code of humidity. */
static uint8_t by_rooms(size_t short_by, uint8_t h, uint32_t t, uint32_t p, size_t n) {
    for (int i = 0; i < 4; i++) verdicts[i] = UNTOUCHED;
    return onegrish_compare_rooms(one, 26, two, 7, bytes, 8, 1, 1, 1, one, 26, two, 7, bytes, 8 - short_by, 1, 1, h, t, p, 0, verdicts, n);
}

static int are(uint8_t t, uint8_t p, uint8_t h, uint8_t past) {
    return verdicts[0] == t && verdicts[1] == p && verdicts[2] == h && verdicts[3] == past;
}

static void try_rooms(void) {
    const int64_t lowest = -0x7FFFFFFFFFFFFFFF - 1, highest = 0x7FFFFFFFFFFFFFFF;
    const uint32_t most = 0xFFFFFFFF;
    static const uint8_t warmer[ONEGRISH_DATA] = {0x65, 0x5A, 0xC0, 0x7F, 0xED, 0x00, 0x6D, 0x60};
    expect(ONEGRISH_UNKNOWN == 0, "a verdict that was never written is unknown");
    expect(onegrish_compare(0, 2508, 0, 2518, 10) == ONEGRISH_AGREE, "10 apart agree by 10");
    expect(onegrish_compare(0, 2508, 0, 2518, 9) == ONEGRISH_DIFFER, "10 apart differ by 9");
    expect(onegrish_compare(0, -5, 0, 5, 10) == ONEGRISH_AGREE && onegrish_compare(0, 5, 0, -5, 9) == ONEGRISH_DIFFER, "through zero, either way round");
    expect(onegrish_compare(0, lowest, 0, highest, most) == ONEGRISH_DIFFER, "the two ends of 64 bits differ");
    expect(onegrish_compare(0, lowest, 0, lowest, 0) == ONEGRISH_AGREE, "a value agrees with itself");
    expect(onegrish_compare(10, 1, 0, 1, most) == ONEGRISH_UNKNOWN, "a missing channel is unknown");
    expect(onegrish_compare(0, 1, 255, 1, most) == ONEGRISH_UNKNOWN, "on either side, by any number");
    expect(onegrish_compare(2, 1, 2, 1, most) == ONEGRISH_UNKNOWN, "two missing channels don't agree");
    expect(by_rooms(0, 1, 0, 0, 2) == ONEGRISH_BUFFER_TOO_SHORT && are(99, 99, 99, 99), "2 verdicts give 9, and write nothing");
    expect(by_rooms(1, 8, 0, 0, 2) == ONEGRISH_BUFFER_TOO_SHORT && are(99, 99, 99, 99), "9 is all that two rooms refuse");
    expect(by_rooms(0, 1, 0, 0, 3) == ONEGRISH_DONE && are(1, 1, 1, 99), "a room agrees with itself, in 3 places");
    expect(by_rooms(0, 0, 0, 0, 4) == ONEGRISH_DONE && are(1, 1, 0, 99), "a skipped humidity is unknown, and the fourth place stays");
    expect(by_rooms(1, 1, 9, 9, 4) == ONEGRISH_DONE && are(0, 0, 0, 99), "a reading of 7 bytes is unknown in all three");
    expect(by_rooms(0, 8, 9, 9, 4) == ONEGRISH_DONE && are(0, 0, 0, 99), "a reading with code 8 is unknown in all three");
    expect(onegrish_compare_rooms(one, 26, two, 7, bytes, 8, 1, 1, 1, one, 26, two, 7, warmer, 8, 1, 1, 0, 0, most, 0, verdicts, 3) ==
           ONEGRISH_DONE && are(2, 1, 0, 99), "each channel by its own tolerance");
    expect(onegrish_compare_rooms(one, 26, two, 7, bytes, 8, 1, 1, 1, one, 26, two, 7, warmer, 8, 1, 1, 1, most, 0, 0, verdicts, 3) ==
           ONEGRISH_DONE && are(1, 2, 2, 99), "and the other way round");
    expect(onegrish_compare_rooms(NULL, 0, NULL, 0, NULL, 0, 1, 1, 1, NULL, 0, NULL, 0, NULL, 0, 1, 1, 1, 0, 0, 0, NULL, 0) == ONEGRISH_BUFFER_TOO_SHORT,
           "no place for verdicts gives 9");
    expect(onegrish_compare_rooms(NULL, 0, NULL, 0, NULL, 0, 1, 1, 1, NULL, 0, NULL, 0, NULL, 0, 1, 1, 1, 0, 0, 0, verdicts, 3) == ONEGRISH_DONE &&
           are(0, 0, 0, 99), "two rooms with no bytes are unknown");
}

/* A null pointer with 0 elements is read and written nowhere. */
static void try_null(void) {
    uint8_t lent[4], address = UNTOUCHED;
    size_t length = UNTOUCHED, place = UNTOUCHED;
    fill();
    expect(onegrish_words(NULL, 0, NULL, 0, NULL, 0) == ONEGRISH_WRONG_LENGTH, "no blocks give 2");
    expect(onegrish_words(one, 26, two, 7, NULL, 0) == ONEGRISH_BUFFER_TOO_SHORT, "no place for words gives 9");
    expect(onegrish_compensate(NULL, 0, NULL, 0, NULL, 0, 1, 1, 1, NULL, 0, NULL, 0) == ONEGRISH_WRONG_LENGTH, "no bytes at all give 2");
    expect(onegrish_compensate(one, 26, two, 7, NULL, 0, 1, 1, 1, numbers, 3, values, 4) == ONEGRISH_WRONG_LENGTH, "no data give 2");
    expect(onegrish_compensate(one, 26, two, 7, bytes, 8, 1, 1, 1, NULL, 0, NULL, 0) == ONEGRISH_BUFFER_TOO_SHORT, "no places give 9");
    expect(onegrish_compensate_words(NULL, 0, NULL, 0, 1, 1, 1, NULL, 0, NULL, 0) == ONEGRISH_WRONG_LENGTH, "no words give 2");
    expect(onegrish_compensate_words(words, 18, bytes, 8, 1, 1, 1, NULL, 0, NULL, 0) == ONEGRISH_BUFFER_TOO_SHORT, "no places give 9");
    expect(onegrish_poll(NULL, 0, 5, &place) == ONEGRISH_NEVER_READY && onegrish_polls(NULL, 0, 5) == 0, "no status byte is never ready");
    expect(onegrish_i2c_write(0x76, NULL, 0, lent, 4, &length) == ONEGRISH_PAIRS_OUTSIDE, "no pair on I2C gives 15");
    expect(onegrish_spi_write(NULL, 0, NULL, 0, &length) == ONEGRISH_PAIRS_OUTSIDE, "no pair on SPI gives 15");
    expect(onegrish_i2c_read(0x76, 0xF7, NULL, 0, &length) == ONEGRISH_BUFFER_TOO_SHORT, "no room for an I2C read gives 9");
    expect(onegrish_spi_read(0xF7, NULL, 0, &length) == ONEGRISH_BUFFER_TOO_SHORT, "no room for an SPI read gives 9");
    expect(onegrish_i2c_decode(NULL, 0, NULL, 0, &address, &length) == ONEGRISH_WRONG_SHAPE, "an empty I2C message gives 16");
    expect(onegrish_spi_decode(NULL, 0, NULL, 0, &length) == ONEGRISH_WRONG_SHAPE, "an empty SPI message gives 16");
    expect(stay_from(0, 0) && length == UNTOUCHED && place == UNTOUCHED && address == UNTOUCHED, "refusals write nothing");
}

/* Where an I2C read parts into its two messages. */
static void try_read(void) {
    uint8_t lent[4] = {UNTOUCHED, UNTOUCHED, UNTOUCHED, UNTOUCHED};
    size_t length = 0;
    expect(onegrish_i2c_read(ONEGRISH_I2C_LOW, ONEGRISH_REGISTER_DATA, lent, 4, &length) == ONEGRISH_DONE, "a read of the data");
    expect(length == ONEGRISH_I2C_READ && lent[3] == UNTOUCHED, "both messages are three bytes, and the fourth stays");
    expect(lent[0] == 0xEC && lent[1] == 0xF7 && lent[ONEGRISH_I2C_READ_FIRST] == 0xED, "the second message is the third byte");
}

int main(void) {
    expect(onegrish_version() == ONEGRISH_VERSION, "the header's version is the library's");
    try_words();
    try_places();
    try_kept();
    try_points();
    try_rooms();
    try_null();
    try_read();
    if (wrong == 0) printf("tests/c: %d facts hold on places, kept words, map points, rooms, null pointers, messages and the version\n", asked);
    return wrong != 0;
}
