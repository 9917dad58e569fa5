/* What no line can ask of a day in C: lists of numbers that make no whole answers, null pointers with no element behind them, a list
 * longer than a line, each bad code, and what is left of a list when a day is refused. Says what is wrong, and answers 1 then. */
#include <stdio.h>

#include "onegrish.h"

static int wrong, asked;

static void expect(int holds, const char *what) {
    asked++;
    if (!holds) wrong++, printf("tests/c/day_edges: not so: %s\n", what);
}

enum { READING = ONEGRISH_DAY_READING, NUMBERS = ONEGRISH_DAY_NUMBERS, MANY = 20000 };
static const int64_t UNTOUCHED = -123456789;
static const uint8_t one[26] = {
    0x70, 0x6B, 0x43, 0x67, 0x18, 0xFC, 0x7D, 0x8E, 0x43, 0xD6, 0xD0, 0x0B, 0x27, 0x0B, 0x8C, 0x00,
    0xF9, 0xFF, 0x8C, 0x3C, 0xF8, 0xC6, 0x70, 0x17, 0x00, 0x4B,
};
static const uint8_t two[7] = {0x6A, 0x01, 0x00, 0x13, 0x29, 0x03, 0x1E};
static uint8_t readings[MANY * READING];
static int64_t answers[MANY * NUMBERS + 1];

static void clear(void) {
    for (size_t i = 0; i < sizeof answers / sizeof *answers; i++) answers[i] = UNTOUCHED;
}

static size_t touched(void) {
    size_t n = 0;
    for (size_t i = 0; i < sizeof answers / sizeof *answers; i++) n += answers[i] != UNTOUCHED;
    return n;
}

static uint8_t ask(size_t bytes, size_t numbers) {
    clear();
    return onegrish_day(one, 26, two, 7, readings, bytes, answers, numbers);
}

/* Real air with a count that tells every place from the next. */
static void make(void) {
    for (size_t i = 0; i < MANY; i++) {
        uint8_t *to = readings + i * READING;
        uint32_t t = 455000 + (uint32_t)i * 4 % 84000, p = 392000 + (uint32_t)i, h = 24500 + (uint32_t)i % 10000;
        to[0] = (uint8_t)(p >> 12), to[1] = (uint8_t)(p >> 4), to[2] = (uint8_t)(p << 4);
        to[3] = (uint8_t)(t >> 12), to[4] = (uint8_t)(t >> 4), to[5] = (uint8_t)(t << 4);
        to[6] = (uint8_t)(h >> 8), to[7] = (uint8_t)h;
        to[8] = to[9] = to[10] = 1;
    }
}

/* Whether the answer at a place is the single call's for the reading there. */
static int is_single(size_t at) {
    const uint8_t *r = readings + at * READING;
    const int64_t *a = answers + at * NUMBERS;
    uint8_t numbers[3];
    int64_t values[4];
    if (onegrish_compensate(one, 26, two, 7, r, 8, r[8], r[9], r[10], numbers, 3, values, 4) != ONEGRISH_DONE) return 0;
    return a[0] == 0 && a[1] == numbers[0] && a[4] == numbers[1] && a[6] == numbers[2] && a[2] == (numbers[0] ? 0 : values[0]) &&
           a[3] == (numbers[0] ? 0 : values[1]) && a[5] == (numbers[1] ? 0 : values[2]) && a[7] == (numbers[2] ? 0 : values[3]);
}

static void lengths(void) {
    for (size_t bytes = 0; bytes <= 3 * READING; bytes++)
        for (size_t numbers = 0; numbers <= 4 * NUMBERS; numbers++) {
            int fits = bytes % READING == 0 && numbers == bytes / READING * NUMBERS;
            expect(ask(bytes, numbers) == (fits ? ONEGRISH_DONE : ONEGRISH_WRONG_LENGTH), "a day is done exactly where the lists are equally long");
            expect(touched() == (fits ? numbers : 0), "all of the answers are written, or none");
        }
    expect(onegrish_day(one, 26, two, 7, NULL, 0, NULL, 0) == ONEGRISH_DONE, "two empty lists are done");
    expect(onegrish_day(NULL, 0, two, 7, NULL, 0, NULL, 0) == ONEGRISH_WRONG_LENGTH, "empty lists with no block one are refused");
    expect(onegrish_day(one, 26, two, 6, NULL, 0, NULL, 0) == ONEGRISH_WRONG_LENGTH, "empty lists with a short block two are refused");
}

static void long_list(void) {
    int right = 1;
    expect(ask(MANY * READING, MANY * NUMBERS) == ONEGRISH_DONE, "a long list is done");
    for (size_t i = 0; i < MANY; i++) right &= is_single(i);
    expect(right, "each place of a long list has the single call's answer");
    expect(answers[MANY * NUMBERS] == UNTOUCHED, "the number after the list stays");
    expect(ask(MANY * READING, MANY * NUMBERS + 1) == ONEGRISH_WRONG_LENGTH && touched() == 0, "one number too many refuses the list");
    expect(ask(MANY * READING - 1, MANY * NUMBERS) == ONEGRISH_WRONG_LENGTH && touched() == 0, "a last reading that is cut refuses the list");
}

static void codes(void) {
    for (int code = 0; code < 256; code++)
        for (int channel = 0; channel < 3; channel++) {
            int64_t *bad = answers + 5 * NUMBERS;
            readings[5 * READING + 8 + channel] = (uint8_t)code;
            expect(ask(11 * READING, 11 * NUMBERS) == ONEGRISH_DONE, "a bad code does not refuse the day");
            if (code > 7)
                expect(bad[0] == 7 && bad[1] == 7 && bad[2] == 0 && bad[3] == 0 && bad[4] == 7 && bad[5] == 0 && bad[6] == 7 && bad[7] == 0,
                       "a place with a bad code holds 7, and 0 in the places of values");
            else expect(is_single(5), "a place with a code of 0 to 7 has the single call's answer");
            expect(is_single(4) && is_single(6) && is_single(10), "the places beside a bad code go on");
            readings[5 * READING + 8 + channel] = 1;
        }
}

int main(void) {
    make();
    lengths();
    long_list();
    codes();
    if (wrong == 0) printf("tests/c: %d facts of a day hold\n", asked);
    return wrong != 0;
}
