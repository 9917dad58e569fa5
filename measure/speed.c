// One side of a measurement, or both held to each other:
//   speed library|maker blocks|words|six real|junk ROUNDS  the readings ROUNDS times over
//   speed compare blocks|words|six real|junk               both once: how many channels agree, how many the library refused
//   speed library cycle ROUNDS                             the machine's forced cycles ROUNDS times over
//   speed library|maker|three day real|junk ROUNDS         a day's list of readings in one call, ROUNDS times over
//   speed library|maker|three days real|junk ROUNDS        the same with a hundred days in one list
//   speed compare day|days real|junk                       both once, as above
//   speed library|maker wait ROUNDS                        the longest wait at each triple of codes, ROUNDS times over
//   speed compare wait                                     both once: how many waits agree
// A round is 1,440 readings, a day with one a minute (of `days` 144,000), or as many cycles, or the 512 triples of codes from 0 to 7. blocks: each reading
// is a call from the raw blocks, onegrish_compensate beside a function of the C's that decodes too; words: the words are decoded before
// the first round, and each reading is a call of onegrish_compensate_words beside a turn of the C's loop. six: a BMP280's readings, each a call from
// the raw block, onegrish_compensate_bmp280 beside a function of the C's. day: all readings are one call of
// onegrish_day beside a function of the C's that decodes once; the C stores the eight numbers that the library stores, or as `three` the
// three values alone. All that a round reads is made before the first, so that the difference of two runs is the rounds' own work.
#include "maker.h"
#include <onegrish.h>
#include <stdio.h>

int strcmp(const char *, const char *);
int atoi(const char *);

// The machine's cycles, of crates/measure_cycles. A slice is a pointer and a length.
uint8_t speed_cycles(uint32_t n, uint8_t f4, uint32_t t, uint32_t p, uint32_t h, uint8_t *lent, size_t);

enum { READINGS = 1440, TRIPLES = 512, DAYS = 100, MOST = READINGS * DAYS };
static uint8_t one[READINGS][26], two[READINGS][7], data[READINGS][8];
static uint8_t numbers[READINGS][3];
static int64_t values[READINGS][4], by_maker[READINGS * 3];
static int16_t words[ONEGRISH_WORDS];
static struct maker_words decoded;
static uint8_t flat[MOST * ONEGRISH_DAY_READING];
static int64_t rows[MOST * ONEGRISH_DAY_NUMBERS], rows_by_maker[MOST * ONEGRISH_DAY_NUMBERS];
static size_t listed;
static uint32_t waits[TRIPLES], waits_by_maker[TRIPLES];

// T1 to P9 are the bench sheet's, H1 to H6 those of a usual chip: 75, 362, 0, 313, 50, 30.
static const uint8_t CHIP_ONE[26] = {
    0x70, 0x6B, 0x43, 0x67, 0x18, 0xFC, 0x7D, 0x8E, 0x43, 0xD6, 0xD0, 0x0B, 0x27, 0x0B, 0x8C, 0x00,
    0xF9, 0xFF, 0x8C, 0x3C, 0xF8, 0xC6, 0x70, 0x17, 0x00, 0x4B,
};
static const uint8_t CHIP_TWO[7] = {0x6A, 0x01, 0x00, 0x13, 0x29, 0x03, 0x1E};

static uint64_t state = 1;
static uint32_t next(void) {
    state = state * 6364136223846793005u + 1442695040888963407u;
    return (uint32_t)(state >> 33);
}

// A number that goes from low to high and back in a day, with some noise.
static uint32_t swing(uint32_t i, uint32_t low, uint32_t high, uint32_t noise) {
    uint32_t half = READINGS / 2, up = i < half ? i : READINGS - i;
    return low + (high - low) * up / half + next() % noise;
}

static void lay(uint8_t *to, uint32_t t, uint32_t p, uint32_t h) {
    to[0] = p >> 12, to[1] = p >> 4, to[2] = p << 4;
    to[3] = t >> 12, to[4] = t >> 4, to[5] = t << 4;
    to[6] = h >> 8, to[7] = h;
}

// A day in an old house: 4.8 to 31.1 degrees, 959 to 1050 hPa, 24 to 81 %RH.
static void make_real(void) {
    for (uint32_t i = 0; i < READINGS; i++) {
        __builtin_memcpy(one[i], CHIP_ONE, 26);
        __builtin_memcpy(two[i], CHIP_TWO, 7);
        lay(data[i], swing(i, 455000, 539000, 600), swing(i * 7 % READINGS, 392000, 428000, 300), swing(i * 3 % READINGS, 24500, 34500, 120));
    }
}

// Any bytes at all, but that the first reading has a chip's blocks: kept words are those.
static void make_junk(void) {
    for (uint32_t i = 0; i < READINGS; i++) {
        for (uint32_t k = 0; k < 26; k++) one[i][k] = next();
        for (uint32_t k = 0; k < 7; k++) two[i][k] = next();
        for (uint32_t k = 0; k < 8; k++) data[i][k] = next();
    }
    __builtin_memcpy(one[0], CHIP_ONE, 26);
    __builtin_memcpy(two[0], CHIP_TWO, 7);
}

static void library_blocks(void) {
    for (size_t i = 0; i < READINGS; i++)
        onegrish_compensate(one[i], 26, two[i], 7, data[i], 8, 1, 1, 1, numbers[i], 3, values[i], 4);
}

static void maker_blocks(void) {
    for (size_t i = 0; i < READINGS; i++)
        maker_reading(one[i], two[i], data[i], by_maker + 3 * i);
}

static void library_six(void) {
    for (size_t i = 0; i < READINGS; i++)
        onegrish_compensate_bmp280(one[i], 26, two[i], 0, data[i], 6, 1, 1, 1, numbers[i], 3, values[i], 4);
}

static void maker_six(void) {
    for (size_t i = 0; i < READINGS; i++)
        maker_reading_bmp280(one[i], data[i], by_maker + 3 * i);
}

static void library_words(void) {
    for (size_t i = 0; i < READINGS; i++)
        onegrish_compensate_words(words, ONEGRISH_WORDS, data[i], 8, 1, 1, 1, numbers[i], 3, values[i], 4);
}

static void maker_words(void) { maker_readings(&decoded, data[0], READINGS, by_maker); }

// The readings one after the other as a list, so many days over, each with one sample of each channel.
static void make_list(size_t days) {
    listed = days * READINGS;
    for (size_t i = 0; i < listed; i++) {
        uint8_t *to = flat + i * ONEGRISH_DAY_READING;
        __builtin_memcpy(to, data[i % READINGS], 8);
        to[8] = to[9] = to[10] = 1;
    }
}

static uint8_t library_day_answer(void) {
    return onegrish_day(one[0], 26, two[0], 7, flat, listed * ONEGRISH_DAY_READING, rows, listed * ONEGRISH_DAY_NUMBERS);
}

static void library_day(void) { library_day_answer(); }
static void maker_whole_day(void) { maker_day(one[0], two[0], flat, listed, rows_by_maker); }
static void maker_three(void) { maker_day_of_three(one[0], two[0], flat, listed, rows_by_maker); }

static int compare_days(int real) {
    static const int numbers_at[3] = {ONEGRISH_DAY_NUMBER_T, ONEGRISH_DAY_NUMBER_P, ONEGRISH_DAY_NUMBER_H};
    static const int values_at[3] = {ONEGRISH_DAY_VALUE_T, ONEGRISH_DAY_VALUE_P, ONEGRISH_DAY_VALUE_H};
    int same = 0, refused = 0, apart = 0;
    int done = library_day_answer() == ONEGRISH_DONE;
    maker_whole_day();
    for (size_t i = 0; i < listed; i++) {
        const int64_t *row = rows + i * ONEGRISH_DAY_NUMBERS, *by_c = rows_by_maker + i * ONEGRISH_DAY_NUMBERS;
        for (int k = 0; k < 3; k++) {
            if (row[numbers_at[k]]) refused++;
            else if (row[values_at[k]] == by_c[values_at[k]]) same++;
            else apart++;
        }
        if (real) apart += row[ONEGRISH_DAY_NUMBER] != 0 || row[ONEGRISH_DAY_VALUE_FINE] != by_c[ONEGRISH_DAY_VALUE_FINE];
    }
    printf("%d channels agree, %d refused, %d apart\n", same, refused, apart);
    return !done || apart != 0 || (real && refused != 0);
}

// Mode 1 with one sample of each channel, as 0x25 says.
static int run_cycles(int rounds) {
    static uint8_t lent[8], laid[8];
    lay(laid, 519888, 415148, 28000);
    for (int i = 0; i < rounds; i++)
        speed_cycles(READINGS, 0x25, 519888, 415148, 28000, lent, 8);
    laid[6] = 0x80, laid[7] = 0; // humidity is skipped: F2 was never written
    return rounds > 0 && __builtin_memcmp(lent, laid, 8) != 0;
}

static void library_waits(void) {
    for (uint32_t i = 0; i < TRIPLES; i++)
        onegrish_maximum_wait(i & 7, i >> 3 & 7, i >> 6, waits + i);
}

static void maker_waits(void) {
    for (uint32_t i = 0; i < TRIPLES; i++)
        maker_wait(i & 7, i >> 3 & 7, i >> 6, waits_by_maker + i);
}

static int compare_waits(void) {
    int same = 0;
    library_waits();
    maker_waits();
    for (int i = 0; i < TRIPLES; i++) same += waits[i] == waits_by_maker[i];
    printf("%d waits agree, %d apart\n", same, TRIPLES - same);
    return same != TRIPLES;
}

static int compare(void (*library)(void), void (*maker)(void)) {
    static const int places[3] = {ONEGRISH_VALUE_T, ONEGRISH_VALUE_P, ONEGRISH_VALUE_H};
    int same = 0, refused = 0, apart = 0;
    library();
    maker();
    for (size_t i = 0; i < READINGS; i++) {
        for (int k = 0; k < 3; k++) {
            if (numbers[i][k]) refused++;
            else if (values[i][places[k]] == by_maker[3 * i + k]) same++;
            else apart++;
        }
    }
    printf("%d channels agree, %d refused, %d apart\n", same, refused, apart);
    return apart != 0;
}

int main(int argc, char **argv) {
    if (argc == 4 && !strcmp(argv[2], "cycle"))
        return run_cycles(atoi(argv[3]));
    if (argc == 3 && !strcmp(argv[1], "compare") && !strcmp(argv[2], "wait"))
        return compare_waits();
    if (argc == 4 && !strcmp(argv[2], "wait")) {
        for (int i = atoi(argv[3]); i > 0; i--)
            (strcmp(argv[1], "maker") ? library_waits : maker_waits)();
        return 0;
    }
    if (argc < 4) {
        printf("usage: speed library|maker|compare blocks|words|six|day|days real|junk [ROUNDS], speed three day|days real|junk [ROUNDS], "
               "speed library|maker wait ROUNDS, speed compare wait\n");
        return 2;
    }
    int kept = !strcmp(argv[2], "words"), six = !strcmp(argv[2], "six");
    void (*library)(void) = kept ? library_words : six ? library_six : library_blocks;
    void (*maker)(void) = kept ? maker_words : six ? maker_six : maker_blocks;
    if (!strcmp(argv[3], "junk")) make_junk();
    else make_real();
    onegrish_words(one[0], 26, two[0], 7, words, ONEGRISH_WORDS);
    maker_decode(one[0], two[0], &decoded);
    int day = !strcmp(argv[2], "day"), many = !strcmp(argv[2], "days");
    if (day || many) {
        make_list(day ? 1 : DAYS);
        library = library_day, maker = strcmp(argv[1], "three") ? maker_whole_day : maker_three;
    }
    if (!strcmp(argv[1], "compare"))
        return day || many ? compare_days(!strcmp(argv[3], "real")) : compare(library, maker);
    void (*work)(void) = strcmp(argv[1], "library") ? maker : library;
    for (int i = argc > 4 ? atoi(argv[4]) : 1; i > 0; i--)
        work();
    return 0;
}
