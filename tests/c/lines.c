/* Answers the bench's lines on words, readings, days, map points, rooms, waits, polls and bus bytes through the library for C, so that its
 * answers can be held to the second program's. A reading is asked for twice, from the blocks and with their words kept, and so are two
 * rooms, whole and channel by channel, and a BMP280's reading beside a BME280's with the same block one and bytes. Lines come well formed,
 * with codes, bytes and tolerances in their types; tests/c/run picks such lines. */
#include <stdio.h>

#include "onegrish.h"

enum { LINE = 4096, WORDS = 17 };

static int same(const char *a, const char *b) {
    while (*a && *a == *b) a++, b++;
    return *a == *b;
}

static unsigned digit(char c) {
    return c <= '9' ? c - '0' : (c | 32) - 'a' + 10;
}

/* The bytes of a word of hex pairs, `-` for none; answers how many. */
static size_t bytes_of(const char *word, uint8_t *bytes) {
    size_t n = 0;
    if (word[0] == '-') return 0;
    for (; word[0]; word += 2) bytes[n++] = (uint8_t)(digit(word[0]) * 16 + digit(word[1]));
    return n;
}

static uint64_t number_of(const char *word) {
    uint64_t n = 0;
    for (; *word; word++) n = n * 10 + digit(*word);
    return n;
}

static void print_buffer(const uint8_t *lent, size_t room) {
    printf(" buf=");
    if (room == 0) putchar('-');
    for (size_t i = 0; i < room; i++) printf("%02X", lent[i]);
    putchar('\n');
}

static void answer_cal(char **w) {
    static const char *names[ONEGRISH_WORDS] = {"T1", "T2", "T3", "P1", "P2", "P3", "P4", "P5", "P6",
                                                "P7", "P8", "P9", "H1", "H2", "H3", "H4", "H5", "H6"};
    uint8_t one[LINE], two[LINE];
    int16_t words[ONEGRISH_WORDS];
    size_t n = bytes_of(w[1], one), m = bytes_of(w[2], two);
    unsigned answer = onegrish_words(one, n, two, m, words, ONEGRISH_WORDS);
    printf("%u", answer);
    for (int i = 0; answer == 0 && i < ONEGRISH_WORDS; i++)
        printf(" %s=%d", names[i], i == ONEGRISH_T1 || i == ONEGRISH_P1 ? (uint16_t)words[i] : words[i]);
    putchar('\n');
}

/* A reading: what was answered, and the lent places afterwards. */
struct reading {
    uint8_t answer, numbers[ONEGRISH_NUMBERS];
    int64_t values[ONEGRISH_VALUES];
};

/* The same reading with the words of the blocks, kept. */
static struct reading by_words(const uint8_t *one, size_t n, const uint8_t *two, size_t m, const uint8_t *bytes, size_t k,
                               uint8_t t, uint8_t p, uint8_t h) {
    struct reading r = {0, {99, 99, 99}, {-1, -1, -1, -1}};
    int16_t words[ONEGRISH_WORDS];
    r.answer = onegrish_words(one, n, two, m, words, ONEGRISH_WORDS);
    if (r.answer == 0)
        r.answer = onegrish_compensate_words(words, ONEGRISH_WORDS, bytes, k, t, p, h, r.numbers, 3, r.values, 4);
    return r;
}

static int are_same(const struct reading *a, const struct reading *b) {
    int same = a->answer == b->answer;
    for (int i = 0; i < ONEGRISH_NUMBERS; i++) same &= a->numbers[i] == b->numbers[i];
    for (int i = 0; i < ONEGRISH_VALUES; i++) same &= a->values[i] == b->values[i];
    return same;
}

/* The three channels of a reading. */
static void print_channels(const struct reading *r) {
    if (r->numbers[0]) printf(" t!%u", r->numbers[0]);
    else printf(" t=%lld fine=%lld", (long long)r->values[0], (long long)r->values[1]);
    if (r->numbers[1]) printf(" p!%u", r->numbers[1]);
    else printf(" p=%lld", (long long)r->values[2]);
    if (r->numbers[2]) printf(" h!%u", r->numbers[2]);
    else printf(" h=%lld", (long long)r->values[3]);
}

static void answer_comp(char **w) {
    uint8_t one[LINE], two[LINE], bytes[LINE];
    struct reading r = {0, {99, 99, 99}, {-1, -1, -1, -1}}, kept;
    size_t n = bytes_of(w[1], one), m = bytes_of(w[2], two), k = bytes_of(w[3], bytes);
    uint8_t t = (uint8_t)number_of(w[4]), p = (uint8_t)number_of(w[5]), h = (uint8_t)number_of(w[6]);
    r.answer = onegrish_compensate(one, n, two, m, bytes, k, t, p, h, r.numbers, 3, r.values, 4);
    kept = by_words(one, n, two, m, bytes, k, t, p, h);
    if (!are_same(&r, &kept)) printf("with kept words otherwise: ");
    printf("%u", r.answer);
    if (r.answer == 0) print_channels(&r);
    putchar('\n');
}

/* A BMP280's reading. With any block two and two bytes more, a BME280's has the same temperature and the same pressure. */
static void answer_bmp(char **w) {
    static const uint8_t seven[ONEGRISH_BLOCK_TWO] = {0x6A, 0x01, 0x00, 0x13, 0x29, 0x03, 0x1E};
    uint8_t one[LINE], two[LINE], bytes[LINE + 2];
    struct reading r = {0, {99, 99, 99}, {-1, -1, -1, -1}}, bme280 = r;
    size_t n = bytes_of(w[1], one), m = bytes_of(w[2], two), k = bytes_of(w[3], bytes);
    uint8_t t = (uint8_t)number_of(w[4]), p = (uint8_t)number_of(w[5]), h = (uint8_t)number_of(w[6]);
    r.answer = onegrish_compensate_bmp280(one, n, two, m, bytes, k, t, p, h, r.numbers, 3, r.values, 4);
    bytes[k] = 0x6D, bytes[k + 1] = 0x60;
    bme280.answer = onegrish_compensate(one, n, seven, m ? 0 : 7, bytes, k + 2, t, p, h, bme280.numbers, 3, bme280.values, 4);
    bme280.numbers[2] = r.answer ? 99 : ONEGRISH_SKIPPED, bme280.values[3] = -1;
    if (!are_same(&r, &bme280)) printf("a BME280 otherwise: ");
    printf("%u", r.answer);
    if (r.answer == 0) print_channels(&r);
    putchar('\n');
}

/* An answer of a day beside the single call's for the same bytes and codes. */
static int is_single(const int64_t *row, const struct reading *r) {
    int same = row[ONEGRISH_DAY_NUMBER] == r->answer;
    for (int i = 0; i < ONEGRISH_NUMBERS; i++) {
        static const int numbers[3] = {ONEGRISH_DAY_NUMBER_T, ONEGRISH_DAY_NUMBER_P, ONEGRISH_DAY_NUMBER_H};
        static const int values[3] = {ONEGRISH_DAY_VALUE_T, ONEGRISH_DAY_VALUE_P, ONEGRISH_DAY_VALUE_H};
        static const int places[3] = {ONEGRISH_VALUE_T, ONEGRISH_VALUE_P, ONEGRISH_VALUE_H};
        int64_t number = r->answer ? r->answer : r->numbers[i];
        same &= row[numbers[i]] == number && row[values[i]] == (number ? 0 : r->values[places[i]]);
        if (i == 0) same &= row[ONEGRISH_DAY_VALUE_FINE] == (number ? 0 : r->values[ONEGRISH_VALUE_FINE]);
    }
    return same;
}

/* A list of readings, each held to the single call; where the list is refused, nothing may be written. */
static void answer_day(char **w) {
    enum { MOST = 256 * ONEGRISH_DAY_NUMBERS, UNTOUCHED = -7 };
    static uint8_t one[LINE], two[LINE], readings[LINE];
    static int64_t rows[MOST];
    size_t n = bytes_of(w[1], one), m = bytes_of(w[2], two), k = bytes_of(w[3], readings), count = number_of(w[4]);
    for (size_t i = 0; i < MOST; i++) rows[i] = UNTOUCHED;
    unsigned answer = onegrish_day(one, n, two, m, readings, k, rows, count * ONEGRISH_DAY_NUMBERS);
    printf("%u", answer);
    for (size_t i = 0; i < MOST; i++)
        if ((answer || i >= count * ONEGRISH_DAY_NUMBERS) && rows[i] != UNTOUCHED) printf(" written");
    for (size_t i = 0; answer == 0 && i < count; i++) {
        const uint8_t *at = readings + i * ONEGRISH_DAY_READING;
        struct reading r = {0, {99, 99, 99}, {-1, -1, -1, -1}};
        r.answer = onegrish_compensate(one, n, two, m, at, 8, at[8], at[9], at[10], r.numbers, 3, r.values, 4);
        if (!is_single(rows + i * ONEGRISH_DAY_NUMBERS, &r)) printf(" otherwise");
        if (i) printf(" ;");
        if (r.answer) printf(" %u", r.answer);
        else print_channels(&r);
    }
    putchar('\n');
}

/* The bytes and codes of a reading, as six words of a line have them. */
struct asked {
    uint8_t one[LINE], two[LINE], bytes[LINE], t, p, h;
    size_t n, m, k;
};

static void ask(char **w, struct asked *a) {
    a->n = bytes_of(w[0], a->one), a->m = bytes_of(w[1], a->two), a->k = bytes_of(w[2], a->bytes);
    a->t = (uint8_t)number_of(w[3]), a->p = (uint8_t)number_of(w[4]), a->h = (uint8_t)number_of(w[5]);
}

/* A double's bits, or with a number what stands in its place. */
static void print_cell(char name, double value, unsigned number) {
    union { double value; uint64_t bits; } cell = {value};
    if (number) printf("%c!%u", name, number);
    else printf("%c=%016llX", name, (unsigned long long)cell.bits);
}

/* point and cells: the same call, with the flags of the doubles or with the numbers. */
static void answer_point(char **w, int cells) {
    static struct asked a;
    double doubles[ONEGRISH_POINT];
    uint8_t known[ONEGRISH_POINT], numbers[ONEGRISH_POINT];
    ask(w + 1, &a);
    if (onegrish_point(a.one, a.n, a.two, a.m, a.bytes, a.k, a.t, a.p, a.h, doubles, 3, known, 3, numbers, 3) != ONEGRISH_DONE)
        printf("refused: ");
    for (int i = 0; i < ONEGRISH_POINT; i++) {
        if (i) putchar(' ');
        print_cell("tph"[i], doubles[i], cells ? numbers[i] : 0);
    }
    if (!cells) printf(" known=%u,%u,%u", known[0], known[1], known[2]);
    putchar('\n');
}

/* The channels of a reading as they are handed over; one that is refused whole has its number in all three. */
static struct reading read_asked(const struct asked *a) {
    struct reading r = {0, {99, 99, 99}, {-1, -1, -1, -1}};
    r.answer = onegrish_compensate(a->one, a->n, a->two, a->m, a->bytes, a->k, a->t, a->p, a->h, r.numbers, 3, r.values, 4);
    for (int i = 0; r.answer && i < ONEGRISH_NUMBERS; i++) r.numbers[i] = r.answer;
    return r;
}

static void answer_rooms(char **w) {
    static const int places[ONEGRISH_VERDICTS] = {ONEGRISH_VALUE_T, ONEGRISH_VALUE_P, ONEGRISH_VALUE_H};
    static struct asked a, b;
    uint32_t tolerances[ONEGRISH_VERDICTS];
    uint8_t verdicts[ONEGRISH_VERDICTS] = {99, 99, 99};
    struct reading here, there;
    ask(w + 1, &a), ask(w + 7, &b);
    for (int i = 0; i < ONEGRISH_VERDICTS; i++) tolerances[i] = (uint32_t)number_of(w[13 + i]);
    if (onegrish_compare_rooms(a.one, a.n, a.two, a.m, a.bytes, a.k, a.t, a.p, a.h, b.one, b.n, b.two, b.m, b.bytes, b.k, b.t, b.p, b.h,
                               tolerances[0], tolerances[1], tolerances[2], verdicts, 3) != ONEGRISH_DONE)
        printf("refused: ");
    here = read_asked(&a), there = read_asked(&b);
    for (int i = 0; i < ONEGRISH_VERDICTS; i++)
        if (verdicts[i] != onegrish_compare(here.numbers[i], here.values[places[i]], there.numbers[i], there.values[places[i]], tolerances[i]))
            printf("by its channels otherwise: ");
    for (int i = 0; i < ONEGRISH_VERDICTS; i++)
        printf("%s%c=%s", i ? " " : "", "tph"[i],
               verdicts[i] == ONEGRISH_AGREE ? "agree" : verdicts[i] == ONEGRISH_DIFFER ? "differ" : verdicts[i] == ONEGRISH_UNKNOWN ? "unknown" : "?");
    putchar('\n');
}

static void answer_wait(char **w) {
    uint32_t microseconds;
    uint8_t t = (uint8_t)number_of(w[2]), p = (uint8_t)number_of(w[3]), h = (uint8_t)number_of(w[4]);
    unsigned answer = same(w[1], "max") ? onegrish_maximum_wait(t, p, h, &microseconds)
                                        : onegrish_typical_wait(t, p, h, &microseconds);
    if (answer == 0) printf("0 %u\n", microseconds);
    else printf("%u\n", answer);
}

static void answer_poll(char **w) {
    uint8_t status[LINE];
    size_t n = bytes_of(w[2], status), allowance = number_of(w[1]), place;
    unsigned answer = onegrish_poll(status, n, allowance, &place);
    printf("%u", answer);
    if (answer == 0) printf(" place=%zu", place);
    printf(" polls=%zu\n", onegrish_polls(status, n, allowance));
}

/* i2c and spi: write, decode and read, with a lent buffer of the length that the last word says, filled with AA. */
static void answer_bus(char **w, int count) {
    uint8_t bytes[LINE], lent[256], address = 0;
    size_t room = number_of(w[count - 1]), length = 0, n;
    int i2c = w[0][0] == 'i';
    unsigned answer;
    for (size_t i = 0; i < room; i++) lent[i] = 0xAA;
    if (same(w[1], "write")) {
        n = bytes_of(w[count - 2], bytes);
        if (i2c) bytes_of(w[2], &address);
        answer = i2c ? onegrish_i2c_write(address, bytes, n, lent, room, &length)
                     : onegrish_spi_write(bytes, n, lent, room, &length);
    } else if (same(w[1], "read")) {
        bytes_of(w[count - 2], bytes);
        if (i2c) bytes_of(w[2], &address);
        answer = i2c ? onegrish_i2c_read(address, bytes[0], lent, room, &length)
                     : onegrish_spi_read(bytes[0], lent, room, &length);
    } else {
        n = bytes_of(w[2], bytes);
        answer = i2c ? onegrish_i2c_decode(bytes, n, lent, room, &address, &length)
                     : onegrish_spi_decode(bytes, n, lent, room, &length);
    }
    printf("%u", answer);
    if (answer == 0 && i2c && same(w[1], "decode")) printf(" addr=%02X", address);
    if (answer == 0) printf(" n=%zu", length);
    print_buffer(lent, room);
}

int main(void) {
    static char line[LINE + 1];
    char *words[WORDS];
    int count = 0, at = 0, byte;
    words[0] = line;
    while ((byte = getchar()) != EOF) {
        if (byte == ' ' || byte == '\n') {
            line[at++] = 0;
            count++;
            if (byte == ' ') words[count] = line + at;
            else {
                if (same(words[0], "cal")) answer_cal(words);
                else if (same(words[0], "comp")) answer_comp(words);
                else if (same(words[0], "bmp")) answer_bmp(words);
                else if (same(words[0], "day")) answer_day(words);
                else if (same(words[0], "point")) answer_point(words, 0);
                else if (same(words[0], "cells")) answer_point(words, 1);
                else if (same(words[0], "rooms")) answer_rooms(words);
                else if (same(words[0], "wait")) answer_wait(words);
                else if (same(words[0], "poll")) answer_poll(words);
                else answer_bus(words, count);
                count = at = 0;
            }
        } else
            line[at++] = (char)byte;
    }
    return 0;
}
