/* What no line can ask of visit records in C: kinds of steps that there are not, numbers that no byte holds, lists of words that make no
 * whole step, the longest record and one with very many steps, null pointers with no element behind them, and the numbers in their
 * order. Says what is wrong, and answers 1 then. */
#include <stdio.h>

#include "onegrish.h"

static int wrong, asked;

static void expect(int holds, const char *what) {
    asked++;
    if (!holds) wrong++, printf("tests/c/visit_edges: not so: %s\n", what);
}

enum { STEP = ONEGRISH_STEP_WORDS, WORDS = (ONEGRISH_MOST_STEPS + 2) * STEP, BYTES = ONEGRISH_MOST_RECORD + 64 };
static const uint32_t UNTOUCHED = 0xA5A5A5A5;
static const size_t UNCOUNTED = 987654321;

static uint32_t steps[WORDS], list[WORDS];
static uint8_t bytes[BYTES], lent[BYTES];
static size_t many, length, count;

/* The bench's own example: 7 s, -0.05 degrees, humidity skipped, in a room of a house. */
static const uint8_t example[32] = {
    0x01, 0x00, 0x1D, 0x01, 0x00, 0x1A, 0x02, 0x00, 0x04, 0x00, 0x00, 0x00, 0x07, 0x03, 0x00, 0x04,
    0xFF, 0xFF, 0xFF, 0xFB, 0x04, 0x00, 0x04, 0x01, 0x89, 0x2D, 0x41, 0x07, 0x00, 0x02, 0x06, 0x0A,
};

static void add(uint32_t kind) {
    for (int i = 0; i < STEP; i++) steps[many * STEP + i] = i ? 0 : kind;
    many++;
}

static void add_slot(uint32_t number, uint32_t humidity) {
    add(ONEGRISH_STEP_SLOT);
    steps[(many - 1) * STEP + ONEGRISH_STEP_NUMBER_H] = number;
    steps[(many - 1) * STEP + ONEGRISH_STEP_VALUE_H] = humidity;
}

/* A house of so many rooms with a reading each, of 31 bytes; in the first ones humidity is missing, which takes 2 bytes less. */
static void make_house(size_t rooms, size_t missing) {
    many = 0;
    add(ONEGRISH_STEP_OPEN);
    for (size_t i = 0; i < rooms; i++) {
        add(ONEGRISH_STEP_OPEN);
        add_slot(i < missing ? ONEGRISH_SKIPPED : ONEGRISH_DONE, 0);
        add(ONEGRISH_STEP_CLOSE);
    }
    add(ONEGRISH_STEP_CLOSE);
}

/* Writes so many words of the steps into so many bytes; answers the number, with 100 where something else is not as it was. */
static unsigned write_words(size_t words, size_t room) {
    unsigned answer;
    count = UNCOUNTED;
    for (size_t i = 0; i < BYTES; i++) lent[i] = 0xAA;
    answer = onegrish_visit_write(steps, words, lent, room, &count);
    if (answer != ONEGRISH_DONE && count != UNCOUNTED) answer += 100;
    for (size_t i = answer == ONEGRISH_DONE ? count : 0; i < BYTES; i++)
        if (lent[i] != 0xAA) return answer + 100;
    return answer;
}

/* The same for a reading, into so many words. */
static unsigned read_bytes(const uint8_t *from, size_t n, size_t words) {
    unsigned answer;
    count = UNCOUNTED;
    for (size_t i = 0; i < WORDS; i++) list[i] = UNTOUCHED;
    answer = onegrish_visit_read(from, n, list, words, &count);
    if (answer != ONEGRISH_DONE && count != UNCOUNTED) answer += 100;
    for (size_t i = answer == ONEGRISH_DONE ? count * STEP : 0; i < WORDS; i++)
        if (list[i] != UNTOUCHED) return answer + 100;
    return answer;
}

static int is_step(size_t place, uint32_t kind, uint32_t time, uint32_t t, int32_t degrees, uint32_t p, uint32_t pressure, uint32_t h, uint32_t humidity) {
    const uint32_t *step = list + place * STEP;
    return step[0] == kind && step[1] == time && step[2] == t && (int32_t)step[3] == degrees && step[4] == p && step[5] == pressure &&
           step[6] == h && step[7] == humidity;
}

static void try_example(void) {
    expect(read_bytes(example, 32, WORDS) == ONEGRISH_DONE && count == 5, "the example has five steps");
    expect(is_step(0, 1, 0, 0, 0, 0, 0, 0, 0) && is_step(1, 1, 0, 0, 0, 0, 0, 0, 0), "two groups begin, with no other word");
    expect(is_step(2, 2, 7, 0, -5, 0, 25767233, 10, 0), "its slot, with a temperature below zero and no humidity");
    expect(is_step(3, 3, 0, 0, 0, 0, 0, 0, 0) && is_step(4, 3, 0, 0, 0, 0, 0, 0, 0), "both groups end");
    for (size_t words = 0; words < 40; words++)
        expect(read_bytes(example, 32, words) == ONEGRISH_BUFFER_TOO_SHORT, "fewer than 40 words give 9, and stay");
    for (size_t words = 40; words < 49; words++) expect(read_bytes(example, 32, words) == ONEGRISH_DONE, "40 words are enough, and those past them stay");
    expect(onegrish_visit_read_offset(example, 32) == 0, "a record that is read has offset 0");
    for (size_t n = 0; n < 32; n++)
        expect(read_bytes(example, n, WORDS) == ONEGRISH_CUT_SHORT && onegrish_visit_read_offset(example, n) == 0, "a record cut anywhere is 18 at 0");
    for (size_t i = 0; i < 32; i++) bytes[i] = example[i];
    bytes[32] = 1;
    expect(read_bytes(bytes, 33, 0) == ONEGRISH_TAG_OUT_OF_PLACE && onegrish_visit_read_offset(bytes, 33) == 32, "a byte after the record is 19, before 9");
    bytes[31] = 15;
    expect(read_bytes(bytes, 32, WORDS) == ONEGRISH_VALUE_OUTSIDE && onegrish_visit_read_offset(bytes, 32) == 27, "a missing answer with 15 is 22");
}

static void try_lengths(void) {
    make_house(2114, 1);
    expect(write_words(many * STEP, ONEGRISH_MOST_RECORD) == ONEGRISH_DONE && count == ONEGRISH_MOST_RECORD, "65,535 bytes are written");
    length = count;
    for (size_t i = 0; i < BYTES; i++) bytes[i] = lent[i];
    expect(read_bytes(bytes, length, many * STEP) == ONEGRISH_DONE && count == many, "and read");
    expect(read_bytes(bytes, length, many * STEP - 1) == ONEGRISH_BUFFER_TOO_SHORT, "one word less gives 9");
    expect(read_bytes(bytes, length + 1, WORDS) == ONEGRISH_WRONG_LENGTH && onegrish_visit_read_offset(bytes, length + 1) == 0, "65,536 bytes give 2");
    bytes[0] = 9;
    expect(read_bytes(bytes, length + 1, 0) == ONEGRISH_WRONG_LENGTH, "2 comes before the tag");
    expect(read_bytes(bytes, length, 0) == ONEGRISH_TAG_OUT_OF_PLACE, "and the tag before 9");
    expect(write_words(many * STEP, ONEGRISH_MOST_RECORD - 1) == ONEGRISH_BUFFER_TOO_SHORT, "one byte less gives 9");
    make_house(2114, 0);
    expect(write_words(many * STEP, BYTES) == ONEGRISH_WRONG_LENGTH, "65,537 bytes are 2, in any buffer");
    expect(onegrish_visit_write_place(steps, many * STEP) == 0, "2 has no place");
    expect(write_words(many * STEP, 0) == ONEGRISH_WRONG_LENGTH, "2 comes before 9");
}

/* 31 bytes have 7 steps where a group in a group in a group holds a reading of no value. */
static void try_most_steps(void) {
    many = 0;
    add(ONEGRISH_STEP_OPEN);
    for (int i = 0; i < 2113; i++) {
        for (int k = 0; k < 3; k++) add(ONEGRISH_STEP_OPEN);
        add_slot(ONEGRISH_SKIPPED, 0);
        steps[(many - 1) * STEP + ONEGRISH_STEP_NUMBER_T] = steps[(many - 1) * STEP + ONEGRISH_STEP_NUMBER_P] = ONEGRISH_SKIPPED;
        for (int k = 0; k < 3; k++) add(ONEGRISH_STEP_CLOSE);
    }
    add(ONEGRISH_STEP_CLOSE);
    expect(many == 14793 && write_words(many * STEP, ONEGRISH_MOST_RECORD) == ONEGRISH_DONE && count == 65506, "14,793 steps are written");
    length = count;
    for (size_t i = 0; i < length; i++) bytes[i] = lent[i];
    expect(read_bytes(bytes, length, ONEGRISH_MOST_STEPS * STEP) == ONEGRISH_DONE && count == many, "and read into a list of ONEGRISH_MOST_STEPS");
    expect(read_bytes(bytes, length, many * STEP - 1) == ONEGRISH_BUFFER_TOO_SHORT, "one word less gives 9");
}

/* Humidity is not looked at where it is missing, and no number but 10 to 14 stands for a missing one. */
static void try_values(void) {
    static const struct { uint32_t number, humidity; unsigned answer; } tried[] = {
        {0, 102400, 0}, {0, 102401, 22}, {0, 0xFFFFFFFF, 22}, {10, 0xFFFFFFFF, 0}, {14, 102401, 0}, {9, 0, 22}, {15, 0, 22}, {1, 0, 22},
        {256, 0, 22}, {266, 0, 22}, {0x0A000000, 0, 22}, {0xFFFFFFFF, 0, 22},
    };
    for (size_t i = 0; i < sizeof tried / sizeof *tried; i++) {
        many = 0;
        add(ONEGRISH_STEP_OPEN), add_slot(tried[i].number, tried[i].humidity), add(ONEGRISH_STEP_CLOSE);
        expect(write_words(3 * STEP, BYTES) == tried[i].answer, "a humidity or its number");
        expect(onegrish_visit_write_place(steps, 3 * STEP) == (tried[i].answer ? 1 : 0), "the place of its step");
    }
}

static void try_kinds(void) {
    static const uint32_t strange[] = {0, 4, 255, 256, 257, 0x01000000, 0xFFFFFFFF};
    make_house(1, 0);
    for (size_t words = 0; words < many * STEP; words++) {
        expect(write_words(words, BYTES) == ONEGRISH_TAG_OUT_OF_PLACE, "a list that ends too soon is 19");
        expect(onegrish_visit_write_place(steps, words) == words / STEP, "with its number of steps");
    }
    for (size_t extra = 0; extra < STEP; extra++) expect(write_words(many * STEP + extra, BYTES) == ONEGRISH_DONE, "words of no whole step are none");
    for (size_t place = 0; place < many; place++)
        for (size_t i = 0; i < sizeof strange / sizeof *strange; i++) {
            uint32_t kind = steps[place * STEP];
            steps[place * STEP] = strange[i];
            expect(write_words(many * STEP, 0) == ONEGRISH_TAG_OUT_OF_PLACE, "a kind that there is not is 19");
            expect(onegrish_visit_write_place(steps, many * STEP) == place, "at its place");
            steps[place * STEP] = kind;
        }
    many = 0;
    for (int i = 0; i < 5; i++) add(ONEGRISH_STEP_OPEN);
    expect(write_words(many * STEP, 0) == ONEGRISH_TOO_DEEP && onegrish_visit_write_place(steps, many * STEP) == 4, "a fifth level is 21 at its step");
}

/* A null pointer with 0 elements is read and written nowhere. */
static void try_null(void) {
    count = UNCOUNTED;
    expect(onegrish_visit_read(NULL, 0, NULL, 0, &count) == ONEGRISH_CUT_SHORT, "no record is 18");
    expect(onegrish_visit_read_offset(NULL, 0) == 0, "at 0");
    expect(onegrish_visit_read(example, 32, NULL, 0, &count) == ONEGRISH_BUFFER_TOO_SHORT, "no list gives 9");
    expect(onegrish_visit_write(NULL, 0, NULL, 0, &count) == ONEGRISH_TAG_OUT_OF_PLACE, "no step is 19");
    expect(onegrish_visit_write_place(NULL, 0) == 0, "at 0");
    make_house(1, 0);
    expect(onegrish_visit_write(steps, many * STEP, NULL, 0, &count) == ONEGRISH_BUFFER_TOO_SHORT, "no buffer gives 9");
    expect(count == UNCOUNTED, "refusals count nothing");
}

int main(void) {
    try_example();
    try_lengths();
    try_most_steps();
    try_values();
    try_kinds();
    try_null();
    if (wrong == 0) printf("tests/c: %d facts hold on visit records: steps, lengths, values, kinds and null pointers\n", asked);
    return wrong != 0;
}
