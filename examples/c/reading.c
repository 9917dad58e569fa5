/* Prints one compensated reading: the chip and the counts of K1 and K2 of the bench sheet, humidity skipped. Then its map point, and
 * what its room and the next one, where it is warmer, are to each other. examples/c/build builds and runs it. */
#include <stdio.h>

#include "onegrish.h"

static const uint8_t one[26] = {
    0x70, 0x6B, 0x43, 0x67, 0x18, 0xFC, 0x7D, 0x8E, 0x43, 0xD6, 0xD0, 0x0B, 0x27,
    0x0B, 0x8C, 0x00, 0xF9, 0xFF, 0x8C, 0x3C, 0xF8, 0xC6, 0x70, 0x17, 0x00, 0x00,
};
static const uint8_t two[7] = {0};
static const uint8_t bytes[8] = {0x65, 0x5A, 0xC0, 0x7E, 0xED, 0x00, 0x80, 0x00};
static const uint8_t next[8] = {0x65, 0xA0, 0xC0, 0x7F, 0xC0, 0x00, 0x80, 0x00};

/* A map point has three doubles, each with a flag that says whether it means anything. */
static void print_point(void) {
    static const char *names[ONEGRISH_POINT] = {"temperature", "pressure", "humidity"};
    double doubles[ONEGRISH_POINT];
    uint8_t known[ONEGRISH_POINT], numbers[ONEGRISH_POINT];
    onegrish_point(one, ONEGRISH_BLOCK_ONE, two, ONEGRISH_BLOCK_TWO, bytes, ONEGRISH_DATA, ONEGRISH_CODE_1, ONEGRISH_CODE_1, ONEGRISH_CODE_SKIPPED,
                   doubles, ONEGRISH_POINT, known, ONEGRISH_POINT, numbers, ONEGRISH_POINT);
    for (int i = 0; i < ONEGRISH_POINT; i++) {
        if (known[i]) printf("map point: %s %.8g\n", names[i], doubles[i]);
        else printf("map point: no %s (%u)\n", names[i], numbers[i]);
    }
}

/* Two rooms agree within half a degree, 50 Pa and 3 %RH. A channel that one of them has no value for is unknown. */
static void print_rooms(void) {
    static const char *said[] = {[ONEGRISH_UNKNOWN] = "unknown", [ONEGRISH_AGREE] = "agree", [ONEGRISH_DIFFER] = "differ"};
    uint8_t verdicts[ONEGRISH_VERDICTS];
    onegrish_compare_rooms(one, ONEGRISH_BLOCK_ONE, two, ONEGRISH_BLOCK_TWO, bytes, ONEGRISH_DATA, ONEGRISH_CODE_1, ONEGRISH_CODE_1,
                           ONEGRISH_CODE_SKIPPED, one, ONEGRISH_BLOCK_ONE, two, ONEGRISH_BLOCK_TWO, next, ONEGRISH_DATA, ONEGRISH_CODE_1,
                           ONEGRISH_CODE_1, ONEGRISH_CODE_SKIPPED, 50, 50 * 256, 3 * 1024, verdicts, ONEGRISH_VERDICTS);
    printf("the two rooms: temperature %s, pressure %s, humidity %s\n", said[verdicts[ONEGRISH_VERDICT_T]], said[verdicts[ONEGRISH_VERDICT_P]],
           said[verdicts[ONEGRISH_VERDICT_H]]);
}

int main(void) {
    uint8_t numbers[ONEGRISH_NUMBERS];
    int64_t values[ONEGRISH_VALUES];
    uint8_t answer = onegrish_compensate(one, ONEGRISH_BLOCK_ONE, two, ONEGRISH_BLOCK_TWO, bytes, ONEGRISH_DATA, ONEGRISH_CODE_1, ONEGRISH_CODE_1,
                                         ONEGRISH_CODE_SKIPPED, numbers, ONEGRISH_NUMBERS, values, ONEGRISH_VALUES);
    if (answer != ONEGRISH_DONE) {
        printf("refused with %u\n", answer);
        return 1;
    }
    if (numbers[ONEGRISH_NUMBER_T] == ONEGRISH_DONE)
        printf("temperature %.2f degrees\n", (double)values[ONEGRISH_VALUE_T] / 100);
    else
        printf("temperature missing: %u\n", numbers[0]);
    if (numbers[ONEGRISH_NUMBER_P] == ONEGRISH_DONE)
        printf("pressure %.3f Pa\n", (double)values[ONEGRISH_VALUE_P] / 256);
    else
        printf("pressure missing: %u\n", numbers[1]);
    if (numbers[ONEGRISH_NUMBER_H] == ONEGRISH_DONE)
        printf("humidity %.3f %%RH\n", (double)values[ONEGRISH_VALUE_H] / 1024);
    else
        printf("humidity missing: %u\n", numbers[2]);
    print_point();
    print_rooms();
    return 0;
}
