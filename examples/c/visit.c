/* Writes the record of a visit and reads it again: a house, on its one floor two rooms, in each a reading. In the second room humidity
 * was skipped. Then says where a damaged record is wrong. examples/c/build builds and runs it. */
#include <stdio.h>

#include "onegrish.h"

#define OPEN {[ONEGRISH_STEP_KIND] = ONEGRISH_STEP_OPEN}
#define CLOSE {[ONEGRISH_STEP_KIND] = ONEGRISH_STEP_CLOSE}

enum { STEPS = 10 };

/* The words that a step has no use for may hold anything. */
static const uint32_t visit[STEPS][ONEGRISH_STEP_WORDS] = {
    OPEN,
    OPEN,
    OPEN,
    {ONEGRISH_STEP_SLOT, 1700000000, ONEGRISH_DONE, 2508, ONEGRISH_DONE, 25767233, ONEGRISH_DONE, 37771},
    CLOSE,
    OPEN,
    {ONEGRISH_STEP_SLOT, 1700000600, ONEGRISH_DONE, (uint32_t)-5, ONEGRISH_DONE, 25770000, ONEGRISH_SKIPPED, 0},
    CLOSE,
    CLOSE,
    CLOSE,
};

/* One channel of a slot, out of its number and its value. */
static void print_channel(const char *name, uint32_t number, double value) {
    if (number == ONEGRISH_DONE) printf(", %s %.8g", name, value);
    else printf(", no %s (%u)", name, number);
}

/* A group is one level more, and a slot is a line. */
static void print_steps(const uint32_t *step, size_t count) {
    int level = 0;
    for (; count > 0; count--, step += ONEGRISH_STEP_WORDS) {
        if (step[ONEGRISH_STEP_KIND] == ONEGRISH_STEP_OPEN) level++;
        if (step[ONEGRISH_STEP_KIND] == ONEGRISH_STEP_CLOSE) level--;
        if (step[ONEGRISH_STEP_KIND] != ONEGRISH_STEP_SLOT) continue;
        printf("level %d, time %u", level, step[ONEGRISH_STEP_TIME]);
        print_channel("temperature", step[ONEGRISH_STEP_NUMBER_T], (int32_t)step[ONEGRISH_STEP_VALUE_T] / 100.0);
        print_channel("pressure", step[ONEGRISH_STEP_NUMBER_P], step[ONEGRISH_STEP_VALUE_P] / 256.0);
        print_channel("humidity", step[ONEGRISH_STEP_NUMBER_H], step[ONEGRISH_STEP_VALUE_H] / 1024.0);
        putchar('\n');
    }
}

int main(void) {
    static uint8_t record[ONEGRISH_MOST_RECORD];
    static uint32_t steps[ONEGRISH_MOST_STEPS * ONEGRISH_STEP_WORDS];
    size_t bytes, count;
    uint8_t answer = onegrish_visit_write(visit[0], STEPS * ONEGRISH_STEP_WORDS, record, sizeof record, &bytes);
    if (answer != ONEGRISH_DONE) {
        printf("not written: %u\n", answer);
        return 1;
    }
    answer = onegrish_visit_read(record, bytes, steps, sizeof steps / sizeof *steps, &count);
    if (answer != ONEGRISH_DONE) {
        printf("not read: %u at byte %zu\n", answer, onegrish_visit_read_offset(record, bytes));
        return 1;
    }
    printf("a record of %zu bytes, and %zu steps of it\n", bytes, count);
    print_steps(steps, count);
    record[9] = 0; /* the tag of the first reading's time */
    answer = onegrish_visit_read(record, bytes, steps, sizeof steps / sizeof *steps, &count);
    printf("damaged: %u at byte %zu\n", answer, onegrish_visit_read_offset(record, bytes));
    return 0;
}
