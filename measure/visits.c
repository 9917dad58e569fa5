// Visit records read and written, by the library or by plain C:
//   visits library|plain read|write FLOORS ROUNDS    one record, ROUNDS times over
//   visits compare read|write FLOORS                 both once, held to each other; prints the record's length
// The record is a house of so many floors, with four rooms each, in each of which eight readings were taken, the last with no humidity.
// A floor has 999 bytes and the house 3 more. All that a round reads is made before the first, so that the difference of two runs is the
// rounds' own work.
#include "records.h"
#include <onegrish.h>
#include <stdio.h>

int strcmp(const char *, const char *);
int atoi(const char *);

enum { MOST = 65, ROOMS = 4, READINGS = 8, WORDS = ONEGRISH_MOST_STEPS * ONEGRISH_STEP_WORDS };
static uint32_t made[WORDS], steps[WORDS], by_plain[WORDS];
static uint8_t record[ONEGRISH_MOST_RECORD], lent[ONEGRISH_MOST_RECORD];
static size_t many, length, count;

static void add(uint32_t kind) {
    made[many * ONEGRISH_STEP_WORDS] = kind;
    many++;
}

// One reading in a group of its own: cold and warm ones, and of the last in a room the humidity was skipped.
static void add_reading(uint32_t at, int last) {
    uint32_t *step;
    add(ONEGRISH_STEP_OPEN);
    step = made + many * ONEGRISH_STEP_WORDS;
    add(ONEGRISH_STEP_SLOT);
    step[ONEGRISH_STEP_TIME] = 1700000000 + 60 * at;
    step[ONEGRISH_STEP_VALUE_T] = at * 37 % 4000 - 500;
    step[ONEGRISH_STEP_VALUE_P] = 25767233 + at * 911 % 100000;
    step[ONEGRISH_STEP_NUMBER_H] = last ? ONEGRISH_SKIPPED : ONEGRISH_DONE;
    step[ONEGRISH_STEP_VALUE_H] = last ? 0 : at * 523 % 102401;
    add(ONEGRISH_STEP_CLOSE);
}

static void make_house(int floors) {
    uint32_t at = 0;
    add(ONEGRISH_STEP_OPEN);
    for (int floor = 0; floor < floors; floor++) {
        add(ONEGRISH_STEP_OPEN);
        for (int room = 0; room < ROOMS; room++) {
            add(ONEGRISH_STEP_OPEN);
            for (int i = 1; i <= READINGS; i++) add_reading(at++, i == READINGS);
            add(ONEGRISH_STEP_CLOSE);
        }
        add(ONEGRISH_STEP_CLOSE);
    }
    add(ONEGRISH_STEP_CLOSE);
    length = plain_write(made, many, record);
}

static void library_read(void) { onegrish_visit_read(record, length, steps, WORDS, &count); }
static void library_write(void) { onegrish_visit_write(made, many * ONEGRISH_STEP_WORDS, lent, sizeof lent, &count); }
static void read_plainly(void) { count = plain_read(record, by_plain); }
static void write_plainly(void) { count = plain_write(made, many, lent); }

static int compare(int reads) {
    size_t words = many * ONEGRISH_STEP_WORDS;
    int same;
    if (reads) {
        read_plainly();
        same = count == many && !__builtin_memcmp(by_plain, made, sizeof *made * words);
        library_read();
        same &= count == many && !__builtin_memcmp(steps, made, sizeof *made * words);
    } else {
        library_write();
        same = count == length && !__builtin_memcmp(lent, record, length);
    }
    if (same) printf("%zu\n", length);
    else printf("the library and the plain C differ\n");
    return !same;
}

int main(int argc, char **argv) {
    int reads = argc > 2 && !strcmp(argv[2], "read"), floors = argc > 3 ? atoi(argv[3]) : 0;
    if (floors < 1 || floors > MOST) {
        printf("usage: visits library|plain|compare read|write FLOORS [ROUNDS]\n");
        return 2;
    }
    make_house(floors);
    if (!strcmp(argv[1], "compare"))
        return compare(reads);
    void (*library)(void) = reads ? library_read : library_write;
    void (*plain)(void) = reads ? read_plainly : write_plainly;
    void (*work)(void) = strcmp(argv[1], "plain") ? library : plain;
    for (int i = argc > 4 ? atoi(argv[4]) : 1; i > 0; i--)
        work();
    return 0;
}
