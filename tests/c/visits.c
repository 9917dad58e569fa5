/* Answers the bench's lines on visit records through the library for C, of any length, so that its answers can be held to the second
 * program's. Every word and byte of what is lent is looked at: what a refusal leaves, what stands past the output, words that a step has
 * no use for. A record that is read is written again, and that is read again. Lines come well formed; tests/c/run makes them. */
#include <stdio.h>

#include "onegrish.h"

enum { LINE = 1 << 21, STEPS = 1 << 14, ODD = 7, PAST = 16, WORDS = STEPS * ONEGRISH_STEP_WORDS + PAST, BYTES = (1 << 17) + PAST };
static const uint32_t UNTOUCHED = 0xA5A5A5A5;
static const size_t UNCOUNTED = 987654321;
static const uint8_t FILLING = 0xAA;

static char line[LINE + 1];
static uint8_t record[BYTES], lent[BYTES];
static uint32_t steps[WORDS], others[WORDS];

static const char *wrong;

static void expect(int holds, const char *what) {
    if (!holds && !wrong) wrong = what;
}

static unsigned digit(char c) {
    return c <= '9' ? c - '0' : (c | 32) - 'a' + 10;
}

/* The number at a place of the line; the place is then past it. */
static uint32_t number_at(char **at) {
    uint32_t n = 0;
    for (; **at >= '0' && **at <= '9'; ++*at) n = n * 10 + digit(**at);
    return n;
}

/* Past a space, or whatever else stands here. */
static void past(char **at) {
    if (**at) ++*at;
}

/* Fills a list of so many words, and some past it. */
static void fill(uint32_t *list, size_t words) {
    for (size_t i = 0; i < words + PAST; i++) list[i] = UNTOUCHED;
}

/* Whether it stands as it was filled, from this word on. */
static int stays_from(const uint32_t *list, size_t from, size_t words) {
    int stays = 1;
    for (size_t i = from; i < words + PAST; i++) stays &= list[i] == UNTOUCHED;
    return stays;
}

static int are_same(const uint32_t *a, const uint32_t *b, size_t words) {
    int same = 1;
    for (size_t i = 0; i < words; i++) same &= a[i] == b[i];
    return same;
}

static int is_slot(const uint32_t *step) {
    return step[ONEGRISH_STEP_KIND] == ONEGRISH_STEP_SLOT;
}

/* Whether the words that a step has no use for are 0. */
static int is_clean(const uint32_t *step) {
    uint32_t rest = 0;
    if (is_slot(step))
        for (int i = ONEGRISH_STEP_NUMBER_T; i < ONEGRISH_STEP_WORDS; i += 2) rest |= step[i] ? step[i + 1] : 0;
    else
        for (int i = 1; i < ONEGRISH_STEP_WORDS; i++) rest |= step[i];
    return rest == 0;
}

static void print_channel(uint32_t number, uint32_t value, int is_signed) {
    if (number) printf(":!%u", number);
    else if (is_signed) printf(":%d", (int32_t)value);
    else printf(":%u", value);
}

static void print_step(const uint32_t *step) {
    if (!is_slot(step)) {
        putchar(step[ONEGRISH_STEP_KIND] == ONEGRISH_STEP_OPEN ? '(' : step[ONEGRISH_STEP_KIND] == ONEGRISH_STEP_CLOSE ? ')' : '?');
        return;
    }
    printf("%u", step[ONEGRISH_STEP_TIME]);
    print_channel(step[ONEGRISH_STEP_NUMBER_T], step[ONEGRISH_STEP_VALUE_T], 1);
    print_channel(step[ONEGRISH_STEP_NUMBER_P], step[ONEGRISH_STEP_VALUE_P], 0);
    print_channel(step[ONEGRISH_STEP_NUMBER_H], step[ONEGRISH_STEP_VALUE_H], 0);
}

/* A number with its offset or place, which goes with 18 to 22 alone. */
static void print_refusal(unsigned answer, size_t at) {
    int placed = answer >= ONEGRISH_CUT_SHORT && answer <= ONEGRISH_VALUE_OUTSIDE;
    printf("%u", answer);
    if (placed) printf(" at=%zu", at);
    else expect(at == 0, "a place with a number that has none");
}

/* Whether a pressure in whole pascals stands here, that was written in Pa times 256. */
static int was_pascals(size_t at, size_t length) {
    int same = at + 7 <= length && record[at] == 5 && lent[at] == 4 && record[at + 3] == 0 && lent[at + 6] == 0;
    for (size_t i = at + 3; same && i < at + 6; i++) same = lent[i] == record[i + 1];
    return same;
}

/* What was read is written again, in as many bytes, and read again. */
static void go_round(size_t length, size_t n) {
    size_t words = n * ONEGRISH_STEP_WORDS, count = UNCOUNTED;
    uint8_t answer = onegrish_visit_write(steps, words, lent, length, &count);
    expect(answer == ONEGRISH_DONE && count == length, "what is read is written, in as many bytes");
    for (size_t i = 0; i < length; i++) {
        if (lent[i] == record[i]) continue;
        expect(was_pascals(i, length), "what is read is written as the same bytes, whole pascals apart");
        i += 6;
    }
    fill(others, words);
    answer = onegrish_visit_read(lent, length, others, words, &count);
    expect(answer == ONEGRISH_DONE && count == n, "what is written is read");
    expect(are_same(steps, others, words) && stays_from(others, words, words), "and is the same visit");
}

/* visit read RECORD LEN, in a list of so many steps and some words more, and in one without them. */
static void answer_read(char *at) {
    size_t length = 0, count = UNCOUNTED, again = UNCOUNTED, words, offset;
    unsigned answer, same;
    if (*at == '-') past(&at);
    for (; *at != ' '; at += 2) record[length++] = (uint8_t)(digit(at[0]) * 16 + digit(at[1]));
    past(&at);
    words = (size_t)number_at(&at) * ONEGRISH_STEP_WORDS;
    fill(steps, words), fill(others, words);
    same = onegrish_visit_read(record, length, others, words, &again);
    answer = onegrish_visit_read(record, length, steps, words + length % (ODD + 1), &count);
    offset = onegrish_visit_read_offset(record, length);
    expect(answer == same && count == again, "words past the last whole step change nothing");
    expect(are_same(steps, others, words + PAST), "nor what is filled");
    if (answer != ONEGRISH_DONE) {
        print_refusal(answer, offset);
        expect(count == UNCOUNTED && stays_from(steps, 0, words), "a refusal writes nothing");
    } else {
        expect(offset == 0, "a record that is read has no offset");
        expect(stays_from(steps, count * ONEGRISH_STEP_WORDS, words), "words past the steps stay");
        printf("0 n=%zu steps=", count);
        for (size_t i = 0; i < count; i++) {
            if (i) putchar(' ');
            print_step(steps + i * ONEGRISH_STEP_WORDS);
            expect(is_clean(steps + i * ONEGRISH_STEP_WORDS), "words of no use are 0");
        }
        go_round(length, count);
    }
}

/* A step of the line. What it has no use for is filled, and in others with something else. */
static void step_at(char **at, size_t place) {
    uint32_t *step = steps + place * ONEGRISH_STEP_WORDS, *other = others + place * ONEGRISH_STEP_WORDS;
    for (int i = 0; i < ONEGRISH_STEP_WORDS; i++) step[i] = 0, other[i] = UNTOUCHED;
    if (**at == '(' || **at == ')') {
        step[ONEGRISH_STEP_KIND] = other[ONEGRISH_STEP_KIND] = **at == '(' ? ONEGRISH_STEP_OPEN : ONEGRISH_STEP_CLOSE;
        past(at);
        return;
    }
    step[ONEGRISH_STEP_KIND] = other[ONEGRISH_STEP_KIND] = ONEGRISH_STEP_SLOT;
    step[ONEGRISH_STEP_TIME] = other[ONEGRISH_STEP_TIME] = number_at(at);
    for (int i = ONEGRISH_STEP_NUMBER_T; i < ONEGRISH_STEP_WORDS; i += 2) {
        int missing, minus;
        uint32_t n;
        past(at);
        missing = **at == '!', minus = **at == '-';
        if (missing || minus) past(at);
        n = number_at(at);
        step[i] = other[i] = missing ? n : 0;
        if (!missing) step[i + 1] = other[i + 1] = minus ? 0 - n : n;
    }
}

/* visit write LEN STEP.., with words of no use that are 0, and with others; words stand past the last step, some that are none. */
static void answer_write(char *at) {
    size_t room = number_at(&at), n = 0, count = UNCOUNTED, again = UNCOUNTED, words, place;
    unsigned answer, same;
    for (; *at == ' '; n++) past(&at), step_at(&at, n);
    words = n * ONEGRISH_STEP_WORDS;
    for (size_t i = 0; i < ODD; i++) others[words + i] = ONEGRISH_STEP_OPEN;
    for (size_t i = 0; i < room + PAST; i++) lent[i] = record[i] = FILLING;
    same = onegrish_visit_write(others, words + n % (ODD + 1), record, room, &again);
    answer = onegrish_visit_write(steps, words, lent, room, &count);
    place = onegrish_visit_write_place(steps, words);
    expect(answer == same && count == again, "words of no use, or past the last whole step, change nothing");
    expect(place == onegrish_visit_write_place(others, words + ODD), "nor the place");
    for (size_t i = 0; i < room + PAST; i++) expect(lent[i] == record[i], "nor what is written");
    if (answer == ONEGRISH_DONE) {
        printf("0 n=%zu", count);
        expect(place == 0 && count <= room, "a visit that is written has no place");
    } else {
        print_refusal(answer, place);
        expect(count == UNCOUNTED, "a refusal counts nothing");
    }
    for (size_t i = answer == ONEGRISH_DONE ? count : 0; i < room + PAST; i++) expect(lent[i] == FILLING, "bytes past the output stay");
    printf(" buf=");
    if (room == 0) putchar('-');
    for (size_t i = 0; i < room; i++) printf("%02X", lent[i]);
}

int main(void) {
    size_t length = 0;
    int byte, all = 0;
    while ((byte = getchar()) != EOF) {
        if (byte != '\n') {
            if (length < LINE) line[length++] = (char)byte;
            continue;
        }
        line[length] = 0;
        if (line[6] == 'r') answer_read(line + 11);
        else answer_write(line + 12);
        if (wrong) printf(" not so: %s", wrong), all = 1;
        wrong = NULL;
        putchar('\n');
        length = 0;
    }
    return all;
}
