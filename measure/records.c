// Visit records in plain C: a record is taken to be one, a list to be a visit's, and what is lent to be long enough.
#include "records.h"

static size_t length_at(const uint8_t *at) { return 3 + ((size_t)at[1] << 8 | at[2]); }

static uint32_t word_at(const uint8_t *at) {
    return (uint32_t)at[0] << 24 | (uint32_t)at[1] << 16 | (uint32_t)at[2] << 8 | at[3];
}

static uint32_t *lay_mark(uint32_t *to, uint32_t mark) {
    to[0] = mark;
    for (int i = 1; i < 8; i++) to[i] = 0;
    return to + 8;
}

static uint32_t *read_slot(const uint8_t *at, uint32_t *to) {
    to[0] = 2;
    to[1] = word_at(at + 3);
    at += 7;
    for (int i = 2; i < 8; i += 2) {
        to[i] = at[0] == 7 ? at[4] : 0;
        to[i + 1] = at[0] == 7 ? 0 : at[0] == 5 ? word_at(at + 3) << 8 : word_at(at + 3);
        at += length_at(at);
    }
    return to + 8;
}

static uint32_t *read_group(const uint8_t *at, uint32_t *to) {
    const uint8_t *end = at + length_at(at);
    to = lay_mark(to, 1);
    at += 3;
    if (at[0] == 1)
        for (; at < end; at += length_at(at)) to = read_group(at, to);
    else
        to = read_slot(at, to);
    return lay_mark(to, 3);
}

size_t plain_read(const uint8_t *record, uint32_t *steps) { return (size_t)(read_group(record, steps) - steps) / 8; }

static uint8_t *lay_word(uint8_t *to, uint8_t tag, uint32_t value) {
    to[0] = tag, to[1] = 0, to[2] = 4;
    to[3] = (uint8_t)(value >> 24), to[4] = (uint8_t)(value >> 16), to[5] = (uint8_t)(value >> 8), to[6] = (uint8_t)value;
    return to + 7;
}

static uint8_t *lay_channel(uint8_t *to, uint8_t tag, uint32_t number, uint32_t value) {
    if (number == 0) return lay_word(to, tag, value);
    to[0] = 7, to[1] = 0, to[2] = 2, to[3] = tag, to[4] = (uint8_t)number;
    return to + 5;
}

size_t plain_write(const uint32_t *steps, size_t count, uint8_t *out) {
    uint8_t *to = out, *opened[4];
    size_t depth = 0;
    for (; count > 0; count--, steps += 8) {
        if (steps[0] == 1) {
            opened[depth++] = to;
            to += 3;
        } else if (steps[0] == 3) {
            uint8_t *at = opened[--depth];
            size_t body = (size_t)(to - at) - 3;
            at[0] = 1, at[1] = (uint8_t)(body >> 8), at[2] = (uint8_t)body;
        } else {
            to = lay_word(to, 2, steps[1]);
            to = lay_channel(to, 3, steps[2], steps[3]);
            to = lay_channel(to, 4, steps[4], steps[5]);
            to = lay_channel(to, 6, steps[6], steps[7]);
        }
    }
    return (size_t)(to - out);
}
