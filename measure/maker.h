// The C baseline's functions. A reading is eight data bytes in and three numbers out: temperature, pressure, humidity. In a day's list it is
// eleven bytes in, and eight numbers out where they are all stored.
#include <stddef.h>
#include <stdint.h>

struct maker_words {
    uint16_t t1;
    int16_t t2, t3;
    uint16_t p1;
    int16_t p2, p3, p4, p5, p6, p7, p8, p9;
    uint8_t h1;
    int16_t h2;
    uint8_t h3;
    int16_t h4, h5;
    int8_t h6;
};

// The words of the two calibration blocks.
void maker_decode(const uint8_t *one, const uint8_t *two, struct maker_words *w);

// n readings with the words decoded before.
void maker_readings(const struct maker_words *restrict w, const uint8_t *restrict data, size_t n, int64_t *restrict told);

// n readings of eleven bytes, the last three of which it passes over, with the words decoded here first. It stores the eight numbers of an
// answer (onegrish.h), those of a reading whose three channels are there.
void maker_day(const uint8_t *restrict one, const uint8_t *restrict two, const uint8_t *restrict readings, size_t n, int64_t *restrict answers);

// The same with three numbers a reading.
void maker_day_of_three(const uint8_t *restrict one, const uint8_t *restrict two, const uint8_t *restrict readings, size_t n, int64_t *restrict told);

// One reading from the raw blocks.
void maker_reading(const uint8_t *restrict one, const uint8_t *restrict two, const uint8_t *restrict data, int64_t *restrict told);

// One reading of a BMP280 from its raw block and six data bytes: temperature and pressure.
void maker_reading_bmp280(const uint8_t *restrict one, const uint8_t *restrict data, int64_t *restrict told);

// The microseconds that a conversion with these oversampling codes takes at most.
void maker_wait(uint8_t t, uint8_t p, uint8_t h, uint32_t *microseconds);
