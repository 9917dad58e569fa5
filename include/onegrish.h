/* Onegrish for C and firmware: what a BME280's or a BMP280's bytes say, exactly, and which of them say nothing.
 *
 * The library is proved: each function below does what its comment says, for all input that fits the types. It is built
 * for x86-64 Linux alone. tools/library builds the archives. Link libonegrish.a, for the two functions over kept words
 * libonegrish_words.a, for a day in one call libonegrish_day.a, for a BMP280's reading libonegrish_bmp280.a, for the three
 * on map points and rooms libonegrish_rooms.a, and for the four on visit records libonegrish_visit.a.
 * Functions over a reading's bytes are for a BME280 where nothing else is said. Waits, polls, bus
 * bytes, two channels compared and visit records are the same for a BMP280; its wait is the one with the third code 0.
 *
 * Every function ends, allocates nothing, keeps no state and calls nothing. Any number of threads may call it.
 *
 * A lent array is a pointer and the number of its elements. With 0 elements the pointer may be null: nothing is read or
 * written through it. Any other pointer must be valid for as many elements as its number says, and what a function
 * writes must not overlap anything else that it is lent. A pointer with no number beside it must be valid for one element.
 *
 * Each function but onegrish_version, onegrish_polls, onegrish_compare, onegrish_visit_read_offset and
 * onegrish_visit_write_place answers one of the numbers below. Nothing is written unless it answers ONEGRISH_DONE, and
 * elements past the output stay as they were. Where several numbers would fit, the first in the order that the function's
 * comment gives is answered.
 */
#ifndef ONEGRISH_H
#define ONEGRISH_H

#include <stddef.h>
#include <stdint.h>

#ifdef __cplusplus
extern "C" {
#endif

/* The version of this interface. It goes up by one where a function changes or goes. */
#define ONEGRISH_VERSION 2

/* The version that the library was built with. Compare it with ONEGRISH_VERSION before anything else. */
uint32_t onegrish_version(void);

/* ---- the numbers that are answered */

#define ONEGRISH_DONE 0                 /* done */
#define ONEGRISH_WRONG_LENGTH 2         /* not 26 and 7 calibration bytes, 8 data bytes or 18 words; of a BMP280 not 26, 0 and 6
                                           bytes; a day's lists of unequal length; a record over 65,535 bytes */
#define ONEGRISH_ADDRESS_NOT_ALLOWED 4  /* a device's address or a register */
#define ONEGRISH_OUT_OF_RANGE 7         /* an oversampling code above 7, at its place in a day too; a kept word that its type can't
                                           hold */
#define ONEGRISH_BUFFER_TOO_SHORT 9     /* fewer elements lent than the output has */
#define ONEGRISH_PAIRS_OUTSIDE 15       /* no pair, an odd number of bytes, or more than 16 pairs */
#define ONEGRISH_WRONG_SHAPE 16         /* bus bytes of the wrong shape */
#define ONEGRISH_NEVER_READY 17         /* never ready within the polls allowed */
#define ONEGRISH_CUT_SHORT 18           /* a record's field runs past its group or the record, or there is none */
#define ONEGRISH_TAG_OUT_OF_PLACE 19    /* a tag, or a step, that no record has there; bytes left after a slot or the record */
#define ONEGRISH_WRONG_FIELD_LENGTH 20  /* a field whose length is not its tag's */
#define ONEGRISH_TOO_DEEP 21            /* a group on the fifth level */
#define ONEGRISH_VALUE_OUTSIDE 22       /* a value outside its limits, or a missing answer that is none */

/* ---- the numbers that stand in a channel's place, in `numbers`, in a day's answers and in a visit's steps; no function answers them */

#define ONEGRISH_SKIPPED 10             /* the channel's code is 0; a BMP280's humidity, always */
#define ONEGRISH_NO_TEMPERATURE 11      /* there is no temperature to compensate with */
#define ONEGRISH_LEFT_ITS_TYPE 12       /* a step of the maker's formula left its type */
#define ONEGRISH_DIVISOR_ZERO 13        /* the pressure's divisor is zero */
#define ONEGRISH_PRESSURE_OUTSIDE 14    /* a pressure that is negative or above 4,294,967,295 */

/* ---- verdicts on two rooms; an array that was zeroed and never written says unknown, and never that they agree */

#define ONEGRISH_UNKNOWN 0      /* one of the two has no value */
#define ONEGRISH_AGREE 1        /* both have a value, and the values differ by at most the tolerance */
#define ONEGRISH_DIFFER 2       /* both have a value, and the values differ by more */

/* ---- lengths */

#define ONEGRISH_BLOCK_ONE 26   /* bytes of calibration block one, registers 0x88 to 0xA1 */
#define ONEGRISH_BLOCK_TWO 7    /* bytes of calibration block two, registers 0xE1 to 0xE7 */
#define ONEGRISH_DATA 8         /* data bytes, registers 0xF7 to 0xFE */
#define ONEGRISH_DATA_BMP280 6  /* data bytes of a BMP280, registers 0xF7 to 0xFC; it has no block two */
#define ONEGRISH_WORDS 18       /* words of a chip */
#define ONEGRISH_NUMBERS 3      /* numbers of a reading: temperature, pressure, humidity */
#define ONEGRISH_VALUES 4       /* values of a reading: temperature, fine temperature, pressure, humidity */
#define ONEGRISH_DAY_READING 11 /* bytes of a reading in a day's list: the data bytes, and the codes of the three channels */
#define ONEGRISH_DAY_NUMBERS 8  /* numbers of an answer in a day's list */
#define ONEGRISH_POINT 3        /* doubles of a map point, its flags and its numbers: temperature, pressure, humidity */
#define ONEGRISH_VERDICTS 3     /* verdicts on two rooms: temperature, pressure, humidity */
#define ONEGRISH_STEP_WORDS 8   /* words of a step */
#define ONEGRISH_MOST_STEPS 14799   /* no record has more steps: a list of so many holds any */
#define ONEGRISH_MOST_RECORD 65535  /* bytes of the longest record */
#define ONEGRISH_MOST_PAIRS 16  /* pairs of register and value in one message */
#define ONEGRISH_LONGEST 33     /* bytes of the longest message: the address and 16 pairs on I2C */
#define ONEGRISH_I2C_READ 3     /* bytes of both messages of an I2C read; the first is ONEGRISH_I2C_READ_FIRST long */
#define ONEGRISH_I2C_READ_FIRST 2
#define ONEGRISH_SPI_READ 1     /* bytes of an SPI read */

/* ---- the steps of a visit: a group begins, its slot, the group ends */

#define ONEGRISH_STEP_OPEN 1
#define ONEGRISH_STEP_SLOT 2
#define ONEGRISH_STEP_CLOSE 3

/* ---- places in words, numbers and values, in a day's answers, in a point's three arrays, in verdicts and in a step's words */

enum {
    ONEGRISH_T1, ONEGRISH_T2, ONEGRISH_T3,
    ONEGRISH_P1, ONEGRISH_P2, ONEGRISH_P3, ONEGRISH_P4, ONEGRISH_P5, ONEGRISH_P6, ONEGRISH_P7, ONEGRISH_P8, ONEGRISH_P9,
    ONEGRISH_H1, ONEGRISH_H2, ONEGRISH_H3, ONEGRISH_H4, ONEGRISH_H5, ONEGRISH_H6
};
enum { ONEGRISH_NUMBER_T, ONEGRISH_NUMBER_P, ONEGRISH_NUMBER_H };
enum { ONEGRISH_VALUE_T, ONEGRISH_VALUE_FINE, ONEGRISH_VALUE_P, ONEGRISH_VALUE_H };
enum {
    ONEGRISH_DAY_NUMBER, ONEGRISH_DAY_NUMBER_T, ONEGRISH_DAY_VALUE_T, ONEGRISH_DAY_VALUE_FINE,
    ONEGRISH_DAY_NUMBER_P, ONEGRISH_DAY_VALUE_P, ONEGRISH_DAY_NUMBER_H, ONEGRISH_DAY_VALUE_H
};
enum { ONEGRISH_POINT_T, ONEGRISH_POINT_P, ONEGRISH_POINT_H };
enum { ONEGRISH_VERDICT_T, ONEGRISH_VERDICT_P, ONEGRISH_VERDICT_H };
enum {
    ONEGRISH_STEP_KIND, ONEGRISH_STEP_TIME, ONEGRISH_STEP_NUMBER_T, ONEGRISH_STEP_VALUE_T,
    ONEGRISH_STEP_NUMBER_P, ONEGRISH_STEP_VALUE_P, ONEGRISH_STEP_NUMBER_H, ONEGRISH_STEP_VALUE_H
};

/* ---- addresses and codes of the device */

#define ONEGRISH_I2C_LOW 0x76   /* the I2C address with SDO low, and with SDO high */
#define ONEGRISH_I2C_HIGH 0x77
#define ONEGRISH_REGISTER_BLOCK_ONE 0x88
#define ONEGRISH_REGISTER_CHIP_ID 0xD0
#define ONEGRISH_REGISTER_RESET 0xE0
#define ONEGRISH_REGISTER_BLOCK_TWO 0xE1
#define ONEGRISH_REGISTER_CTRL_HUM 0xF2
#define ONEGRISH_REGISTER_STATUS 0xF3
#define ONEGRISH_REGISTER_CTRL_MEAS 0xF4
#define ONEGRISH_REGISTER_CONFIG 0xF5
#define ONEGRISH_REGISTER_DATA 0xF7
#define ONEGRISH_CHIP_ID 0x60       /* what a BME280's chip id register gives */
#define ONEGRISH_CHIP_ID_BMP280 0x58 /* what a BMP280's gives */
#define ONEGRISH_RESET_WORD 0xB6    /* what the reset register takes */
#define ONEGRISH_STATUS_RUNNING 8   /* bits of the status register: a conversion runs */
#define ONEGRISH_STATUS_COPYING 1   /* calibration is being copied: after power or a reset, and at the start of each conversion */
#define ONEGRISH_CODE_SKIPPED 0     /* oversampling codes: 1 to 5 mean 1, 2, 4, 8 and 16 samples; 6 and 7 mean 16 too */
#define ONEGRISH_CODE_1 1
#define ONEGRISH_CODE_2 2
#define ONEGRISH_CODE_4 3
#define ONEGRISH_CODE_8 4
#define ONEGRISH_CODE_16 5

/* ---- readings */

/* Compensates one reading, out of both calibration blocks, the eight data bytes and the oversampling codes with which that
 * conversion began, in the order temperature, pressure, humidity.
 *
 * ONEGRISH_WRONG_LENGTH: not 26, 7 and 8 bytes.  ONEGRISH_OUT_OF_RANGE: a code above 7.
 * ONEGRISH_BUFFER_TOO_SHORT: fewer than 3 numbers or 4 values are lent.
 * ONEGRISH_DONE: numbers[0..2] say of temperature, pressure and humidity whether there is a value (ONEGRISH_DONE) or what
 * stands in its place (ONEGRISH_SKIPPED to ONEGRISH_PRESSURE_OUTSIDE). The values are
 *   values[0]  the temperature in hundredths of a degree Celsius     values[1]  the fine temperature, which goes with it
 *   values[2]  the pressure in Pa times 256                          values[3]  the humidity in %RH times 1024
 * A channel whose number is not ONEGRISH_DONE leaves its values as they were: look at its number first.
 * A value is the maker's formula over whole numbers, every step exact. Where temperature has no value, the other enabled
 * channels are ONEGRISH_NO_TEMPERATURE. A count of 0x80000 or 0x8000 is a count like any other: code 0 alone means skipped. */
uint8_t onegrish_compensate(const uint8_t *one, size_t one_length, const uint8_t *two, size_t two_length,
                            const uint8_t *bytes, size_t bytes_length, uint8_t t, uint8_t p, uint8_t h,
                            uint8_t *numbers, size_t numbers_length, int64_t *values, size_t values_length);

/* The words of a chip, at the front of words, out of both calibration blocks: T1 to T3, P1 to P9, H1 to H6. Keep them, and
 * onegrish_compensate_words takes them. T1 and P1 have no sign: read them as (uint16_t)words[ONEGRISH_T1] and
 * (uint16_t)words[ONEGRISH_P1]. In libonegrish_words.a.
 *
 * ONEGRISH_WRONG_LENGTH: not 26 and 7 bytes.  ONEGRISH_BUFFER_TOO_SHORT: fewer than 18 words are lent.  ONEGRISH_DONE. */
uint8_t onegrish_words(const uint8_t *one, size_t one_length, const uint8_t *two, size_t two_length,
                       int16_t *words, size_t words_length);

/* Compensates one reading with the words that onegrish_words gave. With the words of two blocks it answers and writes what
 * onegrish_compensate does with those blocks. In libonegrish_words.a.
 *
 * ONEGRISH_WRONG_LENGTH: not 18 words and 8 bytes.  ONEGRISH_OUT_OF_RANGE: H1 or H3 is not 0 to 255, H6 not -128 to 127
 * (onegrish_words gives no such words), or a code is above 7.  ONEGRISH_BUFFER_TOO_SHORT, ONEGRISH_DONE: as above. */
uint8_t onegrish_compensate_words(const int16_t *words, size_t words_length, const uint8_t *bytes, size_t bytes_length,
                                  uint8_t t, uint8_t p, uint8_t h, uint8_t *numbers, size_t numbers_length,
                                  int64_t *values, size_t values_length);

/* ---- a reading of a BMP280: in libonegrish_bmp280.a */

/* Compensates one reading of a BMP280, out of its calibration block, the six data bytes and the oversampling codes with which
 * that conversion began. There is no block two: two_length is 0, and two may be null. There is no humidity: the third code is
 * checked and then not used, numbers[2] is always ONEGRISH_SKIPPED, and values[3] stays as it was. Temperature and pressure are
 * what onegrish_compensate gives with the same block one, the same bytes before its last two and the same codes.
 *
 * ONEGRISH_WRONG_LENGTH: not 26, 0 and 6 bytes.  ONEGRISH_OUT_OF_RANGE: a code above 7, the third one too.
 * ONEGRISH_BUFFER_TOO_SHORT: fewer than 3 numbers or 4 values are lent.  ONEGRISH_DONE: as for onegrish_compensate. */
uint8_t onegrish_compensate_bmp280(const uint8_t *one, size_t one_length, const uint8_t *two, size_t two_length,
                                   const uint8_t *bytes, size_t bytes_length, uint8_t t, uint8_t p, uint8_t h,
                                   uint8_t *numbers, size_t numbers_length, int64_t *values, size_t values_length);

/* ---- a day in one call: in libonegrish_day.a */

/* Compensates a list of readings of one chip, each at its place. A reading is ONEGRISH_DAY_READING bytes: the eight data bytes,
 * then the codes of temperature, pressure and humidity. Its answer is ONEGRISH_DAY_NUMBERS numbers: what
 * onegrish_compensate answers for it, and its channels' numbers and values.
 *   answer[0]  ONEGRISH_DONE, or ONEGRISH_OUT_OF_RANGE for a code above 7; the other readings go on
 *   answer[1]  the temperature's number: ONEGRISH_DONE for a value, and else what stands in its place
 *   answer[2]  the temperature in hundredths of a degree Celsius     answer[3]  the fine temperature
 *   answer[4], answer[5]  the same of the pressure in Pa times 256   answer[6], answer[7]  of the humidity in %RH times 1024
 * Where a number is not ONEGRISH_DONE the value's place holds 0, which is no value: look at the number first. In an answer
 * that is ONEGRISH_OUT_OF_RANGE all three channels have that number.
 *
 * ONEGRISH_WRONG_LENGTH: blocks that are not 26 and 7 bytes, a list of readings that ends within one, or not one answer for each
 * reading (readings_length / 11 * 8 numbers).  ONEGRISH_DONE; two empty lists with right blocks are done too. */
uint8_t onegrish_day(const uint8_t *one, size_t one_length, const uint8_t *two, size_t two_length,
                     const uint8_t *readings, size_t readings_length, int64_t *answers, size_t answers_length);

/* ---- map points, and two rooms compared: in libonegrish_rooms.a */

/* The map point of one reading, out of the same bytes and codes as for onegrish_compensate, at the front of each array.
 * A reading that onegrish_compensate refuses is a point too, one with three missing: an old point is never left standing.
 *
 * ONEGRISH_BUFFER_TOO_SHORT: fewer than 3 doubles, 3 flags or 3 numbers are lent.
 * ONEGRISH_DONE: of temperature, pressure and humidity
 *   doubles[0..2]  the value in hundredths of a degree Celsius, in Pa and in %RH, exactly; positive zero where it is missing
 *   known[0..2]    1 where it has a value, 0 where it is missing: a double of zero with 1 is a true zero
 *   numbers[0..2]  ONEGRISH_DONE where it has a value, and else what stands in its place (ONEGRISH_SKIPPED to
 *                  ONEGRISH_PRESSURE_OUTSIDE); in all three ONEGRISH_WRONG_LENGTH for bytes that are not 26, 7 and 8, and
 *                  ONEGRISH_OUT_OF_RANGE for a code above 7 */
uint8_t onegrish_point(const uint8_t *one, size_t one_length, const uint8_t *two, size_t two_length,
                       const uint8_t *bytes, size_t bytes_length, uint8_t t, uint8_t p, uint8_t h,
                       double *doubles, size_t doubles_length, uint8_t *known, size_t known_length,
                       uint8_t *numbers, size_t numbers_length);

/* The verdict on one channel of two rooms, ONEGRISH_UNKNOWN, ONEGRISH_AGREE or ONEGRISH_DIFFER, out of the number and the
 * value of each as onegrish_compensate hands them over, and the tolerance in the values' unit. A value whose number is not
 * ONEGRISH_DONE is not looked at. It answers no number of those above, and refuses nothing. */
uint8_t onegrish_compare(uint8_t here_number, int64_t here_value, uint8_t there_number, int64_t there_value,
                         uint32_t tolerance);

/* The three verdicts on two rooms, at the front of verdicts, out of a reading of each and the tolerances of temperature in
 * hundredths of a degree, of pressure in Pa times 256 and of humidity in %RH times 1024. A reading that onegrish_compensate
 * refuses has no value, so that all three are ONEGRISH_UNKNOWN.
 *
 * ONEGRISH_BUFFER_TOO_SHORT: fewer than 3 verdicts are lent.
 * ONEGRISH_DONE: verdicts[0..2] are those on temperature, pressure and humidity, as onegrish_compare answers them. */
uint8_t onegrish_compare_rooms(const uint8_t *here_one, size_t here_one_length,
                               const uint8_t *here_two, size_t here_two_length,
                               const uint8_t *here_bytes, size_t here_bytes_length,
                               uint8_t here_t, uint8_t here_p, uint8_t here_h,
                               const uint8_t *there_one, size_t there_one_length,
                               const uint8_t *there_two, size_t there_two_length,
                               const uint8_t *there_bytes, size_t there_bytes_length,
                               uint8_t there_t, uint8_t there_p, uint8_t there_h,
                               uint32_t temperature, uint32_t pressure, uint32_t humidity,
                               uint8_t *verdicts, size_t verdicts_length);

/* ---- visit records: in libonegrish_visit.a
 *
 * A visit is a list of steps: a group begins, a slot with one reading, a group ends. A group holds one slot, or one or more
 * groups, and they go at most four levels deep. A step is ONEGRISH_STEP_WORDS words:
 *   step[0]  ONEGRISH_STEP_OPEN, ONEGRISH_STEP_SLOT or ONEGRISH_STEP_CLOSE      step[1]  a slot's time
 *   step[2]  ONEGRISH_DONE where its temperature has a value, and else what stands in its place (ONEGRISH_SKIPPED to
 *            ONEGRISH_PRESSURE_OUTSIDE)
 *   step[3]  the temperature in hundredths of a degree Celsius, read as (int32_t)step[ONEGRISH_STEP_VALUE_T]
 *   step[4], step[5]  the same of its pressure in Pa times 256         step[6], step[7]  of its humidity in %RH times 1024
 * A list is lent with the number of its words. It holds as many steps as there are whole ones in it, and words past the last
 * of them are never looked at or changed. */

/* The visit that a record holds, at the front of steps, and in count how many steps it has. Words that a step has no use
 * for are 0: those past the kind where a group begins or ends, and the value of a missing channel.
 *
 * ONEGRISH_WRONG_LENGTH: more than 65,535 bytes.  Then at each field, from the first on:
 * ONEGRISH_CUT_SHORT: its header or body runs past its group or the record, or the group or the record is empty.
 * ONEGRISH_TAG_OUT_OF_PLACE: its tag has no place there; after a slot and after the record any byte has none, and this
 * comes before all else.  ONEGRISH_WRONG_FIELD_LENGTH: not the length that its tag has.
 * ONEGRISH_TOO_DEEP: a group on the fifth level.  ONEGRISH_VALUE_OUTSIDE: humidity above 102,400, whole pascals above
 * 16,777,215, or a missing answer of another channel or with a number other than 10 to 14.
 * ONEGRISH_BUFFER_TOO_SHORT: fewer steps are lent than the visit has; ONEGRISH_MOST_STEPS are always enough.
 * ONEGRISH_DONE. */
uint8_t onegrish_visit_read(const uint8_t *record, size_t record_length,
                            uint32_t *steps, size_t steps_words, size_t *count);

/* The offset of the field, or of the first byte left, for which onegrish_visit_read answers ONEGRISH_CUT_SHORT to
 * ONEGRISH_VALUE_OUTSIDE, whatever list it is lent; 0 where it answers another number. Ask it after such an answer: it goes
 * through the record once more. */
size_t onegrish_visit_read_offset(const uint8_t *record, size_t record_length);

/* The record of a visit, at the front of lent, and in count how many bytes it has. Every whole step of the list is the
 * visit's: of a list that was read into, lend count * ONEGRISH_STEP_WORDS words. Words that a step has no use for are not
 * looked at. What is written is read as the same visit. What was read is written as the same bytes, but that a pressure in
 * whole pascals becomes one in Pa times 256.
 *
 * At each step, from the first on: ONEGRISH_TAG_OUT_OF_PLACE: no record has that step there, any other kind included.
 * ONEGRISH_TOO_DEEP: a group on the fifth level.  ONEGRISH_VALUE_OUTSIDE: a humidity above 102,400, or a channel's number
 * other than ONEGRISH_DONE and 10 to 14.  Then ONEGRISH_TAG_OUT_OF_PLACE: the list ends before the record does.
 * ONEGRISH_WRONG_LENGTH: more than 65,535 bytes.  ONEGRISH_BUFFER_TOO_SHORT: fewer bytes are lent than the record has.
 * ONEGRISH_DONE. */
uint8_t onegrish_visit_write(const uint32_t *steps, size_t steps_words,
                             uint8_t *lent, size_t lent_length, size_t *count);

/* The place in the list, counted in steps from 0, of the step for which onegrish_visit_write answers
 * ONEGRISH_TAG_OUT_OF_PLACE, ONEGRISH_TOO_DEEP or ONEGRISH_VALUE_OUTSIDE, whatever buffer it is lent; the list's number of
 * steps where it ends too soon; 0 where it answers another number. */
size_t onegrish_visit_write_place(const uint32_t *steps, size_t steps_words);

/* ---- waiting */

/* The microseconds that a conversion with these codes takes at most, and typically.
 * ONEGRISH_OUT_OF_RANGE: a code above 7.  ONEGRISH_DONE. */
uint8_t onegrish_maximum_wait(uint8_t t, uint8_t p, uint8_t h, uint32_t *microseconds);
uint8_t onegrish_typical_wait(uint8_t t, uint8_t p, uint8_t h, uint32_t *microseconds);

/* The place of the first ready status byte, one with bits 3 and 0 clear, among as many as the allowance lets be read.
 * A conversion sets both when it begins, bit 0 clears when the calibration is copied, and bit 3 when it finishes;
 * one that begins at once after it, by an F4 that was held, sets both again.
 * ONEGRISH_NEVER_READY: there is none.  ONEGRISH_DONE. */
uint8_t onegrish_poll(const uint8_t *status, size_t status_length, size_t allowance, size_t *place);

/* The polls that this takes: place plus one, or where none is ready the smaller of status_length and allowance. */
size_t onegrish_polls(const uint8_t *status, size_t status_length, size_t allowance);

/* ---- bus bytes */

/* The message that writes pairs of register and value, at the front of lent, and its length. On I2C that is the address
 * doubled and then the pairs; on SPI each register has bit 7 clear.
 *
 * ONEGRISH_ADDRESS_NOT_ALLOWED: the device's address is not 0x76 or 0x77.
 * ONEGRISH_PAIRS_OUTSIDE: no pair, an odd number of bytes, or more than 16 pairs.
 * ONEGRISH_ADDRESS_NOT_ALLOWED: a register that can't be written (0xE0, 0xF2, 0xF4 and 0xF5 can).
 * ONEGRISH_BUFFER_TOO_SHORT: fewer bytes are lent than the message has.  ONEGRISH_DONE. */
uint8_t onegrish_i2c_write(uint8_t address, const uint8_t *pairs, size_t pairs_length,
                           uint8_t *lent, size_t lent_length, size_t *length);
uint8_t onegrish_spi_write(const uint8_t *pairs, size_t pairs_length,
                           uint8_t *lent, size_t lent_length, size_t *length);

/* The message that reads from a register on, at the front of lent, and its length. An I2C read is two messages, one after
 * the other in lent: lent[0] and lent[1], the address doubled and the register; then, after a stop or a repeated start,
 * lent[2], the address doubled plus one. On SPI it is one byte, the register with bit 7 set.
 *
 * ONEGRISH_ADDRESS_NOT_ALLOWED: the device's address is not 0x76 or 0x77, or the register is below 0x80.
 * ONEGRISH_BUFFER_TOO_SHORT: fewer than 3 bytes on I2C or 1 on SPI are lent.  ONEGRISH_DONE. */
uint8_t onegrish_i2c_read(uint8_t address, uint8_t reg, uint8_t *lent, size_t lent_length, size_t *length);
uint8_t onegrish_spi_read(uint8_t reg, uint8_t *lent, size_t lent_length, size_t *length);

/* The pairs that a write message carries, at the front of lent, and their length; on I2C the device's address too. On SPI
 * each register gets bit 7 again.
 *
 * ONEGRISH_WRONG_SHAPE: no byte; an odd number of bytes after the I2C address or on SPI; a first I2C byte other than 0xEC
 * or 0xEE; an SPI register byte with bit 7 set.  ONEGRISH_PAIRS_OUTSIDE: no pair, or more than 16.
 * ONEGRISH_ADDRESS_NOT_ALLOWED: a register that can't be written.
 * ONEGRISH_BUFFER_TOO_SHORT: fewer bytes are lent than the pairs have.  ONEGRISH_DONE. */
uint8_t onegrish_i2c_decode(const uint8_t *bytes, size_t bytes_length,
                            uint8_t *lent, size_t lent_length, uint8_t *address, size_t *length);
uint8_t onegrish_spi_decode(const uint8_t *bytes, size_t bytes_length,
                            uint8_t *lent, size_t lent_length, size_t *length);

#ifdef __cplusplus
}
#endif

#endif
