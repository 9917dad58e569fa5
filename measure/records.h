// Visit records in plain C, with no check at all: measure/records.c.
#ifndef RECORDS_H
#define RECORDS_H
#include <stddef.h>
#include <stdint.h>

// Fills the list with the steps of a record, eight words each, and gives how many they are.
size_t plain_read(const uint8_t *record, uint32_t *steps);
// Writes the record of so many steps, and gives its length.
size_t plain_write(const uint32_t *steps, size_t count, uint8_t *out);
#endif
