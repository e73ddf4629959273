/*
 * The settlement engine for C: libpiermint.a, for x86-64 Linux.
 *
 * Every content of the slices is answered; nothing is allocated, and nothing is kept after a call:
 * a book's year lies in cells that the caller holds.
 * A slice is a pointer and a length in elements. What a call owes, and the library does not test:
 *
 * - each pointer is not null, also where the length is 0, and is aligned for its type;
 * - behind it lie that many elements, all of them initialised, below 2^63 bytes in all;
 * - what a pointer without const points to overlaps nothing else that the call is given;
 * - during the call no other thread writes what it is given, or reads what it writes;
 * - 256 KB of stack are free;
 * - cells that piermint_post is given were made by piermint_new, and since then written by
 *   piermint_post alone (a copy of such cells is as good, and so is one kept in a file).
 *
 * A number is 0 where a record is accepted, and 1 to 17, 20 or 21 where it is refused: the first
 * question that fails (the README's table of numbers). 17 is a fifth clearing of one registration, 20
 * a retest that the seller may not have, 21 one that does not list exactly what failed.
 *
 * A sample of telemetry is answered with 0, with 18 if a value of it does not count, or else with 19
 * if its reduction is more than 100,000 kW once the eighths are dropped.
 */
#ifndef PIERMINT_H
#define PIERMINT_H

#include <stddef.h>
#include <stdint.h>

/*
 * The most numbers of a record, the most bytes of a statement, the most closes of a book, and the
 * cells of its year.
 */
#define PIERMINT_NUMBERS 229
#define PIERMINT_STATEMENT 354
#define PIERMINT_CLOSES 15
#define PIERMINT_CELLS 4807

#ifdef __cplusplus
extern "C" {
#endif

/*
 * Reads the record at the front of bytes. Accepted, its numbers go to the front of numbers in
 * layout order, *count is how many they are, and *used how many bytes the record takes. Refused,
 * both are 0, and numbers is as it was. With room for fewer than PIERMINT_NUMBERS it answers 16.
 */
uint64_t piermint_read(const uint8_t *bytes, size_t bytes_length, uint64_t *numbers,
                       size_t numbers_length, size_t *count, size_t *used);

/*
 * Writes the record with these numbers to the front of bytes. *used is how many bytes it takes;
 * refused it is 0, and bytes is as it was. With too little room it answers 16.
 */
uint64_t piermint_write(const uint64_t *numbers, size_t numbers_length, uint8_t *bytes,
                        size_t bytes_length, size_t *used);

/* Makes the PIERMINT_CELLS cells a new book's, whatever they held. */
void piermint_new(uint64_t *cells);

/*
 * Takes the record at the front of bytes, and answers its number. *used is how many bytes it takes,
 * 0 after number 1 or 2. Refused, the cells and the buffer are as they were. An accepted close writes
 * its statement to the front of buffer, *written bytes, with what lies past it as it was; else
 * *written is 0. A close with a buffer of fewer than PIERMINT_STATEMENT bytes is refused with 16.
 */
uint64_t piermint_post(uint64_t *cells, const uint8_t *bytes, size_t bytes_length, uint8_t *buffer,
                       size_t buffer_length, size_t *used, size_t *written);

/*
 * Bills a record file from a new book, and answers how many records it took. It ends at the end
 * of records, after a number 1 or 2, or when numbers is full.
 *
 * numbers[i] is the number of record i; *used is how many bytes of records were consumed. The
 * statements of the accepted closes stand in statements one after another, *written bytes in all.
 * A close with fewer than PIERMINT_STATEMENT bytes left there is refused with 16;
 * PIERMINT_CLOSES * PIERMINT_STATEMENT bytes are always enough. What lies past the result in
 * numbers and past *written in statements is as it was.
 */
size_t piermint_bill(const uint8_t *records, size_t records_length, uint64_t *numbers,
                     size_t numbers_length, uint8_t *statements, size_t statements_length,
                     size_t *used, size_t *written);

/*
 * Answers a pair of loads in kW, each as the bits of an IEEE 754 binary32, whatever they are. A load
 * counts if it is a whole number of eighths, at least 0 and below 131,072; minus zero is zero. *kw is
 * expected less metered, or 0 where metered is larger, with the eighths dropped; refused it is 0. It
 * may be the place of an entry's reduction among the numbers that piermint_write is given next.
 */
uint64_t piermint_reduction(uint32_t expected, uint32_t metered, uint64_t *kw);

/* Answers a direct reduction, which counts as a load does. *kw is it with the eighths dropped. */
uint64_t piermint_direct_reduction(uint32_t reduction, uint64_t *kw);

#ifdef __cplusplus
}
#endif

#endif
