/*
 * Calls the static library on document 01's Year A, on its edges, on samples of telemetry, and on
 * retests, and holds the header's constants to it: one that is too small fails, and so does one that
 * is too large. tests/library compiles and runs it.
 */
#include "piermint.h"

#include <stdio.h>
#include <string.h>

#define ROOM (PIERMINT_CLOSES * PIERMINT_STATEMENT)
#define MARK 0xA5
#define MARKS UINT64_C(0xA5A5A5A5A5A5A5A5)

static int failures = 0;

static void expect(int holds, const char *what)
{
    if (!holds) {
        printf("failed: %s\n", what);
        failures++;
    }
}

/* The field of so many bits at a bit of a statement; the bit moves past it. */
static uint64_t field(const uint8_t *bytes, size_t *bit, int width)
{
    uint64_t value = 0;
    for (; width > 0; width--, (*bit)++)
        value = value << 1 | (bytes[*bit / 8] >> (7 - *bit % 8) & 1);
    return value;
}

/* A new book is written to PIERMINT_CELLS cells, each of them, and to none beside them. */
static void makes_its_cells(void)
{
    enum { BESIDE = 8192 }; /* enough for a constant that is far too small */
    static uint64_t cells[BESIDE + PIERMINT_CELLS + BESIDE];
    size_t kept = 0, spoilt = 0;

    memset(cells, MARK, sizeof cells);
    piermint_new(cells + BESIDE);
    for (size_t i = 0; i < sizeof cells / sizeof cells[0]; i++) {
        if (i >= BESIDE && i < BESIDE + PIERMINT_CELLS)
            kept += cells[i] == MARKS;
        else
            spoilt += cells[i] != MARKS;
    }
    expect(kept == 0, "PIERMINT_CELLS is too large: a new book leaves a cell as it was");
    expect(spoilt == 0, "PIERMINT_CELLS is too small: a new book writes a cell beside its own");
}

/* The opening of Year A: 14 A3 95 18 00 is kind 1, not leap, factors 9,500 and 10,800. */
static void reads_and_writes(void)
{
    static const uint8_t opening[] = {0x14, 0xA3, 0x95, 0x18, 0x00, 0xFF};
    static const uint64_t expected[] = {1, 0, 9500, 10800};
    uint64_t numbers[PIERMINT_NUMBERS];
    uint8_t bytes[8];
    size_t count = 99, used = 99;

    memset(numbers, MARK, sizeof numbers);
    expect(piermint_read(opening, sizeof opening, numbers, PIERMINT_NUMBERS, &count, &used) == 0, "the opening is read");
    expect(count == 4 && used == 5, "it has four numbers and five bytes");
    expect(memcmp(numbers, expected, sizeof expected) == 0, "its numbers");
    expect(numbers[4] == MARKS, "past them nothing is read");

    memset(bytes, MARK, sizeof bytes);
    expect(piermint_write(numbers, count, bytes, sizeof bytes, &used) == 0, "it is written");
    expect(used == 5 && memcmp(bytes, opening, used) == 0, "as it was");
    expect(bytes[5] == MARK, "past it nothing is written");

    expect(piermint_read(opening, 4, numbers, PIERMINT_NUMBERS, &count, &used) == 2, "cut off: 2");
    expect(count == 0 && used == 0, "a refusal counts nothing");
    expect(piermint_read(opening, 5, numbers, PIERMINT_NUMBERS - 1, &count, &used) == 16, "no room for numbers: 16");
    expect(piermint_read(opening, 0, numbers, PIERMINT_NUMBERS, &count, &used) == 1, "no byte: 1");
    expect(piermint_write(expected, 3, bytes, sizeof bytes, &used) == 3 && used == 0, "a number short: 3");
    expect(piermint_write(expected, 4, bytes, 4, &used) == 16 && used == 0, "no room for bytes: 16");
}

/* An event of two reductions, 8 1 1 0 1 0 600 2100, there and back. */
static void takes_two_reductions(void)
{
    static const uint8_t expected[] = {0x82, 0x20, 0x02, 0x00, 0x09, 0x60, 0x10, 0x68};
    static const uint64_t event[] = {8, 1, 1, 0, 1, 0, 600, 2100};
    uint64_t numbers[PIERMINT_NUMBERS];
    uint8_t bytes[8];
    size_t count = 99, used = 99;

    expect(piermint_write(event, 8, bytes, sizeof bytes, &used) == 0 && used == 8, "two reductions are written");
    expect(memcmp(bytes, expected, used) == 0, "bit for bit");
    expect(piermint_read(bytes, used, numbers, PIERMINT_NUMBERS, &count, &used) == 0, "and read");
    expect(count == 8 && memcmp(numbers, event, sizeof event) == 0, "to the same numbers");
}

/* Samples as the bits of binary32, and what they are answered with. */
static void answers_samples(void)
{
    static const struct {
        uint32_t reduction;
        uint64_t number, kw;
    } direct[] = {
        {0x00000000, 0, 0}, {0x80000000, 0, 0},       /* zero and minus zero */
        {0x3E000000, 0, 0}, {0x3D800000, 18, 0},      /* an eighth and a sixteenth */
        {0x3F800000, 0, 1}, {0xBF800000, 18, 0},      /* 1 and -1 */
        {0x47C35070, 0, 100000}, {0x47C35080, 19, 0}, /* 100,000.875 and 100,001 */
        {0x47FFFFF0, 19, 0}, {0x48000000, 18, 0},     /* 131,071.875 and 131,072 */
        {0x00000001, 18, 0}, {0x80000001, 18, 0},     /* the smallest subnormals */
        {0x7F800000, 18, 0}, {0xFF800000, 18, 0},     /* infinities */
        {0x7FC00000, 18, 0}, {0x7F800001, 18, 0},     /* a quiet and a signalling NaN */
    };
    static const struct {
        uint32_t expected, metered;
        uint64_t number, kw;
    } pairs[] = {
        {0x41180000, 0x3F400000, 0, 8},      /* 9.5 less 0.75 */
        {0x3F400000, 0x41180000, 0, 0},      /* 0.75 less 9.5 */
        {0x3F400000, 0x48000000, 18, 0},     /* 0.75 less 131,072 */
        {0x3D800000, 0x41180000, 18, 0},     /* a sixteenth less 9.5 */
        {0x47FFFFF0, 0x46F2BE00, 0, 100000}, /* 131,071.875 less 31,071 */
        {0x47FFFFF0, 0x46F2BDC0, 19, 0},     /* 131,071.875 less 31,070.875 */
        {0x48000000, 0x48000000, 18, 0},     /* 131,072 twice */
        {0x80000000, 0x80000000, 0, 0},      /* minus zero twice */
    };
    for (size_t i = 0; i < sizeof direct / sizeof direct[0]; i++) {
        uint64_t kw = 99;
        expect(piermint_direct_reduction(direct[i].reduction, &kw) == direct[i].number, "a direct reduction");
        expect(kw == direct[i].kw, "its kW");
    }
    for (size_t i = 0; i < sizeof pairs / sizeof pairs[0]; i++) {
        uint64_t kw = 99;
        expect(piermint_reduction(pairs[i].expected, pairs[i].metered, &kw) == pairs[i].number, "a pair of loads");
        expect(kw == pairs[i].kw, "its kW");
    }
}

/* Year A's test, 5 1 0 1 0 2 0 600 1 2100, its two reductions right from samples: the record at byte 27. */
static void writes_samples(const uint8_t *year)
{
    uint64_t test[] = {5, 1, 0, 1, 0, 2, 0, 99, 1, 99};
    uint8_t bytes[9];
    size_t used = 99;

    expect(piermint_reduction(0x44AF1000, 0x44481000, &test[7]) == 0, "1,400.5 less 800.25 kW");
    expect(piermint_direct_reduction(0x45034E00, &test[9]) == 0, "2,100.875 kW");
    expect(test[6] == 0 && test[8] == 1, "each writes its own number alone");
    expect(piermint_write(test, 10, bytes, sizeof bytes, &used) == 0 && used == 9, "the test is written");
    expect(memcmp(bytes, year + 27, used) == 0, "as with 600 and 2,100 kW typed");
}

/* The statement of Year A's close 1: S 0 0 147600 0, S 1 0 0 0, L 0 110700, L 1 36900. */
static void says_close_1(const uint8_t *statement)
{
    static const struct {
        int width;
        uint64_t value;
    } fields[] = {
        {4, 1}, {5, 2}, {5, 2},
        {4, 0}, {42, 0}, {42, 147600}, {42, 0},
        {4, 1}, {42, 0}, {42, 0}, {42, 0},
        {4, 0}, {42, 110700}, {4, 1}, {42, 36900}, {2, 0},
    };
    size_t bit = 0;
    for (size_t i = 0; i < sizeof fields / sizeof fields[0]; i++)
        expect(field(statement, &bit, fields[i].width) == fields[i].value, "a field of close 1");
}

/* Eight records: an opening, two registrations, two LSEs, a test, close 1 and close 1 again. */
static void bills(uint8_t *year, size_t length)
{
    static const uint64_t expected[] = {0, 0, 0, 0, 0, 0, 0, 15};
    static const uint8_t none[] = {0x00};
    uint64_t numbers[16];
    uint8_t statements[ROOM];
    size_t used = 99, written = 99;

    memset(numbers, MARK, sizeof numbers);
    memset(statements, MARK, sizeof statements);
    expect(piermint_bill(year, length, numbers, 16, statements, ROOM, &used, &written) == 8, "eight records");
    expect(used == length && written == 46, "all is used, and a statement of 46 bytes written");
    expect(memcmp(numbers, expected, sizeof expected) == 0, "their numbers");
    expect(numbers[8] == MARKS, "past them no number");
    expect(statements[46] == MARK && statements[ROOM - 1] == MARK, "past the statement nothing");
    says_close_1(statements);

    year[length] = 0x62;
    expect(piermint_bill(year, length + 1, numbers, 16, statements, ROOM, &used, &written) == 9, "and close 2");
    expect(numbers[8] == 0 && used == length + 1 && written == 92, "a second statement");
    says_close_1(statements);
    expect(statements[46] >> 4 == 2, "of month 2, right behind the first");

    expect(piermint_bill(year, length, numbers, 3, statements, ROOM, &used, &written) == 3, "room for three numbers");
    expect(used == 19 && written == 0, "the opening and two registrations");
    expect(piermint_bill(year, length, numbers, 16, statements, PIERMINT_STATEMENT - 1, &used, &written) == 8, "no room for a statement");
    expect(numbers[6] == 16 && written == 0, "refuses the close: 16");
    expect(piermint_bill(year, length - 3, numbers, 16, statements, ROOM, &used, &written) == 6, "a test cut off");
    expect(numbers[5] == 2 && used == 27, "ends the file: 2");
    expect(piermint_bill(none, 1, numbers, 16, statements, ROOM, &used, &written) == 1, "no kind");
    expect(numbers[0] == 1 && used == 0 && written == 0, "ends the file: 1");
    expect(piermint_bill(none, 0, numbers, 16, statements, ROOM, &used, &written) == 0, "no record");
    expect(used == 0 && written == 0, "uses nothing");
}

/* The same records one at a time, on cells of this program's own. */
static void takes_each(const uint8_t *year, size_t length)
{
    static uint64_t cells[PIERMINT_CELLS], before[PIERMINT_CELLS];
    uint8_t buffer[PIERMINT_STATEMENT];
    size_t at = 0, used = 99, written = 99;

    memset(cells, MARK, sizeof cells);
    piermint_new(cells);
    memcpy(before, cells, sizeof cells);
    memset(buffer, MARK, sizeof buffer);
    expect(piermint_post(cells, year, 4, buffer, sizeof buffer, &used, &written) == 2, "an opening cut off: 2");
    expect(used == 0 && written == 0 && memcmp(cells, before, sizeof cells) == 0, "changes no cell");
    for (int i = 0; i < 6; i++, at += used) {
        expect(piermint_post(cells, year + at, length - at, buffer, sizeof buffer, &used, &written) == 0, "six records");
        expect(written == 0 && buffer[0] == MARK, "without a statement");
    }
    memcpy(before, cells, sizeof cells);
    expect(piermint_post(cells, year + at, length - at, buffer, sizeof buffer - 1, &used, &written) == 16, "no room to close: 16");
    expect(used == 1 && written == 0 && buffer[0] == MARK, "writes nothing");
    expect(memcmp(cells, before, sizeof cells) == 0, "and changes no cell");
    expect(piermint_post(cells, year + at, length - at, buffer, sizeof buffer, &used, &written) == 0, "close 1");
    expect(used == 1 && written == 46 && buffer[46] == MARK, "a statement of 46 bytes");
    says_close_1(buffer);
    expect(piermint_post(cells, year + at, length - at, buffer, sizeof buffer, &used, &written) == 15, "close 1 again: 15");
    expect(used == 1 && written == 0, "writes no statement");
}

/* Year A's first six records, then PIERMINT_CLOSES closes, and one that finds the book closed. */
static void closes_each_month(const uint8_t *year, size_t length)
{
    static uint64_t cells[PIERMINT_CELLS];
    uint8_t buffer[PIERMINT_STATEMENT], close = 0x60;
    size_t at = 0, used = 99, written = 99;

    piermint_new(cells);
    for (int i = 0; i < 6; i++, at += used)
        expect(piermint_post(cells, year + at, length - at, buffer, sizeof buffer, &used, &written) == 0, "six records");
    for (int month = 1; month <= PIERMINT_CLOSES; month++) {
        close++;
        expect(piermint_post(cells, &close, 1, buffer, sizeof buffer, &used, &written) == 0, "PIERMINT_CLOSES closes are taken");
        expect(written == 46 && buffer[0] >> 4 == month, "each with its month's statement");
    }
    expect(piermint_post(cells, &close, 1, buffer, sizeof buffer, &used, &written) == 6, "after PIERMINT_CLOSES closes: 6");
}

/*
 * Seller 0 has 1,000, 2,000 and 1,001 kW at 10,000. June's test gives 400, 2,100 and 1,001: 500 kW
 * short, 513 unforced, 184,680 cents. Its retest gives 900 for 400: nothing is short, and July's close
 * pays it back.
 */
static void bills_a_retest(void)
{
    static const struct {
        size_t count;
        uint64_t numbers[12];
        uint64_t number;
    } records[] = {
        {4, {1, 0, 9500, 10800}, 0},
        {8, {2, 0, 0, 1, 1, 0, 1000, 10000}, 0},
        {8, {2, 1, 0, 1, 1, 0, 2000, 10000}, 0},
        {8, {2, 2, 0, 1, 1, 0, 1001, 10000}, 0},
        {3, {3, 0, 3000}, 0},
        {8, {9, 0, 1, 0, 1, 1, 0, 900}, 20}, /* before the test */
        {12, {5, 1, 0, 1, 0, 3, 0, 400, 1, 2100, 2, 1001}, 0},
        {2, {6, 1}, 0},
        {8, {9, 0, 1, 0, 1, 1, 1, 900}, 21}, /* registration 1 did not fail */
        {8, {9, 0, 1, 0, 1, 1, 0, 900}, 0},
        {8, {9, 0, 1, 0, 1, 1, 0, 900}, 20}, /* a second one */
        {2, {6, 2}, 0},
    };
    enum { RECORDS = sizeof records / sizeof records[0], LENGTH = 24, TEST = 14 + 4 + 42 };
    uint64_t numbers[RECORDS];
    uint8_t file[128], statements[ROOM];
    size_t length = 0, bit = TEST, used = 99, written = 99;

    for (size_t i = 0; i < RECORDS; i++, length += used)
        expect(piermint_write(records[i].numbers, records[i].count, file + length, sizeof file - length, &used) == 0, "a record is written");
    expect(piermint_bill(file, length, numbers, RECORDS, statements, ROOM, &used, &written) == RECORDS, "all are billed");
    for (size_t i = 0; i < RECORDS; i++)
        expect(numbers[i] == records[i].number, "a record's number");
    expect(used == length && written == 2 * LENGTH, "two statements of 24 bytes");
    expect(field(statements, &bit, 42) == 184680, "the test's amount");
    bit = TEST;
    expect(field(statements + LENGTH, &bit, 42) == (UINT64_C(1) << 42) - 184680, "paid back");
}

int main(int argc, char **argv)
{
    uint8_t year[1024];
    FILE *file = argc == 2 ? fopen(argv[1], "rb") : NULL;
    if (file == NULL) {
        fprintf(stderr, "usage: piermint YEAR-A\n");
        return 2;
    }
    size_t length = fread(year, 1, sizeof year - 1, file);
    fclose(file);

    makes_its_cells();
    if (failures != 0)
        return 1; /* what follows lends so many cells */
    reads_and_writes();
    takes_two_reductions();
    answers_samples();
    writes_samples(year);
    bills(year, length);
    takes_each(year, length);
    closes_each_month(year, length);
    bills_a_retest();
    printf("%s\n", failures == 0 ? "the static library answers as the documents say" : "the static library differs");
    return failures != 0;
}
