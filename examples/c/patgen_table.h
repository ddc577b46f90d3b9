/* Reads packed tables of patterns, as PatGen's command `pack` writes them and docs/FORMATS.md describes them. It is C99 in this one
   file, for programs that embed patterns. It takes no memory and keeps nothing. Each number of a table is compared with its bounds
   before it is used, so a damaged table gives wrong values and nothing worse.

       patgen_table table;
       unsigned char values[11];
       const uint16_t harvester[11] = {1, 9, 2, 19, 23, 6, 20, 21, 6, 19, 1};
       if (patgen_open(&table, bytes, size)) {
           patgen_values(&table, harvester, 11, values);
           if (patgen_is_break(values, 11, 3, 2, 3)) puts("har-vester");
       }

   A word is given as signs: the edge 1, a sign for each letter, and the edge again. The first letter of the translate file has the sign
   2, the next one 3 and so on. A letter that the translate file lacks is 0, which no pattern has. */

#ifndef PATGEN_TABLE_H
#define PATGEN_TABLE_H

#include <stddef.h>
#include <stdint.h>
#include <string.h>

#define PATGEN_HEAD 16
#define PATGEN_CELL 10
#define PATGEN_RECORD 6
#define PATGEN_LONGEST 32 /* signs of a pattern */

/* A table, in bytes that have to stay where they are. */
typedef struct {
    const unsigned char *bytes;
    uint32_t signs, cells, records;
} patgen_table;

/* A number of so many bytes, the greatest first. */
static inline uint32_t patgen_number(const unsigned char *at, int bytes)
{
    uint32_t value = 0;
    while (bytes-- > 0)
        value = value << 8 | *at++;
    return value;
}

/* Takes a table of `size` bytes: 1, or 0 where its mark or its length is not that of a packed table. */
static inline int patgen_open(patgen_table *table, const void *bytes, size_t size)
{
    table->bytes = (const unsigned char *)bytes;
    if (size < PATGEN_HEAD || size > (size_t)1 << 28 || memcmp(bytes, "PGT1", 4) != 0)
        return 0;
    table->signs = patgen_number(table->bytes + 4, 4);
    table->cells = patgen_number(table->bytes + 8, 4);
    table->records = patgen_number(table->bytes + 12, 4);
    return PATGEN_HEAD + UINT64_C(10) * table->cells + UINT64_C(6) * table->records == size;
}

/* The cell of a number below that of the cells. */
static inline const unsigned char *patgen_cell(const patgen_table *table, uint32_t number)
{
    return table->bytes + PATGEN_HEAD + (size_t)PATGEN_CELL * number;
}

/* The record of a number from 1 to that of the records. */
static inline const unsigned char *patgen_record(const patgen_table *table, uint32_t number)
{
    return patgen_cell(table, table->cells) + (size_t)PATGEN_RECORD * (number - 1);
}

/* Whether a cell keeps the rules. */
static inline int patgen_is_cell(const patgen_table *table, uint32_t number)
{
    static const unsigned char unused[PATGEN_CELL] = {0};
    const unsigned char *cell = patgen_cell(table, number);
    uint32_t sign = patgen_number(cell, 2);
    if (number <= table->signs && sign != number)
        return 0;
    if (sign == 0)
        return memcmp(cell, unused, PATGEN_CELL) == 0;
    return sign <= table->signs && patgen_number(cell + 2, 4) < table->cells && patgen_number(cell + 6, 4) <= table->records;
}

/* Whether a record keeps the rules. */
static inline int patgen_is_record(const patgen_table *table, uint32_t number)
{
    const unsigned char *record = patgen_record(table, number);
    return record[0] >= 1 && record[0] <= 9 && record[1] <= PATGEN_LONGEST && patgen_number(record + 2, 4) < number;
}

/* Whether an opened table keeps all rules of docs/FORMATS.md. It looks at each cell and record once. Nothing below needs it. */
static inline int patgen_check(const patgen_table *table)
{
    uint32_t number;
    if (table->signs < 1 || table->signs > 2001 || table->signs >= table->cells)
        return 0;
    for (number = 0; number < table->cells; number++)
        if (!patgen_is_cell(table, number))
            return 0;
    for (number = 1; number <= table->records; number++)
        if (!patgen_is_record(table, number))
            return 0;
    return 1;
}

/* Enters the list of a head into the values of a word: for a string of so many signs that begins at `start`. */
static inline void patgen_enter(const patgen_table *table, uint32_t head, size_t start, size_t signs, size_t length, unsigned char *values)
{
    uint32_t before = UINT32_MAX;
    while (head != 0 && head <= table->records && head < before) {
        const unsigned char *record = patgen_record(table, head);
        size_t dot = record[1];
        if (dot <= signs && start + dot < length && values[start + dot] < record[0])
            values[start + dot] = record[0];
        before = head;
        head = patgen_number(record + 2, 4);
    }
}

/* Enters the patterns that begin at one place of a word. */
static inline void patgen_enter_from(const patgen_table *table, const uint16_t *word, size_t start, size_t length, unsigned char *values)
{
    uint64_t base = 0;
    size_t stop;
    for (stop = start; stop < length && stop - start < PATGEN_LONGEST; stop++) {
        uint64_t number = base + word[stop];
        const unsigned char *cell;
        if (number >= table->cells)
            return;
        cell = patgen_cell(table, (uint32_t)number);
        if (patgen_number(cell, 2) != word[stop])
            return;
        patgen_enter(table, patgen_number(cell + 6, 4), start, stop + 1 - start, length, values);
        base = patgen_number(cell + 2, 4);
        if (base == 0)
            return;
    }
}

/* Writes the value of each position of a word of `length` signs, its edges counted: values[p] is that with p signs before it. */
static inline void patgen_values(const patgen_table *table, const uint16_t *word, size_t length, unsigned char *values)
{
    size_t start;
    if (length > 0)
        memset(values, 0, length);
    for (start = 0; start < length; start++)
        patgen_enter_from(table, word, start, length, values);
}

/* Whether a word breaks behind so many letters, by its values and the two minima. */
static inline int patgen_is_break(const unsigned char *values, size_t length, size_t letters, size_t left, size_t right)
{
    return letters >= left && letters + right + 2 <= length && letters + 1 < length && values[letters + 1] % 2 == 1;
}

#endif
