/* What libFuzzer tries on examples/c/patgen_table.h: a word and a table from its bytes. bench/table_values builds and runs it. Where the
   first byte is odd, the table gets a right mark and length, so that what is damaged are its cells and records. */

#include <stdlib.h>

#include "../examples/c/patgen_table.h"

static void put(unsigned char *at, size_t value)
{
    at[0] = (unsigned char)(value >> 24);
    at[1] = (unsigned char)(value >> 16);
    at[2] = (unsigned char)(value >> 8);
    at[3] = (unsigned char)value;
}

/* Memory of exactly these bytes, so that a read behind them is found. */
static void *copy(const uint8_t *bytes, size_t size)
{
    void *made = malloc(size ? size : 1);
    if (made == NULL)
        abort();
    memcpy(made, bytes, size);
    return made;
}

static void mend_head(unsigned char *bytes, size_t size, size_t records)
{
    size_t room = size - PATGEN_HEAD;
    while (records > 0 && (room < PATGEN_RECORD * records || (room - PATGEN_RECORD * records) % PATGEN_CELL != 0))
        records--;
    memcpy(bytes, "PGT1", 4);
    put(bytes + 8, (room - PATGEN_RECORD * records) / PATGEN_CELL);
    put(bytes + 12, records);
}

static void try_word(const patgen_table *table, const uint8_t *signs, size_t length)
{
    uint16_t *word = copy(signs, 2 * length);
    unsigned char *values = copy(signs, length);
    int is_sound = patgen_check(table);
    size_t at;
    for (at = 0; at < length; at++)
        word[at] = (uint16_t)(word[at] % 40);
    patgen_values(table, word, length, values);
    for (at = 0; at < length; at++)
        if (is_sound && (values[at] > 9 || (patgen_is_break(values, length, at, 2, 3) && at + 5 > length)))
            abort();
    free(word);
    free(values);
}

int LLVMFuzzerTestOneInput(const uint8_t *data, size_t size)
{
    patgen_table table;
    size_t length, rest;
    unsigned char *bytes;
    if (size < 2 || size < 2 + 2 * (size_t)(data[1] % 64))
        return 0;
    length = data[1] % 64;
    rest = size - 2 - 2 * length;
    bytes = copy(data + 2 + 2 * length, rest);
    if (data[0] % 2 == 1 && rest >= PATGEN_HEAD)
        mend_head(bytes, rest, data[0]);
    if (patgen_open(&table, bytes, rest))
        try_word(&table, data + 2, length);
    free(bytes);
    return 0;
}
