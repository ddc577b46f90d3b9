/* Prints the value of each position of words by a packed table.

       values TABLE <WORDS

   A line of WORDS has the signs of a word as numbers, its edges among them, as `1 9 2 19 23 6 20 21 6 19 1`. The status is 2 where TABLE
   cannot be read or is no packed table. */

#include <stdio.h>
#include <stdlib.h>

#include "patgen_table.h"

/* A file's bytes, or none. */
static void *read_file(const char *name, size_t *size)
{
    FILE *file = fopen(name, "rb");
    char *bytes = NULL;
    long end;
    if (file == NULL)
        return NULL;
    if (fseek(file, 0, SEEK_END) == 0 && (end = ftell(file)) > 0 && fseek(file, 0, SEEK_SET) == 0 && (bytes = malloc((size_t)end)) != NULL)
        *size = fread(bytes, 1, (size_t)end, file);
    fclose(file);
    return bytes;
}

int main(int count, char **names)
{
    static char line[8192];
    static uint16_t word[sizeof line / 2];
    static unsigned char values[sizeof line / 2];
    patgen_table table;
    size_t size = 0;
    void *bytes = count == 2 ? read_file(names[1], &size) : NULL;
    if (bytes == NULL || !patgen_open(&table, bytes, size) || !patgen_check(&table)) {
        fprintf(stderr, "usage: values TABLE <WORDS, with a packed table\n");
        return 2;
    }
    while (fgets(line, sizeof line, stdin) != NULL) {
        size_t length = 0, at;
        char *rest = line, *end;
        for (unsigned long sign = strtoul(rest, &end, 10); end != rest; sign = strtoul(rest = end, &end, 10))
            word[length++] = (uint16_t)sign;
        patgen_values(&table, word, length, values);
        for (at = 0; at < length; at++)
            printf(at == 0 ? "%d" : " %d", values[at]);
        putchar('\n');
    }
    free(bytes);
    return 0;
}
