/* Judges the books that it is given, as a planner would before it reads them.
 *
 *   check BOOK..
 *
 * A line for each book: its name, and 'model', 'automaton', or the refusal as '- NUMBER PLACE'. The status is 1 where
 * a book was refused or could not be read. Built and run by tools/c-example.sh.
 */
#include <inttypes.h>
#include <stdio.h>
#include <stdlib.h>

#include "translator.h"

/* The largest book has 2,000 records and the head; one byte more shows that a file is too long to be a book. */
#define MOST_BYTES (32 * 2001)

static int judge(const char *name)
{
    static uint8_t bytes[MOST_BYTES + 1];
    FILE *file = fopen(name, "rb");
    if (file == NULL) {
        perror(name);
        return 1;
    }
    size_t length = fread(bytes, 1, sizeof bytes, file);
    int failed = ferror(file);
    fclose(file);
    if (failed) {
        fprintf(stderr, "%s: cannot be read\n", name);
        return 1;
    }

    uint64_t place = 0;
    uint32_t number = translator_check(bytes, length, &place);
    if (number != TRANSLATOR_OK) {
        printf("%s - %" PRIu32 " %" PRIu64 "\n", name, number, place);
        return 1;
    }
    printf("%s %s\n", name, bytes[0] == 'M' ? "model" : "automaton");
    return 0;
}

int main(int argc, char **argv)
{
    int status = EXIT_SUCCESS;
    for (int i = 1; i < argc; i++) {
        if (judge(argv[i]) != 0) {
            status = EXIT_FAILURE;
        }
    }
    return status;
}
