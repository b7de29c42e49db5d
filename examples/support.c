/* For a support desk: reads a job file from standard input, and says which way it is broken and what to ask for. */
#include "shagorent.h"

#include <inttypes.h>
#include <stdio.h>

enum { BYTES = 1 << 20 };

static const char *advice(uint32_t number) {
    switch (number) {
    case SHAGORENT_RAN_OUT: return "it was cut off: ask for the rest of the file";
    case SHAGORENT_WRONG_KIND: return "it is of a newer kind, or of another format: ask for the newer reader";
    case SHAGORENT_WRONG_LENGTH: return "it is damaged: ask for the file to be written anew";
    case SHAGORENT_DISAGREES: return "it says one thing and holds another: ask whoever made it";
    default: return "its record is whole, and what it asks for is refused: see the list of refusals";
    }
}

int main(void) {
    static uint8_t file[BYTES + 1];
    static uint32_t table[SHAGORENT_MOST_CELLS];
    size_t length = fread(file, 1, sizeof file, stdin);
    if (ferror(stdin) || length > BYTES) {
        fprintf(stderr, "the file can't be read, or is longer than %d bytes\n", BYTES);
        return 1;
    }

    shagorent_job_reply read = shagorent_read_job(file, length, SHAGORENT_MOST_ENTRIES, table, SHAGORENT_MOST_CELLS);
    if (read.number == SHAGORENT_DONE) {
        printf("a good file: height %" PRIu32 " columns %" PRIu32 "\n", read.head.height, read.head.columns);
    } else {
        printf("refused %" PRIu32 " at %" PRIu64 ": %s\n", read.number, read.place, advice(read.number));
    }
    return 0;
}
