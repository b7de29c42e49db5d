/* For a viewer: how sure the picture of each column is, layer by layer from the top down, in two sequences over document 01's plate. */
#include "shagorent.h"

#include <inttypes.h>
#include <stdio.h>
#include <stdlib.h>

enum { HEIGHT = 4, SET = 6, COLUMNS = 2 };

static const uint16_t columns[COLUMNS][2] = {{1, 4}, {0, 3}};

/* |difference| / thickness in hundredths, rounded down: 0 at a tie, 100 where no boundary of the column lies strictly inside the layer. */
static uint32_t sure(shagorent_picture_reply picture, uint32_t thickness) {
    return (uint32_t)abs(picture.difference) * 100 / thickness;
}

static void show_layer(int32_t from, int32_t to) {
    uint32_t thickness = (uint32_t)(to - from);
    printf("%2" PRId32 " to %" PRId32 ":", from, to);
    for (size_t i = 0; i < COLUMNS; i++) {
        shagorent_picture_reply picture = shagorent_picture(HEIGHT, SET, columns[i], 2, from, thickness);
        if (picture.number != SHAGORENT_DONE) {
            fprintf(stderr, "refused %" PRIu32 " at %" PRIu64 "\n", picture.number, picture.value);
            exit(1);
        }
        printf("  %c %s, %" PRIu32 "%% sure", (char)('A' + i), picture.filled ? "filled" : "left out", sure(picture, thickness));
    }
    printf("\n");
}

static void show_sequence(const int32_t *sequence, size_t layers) {
    for (size_t i = layers; i > 0; i--) {
        show_layer(sequence[i - 1], sequence[i]);
    }
    printf("\n");
}

int main(void) {
    if (shagorent_version() != SHAGORENT_VERSION) {
        fprintf(stderr, "the library is of version %" PRIu32 ", the header of %u\n", shagorent_version(), SHAGORENT_VERSION);
        return 1;
    }
    static const int32_t best[] = {0, 2, 4}, thick[] = {-1, 2, 5};
    show_sequence(best, 2);
    show_sequence(thick, 2);
    return 0;
}
