/* Document 01's plate, tabulated on two machines: each makes the table of one column and sends it as a table file. A third reads the files, joins
 * the tables, plans the plate, and prints what the planning program prints for it. */
#include "shagorent.h"

#include <inttypes.h>
#include <stdio.h>

enum { HEIGHT = 4, SET = 6, MACHINES = 2, ENTRIES = 36, COUNTS = 3 };

static int refused(uint32_t number, uint64_t place) {
    printf("refused %" PRIu32 " at %" PRIu64 "\n", number, place);
    return 1;
}

/* On each machine: its columns' table, written as a file. */
static shagorent_reply tabulate(const uint16_t *column, size_t boundaries, uint8_t *file) {
    uint32_t table[SHAGORENT_TABLE_CELLS_MAX];
    shagorent_table_reply made = shagorent_clear_table(table, SHAGORENT_TABLE_CELLS_MAX, HEIGHT, SET);
    if (made.number == SHAGORENT_DONE) made = shagorent_add_column(table, SHAGORENT_TABLE_CELLS_MAX, made.head, column, boundaries);
    if (made.number != SHAGORENT_DONE) return (shagorent_reply){made.number, made.place};
    return shagorent_write_table(table, SHAGORENT_TABLE_CELLS_MAX, made.head, file, SHAGORENT_TABLE_FILE_MAX);
}

/* On the machine that plans: one more file's table joined into the table so far. */
static shagorent_table_reply join(uint32_t *table, shagorent_head head, const uint8_t *file, size_t length) {
    uint32_t other[SHAGORENT_TABLE_CELLS_MAX];
    shagorent_table_reply read = shagorent_read_table(file, length, other, SHAGORENT_TABLE_CELLS_MAX);
    if (read.number != SHAGORENT_DONE) return read;
    return shagorent_join_tables(table, SHAGORENT_TABLE_CELLS_MAX, head, other, SHAGORENT_TABLE_CELLS_MAX, read.head);
}

static int plan(const uint32_t *table, shagorent_head head) {
    uint64_t errors[ENTRIES], list[COUNTS];
    uint8_t thicknesses[ENTRIES];
    int32_t sequence[COUNTS + 1];
    shagorent_reply plan =
        shagorent_plan(table, SHAGORENT_TABLE_CELLS_MAX, head, SHAGORENT_NO_BOUND, errors, ENTRIES, thicknesses, ENTRIES, list, COUNTS);
    if (plan.number != SHAGORENT_DONE) return refused(plan.number, plan.value);
    printf("height %" PRIu32 " columns %" PRIu32 " counts %" PRIu64 "\n", head.height, head.columns, plan.value);
    for (uint32_t n = 1; n <= plan.value; n++) {
        shagorent_reply read = shagorent_read_back(head.height, head.set, errors, ENTRIES, thicknesses, ENTRIES, n, sequence, COUNTS + 1);
        if (read.number != SHAGORENT_DONE && read.number != SHAGORENT_NO_SEQUENCE) return refused(read.number, read.value);
        printf("%" PRIu32, n);
        if (read.number == SHAGORENT_NO_SEQUENCE) printf(" none");
        if (read.number == SHAGORENT_DONE) printf(" %" PRIu64, read.value);
        for (uint32_t k = 0; read.number == SHAGORENT_DONE && k <= n; k++) printf(" %" PRId32, sequence[k]);
        printf("\n");
    }
    return 0;
}

int main(void) {
    static const uint16_t columns[MACHINES][2] = {{1, 4}, {0, 3}};
    static uint8_t files[MACHINES][SHAGORENT_TABLE_FILE_MAX];
    size_t lengths[MACHINES];
    uint32_t table[SHAGORENT_TABLE_CELLS_MAX];

    for (int m = 0; m < MACHINES; m++) {
        shagorent_reply sent = tabulate(columns[m], 2, files[m]);
        if (sent.number != SHAGORENT_DONE) return refused(sent.number, sent.value);
        lengths[m] = sent.value;
    }

    shagorent_table_reply made = shagorent_clear_table(table, SHAGORENT_TABLE_CELLS_MAX, HEIGHT, SET);
    for (int m = 0; made.number == SHAGORENT_DONE && m < MACHINES; m++) made = join(table, made.head, files[m], lengths[m]);
    if (made.number != SHAGORENT_DONE) return refused(made.number, made.place);
    return plan(table, made.head);
}
