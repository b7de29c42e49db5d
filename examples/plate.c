/* Plans document 01's plate through the library, and prints what the planning program prints for it. Then saves the plate, and reads it again; and
 * writes the orders of the plan of two layers for a printer, and lists them one by one.
 *
 * usage: plate [FILE]     the order file is left in FILE */
#include "shagorent.h"

#include <inttypes.h>
#include <stdio.h>
#include <string.h>

enum { HEIGHT = 4, SET = 6, CELLS = 24, ENTRIES = 36, COUNTS = 3, COLUMNS = 2 };

/* The printer: its motor's step of 1.875 micrometres in eighths, and cure times for the thicknesses 1 to 3 in 64ths of a second, 2 s for thickness
 * 2 and 2.5 s for 3. Thickness 1 is not allowed. */
enum { STEP = 15, THICKNESSES = 3, LAYERS = 2 };
static const uint16_t cure[THICKNESSES] = {0, 128, 160};

/* The columns as one run of boundaries, and a count for each column. */
static const uint16_t boundaries[] = {1, 4, 0, 3}, counts[COLUMNS] = {2, 2};

static int refused(uint32_t number, uint64_t place) {
    printf("refused %" PRIu32 " at %" PRIu64 "\n", number, place);
    return 1;
}

/* The bytes saved must be document 01's, and what is read from them the table and the head that they were saved from. */
static int save(const uint32_t *table, shagorent_head head) {
    static const uint8_t document_01[] = {0x0A, 0, 1, 0, 4, 0, 6, 0, 0, 0, 0xFF, 0xFF, 0xFF, 0xFF, /* settings */
                                          4, 0, 2, 0, 1, 0, 4, 0, 4, 0, 2, 0, 0, 0, 3, 0,          /* columns */
                                          4, 0, 3, 0, 2, 0, 0, 0};                                 /* end */
    uint8_t file[sizeof document_01];
    uint32_t again[CELLS];

    /* the length to lend, which is known here */
    shagorent_reply size = shagorent_job_size(counts, COLUMNS);
    if (size.number != SHAGORENT_DONE) return refused(size.number, size.value);
    shagorent_reply saved = shagorent_write_job(HEIGHT, SET, SHAGORENT_NO_BOUND, boundaries, 4, counts, COLUMNS, file, sizeof file);
    if (saved.number != SHAGORENT_DONE) return refused(saved.number, saved.value);

    shagorent_job_reply read = shagorent_read_job(file, saved.value, SHAGORENT_MOST_ENTRIES, again, CELLS);
    if (read.number != SHAGORENT_DONE) return refused(read.number, read.place);
    int same = size.value == sizeof file && saved.value == sizeof file && memcmp(file, document_01, sizeof file) == 0 &&
               read.bound == SHAGORENT_NO_BOUND && memcmp(&read.head, &head, sizeof head) == 0 && memcmp(again, table, sizeof again) == 0;
    if (!same) fprintf(stderr, "the plate saved is not document 01's\n");
    return same ? 0 : 1;
}

static int leave(const char *path, const uint8_t *file, size_t length) {
    FILE *out = fopen(path, "wb");
    int left = out != NULL && fwrite(file, 1, length, out) == length;
    if (out != NULL && fclose(out) != 0) left = 0;
    if (!left) fprintf(stderr, "%s: the orders were not written\n", path);
    return left ? 0 : 1;
}

/* Each call judges the whole file, so that nothing but a plan is listed; the finish is the last order. %.10g has every digit of a height and a time. */
static int list(const uint8_t *file, size_t length) {
    for (uint32_t number = 0;; number++) {
        shagorent_order_reply order = shagorent_read_order(HEIGHT, SET, STEP, cure, THICKNESSES, file, length, number);
        if (order.number != SHAGORENT_DONE) return refused(order.number, order.place);
        if (order.kind == SHAGORENT_FINISH) {
            printf("order %" PRIu32 " finish %" PRIu32 "\n", number, order.count);
            return 0;
        }
        printf("order %" PRIu32 " %s %.10g\n", number, order.kind == SHAGORENT_LIFT ? "lift" : "cure", (double)order.amount);
    }
}

static int order(const uint64_t *errors, const uint8_t *thicknesses, const char *path) {
    int32_t sequence[LAYERS + 1];
    uint8_t file[16 * LAYERS + 6];

    shagorent_reply read = shagorent_read_back(HEIGHT, SET, errors, ENTRIES, thicknesses, ENTRIES, LAYERS, sequence, LAYERS + 1);
    if (read.number != SHAGORENT_DONE) return refused(read.number, read.value);
    shagorent_reply written = shagorent_write_orders(HEIGHT, SET, STEP, cure, THICKNESSES, sequence, LAYERS + 1, file, sizeof file);
    if (written.number != SHAGORENT_DONE) return refused(written.number, written.value);
    if (path != NULL && leave(path, file, written.value) != 0) return 1;
    return list(file, written.value);
}

int main(int argc, char **argv) {
    uint32_t table[CELLS];
    uint64_t errors[ENTRIES], list[COUNTS];
    uint8_t thicknesses[ENTRIES];
    int32_t sequence[COUNTS + 1];

    if (shagorent_version() != SHAGORENT_VERSION) {
        fprintf(stderr, "the library is of version %" PRIu32 ", the header of %u\n", shagorent_version(), SHAGORENT_VERSION);
        return 1;
    }

    shagorent_table_reply made = shagorent_clear_table(table, CELLS, HEIGHT, SET);
    for (int i = 0; made.number == SHAGORENT_DONE && i < COLUMNS; i++)
        made = shagorent_add_column(table, CELLS, made.head, &boundaries[2 * i], counts[i]);
    if (made.number != SHAGORENT_DONE) return refused(made.number, made.place);
    shagorent_head head = made.head;

    shagorent_reply plan = shagorent_plan(table, CELLS, head, SHAGORENT_NO_BOUND, errors, ENTRIES, thicknesses, ENTRIES, list, COUNTS);
    if (plan.number != SHAGORENT_DONE) return refused(plan.number, plan.value);
    printf("height %" PRIu32 " columns %" PRIu32 " counts %" PRIu64 "\n", head.height, head.columns, plan.value);

    for (uint32_t n = 1; n <= plan.value; n++) {
        shagorent_reply read = shagorent_read_back(head.height, head.set, errors, ENTRIES, thicknesses, ENTRIES, n, sequence, COUNTS + 1);
        if (read.number == SHAGORENT_NO_SEQUENCE) {
            printf("%" PRIu32 " none\n", n);
            continue;
        }
        if (read.number != SHAGORENT_DONE) return refused(read.number, read.value);
        printf("%" PRIu32 " %" PRIu64, n, read.value);
        for (uint32_t k = 0; k <= n; k++) printf(" %" PRId32, sequence[k]);
        printf("\n");
    }
    if (save(table, head) != 0) return 1;
    return order(errors, thicknesses, argc > 1 ? argv[1] : NULL);
}
