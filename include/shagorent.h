/* Shagorent: layer plans of least error for resin printers.
 *
 * Given the columns of a plate, it finds for every number of layers the sequence of layers with the least error, the fewest voxels wrongly
 * filled or left out. What each call answers and what it writes is proved, for any input.
 *
 * Link with libshagorent.a, which `rt lib` in crates/shagorent makes in crates/shagorent/out.
 *
 * MEMORY. All memory is lent: the library allocates nothing, keeps nothing after a call, has no state of its own, blocks on nothing, and may
 * be called from several threads at once with different buffers. A buffer is a pointer and a length in elements, and may be longer than asked
 * for: nothing past the stated size is read or written. Pointers must not be null, also where the length is 0, and must be aligned as their
 * type asks; two buffers of one call must not overlap if one of them is written.
 *
 * REPLIES. Every call checks its input itself and answers by a struct: `number` is 0 where it is done, and otherwise the number of a refusal,
 * with its place. A refused call has written nothing. Fields that a reply has no use for are 0.
 *
 * UNITS. Heights and thicknesses are whole units. A plate is `height` units high, 1 to 512. `set` has bit k-1 set for each allowed thickness k,
 * 1 to 32; tmin and tmax are its least and greatest. A layer from z of thickness t holds the voxels z to z+t-1; z may be below 0.
 */
#ifndef SHAGORENT_H
#define SHAGORENT_H

#include <stddef.h>
#include <stdint.h>

#ifdef __cplusplus
extern "C" {
#endif

/* Version of this header. A library of another major version does not go with it: a struct or a function's parameters are others. One of a greater
 * minor version has more functions, or a rule that moved, as its changelog tells. `shagorent_version` answers the library's own, in the form of
 * SHAGORENT_VERSION: ask once that the two agree. */
#define SHAGORENT_VERSION_MAJOR 5u
#define SHAGORENT_VERSION_MINOR 0u
#define SHAGORENT_VERSION_PATCH 0u
#define SHAGORENT_VERSION (SHAGORENT_VERSION_MAJOR * 10000u + SHAGORENT_VERSION_MINOR * 100u + SHAGORENT_VERSION_PATCH)

/* Limits. */
#define SHAGORENT_LEAST_HEIGHT 1u
#define SHAGORENT_GREATEST_HEIGHT 512u
#define SHAGORENT_GREATEST_THICKNESS 32u
#define SHAGORENT_MOST_BOUNDARIES 64u     /* of a column */
#define SHAGORENT_MOST_COLUMNS 1000000u   /* of a table */
#define SHAGORENT_MOST_CELLS 18368u       /* of any table */
#define SHAGORENT_MOST_ENTRIES 294975u    /* of any sheet */
#define SHAGORENT_MOST_COUNTS 512u        /* of any plan */
#define SHAGORENT_TABLE_CELLS_MAX 18368u  /* of the table of any table file, SHAGORENT_MOST_CELLS */
#define SHAGORENT_TABLE_FILE_MAX 76936u   /* bytes of any table file */
#define SHAGORENT_ORDER_FILE_MAX 8198u    /* bytes of any order file, 16 * SHAGORENT_MOST_COUNTS + 6 */
#define SHAGORENT_LEAST_STEP 1u           /* of a motor, in eighths of a micrometre */
#define SHAGORENT_GREATEST_STEP 8192u
#define SHAGORENT_LOWEST_BOUNDARY (-31)   /* that a motor can be sent to */
#define SHAGORENT_HIGHEST_BOUNDARY 543
#define SHAGORENT_NO_BOUND UINT32_MAX     /* a bound that excludes nothing */
#define SHAGORENT_NONE UINT64_MAX         /* in an error sheet or a list: there is no such sequence */

/* Refusals: the number, and what its place is. 16, 19, 20 and 21 are faults of a job, table or order file; their place is the first byte of the
 * record at fault, and for bytes after the end record the first of them. With 16 the file is cut off: ask for the rest of it. The other three stay,
 * whatever bytes follow: with 19 it may be a file of a newer kind, ask for the newer reader; with 20 it is damaged; with 21 it says one thing and
 * holds another, as orders may that were written for another step: ask whoever made it. */
#define SHAGORENT_DONE 0u
#define SHAGORENT_HEIGHT 1u          /* height outside 1 to 512; 0 */
#define SHAGORENT_NO_THICKNESS 2u    /* no thickness allowed; 0 */
#define SHAGORENT_SHORT_BUFFER 3u    /* a lent buffer or list shorter than stated; which, from 1, of those with a stated length, in the order of the parameters */
#define SHAGORENT_BOUNDARY_COUNT 4u  /* an odd number of boundaries, or more than 64; the number, in writing a job the column */
#define SHAGORENT_BOUNDARY 5u        /* a boundary above the height, or not above the one before; the first such index, in writing a job the column */
#define SHAGORENT_CELL 6u            /* a cell out of bounds for the table's column count; the lowest such index, in reading a table file the row's first byte */
#define SHAGORENT_COLUMNS 7u         /* columns beyond 1,000,000; 0 */
#define SHAGORENT_SETTINGS 8u        /* two tables' settings differ; 0 */
#define SHAGORENT_NOT_A_PART 9u      /* the second table is not a part of the first; 0 by its count, else the lowest such cell */
#define SHAGORENT_COUNT 10u          /* count 0 or above the greatest; 0 */
#define SHAGORENT_NO_SEQUENCE 11u    /* no admissible sequence of that count; 0 */
#define SHAGORENT_UNREADABLE 12u     /* sheets that do not read back; the layer, or 0 */
#define SHAGORENT_NOT_ADMISSIBLE 13u /* a sequence, for orders without a bound, or a layer that is not admissible; the lowest index at fault */
#define SHAGORENT_STEP 14u           /* step outside 1 to 8,192, of a motor height or of orders; 0 */
#define SHAGORENT_MOTOR_BOUNDARY 15u /* boundary outside -31 to 543; 0 */
#define SHAGORENT_RAN_OUT 16u        /* the file's bytes run out: fewer than 4 left for a record's head, or a body past the input */
#define SHAGORENT_TOO_LARGE 17u      /* a job too large for the caller; the first byte of its settings record */
#define SHAGORENT_NO_CURE 18u        /* a layer of a thickness whose cure time is 0; the first such layer, from 1 */
#define SHAGORENT_WRONG_KIND 19u     /* a record's kind that is not known or, by the kinds before it alone, not allowed here */
#define SHAGORENT_WRONG_LENGTH 20u   /* a record's length that is wrong for its kind */
#define SHAGORENT_DISAGREES 21u      /* contents that disagree with the file: end counts, rows, bytes after the end, floats no sequence gives */

/* Kinds of orders, which are those of their records. */
#define SHAGORENT_LIFT 48u   /* lift to a height */
#define SHAGORENT_CURE 49u   /* cure for a time */
#define SHAGORENT_FINISH 50u /* finish after a number of layers */

typedef struct {
    uint32_t number;
    uint64_t value; /* the answer, or the place */
} shagorent_reply;

/* What goes with a table: the settings that it was made for, and its column count. The caller keeps it beside the table: clearing a table or
 * reading a job or a table file into it answers the first, every other call on a table takes it by value straight after the table's length, and each that
 * changes the table answers the next. */
typedef struct {
    uint32_t height;
    uint32_t set;
    uint32_t columns;
} shagorent_head;

typedef struct {
    uint32_t number;
    shagorent_head head; /* what goes with the table then; all 0 where refused, and the table has the head that it had */
    uint64_t place;
} shagorent_table_reply;

typedef struct {
    uint32_t number;
    uint32_t filled;    /* 1 or 0 */
    uint64_t value;     /* the share, or the place */
    int32_t difference; /* inside minus outside, -32 to 32; 0 at a tie, and where refused */
} shagorent_picture_reply;

typedef struct {
    uint32_t number;
    float height; /* micrometres, exact */
    uint64_t place;
} shagorent_height_reply;

typedef struct {
    uint32_t number;
    shagorent_head head; /* what goes with the job's table; all 0 where refused */
    uint32_t bound;
    uint64_t place;
} shagorent_job_reply;

typedef struct {
    uint32_t number;
    uint32_t kind;  /* SHAGORENT_LIFT, SHAGORENT_CURE or SHAGORENT_FINISH; 0 where refused */
    float amount;   /* of a lift micrometres, of a cure seconds, both exact; 0 for a finish and where refused */
    uint32_t count; /* of a finish the layers; 0 otherwise */
    uint64_t place;
} shagorent_order_reply;

/* ---- Version. */

/* The library's version: its major version * 10000 + its minor * 100 + its patch. */
uint32_t shagorent_version(void);

/* ---- Sizes of the buffers to lend; refusals 1, 2. */

/* Cells of a table: (N + 2*tmax - 2) * tmax. */
shagorent_reply shagorent_cells(uint32_t height, uint32_t set);

/* Entries of each sheet: (N + 2*tmax - 1) * (M + 1). */
shagorent_reply shagorent_entries(uint32_t height, uint32_t set);

/* The greatest count, M: 1 for N = 1, otherwise (N - 2) / tmin + 2. It is the length of a list; a sequence of n layers has n + 1 boundaries. */
shagorent_reply shagorent_counts(uint32_t height, uint32_t set);

/* ---- Tables. A table has a cell for each start z from -(tmax-1) to N+tmax-2 and each thickness from 1 to tmax: the layer's error. Starts are
 * outer and thicknesses inner; a cell of a thickness that is not allowed is 0. */

/* All cells 0. Answers these settings and column count 0. Refusals 1, 2, 3. */
shagorent_table_reply shagorent_clear_table(uint32_t *table, size_t table_length, uint32_t height, uint32_t set);

/* Adds a column to a table: its boundaries, an even number of at most 64, strictly rising, each from 0 to the height; a voxel is inside if an
 * odd number of them are at or below it. Answers one column more. Refusals 1, 2, 3, 7, 4, 5, 6. */
shagorent_table_reply shagorent_add_column(uint32_t *table, size_t table_length, shagorent_head head, const uint16_t *column,
                                           size_t column_length);

/* Joins the second table into the first. Answers the sum of their column counts. Refusals 1, 2 of the first, 1, 2 of the second, 8, 3, 7, 6 in
 * the first, 6 in the second. */
shagorent_table_reply shagorent_join_tables(uint32_t *table, size_t table_length, shagorent_head head, const uint32_t *other,
                                            size_t other_length, shagorent_head other_head);

/* Takes the second table off the first. Answers the difference of their column counts. Refusals as for joining, with 7 for either count only,
 * and then 9. */
shagorent_table_reply shagorent_take_off(uint32_t *table, size_t table_length, shagorent_head head, const uint32_t *other,
                                         size_t other_length, shagorent_head other_head);

/* ---- Plans. A sequence of n layers is its n + 1 boundaries z0 < z1 < .. < zn. It is admissible if z0 is from -(tmax-1) to 0, zn is at least N
 * and below N + tmax, every difference is an allowed thickness, every layer's error is at most the bound, z1 is above 0 and z(n-1) is below N. By
 * the last two every layer holds some of the plate's heights. A sheet has an entry for each height from -(tmax-1) to N+tmax-1 and each count
 * from 0 to M, heights outer and counts inner: the least error of so many layers that end there, each of which holds some of the plate's
 * heights, or SHAGORENT_NONE, and the thickness of the last of them, or 0. Of several with the least error the one is chosen that ends lowest,
 * then the one with the thinnest last layer, the thinnest before it, and so on down. */

/* Fills the error sheet, the thickness sheet and the list of the least errors of the counts 1 to M, for layers whose error is at most the
 * bound. Answers M. Refusals 1, 2, 3 (table, errors, thicknesses, list), 7, 6. */
shagorent_reply shagorent_plan(const uint32_t *table, size_t table_length, shagorent_head head, uint32_t bound, uint64_t *errors,
                               size_t errors_length, uint8_t *thicknesses, size_t thicknesses_length, uint64_t *list, size_t list_length);

/* Reads the sequence of `count` layers back from two sheets into `out`, its count + 1 boundaries from the lowest up. Answers its error.
 * Refusals 1, 2, 3 (errors, thicknesses), 10, 3 (out), 11, 12; over sheets that a plan of these settings left, 12 never occurs. Its place is the
 * first layer met, from the last down, whose thickness is not allowed or that starts below -(tmax-1); layer `count` also where it starts at N or
 * above, layer 1 also where it ends at 0 or below; and 0 where the lowest boundary is above 0. */
shagorent_reply shagorent_read_back(uint32_t height, uint32_t set, const uint64_t *errors, size_t errors_length, const uint8_t *thicknesses,
                                    size_t thicknesses_length, uint32_t count, int32_t *out, size_t out_length);

/* The error of a given sequence over a table. Refusals 1, 2, 3, 7, 6, 13; the place of 13 is the lowest index at fault: 0 for fewer than two
 * boundaries or a start out of range; from 1 on an index whose difference from the boundary before is not allowed, which is above N+tmax-1, or
 * whose layer is over the bound; 1 also for a z1 of 0 or less; n also for a z(n-1) of N or more, and for a zn below N. */
shagorent_reply shagorent_recount(const uint32_t *table, size_t table_length, shagorent_head head, uint32_t bound, const int32_t *sequence,
                                  size_t sequence_length);

/* ---- Pictures and motors. */

/* Whether the layer from `start` of this thickness fills the column in its picture, the column's share of the layer's error, and by how much the column
 * leans: of the layer's voxels in this column those inside minus those outside, from -thickness to thickness. |difference| / thickness is how sure the
 * picture is. The column is filled exactly where the difference is above 0; at a tie it is 0, and the column is left unfilled; 2 * share + |difference| is
 * the thickness. A layer wholly under the plate or over it has a picture too, with a difference of -thickness.
 * Refusals 1, 2, 4, 5, 13 (0: a start that is not one of the table's; 1: a thickness that is not allowed). */
shagorent_picture_reply shagorent_picture(uint32_t height, uint32_t set, const uint16_t *column, size_t column_length, int32_t start,
                                          uint32_t thickness);

/* The height of a boundary in micrometres, for a motor whose step is given in eighths of a micrometre: exactly boundary * step / 8.
 * Refusals 14, 15. */
shagorent_height_reply shagorent_motor_height(uint32_t step, int32_t boundary);

/* ---- Job files. */

/* Reads a whole job file into a table, whose cells it replaces; SHAGORENT_MOST_CELLS are enough for any. Answers what goes with the table, and
 * the bound that the settings ask for. Refusals of the file: the first record at fault decides, and in it 16 for its head, 19, 20, 16 for its body,
 * then by its kind 1, 2 and 17, where a table or a sheet of the settings has more than `most` entries; 7, 4, 5; 21 for an end count that is not the
 * number of columns. Bytes after the end record are 21. Then 3, at place 1. Whichever refusal of the file it is, its place is the first byte of the
 * record at fault, and for bytes after the end record the first of them.
 *
 * A job file is records: the length of the body in two bytes, a kind in two, the body; every number has its low byte first. One of kind 1 comes
 * first: the height (2 bytes), the set (4), the bound (4). Then columns, kind 2: the boundaries (2 each). Then one of kind 3: the number
 * of columns (4); and then nothing. Kinds from 32768 on are remarks, anywhere before the end. */
shagorent_job_reply shagorent_read_job(const uint8_t *input, size_t input_length, size_t most, uint32_t *table, size_t table_length);

/* The length of the job file of columns with these counts of boundaries, which is the length to lend for writing it: 22 + 4 * the number of
 * columns + 2 * the sum of the counts, at most 132,000,022. Refusals 7, 4, as in writing. */
shagorent_reply shagorent_job_size(const uint16_t *counts, size_t counts_length);

/* Writes a plate as a job file without remarks, which reads as the same settings, bound and columns. The columns come as one run of boundaries,
 * column after column, and a count of boundaries for each column. A run longer than the counts say is taken, and its rest is not looked at;
 * bytes of `out` past the file stay as they were. Answers the file's length.
 * Refusals 1, 2, 7 (more than 1,000,000 columns), 4 (at the first such column, from 0), 3 (at 1: the run is shorter than the counts say), 5 (at
 * the first such column, from 0), 3 (at 2: `out` is shorter than the file), each judged over all columns before the next. A refused call
 * has written nothing.
 *
 * The planning program, `plan`, takes files of up to 4,096 bytes only. */
shagorent_reply shagorent_write_job(uint32_t height, uint32_t set, uint32_t bound, const uint16_t *boundaries, size_t boundaries_length,
                                    const uint16_t *counts, size_t counts_length, uint8_t *out, size_t out_length);

/* ---- Table files, for plates that are tabulated on several machines: each sends its table, and one of them joins and plans. A table that was
 * sent is as good as if it had stayed where it was made: the same cells, the same head.
 *
 * A table file is records like a job file's. One of kind 16 comes first: the height (2 bytes), the set (4), the column count (4). Then a row for
 * each start from -(tmax-1) to N+tmax-2, rising, none left out, kind 17: the start (2, signed, two's complement), its cells of thickness 1 to
 * tmax (4 each). Then one of kind 18: the number of rows, N + 2*tmax - 2 (2 bytes); and then nothing. There are no remarks. Its length is
 * 20 + (N + 2*tmax - 2) * (6 + 4*tmax), at most SHAGORENT_TABLE_FILE_MAX. */

/* Writes a table as a table file. Cells past the table's size are not looked at; bytes of `out` past the file stay as they were. Answers the file's
 * length. Refusals 1, 2, 3 (at 1: the table), 7, 6 (at the lowest cell), 3 (at 2: `out` is shorter than the file). */
shagorent_reply shagorent_write_table(const uint32_t *table, size_t table_length, shagorent_head head, uint8_t *out, size_t out_length);

/* Reads a whole table file into a table, whose cells it replaces; SHAGORENT_TABLE_CELLS_MAX are enough for any. Cells past the table's size stay as
 * they were. Answers what goes with the table. A file in bounds whose cells no columns give is read too, and can be joined and planned.
 * Refusals of the file: the first record at fault decides, and in it 16 for its head, 19, 20, 16 for its body, then 1, 2, 7 of the first record; 21
 * for a row whose start is not the next one, and then 6; 21 for an end with rows missing or another number of them. An end straight after the first
 * record is 19. Bytes after the end record are 21. Then 3, at place 1. Whichever refusal of the file it is, its place is the first byte of the record
 * at fault, and for bytes after the end record the first of them. The file is judged whole before the table is written. */
shagorent_table_reply shagorent_read_table(const uint8_t *input, size_t input_length, uint32_t *table, size_t table_length);

/* ---- Order files, from the plan to the printer: for each layer of a sequence lift to its upper height above the FIRST boundary z0, then cure
 * for the time of its thickness; last, finish after so many layers.
 *
 * The step is the motor's, in eighths of a micrometre. The cure list L is lent: its entry t-1 is the time of thickness t in 64ths of a second, for
 * each t from 1 to tmax; entries past tmax are not looked at, and an entry may be 0 where no layer has that thickness. Layer k of z0 < .. < zn is
 * lifted to (zk - z0) * step / 8 micrometres and cured for L[zk - z(k-1) - 1] / 64 seconds, both exact as floats. The bound plays no part: a
 * sequence is admissible here if it is so with SHAGORENT_NO_BOUND.
 *
 * An order file is records like a job file's. For each layer comes one of kind 48, the height as a float's four bytes, and one of kind 49, the
 * time as a float's four bytes. Then one of kind 50: the number of layers (2 bytes); and then nothing. There are no remarks. Its length is
 * 16*n + 6 for n layers, at most SHAGORENT_ORDER_FILE_MAX. It does not tell z0: several sequences can give one file. */

/* Writes the orders of a sequence as an order file. Bytes of `out` past the file stay as they were. Answers the file's length, 16*n + 6.
 * Refusals 1, 2, 14, 3 (at 1: the cure list is shorter than tmax), 13 (its place as in recounting, without a bound), 18 (at the first layer, from
 * 1, whose cure entry is 0), 3 (at 2: `out` is shorter than the file). */
shagorent_reply shagorent_write_orders(uint32_t height, uint32_t set, uint32_t step, const uint16_t *cure, size_t cure_length,
                                       const int32_t *sequence, size_t sequence_length, uint8_t *out, size_t out_length);

/* The order at `number` of an order file, from 0: 2*j is the lift of layer j+1 and 2*j+1 its cure; 2*n, and whatever is past it, is the finish
 * after n layers. A file is read exactly if it is what `shagorent_write_orders` writes of some admissible sequence under these settings, step and
 * cure list, byte for byte. The whole file is judged at every call, also behind the order asked for; so the time to read all orders one by one
 * grows with the square of the layers, of which there are at most SHAGORENT_MOST_COUNTS.
 * Refusals 1, 2, 14, 3 (at 1: the cure list is shorter than tmax), and then those of the file. Their place is the first byte of the first record
 * after which no such file is possible: 16, its head is cut off; 19, its kind is not due, which a finish first of all is not; 20, its length is not
 * its kind's; 16, its body is cut off; 21, a lift that no layer on top of those before it can have, or by a thickness whose cure entry is 0, or after
 * the last layer that there can be; a cure of another time than the thickness has; a finish below the plate's height or with another number of
 * layers. Bytes after the finish are 21 at the first of them. Where every cure entry of T is 0 there is no such file, and any input is refused at 0. */
shagorent_order_reply shagorent_read_order(uint32_t height, uint32_t set, uint32_t step, const uint16_t *cure, size_t cure_length,
                                           const uint8_t *file, size_t file_length, uint32_t number);

#ifdef __cplusplus
}
#endif

#endif
