"""Plans document 01's plate through the library by ctypes, and prints what the planning program prints for it. Then saves the plate, and reads it
again; sends its table, and receives it again; and writes the orders of the plan of two layers, and reads them one by one.

usage: plate.py PATH-OF-libshagorent.so
"""
import ctypes as c
import pathlib
import sys

VERSION = 50000
"""Of the header that these declarations follow."""
COLUMNS = (1, 4), (0, 3)
TABLE_FILE_MAX = 76936
ORDER_FILE_MAX = 8198
LIFT, CURE, FINISH = 48, 49, 50
STEP = 15
"""Of the motor, in eighths of a micrometre."""
CURE_TIMES = 0, 128, 160
"""Of the thicknesses 1 to 3, in 64ths of a second; 1 is not allowed."""


class Head(c.Structure):
    _fields_ = [("height", c.c_uint32), ("set", c.c_uint32), ("columns", c.c_uint32)]


class TableReply(c.Structure):
    _fields_ = [("number", c.c_uint32), ("head", Head), ("place", c.c_uint64)]


class Reply(c.Structure):
    _fields_ = [("number", c.c_uint32), ("value", c.c_uint64)]


class JobReply(c.Structure):
    _fields_ = [("number", c.c_uint32), ("head", Head), ("bound", c.c_uint32), ("place", c.c_uint64)]


class OrderReply(c.Structure):
    _fields_ = [("number", c.c_uint32), ("kind", c.c_uint32), ("amount", c.c_float), ("count", c.c_uint32), ("place", c.c_uint64)]


def lent(buffer):
    """A buffer as the library takes it: a pointer, and a length in elements."""
    return buffer, c.c_size_t(len(buffer))


def number(n):
    return c.c_uint32(n)


def save(library, height, set_, bound, table):
    """The bytes saved must be those of document 01's file, and what is read from them the table and the settings that they were saved from."""
    boundaries = (c.c_uint16 * sum(map(len, COLUMNS)))(*sum(COLUMNS, ()))
    counts = (c.c_uint16 * len(COLUMNS))(*map(len, COLUMNS))
    size = library.shagorent_job_size(*lent(counts))
    assert size.number == 0, (size.number, size.value)
    file = (c.c_uint8 * size.value)()
    saved = library.shagorent_write_job(height, set_, bound, *lent(boundaries), *lent(counts), *lent(file))
    assert (saved.number, saved.value) == (0, size.value), (saved.number, saved.value)
    assert bytes(file) == pathlib.Path(__file__).with_name("plate.job").read_bytes(), bytes(file).hex()

    again = (c.c_uint32 * len(table))()
    read = library.shagorent_read_job(*lent(file), c.c_size_t(2**64 - 1), *lent(again))
    assert read.number == 0, (read.number, read.place)
    head = read.head.height, read.head.set, read.head.columns, read.bound
    assert head == (height.value, set_.value, len(COLUMNS), bound.value), head
    assert list(again) == list(table)


def send(library, head, table):
    """The bytes sent must be those of document 02's table file, and what is received from them the table and the head that they were sent from."""
    file = (c.c_uint8 * TABLE_FILE_MAX)()
    sent = library.shagorent_write_table(*lent(table), head, *lent(file))
    assert sent.number == 0, (sent.number, sent.value)
    assert bytes(file[:sent.value]) == pathlib.Path(__file__).with_name("plate.table").read_bytes(), bytes(file[:sent.value]).hex()

    again = (c.c_uint32 * len(table))()
    received = library.shagorent_read_table(file, c.c_size_t(sent.value), *lent(again))
    assert received.number == 0, (received.number, received.place)
    assert bytes(received.head) == bytes(head)
    assert list(again) == list(table)


def order(library, height, set_, sequence):
    """The bytes written must be those of document 02's order file, and the orders read from them the sequence's lifts and cures and the finish."""
    printer = height, set_, number(STEP), *lent((c.c_uint16 * len(CURE_TIMES))(*CURE_TIMES))
    file = (c.c_uint8 * ORDER_FILE_MAX)()
    written = library.shagorent_write_orders(*printer, *lent(sequence), *lent(file))
    assert written.number == 0, (written.number, written.value)
    assert bytes(file[:written.value]) == pathlib.Path(__file__).with_name("plate.orders").read_bytes(), bytes(file[:written.value]).hex()

    expected = [(kind, amount) for below, z in zip(sequence, sequence[1:])
                for kind, amount in ((LIFT, (z - sequence[0]) * STEP / 8), (CURE, CURE_TIMES[z - below - 1] / 64))]
    for at in range(len(expected)):
        read = library.shagorent_read_order(*printer, file, c.c_size_t(written.value), number(at))
        assert (read.number, read.kind, read.amount) == (0, *expected[at]), (at, read.number, read.kind, read.amount, read.place)
    for at in len(expected), 2**32 - 1:
        read = library.shagorent_read_order(*printer, file, c.c_size_t(written.value), number(at))
        assert (read.number, read.kind, read.count) == (0, FINISH, len(sequence) - 1), (at, read.number, read.kind, read.count, read.place)


def main():
    library = c.CDLL(sys.argv[1])
    library.shagorent_version.restype = c.c_uint32
    assert library.shagorent_version() == VERSION, library.shagorent_version()
    for call in (library.shagorent_clear_table, library.shagorent_add_column, library.shagorent_read_table):
        call.restype = TableReply
    for call in (library.shagorent_cells, library.shagorent_entries, library.shagorent_counts, library.shagorent_plan, library.shagorent_read_back,
                 library.shagorent_job_size, library.shagorent_write_job, library.shagorent_write_table, library.shagorent_write_orders):
        call.restype = Reply
    library.shagorent_read_job.restype = JobReply
    library.shagorent_read_order.restype = OrderReply
    height, set_, no_bound = number(4), number(6), number(2**32 - 1)
    table = (c.c_uint32 * library.shagorent_cells(height, set_).value)()
    entries = library.shagorent_entries(height, set_).value
    counts = library.shagorent_counts(height, set_).value
    errors, thicknesses, leasts = (c.c_uint64 * entries)(), (c.c_uint8 * entries)(), (c.c_uint64 * counts)()
    made = library.shagorent_clear_table(*lent(table), height, set_)
    for boundaries in COLUMNS:
        column = (c.c_uint16 * len(boundaries))(*boundaries)
        made = library.shagorent_add_column(*lent(table), made.head, *lent(column))
        assert made.number == 0, (made.number, made.place)
    plan = library.shagorent_plan(*lent(table), made.head, no_bound, *lent(errors), *lent(thicknesses), *lent(leasts))
    assert plan.number == 0, (plan.number, plan.value)
    print("height", made.head.height, "columns", made.head.columns, "counts", plan.value)
    for n in range(1, plan.value + 1):
        sequence = (c.c_int32 * (n + 1))()
        read = library.shagorent_read_back(height, set_, *lent(errors), *lent(thicknesses), number(n), *lent(sequence))
        assert read.number in (0, 11), (read.number, read.value)
        print(n, *((read.value, *sequence) if read.number == 0 else ("none",)))
        if n == 2:
            planned = sequence
    save(library, height, set_, no_bound, table)
    send(library, made.head, table)
    order(library, height, set_, planned)


if __name__ == "__main__":
    main()
