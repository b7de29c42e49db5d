"""Document 01 in plain Python, and the requests of document 02 that have landed: an independent reading, in the documents' own order and words.

What the trial programs must print is made from here, by expected-calls, expected-records, expected-saves, expected-tables, expected-machines,
expected-orders and expected-jobs. Nothing is taken from the library's sources. Voxels are counted one by one, the sequences of a small plate are
listed and judged by the definition, and a call asks its refusals one after the other in the order that the document names them.

A rule that a request of document 02 moves stands in one place: M in `greatest_count`, what is admissible in `may_start`, `may_end`,
`may_end_first`, `may_start_last` and `is_layer`, what goes with a table in `Head`, the number of each fault of a file in `FAULTS`.

A lent buffer is a list as long as what is lent. A call changes it in place, and only where nothing is refused.
"""
import dataclasses
import functools
import itertools
import re
import struct

NO_BOUND = 2 ** 32 - 1
NONE = 2 ** 64 - 1
MOST_THICKNESS = 32
MOST_BOUNDARIES = 64
MOST_COLUMNS = 1_000_000
MOST_BYTES = 4096
MOST_ENTRIES = 4096


class Refused(Exception):
    """A refusal: a number and a place."""

    def __init__(self, number, place=0):
        super().__init__(f"refused {number} at {place}")
        self.number, self.place = number, place


def refuse(number, holds, place=0):
    if holds:
        raise Refused(number, place)


def refuse_first(number, items, is_bad):
    """At the first index whose item is bad."""
    for place, item in enumerate(items):
        refuse(number, is_bad(place, item), place)


# ---- Plate, column, layer


def check_height(height):
    refuse(1, not 1 <= height <= 512)


def check_members(members):
    refuse(2, members == 0)


class Plate:
    """Settings, a height N and a thickness set T of 32 bits, with what follows from them; 1 and 2 where they are none."""

    def __init__(self, height, members):
        check_height(height)
        check_members(members)
        self.height = height
        self.thicknesses = [k for k in range(1, MOST_THICKNESS + 1) if members >> (k - 1) & 1]
        self.tmin, self.tmax = min(self.thicknesses), max(self.thicknesses)

    @functools.cached_property
    def starts(self):
        return range(-(self.tmax - 1), self.height + self.tmax - 1)

    @functools.cached_property
    def cells(self):
        """The layers of a table's cells, thickness running fastest."""
        return [(z, t) for z in self.starts for t in range(1, self.tmax + 1)]

    @functools.cached_property
    def heights(self):
        return range(-(self.tmax - 1), self.height + self.tmax)

    @functools.cached_property
    def entries(self):
        """The heights and counts of a sheet's entries, count running fastest."""
        return [(h, m) for h in self.heights for m in range(greatest_count(self) + 1)]

    @functools.cached_property
    def cell_of(self):
        return {layer: index for index, layer in enumerate(self.cells)}

    @functools.cached_property
    def entry_of(self):
        return {entry: index for index, entry in enumerate(self.entries)}


@functools.lru_cache(maxsize=64)
def plate_of(height, members):
    return Plate(height, members)


def greatest_count(plate):
    """M, the greatest count asked for: request b)'s, which is the most layers that a sequence of such settings can have."""
    return 1 if plate.height == 1 else (plate.height - 2) // plate.tmin + 2


def is_wrong_count(count):
    return count % 2 == 1 or count > MOST_BOUNDARIES


def check_count(column):
    refuse(4, is_wrong_count(len(column)), len(column))


def check_order(column, height):
    refuse_first(5, column, lambda i, b: b > height or i > 0 and b <= column[i - 1])


def check_column(column, height):
    check_count(column)
    check_order(column, height)


def is_inside(column, z):
    return sum(1 for b in column if b <= z) % 2 == 1


def inside_count(column, z, t):
    return sum(1 for v in range(z, z + t) if is_inside(column, v))


def share(column, z, t):
    """The smaller of the layer's inside and outside counts."""
    return min(inside_count(column, z, t), t - inside_count(column, z, t))


def is_filled(column, z, t):
    """The picture fills the column if inside exceeds outside; a tie is left unfilled."""
    return inside_count(column, z, t) > t - inside_count(column, z, t)


def difference(column, z, t):
    """Inside minus outside: request g)."""
    return sum(1 if is_inside(column, v) else -1 for v in range(z, z + t))


# ---- Table


@dataclasses.dataclass(frozen=True)
class Head:
    """What goes with a table: its settings and its column count."""

    height: int
    members: int
    columns: int = 0

    def settings(self):
        return self.height, self.members

    def with_column(self):
        return dataclasses.replace(self, columns=self.columns + 1)

    def with_all(self, other):
        return dataclasses.replace(self, columns=self.columns + other.columns)

    def without(self, other):
        return dataclasses.replace(self, columns=self.columns - other.columns)

    def is_full(self):
        return self.columns >= MOST_COLUMNS

    def is_over(self):
        return self.columns > MOST_COLUMNS

    def is_less_than(self, other):
        return self.columns < other.columns

    def limit(self, t):
        """The greatest error of a layer of an allowed thickness."""
        return self.columns * (t // 2)


def added_by(plate, column):
    """What a column adds to each cell: its share in a layer of an allowed thickness, and nothing to the others."""
    low = plate.starts[0]
    inside = [is_inside(column, v) for v in range(low, plate.starts[-1] + plate.tmax)]
    counts = [sum(inside[z - low:z - low + t]) if t in plate.thicknesses else 0 for z, t in plate.cells]
    return [min(count, t - count) for count, (_, t) in zip(counts, plate.cells)]


def table_of(plate, columns):
    cells = [0] * len(plate.cells)
    for column in columns:
        cells = [cell + more for cell, more in zip(cells, added_by(plate, column))]
    return cells


def limit_of(plate, head, t):
    """The greatest number that a cell of this thickness may hold."""
    return head.limit(t) if t in plate.thicknesses else 0


def bounds(plate, head):
    """The greatest number that each cell may hold."""
    return [limit_of(plate, head, t) for _, t in plate.cells]


# ---- Sequence


def layers(sequence):
    return list(zip(sequence, sequence[1:]))


def may_start(plate, z):
    return -plate.tmax < z <= 0


def may_end(plate, z):
    return plate.height <= z < plate.height + plate.tmax


def may_end_first(z):
    """Request b): z1 above 0, so that the first layer is not wholly under the plate."""
    return z > 0


def may_start_last(plate, z):
    """Request b): the last boundary but one below N, so that the last layer is not wholly over the plate."""
    return z < plate.height


def is_layer(plate, below, above):
    return above - below in plate.thicknesses


def layer_errors(plate, table, sequence):
    return [table[plate.cell_of[below, above - below]] for below, above in layers(sequence)]


def are_outer_layers_on(plate, sequence):
    """z1 above 0 and the last boundary but one below N. Of no layers there is neither."""
    return len(sequence) == 1 or may_end_first(sequence[1]) and may_start_last(plate, sequence[-2])


def sequences(plate, count, end):
    """Every sequence of so many layers that ends there, starts where it may, and has no outer layer with nothing on it."""
    for thicknesses in itertools.product(plate.thicknesses, repeat=count):
        sequence = [end - sum(thicknesses[k:]) for k in range(count + 1)]
        are_layers = all(is_layer(plate, below, above) for below, above in layers(sequence))
        if may_start(plate, sequence[0]) and are_layers and are_outer_layers_on(plate, sequence):
            yield sequence


def within(plate, table, bound, count, end):
    """Those of them whose every layer is within the bound, each with its error."""
    for sequence in sequences(plate, count, end):
        errors = layer_errors(plate, table, sequence)
        if all(error <= bound for error in errors):
            yield sum(errors), sequence


# ---- Which of several


def from_the_top(sequence):
    return [above - below for below, above in layers(sequence)][::-1]


def chosen(plate, table, bound, count):
    """The error and the sequence of a count; None where no sequence is admissible."""
    ends = [end for end in plate.heights if may_end(plate, end)]
    found = [(error, end, from_the_top(s), s) for end in ends for error, s in within(plate, table, bound, count, end)]
    return (min(found)[0], min(found)[3]) if found else None


# ---- Sheets


def entry(plate, table, bound, count, end):
    """The least error of so many layers that end there, and the last thickness of the chosen one."""
    found = [(error, from_the_top(sequence)) for error, sequence in within(plate, table, bound, count, end)]
    error, thicknesses = min(found) if found else (NONE, [])
    return error, (thicknesses + [0])[0]


def sheets_by_definition(plate, table, bound):
    return [entry(plate, table, bound, count, end) for end, count in plate.entries]


def is_layer_on(plate, below, above):
    """The same two rules asked of every layer. Boundaries rise: with z1 above 0 all ends are, with the last but one below N all starts are."""
    return is_layer(plate, below, above) and may_end_first(above) and may_start_last(plate, below)


def sheets_by_rows(plate, table, bound):
    """The same for any plate: the best last layer on the best of what is below it, the thinnest of several."""
    best = {}
    for end in plate.heights:
        row = [(0 if may_start(plate, end) else NONE, 0)] + [(NONE, 0)] * greatest_count(plate)
        for t in plate.thicknesses:
            below = best.get(end - t)
            if below is None or not is_layer_on(plate, end - t, end) or table[plate.cell_of[end - t, t]] > bound:
                continue
            error = table[plate.cell_of[end - t, t]]
            for m, (least, _) in enumerate(below[:-1]):
                if least != NONE and least + error < row[m + 1][0]:
                    row[m + 1] = (least + error, t)
        best[end] = row
    return [best[end][count] for end, count in plate.entries]


def is_small(plate):
    """Few enough sequences to list them."""
    return len(plate.thicknesses) ** greatest_count(plate) <= 1000


def sheets(plate, table, bound):
    """The entries of both sheets: of a small plate worked out both ways."""
    found = sheets_by_rows(plate, table, bound)
    assert not is_small(plate) or found == sheets_by_definition(plate, table, bound)
    return found


def list_of(plate, errors):
    """The least error of each count from 1 to M."""
    ends = [end for end in plate.heights if may_end(plate, end)]
    return [min(errors[plate.entry_of[end, m]] for end in ends) for m in range(1, greatest_count(plate) + 1)]


# ---- What comes back: the calls


def check_room(place, buffer, stated):
    refuse(3, len(buffer) < stated, place)


def check_cells(plate, head, table):
    limits = bounds(plate, head)
    refuse_first(6, table[:len(limits)], lambda i, cell: cell > limits[i])


def check_table(table, head):
    """1, 2, 3, 7, 6 of a table that is handed over."""
    plate = plate_of(*head.settings())
    check_room(1, table, len(plate.cells))
    refuse(7, head.is_over())
    check_cells(plate, head, table)
    return plate


def clear_table(table, height, members):
    plate = plate_of(height, members)
    check_room(1, table, len(plate.cells))
    table[:len(plate.cells)] = [0] * len(plate.cells)
    return Head(height, members)


def add_column(table, head, column):
    plate = plate_of(*head.settings())
    check_room(1, table, len(plate.cells))
    refuse(7, head.is_full())
    check_column(column, head.height)
    limits, more = bounds(plate, head), added_by(plate, column)
    refuse_first(6, more, lambda i, added: added > 0 and table[i] > limits[i])
    table[:len(more)] = [cell + added for cell, added in zip(table, more)]
    return head.with_column()


def check_settings_of_two(table, head, other, other_head):
    plate = plate_of(*head.settings())
    plate_of(*other_head.settings())
    refuse(8, head.settings() != other_head.settings())
    check_room(1, table, len(plate.cells))
    check_room(2, other, len(plate.cells))
    return plate


def join_tables(table, head, other, other_head):
    plate = check_settings_of_two(table, head, other, other_head)
    refuse(7, head.is_over() or other_head.is_over() or head.with_all(other_head).is_over())
    check_cells(plate, head, table)
    check_cells(plate, other_head, other)
    table[:len(plate.cells)] = [a + b for a, b, _ in zip(table, other, plate.cells)]
    return head.with_all(other_head)


def take_off(table, head, other, other_head):
    plate = check_settings_of_two(table, head, other, other_head)
    refuse(7, head.is_over() or other_head.is_over())
    check_cells(plate, head, table)
    check_cells(plate, other_head, other)
    refuse(9, head.is_less_than(other_head))
    limits = bounds(plate, head.without(other_head))
    rest = [a - b for a, b, _ in zip(table, other, plate.cells)]
    refuse_first(9, rest, lambda i, cell: not 0 <= cell <= limits[i])
    table[:len(rest)] = rest
    return head.without(other_head)


def plan(table, head, bound, errors, thicknesses, leasts):
    plate = plate_of(*head.settings())
    most, size = greatest_count(plate), len(plate.entries)
    for place, (buffer, stated) in enumerate([(table, len(plate.cells)), (errors, size), (thicknesses, size), (leasts, most)], 1):
        check_room(place, buffer, stated)
    check_table(table, head)
    found = sheets(plate, table, bound)
    errors[:size] = [error for error, _ in found]
    thicknesses[:size] = [thickness for _, thickness in found]
    leasts[:most] = list_of(plate, errors)
    return most


def read_back(height, members, errors, thicknesses, count, out):
    plate = plate_of(height, members)
    check_room(1, errors, len(plate.entries))
    check_room(2, thicknesses, len(plate.entries))
    refuse(10, not 1 <= count <= greatest_count(plate))
    check_room(3, out, count + 1)
    entries = [(errors[plate.entry_of[end, count]], end) for end in plate.heights if may_end(plate, end)]
    least, height_now = min(entries)
    refuse(11, least == NONE)
    sequence = [height_now]
    for layer in range(count, 0, -1):
        above = sequence[0]
        below = above - thicknesses[plate.entry_of[above, layer]]
        refuse(12, not is_layer(plate, below, above) or below < -(plate.tmax - 1), layer)
        refuse(12, layer == count and not may_start_last(plate, below), layer)
        refuse(12, layer == 1 and not may_end_first(above), layer)
        sequence.insert(0, below)
    refuse(12, sequence[0] > 0)
    out[:count + 1] = sequence
    return least


def check_sequence(plate, sequence, is_over=lambda below, above: False):
    """13, the lowest index of all first; whether a layer is over the bound is the caller's to say."""
    last = len(sequence) - 1
    refuse(13, last < 1 or not may_start(plate, sequence[0]))
    for index, (below, above) in enumerate(layers(sequence), 1):
        refuse(13, not is_layer(plate, below, above) or above > plate.height + plate.tmax - 1, index)
        refuse(13, is_over(below, above), index)
        refuse(13, index == 1 and not may_end_first(above), index)
        refuse(13, index == last and not may_start_last(plate, below), index)
        refuse(13, index == last and above < plate.height, index)


def recount(table, head, bound, sequence):
    plate = check_table(table, head)
    check_sequence(plate, sequence, lambda below, above: table[plate.cell_of[below, above - below]] > bound)
    return sum(layer_errors(plate, table, sequence))


def picture(column, height, members, start, thickness):
    """Filled or not, the share, and the difference."""
    plate = plate_of(height, members)
    check_column(column, height)
    refuse(13, start not in plate.starts)
    refuse(13, thickness not in plate.thicknesses, 1)
    return is_filled(column, start, thickness), share(column, start, thickness), difference(column, start, thickness)


def check_step(step):
    refuse(14, not 1 <= step <= 8192)


def motor_height(step, z):
    """The f32 whose eightfold is exactly z·s, with positive zero for 0."""
    check_step(step)
    refuse(15, not -31 <= z <= 543)
    height = z * step / 8 if z else 0.0
    assert struct.unpack("<f", struct.pack("<f", height))[0] * 8 == z * step
    return height


# ---- Job file: one record


FAULTS = {"cut": 16, "kind": 19, "length": 20, "body": 16, "unequal": 21, "tail": 21, "start": 21, "missing": 21}
FAULTS |= {"height": 21, "over": 21, "time": 21, "low": 21}
"""The faults of a file and their numbers, split by request f) of document 02. 16, bytes run out: fewer of them left than a record's head has; a
body past the input. 19: a kind not known or, by the kinds before it alone, not allowed here. 20: a length wrong for the kind. 21, contents that
disagree with the file: an end count unequal to the columns, to the rows or to the layers; bytes after the end record; a row whose start is not
the next one; an end before the last row; a lift to no height that a next layer has; a lift after the last layer that there can be; a cure of
another time than the layer's; a finish below the plate's height."""


def unsplit(answer):
    """An answer, its number first, as it was before request f): every fault of a file is 16."""
    number, *rest = answer
    return (16 if number in FAULTS.values() else number, *rest)


@dataclasses.dataclass(frozen=True)
class State:
    """The reading state: whether settings were read, whether the end was, what goes with the columns so far, and the bound."""

    begun: bool = False
    ended: bool = False
    head: Head = Head(0, 0)
    bound: int = 0

    def with_settings(self, height, members, bound):
        return dataclasses.replace(self, begun=True, head=dataclasses.replace(self.head, height=height, members=members), bound=bound)

    def with_column(self):
        return dataclasses.replace(self, head=self.head.with_column())


def is_kind_allowed(kind, state):
    """Exactly one kind 1 comes first, remarks aside; then columns; then one end. Remarks anywhere before the end."""
    if kind == 1:
        return not state.begun
    if kind in (2, 3):
        return state.begun
    return 32768 <= kind <= 65535


def is_length_wrong(kind, length):
    return {1: length != 10, 2: length % 2 == 1, 3: length != 4}.get(kind, False)


def boundaries_in(body):
    return list(struct.unpack(f"<{len(body) // 2}H", body[:len(body) // 2 * 2]))


def holds(check, *arguments):
    """Whether a check refuses."""
    try:
        check(*arguments)
    except Refused:
        return True
    return False


def frame_checks(data, at, is_allowed, is_wrong):
    """The checks that every file asks of a record before its body is looked at: a name, the number, and whether it holds. Which kinds are
    allowed, and which length is wrong for a kind, is the file's own."""
    left = max(0, len(data) - at)
    yield "cut", FAULTS["cut"], left < 4
    if left < 4:
        return
    length, kind = struct.unpack_from("<HH", data, at)
    yield "kind", FAULTS["kind"], not is_allowed(kind)
    yield "length", FAULTS["length"], is_wrong(kind, length)
    yield "body", FAULTS["body"], left - 4 < length


def framed(data, at):
    """The kind of a record and its body. Of a body that is cut the missing bytes count as 0, so that what is wrong with it besides is seen; of a
    record that has no head there is no kind."""
    if len(data) - at < 4:
        return None, b""
    length, kind = struct.unpack_from("<HH", data, at)
    return kind, data[at + 4:at + 4 + length].ljust(length, b"\0")


def record_checks(data, at, state):
    """The checks of a record of a job file in their order."""
    yield from frame_checks(data, at, lambda kind: is_kind_allowed(kind, state), is_length_wrong)
    kind, body = framed(data, at)
    if kind == 1:
        height, members = struct.unpack_from("<HI", body.ljust(6, b"\0"))
        yield "1", 1, holds(check_height, height)
        yield "2", 2, holds(check_members, members)
    if kind == 2:
        yield "7", 7, state.head.is_full()
        yield "4", 4, holds(check_count, boundaries_in(body))
        yield "5", 5, holds(check_order, boundaries_in(body), state.head.height)
    if kind == 3:
        yield "unequal", FAULTS["unequal"], struct.unpack_from("<I", body.ljust(4, b"\0"))[0] != state.head.columns


def holding(data, at, state):
    """The names of all the checks that hold. After the end record there is one: that something is left."""
    if state.ended:
        return ["tail"] if at < len(data) else []
    return [name for name, _, is_so in record_checks(data, at, state) if is_so]


@dataclasses.dataclass(frozen=True)
class Step:
    """What a read tells, with its numbers, and where and in which state the reading goes on."""

    what: str
    numbers: tuple
    at: int
    state: State


def read_record(data, at, state):
    """A place past the input counts as nothing left, and after the end record, nothing being left, the end is answered again. In a file each
    place is the record's first byte."""
    if state.ended:
        if at < len(data):
            return Step("refused", (FAULTS["tail"], at), at, state)
        return Step("end", (state.head.columns,), at, state)
    for _, number, is_so in record_checks(data, at, state):
        if is_so:
            return Step("refused", (number, at), at, state)
    length, kind = struct.unpack_from("<HH", data, at)
    body, after = data[at + 4:at + 4 + length], at + 4 + length
    if kind == 1:
        asked = struct.unpack("<HII", body)
        return Step("settings", asked, after, state.with_settings(*asked))
    if kind == 2:
        return Step("column", (at + 4, length // 2), after, state.with_column())
    if kind == 3:
        return Step("end", (state.head.columns,), after, dataclasses.replace(state, ended=True))
    return Step("remark", (), after, state)


# ---- A file by its kinds alone, request f) of document 02


@dataclasses.dataclass(frozen=True)
class Grammar:
    """The kinds of a file, a letter each, and the lists of them that a file can begin with."""

    letters: dict
    beginnings: str

    def kinds(self, data):
        """As far as the lengths say. A remark is r, and what is not known a dot."""
        found, at = "", 0
        while len(data) - at >= 4:
            length, kind = struct.unpack_from("<HH", data, at)
            found, at = found + self.letters.get(kind, "r" if kind >= 32768 else "."), at + 4 + length
        return found

    def broken(self, data, at, is_wrong, is_whole):
        """Which way the file is broken at the record at this place, before its contents are looked at; not at all is none. It is whole where the
        end is behind."""
        if is_whole:
            return 21 if at < len(data) else None
        if len(data) - at < 4:
            return 16
        length, kind = struct.unpack_from("<HH", data, at)
        if not re.fullmatch(self.beginnings, self.kinds(data[:at + 4])):
            return 19
        if is_wrong(kind, length):
            return 20
        return 16 if len(data) - at < 4 + length else None


JOB_FILE = Grammar({1: "s", 2: "c", 3: "e"}, "r*(s[cr]*e?)?")
TABLE_FILE = Grammar({16: "t", 17: "w", 18: "e"}, "(t(w+e?)?)?")
ORDER_FILE = Grammar({48: "l", 49: "c", 50: "f"}, "(lc)*l?|(lc)+f")
"""Job files are `s c* e`, with remarks anywhere before the end; table files `t w+ e`; order files `(l c)+ f`."""


def ask_broken(number, broken):
    """The two readings, check by check and by the kinds alone, tell the same of a record before its contents."""
    frame = FAULTS["cut"], FAULTS["kind"], FAULTS["length"], FAULTS["body"]
    assert number == broken if broken else number not in frame, (number, broken)


# ---- Job file: the whole of it


def is_too_large(plate, most):
    return max(len(plate.cells), len(plate.entries)) > most


def read_file(data, most):
    """The last state and the columns, the first record at fault deciding; 17 at the settings record, straight after 1 and 2 there, for a table
    or sheet of more than so many entries."""
    at, state, columns = 0, State(), []
    while True:
        step = read_record(data, at, state)
        ask_broken(step.numbers[0] if step.what == "refused" else None, JOB_FILE.broken(data, at, is_length_wrong, state.ended))
        if step.what == "refused":
            raise Refused(*step.numbers)
        if step.what == "settings":
            refuse(17, is_too_large(plate_of(*step.numbers[:2]), most), at)
        if step.what == "column":
            columns.append(boundaries_in(data[at + 4:step.at]))
        at, state = step.at, step.state
        if step.what == "end" and at == len(data):
            return state, columns


def read_job(data, most, table):
    """A job read into a lent table: the file's refusals, then 3, since only its settings say how long the table is. Answers what goes with the
    table, and the bound."""
    state, columns = read_file(data, most)
    plate = plate_of(*state.head.settings())
    check_room(1, table, len(plate.cells))
    table[:len(plate.cells)] = table_of(plate, columns)
    return state.head, state.bound


def jobs_in(data):
    """Job files that stand one after the other, each two bytes of length and then its bytes."""
    at = 0
    while at < len(data):
        length, = struct.unpack_from("<H", data, at)
        yield data[at + 2:at + 2 + length]
        at += 2 + length


def outside_jobs(data):
    """Those of them that are outside vectors: the first 220 of what the program trial_jobs is run on."""
    return list(jobs_in(data))[:220]


# ---- Saving a plate, request a) of document 02


def in_records(bodies):
    """Kinds and bodies as the bytes of a file."""
    return b"".join(struct.pack("<HH", len(body), kind) + body for kind, body in bodies)


def written(height, members, bound, columns):
    """The job file of settings, a bound and columns."""
    bodies = [(1, struct.pack("<HII", height, members, bound))]
    bodies += [(2, struct.pack(f"<{len(column)}H", *column)) for column in columns]
    return in_records([*bodies, (3, struct.pack("<I", len(columns)))])


def columns_in(boundaries, counts):
    """The columns that stand in one run of boundaries, by one count for each; of a run that is short, as far as it goes."""
    ends = list(itertools.accumulate(counts))
    return [boundaries[end - count:end] for end, count in zip(ends, counts)]


def check_columns(counts):
    refuse(7, len(counts) > MOST_COLUMNS)


def check_counts(counts):
    refuse_first(4, counts, lambda _, count: is_wrong_count(count))


def check_orders(columns, height):
    refuse_first(5, columns, lambda _, column: column and holds(check_order, column, height))


def file_size(counts):
    """Of the settings record, of the columns' heads and boundaries, of the end record."""
    return 14 + 4 * len(counts) + 2 * sum(counts) + 8


def saving_checks(height, members, boundaries, counts, out):
    """The checks of the writer by their names, in their order, each of all columns before the next."""
    return {
        "1": lambda: check_height(height),
        "2": lambda: check_members(members),
        "7": lambda: check_columns(counts),
        "4": lambda: check_counts(counts),
        "3 run": lambda: check_room(1, boundaries, sum(counts)),
        "5": lambda: check_orders(columns_in(boundaries, counts), height),
        "3 output": lambda: check_room(2, out, file_size(counts)),
    }


def write_job(height, members, bound, boundaries, counts, out):
    """Writes the file into a lent output, and answers its length."""
    for check in saving_checks(height, members, boundaries, counts, out).values():
        check()
    data = written(height, members, bound, columns_in(boundaries, counts))
    assert len(data) == file_size(counts)
    out[:len(data)] = data
    return len(data)


def job_size(counts):
    """The length of the output that is to be lent."""
    check_columns(counts)
    check_counts(counts)
    return file_size(counts)


# ---- Sending a table, request c) of document 02: the reader


@dataclasses.dataclass(frozen=True)
class Received:
    """What was read of a table file so far: what goes with the table, the cells of each row, and whether the end was read."""

    head: Head = None
    rows: tuple = ()
    ended: bool = False

    @property
    def plate(self):
        return plate_of(*self.head.settings())

    def is_begun(self):
        return self.head is not None

    def is_whole(self):
        return len(self.rows) == len(self.plate.starts)

    def due(self):
        """The start of the next row; none after the last."""
        return None if self.is_whole() else self.plate.starts[len(self.rows)]

    def with_record(self, kind, body):
        if kind == 16:
            return dataclasses.replace(self, head=head_in(body))
        if kind == 17:
            return dataclasses.replace(self, rows=(*self.rows, row_in(body, self.plate.tmax)[1]))
        return dataclasses.replace(self, ended=True)


def head_in(body):
    return Head(*struct.unpack_from("<HII", body.ljust(10, b"\0")))


def row_in(body, tmax):
    """One start, signed, and its cells, for each thickness from 1 to tmax."""
    start, *cells = struct.unpack_from(f"<h{tmax}I", body.ljust(2 + 4 * tmax, b"\0"))
    return start, cells


def is_table_kind_allowed(kind, read):
    """One kind 16 comes first; then rows, of which every table has some; then one kind 18. No remarks. That an end straight after kind 16 is a
    kind not allowed, and not rows that are missing, is a decision: the kinds alone tell it."""
    if not read.is_begun():
        return kind == 16
    return kind == 17 or kind == 18 and len(read.rows) > 0


def is_table_length_wrong(kind, length, read):
    """How long a row is, the settings say; before them no length is wrong for it."""
    if kind == 17:
        return read.is_begun() and length != 2 + 4 * read.plate.tmax
    return {16: length != 10, 18: length != 2}.get(kind, False)


def opening_checks(body):
    head = head_in(body)
    yield "1", 1, holds(check_height, head.height)
    yield "2", 2, holds(check_members, head.members)
    yield "7", 7, head.is_over()


def row_checks(body, read):
    """Starts rise, every start is present: the start is the next one. That a row which skips one is refused, and not the end that comes too
    early, and that its cells are looked at after its start, are decisions."""
    start, cells = row_in(body, read.plate.tmax)
    yield "start", FAULTS["start"], start != read.due()
    yield "6", 6, any(cell > limit_of(read.plate, read.head, t) for t, cell in enumerate(cells, 1))


def end_checks(body, read):
    """The number of rows is that of the table's starts, and no row is missing."""
    rows, = struct.unpack_from("<H", body.ljust(2, b"\0"))
    yield "missing", FAULTS["missing"], not read.is_whole()
    yield "unequal", FAULTS["unequal"], rows != len(read.plate.starts)


def table_record_checks(data, at, read):
    """The checks of a record of a table file in their order. Without settings there is nothing to hold a row or an end to."""
    yield from frame_checks(data, at, lambda kind: is_table_kind_allowed(kind, read), lambda *frame: is_table_length_wrong(*frame, read))
    kind, body = framed(data, at)
    if kind == 16:
        yield from opening_checks(body)
    if kind == 17 and read.is_begun():
        yield from row_checks(body, read)
    if kind == 18 and read.is_begun():
        yield from end_checks(body, read)


def table_records(data):
    """The records one after the other up to the first at fault: the place of each, its checks, and what was read before it. After the end record
    there is one check: that something is left."""
    at, read = 0, Received()
    while not read.ended:
        checks = list(table_record_checks(data, at, read))
        yield at, checks, read
        if any(is_so for _, _, is_so in checks):
            return
        kind, body = framed(data, at)
        at, read = at + 4 + len(body), read.with_record(kind, body)
    yield at, [("tail", FAULTS["tail"], at < len(data))], read


def table_faults(data):
    """The names of all the checks that hold in the first record at fault."""
    return [name for _, checks, _ in table_records(data) for name, _, is_so in checks if is_so]


def table_in(data):
    """What a table file holds. The first record at fault decides, and each place is the record's first byte."""
    for at, checks, read in table_records(data):
        number = next((number for _, number, is_so in checks if is_so), None)
        ask_broken(number, TABLE_FILE.broken(data, at, lambda *frame: is_table_length_wrong(*frame, read), read.ended))
        refuse(number, number is not None, at)
    return read


def read_table(data, table):
    """A table file read into a lent table: the file's refusals, then 3, since only its settings say how long the table is. Answers what goes with
    the table."""
    read = table_in(data)
    cells = list(itertools.chain(*read.rows))
    assert len(cells) == len(read.plate.cells)
    check_room(1, table, len(cells))
    table[:len(cells)] = cells
    return read.head


# ---- Sending a table: the writer


def table_written(head, table):
    """The table file of a table."""
    plate = plate_of(*head.settings())
    bodies = [(16, struct.pack("<HII", head.height, head.members, head.columns))]
    for z in plate.starts:
        row = [table[plate.cell_of[z, t]] for t in range(1, plate.tmax + 1)]
        bodies.append((17, struct.pack(f"<h{plate.tmax}I", z, *row)))
    return in_records([*bodies, (18, struct.pack("<H", len(plate.starts)))])


def table_file_size(plate):
    """Of the first record and the last, and of the rows."""
    return 14 + len(plate.starts) * (6 + 4 * plate.tmax) + 6


def sending_checks(table, head, out):
    """The checks of the writer by their names, in their order. Without settings nothing says how long a table is, and only they are asked."""
    settings = {"1": lambda: check_height(head.height), "2": lambda: check_members(head.members)}
    if any(holds(check) for check in settings.values()):
        return settings
    plate = plate_of(*head.settings())
    return settings | {
        "3 table": lambda: check_room(1, table, len(plate.cells)),
        "7": lambda: refuse(7, head.is_over()),
        "6": lambda: check_cells(plate, head, table),
        "3 output": lambda: check_room(2, out, table_file_size(plate)),
    }


def write_table(table, head, out):
    """Writes the file into a lent output, and answers its length."""
    for check in sending_checks(table, head, out).values():
        check()
    data = table_written(head, table)
    assert len(data) == table_file_size(plate_of(*head.settings()))
    out[:len(data)] = data
    return len(data)


# ---- The printer's order list, request e) of document 02: a layer as printed


def exact_bits(whole, parts):
    """The 32 bits of the f32 whose so many fold, a power of two, is exactly this whole number above 0: its leading bit is left out, the 23 bits
    after it are the fraction, and before them stands the exponent, from 127 on."""
    leading, down = whole.bit_length() - 1, parts.bit_length() - 1
    assert 0 <= leading <= 23 and parts == 1 << down
    bits = (leading - down + 127) << 23 | (whole << 23 - leading) - (1 << 23)
    value, = struct.unpack("<f", struct.pack("<I", bits))
    assert value.as_integer_ratio()[0] * parts == whole * value.as_integer_ratio()[1]
    return bits


def height_whole(rise, step):
    """Eight times the micrometres of so many units."""
    return rise * step


def time_whole(cure, t):
    """64 times the seconds of a thickness."""
    return cure[t - 1]


def printed(step, cure, sequence):
    """Each layer's upper height above the first boundary in eighths of a micrometre, and its time in 64ths of a second."""
    return [(height_whole(above - sequence[0], step), time_whole(cure, above - below)) for below, above in layers(sequence)]


def orders_of(step, cure, sequence):
    """The orders of a sequence from 0: the kind, the whole number and the f32's bits."""
    found = []
    for height, time in printed(step, cure, sequence):
        found += [(48, height, exact_bits(height, 8)), (49, time, exact_bits(time, 64))]
    return [*found, (50, len(sequence) - 1, 0)]


def orders_written(step, cure, sequence):
    """The order file of a sequence."""
    orders = orders_of(step, cure, sequence)
    bodies = [(kind, struct.pack("<I", bits)) for kind, _, bits in orders[:-1]]
    return in_records([*bodies, (50, struct.pack("<H", orders[-1][1]))])


# ---- The printer's order list: the writer


def check_cures(cure, sequence):
    """18 at the first layer whose time is 0. Of a list that is too short, and of layers that are none, nothing is asked here."""
    for index, (below, above) in enumerate(layers(sequence), 1):
        refuse(18, 1 <= above - below <= len(cure) and time_whole(cure, above - below) == 0, index)


def order_file_size(sequence):
    return 16 * (len(sequence) - 1) + 6


def settings_checks(height, members, step, cure):
    """What both calls ask first. Without settings nothing says how long the list of times is."""
    checks = {"1": lambda: check_height(height), "2": lambda: check_members(members), "14": lambda: check_step(step)}
    if not holds(plate_of, height, members):
        checks["3 list"] = lambda: check_room(1, cure, plate_of(height, members).tmax)
    return checks


def ordering_checks(height, members, step, cure, sequence, out):
    """The checks of the writer by their names, in their order."""
    settings = settings_checks(height, members, step, cure)
    if holds(plate_of, height, members):
        return settings
    return settings | {
        "13": lambda: check_sequence(plate_of(height, members), sequence),
        "18": lambda: check_cures(cure, sequence),
        "3 output": lambda: check_room(2, out, order_file_size(sequence)),
    }


def write_orders(height, members, step, cure, sequence, out):
    """Writes the file into a lent output, and answers its length."""
    for check in ordering_checks(height, members, step, cure, sequence, out).values():
        check()
    data = orders_written(step, cure, sequence)
    assert len(data) == order_file_size(sequence)
    out[:len(data)] = data
    return len(data)


# ---- The printer's order list: the reader


@dataclasses.dataclass(frozen=True)
class Ordered:
    """What was read of an order file so far: the heights above the first boundary in units, whether the last of them still waits for its cure,
    the orders, and whether the finish was read."""

    rises: tuple = ()
    is_lifted: bool = False
    orders: tuple = ()
    ended: bool = False

    def top(self):
        return self.rises[-1] if self.rises else 0

    def thickness(self):
        return self.top() - (self.rises[-2] if len(self.rises) > 1 else 0)


@dataclasses.dataclass(frozen=True)
class Printer:
    """What a reader of orders is handed besides the file."""

    plate: Plate
    step: int
    cure: tuple

    @functools.cached_property
    def usable(self):
        """The thicknesses that a layer of an order file can have: allowed, and with a time."""
        return [t for t in self.plate.thicknesses if time_whole(self.cure, t)]

    def lift_bits(self, rise):
        return exact_bits(height_whole(rise, self.step), 8)

    def cure_bits(self, t):
        return exact_bits(time_whole(self.cure, t), 64)

    def lifted_by(self, body, read):
        """The thickness by which these bytes lift; none where no thickness does."""
        bits, = struct.unpack_from("<I", body.ljust(4, b"\0"))
        return next((t for t in self.usable if self.lift_bits(read.top() + t) == bits), None)

    def is_last(self, read):
        """Whether no layer can come after these: from the lowest start that leaves z1 above 0, 1 - H1, they reach N already."""
        return len(read.rises) > 0 and read.top() >= self.plate.height + read.rises[0] - 1


def is_order_kind_allowed(kind, read):
    """48 and 49 in turn, and 50 in 48's place after at least one layer. That 50 first of all is a kind not allowed, and not a finish below the
    plate's height, is a decision: the kinds alone tell it."""
    if read.is_lifted:
        return kind == 49
    return kind == 48 or kind == 50 and len(read.rises) > 0


def is_order_length_wrong(kind, length):
    return kind in (48, 49, 50) and length != {48: 4, 49: 4, 50: 2}[kind]


def order_contents(kind, body, printer, read):
    """The checks of a record's contents. That a lift after the last layer there can be is contents, and not a kind, is a decision."""
    if kind == 48:
        yield "height", FAULTS["height"], printer.lifted_by(body, read) is None
        yield "over", FAULTS["over"], printer.is_last(read)
    if kind == 49:
        yield "time", FAULTS["time"], struct.unpack_from("<I", body.ljust(4, b"\0"))[0] != printer.cure_bits(read.thickness())
    if kind == 50:
        yield "unequal", FAULTS["unequal"], struct.unpack_from("<H", body.ljust(2, b"\0"))[0] != len(read.rises)
        yield "low", FAULTS["low"], read.top() < printer.plate.height


def order_record_checks(data, at, printer, read):
    """The checks of a record of an order file in their order. Where its kind is not allowed there is nothing to hold its contents to."""
    yield from frame_checks(data, at, lambda kind: is_order_kind_allowed(kind, read), is_order_length_wrong)
    kind, body = framed(data, at)
    if is_order_kind_allowed(kind, read):
        yield from order_contents(kind, body, printer, read)


def with_order(read, kind, body, printer):
    """What was read with a good record more."""
    if kind == 48:
        rise = read.top() + printer.lifted_by(body, read)
        order = 48, height_whole(rise, printer.step), printer.lift_bits(rise)
        return dataclasses.replace(read, rises=(*read.rises, rise), is_lifted=True, orders=(*read.orders, order))
    if kind == 49:
        order = 49, time_whole(printer.cure, read.thickness()), printer.cure_bits(read.thickness())
        return dataclasses.replace(read, is_lifted=False, orders=(*read.orders, order))
    return dataclasses.replace(read, orders=(*read.orders, (50, len(read.rises), 0)), ended=True)


def order_records(data, printer):
    """The records one after the other up to the first at fault: the place of each, its checks, and what was read before it. After the finish there
    is one check: that something is left."""
    at, read = 0, Ordered()
    while not read.ended:
        checks = list(order_record_checks(data, at, printer, read))
        yield at, checks, read
        if any(is_so for _, _, is_so in checks):
            return
        kind, body = framed(data, at)
        at, read = at + 4 + len(body), with_order(read, kind, body, printer)
    yield at, [("tail", FAULTS["tail"], at < len(data))], read


def order_faults(data, printer):
    """The names of all the checks that hold in the first record at fault."""
    return [name for _, checks, _ in order_records(data, printer) for name, _, is_so in checks if is_so]


def is_last_record(data, at):
    """Where the kinds of a good file are asked for once; at every record of a long one that takes its time."""
    return at + 6 == len(data)


def orders_by_records(data, printer):
    """The orders of a file. The first record at fault decides, and each place is the record's first byte."""
    for at, checks, read in order_records(data, printer):
        number = next((number for _, number, is_so in checks if is_so), None)
        if number is not None or is_last_record(data, at):
            ask_broken(number, ORDER_FILE.broken(data, at, is_order_length_wrong, read.ended))
        refuse(number, number is not None, at)
    return list(read.orders)


def admissible(plate):
    """Every admissible sequence without a bound; for plates that have few."""
    ends = [end for end in plate.heights if may_end(plate, end)]
    return [s for end in ends for count in range(1, greatest_count(plate) + 1) for s in sequences(plate, count, end)]


@functools.lru_cache(maxsize=256)
def files_by_definition(height, members, step, cure):
    """The file of every admissible sequence without a time of 0, and its orders; and each beginning of such a file that ends with a record."""
    found, beginnings = {}, {b""}
    for sequence in admissible(plate_of(height, members)):
        if holds(check_cures, cure, sequence):
            continue
        data = orders_written(step, cure, sequence)
        assert found.setdefault(data, orders_of(step, cure, sequence)) == orders_of(step, cure, sequence)
        beginnings |= {data[:at] for at in (*range(0, len(data), 8), len(data))}
    return found, beginnings


def orders_by_definition(data, height, members, step, cure):
    """The same for a plate that has few sequences: a file is good if it is that of one of them; and no such file is possible after the record that
    stands behind the longest beginning of any of them."""
    found, beginnings = files_by_definition(height, members, step, cure)
    if data in found:
        return found[data]
    place = max(at for at in range(len(data) + 1) if data[:at] in beginnings)
    raise Refused(ORDER_FILE.broken(data, place, is_order_length_wrong, data[:place] in found) or 21, place)


def answered(call, *arguments):
    """What a call answers or how it refuses, to be compared."""
    try:
        return call(*arguments)
    except Refused as refusal:
        return str(refusal)


def read_order(height, members, step, cure, data, number):
    """The order at a number from 0, past the last the finish: of a small plate worked out both ways."""
    for check in settings_checks(height, members, step, cure).values():
        check()
    plate, stated = plate_of(height, members), tuple(cure[:plate_of(height, members).tmax])
    if is_small(plate):
        by_definition = answered(orders_by_definition, data, height, members, step, stated)
        assert by_definition == answered(orders_by_records, data, Printer(plate, step, stated)), (by_definition, data)
    orders = orders_by_records(data, Printer(plate, step, stated))
    return orders[min(number, len(orders) - 1)]


# ---- The planning program


def planned_lines(plate, table, head, bound):
    errors, thicknesses, leasts = [0] * len(plate.entries), [0] * len(plate.entries), [0] * greatest_count(plate)
    most = plan(table, head, bound, errors, thicknesses, leasts)
    yield f"height {head.height} columns {head.columns} counts {most}"
    for count in range(1, most + 1):
        sequence = [0] * (count + 1)
        try:
            error = read_back(head.height, head.members, errors, thicknesses, count, sequence)
            yield " ".join(map(str, [count, error, *sequence]))
        except Refused as refusal:
            assert refusal.number == 11
            yield f"{count} none"


def program_lines(data):
    """What the planning program prints for the bytes on its standard input."""
    try:
        refuse(17, len(data) > MOST_BYTES)
        state, columns = read_file(data, MOST_ENTRIES)
    except Refused as refusal:
        return [str(refusal)]
    plate = plate_of(*state.head.settings())
    return list(planned_lines(plate, table_of(plate, columns), state.head, state.bound))
