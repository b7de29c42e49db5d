// One random case of each call: the input is made, both implementations run on buffers of their own, and the answers and every element of
// every buffer are compared, those that are only read among them. A case answers the refusal's number, 0 for none, or the difference.

use crate::lent::{same, Lent};
use bench::library;
use bench::make;
use bench::plain::{self, Columns, Filled, Head, Plate, Printing, Sheets};
use bench::random::Random;
use std::fmt::Debug;

pub type Outcome = Result<u32, String>;

pub struct Call {
    pub name: &'static str,
    pub refusals: &'static [u32],
    pub case: fn(&mut Random) -> Outcome,
}

pub const CALLS: &[Call] = &[
    Call { name: "sizes", refusals: &[1, 2], case: sizes },
    Call { name: "clear table", refusals: &[1, 2, 3], case: clear_table },
    Call { name: "add column", refusals: &[1, 2, 3, 7, 4, 5, 6], case: add_column },
    Call { name: "join tables", refusals: &[1, 2, 8, 3, 7, 6], case: join_tables },
    Call { name: "take off", refusals: &[1, 2, 8, 3, 7, 6, 9], case: take_off },
    Call { name: "plan", refusals: &[1, 2, 3, 7, 6], case: plan },
    Call { name: "read back", refusals: &[1, 2, 3, 10, 11, 12], case: read_back },
    Call { name: "recount", refusals: &[1, 2, 3, 7, 6, 13], case: recount },
    Call { name: "picture", refusals: &[1, 2, 4, 5, 13], case: picture },
    Call { name: "motor height", refusals: &[14, 15], case: motor_height },
    Call { name: "read job", refusals: &[16, 19, 20, 21, 1, 2, 17, 4, 5, 3], case: read_job },
    Call { name: "job size", refusals: &[7, 4], case: job_size },
    Call { name: "write job", refusals: &[1, 2, 7, 4, 3, 5], case: write_job },
    Call { name: "read table", refusals: &[16, 19, 20, 21, 1, 2, 7, 6, 3], case: read_table },
    Call { name: "write table", refusals: &[1, 2, 3, 7, 6], case: write_table },
    Call { name: "send table", refusals: &[16, 19, 20, 21], case: send_table },
    Call { name: "write orders", refusals: &[1, 2, 14, 3, 13, 18], case: write_orders },
    Call { name: "read order", refusals: &[1, 2, 14, 3, 16, 19, 20, 21], case: read_order },
    Call { name: "give orders", refusals: &[16, 19, 20, 21], case: give_orders },
];

/// The difference, with the case that shows it.
pub fn told(difference: Result<(), String>, number: u32, case: impl Fn() -> String) -> Outcome {
    match difference {
        Ok(()) => Ok(number),
        Err(difference) => Err(format!("{difference}\n  in {}", case())),
    }
}

/// For a printed case.
pub fn head_text(head: Head) -> String {
    let Head { height, set, columns } = head;
    format!("height {height}, set {set:#x}, columns {columns}")
}

fn sizes(random: &mut Random) -> Outcome {
    let size = make::size(random);
    let plate = make::plate(random, size);
    let (height, set) = make::named(random, plate);
    sizes_of(height, set)
}

pub fn sizes_of(height: u32, set: u32) -> Outcome {
    let expected = [plain::cells(height, set), plain::entries(height, set), plain::counts(height, set)];
    let actual = [library::cells(height, set), library::entries(height, set), library::counts(height, set)];
    let difference = same(expected.map(library::as_reply), actual);
    told(difference, actual[0].number, || format!("sizes of height {height}, set {set:#x}"))
}

fn clear_table(random: &mut Random) -> Outcome {
    let size = make::size(random);
    let plate = make::plate(random, size);
    let (height, set) = make::named(random, plate);
    let length = make::length(random, plate.cells());
    let mut expected: Lent<u32> = Lent::random(random, length);
    let mut actual = expected.clone();
    let answer = library::as_tabled(plain::clear_table(expected.part_mut(), height, set));
    let library = library::clear_table(actual.part_mut(), height, set);
    let difference = same(answer, library).and_then(|()| actual.agrees("table", &expected));
    told(difference, answer.number, || format!("height {height}, set {set:#x}, {length} cells lent"))
}

fn add_column(random: &mut Random) -> Outcome {
    let size = make::size(random);
    let plate = make::plate(random, size);
    let mut table = make::table(random, plate, size);
    make::damage_table(random, plate, &mut table);
    let mut head = make::named_head(random, plate, table.head);
    let length = make::length(random, plate.cells());
    let mut expected = Lent::new(random, &table.cells, length);
    let column = make::handed_column(random, plate);
    let column = Lent::given(random, &column);
    added(&mut expected.clone(), &mut expected, &mut head, &column)
}

/// Adds to both tables and compares; where the column was added, the head is then the one that the library answered.
pub fn added(actual: &mut Lent<u32>, expected: &mut Lent<u32>, head: &mut Head, column: &Lent<u16>) -> Outcome {
    let handed = column.clone();
    let (before, head_before) = (expected.clone(), *head);
    let answer = library::as_tabled(plain::add_column(expected.part_mut(), head_before, column.part()));
    let library = library::add_column(actual.part_mut(), head_before, handed.part());
    if library.number == 0 {
        *head = library.head;
    }
    let difference = same(answer, library)
        .and_then(|()| actual.agrees("table", expected))
        .and_then(|()| handed.agrees("column", column));
    told(difference, answer.number, || {
        format!("{}, column {}, table {}", head_text(head_before), column.text(), before.text())
    })
}

/// Joining or taking off, by plain and by the library.
pub type Joining =
    (fn(&mut [u32], Head, &[u32], Head) -> plain::Answer<Head>, fn(&mut [u32], Head, &[u32], Head) -> library::Tabled);

fn join_tables(random: &mut Random) -> Outcome {
    let size = make::size(random);
    let plate = make::plate(random, size);
    let first = make::table(random, plate, size);
    let second = make::table(random, plate, size);
    two_tables(random, plate, first, second, (plain::join_tables, library::join_tables))
}

fn take_off(random: &mut Random) -> Outcome {
    let size = make::size(random);
    let plate = make::plate(random, size);
    let mut first = make::table(random, plate, size);
    let second = make::table(random, plate, size);
    if !random.one_in(4) {
        joined(&mut first, &second);
    }
    two_tables(random, plate, first, second, (plain::take_off, library::take_off))
}

/// The second joined into the first, where that is not refused.
fn joined(first: &mut make::Table, second: &make::Table) {
    if let Ok(both) = plain::join_tables(&mut first.cells, first.head, &second.cells, second.head) {
        first.head = both;
    }
}

fn two_tables(
    random: &mut Random,
    plate: Plate,
    mut first: make::Table,
    mut second: make::Table,
    calls: Joining,
) -> Outcome {
    make::damage_table(random, plate, &mut first);
    make::damage_table(random, plate, &mut second);
    let head = make::named_head(random, plate, first.head);
    let other_head = if random.one_in(2) {
        Head { columns: second.head.columns, ..head }
    } else {
        make::named_head(random, plate, second.head)
    };
    let lengths = [make::length(random, plate.cells()), make::length(random, plate.cells())];
    let mut expected = Lent::new(random, &first.cells, lengths[0]);
    let mut actual = expected.clone();
    let other = Lent::new(random, &second.cells, lengths[1]);
    let handed = other.clone();
    let before = expected.clone();
    let answer = library::as_tabled(calls.0(expected.part_mut(), head, other.part(), other_head));
    let library = calls.1(actual.part_mut(), head, handed.part(), other_head);
    let difference = same(answer, library)
        .and_then(|()| actual.agrees("first table", &expected))
        .and_then(|()| handed.agrees("second table", &other));
    told(difference, answer.number, || {
        let [first, second] = [(head, &before), (other_head, &other)]
            .map(|(head, cells)| format!("{}, table {}", head_text(head), cells.text()));
        format!("{first}; {second}")
    })
}

/// The three buffers that a plan fills.
#[derive(Clone)]
pub struct LentSheets {
    pub errors: Lent<u64>,
    pub thicknesses: Lent<u8>,
    pub list: Lent<u64>,
}

impl LentSheets {
    pub fn random(random: &mut Random, lengths: [usize; 3]) -> LentSheets {
        LentSheets {
            errors: Lent::random(random, lengths[0]),
            thicknesses: Lent::random(random, lengths[1]),
            list: Lent::random(random, lengths[2]),
        }
    }

    pub fn parts(&mut self) -> Sheets<'_> {
        Sheets { errors: self.errors.part_mut(), thicknesses: self.thicknesses.part_mut(), list: self.list.part_mut() }
    }

    pub fn filled(&self) -> Filled<'_> {
        Filled { errors: self.errors.part(), thicknesses: self.thicknesses.part() }
    }

    pub fn agrees(&self, expected: &LentSheets) -> Result<(), String> {
        self.errors.agrees("error sheet", &expected.errors)?;
        self.thicknesses.agrees("thickness sheet", &expected.thicknesses)?;
        self.list.agrees("list", &expected.list)
    }
}

fn plan(random: &mut Random) -> Outcome {
    let size = make::size(random);
    let plate = make::plate(random, size);
    let mut table = make::table(random, plate, size);
    let bound = make::bound(random, &table);
    make::damage_table(random, plate, &mut table);
    let head = make::named_head(random, plate, table.head);
    let length = make::length(random, plate.cells());
    let cells = Lent::new(random, &table.cells, length);
    let lengths = [plate.entries(), plate.entries(), plate.counts()].map(|stated| make::length(random, stated));
    let mut expected = LentSheets::random(random, lengths);
    planned(&mut expected.clone(), &mut expected, &cells, head, bound)
}

/// Plans into both and compares.
pub fn planned(
    actual: &mut LentSheets,
    expected: &mut LentSheets,
    cells: &Lent<u32>,
    head: Head,
    bound: u32,
) -> Outcome {
    let handed = cells.clone();
    let answer = library::as_reply(plain::plan(cells.part(), head, bound, expected.parts()));
    let library = library::plan(handed.part(), head, bound, actual.parts());
    let difference =
        same(answer, library).and_then(|()| actual.agrees(expected)).and_then(|()| handed.agrees("table", cells));
    told(difference, answer.number, || {
        let lengths = (actual.errors.part().len(), actual.thicknesses.part().len(), actual.list.part().len());
        format!("{}, bound {bound}, lent {lengths:?}, table {}", head_text(head), cells.text())
    })
}

fn read_back(random: &mut Random) -> Outcome {
    let size = make::size(random);
    let plate = make::plate(random, size);
    let table = make::table(random, plate, size);
    let bound = make::bound(random, &table);
    let mut sheets = make::sheets(plate, &table, bound);
    make::damage_sheets(random, plate, &mut sheets);
    let (height, set) = make::named(random, plate);
    let count = make::count(random, plate);
    let lengths = [plate.entries(), plate.entries(), count.min(600) as usize + 1];
    let [errors, thicknesses, out] = lengths.map(|stated| make::length(random, stated));
    let sheets = LentSheets {
        errors: Lent::new(random, &sheets.errors, errors),
        thicknesses: Lent::new(random, &sheets.thicknesses, thicknesses),
        list: Lent::random(random, 0),
    };
    let out = Lent::random(random, out);
    read(&sheets.clone(), &sheets, &out, height, set, count)
}

/// Reads a count back from both sheets and compares.
pub fn read(actual: &LentSheets, expected: &LentSheets, out: &Lent<i32>, height: u32, set: u32, count: u32) -> Outcome {
    let (mut wanted, mut got) = (out.clone(), out.clone());
    let answer = library::as_reply(plain::read_back(height, set, expected.filled(), count, wanted.part_mut()));
    let library = library::read_back(height, set, actual.filled(), count, got.part_mut());
    let difference =
        same(answer, library).and_then(|()| got.agrees("output", &wanted)).and_then(|()| actual.agrees(expected));
    told(difference, answer.number, || {
        let (errors, thicknesses, out) = (expected.errors.text(), expected.thicknesses.text(), out.part().len());
        format!(
            "height {height}, set {set:#x}, count {count}, output {out}, errors {errors}, thicknesses {thicknesses}"
        )
    })
}

fn recount(random: &mut Random) -> Outcome {
    let size = make::size(random);
    let plate = make::plate(random, size);
    let mut table = make::table(random, plate, size);
    let bound = if random.one_in(2) { u32::MAX } else { make::bound(random, &table) };
    if random.one_in(2) {
        make::damage_table(random, plate, &mut table);
    }
    let head = make::named_head(random, plate, table.head);
    let length = make::length(random, plate.cells());
    let cells = Lent::new(random, &table.cells, length);
    let sequence = make::sequence(random, plate);
    let sequence = Lent::given(random, &sequence);
    recounted(&cells, head, bound, &sequence)
}

/// Recounts by both and compares.
pub fn recounted(cells: &Lent<u32>, head: Head, bound: u32, sequence: &Lent<i32>) -> Outcome {
    let (handed_cells, handed) = (cells.clone(), sequence.clone());
    let answer = library::as_reply(plain::recount(cells.part(), head, bound, sequence.part()));
    let library = library::recount(handed_cells.part(), head, bound, handed.part());
    let difference = same(answer, library)
        .and_then(|()| handed_cells.agrees("table", cells))
        .and_then(|()| handed.agrees("sequence", sequence));
    told(difference, answer.number, || {
        format!("{}, bound {bound}, sequence {}, table {}", head_text(head), sequence.text(), cells.text())
    })
}

fn picture(random: &mut Random) -> Outcome {
    let size = make::size(random);
    let plate = make::plate(random, size);
    let (height, set) = make::named(random, plate);
    let column = make::handed_column(random, plate);
    let column = Lent::given(random, &column);
    let some = random.within(plate.lowest() - 1, plate.last_start() + 1) as i32;
    let any = random.word() as i32;
    let start = if random.one_in(20) { random.pick(&[i32::MIN, i32::MAX, any]) } else { some };
    let thickness = random.within(0, 33.min(plate.tmax + 1)) as u32;
    let any = random.word() as u32;
    let thickness = if random.one_in(20) { random.pick(&[u32::MAX, 32, 64, any]) } else { thickness };
    pictured(height, set, &column, start, thickness)
}

pub fn pictured(height: u32, set: u32, column: &Lent<u16>, start: i32, thickness: u32) -> Outcome {
    let handed = column.clone();
    let answer = library::as_pictured(plain::picture(height, set, column.part(), start, thickness));
    let library = library::picture(height, set, handed.part(), start, thickness);
    let difference = same(answer, library).and_then(|()| handed.agrees("column", column));
    told(difference, answer.number, || {
        let column = column.text();
        format!("height {height}, set {set:#x}, column {column}, start {start}, thickness {thickness}")
    })
}

fn motor_height(random: &mut Random) -> Outcome {
    let (any, some) = (random.word() as u32, random.within(1, 8_192) as u32);
    let step = random.pick(&[some, some, some, 0, 8_192, 8_193, u32::MAX, any]);
    let (any, some) = (random.word() as i32, random.within(-40, 550) as i32);
    let boundary = random.pick(&[some, some, some, -32, -31, 543, 544, i32::MIN, i32::MAX, any]);
    lifted(step, boundary)
}

pub fn lifted(step: u32, boundary: i32) -> Outcome {
    let answer = library::as_lifted(plain::motor_height(step, boundary));
    let difference = same(answer, library::motor_height(step, boundary));
    told(difference, answer.number, || format!("motor height of step {step}, boundary {boundary}"))
}

fn read_job(random: &mut Random) -> Outcome {
    let size = make::size(random);
    let plate = make::plate(random, size);
    let file = make::file(random, plate);
    let file = Lent::given(random, &file);
    let (cells, entries) = (plate.cells(), plate.entries());
    let greater = cells.max(entries);
    let most = if random.one_in(6) {
        random.pick(&[greater - 1, greater, cells, entries, 4_096, 0])
    } else {
        usize::MAX - random.index(2)
    };
    let length = make::length(random, cells);
    let table = Lent::random(random, length);
    loaded(&file, most, &table)
}

pub fn loaded(file: &Lent<u8>, most: usize, table: &Lent<u32>) -> Outcome {
    let (handed, mut expected, mut actual) = (file.clone(), table.clone(), table.clone());
    let answer = library::as_loaded(plain::read_job(file.part(), most, expected.part_mut()));
    let library = library::read_job(handed.part(), most, actual.part_mut());
    let difference = same(answer, library)
        .and_then(|()| actual.agrees("table", &expected))
        .and_then(|()| handed.agrees("file", file));
    told(difference, answer.number, || format!("most {most}, {} cells lent, {}", table.part().len(), file_text(file)))
}

/// For a printed case: its length and its first bytes.
fn file_text(file: &Lent<u8>) -> String {
    let bytes: String = file.part().iter().take(2_000).map(|byte| format!("{byte:02x}")).collect();
    format!("file of {} bytes {bytes}", file.part().len())
}

fn job_size(random: &mut Random) -> Outcome {
    let size = make::size(random);
    let plate = make::plate(random, size);
    let run = make::run(random, plate);
    let counts = Lent::given(random, &run.counts);
    sized(&counts)
}

pub fn sized(counts: &Lent<u16>) -> Outcome {
    let handed = counts.clone();
    let answer = library::as_reply(plain::job_size(counts.part()));
    let library = library::job_size(handed.part());
    let difference = same(answer, library).and_then(|()| handed.agrees("counts", counts));
    told(difference, answer.number, || format!("job size of counts {}", counts.text()))
}

fn write_job(random: &mut Random) -> Outcome {
    let size = make::size(random);
    let plate = make::plate(random, size);
    let run = make::run(random, plate);
    let (height, set) = make::named(random, plate);
    let any = random.word() as u32;
    let bound = random.pick(&[u32::MAX, 0, any, any]);
    let lengths = match plain::job_size(&run.counts) {
        Ok(size) => [run.stated(), size as usize],
        Err(_) => [run.boundaries.len(), 100],
    };
    let [boundaries, room] = lengths.map(|stated| make::length(random, stated));
    let saved =
        Saved { boundaries: Lent::new(random, &run.boundaries, boundaries), counts: Lent::given(random, &run.counts) };
    let out = Lent::random(random, room);
    let number = written(height, set, bound, &saved, &out)?;
    if number == 0 && run.counts.len() * plate.cells() <= MOST_READ {
        read_again(random, height, set, bound, &saved)?;
    }
    Ok(number)
}

/// How many cells are gone over, at most, where what was written is read again.
const MOST_READ: usize = 200_000;

/// The two buffers that columns to be saved come in.
#[derive(Clone)]
pub struct Saved {
    pub boundaries: Lent<u16>,
    pub counts: Lent<u16>,
}

impl Saved {
    pub fn parts(&self) -> Columns<'_> {
        Columns { boundaries: self.boundaries.part(), counts: self.counts.part() }
    }

    pub fn agrees(&self, expected: &Saved) -> Result<(), String> {
        self.boundaries.agrees("boundaries", &expected.boundaries)?;
        self.counts.agrees("counts", &expected.counts)
    }
}

/// Writes by both and compares.
pub fn written(height: u32, set: u32, bound: u32, saved: &Saved, out: &Lent<u8>) -> Outcome {
    let (handed, mut expected, mut actual) = (saved.clone(), out.clone(), out.clone());
    let answer = library::as_reply(plain::write_job(height, set, bound, saved.parts(), expected.part_mut()));
    let library = library::write_job(height, set, bound, handed.parts(), actual.part_mut());
    let difference =
        same(answer, library).and_then(|()| actual.agrees("output", &expected)).and_then(|()| handed.agrees(saved));
    told(difference, answer.number, || {
        let (boundaries, counts, room) = (saved.boundaries.text(), saved.counts.text(), out.part().len());
        format!(
            "height {height}, set {set:#x}, bound {bound}, boundaries {boundaries}, counts {counts}, {room} bytes lent"
        )
    })
}

/// What the library writes, the library reads as the same settings, bound and columns, by the table of those columns.
fn read_again(random: &mut Random, height: u32, set: u32, bound: u32, saved: &Saved) -> Outcome {
    let plate = Plate::new(height, set).expect("it was written");
    let columns: Vec<Vec<u16>> = saved.parts().each().iter().map(|column| column.to_vec()).collect();
    let expected = make::tabulate(plate, &columns);
    let mut file = vec![0; library::job_size(saved.counts.part()).value as usize];
    library::write_job(height, set, bound, saved.parts(), &mut file);
    let mut table = Lent::random(random, plate.cells());
    let loaded = library::read_job(&file, usize::MAX, table.part_mut());
    let wanted = library::as_loaded(Ok(plain::Loaded { head: expected.head, bound }));
    let cells = if table.part() == expected.cells { Ok(()) } else { Err("another table was read again".to_string()) };
    told(same(wanted, loaded).and(cells), 0, || format!("height {height}, set {set:#x}, columns {columns:?}"))
}

fn read_table(random: &mut Random) -> Outcome {
    let size = make::size(random);
    let plate = make::plate(random, size);
    let file = make::handed_table_file(random, plate, size);
    let file = Lent::given(random, &file);
    let length = make::length(random, plate.cells());
    let table = Lent::random(random, length);
    received(&file, &table).map(|(answer, _)| answer.number)
}

/// Reads a table file by both and compares; what the library answered, and the table as it left it.
pub fn received(file: &Lent<u8>, table: &Lent<u32>) -> Result<(library::Tabled, Lent<u32>), String> {
    let (handed, mut expected, mut actual) = (file.clone(), table.clone(), table.clone());
    let answer = library::as_tabled(plain::read_table(file.part(), expected.part_mut()));
    let library = library::read_table(handed.part(), actual.part_mut());
    let difference = same(answer, library)
        .and_then(|()| actual.agrees("table", &expected))
        .and_then(|()| handed.agrees("file", file));
    told(difference, 0, || format!("{} cells lent, {}", table.part().len(), file_text(file)))?;
    Ok((library, actual))
}

fn write_table(random: &mut Random) -> Outcome {
    let size = make::size(random);
    let plate = make::plate(random, size);
    let mut table = make::table(random, plate, size);
    make::damage_table(random, plate, &mut table);
    let head = make::handed_head(random, plate, table.head);
    let [length, room] = [plate.cells(), plate.file_bytes()].map(|stated| make::length(random, stated));
    let cells = Lent::new(random, &table.cells, length);
    let out = Lent::random(random, room);
    sent(&cells, head, &out).map(|(reply, _)| reply.number)
}

/// Writes a table by both and compares; what the library answered, and the output as it left it.
pub fn sent(cells: &Lent<u32>, head: Head, out: &Lent<u8>) -> Result<(library::Reply, Lent<u8>), String> {
    let (handed, mut expected, mut actual) = (cells.clone(), out.clone(), out.clone());
    let answer = library::as_reply(plain::write_table(cells.part(), head, expected.part_mut()));
    let library = library::write_table(handed.part(), head, actual.part_mut());
    let difference = same(answer, library)
        .and_then(|()| actual.agrees("output", &expected))
        .and_then(|()| handed.agrees("table", cells));
    told(difference, 0, || format!("{}, {} bytes lent, table {}", head_text(head), out.part().len(), cells.text()))?;
    Ok((library, actual))
}

/// What the library writes it reads as it was; and a file that it reads, damaged or not, it writes byte for byte. The number is that of reading
/// the second.
fn send_table(random: &mut Random) -> Outcome {
    let size = make::size(random);
    let plate = make::plate(random, size);
    let table = make::table(random, plate, size);
    let cells = Lent::given(random, &table.cells);
    read_as_it_was(random, plate, &cells, table.head)?;
    let file = make::handed_table_file(random, plate, size);
    let file = Lent::given(random, &file);
    written_as_it_was(random, &file)
}

/// A table in bounds, sent: the same cells in another buffer, which may be longer.
pub fn read_as_it_was(random: &mut Random, plate: Plate, cells: &Lent<u32>, head: Head) -> Result<Lent<u32>, String> {
    let out = Lent::random(random, plate.file_bytes());
    let (_, file) = sent(cells, head, &out)?;
    let beyond = random.index(9);
    let before = Lent::random(random, plate.cells() + beyond);
    let (answer, read) = received(&file, &before)?;
    let expected = [&cells.part()[..plate.cells()], &before.part()[plate.cells()..]].concat();
    let difference = same(library::as_tabled(Ok(head)), answer)
        .and_then(|()| same_elements("table read again", &expected, read.part()));
    told(difference, 0, || format!("{}, table {}", head_text(head), cells.text()))?;
    Ok(read)
}

/// As many cells as any table has.
const MOST_CELLS: usize = 18_368;

fn written_as_it_was(random: &mut Random, file: &Lent<u8>) -> Outcome {
    let table = Lent::random(random, MOST_CELLS);
    let (answer, read) = received(file, &table)?;
    if answer.number == 0 {
        let out = Lent::random(random, file.part().len());
        let (_, again) = sent(&read, answer.head, &out)?;
        told(same_elements("file written again", file.part(), again.part()), 0, || file_text(file))?;
    }
    Ok(answer.number)
}

fn same_elements<T: PartialEq + Debug>(name: &str, before: &[T], after: &[T]) -> Result<(), String> {
    match (0..before.len().max(after.len())).find(|&i| before.get(i) != after.get(i)) {
        None => Ok(()),
        Some(i) => Err(format!("{name}, at {i}: before {:?}, after {:?}", before.get(i), after.get(i))),
    }
}

/// What both calls on orders are handed.
#[derive(Clone)]
pub struct LentPrinting {
    pub height: u32,
    pub set: u32,
    pub step: u32,
    pub cure: Lent<u16>,
}

impl LentPrinting {
    /// The plate's own settings, a step, and the list as it is.
    pub fn given(random: &mut Random, plate: Plate, step: u32, cure: &[u16]) -> LentPrinting {
        LentPrinting { height: plate.height as u32, set: plate.set, step, cure: Lent::given(random, cure) }
    }

    /// As a caller might hand them in, mostly the plate's own.
    fn handed(random: &mut Random, plate: Plate, step: u32, cure: &[u16]) -> LentPrinting {
        let (height, set) = make::named(random, plate);
        let length = make::length(random, cure.len());
        LentPrinting { height, set, step, cure: Lent::new(random, cure, length) }
    }

    fn part(&self) -> Printing<'_> {
        Printing { height: self.height, set: self.set, step: self.step, cure: self.cure.part() }
    }

    fn text(&self) -> String {
        let LentPrinting { height, set, step, cure } = self;
        format!("height {height}, set {set:#x}, step {step}, cure list {}", cure.text())
    }
}

fn write_orders(random: &mut Random) -> Outcome {
    let size = make::size(random);
    let plate = make::plate(random, size);
    let (step, cure) = (make::step(random), make::cure(random, plate));
    let sequence = make::printed_sequence(random, plate, &cure);
    let room = make::length(random, orders_bytes(&sequence));
    let printing = LentPrinting::handed(random, plate, step, &cure);
    let (sequence, out) = (Lent::given(random, &sequence), Lent::random(random, room));
    ordered(&printing, &sequence, &out).map(|(reply, _)| reply.number)
}

/// The length of the order file of a sequence, admissible or not.
pub fn orders_bytes(sequence: &[i32]) -> usize {
    16 * sequence.len().saturating_sub(1) + 6
}

/// Writes orders by both and compares; what the library answered, and the output as it left it.
pub fn ordered(
    printing: &LentPrinting,
    sequence: &Lent<i32>,
    out: &Lent<u8>,
) -> Result<(library::Reply, Lent<u8>), String> {
    let (handed, handed_sequence) = (printing.clone(), sequence.clone());
    let (mut expected, mut actual) = (out.clone(), out.clone());
    let answer = library::as_reply(plain::write_orders(printing.part(), sequence.part(), expected.part_mut()));
    let library = library::write_orders(handed.part(), handed_sequence.part(), actual.part_mut());
    let difference = same(answer, library)
        .and_then(|()| actual.agrees("output", &expected))
        .and_then(|()| handed.cure.agrees("cure list", &printing.cure))
        .and_then(|()| handed_sequence.agrees("sequence", sequence));
    told(difference, 0, || {
        format!("{}, sequence {}, {} bytes lent", printing.text(), sequence.text(), out.part().len())
    })?;
    Ok((library, actual))
}

fn read_order(random: &mut Random) -> Outcome {
    let size = make::size(random);
    let plate = make::plate(random, size);
    let (step, cure) = (make::step(random), make::cure(random, plate));
    let file = make::handed_order_file(random, plate, step, &cure);
    let number = make::order_number(random, &file);
    let printing = LentPrinting::handed(random, plate, step, &cure);
    order_read(&printing, &Lent::given(random, &file), number)
}

/// Reads an order by both and compares.
pub fn order_read(printing: &LentPrinting, file: &Lent<u8>, number: u32) -> Outcome {
    let (handed, handed_file) = (printing.clone(), file.clone());
    let answer = library::as_ordered(plain::read_order(printing.part(), file.part(), number));
    let library = library::read_order(handed.part(), handed_file.part(), number);
    let difference = same(answer, library)
        .and_then(|()| handed.cure.agrees("cure list", &printing.cure))
        .and_then(|()| handed_file.agrees("file", file));
    told(difference, answer.number, || format!("{}, order {number}, {}", printing.text(), file_text(file)))
}

/// What the library writes it reads order by order, up to some past the last, as plain reads it; and a file that may be damaged, at every order
/// of a short one. The number is that of reading the second.
fn give_orders(random: &mut Random) -> Outcome {
    let size = make::size(random);
    let plate = make::plate(random, size);
    let (step, cure) = (make::step(random), make::cure(random, plate));
    let sequence = make::printed_sequence(random, plate, &cure);
    let printing = LentPrinting::given(random, plate, step.clamp(1, 8_192), &cure);
    given(random, &printing, &sequence)?;
    let file = make::handed_order_file(random, plate, printing.step, &cure);
    let file = Lent::given(random, &file);
    let mut number = 0;
    for order in numbers(random, file.part().len() / 8) {
        number = order_read(&printing, &file, order)?;
    }
    Ok(number)
}

/// A sequence's orders written, and where that is done read.
pub fn given(random: &mut Random, printing: &LentPrinting, sequence: &[i32]) -> Outcome {
    let out = Lent::random(random, orders_bytes(sequence));
    let sequence = Lent::given(random, sequence);
    let (reply, file) = ordered(printing, &sequence, &out)?;
    if reply.number == 0 {
        for number in numbers(random, 2 * (sequence.part().len() - 1)) {
            let read = order_read(printing, &file, number)?;
            told(same(0, read), 0, || format!("{}, sequence {}", printing.text(), sequence.text()))?;
        }
    }
    Ok(reply.number)
}

/// Of so many lifts and cures every one, or some where they are many; the finish, and past it.
fn numbers(random: &mut Random, orders: usize) -> Vec<u32> {
    let every = orders <= 12;
    let within: Vec<u32> = (0..orders as u32).filter(|_| every || random.one_in(orders as u64 / 3)).collect();
    [&within[..], &[orders as u32, orders as u32 + 1, u32::MAX]].concat()
}
