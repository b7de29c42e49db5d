// Times the proved library beside quick Rust in one process: in each round every contender runs once, in turning order, and the medians over
// the rounds are set side by side. All work in the same buffers, since where a buffer lies can cost as much as what is compared; sheets
// still hold the plan before and are not cleared, a table is set back outside the clock. What each leaves is compared outside the clock.

use bench::library;
use bench::make::{self, Table};
use bench::plain::{self, Answer, Columns, Filled, Head, Plate, Sheets};
use bench::quick::{self, Reach, Rising};
use bench::random::Random;
use bench::work::{self, Way, WAYS};
use std::hint::black_box;
use std::iter::repeat_n;
use std::time::{Duration, Instant};

const SEED: u64 = 7;
const ROUNDS: usize = 101;
const LEAST_ROUNDS: usize = 9;
/// Of 100,000 columns, seconds a round.
const FULL_ROUNDS: usize = 5;
/// Of how the cost grows.
const GROWTH_ROUNDS: usize = 9;
const ALL: u32 = u32::MAX;
const FOUR_TO_SIXTEEN: u32 = 0xFFF8;
const TWO_AND_THREE: u32 = 6;

// ---- Timing ----

/// Runs once over the buffers that all share, and says how long the part within the clock took.
type Contender<'a, B> = Box<dyn Fn(&mut B) -> Duration + 'a>;

/// Nanoseconds of each contender in each round.
struct Times {
    rounds: Vec<Vec<f64>>,
}

fn time<B>(rounds: usize, buffers: &mut B, contenders: &[Contender<B>]) -> Times {
    let number = contenders.len();
    contenders.iter().for_each(|contender| {
        contender(buffers);
    });
    let mut times = Times { rounds: Vec::new() };
    for round in 0..rounds {
        let mut row = vec![0.0; number];
        for turn in 0..number {
            let i = (round + turn) % number;
            row[i] = contenders[i](buffers).as_nanos() as f64;
        }
        times.rounds.push(row);
    }
    times
}

fn median(mut values: Vec<f64>) -> f64 {
    values.sort_by(f64::total_cmp);
    values[values.len() / 2]
}

impl Times {
    fn of(&self, i: usize) -> f64 {
        median(self.rounds.iter().map(|row| row[i]).collect())
    }

    /// The library's median over the other's, and the lowest and highest ratio of a round.
    fn ratio(&self, i: usize) -> String {
        let each: Vec<f64> = self.rounds.iter().map(|row| row[0] / row[i]).collect();
        let (low, high) = each.iter().fold((f64::MAX, 0.0_f64), |(l, h), &r| (l.min(r), h.max(r)));
        format!("**{:.2}** ({low:.2} to {high:.2})", self.of(0) / self.of(i))
    }
}

fn clocked(work: impl FnOnce()) -> Duration {
    let begun = Instant::now();
    work();
    begun.elapsed()
}

// ---- Planning ----

type Planner = fn(&[u32], Head, Sheets) -> u64;

fn by_library(cells: &[u32], head: Head, sheets: Sheets) -> u64 {
    let reply = library::plan(cells, head, u32::MAX, sheets);
    assert_eq!(reply.number, 0);
    reply.value
}

fn by_rust(reach: Reach, cells: &[u32], head: Head, sheets: Sheets) -> u64 {
    quick::plan(reach, cells, head, u32::MAX, sheets).expect("the table is good")
}

const PLANNERS: [Planner; 4] = [
    by_library,
    |cells, head, sheets| by_rust(Reach::Every, cells, head, sheets),
    |cells, head, sheets| by_rust(Reach::UpToGreatest, cells, head, sheets),
    |cells, head, sheets| by_rust(Reach::PossibleOnly, cells, head, sheets),
];

fn plan_into(planner: Planner, table: &Table, sheets: &mut make::Sheets) -> u64 {
    let lent = Sheets { errors: &mut sheets.errors, thicknesses: &mut sheets.thicknesses, list: &mut sheets.list };
    planner(&table.cells, table.head, lent)
}

/// What each planner leaves in sheets that held something else.
fn compare_planners(plate: Plate, table: &Table, sheets: &mut make::Sheets) {
    let expected = make::sheets(plate, table, u32::MAX);
    for planner in PLANNERS {
        sheets.errors.fill(1);
        sheets.thicknesses.fill(1);
        sheets.list.fill(1);
        plan_into(planner, table, sheets);
        assert!(sheets.errors == expected.errors && sheets.thicknesses == expected.thicknesses);
        assert!(sheets.list == expected.list);
    }
}

fn planning(rounds: usize, name: &str, height: u32, set: u32, times: u32) {
    let plate = Plate::new(height, set).expect("allowed");
    let table = some_table(plate, 200);
    let mut sheets = make::Sheets {
        errors: vec![1; plate.entries()],
        thicknesses: vec![1; plate.entries()],
        list: vec![1; plate.counts()],
    };
    compare_planners(plate, &table, &mut sheets);
    let contender = |planner: Planner| -> Contender<make::Sheets> {
        let table = &table;
        Box::new(move |sheets| {
            clocked(|| {
                for _ in 0..times {
                    black_box(plan_into(planner, black_box(table), sheets));
                }
            })
        })
    };
    let taken = time(rounds, &mut sheets, &PLANNERS.map(contender));
    let heights = (plate.highest() - plate.lowest() + 1) as f64;
    let steps = heights * plate.counts() as f64 * f64::from(plate.set.count_ones()) * f64::from(times);
    let each: Vec<String> = (0..4).map(|i| format!("{:.2}", taken.of(i) / steps)).collect();
    let ratios: Vec<String> = (1..4).map(|i| taken.ratio(i)).collect();
    println!("| {name} | {} | {} |", each.join(" | "), ratios.join(" | "));
}

fn some_table(plate: Plate, columns: u64) -> Table {
    let mut random = Random::new(SEED, columns);
    let columns = make::columns(&mut random, plate, columns);
    make::tabulate(plate, &columns)
}

// ---- Adding ----

type Adder = fn(&mut [u32], Head, &[u16]) -> Head;

fn good(answer: Answer<Head>) -> Head {
    answer.expect("the input is good")
}

fn tabled(answer: library::Tabled) -> Head {
    assert_eq!(answer.number, 0);
    answer.head
}

const ADDERS: [Adder; 3] = [
    |table, head, column| tabled(library::add_column(table, head, column)),
    |table, head, column| good(quick::add_by_algorithm_1(table, head, column)),
    |table, head, column| good(quick::add_carrying(table, head, column)),
];

/// Columns to be added to a cleared table: a list of them, gone through again and again up to their number.
struct ManyColumns {
    plate: Plate,
    list: Vec<Vec<u16>>,
    number: usize,
}

impl ManyColumns {
    fn new(height: u32, set: u32, number: usize, boundaries: usize) -> ManyColumns {
        let plate = Plate::new(height, set).expect("allowed");
        ManyColumns { plate, list: columns_of(plate, boundaries), number }
    }

    /// How often the list is gone through whole, and the part of it that is left.
    fn parts(&self) -> (usize, &[Vec<u16>]) {
        let (times, rest) = (self.number / self.list.len(), self.number % self.list.len());
        (times, &self.list[..rest])
    }

    fn add(&self, adder: Adder, cells: &mut [u32]) -> Head {
        let (times, rest) = self.parts();
        let lists = repeat_n(&self.list[..], times).chain([rest]);
        lists.fold(self.plate.head(0), |head, list| list.iter().fold(head, |head, column| adder(cells, head, column)))
    }

    /// The cells that the columns give: a layer's error is the sum of its shares, so that a list twice gives twice its cells.
    fn cells(&self) -> Vec<u32> {
        let (times, rest) = self.parts();
        let [whole, rest] = [&self.list[..], rest].map(|list| make::tabulate(self.plate, list).cells);
        whole.iter().zip(rest).map(|(whole, rest)| whole * times as u32 + rest).collect()
    }
}

/// What each adder answers and leaves, beside the plain one's.
fn compare_adders(many: &ManyColumns, cells: &mut [u32]) {
    let expected = many.cells();
    for adder in ADDERS {
        cells.fill(0);
        let head = many.add(adder, cells);
        assert!(head == many.plate.head(many.number as u32) && *cells == expected[..]);
    }
}

fn adding(rounds: usize, many: &ManyColumns) -> Times {
    let mut cells = vec![0; many.plate.cells()];
    compare_adders(many, &mut cells);
    let contender = |adder: Adder| -> Contender<Vec<u32>> {
        Box::new(move |cells| {
            cells.fill(0);
            clocked(|| {
                black_box(black_box(many).add(adder, cells));
            })
        })
    };
    time(rounds, &mut cells, &ADDERS.map(contender))
}

fn adding_row(name: &str, unit: f64, decimals: usize, taken: &Times) {
    let each: Vec<String> = (0..3).map(|i| format!("{:.decimals$}", taken.of(i) / unit)).collect();
    println!("| {name} | {} | {} | {} |", each.join(" | "), taken.ratio(1), taken.ratio(2));
}

/// In µs a column.
fn column_row(name: &str, many: &ManyColumns, taken: &Times) {
    adding_row(name, 1_000.0 * many.number as f64, 3, taken);
}

/// 1,000 columns of so many boundaries each, spread over the height at random.
fn columns_of(plate: Plate, boundaries: usize) -> Vec<Vec<u16>> {
    let mut random = Random::new(SEED, boundaries as u64);
    let mut column = || {
        let mut heights: Vec<u16> = (0..=plate.height as u16).collect();
        while heights.len() > boundaries {
            heights.remove(random.index(heights.len()));
        }
        heights
    };
    (0..1_000).map(|_| column()).collect()
}

// ---- Joining, taking off, reading back ----

const JOINS: u32 = 200;

type Joiner = fn(&mut [u32], Head, &[u32], Head) -> Head;

const JOINERS: [Joiner; 2] = [
    |table, head, other, other_head| tabled(library::join_tables(table, head, other, other_head)),
    |table, head, other, other_head| good(quick::join_tables(table, head, other, other_head)),
];

const TAKERS: [Joiner; 2] = [
    |table, head, other, other_head| tabled(library::take_off(table, head, other, other_head)),
    |table, head, other, other_head| good(quick::take_off(table, head, other, other_head)),
];

fn row(name: &str, unit: f64, taken: &Times) {
    let (library, rust) = (taken.of(0) / unit, taken.of(1) / unit);
    println!("| {name} | {library:.1} | {rust:.1} | {} |", taken.ratio(1));
}

/// The same table of 100 columns, joined 200 times or taken off 200 times; the first table is set back outside the clock.
fn joining(rounds: usize, name: &str, joiners: [Joiner; 2], first: &Table, expected: &Table) {
    let plate = Plate::new(512, ALL).expect("allowed");
    let second = some_table(plate, 100);
    let contender = |joiner: Joiner| -> Contender<Table> {
        let second = &second;
        Box::new(move |table| {
            table.clone_from(first);
            let taken = clocked(|| {
                for _ in 0..JOINS {
                    let (other, other_head) = black_box((&second.cells, second.head));
                    table.head = joiner(&mut table.cells, table.head, other, other_head);
                }
            });
            assert!(table.head == expected.head && table.cells == expected.cells);
            taken
        })
    };
    let mut table = first.clone();
    row(name, 1_000.0 * f64::from(JOINS), &time(rounds, &mut table, &joiners.map(contender)));
}

fn joining_and_taking_off(rounds: usize) {
    let plate = Plate::new(512, ALL).expect("allowed");
    let one = some_table(plate, 100);
    let times = JOINS + 1;
    let cells = one.cells.iter().map(|cell| cell * times).collect();
    let many = Table { cells, head: plate.head(one.head.columns * times) };
    joining(rounds, "joining, µs a call", JOINERS, &one, &many);
    joining(rounds, "taking off, µs a call", TAKERS, &many, &one);
}

type Reader = fn(Plate, Filled, u32, &mut [i32]) -> u64;

const READERS: [Reader; 2] = [
    |plate, sheets, count, out| library::read_back(plate.height as u32, plate.set, sheets, count, out).value,
    |plate, sheets, count, out| {
        let answer = quick::read_back(plate.height as u32, plate.set, sheets, count, out);
        answer.unwrap_or_else(|refusal| refusal.place)
    },
];

fn read_all(reader: Reader, plate: Plate, sheets: &make::Sheets, out: &mut [i32]) -> u64 {
    let filled = Filled { errors: &sheets.errors, thicknesses: &sheets.thicknesses };
    (1..=plate.counts()).fold(0, |sum, count| sum + reader(plate, filled, count as u32, out))
}

/// What each reader answers and leaves for each count, beside the plain one's.
fn compare_readers(plate: Plate, sheets: &make::Sheets, out: &mut [i32]) {
    let filled = Filled { errors: &sheets.errors, thicknesses: &sheets.thicknesses };
    for count in 1..=plate.counts() as u32 {
        let mut expected = vec![1; out.len()];
        let answer = plain::read_back(plate.height as u32, plate.set, filled, count, &mut expected);
        for reader in READERS {
            out.fill(1);
            let value = reader(plate, filled, count, out);
            assert!(value == answer.as_ref().map_or(0, |&error| error) && *out == expected[..]);
        }
    }
}

fn reading_back(rounds: usize, name: &str, height: u32, set: u32, times: u32) {
    let plate = Plate::new(height, set).expect("allowed");
    let table = some_table(plate, 200);
    let sheets = make::sheets(plate, &table, u32::MAX);
    let mut out = vec![0; plate.counts() + 1];
    compare_readers(plate, &sheets, &mut out);
    let contender = |reader: Reader| -> Contender<Vec<i32>> {
        let sheets = &sheets;
        Box::new(move |out| {
            clocked(|| {
                for _ in 0..times {
                    black_box(read_all(reader, plate, black_box(sheets), out));
                }
            })
        })
    };
    let unit = 1_000.0 * f64::from(times);
    row(name, unit, &time(rounds, &mut out, &READERS.map(contender)));
}

// ---- Writing a job file ----

type Writer = fn(Columns, &mut [u8]) -> u64;

fn written_by_library(columns: Columns, out: &mut [u8]) -> u64 {
    let reply = library::write_job(512, ALL, u32::MAX, columns, out);
    assert_eq!(reply.number, 0);
    reply.value
}

fn written_by_rust(rising: Rising, columns: Columns, out: &mut [u8]) -> u64 {
    quick::write_job(rising, 512, ALL, u32::MAX, columns, out).expect("the columns are good")
}

const WRITERS: [Writer; 3] = [
    written_by_library,
    |columns, out| written_by_rust(Rising::PairByPair, columns, out),
    |columns, out| written_by_rust(Rising::AllPairs, columns, out),
];

/// What each writer answers and leaves, beside the plain one's.
fn compare_writers(columns: Columns, out: &mut [u8]) {
    let mut expected = vec![1; out.len()];
    let size = plain::write_job(512, ALL, u32::MAX, columns, &mut expected).expect("the columns are good");
    for writer in WRITERS {
        out.fill(1);
        assert!(writer(columns, out) == size && *out == expected[..]);
    }
}

/// So many columns of so many boundaries each: a thousand, again and again.
fn writing(rounds: usize, name: &str, columns: usize, boundaries: usize, times: u32) {
    let some = columns_of(Plate::new(512, ALL).expect("allowed"), boundaries);
    let run: Vec<u16> = some.iter().cycle().take(columns).flatten().copied().collect();
    let counts = vec![boundaries as u16; columns];
    let columns = Columns { boundaries: &run, counts: &counts };
    let size = plain::job_size(&counts).expect("the counts are good") as usize;
    let mut out = vec![0; size];
    compare_writers(columns, &mut out);
    let contender = |writer: Writer| -> Contender<Vec<u8>> {
        Box::new(move |out| {
            clocked(|| {
                for _ in 0..times {
                    black_box(writer(black_box(columns), out));
                }
            })
        })
    };
    let taken = time(rounds, &mut out, &WRITERS.map(contender));
    let bytes = size as f64 * f64::from(times);
    let each: Vec<String> = (0..3).map(|i| format!("{:.2}", bytes / taken.of(i))).collect();
    println!("| {name}, {size} bytes | {} | {} | {} |", each.join(" | "), taken.ratio(1), taken.ratio(2));
}

// ---- Sending a table ----

/// A table, its file, and room for a copy of the file.
struct Desk {
    table: Table,
    file: Vec<u8>,
    copied: Vec<u8>,
}

type Clerk = fn(&mut Desk);

/// For scale: the file's bytes, from one place to another.
fn copy(desk: &mut Desk) {
    desk.copied.copy_from_slice(&desk.file);
}

const SENDERS: [Clerk; 3] = [
    |desk| {
        let reply = library::write_table(&desk.table.cells, desk.table.head, &mut desk.file);
        assert_eq!(reply.number, 0);
    },
    |desk| {
        quick::write_table(&desk.table.cells, desk.table.head, &mut desk.file).expect("the table is good");
    },
    copy,
];

const RECEIVERS: [Clerk; 3] = [
    |desk| desk.table.head = tabled(library::read_table(&desk.file, &mut desk.table.cells)),
    |desk| desk.table.head = good(quick::read_table(&desk.file, &mut desk.table.cells)),
    copy,
];

/// What each leaves of a table and of its file, and that the copy is one.
fn compare_clerks(desk: &mut Desk) {
    let (table, file) = (desk.table.clone(), file_of(&desk.table));
    for sender in &SENDERS[..2] {
        desk.file.fill(1);
        sender(desk);
        assert!(desk.file == file);
    }
    for receiver in &RECEIVERS[..2] {
        desk.table.cells.fill(1);
        desk.table.head.columns = 1;
        receiver(desk);
        assert!(desk.table.cells == table.cells && desk.table.head == table.head);
    }
    copy(desk);
    assert!(desk.copied == file);
}

fn file_of(table: &Table) -> Vec<u8> {
    make::table_file(table.head.plate().expect("allowed"), table.head, &table.cells)
}

fn sending(rounds: usize, name: &str, height: u32, set: u32, times: u32) {
    let plate = Plate::new(height, set).expect("allowed");
    let size = plate.file_bytes();
    let mut desk = Desk { table: some_table(plate, 200), file: vec![0; size], copied: vec![0; size] };
    compare_clerks(&mut desk);
    let contender = |clerk: Clerk| -> Contender<Desk> {
        Box::new(move |desk| {
            clocked(|| {
                for _ in 0..times {
                    clerk(black_box(desk));
                }
            })
        })
    };
    for (work, clerks) in [("writing", SENDERS), ("reading", RECEIVERS)] {
        let taken = time(rounds, &mut desk, &clerks.map(contender));
        let each: Vec<String> = (0..3).map(|i| format!("{:.0}", taken.of(i) / f64::from(times))).collect();
        println!("| {work}, {name}, {size} bytes | {} | {} | {} |", each.join(" | "), taken.ratio(1), taken.ratio(2));
    }
}

// ---- The tables ----

fn plans(rounds: usize) {
    println!("| planning, ns a step | library | Rust, every count | up to the greatest | possible only | / every | / up to the greatest | / possible only |");
    println!("|---|---|---|---|---|---|---|---|");
    planning(rounds, "N = 512, all 32", 512, ALL, 1);
    planning(rounds, "N = 512, {4..16}", 512, FOUR_TO_SIXTEEN, 10);
    planning(rounds, "N = 64, {2, 3}", 64, TWO_AND_THREE, 2_000);
    println!("\nA step is one height × count × thickness, of (N+2·tmax−1) · M · |T|; the source paper's Table I comes to about 4 ns a step.");
}

/// The head of a table of adding: its first cell, and the contenders.
fn adding_head(first: &str) {
    println!("| {first} | library | Algorithm 1 | carrying | / Algorithm 1 | / carrying |");
    println!("|---|---|---|---|---|---|");
}

fn additions(rounds: usize) {
    adding_head("adding 1,000 columns, N = 512, µs a column");
    for (name, set) in [("all 32", ALL), ("{4..16}", FOUR_TO_SIXTEEN), ("{2, 3}", TWO_AND_THREE)] {
        for boundaries in [0, 2, 4, 8, 64] {
            let many = ManyColumns::new(512, set, 1_000, boundaries);
            column_row(&format!("{name}, {boundaries} boundaries"), &many, &adding(rounds, &many));
        }
    }
}

/// Adding at full size, and how its cost grows.
fn full(_: usize) {
    adding_head("adding at full size, N = 512, all 32, ms");
    let many = ManyColumns::new(512, ALL, 100_000, 4);
    let taken = adding(FULL_ROUNDS, &many);
    adding_row("100,000 columns of 4 boundaries", 1_000_000.0, 1, &taken);

    println!();
    adding_head("columns of 4 boundaries, N = 512, all 32, µs a column");
    for (name, number) in [("100", 100), ("1,000", 1_000), ("10,000", 10_000)] {
        grown(name, &ManyColumns::new(512, ALL, number, 4));
    }
    column_row("100,000", &many, &taken);

    println!();
    adding_head("boundaries of each of 1,000 columns, N = 512, all 32, µs a column");
    for boundaries in [0, 2, 4, 8, 16, 32, 64] {
        grown(&boundaries.to_string(), &ManyColumns::new(512, ALL, 1_000, boundaries));
    }

    println!();
    adding_head("N, 1,000 columns of 4 boundaries, all 32, µs a column");
    for height in [64, 128, 256, 512] {
        grown(&height.to_string(), &ManyColumns::new(height, ALL, 1_000, 4));
    }
}

/// One row of how the cost of adding grows.
fn grown(name: &str, many: &ManyColumns) {
    column_row(name, many, &adding(GROWTH_ROUNDS, many));
}

/// Not timed: the voxels looked at, as they are counted.
fn looks(_: usize) {
    let plate = Plate::new(512, ALL).expect("allowed");
    println!(
        "| voxels looked at in one pass, N = 512, all 32 | rows near | every layer from its first voxel | carried, all rows | near rows | \
         from the first boundary on |"
    );
    println!("|---|---|---|---|---|---|");
    for (name, column) in work::told_columns() {
        let near = work::work(Way::NearRows, plate, &column).rows;
        let looks = WAYS.map(|way| work::work(way, plate, &column).looks.to_string());
        println!("| {name} | {near} | {} |", looks.join(" | "));
    }
}

fn tables(rounds: usize) {
    println!("| N = 512, all 32 unless said | library | Rust | ratio |");
    println!("|---|---|---|---|");
    joining_and_taking_off(rounds);
    reading_back(rounds, "reading back every count, µs", 512, ALL, 5);
    reading_back(rounds, "reading back every count, {4..16}, µs", 512, FOUR_TO_SIXTEEN, 20);
}

fn jobs(rounds: usize) {
    println!(
        "| writing a job file, bytes a ns | library | Rust, pair by pair | all pairs | / pair by pair | / all pairs |"
    );
    println!("|---|---|---|---|---|---|");
    writing(rounds, "20,000 columns of 64", 20_000, 64, 2);
    writing(rounds, "100,000 columns of 2", 100_000, 2, 5);
    writing(rounds, "100,000 empty columns", 100_000, 0, 10);
}

fn files(rounds: usize) {
    println!("| sending a table, ns a call | library | Rust | a copy | / Rust | / a copy |");
    println!("|---|---|---|---|---|---|");
    sending(rounds, "N = 512, all 32", 512, ALL, 50);
    sending(rounds, "N = 64, {2, 3}", 64, TWO_AND_THREE, 2_000);
}

/// One table, or those of one matter, and the word that asks for it alone.
struct Speeds {
    word: &'static str,
    print: fn(usize),
}

const TABLES: [Speeds; 7] = [
    Speeds { word: "planning", print: plans },
    Speeds { word: "adding", print: additions },
    Speeds { word: "full", print: full },
    Speeds { word: "work", print: looks },
    Speeds { word: "joining", print: tables },
    Speeds { word: "writing", print: jobs },
    Speeds { word: "sending", print: files },
];

fn main() {
    let mut words = std::env::args().skip(1);
    let asked = words.next().and_then(|word| word.parse().ok());
    let only = words.next();
    let rounds = asked.unwrap_or(ROUNDS).max(LEAST_ROUNDS);
    println!("Medians of {rounds} rounds, of {FULL_ROUNDS} for adding at full size and {GROWTH_ROUNDS} for how its cost grows.");
    println!("Ratios are library / Rust, in brackets a round's lowest and highest.");
    println!("Sheets and outputs hold the round before and are not cleared; tables are cleared or set back outside the clock.");
    for table in TABLES.iter().filter(|table| only.as_ref().is_none_or(|only| only == table.word)) {
        println!();
        (table.print)(rounds);
    }
}
