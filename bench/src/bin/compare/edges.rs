// Cases that are run every time: the limits that document 01 wants run on both sides, every sequence of small plates and walks down their
// sheets, every motor height, files of 1,000,000 columns, read and written, table files changed in one place or two, those of adding, those of
// orders, and those of broken files.

use crate::adding::adding;
use crate::broken::broken;
use crate::cases::{added, lifted, loaded, pictured, planned, read, read_as_it_was, received, recounted, sent};
use crate::cases::{sized, sizes_of, written};
use crate::cases::{LentSheets, Outcome, Saved};
use crate::lent::Lent;
use crate::orders::orders;
use bench::make::{self, Run, Table};
use bench::plain::{self, Head, Plate};
use bench::random::Random;

pub fn edges(random: &mut Random) -> Result<u64, String> {
    let mut cases = 0;
    let mut note = |outcome: Outcome| outcome.map(|_| cases += 1);
    broken(random, &mut note)?;
    orders(random, &mut note)?;
    table_files(random, &mut note)?;
    table_file_bytes(random, &mut note)?;
    table_file_records(random, &mut note)?;
    table_file_starts(random, &mut note)?;
    sent_plates(random, &mut note)?;
    sent_cells(random, &mut note)?;
    sent_orders(random, &mut note)?;
    for height in (0..=514).chain([65_535, 65_536, u32::MAX]) {
        for bit in 0..32 {
            note(sizes_of(height, 1 << bit))?;
            note(sizes_of(height, u32::MAX << bit))?;
            note(sizes_of(height, 1 | 1 << bit))?;
        }
        note(sizes_of(height, 0))?;
    }
    for step in 0..=8_193 {
        for boundary in -33..=545 {
            note(lifted(step, boundary))?;
        }
    }
    columns(random, &mut note)?;
    counts(random, &mut note)?;
    sequences(random, &mut note)?;
    walks(random, &mut note)?;
    files(random, &mut note)?;
    saved_counts(random, &mut note)?;
    saved_boundaries(random, &mut note)?;
    saved_plates(random, &mut note)?;
    saved_orders(random, &mut note)?;
    adding(random, &mut note)?;
    Ok(cases)
}

/// Boundary counts 64, 65 and 66, a boundary at N and above it, column 1,000,000 and one more.
fn columns(random: &mut Random, note: &mut impl FnMut(Outcome) -> Result<(), String>) -> Result<(), String> {
    for height in [1, 63, 64, 65, 66, 512] {
        let plate = Plate::new(height, u32::MAX).expect("allowed");
        let table = Lent::new(random, &vec![0; plate.cells()], plate.cells());
        let top = height as u16;
        let mut lists: Vec<Vec<u16>> = (60..70).map(|n| (0..n).collect()).collect();
        lists.extend([vec![], vec![0, top], vec![0, top + 1], vec![top, top], vec![top + 1, top], vec![0, 65_535]]);
        for list in lists {
            let column = Lent::given(random, &list);
            for columns in [0, 1, 999_999, 1_000_000, 1_000_001, u32::MAX] {
                note(added(&mut table.clone(), &mut table.clone(), &mut plate.head(columns), &column))?;
            }
            for start in -33..=height as i32 + 32 {
                for thickness in [0, 1, 2, 31, 32, 33] {
                    note(pictured(height, u32::MAX, &column, start, thickness))?;
                }
            }
        }
    }
    Ok(())
}

/// Heights 1, 2 and 512 planned, and every count from 0 to M+1 read back.
fn counts(random: &mut Random, note: &mut impl FnMut(Outcome) -> Result<(), String>) -> Result<(), String> {
    let sets = [1, 1 << 31, u32::MAX];
    let limits = [1, 2, 512].into_iter().flat_map(|height| sets.map(|set| (height, set)));
    for (height, set) in limits.chain([(4, 6)]) {
        let plate = Plate::new(height, set).expect("allowed");
        let columns = make::columns(random, plate, 5);
        let table = make::tabulate(plate, &columns);
        let cells = Lent::given(random, &table.cells);
        for bound in [u32::MAX, 0] {
            let mut expected = LentSheets::random(random, [plate.entries(), plate.entries(), plate.counts()]);
            let mut actual = expected.clone();
            note(planned(&mut actual, &mut expected, &cells, table.head, bound))?;
            for count in 0..=plate.counts() + 1 {
                let out = Lent::random(random, count + 1);
                note(read(&actual, &expected, &out, height, set, count as u32))?;
            }
        }
    }
    Ok(())
}

/// Small plates, document 01's and the one of a height of 1 among them; T {2, 5} leaves heights that no layer ends at.
const SMALL: [(u32, u32); 7] = [(1, 1), (1, 7), (2, 3), (3, 6), (4, 6), (4, 18), (5, 11)];

/// Every sequence that starts as it may and rises by allowed thicknesses, one step past N+tmax−1 at most: with z1 and the last boundary but one
/// on both sides of their limits, and with several faults at once where a bound is in effect.
fn sequences(random: &mut Random, note: &mut impl FnMut(Outcome) -> Result<(), String>) -> Result<(), String> {
    for (height, set) in SMALL {
        let plate = Plate::new(height, set).expect("allowed");
        let columns = make::columns(random, plate, 3);
        let table = make::tabulate(plate, &columns);
        let cells = Lent::given(random, &table.cells);
        let mut every: Vec<Vec<i32>> = (plate.lowest()..=0).map(|z0| vec![z0 as i32]).collect();
        while let Some(sequence) = every.pop() {
            let lent = Lent::given(random, &sequence);
            for bound in [u32::MAX, 1, 0] {
                note(recounted(&cells, table.head, bound, &lent))?;
            }
            let end = sequence[sequence.len() - 1];
            if i64::from(end) <= plate.highest() {
                every.extend(plate.thicknesses().map(|t| [&sequence[..], &[end + t as i32]].concat()));
            }
        }
    }
    Ok(())
}

/// Every count read back from each end by sheets that name one thickness for all layers from a height up, and another below it.
fn walks(random: &mut Random, note: &mut impl FnMut(Outcome) -> Result<(), String>) -> Result<(), String> {
    for (height, set) in SMALL {
        let plate = Plate::new(height, set).expect("allowed");
        let members: Vec<u8> = plate.thicknesses().map(|t| t as u8).chain([0]).collect();
        let pairs = members.iter().flat_map(|&upper| members.iter().map(move |&lower| (upper, lower)));
        let changes = pairs.flat_map(|pair| (plate.lowest()..=plate.height).map(move |at| (pair, at)));
        for ((upper, lower), at) in changes {
            for end in plate.height..=plate.highest() {
                let mut sheets = LentSheets::random(random, [plate.entries(), plate.entries(), 0]);
                for z in plate.lowest()..=plate.highest() {
                    let row = plate.entry(z, 0)..plate.entry(z + 1, 0);
                    sheets.errors.part_mut()[row.clone()].fill(if z == end { 3 } else { 4 });
                    sheets.thicknesses.part_mut()[row].fill(if z >= at { upper } else { lower });
                }
                for count in 1..=plate.counts() {
                    let out = Lent::random(random, count + 1);
                    note(read(&sheets.clone(), &sheets, &out, height, set, count as u32))?;
                }
            }
        }
    }
    Ok(())
}

/// The worked plate cut off at every byte, and files of 1,000,000 columns and of one more.
fn files(random: &mut Random, note: &mut impl FnMut(Outcome) -> Result<(), String>) -> Result<(), String> {
    let mut plate = Vec::new();
    make::settings_record(&mut plate, 4, 6, u32::MAX);
    make::column_record(&mut plate, &[1, 4]);
    make::column_record(&mut plate, &[0, 3]);
    make::end_record(&mut plate, 2);
    let table = Lent::random(random, 30);
    for most in [0, 23, 24, 35, 36, 37, 44, 45, usize::MAX] {
        for length in 0..=plate.len() {
            let file = Lent::given(random, &plate[..length]);
            note(loaded(&file, most, &table))?;
        }
    }
    for columns in [1_000_000, 1_000_001] {
        let mut file = Vec::new();
        make::settings_record(&mut file, 2, 3, 0);
        for column in 0..columns {
            make::column_record(&mut file, if column % 3 == 0 { &[1, 2] } else { &[] });
        }
        make::end_record(&mut file, columns);
        let file = Lent::given(random, &file);
        note(loaded(&file, usize::MAX, &table))?;
    }
    Ok(())
}

/// The run in a buffer of so many boundaries.
fn lent_run(random: &mut Random, run: &Run, length: usize) -> Saved {
    Saved { boundaries: Lent::new(random, &run.boundaries, length), counts: Lent::given(random, &run.counts) }
}

/// Written into a byte less than the file has, into its own length and into more.
fn save(
    random: &mut Random,
    note: &mut impl FnMut(Outcome) -> Result<(), String>,
    height: u32,
    saved: &Saved,
) -> Result<(), String> {
    note(sized(&saved.counts))?;
    let size = plain::job_size(saved.counts.part()).unwrap_or(60) as usize;
    for room in [size - 1, size, size + 9] {
        let out = Lent::random(random, room);
        note(written(height, u32::MAX, u32::MAX, saved, &out))?;
    }
    Ok(())
}

/// Every count of a column from 0 to 70 and far beyond, alone or between good columns, over a run that is short, exact or long.
fn saved_counts(random: &mut Random, note: &mut impl FnMut(Outcome) -> Result<(), String>) -> Result<(), String> {
    for count in (0..=70).chain([127, 128, 192, 255, 256, 258, 320, 512, 32_768, 65_534, 65_535]) {
        let column: Vec<u16> = (0..count).collect();
        for columns in [vec![column.clone()], vec![vec![1, 4], column.clone(), vec![0, 3]], vec![column; 3]] {
            let run = Run::of(&columns);
            let stated = run.stated();
            for length in [0, stated.saturating_sub(1), stated, stated + 1, stated + 7] {
                let saved = lent_run(random, &run, length);
                save(random, note, 512, &saved)?;
            }
        }
    }
    Ok(())
}

/// Each boundary of three columns in turn moved to N, above it, to the one before, and below it.
fn saved_boundaries(random: &mut Random, note: &mut impl FnMut(Outcome) -> Result<(), String>) -> Result<(), String> {
    for (height, count) in [(1, 2), (4, 4), (63, 64), (64, 64), (255, 6), (256, 6), (512, 64)] {
        let column: Vec<u16> = (0..count).collect();
        let good = Run::of(&[column.clone(), column.clone(), column]);
        let top = height as u16;
        for place in 0..good.boundaries.len() {
            let before = if place > 0 { good.boundaries[place - 1] } else { 0 };
            for value in [top, top + 1, top + 256, 65_535, before, before.saturating_sub(1), 0] {
                let mut run = good.clone();
                run.boundaries[place] = value;
                let saved = lent_run(random, &run, run.stated());
                save(random, note, height, &saved)?;
            }
        }
    }
    Ok(())
}

/// Document 01's plate under every setting at a limit and into every length, and up to 1,000,000 columns and more.
fn saved_plates(random: &mut Random, note: &mut impl FnMut(Outcome) -> Result<(), String>) -> Result<(), String> {
    let run = Run::of(&[vec![1, 4], vec![0, 3]]);
    let saved = lent_run(random, &run, 4);
    for height in [0, 1, 3, 4, 5, 255, 256, 511, 512, 513, 65_536, 65_540, u32::MAX] {
        for set in [0, 1, 6, 1 << 31, u32::MAX] {
            for bound in [0, 1, 65_536, u32::MAX] {
                for room in 0..45 {
                    let out = Lent::random(random, room);
                    note(written(height, set, bound, &saved, &out))?;
                }
            }
        }
    }
    for columns in [0, 1, 65_535, 65_536, 999_999, 1_000_000, 1_000_001, 1_048_576] {
        for column in [vec![], vec![3], vec![2, 3]] {
            let run = Run::of(&vec![column; columns]);
            let saved = lent_run(random, &run, run.stated());
            save(random, note, 3, &saved)?;
        }
    }
    let full = Lent::given(random, &vec![64; 1_000_000]);
    note(sized(&full))
}

/// Every set of the writer's seven refusals that hold together, so that each pair of them is seen in its order.
fn saved_orders(random: &mut Random, note: &mut impl FnMut(Outcome) -> Result<(), String>) -> Result<(), String> {
    for held in 0..1 << 7 {
        let holds = |refusal: u32| held >> refusal & 1 == 1;
        let (height, set) = (if holds(0) { 513 } else { 4 }, if holds(1) { 0 } else { 6 });
        let first = if holds(2) { vec![4, 1] } else { vec![1, 4] };
        let last = if holds(3) { vec![0, 1, 2] } else { vec![0, 1] };
        let mut run = Run::of(&[first, vec![0, 3], last]);
        if holds(4) {
            run.counts.resize(1_000_001, 0);
        }
        let saved = lent_run(random, &run, run.stated() - usize::from(holds(5)));
        let out = Lent::random(random, 22 + 4 * 3 + 2 * run.stated() - usize::from(holds(6)));
        note(written(height, set, 0, &saved, &out))?;
    }
    Ok(())
}

/// A table file read by both, into a table of so many cells.
fn receive(random: &mut Random, file: &[u8], length: usize) -> Outcome {
    let (file, table) = (Lent::given(random, file), Lent::random(random, length));
    received(&file, &table).map(|(answer, _)| answer.number)
}

/// A table written by both, into so many bytes.
fn send(random: &mut Random, cells: &[u32], head: Head, room: usize) -> Outcome {
    let (cells, out) = (Lent::given(random, cells), Lent::random(random, room));
    sent(&cells, head, &out).map(|(reply, _)| reply.number)
}

fn file_of(plate: Plate, table: &Table) -> Vec<u8> {
    make::table_file(plate, table.head, &table.cells)
}

/// Document 01's plate, the outside vectors' file of 62 bytes, the smallest, and one of the thicknesses 1 and 5.
fn sent_tables(random: &mut Random) -> Vec<(Plate, Table)> {
    let [worked, small, smallest, wide] =
        [(4, 6), (1, 2), (1, 1), (3, 1 << 4 | 1)].map(|(height, set)| Plate::new(height, set).expect("allowed"));
    let columns = make::columns(random, wide, 4);
    vec![
        (worked, make::tabulate(worked, &[vec![1, 4], vec![0, 3]])),
        (small, Table { cells: vec![0, 3, 0, 3, 0, 0], head: small.head(3) }),
        (smallest, Table { cells: vec![0], head: smallest.head(1_000_000) }),
        (wide, make::tabulate(wide, &columns)),
    ]
}

/// Each cut at every length and followed by more, into a table that is long enough or not.
fn table_files(random: &mut Random, note: &mut impl FnMut(Outcome) -> Result<(), String>) -> Result<(), String> {
    for (plate, table) in sent_tables(random) {
        let (cells, file) = (plate.cells(), file_of(plate, &table));
        for length in 0..=file.len() {
            for lent in [0, cells - 1, cells, cells + 3] {
                note(receive(random, &file[..length], lent))?;
            }
        }
        let end = &file[file.len() - 6..];
        for more in [&[0][..], &[0; 2], &[0; 3], &[0; 4], &[0, 0, 0, 128], end, &file[14..], &file] {
            for lent in [cells - 1, cells] {
                note(receive(random, &[&file, more].concat(), lent))?;
            }
        }
        for lent in 0..=cells + 20 {
            note(receive(random, &file, lent))?;
        }
    }
    Ok(())
}

/// Each byte of each changed to others, and each two bytes raised or lowered at once.
fn table_file_bytes(random: &mut Random, note: &mut impl FnMut(Outcome) -> Result<(), String>) -> Result<(), String> {
    for (plate, table) in sent_tables(random) {
        let (cells, file) = (plate.cells(), file_of(plate, &table));
        let steps = [1, 2, 4, 8, 16, 32, 64, 128, 255, 254, 253];
        for place in 0..file.len() {
            for step in steps {
                let mut changed = file.clone();
                changed[place] = changed[place].wrapping_add(step);
                note(receive(random, &changed, cells))?;
                note(receive(random, &changed, cells - 1))?;
            }
            for other in 0..place {
                let mut changed = file.clone();
                changed[place] = changed[place].wrapping_add(1);
                changed[other] = changed[other].wrapping_sub(255);
                note(receive(random, &changed, cells))?;
            }
        }
    }
    Ok(())
}

/// Records taken out, set twice, swapped or put at each place, those of other kinds, lengths, starts and numbers of rows among them.
fn table_file_records(random: &mut Random, note: &mut impl FnMut(Outcome) -> Result<(), String>) -> Result<(), String> {
    for (plate, table) in sent_tables(random) {
        let file = file_of(plate, &table);
        let width = plate.tmax as usize;
        let stride = 6 + 4 * width;
        let mut records = vec![file[..14].to_vec()];
        records.extend(file[14..file.len() - 6].chunks(stride).map(<[u8]>::to_vec));
        records.push(file[file.len() - 6..].to_vec());
        for one in 0..records.len() {
            for other in 0..records.len() {
                let mut swapped = records.clone();
                swapped.swap(one, other);
                note(receive(random, &swapped.concat(), plate.cells()))?;
                let mut twice = records.clone();
                twice.insert(other, records[one].clone());
                note(receive(random, &twice.concat(), plate.cells() + width))?;
                let mut without = records.clone();
                without.drain(one.min(other)..=one.max(other));
                note(receive(random, &without.concat(), plate.cells()))?;
            }
        }
        for (place, record) in records.iter().enumerate() {
            for other in others(plate, record) {
                let mut more = records.clone();
                more.insert(place, other);
                note(receive(random, &more.concat(), plate.cells() + width))?;
                more.remove(place + 1);
                note(receive(random, &more.concat(), plate.cells()))?;
            }
        }
    }
    Ok(())
}

/// What might stand in a record's place: its body under another kind or of another length, rows of every start near the table's, ends of every
/// number of rows near its own, openings of settings and counts on both sides of their limits.
fn others(plate: Plate, record: &[u8]) -> Vec<Vec<u8>> {
    let mut others = Vec::new();
    let mut put = |write: &dyn Fn(&mut Vec<u8>)| {
        let mut record = Vec::new();
        write(&mut record);
        others.push(record);
    };
    for kind in (0..=20).chain([255, 272, 273, 274, 0x1000, 0x1100, 0x1200, 32_767, 32_768, 32_785, 65_535]) {
        put(&|file| make::record(file, kind, &record[4..]));
    }
    for length in (0..=40).chain([254, 255, 256, 258, 266, 300]) {
        let mut body = record[4..].to_vec();
        body.resize(length, 0);
        put(&|file| make::record(file, u16::from_le_bytes([record[2], record[3]]), &body));
    }
    let (zeros, over) = (vec![0; plate.tmax as usize], vec![u32::MAX; plate.tmax as usize]);
    for start in (plate.lowest() - 3..=plate.last_start() + 3).chain([254, 255, 256, 32_767, -32_768, -255, -256]) {
        put(&|file| make::row_record(file, start, &zeros));
        put(&|file| make::row_record(file, start, &over));
    }
    for rows in (0..=plate.rows() + 3).chain([plate.rows() + 256, 256, 65_535]) {
        put(&|file| make::rows_record(file, rows));
    }
    for height in [0, 1, 2, plate.height as u32, 512, 513, 256, 65_535] {
        for set in [0, plate.set, 1, 2, u32::MAX, 1 << 31] {
            for columns in [0, 1, 2, 3, 999_999, 1_000_000, 1_000_001, 1 << 24, u32::MAX] {
                put(&|file| make::opening_record(file, Head { height, set, columns }));
            }
        }
    }
    others
}

/// Each row's start of high plates changed in its low byte, in its high one and in its sign.
fn table_file_starts(random: &mut Random, note: &mut impl FnMut(Outcome) -> Result<(), String>) -> Result<(), String> {
    for (height, set) in [(512, 1), (300, 4)] {
        let plate = Plate::new(height, set).expect("allowed");
        let file = make::table_file(plate, plate.head(1), &vec![0; plate.cells()]);
        let stride = 6 + 4 * plate.tmax as usize;
        for place in (0..plate.rows() as usize).map(|row| 14 + row * stride + 4) {
            let start = i16::from_le_bytes([file[place], file[place + 1]]);
            let others = [start + 1, start - 1, start + 256, start - 256, start ^ i16::MIN, -start, start & 255];
            for other in others {
                let mut changed = file.clone();
                changed[place..place + 2].copy_from_slice(&other.to_le_bytes());
                note(receive(random, &changed, plate.cells()))?;
            }
        }
    }
    Ok(())
}

/// The limits of height and set sent, the largest file among them, into outputs of about its length and back; all cells 0, or at their limits.
fn sent_plates(random: &mut Random, note: &mut impl FnMut(Outcome) -> Result<(), String>) -> Result<(), String> {
    for height in [1, 2, 255, 256, 512] {
        for set in [1, 3, 6, 0x8000, 1 << 31, u32::MAX] {
            let plate = Plate::new(height, set).expect("allowed");
            for columns in [0, 1, 256, 1_000_000] {
                let zeros = vec![0; plate.cells()];
                let greatest: Vec<u32> = (0..plate.cells()).map(|cell| plate.limit(cell, columns)).collect();
                for cells in [zeros, greatest] {
                    let cells = Lent::given(random, &cells);
                    note(read_as_it_was(random, plate, &cells, plate.head(columns)).map(|_| 0))?;
                }
            }
            let zeros = vec![0; plate.cells()];
            for room in [0, plate.file_bytes() - 1, plate.file_bytes() + 1, plate.file_bytes() + 40] {
                note(send(random, &zeros, plate.head(7), room))?;
            }
            for length in [0, plate.cells() - 1, plate.cells() + 1] {
                let lent = Lent::new(random, &zeros, length);
                let out = Lent::random(random, plate.file_bytes());
                note(sent(&lent, plate.head(7), &out).map(|(reply, _)| reply.number))?;
            }
        }
    }
    for height in [0, 1, 4, 512, 513, 65_536, 65_540, u32::MAX] {
        for set in [0, 1, 6] {
            for columns in [0, 1_000_000, 1_000_001, u32::MAX] {
                note(send(random, &[0; 2_000], Head { height, set, columns }, 20_000))?;
            }
        }
    }
    Ok(())
}

/// Each cell at its limit, above it, at the thickness times the count, and above that: in a table to be written and in a file.
fn sent_cells(random: &mut Random, note: &mut impl FnMut(Outcome) -> Result<(), String>) -> Result<(), String> {
    for (height, set) in [(1, 1), (4, 6), (2, 0b1_0110), (9, 0x8001)] {
        let plate = Plate::new(height, set).expect("allowed");
        for columns in [0, 1, 3, 1_000_000] {
            let good = Table { cells: vec![0; plate.cells()], head: plate.head(columns) };
            for cell in 0..plate.cells() {
                let (_, thickness) = plate.layer(cell);
                let (limit, whole) = (plate.limit(cell, columns), columns * thickness as u32);
                for value in [1, limit, limit + 1, whole, whole + 1, 1 << 31, u32::MAX] {
                    let mut table = good.clone();
                    table.cells[cell] = value;
                    note(send(random, &table.cells, table.head, plate.file_bytes()))?;
                    note(receive(random, &file_of(plate, &table), plate.cells()))?;
                    table.cells[plate.cells() - 1] = u32::MAX;
                    note(send(random, &table.cells, table.head, plate.file_bytes()))?;
                    note(receive(random, &file_of(plate, &table), plate.cells()))?;
                }
            }
        }
    }
    Ok(())
}

/// Every set of the writer's six refusals that hold together, so that each pair of them is seen in its order; and so for a file whose faults are
/// in its opening, in a row's start and in its cells, in a later row, in its end, behind it, and in the table lent.
fn sent_orders(random: &mut Random, note: &mut impl FnMut(Outcome) -> Result<(), String>) -> Result<(), String> {
    let plate = Plate::new(4, 6).expect("allowed");
    let put = |holds: bool, wrong: u32, right: u32| if holds { wrong } else { right };
    for held in 0..1 << 6 {
        let holds = |refusal: u32| held >> refusal & 1 == 1;
        let head =
            Head { height: put(holds(0), 513, 4), set: put(holds(1), 0, 6), columns: put(holds(2), 1_000_001, 2) };
        let cells: Vec<u32> = (0..24).map(|cell| put(holds(3) && cell > 10, 9, 0)).collect();
        let out = plate.file_bytes() - usize::from(holds(5));
        note(send(random, &cells[usize::from(holds(4))..], head, out))?;
    }
    for held in 0..1 << 9 {
        let holds = |fault: u32| held >> fault & 1 == 1;
        let head =
            Head { height: put(holds(0), 513, 4), set: put(holds(1), 0, 6), columns: put(holds(2), 1_000_001, 2) };
        let mut file = Vec::new();
        make::opening_record(&mut file, head);
        for row in 0..8 {
            let start = row - 2 + i64::from(row == 3 && holds(3));
            let over = row == 3 && holds(4) || row == 5 && holds(5);
            make::row_record(&mut file, start, &[0, put(over, 3, 1), 0]);
        }
        make::rows_record(&mut file, 8 - i64::from(holds(6)));
        file.extend(vec![0; usize::from(holds(7))]);
        note(receive(random, &file, 24 - usize::from(holds(8))))?;
    }
    Ok(())
}
