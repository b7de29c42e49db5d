// Document 01's own cases by the plain implementation, with 02's b): the worked plate, P1 to P13, and the limits on both sides; columns cell by
// cell; its plate as a table file, and its orders. Then the outside vectors of b), c) and e), by the quick one too where it has the call.

use bench::brute;
use bench::plain::*;
use bench::quick::{self, Reach};
use std::fmt::Debug;
use std::fs;
use std::str::FromStr;

const ANY: u32 = u32::MAX;

fn refused<T>(number: u32, place: u64) -> Answer<T> {
    Err(Refusal { number, place })
}

/// What goes with a table of so many columns.
fn head_of(height: u32, set: u32, columns: usize) -> Head {
    Head { height, set, columns: columns as u32 }
}

fn table_of(height: u32, set: u32, columns: &[&[u16]]) -> Vec<u32> {
    let mut table = vec![7; cells(height, set).unwrap() as usize];
    let mut head = clear_table(&mut table, height, set).unwrap();
    for column in columns {
        head = add_column(&mut table, head, column).unwrap();
    }
    assert_eq!(head, head_of(height, set, columns.len()));
    table
}

/// The error and the boundaries of a count.
fn chosen(height: u32, set: u32, columns: &[&[u16]], bound: u32, count: u32) -> Answer<(u64, Vec<i32>)> {
    let (table, head) = (table_of(height, set, columns), head_of(height, set, columns.len()));
    let entries = entries(height, set)? as usize;
    let (mut errors, mut thicknesses) = (vec![5; entries], vec![5; entries]);
    let mut list = vec![5; counts(height, set)? as usize];
    let sheets = Sheets { errors: &mut errors, thicknesses: &mut thicknesses, list: &mut list };
    plan(&table, head, bound, sheets)?;
    let mut out = vec![0; count as usize + 1];
    let sheets = Filled { errors: &errors, thicknesses: &thicknesses };
    let error = read_back(height, set, sheets, count, &mut out)?;
    assert_eq!(list[count as usize - 1], error);
    assert_eq!(recount(&table, head, bound, &out), Ok(error));
    Ok((error, out))
}

const A: &[u16] = &[1, 4];
const B: &[u16] = &[0, 3];

#[test]
fn worked_plate() {
    assert_eq!((cells(4, 6), entries(4, 6), counts(4, 6)), (Ok(24), Ok(36), Ok(3)));
    assert_eq!(chosen(4, 6, &[A, B], ANY, 1), refused(11, 0));
    assert_eq!(chosen(4, 6, &[A, B], ANY, 2), Ok((2, vec![0, 2, 4])));
    assert_eq!(chosen(4, 6, &[A, B], ANY, 3), Ok((2, vec![-1, 1, 3, 5])));
}

/// Layers with nothing on them, as the plate in document 01 had them before.
#[test]
fn layers_with_nothing_on_them() {
    let table = table_of(4, 6, &[A, B]);
    let recounted = |sequence: &[i32]| recount(&table, head_of(4, 6, 2), ANY, sequence);
    assert_eq!(recounted(&[-1, 1, 3, 5]), Ok(2));
    assert_eq!(recounted(&[-2, 0, 2, 4]), refused(13, 1));
    assert_eq!(recounted(&[0, 2, 4, 6]), refused(13, 3));
    assert_eq!(recounted(&[-2, 0, 2, 4, 6]), refused(13, 1));
    assert_eq!(recounted(&[-2, 0, 1]), refused(13, 1));
    assert_eq!(recounted(&[0, 2, 4, 5]), refused(13, 3));
}

/// The last boundary but one is judged at n, also where a layer before n starts at N or above.
#[test]
fn the_upper_rule_is_told_at_the_last_layer() {
    let table = table_of(4, 18, &[A]);
    let recounted = |sequence: &[i32]| recount(&table, head_of(4, 18, 1), ANY, sequence);
    assert_eq!(recounted(&[0, 2, 4, 6, 8]), refused(13, 4));
    assert_eq!(recounted(&[0, 2, 4, 6, 7]), refused(13, 4));
    assert_eq!(recounted(&[0, 2, 4, 6, 7, 8]), refused(13, 4));
    assert_eq!(recounted(&[-2, 0, 2, 4, 6, 8]), refused(13, 1));
    assert_eq!(recounted(&[-1, 1, 3, 8]), Ok(1));
}

/// Sheets of a plate of height 4 that name one thickness for every layer, and the lowest end.
fn straight(set: u32, end: i64, thickness: u8) -> (Vec<u64>, Vec<u8>) {
    let plate = Plate::new(4, set).unwrap();
    let mut errors = vec![9; plate.entries()];
    errors[plate.entry(end, 0)..plate.entry(end + 1, 0)].fill(5);
    (errors, vec![thickness; plate.entries()])
}

/// The first fault met on the way down decides; one of the two rules is met at layer n or 1 alone.
#[test]
fn sheets_with_nothing_on_a_layer() {
    let read = |set, end, thickness, count: u32| {
        let (errors, thicknesses) = straight(set, end, thickness);
        let sheets = Filled { errors: &errors, thicknesses: &thicknesses };
        let mut out = vec![7; count as usize + 1];
        read_back(4, set, sheets, count, &mut out).map(|error| (error, out))
    };
    assert_eq!(read(19, 4, 1, 4), Ok((5, vec![0, 1, 2, 3, 4])));
    assert_eq!(read(19, 4, 1, 3), refused(12, 0));
    assert_eq!(read(19, 5, 1, 4), refused(12, 4));
    assert_eq!(read(19, 8, 1, 1), refused(12, 1));
    assert_eq!(read(19, 4, 2, 3), refused(12, 1));
    assert_eq!(read(19, 4, 2, 4), refused(12, 1));
    assert_eq!(read(19, 5, 2, 4), refused(12, 1));
    assert_eq!(read(19, 6, 2, 4), refused(12, 4));
    assert_eq!(read(19, 4, 5, 2), refused(12, 1));
    assert_eq!(read(19, 4, 5, 3), refused(12, 2));
    assert_eq!(read(19, 4, 3, 4), refused(12, 4));
}

#[test]
fn marked_p() {
    let plate = Plate::new(4, 6).unwrap();
    let table = table_of(4, 6, &[A, B]);
    assert_eq!(table[plate.cell(0, 2)], 1);
    assert_eq!(table[plate.cell(-1, 3)], 2);
    assert_eq!(table[plate.cell(1, 2)], 0);
    let unfilled = |share, difference| Ok(Picture { filled: false, share, difference });
    assert_eq!(picture(4, 6, A, 0, 2), unfilled(1, 0));
    assert_eq!(picture(4, 6, &[1, 2], 0, 3), unfilled(1, -1));
    assert_eq!(picture(4, 6, &[], 0, 3), unfilled(0, -3));
    assert_eq!(chosen(4, 6, &[A], ANY, 2), Ok((0, vec![-1, 1, 4])));
    assert_eq!(chosen(4, 6, &[B], ANY, 2), Ok((0, vec![0, 3, 5])));
    assert_eq!(chosen(4, 6, &[A, B], 0, 2), refused(11, 0));
    assert_eq!(chosen(4, 6, &[A, B], 1, 2), Ok((2, vec![0, 2, 4])));
    assert_eq!(motor_height(15, -1), Ok(-1.875));
}

/// By the plain adder and the quick ones, which leave what they refuse as it was.
fn added(table: &[u32], head: Head, column: &[u16]) -> Answer<(Head, Vec<u32>)> {
    let [plain, by_algorithm_1, carrying] = [add_column, quick::add_by_algorithm_1, quick::add_carrying].map(|add| {
        let mut cells = table.to_vec();
        let answer = add(&mut cells, head, column);
        assert!(answer.is_ok() || cells == table);
        answer.map(|head| (head, cells))
    });
    assert_eq!(plain, by_algorithm_1);
    assert_eq!(plain, carrying);
    plain
}

/// The cells of a column alone on a plate of height 4, row by row from the start −2, thicknesses 1 to 3.
#[test]
fn columns_cell_by_cell() {
    let alone = |set: u32, column: &[u16]| added(&[0; 24], head_of(4, set, 0), column).map(|(_, cells)| cells);
    let rows = |rows: [[u32; 3]; 8]| Ok(rows.concat());
    let none = [0, 0, 0];
    assert_eq!(alone(6, A), rows([none, [0, 0, 1], [0, 1, 1], none, [0, 0, 1], [0, 1, 1], none, none]));
    assert_eq!(alone(6, &[0, 4]), rows([[0, 0, 1], [0, 1, 1], none, none, [0, 0, 1], [0, 1, 1], none, none]));
    assert_eq!(alone(6, &[1, 2]), rows([none, [0, 0, 1], [0, 1, 1], [0, 1, 1], none, none, none, none]));
    assert_eq!(alone(4, &[1, 2]), rows([none, [0, 0, 1], [0, 0, 1], [0, 0, 1], none, none, none, none]));
    assert_eq!(alone(6, &[]), rows([none; 8]));
    assert_eq!(table_of(4, 6, &[A, B]), [0, 0, 1, 0, 1, 2, 0, 1, 1, 0, 0, 1, 0, 1, 2, 0, 1, 1, 0, 0, 0, 0, 0, 0]);
}

/// N = 1 and T {32}: the one voxel is alone in each layer that holds it, those from the starts −31 to 0.
#[test]
fn thickness_32_alone() {
    let set = 1 << 31;
    let expected: Vec<u32> = (0..63 * 32).map(|cell| u32::from(cell % 32 == 31 && cell / 32 <= 31)).collect();
    assert_eq!(added(&[0; 63 * 32], head_of(1, set, 0), &[0, 1]), Ok((head_of(1, set, 1), expected)));
}

/// T {1} has no layer with a boundary strictly within, so that a column is only counted; and so is one without boundaries.
#[test]
fn columns_that_add_nothing() {
    let anything = [ANY; 24];
    let counted = |set| Ok((head_of(4, set, 1), anything.to_vec()));
    assert_eq!(added(&anything, head_of(4, 1, 0), A), counted(1));
    assert_eq!(added(&anything, head_of(4, 1, 0), &[0, 1, 2, 3]), counted(1));
    assert_eq!(added(&anything, head_of(4, 6, 0), &[]), counted(6));
}

/// Column A changes these cells of a plate of height 4 with T {2, 3}, see above; of others 6 is not asked.
#[test]
fn cells_that_6_is_asked_of() {
    let changed = [5, 7, 8, 14, 16, 17];
    let with = |set: &[usize]| {
        let mut table = [0; 24];
        set.iter().for_each(|&cell| table[cell] = 1);
        added(&table, head_of(4, 6, 0), A)
    };
    for one in changed {
        for other in changed {
            assert_eq!(with(&[one, other]), refused(6, one.min(other) as u64));
        }
    }
    let mut table = [ANY; 24];
    changed.iter().for_each(|&cell| table[cell] = 0);
    let mut expected = table;
    changed.iter().for_each(|&cell| expected[cell] = 1);
    assert_eq!(added(&table, head_of(4, 6, 0), A), Ok((head_of(4, 6, 1), expected.to_vec())));
}

#[test]
fn limits_on_both_sides() {
    let counts_of = |height| counts(height, 1);
    assert_eq!((counts_of(0), counts_of(1)), (refused(1, 0), Ok(1)));
    assert_eq!((counts_of(2), counts(2, 1 << 31)), (Ok(2), Ok(2)));
    assert_eq!((counts_of(512), counts_of(513)), (Ok(512), refused(1, 0)));
    assert_eq!((counts(1, ANY), counts(512, ANY)), (Ok(1), Ok(512)));
    assert_eq!(entries(512, ANY), Ok(294_975));
    assert_eq!(counts(0, 0), refused(1, 0));
    assert_eq!(counts(1, 0), refused(2, 0));
    let picture_of = |column: &[u16]| picture(100, 4, column, 0, 3).err();
    let rising: Vec<u16> = (0..66).collect();
    assert_eq!(picture_of(&rising[..64]), None);
    assert_eq!(picture_of(&rising[..65]), Some(Refusal { number: 4, place: 65 }));
    assert_eq!(picture_of(&rising), Some(Refusal { number: 4, place: 66 }));
    assert_eq!(picture_of(&[99, 100]), None);
    assert_eq!(picture_of(&[99, 101]), Some(Refusal { number: 5, place: 1 }));
    assert_eq!(chosen(4, 6, &[A], ANY, 0), refused(10, 0));
    assert_eq!(chosen(4, 6, &[A], ANY, 3), Ok((1, vec![-1, 1, 3, 5])));
    assert_eq!(chosen(4, 6, &[A], ANY, 4), refused(10, 0));
    assert_eq!(motor_height(8192, 543), Ok(556_032.0));
    assert_eq!(motor_height(8193, 543), refused(14, 0));
    assert_eq!(motor_height(0, 600), refused(14, 0));
    assert_eq!(motor_height(1, 544), refused(15, 0));
    assert_eq!(motor_height(1, -32), refused(15, 0));
    let mut table = table_of(4, 6, &[]);
    assert_eq!(add_column(&mut table, head_of(4, 6, 999_999), A), Ok(head_of(4, 6, 1_000_000)));
    assert_eq!(add_column(&mut table, head_of(4, 6, 1_000_000), &[1]), refused(7, 0));
}

#[test]
fn motor_heights_are_exact_eighths() {
    for step in 1..=8192 {
        for boundary in -31..=543 {
            let height = motor_height(step, boundary).unwrap();
            assert_eq!(f64::from(height) * 8.0, f64::from(boundary) * f64::from(step));
            assert_eq!(height.is_sign_negative(), boundary < 0);
        }
    }
}

const FILE: [u8; 48] = [
    0x0A, 0, 1, 0, 4, 0, 6, 0, 0, 0, 0xFF, 0xFF, 0xFF, 0xFF, // settings
    4, 0, 2, 0, 1, 0, 4, 0, 4, 0, 2, 0, 0, 0, 3, 0, // columns A and B
    4, 0, 3, 0, 2, 0, 0, 0, 0, 0, 0, 0, 0, 0, 0, 0, 0, 0, // end, and ten bytes more
];

#[test]
fn worked_file() {
    let file = &FILE[..38];
    let mut table = vec![9; 26];
    let loaded = Loaded { head: head_of(4, 6, 2), bound: ANY };
    assert_eq!(read_job(file, 36, &mut table), Ok(loaded));
    assert_eq!(table[..24], table_of(4, 6, &[A, B]));
    assert_eq!(table[24..], [9, 9]);
    assert_eq!(read_job(file, 35, &mut table), refused(17, 0));
    assert_eq!(read_job(file, 36, &mut table[..23]), refused(3, 1));
    assert_eq!(read_job(&FILE, 36, &mut table), refused(21, 38));
    assert_eq!(read_job(&file[..30], 36, &mut table), refused(16, 30));
    assert_eq!(read_job(&file[..29], 36, &mut table), refused(16, 22));
    assert_eq!(read_job(&[], 36, &mut table), refused(16, 0));
}

/// The cases of document 02 f)'s issue: the worked file cut off, with one byte changed, and with bytes after it.
#[test]
fn worked_file_broken() {
    let file = &FILE[..38];
    let read = |file: &[u8]| read_job(file, 36, &mut [9; 24]).map(|loaded| loaded.head.columns);
    let changed = |place: usize, byte: u8| {
        let mut file = file.to_vec();
        file[place] = byte;
        read(&file)
    };
    for (length, place) in [(37, 30), (33, 30), (31, 30), (30, 30), (3, 0), (0, 0)] {
        assert_eq!(read(&file[..length]), refused(16, place), "{length}");
    }
    assert_eq!([changed(2, 2), changed(2, 6)], [refused(19, 0); 2]);
    assert_eq!([changed(16, 1), changed(16, 9)], [refused(19, 14); 2]);
    assert_eq!((changed(0, 0x0B), changed(30, 5)), (refused(20, 0), refused(20, 30)));
    assert_eq!((changed(14, 3), changed(14, 0xFE)), (refused(20, 14), refused(16, 14)));
    assert_eq!((changed(34, 3), changed(34, 2)), (refused(21, 30), Ok(2)));
    for after in [&[0][..], &[0, 0], &[0, 0, 6], &[0, 0, 0, 0x80], &[0, 0, 6, 0], &[4, 0, 6, 0, 0], &file[30..]] {
        assert_eq!(read(&[file, after].concat()), refused(21, 38), "{after:?}");
    }
    assert_eq!(read(&[12, 0, 1, 0, 4, 0, 6, 0]), refused(20, 0));
    assert_eq!(read(&[10, 0, 1, 0, 4, 0, 6, 0]), refused(16, 0));
    assert_eq!(read(&[10, 0, 6, 0, 4, 0, 6, 0]), refused(19, 0));
}

#[test]
fn worked_file_saved() {
    let columns = |boundaries: &'static [u16], counts: &'static [u16]| Columns { boundaries, counts };
    let plate = columns(&[1, 4, 0, 3], &[2, 2]);
    let mut out = [9; 40];
    assert_eq!(job_size(&[2, 2]), Ok(38));
    assert_eq!(write_job(4, 6, ANY, plate, &mut out[..37]), refused(3, 2));
    assert_eq!(out, [9; 40]);
    assert_eq!(write_job(4, 6, ANY, plate, &mut out), Ok(38));
    assert_eq!((&out[..38], &out[38..]), (&FILE[..38], &[9, 9][..]));
    let mut saved = |columns| write_job(4, 6, ANY, columns, &mut out);
    assert_eq!(saved(columns(&[1, 4, 0, 3, 9, 9], &[2, 2])), Ok(38));
    assert_eq!(saved(columns(&[], &[])), Ok(22));
    assert_eq!(saved(columns(&[1, 4, 0], &[2, 2])), refused(3, 1));
    assert_eq!(saved(columns(&[4, 1, 0], &[2, 3])), refused(4, 1));
    assert_eq!(saved(columns(&[1, 4, 0, 5], &[2, 2])), refused(5, 1));
    assert_eq!(job_size(&[64; 1_000_000]), Ok(132_000_022));
    assert_eq!(job_size(&[66]), refused(4, 0));
    assert_eq!(job_size(&[65; 1_000_001]), refused(7, 0));
}

/// Document 01's plate as a table file, row by row.
fn table_file() -> Vec<u8> {
    let rows = [[0, 0, 1], [0, 1, 2], [0, 1, 1], [0, 0, 1], [0, 1, 2], [0, 1, 1], [0, 0, 0], [0, 0, 0]];
    let mut file = vec![0x0A, 0, 0x10, 0, 4, 0, 6, 0, 0, 0, 2, 0, 0, 0];
    for (start, [one, two, three]) in (-2..).zip(rows) {
        let [low, high] = if start < 0 { [(256 + start) as u8, 0xFF] } else { [start as u8, 0] };
        file.extend([0x0E, 0, 0x11, 0, low, high, one, 0, 0, 0, two, 0, 0, 0, three, 0, 0, 0]);
    }
    file.extend([2, 0, 0x12, 0, 8, 0]);
    file
}

/// By the plain reader and the quick one, which leave what they refuse as it was.
fn received(file: &[u8], length: usize) -> Answer<(Head, Vec<u32>)> {
    let [plain, quick] = [read_table, quick::read_table].map(|read| {
        let mut table = vec![9; length];
        let answer = read(file, &mut table);
        assert!(answer.is_ok() || table == vec![9; length]);
        answer.map(|head| (head, table))
    });
    assert_eq!(plain, quick);
    plain
}

/// By the plain writer and the quick one.
fn sent(table: &[u32], head: Head, room: usize) -> Answer<Vec<u8>> {
    let [plain, quick] = [write_table, quick::write_table].map(|write| {
        let mut out = vec![9; room];
        let answer = write(table, head, &mut out);
        let kept = answer.map_or(0, |size| size as usize);
        assert!(out[kept..].iter().all(|&byte| byte == 9));
        answer.map(|_| out[..kept].to_vec())
    });
    assert_eq!(plain, quick);
    plain
}

#[test]
fn worked_table_sent() {
    let (table, head, file) = (table_of(4, 6, &[A, B]), head_of(4, 6, 2), table_file());
    assert_eq!(file.len(), 164);
    assert_eq!(sent(&table, head, 164), Ok(file.clone()));
    assert_eq!(sent(&[&table[..], &[ANY]].concat(), head, 170), Ok(file.clone()));
    assert_eq!(sent(&table, head, 163), refused(3, 2));
    assert_eq!(sent(&table[..23], head, 163), refused(3, 1));
    assert_eq!(sent(&table, Head { columns: 0, ..head }, 0), refused(6, 2));
    assert_eq!(received(&file, 24), Ok((head, table.clone())));
    assert_eq!(received(&file, 26), Ok((head, [&table[..], &[9, 9]].concat())));
    assert_eq!(received(&file, 23), refused(3, 1));
    let (smallest, largest) = (sent(&[0], head_of(1, 1, 0), 30), sent(&[0; 18_368], head_of(512, ANY, 0), 76_936));
    assert_eq!((smallest.map(|file| file.len()), largest.map(|file| file.len())), (Ok(30), Ok(76_936)));
}

/// The cases: each changes the worked file at a place, and is read with enough cells lent and with one too few.
#[test]
fn worked_table_damaged() {
    let file = table_file();
    let changed = |place: usize, bytes: &[u8]| {
        let mut file = file.clone();
        file.splice(place..place + bytes.len(), bytes.iter().copied());
        let answers = [23, 24].map(|length| received(&file, length).map(|(head, _)| head.columns));
        if answers[1].is_err() {
            assert_eq!(answers[0], answers[1]);
        } else {
            assert_eq!(answers[0], refused(3, 1));
        }
        answers[1]
    };
    assert_eq!((changed(28, &[2]), changed(28, &[3])), (Ok(2), refused(6, 14)));
    assert_eq!((changed(24, &[2]), changed(24, &[3])), (Ok(2), refused(6, 14)));
    assert_eq!((changed(20, &[0]), changed(20, &[1])), (Ok(2), refused(6, 14)));
    assert_eq!(changed(18, &[0xFD]), refused(21, 14));
    assert_eq!(changed(158, &[2, 0, 18, 0, 7]), refused(21, 158));
    assert_eq!(changed(14, &[0, 0, 0, 0x80]), refused(19, 14));
    assert_eq!(changed(14, &[2, 0, 18, 0, 8, 0]), refused(19, 14));
    assert_eq!(changed(10, &1_000_000_u32.to_le_bytes()), Ok(1_000_000));
    assert_eq!(changed(10, &1_000_001_u32.to_le_bytes()), refused(7, 0));
    assert_eq!(changed(32, &[13]), refused(20, 32));
    for (length, place) in [(163, 158), (158, 158), (160, 158), (157, 140), (14, 14), (13, 0), (0, 0)] {
        assert_eq!(received(&file[..length], 24), refused(16, place), "{length}");
    }
    for after in [&[0][..], &[0, 0], &[0, 0, 20], &[0, 0, 20, 0], &[9, 0, 20, 0], &file[158..]] {
        assert_eq!(received(&[&file[..], after].concat(), 24), refused(21, 164), "{after:?}");
    }
}

/// Cells that no columns give: a start at −2 with 5 for thickness 2, and 0 everywhere else.
#[test]
fn tables_of_no_columns_are_sent() {
    let plate = Plate::new(4, 6).unwrap();
    let mut table = vec![0; 24];
    table[plate.cell(-2, 2)] = 5;
    let file = sent(&table, head_of(4, 6, 5), 164).unwrap();
    assert_eq!(received(&file, 24), Ok((head_of(4, 6, 5), table)));
}

// ---- Orders ----

const LIST: &[u16] = &[0, 128, 160];

/// The worked plate, with another step or cure list.
fn printing(step: u32, cure: &[u16]) -> Printing<'_> {
    Printing { height: 4, set: 6, step, cure }
}

/// An order's kind, its float's bits and its layers.
fn shown(order: Order) -> (u32, u32, u32) {
    match order {
        Order::Lift(micrometres) => (48, micrometres.to_bits(), 0),
        Order::Cure(seconds) => (49, seconds.to_bits(), 0),
        Order::Finish(layers) => (50, 0, layers),
    }
}

/// By the plain reader and the quick one.
fn ordered(printing: Printing, file: &[u8], number: u32) -> Answer<(u32, u32, u32)> {
    let [plain, quick] = [read_order, quick::read_order].map(|read| read(printing, file, number).map(shown));
    assert_eq!(plain, quick);
    plain
}

/// By the plain writer and the quick one, which leave what they refuse, and what is past the file, as it was.
fn orders(printing: Printing, sequence: &[i32], room: usize) -> Answer<Vec<u8>> {
    let [plain, quick] = [write_orders, quick::write_orders].map(|write| {
        let mut out = vec![9; room];
        let answer = write(printing, sequence, &mut out);
        let kept = answer.map_or(0, |size| size as usize);
        assert!(out[kept..].iter().all(|&byte| byte == 9));
        answer.map(|_| out[..kept].to_vec())
    });
    assert_eq!(plain, quick);
    plain
}

/// Of lifts to so many units, each by the difference from the one before; the finish tells their number.
fn lifted(printing: Printing, units: &[i64]) -> Vec<u8> {
    brute::order_file(printing.step, printing.cure, &[&[0], units].concat())
}

#[test]
fn worked_orders_written() {
    let plate = printing(15, LIST);
    let file = bytes("04003000000070400400310000000040040030000000F0400400310000000040020032000200");
    assert_eq!(orders(plate, &[0, 2, 4], 38), Ok(file.clone()));
    assert_eq!(orders(plate, &[0, 2, 4], 45), Ok(file.clone()));
    assert_eq!(orders(plate, &[0, 2, 4], 37), refused(3, 2));
    let higher = orders(plate, &[-1, 1, 4], 38).unwrap();
    assert_eq!(higher[16..32], bytes("04003000000016410400310000002040"));
    let three = orders(plate, &[-1, 1, 3, 5], 54).unwrap();
    assert_eq!((three.len(), &three[36..40]), (54, &bytes("00003441")[..]));
    let uncured = printing(15, &[0, 0, 160]);
    assert_eq!(orders(uncured, &[0, 2, 4], 0), refused(18, 1));
    assert_eq!(orders(uncured, &[-1, 2, 4], 0), refused(18, 2));
    assert_eq!(orders(printing(15, &[0, 128]), &[], 0), refused(3, 1));
    assert_eq!(orders(printing(0, &[]), &[], 0), refused(14, 0));
    assert_eq!(orders(printing(8_193, LIST), &[0, 2, 4], 38), refused(14, 0));
    assert!(orders(printing(8_192, LIST), &[0, 2, 4], 38).is_ok());
    assert_eq!(orders(plate, &[0, 2, 4, 6], 60), refused(13, 3));
    assert_eq!(orders(plate, &[-2, 0, 2, 4], 60), refused(13, 1));
    let lower = Printing { height: 3, ..plate };
    assert_eq!(orders(lower, &[0, 2, 4], 38), orders(lower, &[-1, 1, 3], 38));
}

#[test]
fn highest_orders() {
    let cure = [&[1; 31][..], &[65_535]].concat();
    let sequence: Vec<i32> = (0..17).map(|k| -31 + 32 * k).chain([511, 543]).collect();
    assert_eq!(sequence.len(), 19);
    for (step, last) in [(15, "00888644"), (8_192, "00800F49")] {
        let high = Printing { height: 512, set: ANY, step, cure: &cure };
        let file = orders(high, &sequence, 16 * 18 + 6).unwrap();
        assert_eq!(file[16 * 17 + 4..16 * 17 + 8], bytes(last));
        assert_eq!(file[12..16], bytes("00FF7F44"));
        assert_eq!(file[16 * 16 + 12..16 * 16 + 16], bytes("0000803C"));
        assert_eq!(ordered(high, &file, 36), Ok((50, 0, 18)));
    }
}

#[test]
fn worked_orders_read() {
    let plate = printing(15, LIST);
    let file = orders(plate, &[0, 2, 4], 38).unwrap();
    assert_eq!(ordered(plate, &file, 0), Ok((48, 3.75_f32.to_bits(), 0)));
    assert_eq!(ordered(plate, &file, 1), Ok((49, 2.0_f32.to_bits(), 0)));
    for number in [4, 5, ANY] {
        assert_eq!(ordered(plate, &file, number), Ok((50, 0, 2)));
    }
    let refused_at = |printing: Printing, file: &[u8], number: u32, place: u64| {
        for order in [0, 3, ANY] {
            assert_eq!(ordered(printing, file, order), refused(number, place));
        }
    };
    refused_at(plate, &lifted(plate, &[2, 4, 6, 8]), 21, 48);
    refused_at(plate, &lifted(plate, &[2, 5, 7]), 21, 32);
    refused_at(plate, &lifted(plate, &[2]), 21, 16);
    refused_at(plate, &[2, 0, 50, 0, 0, 0], 19, 0);
    for first in ["00007140", "000070C0", "0000C07F", "00000080"] {
        refused_at(plate, &[&file[..4], &bytes(first), &file[8..]].concat(), 21, 0);
    }
    refused_at(plate, &[&[5], &file[1..]].concat(), 20, 0);
    refused_at(plate, &[&[5], &file[1..8]].concat(), 20, 0);
    refused_at(plate, &file[..37], 16, 32);
    for after in [&[0][..], &[0, 0], &[0, 0, 51], &[0, 0, 51, 0], &[9, 0, 51, 0], &file[32..]] {
        refused_at(plate, &[&file[..], after].concat(), 21, 38);
    }
    refused_at(printing(15, &[0, 0, 160]), &file, 21, 0);
    for (nothing, number) in [(&file[..], 21), (&[], 16), (&[0; 100], 19)] {
        refused_at(printing(15, &[9, 0, 0]), nothing, number, 0);
    }
    assert_eq!(ordered(printing(15, &[0, 128]), &[], 0), refused(3, 1));
    assert_eq!(ordered(printing(0, &[0, 128]), &[], 0), refused(14, 0));
}

/// How a column leans: document 02's g), its issue's cases.
#[test]
fn worked_pictures() {
    let thickest = 1 << 31;
    let cases: [(u32, u32, &[u16], i32, u32, bool, u32, i32); 13] = [
        (4, 6, A, 0, 2, false, 1, 0),
        (4, 6, &[1, 2], 0, 3, false, 1, -1),
        (4, 6, A, -1, 3, false, 1, -1),
        (4, 6, A, 1, 3, true, 0, 3),
        (4, 6, A, 2, 3, true, 1, 1),
        (4, 6, A, 4, 2, false, 0, -2),
        (4, 6, &[], 0, 3, false, 0, -3),
        (32, thickest, &[0, 32], 0, 32, true, 0, 32),
        (32, thickest, &[0, 32], 16, 32, false, 16, 0),
        (32, thickest, &[0, 32], 15, 32, true, 15, 2),
        (32, thickest, &[0, 32], -31, 32, false, 1, -30),
        (512, thickest, &[0, 512], -31, 32, false, 1, -30),
        (512, thickest, &[0, 512], 542, 32, false, 0, -32),
    ];
    for (height, set, column, start, thickness, filled, share, difference) in cases {
        assert_eq!(
            picture(height, set, column, start, thickness),
            Ok(Picture { filled, share, difference }),
            "{column:?} from {start}"
        );
    }
    for (start, thickness, place) in [(-32, 32, 0), (543, 32, 0), (0, 31, 1)] {
        assert_eq!(picture(512, thickest, &[0, 512], start, thickness), refused(13, place), "from {start}");
    }
}

// ---- The outside vectors of document 02, b), c), e), f) and g) ----

/// The cases of tools/vectors/NAME.txt, each by its fields.
fn outside(name: &str) -> Vec<Vec<String>> {
    let file = format!("{}/../tools/vectors/{name}.txt", env!("CARGO_MANIFEST_DIR"));
    let text = fs::read_to_string(file).unwrap_or_else(|fault| panic!("tools/vectors/{name}.txt: {fault}"));
    text.lines().map(|line| line.split('|').map(String::from).collect()).collect()
}

fn bytes(field: &str) -> Vec<u8> {
    let digit = |i: usize| u8::from_str_radix(&field[i..i + 2], 16).expect("it is a byte");
    (0..field.len()).step_by(2).map(digit).collect()
}

fn list<T: FromStr<Err: Debug>>(field: &str) -> Vec<T> {
    field.split_whitespace().map(|number| number.parse().expect("it is a number")).collect()
}

fn one<T: FromStr<Err: Debug>>(field: &str) -> T {
    field.parse().expect("it is a number")
}

/// What is answered, by the two fields that every answer begins with.
fn answered(number: &str, value: &str) -> Answer<u64> {
    match one(number) {
        0 => Ok(one(value)),
        number => refused(number, one(value)),
    }
}

/// A vector's numbers, or those of before document 02's f), when every fault of a file was 16.
#[derive(Clone, Copy)]
enum Numbers {
    Split,
    Unsplit,
}

impl Numbers {
    fn of<T>(self, answer: Answer<T>) -> Answer<T> {
        answer.map_err(|refusal| match (self, refusal.number) {
            (Numbers::Unsplit, 19..=21) => Refusal { number: 16, ..refusal },
            _ => refusal,
        })
    }
}

/// What a lent output holds in the end: where the call is done the list, and then what it held.
fn left<T: Copy>(before: &[T], done: &[T]) -> Vec<T> {
    [done, &before[done.len()..]].concat()
}

#[test]
fn outside_counts() {
    let cases = outside("b/counts");
    assert_eq!(cases.len(), 83);
    for (case, fields) in cases.iter().enumerate() {
        let [height, set] = [0, 1].map(|i| one(&fields[i]));
        let expected = answered(&fields[2], &fields[3]);
        assert_eq!(counts(height, set), expected, "case {case}");
        assert_eq!(entries(height, set), expected.map(|_| one(&fields[4])), "case {case}");
    }
}

#[test]
fn outside_pictures() {
    let cases = outside("g/picture");
    assert_eq!(cases.len(), 306);
    for (case, fields) in cases.iter().enumerate() {
        let [height, set, thickness] = [0, 1, 4].map(|i| one(&fields[i]));
        let answer = picture(height, set, &list::<u16>(&fields[2]), one(&fields[3]), thickness);
        let expected = answered(&fields[5], &fields[6]).map(|_| Picture {
            filled: one::<u32>(&fields[7]) == 1,
            share: one(&fields[8]),
            difference: one(&fields[9]),
        });
        assert_eq!(answer, expected, "case {case}");
    }
}

#[test]
fn outside_recounts() {
    let cases = outside("b/recount");
    assert_eq!(cases.len(), 204);
    for (case, fields) in cases.iter().enumerate() {
        let [height, set, columns, bound] = [0, 1, 3, 4].map(|i| one(&fields[i]));
        let head = Head { height, set, columns };
        let answer = recount(&list::<u32>(&fields[2]), head, bound, &list::<i32>(&fields[5]));
        assert_eq!(answer, answered(&fields[6], &fields[7]), "case {case}");
    }
}

#[test]
fn outside_readbacks() {
    let cases = outside("b/readback");
    assert_eq!(cases.len(), 188);
    for (case, fields) in cases.iter().enumerate() {
        let [height, set, count, room] = [0, 1, 4, 5].map(|i| one(&fields[i]));
        let (errors, thicknesses) = (list::<u64>(&fields[2]), list::<u8>(&fields[3]));
        let sheets = Filled { errors: &errors, thicknesses: &thicknesses };
        let before = vec![77; room as usize];
        let expected = (answered(&fields[6], &fields[7]), left(&before, &list(&fields[8])));
        for read in [read_back, quick::read_back] {
            let mut out = before.clone();
            let answer = read(height, set, sheets, count, &mut out);
            assert_eq!((answer, out), expected, "case {case}");
        }
    }
}

#[test]
fn outside_plans() {
    let cases = outside("b/plan");
    assert_eq!(cases.len(), 69);
    for (case, fields) in cases.iter().enumerate() {
        let [height, set, columns, bound] = [0, 1, 3, 4].map(|i| one(&fields[i]));
        let (cells, head) = (list::<u32>(&fields[2]), Head { height, set, columns });
        let [errors, thicknesses, found] = [5, 6, 7].map(|i| one(&fields[i]));
        let before = (vec![7; errors], vec![7; thicknesses], vec![7; found]);
        let expected = (
            answered(&fields[8], &fields[9]),
            left(&before.0, &list(&fields[10])),
            left(&before.1, &list(&fields[11])),
            left(&before.2, &list(&fields[12])),
        );
        for reach in [None, Some(Reach::Every), Some(Reach::UpToGreatest), Some(Reach::PossibleOnly)] {
            let (mut errors, mut thicknesses, mut list) = before.clone();
            let sheets = Sheets { errors: &mut errors, thicknesses: &mut thicknesses, list: &mut list };
            let answer = match reach {
                None => plan(&cells, head, bound, sheets),
                Some(reach) => quick::plan(reach, &cells, head, bound, sheets),
            };
            assert_eq!((answer, errors, thicknesses, list), expected, "case {case}, {reach:?}");
        }
    }
}

#[test]
fn outside_jobs_loaded() {
    let cases = outside("f/job");
    assert_eq!(cases.len(), 291);
    for (case, fields) in cases.iter().enumerate() {
        let [height, set, bound, columns] = [3, 4, 5, 6].map(|i| one(&fields[i]));
        let expected = answered(&fields[1], &fields[2]).map(|_| Loaded { head: Head { height, set, columns }, bound });
        assert_eq!(read_job(&bytes(&fields[0]), usize::MAX, &mut [0; 4_096]), expected, "case {case}");
    }
}

fn outside_tables_read(name: &str, number: usize, numbers: Numbers) {
    let cases = outside(name);
    assert_eq!(cases.len(), number);
    for (case, fields) in cases.iter().enumerate() {
        let before = vec![77; one(&fields[1])];
        let [height, set, columns] = [4, 5, 6].map(|i| one(&fields[i]));
        let expected =
            (answered(&fields[2], &fields[3]).map(|_| Head { height, set, columns }), left(&before, &list(&fields[7])));
        for read in [read_table, quick::read_table] {
            let mut table = before.clone();
            let answer = numbers.of(read(&bytes(&fields[0]), &mut table));
            assert_eq!((answer, table), expected, "{name}, case {case}");
        }
    }
}

#[test]
fn outside_tables_received() {
    outside_tables_read("c/read", 324, Numbers::Unsplit);
    outside_tables_read("c/cut", 63, Numbers::Unsplit);
    outside_tables_read("c/bytes", 92, Numbers::Unsplit);
    outside_tables_read("f/table-read", 321, Numbers::Split);
    outside_tables_read("f/table-cut", 63, Numbers::Split);
    outside_tables_read("f/table-bytes", 91, Numbers::Split);
}

#[test]
fn outside_tables_sent() {
    let cases = outside("c/write");
    assert_eq!(cases.len(), 115);
    for (case, fields) in cases.iter().enumerate() {
        let [height, set, columns] = [0, 1, 3].map(|i| one(&fields[i]));
        let (cells, head) = (list::<u32>(&fields[2]), Head { height, set, columns });
        let before = vec![77; one(&fields[4])];
        let expected = (answered(&fields[5], &fields[6]), left(&before, &bytes(&fields[7])));
        for write in [write_table, quick::write_table] {
            let mut out = before.clone();
            let answer = write(&cells, head, &mut out);
            assert_eq!((answer, out), expected, "case {case}");
        }
    }
}

fn outside_orders_read(name: &str, number: usize, numbers: Numbers) {
    let cases = outside(name);
    assert_eq!(cases.len(), number);
    for (case, fields) in cases.iter().enumerate() {
        let [height, set, step, number] = [0, 1, 2, 5].map(|i| one(&fields[i]));
        let cure = list(&fields[3]);
        let answer = numbers.of(ordered(Printing { height, set, step, cure: &cure }, &bytes(&fields[4]), number));
        let [kind, whole, bits] = [8, 9, 10].map(|i| one::<u32>(&fields[i]));
        let layers = if kind == 50 { whole } else { 0 };
        let expected = answered(&fields[6], &fields[7]).map(|_| (kind, bits, layers));
        assert_eq!(answer, expected, "{name}, case {case}");
        let parts = if kind == 48 { 8.0 } else { 64.0 };
        if answer.is_ok() && kind < 50 {
            assert_eq!(f64::from(f32::from_bits(bits)) * parts, f64::from(whole), "{name}, case {case}");
        }
    }
}

#[test]
fn outside_orders_given() {
    outside_orders_read("e/read", 334, Numbers::Unsplit);
    outside_orders_read("e/cut", 55, Numbers::Unsplit);
    outside_orders_read("e/bytes", 76, Numbers::Unsplit);
    outside_orders_read("f/order-read", 326, Numbers::Split);
    outside_orders_read("f/order-cut", 55, Numbers::Split);
    outside_orders_read("f/order-bytes", 76, Numbers::Split);
}

#[test]
fn outside_orders_written() {
    let cases = outside("e/write");
    assert_eq!(cases.len(), 220);
    for (case, fields) in cases.iter().enumerate() {
        let [height, set, step] = [0, 1, 2].map(|i| one(&fields[i]));
        let (cure, sequence) = (list(&fields[3]), list::<i32>(&fields[4]));
        let printing = Printing { height, set, step, cure: &cure };
        let answer = orders(printing, &sequence, one(&fields[5]));
        assert_eq!(
            answer.as_ref().map(|file| file.len() as u64).map_err(|&refusal| refusal),
            answered(&fields[6], &fields[7]),
            "case {case}"
        );
        assert_eq!(answer.unwrap_or_default(), bytes(&fields[8]), "case {case}");
    }
}
