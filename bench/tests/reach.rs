// The random input reaches both sides of document 02's b) and of each rule of its table files and order files, alone and beside other faults: else
// the comparison would see nothing of it.

use bench::brute;
use bench::make::{self, Sheets};
use bench::plain::{self, Fault, Filled, Head, Plate, Printing, Received, MOST_COLUMNS};
use bench::quick;
use bench::random::Random;
use std::collections::BTreeMap;

const SEED: u64 = 3;
const CASES: u64 = 4_000;
const OFTEN: u64 = 20;

/// How often each thing was seen.
type Seen = BTreeMap<&'static str, u64>;

fn note(seen: &mut Seen, name: &'static str, is_so: bool) {
    *seen.entry(name).or_default() += u64::from(is_so);
}

fn check(seen: &Seen) {
    let rare: Vec<_> = seen.iter().filter(|&(_, &times)| times < OFTEN).collect();
    assert!(rare.is_empty(), "seen too seldom in {CASES} cases: {rare:?} of {seen:?}");
}

fn plate_of(random: &mut Random) -> Plate {
    let size = make::size(random);
    make::plate(random, size)
}

#[test]
fn sequences_reach_both_sides() {
    let mut seen = Seen::new();
    for case in 0..CASES {
        let mut random = Random::new(SEED, case);
        let plate = plate_of(&mut random);
        let sequence = make::sequence(&mut random, plate);
        let table = make::tabulate(plate, &[]);
        let answer = plain::recount(&table.cells, table.head, u32::MAX, &sequence);
        let heights: Vec<i64> = sequence.iter().map(|&z| i64::from(z)).collect();
        if heights.len() > 2 {
            see_sequence(&mut seen, plate, &heights, answer.err().map(|r| r.place as usize));
        }
    }
    check(&seen);
}

/// Of a sequence of two layers or more: `refused` is the place, or none where it is good.
fn see_sequence(seen: &mut Seen, plate: Plate, heights: &[i64], refused: Option<usize>) {
    let (n, top) = (heights.len() - 1, plate.height);
    let (z1, before_last) = (heights[1], heights[n - 1]);
    let ends = (top..=plate.highest()).contains(&heights[n]);
    let steps = heights.windows(2).all(|pair| plate.allows(pair[1] - pair[0]));
    note(seen, "good", refused.is_none());
    note(seen, "good, z1 is 1", refused.is_none() && z1 == 1);
    note(seen, "good, the last but one is N-1", refused.is_none() && before_last == top - 1);
    note(seen, "z1 is 0, nothing else", refused == Some(1) && z1 == 0 && before_last < top && ends && steps);
    note(seen, "z1 is below 0, nothing else", refused == Some(1) && z1 < 0 && before_last < top && ends && steps);
    note(seen, "the last but one is N, nothing else", refused == Some(n) && before_last == top && ends && steps);
    note(seen, "several layers over the plate", refused == Some(n) && heights[n - 2] >= top && ends && steps);
    note(seen, "over the plate, and a fault before", refused.is_some_and(|i| i > 0 && i < n) && before_last >= top);
    note(seen, "both rules", refused == Some(1) && z1 <= 0 && before_last >= top && ends && steps);
    note(seen, "z1 is 0 or less, and another fault", refused == Some(1) && z1 <= 0 && !(ends && steps));
}

#[test]
fn sheets_reach_both_sides() {
    let mut seen = Seen::new();
    for case in 0..CASES {
        let mut random = Random::new(SEED, case);
        let plate = plate_of(&mut random);
        let entries = plate.entries();
        let mut sheets = Sheets { errors: vec![0; entries], thicknesses: vec![1; entries], list: vec![] };
        make::damage_sheets(&mut random, plate, &mut sheets);
        let count = make::count(&mut random, plate) as usize;
        if (2..=plate.counts()).contains(&count) {
            see_sheets(&mut seen, plate, &sheets, count);
        }
    }
    check(&seen);
}

/// Of a count of 2 or more.
fn see_sheets(seen: &mut Seen, plate: Plate, sheets: &Sheets, count: usize) {
    let filled = Filled { errors: &sheets.errors, thicknesses: &sheets.thicknesses };
    let answer = plain::read_back(plate.height as u32, plate.set, filled, count as u32, &mut vec![0; count + 1]);
    let refused = answer.err().filter(|r| r.number == 12).map(|r| r.place as usize);
    let heights = named(plate, sheets, count);
    let z = |index: usize| heights.get(count - index).copied();
    let over = z(count - 1).is_some_and(|z| z >= plate.height);
    let is_cut = heights.len() <= count;
    let ends_under = heights.len() < count && heights[heights.len() - 1] <= 0;
    note(seen, "good", answer.is_ok());
    note(seen, "good, z1 is 1", answer.is_ok() && z(1) == Some(1));
    note(seen, "good, the last but one is N-1", answer.is_ok() && z(count - 1) == Some(plate.height - 1));
    note(seen, "z1 is 0", refused == Some(1) && z(1) == Some(0) && !is_cut);
    note(seen, "z2 is 0 or less too", refused == Some(1) && z(2).is_some_and(|z| z <= 0) && !is_cut);
    note(seen, "the last but one is N, nothing else", {
        z(count - 1) == Some(plate.height) && z(1).is_some_and(|z| z > 0) && z(0).is_some_and(|z| z <= 0)
    });
    note(seen, "over the plate, and a thickness at fault below", over && is_cut);
    note(seen, "over the plate, and z1 is 0 or less", over && z(1).is_some_and(|z| z <= 0));
    note(seen, "a middle layer under the plate leads too far", !over && ends_under);
    note(seen, "an end above 0", refused == Some(0));
}

/// The heights that the sheets name, from the lowest end with the least entry down, as far as they lead.
fn named(plate: Plate, sheets: &Sheets, count: usize) -> Vec<i64> {
    let set = plate.thicknesses().collect();
    let listed = brute::Plate { height: plate.height, set, columns: vec![], bound: u32::MAX };
    let end = (plate.height..=plate.highest()).min_by_key(|&z| sheets.errors[plate.entry(z, count)]).unwrap();
    listed.named(end, count, |z, layer| i64::from(sheets.thicknesses[plate.entry(z, layer)]))
}

/// Two files a case, as a round of the comparison has.
#[test]
fn table_files_reach_both_sides() {
    let mut seen = Seen::new();
    for case in 0..2 * CASES {
        let mut random = Random::new(SEED, case);
        let size = make::size(&mut random);
        let plate = make::plate(&mut random, size);
        let file = make::handed_table_file(&mut random, plate, size);
        match plain::receive(&file) {
            Ok(received) => see_received(&mut seen, &received, make::length(&mut random, plate.cells())),
            Err((fault, place)) => see_fault(&mut seen, &file, fault, place),
        }
    }
    check(&seen);
}

/// Of a good file, into a table of so many cells.
fn see_received(seen: &mut Seen, received: &Received, length: usize) {
    let Received { head, plate, cells } = received;
    let limit = |cell: usize| plate.limit(cell, head.columns);
    note(seen, "good", true);
    note(seen, "good, some cell above 0 at its limit", (0..cells.len()).any(|i| cells[i] > 0 && cells[i] == limit(i)));
    note(seen, "good, the most columns", head.columns == MOST_COLUMNS);
    note(seen, "good, no columns", head.columns == 0);
    note(seen, "good, starts below 0", plate.tmax > 1);
    note(seen, "good, starts from 256 on", plate.last_start() >= 256);
    note(seen, "good, N is 512", plate.height == 512);
    note(seen, "good, tmax is 32", plate.tmax == 32);
    note(seen, "good, thicknesses that are not allowed", plate.thicknesses().count() < plate.tmax as usize);
    note(seen, "good, a table of its own length", length == cells.len());
    note(seen, "good, a longer table", length > cells.len());
    note(seen, "good, a table one cell too short", length + 1 == cells.len());
}

/// What the file says at its first bytes, whether that is an opening or not.
fn told(file: &[u8]) -> Option<(Head, Plate)> {
    let number = |from: usize, to: usize| file[from..to].iter().rev().fold(0, |sum, &byte| sum << 8 | u32::from(byte));
    if file.len() < 14 {
        return None;
    }
    let head = Head { height: number(4, 6), set: number(6, 10), columns: number(10, 14) };
    head.plate().ok().map(|plate| (head, plate))
}

/// Of a file with a fault at the record that begins here.
fn see_fault(seen: &mut Seen, file: &[u8], fault: Fault, place: usize) {
    let left = &file[place..];
    let two = |at: usize| left.get(at..at + 2).map(|two| u16::from_le_bytes([two[0], two[1]]));
    let (length, kind, body) = (two(0), two(2), left.get(4..).unwrap_or(&[]));
    note(seen, "no record at all", fault == Fault::CutHead && place == 0);
    note(seen, "a head cut off", fault == Fault::CutHead && !left.is_empty());
    note(seen, "cut where a record ends", fault == Fault::CutHead && left.is_empty() && place > 0);
    let at_first = fault == Fault::Kind && place == 0;
    note(seen, "a row first", at_first && kind == Some(17));
    note(seen, "another kind first", at_first && kind != Some(17) && kind != Some(18));
    let after_opening = fault == Fault::Kind && place == 14;
    note(seen, "an end straight after the opening", after_opening && kind == Some(18));
    note(seen, "an opening after the opening", after_opening && kind == Some(16));
    let after_row = fault == Fault::Kind && place > 14;
    note(seen, "an opening after a row", after_row && kind == Some(16));
    note(seen, "a remark", fault == Fault::Kind && kind.is_some_and(|kind| kind >= 32_768));
    note(seen, "a kind with another high byte", {
        fault == Fault::Kind && kind.is_some_and(|kind| kind > 255 && (16..=18).contains(&(kind % 256)))
    });
    note(seen, "another kind and another length", {
        fault == Fault::Kind && kind.is_some_and(|kind| kind > 18) && length.is_some_and(|length| length < 2)
    });
    let wrong_length = |wanted: u16| fault == Fault::Length && kind == Some(wanted);
    note(seen, "an opening's length", wrong_length(16));
    note(seen, "a row's length", wrong_length(17));
    note(seen, "an end's length", wrong_length(18));
    note(seen, "another length, and its body cut off", fault == Fault::Length && length > Some(body.len() as u16));
    let cut_body = |wanted: u16| fault == Fault::CutBody && kind == Some(wanted);
    note(seen, "an opening's body cut off", cut_body(16));
    note(seen, "a row's body cut off", cut_body(17));
    note(seen, "an end's body cut off", cut_body(18));
    note(seen, "another kind, and its body cut off", fault == Fault::Kind && length > Some(body.len() as u16));
    note(seen, "bytes after the end, fewer than 4", fault == Fault::After && left.len() < 4);
    let after = fault == Fault::After && left.len() >= 4;
    note(seen, "a record after the end of a kind that is known", after && (Some(16)..=Some(18)).contains(&kind));
    note(seen, "a record after the end of a kind that is not", after && !(Some(16)..=Some(18)).contains(&kind));
    note(seen, "a record after the end, and its body cut off", after && length > Some(body.len() as u16));
    for (name, number) in [("1", 1), ("2", 2), ("7", 7), ("6", 6)] {
        note(seen, name, fault == Fault::Refused(number));
    }
    note(seen, "7 by one column", fault == Fault::Refused(7) && file[10..14] == (MOST_COLUMNS + 1).to_le_bytes());
    if let Some((head, plate)) = told(file).filter(|(head, _)| head.columns <= MOST_COLUMNS) {
        see_contents(seen, file, head, plate, fault, place);
    }
}

/// Of a file whose opening is good: what stands in the row or the end at fault, and what else is at fault there or later.
fn see_contents(seen: &mut Seen, file: &[u8], head: Head, plate: Plate, fault: Fault, place: usize) {
    let left = &file[place..];
    let stride = 6 + 4 * plate.tmax as usize;
    let row = place.saturating_sub(14) / stride;
    let cells = |record: &[u8]| -> Vec<u32> {
        record[6..stride].chunks(4).map(|four| u32::from_le_bytes([four[0], four[1], four[2], four[3]])).collect()
    };
    let over = |record: &[u8]| -> Vec<usize> {
        let cells = cells(record);
        (0..cells.len()).filter(|&cell| cells[cell] > plate.limit(cell, head.columns)).collect()
    };
    if matches!(fault, Fault::Start | Fault::Refused(6)) {
        let (start, due) = (i64::from(i16::from_le_bytes([left[4], left[5]])), plate.lowest() + row as i64);
        let is_start = fault == Fault::Start;
        note(seen, "a row skipped", is_start && start == due + 1 && start <= plate.last_start());
        note(seen, "a row twice", is_start && start == due - 1);
        note(seen, "the first row skipped", is_start && row == 0 && start == due + 1);
        note(seen, "a row below the first", is_start && row == 0 && start == due - 1);
        note(seen, "a row too many", is_start && start == due && start > plate.last_start());
        note(seen, "a start without its sign", is_start && due < 0 && start == -due);
        note(seen, "a start with another high byte", is_start && start != due && (start - due) % 256 == 0);
        note(
            seen,
            "another start, and a cell out of bounds",
            is_start && start <= plate.last_start() && !over(left).is_empty(),
        );
        let whole = |cell: usize| u64::from(head.columns) * (cell as u64 + 1);
        let cells = cells(left);
        let is_cell = fault == Fault::Refused(6);
        let (one, first) = (over(left).len() == 1, over(left).first().copied().unwrap_or(0));
        note(seen, "6 by one", is_cell && one && cells[first] == plate.limit(first, head.columns) + 1);
        note(
            seen,
            "6, and no cell above the count times t",
            is_cell && {
                over(left).iter().all(|&cell| plate.allows(cell as i64 + 1) && u64::from(cells[cell]) <= whole(cell))
            },
        );
        note(
            seen,
            "6 by a thickness that is not allowed alone",
            is_cell && { over(left).iter().all(|&cell| !plate.allows(cell as i64 + 1)) },
        );
        note(seen, "6, and not in the first cell", is_cell && first > 0);
        note(seen, "6 in the first row", is_cell && row == 0);
        note(seen, "6 in the last row", is_cell && row as i64 == plate.rows() - 1);
        note(seen, "6, and the file is cut off later", is_cell && file.len() < plate.file_bytes());
    }
    if fault == Fault::Rows {
        let told = i64::from(u16::from_le_bytes([left[4], left[5]]));
        let is_there = row as i64 == plate.rows();
        note(seen, "all rows, one less told", is_there && told == plate.rows() - 1);
        note(seen, "all rows, one more told", is_there && told == plate.rows() + 1);
        note(seen, "all rows, another high byte told", is_there && told == plate.rows() + 256);
        note(seen, "rows missing, and all told", !is_there && told == plate.rows());
        note(seen, "rows missing, and those told that are there", !is_there && told == row as i64);
    }
}

#[test]
fn tables_to_be_sent_reach_both_sides() {
    let mut seen = Seen::new();
    for case in 0..CASES {
        let mut random = Random::new(SEED, case);
        let size = make::size(&mut random);
        let plate = make::plate(&mut random, size);
        let mut table = make::table(&mut random, plate, size);
        make::damage_table(&mut random, plate, &mut table);
        let head = make::handed_head(&mut random, plate, table.head);
        let [length, room] = [plate.cells(), plate.file_bytes()].map(|stated| make::length(&mut random, stated));
        table.cells.resize(length, u32::MAX);
        see_sending(&mut seen, &table.cells, head, room);
    }
    check(&seen);
}

fn see_sending(seen: &mut Seen, cells: &[u32], head: Head, room: usize) {
    let answer = plain::write_table(cells, head, &mut vec![0; room]);
    let refused = |number: u32, place: u64| answer == Err(plain::Refusal { number, place });
    let (too_many, no_set) = (head.columns > MOST_COLUMNS, head.set == 0);
    note(seen, "1, and 2 too", refused(1, 0) && no_set);
    note(seen, "1 alone", refused(1, 0) && !no_set);
    note(seen, "2", refused(2, 0));
    let Ok(plate) = head.plate() else { return };
    let is_short = room < plate.file_bytes();
    let over = |cell: &usize| cells[*cell] > plate.limit(*cell, head.columns.min(MOST_COLUMNS));
    let faults = (0..plate.cells().min(cells.len())).filter(over).count();
    note(seen, "good", answer.is_ok());
    note(seen, "good, cells out of bounds past the table", answer.is_ok() && cells.len() > plate.cells());
    note(seen, "good, a longer output", answer.is_ok() && room > plate.file_bytes());
    note(seen, "good, the most columns", answer.is_ok() && head.columns == MOST_COLUMNS);
    note(seen, "3 at 1, one cell too short", refused(3, 1) && cells.len() + 1 == plate.cells());
    note(seen, "3 at 1, and 7 too", refused(3, 1) && too_many);
    note(seen, "3 at 1, and 6 too", refused(3, 1) && faults > 0);
    note(seen, "3 at 1, and 3 at 2 too", refused(3, 1) && is_short);
    note(seen, "7, and 6 too", refused(7, 0) && faults > 0);
    note(seen, "7 by one column", refused(7, 0) && head.columns == MOST_COLUMNS + 1);
    let is_cell = answer.is_err_and(|refusal| refusal.number == 6);
    note(seen, "6 in one cell", is_cell && faults == 1);
    note(seen, "6 in several", is_cell && faults > 1);
    note(seen, "6, and 3 at 2 too", is_cell && is_short);
    note(seen, "3 at 2, one byte too short", refused(3, 2) && room + 1 == plate.file_bytes());
}

/// Settings, step and cure list as a round of the comparison hands them in, and a file or a sequence for them.
struct Handed<T> {
    plate: Plate,
    named: (u32, u32),
    step: u32,
    cure: Vec<u16>,
    given: T,
}

impl<T> Handed<T> {
    fn new(random: &mut Random, give: impl Fn(&mut Random, Plate, u32, &[u16]) -> T) -> Handed<T> {
        let plate = plate_of(random);
        let named = make::named(random, plate);
        let (step, mut cure) = (make::step(random), make::cure(random, plate));
        let given = give(random, plate, step, &cure);
        cure.resize(make::length(random, cure.len()), 0);
        Handed { plate, named, step, cure, given }
    }

    fn printing(&self) -> Printing<'_> {
        Printing { height: self.named.0, set: self.named.1, step: self.step, cure: &self.cure }
    }
}

/// Two files a case, as a round of the comparison has.
#[test]
fn order_files_reach_both_sides() {
    let mut seen = Seen::new();
    for case in 0..2 * CASES {
        let mut random = Random::new(SEED, case);
        let handed = Handed::new(&mut random, make::handed_order_file);
        let file = &handed.given;
        let number = make::order_number(&mut random, file);
        let answer = plain::read_order(handed.printing(), file, number);
        let refused = answer.err().map_or(0, |r| r.number);
        let is_short = handed.cure.len() < handed.plate.tmax as usize;
        let (no_set, no_step) = (handed.named.1 == 0, !(1..=8_192).contains(&handed.step));
        note(&mut seen, "1", refused == 1);
        note(&mut seen, "2", refused == 2 && no_set);
        note(&mut seen, "14", refused == 14);
        note(&mut seen, "14 by one", refused == 14 && handed.step == 8_193);
        note(&mut seen, "3 at 1", refused == 3);
        note(
            &mut seen,
            "3 at 1, one entry too short",
            refused == 3 && handed.cure.len() as i64 == handed.plate.tmax - 1,
        );
        let is_named = handed.named == (handed.plate.height as u32, handed.plate.set);
        if is_named && !is_short && !no_step {
            match quick::judge(handed.plate, handed.printing(), file) {
                Ok(layers) => see_orders(&mut seen, &handed, layers, number),
                Err((fault, place)) => see_order_fault(&mut seen, &handed, fault, place, number),
            }
        }
    }
    check(&seen);
}

/// A float of the file, in parts of the whole.
fn amount(file: &[u8], record: usize, parts: f32) -> f32 {
    file.get(8 * record + 4..8 * record + 8)
        .map_or(f32::NAN, |four| f32::from_le_bytes([four[0], four[1], four[2], four[3]]) * parts)
}

/// The units that the file's layer from 1 is lifted to, where it is so many.
fn rise(handed: &Handed<Vec<u8>>, layer: usize) -> i64 {
    (amount(&handed.given, 2 * (layer - 1), 8.0) / handed.step as f32) as i64
}

/// Of a good file, and the number of an order.
fn see_orders(seen: &mut Seen, handed: &Handed<Vec<u8>>, layers: usize, number: u32) {
    let (top, tmax) = (handed.plate.height, handed.plate.tmax);
    let (first, all) = (rise(handed, 1), rise(handed, layers));
    let below = if layers > 1 { rise(handed, layers - 1) } else { 0 };
    let orders = 2 * layers as u32;
    let used = |t: i64| (1..=layers).any(|k| rise(handed, k) - if k > 1 { rise(handed, k - 1) } else { 0 } == t);
    let is_zero = |t: &i64| handed.cure[*t as usize - 1] == 0;
    note(seen, "good", true);
    note(seen, "good, one layer", layers == 1);
    note(seen, "good, 100 layers and more", layers >= 100);
    note(seen, "good, more layers than from 0 on", below >= top);
    note(seen, "good, as high as may be below the last", layers > 1 && below == top + first - 2);
    note(seen, "good, just N", all == top);
    note(seen, "good, N and first layer less 1, from the lowest start just N", all == top + first - 1);
    note(seen, "good, an allowed thickness of cure time 0", handed.plate.thicknesses().any(|t| is_zero(&t)));
    note(seen, "good, a time 0 of a thickness not allowed", {
        (1..=tmax).any(|t| !handed.plate.allows(t) && is_zero(&t))
    });
    note(seen, "good, thicknesses of both times alike", {
        handed
            .plate
            .thicknesses()
            .any(|t| used(t) && used(t + 1) && handed.cure[t as usize - 1] == handed.cure[t as usize])
    });
    note(seen, "good, a longer list", handed.cure.len() as i64 > tmax);
    note(seen, "good, the greatest step", handed.step == 8_192);
    note(seen, "a lift", number < orders && number % 2 == 0);
    note(seen, "a cure", number < orders && number % 2 == 1);
    note(seen, "the last cure", number == orders - 1);
    note(seen, "the finish", number == orders);
    note(seen, "one past the finish", number == orders + 1);
    note(seen, "the greatest number", number == u32::MAX);
    note(seen, "a number past 65,535 that is small in 16 bits", number > 65_535 && number % 65_536 < orders);
}

/// Of a file with a fault at the record that begins here.
fn see_order_fault(seen: &mut Seen, handed: &Handed<Vec<u8>>, fault: quick::Fault, place: usize, number: u32) {
    use quick::Fault;
    let (file, top) = (&handed.given, handed.plate.height);
    let left = &file[place..];
    let two = |at: usize| left.get(at..at + 2).map(|two| u16::from_le_bytes([two[0], two[1]]));
    let (length, kind) = (two(0), two(2));
    note(seen, "no record at all", fault == Fault::CutHead && place == 0 && left.is_empty());
    note(seen, "a head cut off", fault == Fault::CutHead && !left.is_empty());
    note(seen, "cut where a record ends", fault == Fault::CutHead && left.is_empty() && place > 0);
    note(seen, "cut behind the order asked for", {
        matches!(fault, Fault::CutHead | Fault::CutBody) && (number as usize) < place / 8
    });
    note(seen, "another fault behind the order asked for", (number as usize) < place / 8);
    for (name, wanted) in
        [("a lift's body cut off", 48), ("a cure's body cut off", 49), ("a finish's body cut off", 50)]
    {
        note(seen, name, fault == Fault::CutBody && kind == Some(wanted));
    }
    for (name, wanted) in [("a lift's length", 48), ("a cure's length", 49), ("a finish's length", 50)] {
        note(seen, name, fault == Fault::Length && kind == Some(wanted));
    }
    let is_kind = |wanted: u16| fault == Fault::Kind && kind == Some(wanted);
    note(seen, "a finish first of all", is_kind(50) && place == 0);
    note(seen, "a finish in a cure's place", is_kind(50) && place % 16 == 8);
    note(seen, "a cure in a lift's place", is_kind(49));
    note(seen, "a lift in a cure's place", is_kind(48));
    note(seen, "a remark", fault == Fault::Kind && kind.is_some_and(|kind| kind >= 32_768));
    note(seen, "a kind with another high byte", {
        fault == Fault::Kind && kind.is_some_and(|kind| kind > 255 && (48..=50).contains(&(kind % 256)))
    });
    note(seen, "another length, and its body cut off", fault == Fault::Length && length > Some(left.len() as u16 - 4));
    let layer = place / 16;
    if fault == Fault::Lift {
        see_lift(seen, handed, layer);
    }
    if fault == Fault::Over {
        note(seen, "a layer too many, by the least height", rise(handed, layer) == top + rise(handed, 1) - 1);
        note(seen, "a layer too many, and a start at the lowest of all would take it", {
            rise(handed, layer) < top + handed.plate.tmax - 1
        });
    }
    if fault == Fault::Cure {
        let (due, told) = (
            rise(handed, layer + 1) - if layer > 0 { rise(handed, layer) } else { 0 },
            amount(file, 2 * layer + 1, 64.0),
        );
        let entry = handed.cure.get(due as usize - 1).copied().unwrap_or(0);
        note(seen, "the time of another thickness", handed.cure.iter().any(|&other| f32::from(other) == told));
        note(seen, "a time with a sign", told == -f32::from(entry));
        note(seen, "the time's neighbour", told.to_bits().abs_diff(f32::from(entry).to_bits()) == 1);
    }
    if fault == Fault::Layers {
        let told = i64::from(two(4).unwrap_or(0));
        note(seen, "one layer less told", told == layer as i64 - 1);
        note(seen, "one layer more told", told == layer as i64 + 1);
        note(seen, "another high byte told", told == layer as i64 + 256);
        note(seen, "another number, and below N", rise(handed, layer) < top);
    }
    note(seen, "a finish below N", fault == Fault::Below);
    note(seen, "a finish one below N", fault == Fault::Below && rise(handed, layer) == top - 1);
    let is_cut = left.len() >= 4 && length > Some(left.len() as u16 - 4);
    note(seen, "another kind, and its body cut off", fault == Fault::Kind && is_cut);
    note(seen, "bytes after the finish, fewer than 4", fault == Fault::After && left.len() < 4);
    let after = fault == Fault::After && left.len() >= 4;
    note(seen, "a record after the finish of a kind that is known", after && (Some(48)..=Some(50)).contains(&kind));
    note(seen, "a record after the finish of a kind that is not", after && !(Some(48)..=Some(50)).contains(&kind));
    note(seen, "a record after the finish, and its body cut off", after && is_cut);
}

/// Of a lift that no layer gives, on top of so many.
fn see_lift(seen: &mut Seen, handed: &Handed<Vec<u8>>, layers: usize) {
    let told = amount(&handed.given, 2 * layers, 8.0);
    let below = if layers > 0 { rise(handed, layers) } else { 0 };
    let units = told / handed.step as f32 - below as f32;
    let is_whole = units.fract() == 0.0 && (1.0..=32.0).contains(&units);
    let allowed = is_whole && handed.plate.allows(units as i64);
    note(seen, "a lift by a thickness not allowed", is_whole && !allowed);
    note(seen, "a lift by a thickness of cure time 0", allowed && handed.cure[units as usize - 1] == 0);
    note(seen, "no thickness has a cure time", handed.plate.thicknesses().all(|t| handed.cure[t as usize - 1] == 0));
    note(seen, "a lift by nothing", units == 0.0);
    note(seen, "a lift that is no number", told.is_nan());
    note(seen, "a lift with a sign", told < 0.0);
    note(seen, "a lift to -0", told.to_bits() == 1 << 31);
    note(seen, "a lift between two units", units > 0.0 && units < handed.plate.tmax as f32 && !is_whole);
}

#[test]
fn orders_to_be_written_reach_both_sides() {
    let mut seen = Seen::new();
    for case in 0..CASES {
        let mut random = Random::new(SEED, case);
        let handed = Handed::new(&mut random, |random, plate, _, cure| make::printed_sequence(random, plate, cure));
        let stated = 16 * handed.given.len().saturating_sub(1) + 6;
        let room = make::length(&mut random, stated);
        see_writing(&mut seen, &handed, stated, room);
    }
    check(&seen);
}

fn see_writing(seen: &mut Seen, handed: &Handed<Vec<i32>>, stated: usize, room: usize) {
    let answer = plain::write_orders(handed.printing(), &handed.given, &mut vec![0; room]);
    let refused = |number: u32, place: u64| answer == Err(plain::Refusal { number, place });
    let number = answer.err().map_or(0, |r| r.number);
    let (no_step, is_short) = (!(1..=8_192).contains(&handed.step), room < stated);
    note(seen, "1", number == 1);
    note(seen, "2", number == 2);
    note(seen, "14", number == 14);
    let Ok(plate) = Plate::new(handed.named.0, handed.named.1) else { return };
    let is_list_short = handed.cure.len() < plate.tmax as usize;
    let heights: Vec<i64> = handed.given.iter().map(|&z| i64::from(z)).collect();
    let table = make::tabulate(plate, &[]);
    let is_admissible = plain::recount(&table.cells, table.head, u32::MAX, &handed.given).is_ok();
    let is_uncured = |pair: &[i64]| handed.cure.get((pair[1] - pair[0] - 1) as usize) == Some(&0);
    let uncured = heights.windows(2).filter(|pair| is_uncured(pair)).count();
    note(seen, "good", answer.is_ok());
    note(seen, "good, a longer output", answer.is_ok() && room > stated);
    note(seen, "good, 100 layers and more", answer.is_ok() && heights.len() > 100);
    note(seen, "good, a first boundary below 0", answer.is_ok() && heights[0] < 0);
    note(seen, "good, the greatest step", answer.is_ok() && handed.step == 8_192);
    note(seen, "14, and 3 too", number == 14 && (is_list_short || is_short));
    note(seen, "14, and 13 too", number == 14 && !is_admissible);
    note(seen, "3 at 1, one entry too short", refused(3, 1) && handed.cure.len() as i64 == plate.tmax - 1);
    note(seen, "3 at 1, and 13 too", refused(3, 1) && !is_admissible);
    note(seen, "3 at 1, and 3 at 2 too", refused(3, 1) && is_short);
    note(seen, "13 at 0", refused(13, 0));
    note(seen, "13 past 0", number == 13 && !refused(13, 0));
    note(seen, "13, and a cure time 0 before", {
        number == 13 && answer.is_err_and(|r| heights.windows(2).take(r.place as usize).any(is_uncured))
    });
    note(seen, "13, and 3 at 2 too", number == 13 && is_short && !no_step);
    note(seen, "18 at the first layer", refused(18, 1));
    note(seen, "18 past it", number == 18 && !refused(18, 1));
    note(seen, "18 at several", number == 18 && uncured > 1);
    note(seen, "18, and 3 at 2 too", number == 18 && is_short);
    note(seen, "3 at 2, one byte too short", refused(3, 2) && room + 1 == stated);
}
