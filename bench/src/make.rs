// Random plates, columns, tables, sheets, sequences, job files, table files and order files, good and damaged, small and full size.

use crate::plain::{self, Head, Plate, MOST_COLUMNS};
use crate::random::Random;

#[derive(Clone, Copy, Debug, PartialEq, Eq)]
pub enum Size {
    Tiny,
    Small,
    Middle,
    Full,
}

pub fn size(random: &mut Random) -> Size {
    match random.below(200) {
        0..=99 => Size::Tiny,
        100..=154 => Size::Small,
        155..=191 => Size::Middle,
        _ => Size::Full,
    }
}

// ---- Settings ----

pub fn plate(random: &mut Random, size: Size) -> Plate {
    let (height, tmax) = match size {
        Size::Tiny => (random.within(1, 8), random.within(1, 5)),
        Size::Small => (random.within(1, 40), random.within(1, 12)),
        Size::Middle => (random.within(1, 130), random.within(1, 32)),
        Size::Full => (random.pick(&[512, 511, 300, 400, 512]), random.pick(&[32, 32, 31, 16, 8])),
    };
    Plate::new(height as u32, set(random, tmax)).expect("height and set are allowed")
}

/// A set with the greatest member `tmax`: all up to it, few, a run, or any.
fn set(random: &mut Random, tmax: i64) -> u32 {
    let all = u32::MAX >> (32 - tmax);
    let top = 1 << (tmax - 1);
    let (one, other) = (random.word() as u32, random.word() as u32);
    let run = all & (u32::MAX << random.below(tmax as u64));
    top | random.pick(&[all, all & one & other, run, all & one, 0])
}

/// Settings as a caller might name them: mostly the plate's own, now and then refused or another's.
pub fn named(random: &mut Random, plate: Plate) -> (u32, u32) {
    let (height, set) = (plate.height as u32, plate.set);
    let any = random.word() as u32;
    match random.below(40) {
        0 => (random.pick(&[0, 513, u32::MAX, 65_536 + height, any]), set),
        1 => (height, 0),
        2 => (random.pick(&[0, 513]), 0),
        3 => (random.pick(&[1, 512, height + 1, height - 1]), random.pick(&[set, set ^ 1, any, 1 << 31])),
        _ => (height, set),
    }
}

/// A table's head as a caller might hand it in: its column count, and mostly its own settings.
pub fn named_head(random: &mut Random, plate: Plate, head: Head) -> Head {
    let (height, set) = named(random, plate);
    Head { height, set, ..head }
}

// ---- Columns ----

pub fn column(random: &mut Random, height: i64) -> Vec<u16> {
    let most = (height + 1).min(64) as u64;
    let some = random.below(most + 1);
    let mut left = random.pick(&[0, 2, 2, 4, 8, most, some, some]).min(most) & !1;
    let mut column = Vec::new();
    for boundary in 0..=height as u64 {
        if random.below(height as u64 + 1 - boundary) < left {
            column.push(boundary as u16);
            left -= 1;
        }
    }
    column
}

pub fn columns(random: &mut Random, plate: Plate, number: u64) -> Vec<Vec<u16>> {
    (0..number).map(|_| column(random, plate.height)).collect()
}

/// A column as a caller might hand it in, mostly good.
pub fn handed_column(random: &mut Random, plate: Plate) -> Vec<u16> {
    let mut column = column(random, plate.height);
    if !random.one_in(4) {
        return column;
    }
    let place = random.index(column.len() + 1);
    let (top, some) = (plate.height as u16, random.within(0, plate.height) as u16);
    let value = random.pick(&[0, 65_535, some, top, top + 1]);
    match random.below(6) {
        0 => column.insert(place, value),
        1 if place < column.len() => column[place] = value,
        2 if place < column.len() => {
            column.remove(place);
        }
        3 => column.extend(vec![value; random.pick(&[1, 2, 63, 64, 65, 66, 200])]),
        4 => column = (0..random.pick(&[62, 63, 64, 65, 66])).collect(),
        _ => column.reverse(),
    }
    column
}

// ---- Tables ----

/// A table's cells and what goes with it.
#[derive(Clone)]
pub struct Table {
    pub cells: Vec<u32>,
    pub head: Head,
}

pub fn tabulate(plate: Plate, columns: &[Vec<u16>]) -> Table {
    let mut table = Table { cells: vec![0; plate.cells()], head: plate.head(0) };
    for column in columns {
        let answer = plain::add_column(&mut table.cells, table.head, column);
        table.head = answer.expect("the column is good");
    }
    table
}

/// In bounds: made of columns, or any cells that the limits let through.
pub fn table(random: &mut Random, plate: Plate, size: Size) -> Table {
    if random.one_in(2) {
        let most = if size == Size::Full { 40 } else { 12 };
        let number = random.below(most);
        let columns = columns(random, plate, number);
        return tabulate(plate, &columns);
    }
    let few = random.below(300) as u32;
    let columns = random.pick(&[few, few, 1, 2, MOST_COLUMNS, MOST_COLUMNS - 1, 500_000, 0]);
    any_cells(random, plate, columns)
}

fn any_cells(random: &mut Random, plate: Plate, columns: u32) -> Table {
    let way = random.below(4);
    let cell = |i: usize| {
        let limit = u64::from(plate.limit(i, columns));
        let value = match way {
            0 => random.below(limit + 1),
            1 => random.below(3),
            2 => limit - random.below(2).min(limit),
            _ => random.below(100) / 98 * random.below(limit + 1),
        };
        value.min(limit) as u32
    };
    let cells = (0..plate.cells()).map(cell).collect();
    Table { cells, head: plate.head(columns) }
}

/// Puts some cells or the count out of bounds, or to their edge, now and then.
pub fn damage_table(random: &mut Random, plate: Plate, table: &mut Table) {
    if random.one_in(4) {
        for _ in 0..random.pick(&[1, 1, 2, 5]) {
            let i = random.index(table.cells.len());
            let limit = plate.limit(i, table.head.columns.min(MOST_COLUMNS));
            let any = random.word() as u32;
            table.cells[i] = random.pick(&[limit, limit + 1, limit + 1, u32::MAX, any, 1]);
        }
    }
    if random.one_in(12) {
        let (any, one_less) = (random.word() as u32, table.head.columns.saturating_sub(1));
        table.head.columns = random.pick(&[0, one_less, one_less, 999_999, 1_000_000, 1_000_001, u32::MAX, any]);
    }
}

pub fn bound(random: &mut Random, table: &Table) -> u32 {
    let held = table.cells[random.index(table.cells.len())];
    let some = random.below(u64::from(table.head.columns) * 4 + 2) as u32;
    random.pick(&[u32::MAX, u32::MAX, 0, 1, 2, held, held.saturating_sub(1), some, some, u32::MAX - 1])
}

// ---- Lengths of what is lent ----

/// Mostly as stated or longer, now and then shorter.
pub fn length(random: &mut Random, stated: usize) -> usize {
    match random.below(30) {
        0 => stated.saturating_sub(1),
        1 => random.index(stated + 1),
        2 => 0,
        3..=12 => stated + 1 + random.index(9),
        _ => stated,
    }
}

// ---- Sheets ----

pub struct Sheets {
    pub errors: Vec<u64>,
    pub thicknesses: Vec<u8>,
    pub list: Vec<u64>,
}

/// As a plan leaves them.
pub fn sheets(plate: Plate, table: &Table, bound: u32) -> Sheets {
    let mut sheets = Sheets {
        errors: vec![0; plate.entries()],
        thicknesses: vec![0; plate.entries()],
        list: vec![0; plate.counts()],
    };
    let lent =
        plain::Sheets { errors: &mut sheets.errors, thicknesses: &mut sheets.thicknesses, list: &mut sheets.list };
    plain::plan(&table.cells, table.head, bound, lent).expect("the table is good");
    sheets
}

/// Changes entries of planned sheets, or fills them with anything.
pub fn damage_sheets(random: &mut Random, plate: Plate, sheets: &mut Sheets) {
    match random.below(6) {
        0 => {}
        1 => damage_entries(random, plate, sheets),
        2 | 3 => {
            lead_down(random, plate, sheets);
            if random.one_in(2) {
                damage_entries(random, plate, sheets);
            }
        }
        4 => {
            let set: Vec<u8> = plate.thicknesses().map(|t| t as u8).chain([0, 33, 255]).collect();
            let good = set.len() - if random.one_in(2) { 3 } else { 0 };
            sheets.thicknesses.iter_mut().for_each(|t| *t = set[random.index(good)]);
            sheets.errors.iter_mut().for_each(|e| *e = random.below(6));
        }
        _ => {
            sheets.thicknesses.iter_mut().for_each(|t| *t = random.word() as u8);
            sheets.errors.iter_mut().for_each(|e| *e = random.word());
        }
    }
}

/// Thicknesses that lead down to a start, by whatever heights: some walks are good, some have layers wholly under or over the plate.
fn lead_down(random: &mut Random, plate: Plate, sheets: &mut Sheets) {
    let set: Vec<i64> = plate.thicknesses().collect();
    for height in plate.lowest()..=plate.highest() {
        for count in 0..=plate.counts() {
            let entry = plate.entry(height, count);
            sheets.thicknesses[entry] = leading(random, plate, &set, height, count as i64) as u8;
            sheets.errors[entry] = random.below(40);
        }
    }
}

/// One of a few thicknesses, if there is one among them from which the layers below can end in a start.
fn leading(random: &mut Random, plate: Plate, set: &[i64], height: i64, count: i64) -> i64 {
    let leads = |&thickness: &i64| {
        let (start, below) = (height - thickness, count - 1);
        start - below * plate.tmin >= plate.lowest() && start - below * plate.tmax <= 0
    };
    let is_outside = height <= 0 || height > plate.height;
    let tries = [(); 4].map(|()| {
        let led = height - edge(random, plate);
        thickness(random, plate, set, led, is_outside)
    });
    tries.into_iter().find(leads).unwrap_or(tries[0])
}

/// A height at which a layer may just end, or just not: 1 and 0 for the first, N−1 and N for the last but one.
fn edge(random: &mut Random, plate: Plate) -> i64 {
    random.pick(&[0, 1, plate.height - 1, plate.height])
}

/// The one that leads to an edge, if it is allowed; outside the plate often the thinnest; else any.
fn thickness(random: &mut Random, plate: Plate, set: &[i64], led: i64, is_outside: bool) -> i64 {
    if plate.allows(led) {
        led
    } else if is_outside && random.one_in(2) {
        plate.tmin
    } else {
        random.pick(set)
    }
}

fn damage_entries(random: &mut Random, plate: Plate, sheets: &mut Sheets) {
    let entries = sheets.errors.len();
    let part = 1 + entries as u64 / random.pick(&[4, 40, 400]);
    for _ in 0..part {
        let any = random.word() as u8;
        let allowed = random.within(1, plate.tmax) as u8;
        sheets.thicknesses[random.index(entries)] = random.pick(&[0, 1, 32, 33, allowed, any]);
        let any = random.word();
        sheets.errors[random.index(entries)] = random.pick(&[0, 1, u64::MAX, u64::MAX - 1, any]);
    }
}

pub fn count(random: &mut Random, plate: Plate) -> u32 {
    let greatest = plate.counts() as u32;
    let any = random.word() as u32;
    match random.below(20) {
        0 => random.pick(&[0, greatest + 1, u32::MAX, any]),
        1 => greatest,
        2 => 1,
        _ => 1 + random.below(u64::from(greatest)) as u32,
    }
}

// ---- Sequences ----

/// Boundaries that rise by allowed thicknesses, mostly from the plate's foot to its top, then damaged now and then.
pub fn sequence(random: &mut Random, plate: Plate) -> Vec<i32> {
    let mut sequence = rising(random, plate);
    for _ in 0..random.pick(&[0, 0, 0, 1, 1, 3]) {
        damage_sequence(random, plate, &mut sequence);
    }
    sequence
}

/// Many have z1 above 0 and their last boundary but one below N; others have layers wholly under or over the plate.
fn rising(random: &mut Random, plate: Plate) -> Vec<i32> {
    let (top, highest) = (plate.height, plate.highest());
    let set: Vec<i64> = plate.thicknesses().collect();
    let mut layer = thickness(random, plate, &set, 0, true);
    let (good, any) = (random.within(1 - layer, 0), random.within(plate.lowest(), 0));
    let mut z = random.pick(&[good, good, 1 - layer, -layer, any]).max(plate.lowest());
    let some = random.within(top, highest);
    let end = random.pick(&[top, top, top, some, some, highest, highest + 1, 0]);
    let mut sequence = vec![z as i32];
    while z < end {
        z += layer;
        sequence.push(z as i32);
        let led = edge(random, plate) - z;
        layer = thickness(random, plate, &set, led, z < 0 || z >= top);
    }
    sequence
}

fn damage_sequence(random: &mut Random, plate: Plate, sequence: &mut Vec<i32>) {
    let place = random.index(sequence.len() + 1);
    let (any, near, top) = (random.word() as i32, random.within(-70, 600) as i32, plate.height as i32);
    let value = random.pick(&[any, near, near, i32::MIN, i32::MAX, -32, 0, 1, top - 1, top]);
    match random.below(5) {
        0 => sequence.insert(place, value),
        1 if place < sequence.len() => sequence[place] = value,
        2 if place < sequence.len() => sequence[place] = sequence[place].wrapping_add(random.pick(&[-1, 1, 32, -33])),
        3 => sequence.truncate(place),
        _ => sequence.push(value),
    }
}

// ---- Columns to be saved ----

/// One run of boundaries, column after column, and a count for each column.
#[derive(Clone)]
pub struct Run {
    pub boundaries: Vec<u16>,
    pub counts: Vec<u16>,
}

impl Run {
    pub fn of(columns: &[Vec<u16>]) -> Run {
        Run { boundaries: columns.concat(), counts: columns.iter().map(|column| column.len() as u16).collect() }
    }

    /// How many boundaries the counts say.
    pub fn stated(&self) -> usize {
        self.counts.iter().map(|&count| usize::from(count)).sum()
    }
}

/// Columns as a caller might hand them in to be saved, mostly good.
pub fn run(random: &mut Random, plate: Plate) -> Run {
    let some = random.below(30);
    let number = random.pick(&[0, 1, 2, 3, some, some]);
    let good = !random.one_in(4);
    let column = |_| if good { column(random, plate.height) } else { handed_column(random, plate) };
    let mut run = Run::of(&(0..number).map(column).collect::<Vec<_>>());
    while random.one_in(3) {
        damage_run(random, plate, &mut run);
    }
    if random.one_in(300) {
        run.counts.resize(MOST_COLUMNS as usize + random.pick(&[1, 2]), random.pick(&[0, 1]));
    }
    run
}

/// Changes a count or a boundary, or adds columns that the run may not have.
fn damage_run(random: &mut Random, plate: Plate, run: &mut Run) {
    let (top, near) = (plate.height as u16, random.within(0, 70) as u16);
    let count = random.pick(&[near, near, near & !1, 64, 65, 66, 128, 256, 65_534, 65_535]);
    let boundary = random.pick(&[0, 1, top - 1, top, top + 1, near, top | 256, 65_535]);
    let column = random.index(run.counts.len().max(1));
    let place = random.index(run.boundaries.len().max(1));
    match random.below(5) {
        0 if column < run.counts.len() => run.counts[column] = count,
        1 if column < run.counts.len() => run.counts.swap(column, 0),
        2 if place < run.boundaries.len() => run.boundaries[place] = boundary,
        3 if place > 0 => run.boundaries.swap(place, place - 1),
        _ => run.counts.extend(vec![random.pick(&[0, 0, 2, near]); random.pick(&[1, 2, 40])]),
    }
}

// ---- Job files ----

pub fn record(file: &mut Vec<u8>, kind: u16, body: &[u8]) {
    file.extend((body.len() as u16).to_le_bytes());
    file.extend(kind.to_le_bytes());
    file.extend(body);
}

pub fn settings_record(file: &mut Vec<u8>, height: u32, set: u32, bound: u32) {
    let mut body = (height as u16).to_le_bytes().to_vec();
    body.extend(set.to_le_bytes());
    body.extend(bound.to_le_bytes());
    record(file, 1, &body);
}

pub fn column_record(file: &mut Vec<u8>, column: &[u16]) {
    let body: Vec<u8> = column.iter().flat_map(|b| b.to_le_bytes()).collect();
    record(file, 2, &body);
}

pub fn end_record(file: &mut Vec<u8>, columns: u32) {
    record(file, 3, &columns.to_le_bytes());
}

/// A job file: good, with a fault of its own making, or damaged afterwards.
pub fn file(random: &mut Random, plate: Plate) -> Vec<u8> {
    let (height, set) = named(random, plate);
    let mut file = Vec::new();
    remarks(random, &mut file);
    settings_record(&mut file, height, set, random.word() as u32);
    let number = random.below(12);
    let good = random.one_in(2);
    for _ in 0..number {
        remarks(random, &mut file);
        let column = if good { column(random, plate.height) } else { handed_column(random, plate) };
        column_record(&mut file, &column);
    }
    remarks(random, &mut file);
    let wrong = random.word() as u32;
    let told = random.pick(&[number as u32; 9]);
    end_record(&mut file, if random.one_in(15) { random.pick(&[wrong, told + 1, told + 65_536]) } else { told });
    if random.one_in(2) {
        damage_file(random, &mut file);
    }
    file
}

fn remarks(random: &mut Random, file: &mut Vec<u8>) {
    while random.one_in(4) {
        let body: Vec<u8> = (0..random.pick(&[0, 1, 5, 300])).map(|_| random.word() as u8).collect();
        record(file, random.pick(&[32_768, 65_535, 40_001]), &body);
    }
}

fn damage_file(random: &mut Random, file: &mut Vec<u8>) {
    for _ in 0..random.pick(&[1, 1, 1, 3]) {
        let place = random.index(file.len() + 1);
        let byte = random.word() as u8;
        match random.below(6) {
            0 => file.truncate(place),
            1 => file.insert(place, byte),
            2 if place < file.len() => {
                file.remove(place);
            }
            3 if place < file.len() => file[place] ^= 1 << random.below(8),
            4 => file.extend((0..random.below(12)).map(|_| random.word() as u8)),
            _ => damage_record(random, file),
        }
    }
}

/// Changes a record's length or kind, takes it out or sets it twice.
fn damage_record(random: &mut Random, file: &mut Vec<u8>) {
    let places = record_places(file);
    if places.is_empty() {
        return;
    }
    let (from, to) = random.pick(&places);
    match random.below(4) {
        0 => file[from] = file[from].wrapping_add(random.pick(&[1, 2, 255, 254])),
        1 => {
            let any = random.word() as u16;
            let kind: u16 = random.pick(&[0, 1, 2, 3, 4, 5, 32_767, 32_768, 65_535, any]);
            file[from + 2..from + 4].copy_from_slice(&kind.to_le_bytes());
        }
        2 => {
            file.drain(from..to);
        }
        _ => {
            let record = file[from..to].to_vec();
            let (at, _) = random.pick(&places);
            file.splice(at..at, record);
        }
    }
}

/// Where the records begin and end, as far as the file can be followed.
fn record_places(file: &[u8]) -> Vec<(usize, usize)> {
    let mut places = Vec::new();
    let mut at = 0;
    while at + 4 <= file.len() {
        let end = at + 4 + usize::from(u16::from_le_bytes([file[at], file[at + 1]]));
        if end > file.len() {
            break;
        }
        places.push((at, end));
        at = end;
    }
    places
}

// ---- Table files ----

/// Kind 16, with whatever settings and count.
pub fn opening_record(file: &mut Vec<u8>, head: Head) {
    let mut body = (head.height as u16).to_le_bytes().to_vec();
    body.extend(head.set.to_le_bytes());
    body.extend(head.columns.to_le_bytes());
    record(file, 16, &body);
}

pub fn row_record(file: &mut Vec<u8>, start: i64, cells: &[u32]) {
    let mut body = (start as i16).to_le_bytes().to_vec();
    body.extend(cells.iter().flat_map(|cell| cell.to_le_bytes()));
    record(file, 17, &body);
}

pub fn rows_record(file: &mut Vec<u8>, rows: i64) {
    record(file, 18, &(rows as u16).to_le_bytes());
}

/// The file of a table, with the head's settings and count and the plate's rows: good where these agree and the table is in bounds.
pub fn table_file(plate: Plate, head: Head, cells: &[u32]) -> Vec<u8> {
    let mut file = Vec::new();
    opening_record(&mut file, head);
    for (start, row) in (plate.lowest()..=plate.last_start()).zip(cells.chunks(plate.tmax as usize)) {
        row_record(&mut file, start, row);
    }
    rows_record(&mut file, plate.rows());
    file
}

/// A table's head as `named_head` gives it, the count now and then above the most.
pub fn handed_head(random: &mut Random, plate: Plate, head: Head) -> Head {
    let head = named_head(random, plate, head);
    if !random.one_in(20) {
        return head;
    }
    Head { columns: random.pick(&[MOST_COLUMNS + 1, MOST_COLUMNS + 1, u32::MAX]), ..head }
}

/// A table file as it might come in: good, with a fault of its own making, or damaged afterwards.
pub fn handed_table_file(random: &mut Random, plate: Plate, size: Size) -> Vec<u8> {
    let mut table = table(random, plate, size);
    if random.one_in(2) {
        damage_table(random, plate, &mut table);
    }
    let head = handed_head(random, plate, table.head);
    let mut file = table_file(plate, head, &table.cells);
    if !random.one_in(3) {
        for _ in 0..random.pick(&[1, 1, 1, 2, 3]) {
            damage_table_file(random, plate, &mut file);
        }
    }
    file
}

fn damage_table_file(random: &mut Random, plate: Plate, file: &mut Vec<u8>) {
    let places = record_places(file);
    if places.len() < 3 || random.one_in(5) {
        damage_file(random, file);
        return;
    }
    let last = places.len() - 1;
    let (any, row) = (random.pick(&places), places[1 + random.index(last - 1)]);
    let one = random.pick(&[any, any, places[0], places[last]]);
    match random.below(12) {
        0 | 1 => cut_near(random, one, file),
        2 => file.extend((0..random.pick(&[1, 1, 2, 3, 4, 6, 10])).map(|_| random.pick(&[0, 0, 2, 18, 255]))),
        3 | 4 => {
            let (rows, any) = (plate.rows() as u16, random.word() as u16);
            let told = random.pick(&[rows - 1, rows + 1, rows + 256, 0, any]);
            change(file, places[last].1 - 2, &told.to_le_bytes());
        }
        5 | 6 => damage_row(random, plate, row, file),
        7 | 8 => damage_kind_or_length(random, &TABLE_KINDS, one, file),
        _ => move_records(random, plate, &places, file),
    }
}

/// Puts the bytes over those at the place, as far as there are any.
fn change(file: &mut [u8], place: usize, bytes: &[u8]) {
    file.iter_mut().skip(place).zip(bytes).for_each(|(held, byte)| *held = *byte);
}

/// Cuts the file where a record begins, within its head or its body, or before its last byte.
fn cut_near(random: &mut Random, (from, to): (usize, usize), file: &mut Vec<u8>) {
    let (head, body) = (from + 1 + random.index(3), (from + 4 + random.index(to - from)).min(to));
    file.truncate(random.pick(&[from, head, body, to - 1]));
}

/// Another start, a cell at its limit or out of bounds, or both in one row.
fn damage_row(random: &mut Random, plate: Plate, (from, to): (usize, usize), file: &mut [u8]) {
    let way = random.below(3);
    if way != 1 {
        let start = i16::from_le_bytes([file[from + 4], file[from + 5]]);
        let any = random.word() as i16;
        let near = [start.wrapping_add(1), start.wrapping_sub(1), start.wrapping_add(2), start ^ 256];
        let far = [start.wrapping_neg(), start.wrapping_neg(), start ^ i16::MIN, start & 255, any];
        let other = if random.one_in(2) { random.pick(&near) } else { random.pick(&far) };
        change(file, from + 4, &other.to_le_bytes());
    }
    if way != 0 {
        let told = file[..from].get(10..14).map_or([0; 4], |four| [four[0], four[1], four[2], four[3]]);
        let columns = u32::from_le_bytes(told).min(MOST_COLUMNS);
        for _ in 0..random.pick(&[1, 1, 2]) {
            let cell = random.index(plate.tmax as usize);
            let (limit, whole) = (plate.limit(cell, columns), columns * (cell as u32 + 1));
            let value = random.pick(&[limit, limit + 1, limit + 1, whole, whole + 1, u32::MAX]);
            if from + 10 + 4 * cell <= to {
                change(file, from + 6 + 4 * cell, &value.to_le_bytes());
            }
        }
    }
}

const TABLE_KINDS: [u16; 15] = [16, 17, 18, 16, 17, 18, 19, 15, 1, 2, 3, 0x1110, 0x0111, 0x0112, 32_768];

/// Another kind, one of these or any; another length, told only or with a body to it.
fn damage_kind_or_length(random: &mut Random, kinds: &[u16; 15], (from, to): (usize, usize), file: &mut Vec<u8>) {
    let any = random.word() as u16;
    let kind = kinds.get(random.index(kinds.len() + 1)).copied().unwrap_or(any);
    let length = (to - from - 4) as u16;
    let near = [length.wrapping_add(1), length.wrapping_sub(1), length.wrapping_add(4), length.wrapping_sub(4)];
    let other = if random.one_in(2) { random.pick(&near) } else { random.pick(&[length ^ 256, 0, 2, 10]) };
    match random.below(4) {
        0 => change(file, from, &other.to_le_bytes()),
        1 if other < 200 => {
            change(file, from, &other.to_le_bytes());
            let mut body = file[from + 4..to].to_vec();
            body.resize(usize::from(other), 0);
            file.splice(from + 4..to, body);
        }
        _ => change(file, from + 2, &kind.to_le_bytes()),
    }
}

/// Rows swapped, missing, twice or too many, below the first or past the last; an end or an opening where rows are; a remark.
fn move_records(random: &mut Random, plate: Plate, places: &[(usize, usize)], file: &mut Vec<u8>) {
    let mut records: Vec<Vec<u8>> = places.iter().map(|&(from, to)| file[from..to].to_vec()).collect();
    let rest = file[places[places.len() - 1].1..].to_vec();
    let last = records.len() - 1;
    let (one, other) = (random.index(last + 1), random.index(last + 1));
    let row = 1 + random.index(last - 1);
    let zeros = vec![0; plate.tmax as usize];
    let mut more = Vec::new();
    match random.below(11) {
        0 => records.swap(one, other),
        1 => records.swap(row, (row + 1).min(last)),
        2 => {
            records.remove(random.pick(&[one, row, row, 1, last - 1]));
        }
        3 => records.insert(random.pick(&[1, other]), records[random.pick(&[0, one])].clone()),
        4 => records.insert(row, records[row].clone()),
        5 | 6 => {
            row_record(&mut more, plate.last_start() + random.pick(&[1, 1, 1, 0, 2]), &zeros);
            records.insert(last, more);
        }
        7 => {
            row_record(&mut more, plate.lowest() - 1, &zeros);
            records.insert(1, more);
        }
        8 => records.insert(random.pick(&[1, row, last]), records[last].clone()),
        9 => {
            let early = random.pick(&[1, row]);
            records.drain(early..last);
            if random.one_in(2) {
                records.pop();
                rows_record(&mut more, early as i64 - 1);
                records.push(more);
            }
        }
        _ => {
            let body = vec![7; random.pick(&[0, 1, 12])];
            record(&mut more, random.pick(&[32_768, 65_535]), &body);
            records.insert(random.pick(&[0, 1, row, last, last + 1]), more);
        }
    }
    *file = records.concat();
    file.extend(rest);
}

// ---- Orders ----

/// Mostly a step, now and then a number that is none.
pub fn step(random: &mut Random) -> u32 {
    let (some, any) = (random.within(1, 8_192) as u32, random.word() as u32);
    match random.below(30) {
        0 => random.pick(&[0, 8_193, 65_536 + some, u32::MAX, any]),
        1 => 8_192,
        2 => 1,
        3..=9 => 15,
        _ => some,
    }
}

/// A time for each thickness up to tmax: often all above 0, else some 0 and now and then all.
pub fn cure(random: &mut Random, plate: Plate) -> Vec<u16> {
    let zero_in = random.pick(&[u64::MAX, u64::MAX, u64::MAX, 12, 4, 2]);
    let zeros = random.one_in(40);
    let alike = random.one_in(10);
    let entry = |_| {
        let any = random.word() as u16;
        match random.one_in(zero_in) || zeros {
            true => 0,
            false if alike => 128,
            false => random.pick(&[1, 2, 64, 128, 160, 255, 256, 32_768, 65_535, any.max(1), any.max(1)]),
        }
    };
    (0..plate.tmax).map(entry).collect()
}

/// The plate with the thicknesses alone that have a cure time, as long as there is one; its starts and ends stay.
fn cured(plate: Plate, cure: &[u16]) -> Plate {
    let is_cured = |t: &i64| cure[*t as usize - 1] > 0;
    let mut usable = plate.thicknesses().filter(is_cured);
    let Some(tmin) = usable.next() else { return plate };
    let set = usable.map(|t| 1 << (t - 1)).sum::<u32>() | 1 << (tmin - 1);
    Plate { set, tmin, ..plate }
}

/// An admissible sequence, of any thicknesses or mostly of the thinnest or the thickest; many begin as high or as low as the first layer lets them.
fn admissible(random: &mut Random, plate: Plate) -> Vec<i32> {
    let set: Vec<i64> = plate.thicknesses().collect();
    let mostly = random.pick(&[None, None, set.first().copied(), set.first().copied(), set.last().copied()]);
    let mut thickness = || mostly.filter(|_| !random.one_in(40)).unwrap_or_else(|| random.pick(&set));
    let first = thickness();
    let mut layers = vec![first];
    while layers.iter().sum::<i64>() - first < plate.height {
        layers.push(thickness());
    }
    let start = random.within(1 - first, 0);
    let mut z = random.pick(&[0, 1 - first, start]);
    let mut sequence = vec![z as i32];
    for layer in layers {
        if z < plate.height {
            z += layer;
            sequence.push(z as i32);
        }
    }
    sequence
}

/// A sequence as a caller might hand it in to be printed: mostly admissible and of layers that have a cure time.
pub fn printed_sequence(random: &mut Random, plate: Plate, cure: &[u16]) -> Vec<i32> {
    let plate = if random.one_in(3) { plate } else { cured(plate, cure) };
    match random.below(10) {
        0 | 1 => sequence(random, plate),
        2 => {
            let mut sequence = admissible(random, plate);
            damage_sequence(random, plate, &mut sequence);
            sequence
        }
        _ => admissible(random, plate),
    }
}

pub fn lift_record(file: &mut Vec<u8>, step: u32, rise: i64) {
    record(file, 48, &((rise * i64::from(step)) as f32 / 8.0).to_le_bytes());
}

pub fn cure_record(file: &mut Vec<u8>, entry: u16) {
    record(file, 49, &(f32::from(entry) / 64.0).to_le_bytes());
}

pub fn finish_record(file: &mut Vec<u8>, layers: usize) {
    record(file, 50, &(layers as u16).to_le_bytes());
}

/// A lift and a cure; the list's first entry where it has none for the thickness.
fn layer_records(file: &mut Vec<u8>, step: u32, cure: &[u16], rise: i64, thickness: i64) {
    lift_record(file, step, rise);
    cure_record(file, cure.get((thickness - 1) as usize).copied().unwrap_or(cure[0]));
}

/// The order file of a sequence that rises, admissible or not.
pub fn order_file(step: u32, cure: &[u16], sequence: &[i32]) -> Vec<u8> {
    let mut file = Vec::new();
    for pair in sequence.windows(2) {
        layer_records(&mut file, step, cure, i64::from(pair[1] - sequence[0]), i64::from(pair[1] - pair[0]));
    }
    finish_record(&mut file, sequence.len() - 1);
    file
}

/// An order file as it might come in: of an admissible sequence, or of one with too few layers or too many, then damaged or not.
pub fn handed_order_file(random: &mut Random, plate: Plate, step: u32, cure: &[u16]) -> Vec<u8> {
    let usable = if random.one_in(8) { plate } else { cured(plate, cure) };
    let any = rising(random, usable);
    let sequence = if any.len() > 1 && random.one_in(4) { any } else { admissible(random, usable) };
    let mut file = order_file(step, cure, &sequence);
    if random.one_in(2) {
        for _ in 0..random.pick(&[1, 1, 1, 2, 3]) {
            damage_order_file(random, plate, step, cure, &mut file);
        }
    }
    file
}

const ORDER_KINDS: [u16; 15] = [48, 49, 50, 48, 49, 50, 47, 51, 3, 16, 0x3030, 0x0130, 0x0131, 0x0132, 32_768];

fn damage_order_file(random: &mut Random, plate: Plate, step: u32, cure: &[u16], file: &mut Vec<u8>) {
    let places = record_places(file);
    if places.is_empty() || random.one_in(8) {
        damage_file(random, file);
        return;
    }
    let last = places[places.len() - 1];
    let any = random.pick(&places);
    let one = random.pick(&[any, any, last]);
    match random.below(16) {
        0 | 1 => cut_near(random, one, file),
        2 if random.one_in(2) => file.extend_from_within(one.0..one.1),
        2 => file.extend((0..random.pick(&[1, 1, 2, 3, 4, 6, 8])).map(|_| random.pick(&[0, 0, 2, 50, 255]))),
        3..=6 => damage_amount(random, step, &places, any, file),
        7 | 8 => {
            let (layers, any) = ((places.len() / 2) as u16, random.word() as u16);
            let told = random.pick(&[layers.wrapping_sub(1), layers + 1, layers + 256, 0, any]);
            change(file, last.1 - 2, &told.to_le_bytes());
        }
        9 | 10 => damage_kind_or_length(random, &ORDER_KINDS, one, file),
        11 | 12 => finish_early(random, &places, file),
        13 => one_layer_more(random, plate, step, cure, &places, file),
        _ => move_orders(random, &places, file),
    }
}

/// Another float: the neighbours of the one that is there, other signs, powers of 2, units and records, and what is no number.
fn damage_amount(
    random: &mut Random,
    step: u32,
    places: &[(usize, usize)],
    (from, to): (usize, usize),
    file: &mut [u8],
) {
    if to - from != 8 {
        return;
    }
    let bits_at = |place: usize| u32::from_le_bytes([file[place], file[place + 1], file[place + 2], file[place + 3]]);
    let bits = bits_at(from + 4);
    let unit = step as f32 / 8.0;
    let (up, down) = ((f32::from_bits(bits) + unit).to_bits(), (f32::from_bits(bits) - unit).to_bits());
    let near =
        [bits.wrapping_add(1), bits.wrapping_sub(1), up, down, bits ^ 1 << 31, bits ^ 1 << 23, bits.swap_bytes()];
    let any = random.word() as u32;
    let far = [0, 1 << 31, 1 << 31, f32::NAN.to_bits(), f32::NAN.to_bits(), f32::INFINITY.to_bits(), 1, any];
    let (other, end) = random.pick(places);
    let another = if end - other == 8 { bits_at(other + 4) } else { up };
    let value = match random.below(6) {
        0 | 1 => random.pick(&far),
        2 => another,
        _ => random.pick(&near),
    };
    change(file, from + 4, &value.to_le_bytes());
}

/// A finish in the place of some layer, often the last, which mostly tells the layers before it.
fn finish_early(random: &mut Random, places: &[(usize, usize)], file: &mut Vec<u8>) {
    let (all, any) = (places.len() / 2, random.index(places.len() / 2 + 1));
    let layers = random.pick(&[all.saturating_sub(1), any]);
    file.truncate(places[(2 * layers).min(places.len() - 1)].0);
    finish_record(file, layers + random.pick(&[0, 0, 0, 1]));
}

/// One more layer on top of the last, by a thickness that has a cure time or by any, and the finish that goes with it.
fn one_layer_more(
    random: &mut Random,
    plate: Plate,
    step: u32,
    cure: &[u16],
    places: &[(usize, usize)],
    file: &mut Vec<u8>,
) {
    let layers = places.len() / 2;
    let usable: Vec<i64> = cured(plate, cure).thicknesses().collect();
    let (any, some) = (random.within(1, plate.tmax + 1), random.pick(&usable));
    let thickness = random.pick(&[some, some, some, any]);
    let top = places.get(2 * layers.saturating_sub(1)).and_then(|&(from, _)| file.get(from + 4..from + 8));
    let height = top.map_or(0.0, |four| f32::from_le_bytes([four[0], four[1], four[2], four[3]]));
    let rise = (f64::from(height) * 8.0 / f64::from(step.max(1))).round() as i64;
    file.truncate(places[places.len() - 1].0);
    layer_records(file, step, cure, rise.clamp(0, 600) + thickness, thickness);
    finish_record(file, layers + 1);
}

/// Records swapped, missing or twice; layers missing or twice; a remark.
fn move_orders(random: &mut Random, places: &[(usize, usize)], file: &mut Vec<u8>) {
    let mut records: Vec<Vec<u8>> = places.iter().map(|&(from, to)| file[from..to].to_vec()).collect();
    let rest = file[places[places.len() - 1].1..].to_vec();
    let last = records.len() - 1;
    let (one, other) = (random.index(last + 1), random.index(last + 1));
    let layer = one / 2 * 2;
    match random.below(7) {
        0 => records.swap(one, other),
        1 => records.swap(one, (one + 1).min(last)),
        2 => {
            records.remove(one);
        }
        3 => records.insert(other, records[one].clone()),
        4 => {
            records.drain(layer..(layer + 2).min(last));
        }
        5 => {
            let twice = records[layer..(layer + 2).min(last)].to_vec();
            records.splice(layer..layer, twice);
        }
        _ => {
            let mut remark = Vec::new();
            record(&mut remark, random.pick(&[32_768, 65_535]), &vec![7; random.pick(&[0, 1, 4])]);
            records.insert(random.pick(&[0, one, last, last + 1]), remark);
        }
    }
    *file = records.concat();
    file.extend(rest);
}

/// An order's number: mostly one of the file's, now and then the last ones, past them, or far beyond.
pub fn order_number(random: &mut Random, file: &[u8]) -> u32 {
    let orders = (file.len() / 8) as u64;
    let (some, any) = (random.below(orders + 3) as u32, random.word() as u32);
    random.pick(&[some, some, some, 0, 1, orders as u32, 65_536 + some, u32::MAX, any])
}
