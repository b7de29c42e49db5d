// Document 01 once more, with 02's a) to c) and e), the writer of job files, no layer with nothing on it, table files, and order files, in plain
// safe Rust: every call by its definition, voxel by voxel and cell by cell.
// Each call first gives the refusals in document 01's order; only after the last of them is anything lent written.
// Heights, starts and thicknesses are i64 here, so that no difference of two inputs can overflow.

pub const NONE: u64 = u64::MAX;
pub const MOST_HEIGHT: u32 = 512;
pub const MOST_THICKNESS: i64 = 32;
pub const MOST_COLUMNS: u32 = 1_000_000;
pub const MOST_BOUNDARIES: usize = 64;
pub const MOST_STEP: u32 = 8_192;

#[derive(Clone, Copy, Debug, PartialEq, Eq)]
pub struct Refusal {
    pub number: u32,
    pub place: u64,
}

pub type Answer<T> = Result<T, Refusal>;

fn refuse<T>(number: u32, place: u64) -> Answer<T> {
    Err(Refusal { number, place })
}

/// Refusal `number` at the place, where there is one.
fn refuse_at(number: u32, place: Option<usize>) -> Answer<()> {
    match place {
        Some(p) => refuse(number, p as u64),
        None => Ok(()),
    }
}

// ---- Plate ----

/// Settings that 1 and 2 let through.
#[derive(Clone, Copy, Debug, PartialEq, Eq)]
pub struct Plate {
    pub height: i64,
    pub set: u32,
    pub tmin: i64,
    pub tmax: i64,
}

/// Whether bit k−1 is set for the thickness k.
pub fn in_set(set: u32, thickness: i64) -> bool {
    (1..=MOST_THICKNESS).contains(&thickness) && (set >> (thickness - 1)) & 1 == 1
}

impl Plate {
    pub fn new(height: u32, set: u32) -> Answer<Plate> {
        if !(1..=MOST_HEIGHT).contains(&height) {
            return refuse(1, 0);
        }
        let mut members = (1..=MOST_THICKNESS).filter(|&t| in_set(set, t));
        let tmin = match members.next() {
            Some(first) => first,
            None => return refuse(2, 0),
        };
        let tmax = members.next_back().unwrap_or(tmin);
        let height = i64::from(height);
        Ok(Plate { height, set, tmin, tmax })
    }

    /// What goes with a table of so many columns that was made for these settings.
    pub fn head(self, columns: u32) -> Head {
        Head { height: self.height as u32, set: self.set, columns }
    }

    pub fn allows(self, thickness: i64) -> bool {
        in_set(self.set, thickness)
    }

    pub fn thicknesses(self) -> impl Iterator<Item = i64> {
        (self.tmin..=self.tmax).filter(move |&t| self.allows(t))
    }

    pub fn lowest(self) -> i64 {
        -(self.tmax - 1)
    }

    pub fn last_start(self) -> i64 {
        self.height + self.tmax - 2
    }

    pub fn highest(self) -> i64 {
        self.height + self.tmax - 1
    }

    /// The starts of a table.
    pub fn rows(self) -> i64 {
        self.height + 2 * self.tmax - 2
    }

    pub fn cells(self) -> usize {
        (self.rows() * self.tmax) as usize
    }

    /// The bytes of a table file: 14 of the head, 6 and the cells of each row, 6 of the end.
    pub fn file_bytes(self) -> usize {
        (14 + self.rows() * (6 + 4 * self.tmax) + 6) as usize
    }

    /// M, the greatest count asked for: document 02, b).
    pub fn counts(self) -> usize {
        if self.height == 1 {
            return 1;
        }
        ((self.height - 2) / self.tmin + 2) as usize
    }

    /// The entries of a sheet.
    pub fn entries(self) -> usize {
        (self.height + 2 * self.tmax - 1) as usize * (self.counts() + 1)
    }

    /// Document 02, b): z1 is above 0, so that no layer is wholly under the plate.
    fn may_end_first(self, first_end: i64) -> bool {
        first_end > 0
    }

    /// Document 02, b): the last boundary but one is below N, so that no layer is wholly over the plate.
    fn may_start_last(self, last_start: i64) -> bool {
        last_start < self.height
    }

    pub fn cell(self, start: i64, thickness: i64) -> usize {
        ((start - self.lowest()) * self.tmax + thickness - 1) as usize
    }

    /// The start and the thickness of a cell.
    pub fn layer(self, cell: usize) -> (i64, i64) {
        let cell = cell as i64;
        (self.lowest() + cell / self.tmax, cell % self.tmax + 1)
    }

    pub fn entry(self, height: i64, count: usize) -> usize {
        (height - self.lowest()) as usize * (self.counts() + 1) + count
    }

    /// What a cell may hold at most in a table of so many columns.
    pub fn limit(self, cell: usize, columns: u32) -> u32 {
        let (_, thickness) = self.layer(cell);
        if self.allows(thickness) {
            columns * (thickness / 2) as u32
        } else {
            0
        }
    }
}

/// What a caller says goes with a table: settings and a column count, of any numbers. It crosses the C interface as it is.
#[repr(C)]
#[derive(Clone, Copy, Debug, PartialEq, Eq)]
pub struct Head {
    pub height: u32,
    pub set: u32,
    pub columns: u32,
}

impl Head {
    /// Its settings, or 1 or 2.
    pub fn plate(self) -> Answer<Plate> {
        Plate::new(self.height, self.set)
    }
}

pub fn cells(height: u32, set: u32) -> Answer<u64> {
    Plate::new(height, set).map(|plate| plate.cells() as u64)
}

pub fn entries(height: u32, set: u32) -> Answer<u64> {
    Plate::new(height, set).map(|plate| plate.entries() as u64)
}

pub fn counts(height: u32, set: u32) -> Answer<u64> {
    Plate::new(height, set).map(|plate| plate.counts() as u64)
}

// ---- Refusals shared by several calls ----

/// 3: pairs of a lent length and the stated one, in the call's order.
fn check_lent(lent: &[(usize, usize)]) -> Answer<()> {
    let short = lent.iter().position(|&(length, stated)| length < stated);
    refuse_at(3, short.map(|i| i + 1))
}

/// 7, for a table's count.
fn check_columns(columns: u32) -> Answer<()> {
    if columns > MOST_COLUMNS {
        return refuse(7, 0);
    }
    Ok(())
}

/// 7, where one more column is to be added.
fn check_room(columns: u32) -> Answer<()> {
    if columns >= MOST_COLUMNS {
        return refuse(7, 0);
    }
    Ok(())
}

/// 4 and 5.
fn check_column(plate: Plate, column: &[u16]) -> Answer<()> {
    if column.len() % 2 == 1 || column.len() > MOST_BOUNDARIES {
        return refuse(4, column.len() as u64);
    }
    let bad = |&i: &usize| {
        let not_above = i > 0 && column[i] <= column[i - 1];
        not_above || i64::from(column[i]) > plate.height
    };
    refuse_at(5, (0..column.len()).find(bad))
}

/// 6, for every cell of a table.
fn check_cells(plate: Plate, table: &[u32], columns: u32) -> Answer<()> {
    let bad = |&i: &usize| table[i] > plate.limit(i, columns);
    refuse_at(6, (0..plate.cells()).find(bad))
}

// ---- Columns and layers ----

/// Whether each voxel from −(tmax−1) to N+2·tmax−3 is inside: all that a layer of the table can hold.
struct Voxels {
    lowest: i64,
    inside: Vec<bool>,
}

impl Voxels {
    fn of(plate: Plate, column: &[u16]) -> Voxels {
        let lowest = plate.lowest();
        let heights = lowest..plate.last_start() + plate.tmax;
        let inside = heights.map(|z| passed(column, z) % 2 == 1).collect();
        Voxels { lowest, inside }
    }

    fn inside_of(&self, start: i64, thickness: i64) -> i64 {
        let from = (start - self.lowest) as usize;
        let voxels = &self.inside[from..from + thickness as usize];
        voxels.iter().filter(|&&inside| inside).count() as i64
    }

    fn share(&self, start: i64, thickness: i64) -> u32 {
        let inside = self.inside_of(start, thickness);
        inside.min(thickness - inside) as u32
    }

    fn fills(&self, start: i64, thickness: i64) -> bool {
        let inside = self.inside_of(start, thickness);
        inside > thickness - inside
    }

    /// Inside minus outside.
    fn difference(&self, start: i64, thickness: i64) -> i32 {
        let inside = self.inside_of(start, thickness);
        (2 * inside - thickness) as i32
    }
}

/// How many boundaries are at or below the voxel.
fn passed(column: &[u16], z: i64) -> usize {
    column.iter().filter(|&&b| i64::from(b) <= z).count()
}

#[derive(Clone, Copy, Debug, PartialEq, Eq)]
pub struct Picture {
    pub filled: bool,
    pub share: u32,
    pub difference: i32,
}

pub fn picture(height: u32, set: u32, column: &[u16], start: i32, thickness: u32) -> Answer<Picture> {
    let plate = Plate::new(height, set)?;
    check_column(plate, column)?;
    let (start, thickness) = (i64::from(start), i64::from(thickness));
    if start < plate.lowest() || start > plate.last_start() {
        return refuse(13, 0);
    }
    if !plate.allows(thickness) {
        return refuse(13, 1);
    }
    let voxels = Voxels::of(plate, column);
    Ok(Picture {
        filled: voxels.fills(start, thickness),
        share: voxels.share(start, thickness),
        difference: voxels.difference(start, thickness),
    })
}

// ---- Table ----

pub fn clear_table(table: &mut [u32], height: u32, set: u32) -> Answer<Head> {
    let plate = Plate::new(height, set)?;
    check_lent(&[(table.len(), plate.cells())])?;
    table[..plate.cells()].fill(0);
    Ok(plate.head(0))
}

pub fn add_column(table: &mut [u32], head: Head, column: &[u16]) -> Answer<Head> {
    let plate = head.plate()?;
    check_lent(&[(table.len(), plate.cells())])?;
    check_room(head.columns)?;
    check_column(plate, column)?;
    let shares = shares(plate, column);
    let bad = |&i: &usize| shares[i] > 0 && table[i] > plate.limit(i, head.columns);
    refuse_at(6, (0..plate.cells()).find(bad))?;
    for (cell, share) in table.iter_mut().zip(&shares) {
        *cell += share;
    }
    Ok(plate.head(head.columns + 1))
}

/// What a column adds to each cell of the table.
fn shares(plate: Plate, column: &[u16]) -> Vec<u32> {
    let voxels = Voxels::of(plate, column);
    let share = |cell| {
        let (start, thickness) = plate.layer(cell);
        if plate.allows(thickness) {
            voxels.share(start, thickness)
        } else {
            0
        }
    };
    (0..plate.cells()).map(share).collect()
}

/// 1 and 2 for both, 8, 3 and 7 for either count.
fn check_two(table: &[u32], head: Head, other: &[u32], other_head: Head) -> Answer<Plate> {
    let plate = head.plate()?;
    if plate != other_head.plate()? {
        return refuse(8, 0);
    }
    check_lent(&[(table.len(), plate.cells()), (other.len(), plate.cells())])?;
    check_columns(head.columns)?;
    check_columns(other_head.columns)?;
    Ok(plate)
}

pub fn join_tables(table: &mut [u32], head: Head, other: &[u32], other_head: Head) -> Answer<Head> {
    let plate = check_two(table, head, other, other_head)?;
    let sum = head.columns + other_head.columns;
    check_columns(sum)?;
    check_cells(plate, table, head.columns)?;
    check_cells(plate, other, other_head.columns)?;
    for (cell, other) in table[..plate.cells()].iter_mut().zip(other) {
        *cell += other;
    }
    Ok(plate.head(sum))
}

pub fn take_off(table: &mut [u32], head: Head, other: &[u32], other_head: Head) -> Answer<Head> {
    let plate = check_two(table, head, other, other_head)?;
    check_cells(plate, table, head.columns)?;
    check_cells(plate, other, other_head.columns)?;
    if other_head.columns > head.columns {
        return refuse(9, 0);
    }
    let rest = head.columns - other_head.columns;
    let bad = |&i: &usize| {
        let difference = i64::from(table[i]) - i64::from(other[i]);
        difference < 0 || difference > i64::from(plate.limit(i, rest))
    };
    refuse_at(9, (0..plate.cells()).find(bad))?;
    for (cell, other) in table[..plate.cells()].iter_mut().zip(other) {
        *cell -= other;
    }
    Ok(plate.head(rest))
}

// ---- Plan ----

/// What a plan fills.
pub struct Sheets<'a> {
    pub errors: &'a mut [u64],
    pub thicknesses: &'a mut [u8],
    pub list: &'a mut [u64],
}

pub fn plan(table: &[u32], head: Head, bound: u32, sheets: Sheets) -> Answer<u64> {
    let plate = head.plate()?;
    check_lent(&[
        (table.len(), plate.cells()),
        (sheets.errors.len(), plate.entries()),
        (sheets.thicknesses.len(), plate.entries()),
        (sheets.list.len(), plate.counts()),
    ])?;
    check_columns(head.columns)?;
    check_cells(plate, table, head.columns)?;
    for height in plate.lowest()..=plate.highest() {
        for count in 0..=plate.counts() {
            let (error, thickness) = least(plate, table, bound, sheets.errors, height, count);
            sheets.errors[plate.entry(height, count)] = error;
            sheets.thicknesses[plate.entry(height, count)] = thickness as u8;
        }
    }
    for count in 1..=plate.counts() {
        sheets.list[count - 1] = lowest_end(plate, sheets.errors, count).1;
    }
    Ok(plate.counts() as u64)
}

/// The least error of so many layers ending at the height, and the last thickness of the chosen sequence; lower heights are in the sheet.
/// There the first layer of two or more was held to z1 above 0 already.
fn least(plate: Plate, table: &[u32], bound: u32, errors: &[u64], height: i64, count: usize) -> (u64, i64) {
    if count == 0 {
        return (if height <= 0 { 0 } else { NONE }, 0);
    }
    let mut best = (NONE, 0);
    if count == 1 && !plate.may_end_first(height) {
        return best;
    }
    for thickness in plate.thicknesses() {
        let start = height - thickness;
        if start < plate.lowest() {
            break;
        }
        let before = errors[plate.entry(start, count - 1)];
        let error = table[plate.cell(start, thickness)];
        let is_layer = plate.may_start_last(start) && error <= bound;
        if before != NONE && is_layer && before + u64::from(error) < best.0 {
            best = (before + u64::from(error), thickness);
        }
    }
    best
}

/// The lowest height from N up with the least entry of the count, and that entry.
fn lowest_end(plate: Plate, errors: &[u64], count: usize) -> (i64, u64) {
    let ends = plate.height..=plate.highest();
    let entries = ends.map(|h| (h, errors[plate.entry(h, count)]));
    entries.min_by_key(|&(h, error)| (error, h)).expect("there is an end")
}

// ---- Read back, recount ----

/// The sheets as a plan left them, or with anything in them.
#[derive(Clone, Copy, Debug)]
pub struct Filled<'a> {
    pub errors: &'a [u64],
    pub thicknesses: &'a [u8],
}

pub fn read_back(height: u32, set: u32, sheets: Filled, count: u32, out: &mut [i32]) -> Answer<u64> {
    let plate = Plate::new(height, set)?;
    let entries = plate.entries();
    check_lent(&[(sheets.errors.len(), entries), (sheets.thicknesses.len(), entries)])?;
    let count = count as usize;
    if count == 0 || count > plate.counts() {
        return refuse(10, 0);
    }
    check_lent(&[(0, 0), (0, 0), (out.len(), count + 1)])?;
    let (end, error) = lowest_end(plate, sheets.errors, count);
    if error == NONE {
        return refuse(11, 0);
    }
    let boundaries = walk_down(plate, sheets.thicknesses, end, count)?;
    out[..=count].copy_from_slice(&boundaries);
    Ok(error)
}

/// The boundaries from z0 up, or 12 at the first layer on the way down that is at fault.
fn walk_down(plate: Plate, thicknesses: &[u8], end: i64, count: usize) -> Answer<Vec<i32>> {
    let mut boundaries = vec![end as i32];
    let mut height = end;
    for layer in (1..=count).rev() {
        let thickness = i64::from(thicknesses[plate.entry(height, layer)]);
        let start = height - thickness;
        let is_step = plate.allows(thickness) && start >= plate.lowest();
        let first_fits = layer > 1 || plate.may_end_first(height);
        let last_fits = layer < count || plate.may_start_last(start);
        if !(is_step && first_fits && last_fits) {
            return refuse(12, layer as u64);
        }
        height = start;
        boundaries.push(height as i32);
    }
    if height > 0 {
        return refuse(12, 0);
    }
    boundaries.reverse();
    Ok(boundaries)
}

pub fn recount(table: &[u32], head: Head, bound: u32, sequence: &[i32]) -> Answer<u64> {
    let plate = head.plate()?;
    check_lent(&[(table.len(), plate.cells())])?;
    check_columns(head.columns)?;
    check_cells(plate, table, head.columns)?;
    let error = |start: i64, end: i64| table[plate.cell(start, end - start)];
    let heights = check_sequence(plate, sequence, |start, end| error(start, end) > bound)?;
    Ok(heights.windows(2).map(|pair| u64::from(error(pair[0], pair[1]))).sum())
}

/// 13, or the boundaries; `is_over` says which layers are over the bound, and is asked of layers of the table only.
fn check_sequence(plate: Plate, sequence: &[i32], is_over: impl Fn(i64, i64) -> bool) -> Answer<Vec<i64>> {
    let heights: Vec<i64> = sequence.iter().map(|&z| i64::from(z)).collect();
    if heights.len() < 2 || heights[0] < plate.lowest() || heights[0] > 0 {
        return refuse(13, 0);
    }
    let last = heights.len() - 1;
    for i in 1..=last {
        let (start, end) = (heights[i - 1], heights[i]);
        if !plate.allows(end - start) || end > plate.highest() {
            return refuse(13, i as u64);
        }
        let first_fits = i > 1 || plate.may_end_first(end);
        let last_fits = i < last || plate.may_start_last(start) && end >= plate.height;
        if is_over(start, end) || !first_fits || !last_fits {
            return refuse(13, i as u64);
        }
    }
    Ok(heights)
}

// ---- Motor height ----

pub fn motor_height(step: u32, boundary: i32) -> Answer<f32> {
    check_step(step)?;
    if !(-31..=543).contains(&boundary) {
        return refuse(15, 0);
    }
    Ok(part(boundary * step as i32, EIGHTHS))
}

/// 14.
fn check_step(step: u32) -> Answer<()> {
    if !(1..=MOST_STEP).contains(&step) {
        return refuse(14, 0);
    }
    Ok(())
}

/// Of which power of 2 the parts are that heights are given in, and cure times.
const EIGHTHS: u32 = 3;
const SIXTY_FOURTHS: u32 = 6;

/// The f32 that is so many parts of 2^`parts` to the whole, put together from sign, exponent and digits; positive zero for 0.
fn part(number: i32, parts: u32) -> f32 {
    let size = number.unsigned_abs();
    if size == 0 {
        return f32::from_bits(0);
    }
    assert!(size < 1 << 24, "the number has at most 24 binary digits");
    let power = 31 - size.leading_zeros();
    let digits = (size << (23 - power)) & 0x7F_FFFF;
    let exponent = 127 + power - parts;
    let sign = u32::from(number < 0);
    f32::from_bits(sign << 31 | exponent << 23 | digits)
}

// ---- Job file ----

/// What goes with a job's table, and the bound that it asks for.
#[derive(Clone, Copy, Debug, PartialEq, Eq)]
pub struct Loaded {
    pub head: Head,
    pub bound: u32,
}

/// A whole job file's settings, bound and columns.
struct Job {
    plate: Plate,
    bound: u32,
    columns: Vec<Vec<u16>>,
}

/// One record: its kind and its body.
struct Record<'a> {
    kind: u16,
    body: &'a [u8],
}

pub fn read_job(input: &[u8], most: usize, table: &mut [u32]) -> Answer<Loaded> {
    let job = read_records(input, most)?;
    check_lent(&[(table.len(), job.plate.cells())])?;
    let mut head = clear_table(table, job.plate.height as u32, job.plate.set)?;
    for column in &job.columns {
        head = add_column(table, head, column)?;
    }
    Ok(Loaded { head, bound: job.bound })
}

fn read_records(input: &[u8], most: usize) -> Answer<Job> {
    let mut job: Option<Job> = None;
    let mut at = 0;
    loop {
        let record = record_at(&input[at..], job.is_some()).or_else(|number| refuse(number, at as u64))?;
        let next = at + 4 + record.body.len();
        let at_record = |refusal: Refusal| Refusal { place: at as u64, ..refusal };
        match (record.kind, &mut job) {
            (1, none) => *none = Some(settings(record.body, most).map_err(at_record)?),
            (2, Some(job)) => job.columns.push(next_column(job, record.body).map_err(at_record)?),
            (3, Some(job)) if number(record.body) != job.columns.len() as u64 => return refuse(21, at as u64),
            (3, _) => {
                check_nothing_left(input, next)?;
                return Ok(job.expect("settings come first"));
            }
            _ => {}
        }
        at = next;
    }
}

/// The record that the bytes begin with, or by document 02's f) the number of what is wrong with its frame.
fn record_at(left: &[u8], settled: bool) -> Result<Record<'_>, u32> {
    framed(left, |kind, length| match kind {
        1 if !settled => Some(length == 10),
        2 if settled => Some(length.is_multiple_of(2)),
        3 if settled => Some(length == 4),
        32768.. => Some(true),
        _ => None,
    })
}

/// 16 for a head that is cut off, 19 for a kind that may not come here, 20 for its length, 16 for a body that is cut off. What may come is told
/// by kind and length: whether the length is right, and nothing of a kind that may not.
fn framed(left: &[u8], may_come: impl Fn(u16, u64) -> Option<bool>) -> Result<Record<'_>, u32> {
    if left.len() < 4 {
        return Err(16);
    }
    let (length, kind) = (number(&left[..2]), number(&left[2..4]) as u16);
    if !may_come(kind, length).ok_or(19_u32)? {
        return Err(20);
    }
    let body = left[4..].get(..length as usize).ok_or(16_u32)?;
    Ok(Record { kind, body })
}

/// Little-endian.
fn number(bytes: &[u8]) -> u64 {
    bytes.iter().rev().fold(0, |sum, &byte| sum * 256 + u64::from(byte))
}

/// 1, 2, then 17 where a table or a sheet has more than `most` entries.
fn settings(body: &[u8], most: usize) -> Answer<Job> {
    let (height, set, bound) = (number(&body[..2]) as u32, number(&body[2..6]) as u32, number(&body[6..]) as u32);
    let plate = Plate::new(height, set)?;
    if plate.cells() > most || plate.entries() > most {
        return refuse(17, 0);
    }
    Ok(Job { plate, bound, columns: Vec::new() })
}

/// 7, 4, 5, or the column.
fn next_column(job: &Job, body: &[u8]) -> Answer<Vec<u16>> {
    let column: Vec<u16> = body.chunks(2).map(|two| number(two) as u16).collect();
    check_room(job.columns.len() as u32)?;
    check_column(job.plate, &column)?;
    Ok(column)
}

/// 21, whatever the bytes after the end begin with, and however few they are.
fn check_nothing_left(input: &[u8], at: usize) -> Answer<()> {
    if at < input.len() {
        return refuse(21, at as u64);
    }
    Ok(())
}

// ---- Saving a plate: document 02, a) ----

/// A plate's columns as they come to be saved: one run of boundaries, column after column, and a count for each column.
#[derive(Clone, Copy, Debug)]
pub struct Columns<'a> {
    pub boundaries: &'a [u16],
    pub counts: &'a [u16],
}

impl<'a> Columns<'a> {
    /// Each column's boundaries; the run is as long as the counts say, or longer.
    pub fn each(self) -> Vec<&'a [u16]> {
        let mut left = self.boundaries;
        let next = |&count: &u16| {
            let (column, after) = left.split_at(usize::from(count));
            left = after;
            column
        };
        self.counts.iter().map(next).collect()
    }
}

/// 7, and 4 at the column's number.
fn check_counts(counts: &[u16]) -> Answer<()> {
    if counts.len() > MOST_COLUMNS as usize {
        return refuse(7, 0);
    }
    let bad = |&count: &u16| count % 2 == 1 || usize::from(count) > MOST_BOUNDARIES;
    refuse_at(4, counts.iter().position(bad))
}

/// The bytes of the records: 4 before each body, 10 of settings, 2 for each boundary, 4 at the end.
pub fn job_size(counts: &[u16]) -> Answer<u64> {
    check_counts(counts)?;
    let columns: u64 = counts.iter().map(|&count| 4 + 2 * u64::from(count)).sum();
    Ok(4 + 10 + columns + 4 + 4)
}

pub fn write_job(height: u32, set: u32, bound: u32, columns: Columns, out: &mut [u8]) -> Answer<u64> {
    let plate = Plate::new(height, set)?;
    check_counts(columns.counts)?;
    let stated = columns.counts.iter().map(|&count| usize::from(count)).sum();
    check_lent(&[(columns.boundaries.len(), stated)])?;
    let columns = columns.each();
    refuse_at(5, columns.iter().position(|column| check_column(plate, column).is_err()))?;
    let file = written(plate, bound, &columns);
    check_lent(&[(0, 0), (out.len(), file.len())])?;
    out[..file.len()].copy_from_slice(&file);
    Ok(file.len() as u64)
}

/// The whole file: settings, the columns, the end.
fn written(plate: Plate, bound: u32, columns: &[&[u16]]) -> Vec<u8> {
    let mut file = Vec::new();
    let height = (plate.height as u16).to_le_bytes();
    put_record(&mut file, 1, &[&height[..], &plate.set.to_le_bytes(), &bound.to_le_bytes()].concat());
    for column in columns {
        let body: Vec<u8> = column.iter().flat_map(|boundary| boundary.to_le_bytes()).collect();
        put_record(&mut file, 2, &body);
    }
    put_record(&mut file, 3, &(columns.len() as u32).to_le_bytes());
    file
}

fn put_record(file: &mut Vec<u8>, kind: u16, body: &[u8]) {
    file.extend((body.len() as u16).to_le_bytes());
    file.extend(kind.to_le_bytes());
    file.extend(body);
}

// ---- Sending a table: document 02, c) ----

/// What a record of a table file is refused for, each of the reader's checks by its own name.
#[derive(Clone, Copy, Debug, PartialEq, Eq, PartialOrd, Ord)]
pub enum Fault {
    /// Fewer than 4 bytes left.
    CutHead,
    /// A kind that the kinds before it do not allow: they go 16, 17 once or more, 18.
    Kind,
    /// A length wrong for the kind.
    Length,
    /// A body past the input.
    CutBody,
    /// A row whose start is not the next one, or is past the last.
    Start,
    /// Another number of rows than the settings have, or rows missing.
    Rows,
    /// Bytes after the end.
    After,
    /// 1, 2, 7 or 6, as other calls give them.
    Refused(u32),
}

impl Fault {
    /// By document 02's f).
    pub fn number(self) -> u32 {
        match self {
            Fault::CutHead => 16,
            Fault::Kind => 19,
            Fault::Length => 20,
            Fault::CutBody => 16,
            Fault::Start => 21,
            Fault::Rows => 21,
            Fault::After => 21,
            Fault::Refused(number) => number,
        }
    }
}

/// What was received of a table file: its head, and the cells of the rows so far.
#[derive(Clone, Debug, PartialEq, Eq)]
pub struct Received {
    pub head: Head,
    pub plate: Plate,
    pub cells: Vec<u32>,
}

impl Received {
    /// 1, 2, 7, or a table without rows so far.
    fn open(body: &[u8]) -> Result<Received, Fault> {
        let [height, set, columns] = [&body[..2], &body[2..6], &body[6..]].map(|bytes| number(bytes) as u32);
        let head = Head { height, set, columns };
        let told = |refusal: Refusal| Fault::Refused(refusal.number);
        let plate = head.plate().map_err(told)?;
        check_columns(columns).map_err(told)?;
        Ok(Received { head, plate, cells: Vec::new() })
    }

    fn rows(&self) -> i64 {
        self.cells.len() as i64 / self.plate.tmax
    }

    /// The start first, then 6.
    fn take_row(&mut self, body: &[u8]) -> Result<(), Fault> {
        let start = signed(&body[..2]);
        if start != self.plate.lowest() + self.rows() || start > self.plate.last_start() {
            return Err(Fault::Start);
        }
        for four in body[2..].chunks(4) {
            let cell = number(four) as u32;
            if cell > self.plate.limit(self.cells.len(), self.head.columns) {
                return Err(Fault::Refused(6));
            }
            self.cells.push(cell);
        }
        Ok(())
    }

    fn check_rows(&self, body: &[u8]) -> Result<(), Fault> {
        if number(body) as i64 != self.plate.rows() || self.rows() != self.plate.rows() {
            return Err(Fault::Rows);
        }
        Ok(())
    }

    /// The record that the bytes begin with, after these.
    fn next<'a>(received: Option<&Received>, left: &'a [u8]) -> Result<Record<'a>, Fault> {
        if left.len() < 4 {
            return Err(Fault::CutHead);
        }
        let (length, kind) = (number(&left[..2]), number(&left[2..4]) as u16);
        let stated = match (kind, received) {
            (16, None) => 10,
            (17, Some(received)) => 2 + 4 * received.plate.tmax as u64,
            (18, Some(received)) if received.rows() > 0 => 2,
            _ => return Err(Fault::Kind),
        };
        if length != stated {
            return Err(Fault::Length);
        }
        let body = left[4..].get(..length as usize).ok_or(Fault::CutBody)?;
        Ok(Record { kind, body })
    }
}

/// Two's complement, of two bytes.
fn signed(two: &[u8]) -> i64 {
    let unsigned = number(two) as i64;
    if unsigned < 32_768 {
        unsigned
    } else {
        unsigned - 65_536
    }
}

/// A whole table file, or what the first record at fault is refused for and its first byte; the lent table aside.
pub fn receive(file: &[u8]) -> Result<Received, (Fault, usize)> {
    let mut received: Option<Received> = None;
    let mut at = 0;
    loop {
        let at_record = |fault: Fault| (fault, at);
        let record = Received::next(received.as_ref(), &file[at..]).map_err(at_record)?;
        let next = at + 4 + record.body.len();
        match (record.kind, &mut received) {
            (17, Some(received)) => received.take_row(record.body).map_err(at_record)?,
            (18, Some(held)) => {
                held.check_rows(record.body).map_err(at_record)?;
                if next < file.len() {
                    return Err((Fault::After, next));
                }
                return Ok(received.expect("it is there"));
            }
            (_, none) => *none = Some(Received::open(record.body).map_err(at_record)?),
        }
        at = next;
    }
}

pub fn read_table(file: &[u8], table: &mut [u32]) -> Answer<Head> {
    let told = |(fault, at): (Fault, usize)| Refusal { number: fault.number(), place: at as u64 };
    let Received { head, cells, .. } = receive(file).map_err(told)?;
    check_lent(&[(table.len(), cells.len())])?;
    table[..cells.len()].copy_from_slice(&cells);
    Ok(head)
}

pub fn write_table(table: &[u32], head: Head, out: &mut [u8]) -> Answer<u64> {
    let plate = head.plate()?;
    check_lent(&[(table.len(), plate.cells())])?;
    check_columns(head.columns)?;
    check_cells(plate, table, head.columns)?;
    let file = sent(plate, table, head.columns);
    check_lent(&[(0, 0), (out.len(), file.len())])?;
    out[..file.len()].copy_from_slice(&file);
    Ok(file.len() as u64)
}

/// The whole file: the head, a row for each start, the number of rows.
fn sent(plate: Plate, table: &[u32], columns: u32) -> Vec<u8> {
    let mut file = Vec::new();
    let height = (plate.height as u16).to_le_bytes();
    put_record(&mut file, 16, &[&height[..], &plate.set.to_le_bytes(), &columns.to_le_bytes()].concat());
    for start in plate.lowest()..=plate.last_start() {
        let cells = (1..=plate.tmax).flat_map(|thickness| table[plate.cell(start, thickness)].to_le_bytes());
        let body: Vec<u8> = (start as i16).to_le_bytes().into_iter().chain(cells).collect();
        put_record(&mut file, 17, &body);
    }
    put_record(&mut file, 18, &(plate.rows() as u16).to_le_bytes());
    file
}

// ---- The printer's order list: document 02, e) ----

/// What both calls are handed: settings, step and cure list, of any numbers.
#[derive(Clone, Copy, Debug)]
pub struct Printing<'a> {
    pub height: u32,
    pub set: u32,
    pub step: u32,
    pub cure: &'a [u16],
}

/// Settings, step and cure list that 1, 2, 14 and 3 at 1 let through.
#[derive(Clone, Copy)]
struct Printer<'a> {
    plate: Plate,
    step: i32,
    cure: &'a [u16],
}

#[derive(Clone, Copy, Debug)]
pub enum Order {
    /// To so many micrometres above the first boundary.
    Lift(f32),
    /// For so many seconds.
    Cure(f32),
    /// After so many layers.
    Finish(u32),
}

impl Order {
    /// Its record: the length of the body, the kind, the body.
    fn record(self) -> ([u8; 8], usize) {
        let (kind, body, length) = match self {
            Order::Lift(micrometres) => (48, micrometres.to_bits(), 4),
            Order::Cure(seconds) => (49, seconds.to_bits(), 4),
            Order::Finish(layers) => (50, layers, 2),
        };
        let [a, b, c, d] = body.to_le_bytes();
        ([length, 0, kind, 0, a, b, c, d], 4 + usize::from(length))
    }
}

impl<'a> Printing<'a> {
    fn printer(self) -> Answer<Printer<'a>> {
        let plate = Plate::new(self.height, self.set)?;
        check_step(self.step)?;
        check_lent(&[(self.cure.len(), plate.tmax as usize)])?;
        Ok(Printer { plate, step: self.step as i32, cure: self.cure })
    }
}

impl Printer<'_> {
    fn is_cured(&self, thickness: i64) -> bool {
        self.cure[thickness as usize - 1] > 0
    }

    fn lift(&self, rise: i64) -> Order {
        Order::Lift(part(rise as i32 * self.step, EIGHTHS))
    }

    fn cure(&self, thickness: i64) -> Order {
        Order::Cure(part(i32::from(self.cure[thickness as usize - 1]), SIXTY_FOURTHS))
    }

    /// A lift and a cure for each layer, and the finish.
    fn orders(&self, heights: &[i64]) -> Vec<Order> {
        let layer = |pair: &[i64]| [self.lift(pair[1] - heights[0]), self.cure(pair[1] - pair[0])];
        let mut orders: Vec<Order> = heights.windows(2).flat_map(layer).collect();
        orders.push(Order::Finish(heights.len() as u32 - 1));
        orders
    }
}

pub fn write_orders(printing: Printing, sequence: &[i32], out: &mut [u8]) -> Answer<u64> {
    let printer = printing.printer()?;
    let heights = check_sequence(printer.plate, sequence, |_, _| false)?;
    let uncured = heights.windows(2).position(|pair| !printer.is_cured(pair[1] - pair[0]));
    refuse_at(18, uncured.map(|layer| layer + 1))?;
    let mut file = Vec::new();
    for order in printer.orders(&heights) {
        let (record, size) = order.record();
        file.extend(&record[..size]);
    }
    check_lent(&[(0, 0), (out.len(), file.len())])?;
    out[..file.len()].copy_from_slice(&file);
    Ok(file.len() as u64)
}

/// A beginning of an admissible sequence that can be completed: its first boundary, where its layers so far end, the last one's thickness.
/// No layer so far has the cure time 0.
#[derive(Clone, Copy)]
struct Begun {
    first: i64,
    end: i64,
    thickness: i64,
}

/// Which orders may come next, found by trying every sequence that the file may be of, from every first boundary.
struct Tried<'a> {
    printer: Printer<'a>,
    /// For each height from the lowest up, whether layers with a cure time can end an admissible sequence from there.
    completes: Vec<bool>,
}

impl<'a> Tried<'a> {
    /// Heights from N up end a sequence themselves: the last layer begins below N, so none is too high.
    fn new(printer: Printer<'a>) -> Tried<'a> {
        let plate = printer.plate;
        let mut tried = Tried { printer, completes: vec![true; (plate.highest() - plate.lowest() + 1) as usize] };
        for height in (plate.lowest()..plate.height).rev() {
            let leads_up = tried.layers_from(height).next().is_some();
            tried.completes[(height - plate.lowest()) as usize] = leads_up;
        }
        tried
    }

    /// The thicknesses of a layer from here, below N, after which the sequence can be completed.
    fn layers_from(&self, height: i64) -> impl Iterator<Item = i64> + '_ {
        let Printer { plate, .. } = self.printer;
        let completes = move |t: i64| self.completes[(height + t - plate.lowest()) as usize];
        plate.thicknesses().filter(move |&t| self.printer.is_cured(t) && completes(t))
    }

    /// Before any order.
    fn begin(&self) -> Vec<Begun> {
        let first_boundaries = self.printer.plate.lowest()..=0;
        first_boundaries.map(|first| Begun { first, end: first, thickness: 0 }).collect()
    }

    /// Tries what may come after so many orders of the sequence begun, each with how the sequence has then begun.
    fn each_next(&self, begun: Begun, orders: usize, mut try_out: impl FnMut(Order, Begun)) {
        let Printer { plate, .. } = self.printer;
        if orders % 2 == 1 {
            return try_out(self.printer.cure(begun.thickness), begun);
        }
        if begun.end >= plate.height {
            return try_out(Order::Finish(orders as u32 / 2), begun);
        }
        for thickness in self.layers_from(begun.end) {
            let end = begun.end + thickness;
            if orders > 0 || plate.may_end_first(end) {
                try_out(self.printer.lift(end - begun.first), Begun { end, thickness, ..begun });
            }
        }
    }

    /// All orders of a file, or what is wrong at the first record that comes next in no sequence.
    fn read(&self, file: &[u8]) -> Answer<Vec<Order>> {
        let (mut orders, mut begun, mut at) = (Vec::new(), self.begin(), 0);
        while !matches!(orders.last(), Some(Order::Finish(_))) {
            let (mut found, mut next) = (None, Vec::new());
            for &one in &begun {
                self.each_next(one, orders.len(), |order, then| {
                    let (record, size) = order.record();
                    if file[at..].starts_with(&record[..size]) {
                        found = Some((order, size));
                        next.push(then);
                    }
                });
            }
            let Some((order, size)) = found else { return refuse(order_broken(&file[at..], orders.len()), at as u64) };
            at += size;
            orders.push(order);
            begun = next;
        }
        check_nothing_left(file, at)?;
        Ok(orders)
    }
}

/// Which way a record is broken that comes next in no sequence after so many orders: lifts and cures come in turn, and a finish in a lift's place
/// but for the first. A record whose frame is well disagrees by its contents.
pub fn order_broken(left: &[u8], orders: usize) -> u32 {
    let framed = framed(left, |kind, length| match kind {
        48 if orders % 2 == 0 => Some(length == 4),
        49 if orders % 2 == 1 => Some(length == 4),
        50 if orders % 2 == 0 && orders > 0 => Some(length == 2),
        _ => None,
    });
    framed.map_or_else(|number| number, |_| 21)
}

pub fn read_order(printing: Printing, file: &[u8], number: u32) -> Answer<Order> {
    let printer = printing.printer()?;
    let orders = Tried::new(printer).read(file)?;
    Ok(orders[orders.len().min(number as usize + 1) - 1])
}
