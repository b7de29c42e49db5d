// Document 01's calls, with 02's writer of job files, its b), its table files and its order files, in safe Rust written for speed, to be timed
// beside the library: planners with the count innermost, adding after the source paper's Algorithm 1, scans row by row, order files record by
// record. All refusals are given, so the work is the same; tests/quick.rs holds them to plain.rs.

use crate::plain::{Answer, Columns, Filled, Head, Order, Plate, Printing, Refusal, Sheets};
use crate::plain::{MOST_BOUNDARIES, MOST_COLUMNS, MOST_HEIGHT, MOST_STEP, NONE};

fn refuse<T>(number: u32, place: usize) -> Answer<T> {
    Err(Refusal { number, place: place as u64 })
}

/// The most that a cell of each thickness may hold.
fn limits(plate: Plate, columns: u32) -> [u32; 32] {
    let mut limits = [0; 32];
    for thickness in plate.thicknesses() {
        limits[thickness as usize - 1] = columns * (thickness as u32 / 2);
    }
    limits
}

/// 6: whole rows are judged first, and only in a bad one is the cell looked for.
fn check_cells(plate: Plate, table: &[u32], columns: u32) -> Answer<()> {
    let width = plate.tmax as usize;
    let limits = &limits(plate, columns)[..width];
    for (r, row) in table[..plate.cells()].chunks_exact(width).enumerate() {
        let over = |bad: bool, (cell, limit): (&u32, &u32)| bad | (cell > limit);
        if row.iter().zip(limits).fold(false, over) {
            let first = row.iter().zip(limits).position(|(cell, limit)| cell > limit);
            return refuse(6, r * width + first.unwrap_or(0));
        }
    }
    Ok(())
}

// ---- Plan ----

/// Which counts of a start row are looked at.
#[derive(Clone, Copy, Debug, PartialEq, Eq)]
pub enum Reach {
    /// Every count from 0 to M−1.
    Every,
    /// From 0 to the greatest that the row's rise above height 1 allows; in a row at or below 0, count 0 alone.
    UpToGreatest,
    /// From the least that brings a start at or below 0 up to the row, to the greatest.
    PossibleOnly,
}

pub fn plan(reach: Reach, table: &[u32], head: Head, bound: u32, sheets: Sheets) -> Answer<u64> {
    let plate = head.plate()?;
    let (entries, counts) = (plate.entries(), plate.counts());
    let stated = [
        table.len() >= plate.cells(),
        sheets.errors.len() >= entries,
        sheets.thicknesses.len() >= entries,
        sheets.list.len() >= counts,
    ];
    if let Some(short) = stated.iter().position(|&enough| !enough) {
        return refuse(3, short + 1);
    }
    if head.columns > MOST_COLUMNS {
        return refuse(7, 0);
    }
    check_cells(plate, table, head.columns)?;
    match reach {
        Reach::Every => fill(plate, table, bound, sheets, |_| (0, counts)),
        Reach::UpToGreatest => fill(plate, table, bound, sheets, |row| (0, greatest(plate, row))),
        Reach::PossibleOnly => fill(plate, table, bound, sheets, |row| (fewest(plate, row), greatest(plate, row))),
    }
    Ok(counts as u64)
}

/// One past the greatest count that the start row can have; row tmax is height 1, and M bounds it since a start is below N.
fn greatest(plate: Plate, row: usize) -> usize {
    match row.checked_sub(plate.tmax as usize) {
        Some(rise) => rise / plate.tmin as usize + 2,
        None => 1,
    }
}

/// The least count that the start row can have; row tmax−1 is height 0.
fn fewest(plate: Plate, row: usize) -> usize {
    let tmax = plate.tmax as usize;
    row.saturating_sub(tmax - 1).div_ceil(tmax)
}

/// Fills both sheets and the list; `range` names the counts of a start row that are looked at. Rows up to height 0 have count 0 alone; a row
/// above has layers that start below N.
fn fill(plate: Plate, table: &[u32], bound: u32, sheets: Sheets, range: impl Fn(usize) -> (usize, usize)) {
    let (tmax, width) = (plate.tmax as usize, plate.counts() + 1);
    let thicknesses: Vec<usize> = plate.thicknesses().map(|t| t as usize).collect();
    let top = plate.height as usize + tmax - 1;
    for row in 0..top + tmax {
        let (lower, here) = sheets.errors.split_at_mut(row * width);
        let here = &mut here[..width];
        let last = &mut sheets.thicknesses[row * width..(row + 1) * width];
        here.fill(NONE);
        last.fill(0);
        if row < tmax {
            here[0] = 0;
            continue;
        }
        for &thickness in thicknesses.iter().skip_while(|&&t| row - t >= top) {
            let start = row - thickness;
            let error = table[start * tmax + thickness - 1];
            let (from, to) = range(start);
            if error <= bound && from < to {
                let below = &lower[start * width + from..start * width + to];
                put_on(below, error, thickness as u8, &mut here[from + 1..=to], &mut last[from + 1..=to]);
            }
        }
    }
    fill_list(plate, sheets.errors, &mut sheets.list[..width - 1]);
}

/// A layer put on every sequence of the start row: the hot loop, by fours, and not inlined, which leaves it more registers.
#[inline(never)]
fn put_on(below: &[u64], error: u32, thickness: u8, here: &mut [u64], last: &mut [u8]) {
    let mut below = below.chunks_exact(4);
    let mut here = here.chunks_exact_mut(4);
    let mut last = last.chunks_exact_mut(4);
    for ((below, here), last) in (&mut below).zip(&mut here).zip(&mut last) {
        put_on_each(below, error, thickness, here, last);
    }
    put_on_each(below.remainder(), error, thickness, here.into_remainder(), last.into_remainder());
}

#[inline(always)]
fn put_on_each(below: &[u64], error: u32, thickness: u8, here: &mut [u64], last: &mut [u8]) {
    for ((&before, least), held) in below.iter().zip(here).zip(last) {
        let sum = before.saturating_add(u64::from(error));
        if sum < *least {
            *least = sum;
            *held = thickness;
        }
    }
}

fn fill_list(plate: Plate, errors: &[u64], list: &mut [u64]) {
    let (tmax, width) = (plate.tmax as usize, plate.counts() + 1);
    list.fill(NONE);
    let first = plate.height as usize + tmax - 1;
    for row in first..first + tmax {
        let ends = &errors[row * width + 1..(row + 1) * width];
        for (least, &end) in list.iter_mut().zip(ends) {
            *least = end.min(*least);
        }
    }
}

// ---- Adding ----

/// Refusals 1, 2, 3, 7, 4 and 5 of adding.
fn check_adding(table: &[u32], head: Head, column: &[u16]) -> Answer<Plate> {
    let plate = head.plate()?;
    if table.len() < plate.cells() {
        return refuse(3, 1);
    }
    if head.columns >= MOST_COLUMNS {
        return refuse(7, 0);
    }
    if column.len() % 2 == 1 || column.len() > MOST_BOUNDARIES {
        return refuse(4, column.len());
    }
    let mut least = 0;
    for (i, &boundary) in column.iter().enumerate() {
        if u32::from(boundary) < least || u32::from(boundary) > head.height {
            return refuse(5, i);
        }
        least = u32::from(boundary) + 1;
    }
    Ok(plate)
}

/// Each cell with a share above 0, in rising order, with its limit and share; `visit` ends the walk with false. By Algorithm 1: a layer
/// is met at the first boundary in it, and S is summed over the boundaries after that (the list's end kept in mind, half of line 10).
fn by_algorithm_1(plate: Plate, column: &[u16], limits: &[u32; 32], mut visit: impl FnMut(usize, u32, u32) -> bool) {
    let tmax = plate.tmax;
    let at = |k: usize| i64::from(column[k]);
    for k in 0..column.len() {
        let nearest = at(k) - tmax + 1;
        let first = if k == 0 { nearest } else { nearest.max(at(k - 1)) };
        for start in first..at(k) {
            let row = ((start + tmax - 1) * tmax) as usize;
            for end in at(k) + 1..=start + tmax {
                let thickness = end - start;
                if (plate.set >> (thickness - 1)) & 1 == 0 {
                    continue;
                }
                let cell = row + thickness as usize - 1;
                let share = (thickness - signed_sum(column, k, start, end).abs()) / 2;
                if !visit(cell, limits[thickness as usize - 1], share as u32) {
                    return;
                }
            }
        }
    }
}

/// Algorithm 1's S: inside less outside, up to its sign.
fn signed_sum(column: &[u16], k: usize, start: i64, end: i64) -> i64 {
    let sign = |l: usize| if l.is_multiple_of(2) { 1 } else { -1 };
    let mut sum = sign(k) * (start - i64::from(column[k]));
    let mut l = k + 1;
    while l < column.len() && i64::from(column[l]) < end {
        sum += sign(l) * (i64::from(column[l - 1]) - i64::from(column[l]));
        l += 1;
    }
    sum + sign(l) * (i64::from(column[l - 1]) - end)
}

/// Algorithm 1 twice: once for refusal 6, once to add.
pub fn add_by_algorithm_1(table: &mut [u32], head: Head, column: &[u16]) -> Answer<Head> {
    let plate = check_adding(table, head, column)?;
    let limits = limits(plate, head.columns);
    let mut bad = None;
    by_algorithm_1(plate, column, &limits, |cell, limit, _| {
        if table[cell] > limit {
            bad = Some(cell);
        }
        bad.is_none()
    });
    if let Some(cell) = bad {
        return refuse(6, cell);
    }
    by_algorithm_1(plate, column, &limits, |cell, _, share| {
        table[cell] += share;
        true
    });
    Ok(Head { columns: head.columns + 1, ..head })
}

/// The same layers start by start, with the inside count carried from one thickness to the next; one pass, taken back where refusal 6 is met.
pub fn add_carrying(table: &mut [u32], head: Head, column: &[u16]) -> Answer<Head> {
    let plate = check_adding(table, head, column)?;
    let limits = limits(plate, head.columns);
    let bad = carry(plate, column, |row, shares| add_row(&mut table[row..], &limits, shares));
    if let Some(cell) = bad {
        carry(plate, column, |row, shares| take_row(&mut table[row..], row, cell, shares));
        return refuse(6, cell);
    }
    Ok(Head { columns: head.columns + 1, ..head })
}

/// The shares of the thicknesses of one start that hold a boundary: from `first` on, 0 where not allowed.
struct Shares {
    first: usize,
    shares: [u32; 32],
    tmax: usize,
}

/// Every start row that a boundary touches, in rising order; ends at the first cell that `visit` gives.
fn carry(plate: Plate, column: &[u16], mut visit: impl FnMut(usize, &Shares) -> Option<usize>) -> Option<usize> {
    let tmax = plate.tmax as usize;
    let mut least = 0;
    for (k, &boundary) in column.iter().enumerate() {
        let boundary = usize::from(boundary) + tmax - 1;
        for start in least.max(boundary + 1 - tmax)..boundary {
            let shares = shares_from(plate, column, k, start, boundary);
            if let Some(offset) = visit(start * tmax, &shares) {
                return Some(start * tmax + offset);
            }
        }
        least = boundary;
    }
    None
}

/// Starts and boundaries here are counted from −(tmax−1).
fn shares_from(plate: Plate, column: &[u16], k: usize, start: usize, boundary: usize) -> Shares {
    let tmax = plate.tmax as usize;
    let first = boundary - start;
    let mut shares = [0; 32];
    let mut step = (k as u32 + 1) % 2;
    let mut inside = if step == 1 { 0 } else { first as u32 };
    let mut next = k + 1;
    for (t, share) in shares.iter_mut().enumerate().take(tmax).skip(first) {
        if next < column.len() && usize::from(column[next]) + tmax - 1 == start + t {
            step = 1 - step;
            next += 1;
        }
        inside += step;
        let allowed = (plate.set >> t) & 1;
        *share = inside.min(t as u32 + 1 - inside) * allowed;
    }
    Shares { first, shares, tmax }
}

/// Adds a row's shares, or gives the first cell out of bounds, nothing from it on being added.
fn add_row(row: &mut [u32], limits: &[u32; 32], shares: &Shares) -> Option<usize> {
    let range = shares.first..shares.tmax;
    let (row, limits, shares) = (&mut row[range.clone()], &limits[range.clone()], &shares.shares[range.clone()]);
    let over = |cell: u32, limit: u32, share: u32| (share > 0) & (cell > limit);
    let cells = row.iter().zip(limits).zip(shares);
    if cells.clone().fold(false, |bad, ((&c, &l), &s)| bad | over(c, l, s)) {
        return cells.clone().position(|((&c, &l), &s)| over(c, l, s)).map(|i| i + range.start);
    }
    for (cell, share) in row.iter_mut().zip(shares) {
        *cell += share;
    }
    None
}

/// Takes a row's shares back, up to the row of the cell that was out of bounds.
fn take_row(row: &mut [u32], at: usize, cell: usize, shares: &Shares) -> Option<usize> {
    if at + shares.tmax > cell {
        return Some(0);
    }
    for (cell, share) in row[shares.first..shares.tmax].iter_mut().zip(&shares.shares[shares.first..]) {
        *cell -= share;
    }
    None
}

// ---- Joining and taking off ----

fn check_two(table: &[u32], head: Head, other: &[u32], other_head: Head) -> Answer<Plate> {
    let plate = head.plate()?;
    if other_head.plate()? != plate {
        return refuse(8, 0);
    }
    if table.len() < plate.cells() {
        return refuse(3, 1);
    }
    if other.len() < plate.cells() {
        return refuse(3, 2);
    }
    if head.columns > MOST_COLUMNS || other_head.columns > MOST_COLUMNS {
        return refuse(7, 0);
    }
    Ok(plate)
}

pub fn join_tables(table: &mut [u32], head: Head, other: &[u32], other_head: Head) -> Answer<Head> {
    let plate = check_two(table, head, other, other_head)?;
    let sum = head.columns + other_head.columns;
    if sum > MOST_COLUMNS {
        return refuse(7, 0);
    }
    check_cells(plate, table, head.columns)?;
    check_cells(plate, other, other_head.columns)?;
    for (cell, other) in table[..plate.cells()].iter_mut().zip(other) {
        *cell += other;
    }
    Ok(Head { columns: sum, ..head })
}

pub fn take_off(table: &mut [u32], head: Head, other: &[u32], other_head: Head) -> Answer<Head> {
    let plate = check_two(table, head, other, other_head)?;
    check_cells(plate, table, head.columns)?;
    check_cells(plate, other, other_head.columns)?;
    if other_head.columns > head.columns {
        return refuse(9, 0);
    }
    let (table, rest) = (&mut table[..plate.cells()], head.columns - other_head.columns);
    check_part(plate, table, other, rest)?;
    for (cell, other) in table.iter_mut().zip(other) {
        *cell -= other;
    }
    Ok(Head { columns: rest, ..head })
}

/// 9, cell by cell; both cells are below 2^31, so a negative difference wraps beyond every limit.
fn check_part(plate: Plate, table: &[u32], other: &[u32], rest: u32) -> Answer<()> {
    let width = plate.tmax as usize;
    let limits = &limits(plate, rest)[..width];
    let over = |cell: u32, other: u32, limit: u32| cell.wrapping_sub(other) > limit;
    for (r, (row, others)) in table.chunks_exact(width).zip(other.chunks_exact(width)).enumerate() {
        let cells = row.iter().zip(others).zip(limits);
        if cells.clone().fold(false, |bad, ((&c, &o), &l)| bad | over(c, o, l)) {
            let first = cells.clone().position(|((&c, &o), &l)| over(c, o, l));
            return refuse(9, r * width + first.unwrap_or(0));
        }
    }
    Ok(())
}

// ---- Reading back ----

pub fn read_back(height: u32, set: u32, sheets: Filled, count: u32, out: &mut [i32]) -> Answer<u64> {
    let plate = Plate::new(height, set)?;
    let (entries, counts, tmax) = (plate.entries(), plate.counts(), plate.tmax as usize);
    if sheets.errors.len() < entries {
        return refuse(3, 1);
    }
    if sheets.thicknesses.len() < entries {
        return refuse(3, 2);
    }
    let count = count as usize;
    if count == 0 || count > counts {
        return refuse(10, 0);
    }
    if out.len() <= count {
        return refuse(3, 3);
    }
    let width = counts + 1;
    let first = plate.height as usize + tmax - 1;
    let (mut end, mut error) = (first, sheets.errors[first * width + count]);
    for row in first + 1..first + tmax {
        let entry = sheets.errors[row * width + count];
        if entry < error {
            (end, error) = (row, entry);
        }
    }
    if error == NONE {
        return refuse(11, 0);
    }
    let boundaries = walk_down(plate, sheets.thicknesses, end, count)?;
    out[..=count].copy_from_slice(&boundaries[..=count]);
    Ok(error)
}

/// The boundaries of the sequence, or 12; M is at most 512. A start at N or above is met at the top layer or nowhere, so every layer may ask;
/// whether z1 is above 0 is asked after the walk, since what else is at fault in layer 1 has the same place.
fn walk_down(plate: Plate, thicknesses: &[u8], end: usize, count: usize) -> Answer<[i32; 513]> {
    let (width, tmax) = (plate.counts() + 1, plate.tmax as usize);
    let top = plate.height as usize + tmax - 1;
    let mut boundaries = [0; 513];
    let mut row = end;
    for layer in (1..=count).rev() {
        boundaries[layer] = row as i32 - (tmax as i32 - 1);
        let thickness = usize::from(thicknesses[row * width + layer]);
        if thickness > row || !plate.allows(thickness as i64) {
            return refuse(12, layer);
        }
        row -= thickness;
        if row >= top {
            return refuse(12, layer);
        }
    }
    if boundaries[1] <= 0 {
        return refuse(12, 1);
    }
    if row >= tmax {
        return refuse(12, 0);
    }
    boundaries[0] = row as i32 - (tmax as i32 - 1);
    Ok(boundaries)
}

// ---- Writing a job file ----

/// 7 and 4, or how many boundaries the columns have together.
fn tally(counts: &[u16]) -> Answer<usize> {
    if counts.len() > MOST_COLUMNS as usize {
        return refuse(7, 0);
    }
    let wrong = |&count: &u16| count % 2 == 1 || usize::from(count) > MOST_BOUNDARIES;
    if let Some(column) = counts.iter().position(wrong) {
        return refuse(4, column);
    }
    Ok(counts.iter().map(|&count| usize::from(count)).sum())
}

/// How it is asked whether a column rises.
#[derive(Clone, Copy, Debug, PartialEq, Eq)]
pub enum Rising {
    /// Pair by pair, up to the first that does not rise.
    PairByPair,
    /// All pairs whatever is found, which the compiler takes several at a time.
    AllPairs,
}

pub fn write_job(rising: Rising, height: u32, set: u32, bound: u32, columns: Columns, out: &mut [u8]) -> Answer<u64> {
    Plate::new(height, set)?;
    let Columns { boundaries, counts } = columns;
    let together = tally(counts)?;
    if boundaries.len() < together {
        return refuse(3, 1);
    }
    match rising {
        Rising::PairByPair => check_order(height, columns, |column| column.windows(2).all(|pair| pair[0] < pair[1])),
        Rising::AllPairs => check_order(height, columns, |column| {
            column.windows(2).fold(true, |rises, pair| rises & (pair[0] < pair[1]))
        }),
    }?;
    let size = 22 + 4 * counts.len() + 2 * together;
    if out.len() < size {
        return refuse(3, 2);
    }
    write_settings(&mut out[..14], height, set, bound);
    write_columns(&mut out[14..size - 8], columns);
    write_end(&mut out[size - 8..size], counts.len());
    Ok(size as u64)
}

/// 5: where a column rises, its last boundary is the greatest.
fn check_order(height: u32, columns: Columns, rises: impl Fn(&[u16]) -> bool) -> Answer<()> {
    let mut left = columns.boundaries;
    for (k, &count) in columns.counts.iter().enumerate() {
        let (column, after) = left.split_at(usize::from(count));
        if !rises(column) || column.last().is_some_and(|&last| u32::from(last) > height) {
            return refuse(5, k);
        }
        left = after;
    }
    Ok(())
}

fn write_settings(out: &mut [u8], height: u32, set: u32, bound: u32) {
    out[..4].copy_from_slice(&[10, 0, 1, 0]);
    out[4..6].copy_from_slice(&(height as u16).to_le_bytes());
    out[6..10].copy_from_slice(&set.to_le_bytes());
    out[10..14].copy_from_slice(&bound.to_le_bytes());
}

fn write_columns(mut out: &mut [u8], columns: Columns) {
    let mut left = columns.boundaries;
    for &count in columns.counts {
        let (column, after) = left.split_at(usize::from(count));
        let (record, next) = out.split_at_mut(4 + 2 * column.len());
        let (head, body) = record.split_at_mut(4);
        head[..2].copy_from_slice(&(2 * count).to_le_bytes());
        head[2..].copy_from_slice(&[2, 0]);
        for (two, boundary) in body.chunks_exact_mut(2).zip(column) {
            two.copy_from_slice(&boundary.to_le_bytes());
        }
        (left, out) = (after, next);
    }
}

fn write_end(out: &mut [u8], columns: usize) {
    out[..4].copy_from_slice(&[4, 0, 3, 0]);
    out[4..].copy_from_slice(&(columns as u32).to_le_bytes());
}

// ---- Sending a table ----

/// 1 and 2, by the set's outermost bits: in a small table file their search would count.
fn settings(head: Head) -> Answer<Plate> {
    let Head { height, set, .. } = head;
    if height == 0 || height > MOST_HEIGHT {
        return refuse(1, 0);
    }
    if set == 0 {
        return refuse(2, 0);
    }
    let (tmin, tmax) = (set.trailing_zeros() + 1, 32 - set.leading_zeros());
    Ok(Plate { height: i64::from(height), set, tmin: i64::from(tmin), tmax: i64::from(tmax) })
}

/// Bytes of the record that opens the file, before the rows.
const OPENING: usize = 14;
/// Bytes of the record that ends it, behind the rows.
const END: usize = 6;
/// Bytes of a row before its cells.
const ROW_HEAD: usize = 6;

/// What stands before the cells of a row: length, kind, start.
fn row_head(width: usize, row: usize) -> [u8; ROW_HEAD] {
    let start = (row as i16 + 1 - width as i16).to_le_bytes();
    [(2 + 4 * width) as u8, 0, 17, 0, start[0], start[1]]
}

fn end(rows: usize) -> [u8; END] {
    let rows = (rows as u16).to_le_bytes();
    [2, 0, 18, 0, rows[0], rows[1]]
}

pub fn write_table(table: &[u32], head: Head, out: &mut [u8]) -> Answer<u64> {
    let plate = settings(head)?;
    if table.len() < plate.cells() {
        return refuse(3, 1);
    }
    if head.columns > MOST_COLUMNS {
        return refuse(7, 0);
    }
    check_cells(plate, table, head.columns)?;
    let (width, size) = (plate.tmax as usize, plate.file_bytes());
    if out.len() < size {
        return refuse(3, 2);
    }
    let (opening, rest) = out[..size].split_at_mut(OPENING);
    opening[..4].copy_from_slice(&[10, 0, 16, 0]);
    opening[4..6].copy_from_slice(&(head.height as u16).to_le_bytes());
    opening[6..10].copy_from_slice(&head.set.to_le_bytes());
    opening[10..].copy_from_slice(&head.columns.to_le_bytes());
    let mut records = rest.chunks_exact_mut(ROW_HEAD + 4 * width);
    for (row, (record, cells)) in (&mut records).zip(table.chunks_exact(width)).enumerate() {
        let (head, body) = record.split_at_mut(ROW_HEAD);
        head.copy_from_slice(&row_head(width, row));
        for (four, cell) in body.chunks_exact_mut(4).zip(cells) {
            four.copy_from_slice(&cell.to_le_bytes());
        }
    }
    records.into_remainder().copy_from_slice(&end(plate.rows() as usize));
    Ok(size as u64)
}

fn cell(four: &[u8]) -> u32 {
    u32::from_le_bytes([four[0], four[1], four[2], four[3]])
}

/// Which way a table file is broken at a record that is not the one which can stand at its place, where these kinds may come, each of one length.
#[cold]
fn broken(file: &[u8], at: usize, may_come: &[[usize; 2]]) -> u32 {
    let Some((head, body)) = file[at..].split_at_checked(4) else { return 16 };
    let [length, kind] = [[head[0], head[1]], [head[2], head[3]]].map(|two| usize::from(u16::from_le_bytes(two)));
    match may_come.iter().find(|due| due[0] == kind) {
        None => 19,
        Some(due) if due[1] != length => 20,
        Some(_) if body.len() < length => 16,
        Some(_) => 21,
    }
}

/// Judged in one pass, filled in a second: what is not the one row or end that can stand at its place is refused there.
pub fn read_table(file: &[u8], table: &mut [u32]) -> Answer<Head> {
    let Some((opening, rest)) = file.split_at_checked(OPENING) else {
        return refuse(broken(file, 0, &[[16, 10]]), 0);
    };
    if opening[..4] != [10, 0, 16, 0] {
        return refuse(broken(file, 0, &[[16, 10]]), 0);
    }
    let height = u16::from_le_bytes([opening[4], opening[5]]);
    let head = Head { height: u32::from(height), set: cell(&opening[6..10]), columns: cell(&opening[10..]) };
    let plate = settings(head)?;
    if head.columns > MOST_COLUMNS {
        return refuse(7, 0);
    }
    let (width, rows) = (plate.tmax as usize, plate.rows() as usize);
    let stride = ROW_HEAD + 4 * width;
    let limits = &limits(plate, head.columns)[..width];
    let due = [[17, stride - 4], [18, 2]];
    let broken_at = |row: usize| {
        let at = OPENING + row * stride;
        refuse(broken(file, at, if row == 0 { &due[..1] } else { &due }), at)
    };
    let records = rest.chunks_exact(stride).take(rows);
    for (row, record) in records.clone().enumerate() {
        let (head, body) = record.split_at(ROW_HEAD);
        if head != row_head(width, row) {
            return broken_at(row);
        }
        if body.chunks_exact(4).zip(limits).fold(false, |bad, (four, &limit)| bad | (cell(four) > limit)) {
            return refuse(6, OPENING + row * stride);
        }
    }
    if records.len() < rows {
        return broken_at(records.len());
    }
    let after = &rest[rows * stride..];
    if !after.starts_with(&end(rows)) {
        return broken_at(rows);
    }
    if after.len() > END {
        return refuse(21, OPENING + rows * stride + END);
    }
    if table.len() < plate.cells() {
        return refuse(3, 1);
    }
    for (record, cells) in records.zip(table.chunks_exact_mut(width)) {
        for (four, held) in record[ROW_HEAD..].chunks_exact(4).zip(cells) {
            *held = cell(four);
        }
    }
    Ok(head)
}

// ---- Orders ----

/// Bytes of a lift's record and of a cure's, and of the finish's.
const ORDER: usize = 8;
const FINISH: usize = 6;

/// 1, 2, 14 and 3 for the list.
fn printer(printing: Printing) -> Answer<Plate> {
    let plate = settings(Head { height: printing.height, set: printing.set, columns: 0 })?;
    if printing.step == 0 || printing.step > MOST_STEP {
        return refuse(14, 0);
    }
    if printing.cure.len() < plate.tmax as usize {
        return refuse(3, 1);
    }
    Ok(plate)
}

/// A whole number of at most 24 binary digits divided by a power of 2: both steps are exact.
fn micrometres(printing: Printing, rise: i64) -> f32 {
    (rise as u32 * printing.step) as f32 / 8.0
}

fn seconds(entry: u16) -> f32 {
    f32::from(entry) / 64.0
}

/// 13, without a bound.
fn check_sequence(plate: Plate, sequence: &[i32]) -> Answer<()> {
    let Some((&first, rest)) = sequence.split_first().filter(|(_, rest)| !rest.is_empty()) else {
        return refuse(13, 0);
    };
    let first = i64::from(first);
    if first <= -plate.tmax || first > 0 {
        return refuse(13, 0);
    }
    let mut below = first;
    for (i, &z) in rest.iter().enumerate() {
        let z = i64::from(z);
        let is_last = i + 1 == rest.len();
        if !plate.allows(z - below) || z > plate.highest() || i == 0 && z <= 0 || is_last && below >= plate.height {
            return refuse(13, i + 1);
        }
        below = z;
    }
    if below < plate.height {
        return refuse(13, rest.len());
    }
    Ok(())
}

pub fn write_orders(printing: Printing, sequence: &[i32], out: &mut [u8]) -> Answer<u64> {
    let plate = printer(printing)?;
    check_sequence(plate, sequence)?;
    let entry = |layer: &[i32]| printing.cure[(layer[1] - layer[0]) as usize - 1];
    if let Some(layer) = sequence.windows(2).position(|layer| entry(layer) == 0) {
        return refuse(18, layer + 1);
    }
    let layers = sequence.len() - 1;
    let size = 2 * ORDER * layers + FINISH;
    if out.len() < size {
        return refuse(3, 2);
    }
    let (orders, finish) = out[..size].split_at_mut(2 * ORDER * layers);
    for (two, layer) in orders.chunks_exact_mut(2 * ORDER).zip(sequence.windows(2)) {
        two[..4].copy_from_slice(&[4, 0, 48, 0]);
        two[4..8].copy_from_slice(&micrometres(printing, i64::from(layer[1] - sequence[0])).to_le_bytes());
        two[8..12].copy_from_slice(&[4, 0, 49, 0]);
        two[12..].copy_from_slice(&seconds(entry(layer)).to_le_bytes());
    }
    let layers = (layers as u16).to_le_bytes();
    finish.copy_from_slice(&[2, 0, 50, 0, layers[0], layers[1]]);
    Ok(size as u64)
}

/// What a record of an order file is refused for, each of the reader's checks by its own name.
#[derive(Clone, Copy, Debug, PartialEq, Eq, PartialOrd, Ord)]
pub enum Fault {
    /// Fewer than 4 bytes left.
    CutHead,
    /// A kind that the kinds before it do not allow: they go 48 and 49 in turn, once or more, then 50.
    Kind,
    /// A length wrong for the kind.
    Length,
    /// A body past the input.
    CutBody,
    /// A height that is not the one before and a thickness that is allowed and has a cure time.
    Lift,
    /// A layer on top of layers that, wherever they begin, end at N or above.
    Over,
    /// Another time than the thickness has.
    Cure,
    /// Another number of layers.
    Layers,
    /// A finish below N.
    Below,
    /// Bytes after the finish.
    After,
}

impl Fault {
    /// By document 02's f).
    pub fn number(self) -> u32 {
        match self {
            Fault::CutHead | Fault::CutBody => 16,
            Fault::Kind => 19,
            Fault::Length => 20,
            _ => 21,
        }
    }
}

/// What is known after the records so far.
struct Reading {
    layers: usize,
    /// Of the first layer, and of all.
    first: i64,
    rise: i64,
    /// Of a layer that is lifted and not cured yet; 0 for none.
    thickness: i64,
}

/// The body of the record that the bytes begin with, of the kind and length that may come here.
fn body<'a>(reading: &Reading, left: &'a [u8]) -> Result<(u16, &'a [u8]), Fault> {
    let Some((head, rest)) = left.split_at_checked(4) else { return Err(Fault::CutHead) };
    let (length, kind) = (u16::from_le_bytes([head[0], head[1]]), u16::from_le_bytes([head[2], head[3]]));
    let due = match kind {
        48 if reading.thickness == 0 => 4,
        49 if reading.thickness > 0 => 4,
        50 if reading.thickness == 0 && reading.layers > 0 => 2,
        _ => return Err(Fault::Kind),
    };
    if length != due {
        return Err(Fault::Length);
    }
    Ok((kind, rest.get(..usize::from(due)).ok_or(Fault::CutBody)?))
}

/// The lowest first boundary is the height of the first layer below 1: from there the layers end lowest.
fn lift(plate: Plate, printing: Printing, reading: &mut Reading, body: &[u8]) -> Result<(), Fault> {
    let is_due = |t: &i64| {
        let lifted = micrometres(printing, reading.rise + t).to_le_bytes();
        printing.cure[*t as usize - 1] != 0 && lifted == body
    };
    let Some(thickness) = plate.thicknesses().find(is_due) else { return Err(Fault::Lift) };
    if reading.layers > 0 && reading.rise >= plate.height + reading.first - 1 {
        return Err(Fault::Over);
    }
    if reading.layers == 0 {
        reading.first = thickness;
    }
    (reading.rise, reading.thickness) = (reading.rise + thickness, thickness);
    Ok(())
}

fn cure(printing: Printing, reading: &mut Reading, body: &[u8]) -> Result<(), Fault> {
    if seconds(printing.cure[reading.thickness as usize - 1]).to_le_bytes() != body {
        return Err(Fault::Cure);
    }
    (reading.layers, reading.thickness) = (reading.layers + 1, 0);
    Ok(())
}

/// From first boundary 0 the layers end highest.
fn finish(plate: Plate, reading: &Reading, body: &[u8]) -> Result<(), Fault> {
    if usize::from(u16::from_le_bytes([body[0], body[1]])) != reading.layers {
        return Err(Fault::Layers);
    }
    if reading.rise < plate.height {
        return Err(Fault::Below);
    }
    Ok(())
}

/// The layers of an order file, or what its first record at fault is refused for and its first byte; record by record.
pub fn judge(plate: Plate, printing: Printing, file: &[u8]) -> Result<usize, (Fault, usize)> {
    let mut reading = Reading { layers: 0, first: 0, rise: 0, thickness: 0 };
    let mut at = 0;
    loop {
        let at_record = |fault: Fault| (fault, at);
        let (kind, body) = body(&reading, &file[at..]).map_err(at_record)?;
        match kind {
            48 => lift(plate, printing, &mut reading, body),
            49 => cure(printing, &mut reading, body),
            _ => finish(plate, &reading, body),
        }
        .map_err(at_record)?;
        at += 4 + body.len();
        if kind == 50 {
            return if at < file.len() { Err((Fault::After, at)) } else { Ok(reading.layers) };
        }
    }
}

pub fn read_order(printing: Printing, file: &[u8], number: u32) -> Answer<Order> {
    let plate = printer(printing)?;
    let layers = judge(plate, printing, file).or_else(|(fault, at)| refuse(fault.number(), at))?;
    let number = number as usize;
    if number >= 2 * layers {
        return Ok(Order::Finish(layers as u32));
    }
    let amount = f32::from_bits(cell(&file[ORDER * number + 4..ORDER * number + 8]));
    Ok(if number % 2 == 0 { Order::Lift(amount) } else { Order::Cure(amount) })
}
