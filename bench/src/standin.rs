// Stands in for the library, by the plain implementation, to try the comparison itself: STANDIN_FAULT plants one of the faults below, and
// the comparison must find it (bench/faults). Fault 0, or none, is no fault. Used with the feature `standin` only.

use crate::library::{as_lifted, as_loaded, as_ordered, as_pictured, as_reply, as_tabled};
use crate::library::{JobLoaded, Lifted, Ordered, Pictured, Reply, Tabled};
use crate::plain::{self, Answer, Columns, Filled, Head, Order, Plate, Printing, Refusal, Sheets};
use std::mem::swap;
use std::slice::{from_raw_parts, from_raw_parts_mut};
use std::sync::OnceLock;

pub const FAULTS: &[&str] = &[
    "no fault",
    "clear: the last cell keeps what it held",
    "clear: one cell too many is cleared",
    "add: twice the share",
    "add: the second column is counted and not tabulated",
    "add: every cell is looked at for 6",
    "add: 4 comes before 7",
    "add: a refusal still answers a column count",
    "join: the sum of the counts is not judged",
    "join: the second table is looked at first for 6",
    "join: the second table is written",
    "take off: what is left is not held to its limit",
    "plan: among equals the thickest layer",
    "plan: a layer at the bound is left out",
    "plan: one entry past the list is written",
    "plan: 7 comes before 3",
    "read back: among equal ends the highest",
    "read back: the output is written though 12 is answered",
    "read back: 3 for the output comes before 10",
    "read back: an end above 0 is let through",
    "recount: a difference of two boundaries wraps",
    "recount: the last boundary may be below N",
    "picture: a tie is filled",
    "motor height: 0 has a sign",
    "read job: bytes after the end are let through",
    "read job: 17 comes after faults of later records",
    "read job: the table is cleared and then the job refused",
    "read job: the remarks begin one kind later",
    "sizes: a sheet has no count 0",
    "take off: a greater second count is 9 at 1",
    "join: another height is answered",
    "take off: a refusal still answers the settings",
    "read job: the set and the column count are swapped",
    "job size: the record heads of columns are left out",
    "job size: 4 comes before 7",
    "write job: 4 has the count as its place",
    "write job: 4 and 5 are judged column by column",
    "write job: 66 boundaries are let through",
    "write job: a run longer than the counts say is refused",
    "write job: 5 comes before 3 for the run",
    "write job: 5 has the boundary's place in the run",
    "write job: a first boundary is held to the column before",
    "write job: a boundary above N is let through",
    "write job: 3 for the output comes before 5",
    "write job: 3 for the output is at 3",
    "write job: a byte is written though 5 is answered",
    "write job: the rest of the output is cleared",
    "write job: one byte past the file is written",
    "write job: boundaries lose their high byte",
    "write job: a column's length is that of its boundaries, not bytes",
    "write job: the end has two bytes of the column count",
    "write job: the bound is not written",
    "write job: a count is written",
    "sizes: M has one count less where N is above 1",
    "sizes: M is 2 for N = 1",
    "plan: z1 may be 0",
    "plan: the last boundary but one may be N",
    "plan: only the lower rule",
    "plan: the entry of count 1 at height 0 is 0",
    "read back: z1 may be 0",
    "read back: the last boundary but one may be N",
    "read back: only the lower rule",
    "read back: the first layer met that ends at or under 0 is 12",
    "read back: of two faults the lowest layer's",
    "read back: 10 by document 01's M",
    "recount: z1 may be 0",
    "recount: the last boundary but one may be N",
    "recount: only the lower rule",
    "recount: the first layer over the plate is 13",
    "recount: the two rules come after the layers",
    "picture: a layer wholly under or over the plate is 13",
    "read job: 17 by document 01's M",
    "read table: a row's start is not compared",
    "read table: a start's high byte is not compared",
    "read table: a kind's high byte is not looked at",
    "read table: a row's length may be other than its cells'",
    "read table: the end's number of rows is not compared",
    "read table: rows missing are let through if those are told that came",
    "read table: a row too many is let through",
    "read table: remarks are skipped",
    "read table: bytes after the end are let through",
    "read table: fewer than 4 bytes after the end are let through",
    "read table: the end's body may be cut off",
    "read table: 6 against the count times t",
    "read table: a cell of a thickness that is not allowed is let through",
    "read table: 7 is not asked",
    "read table: 6 at the cell's index",
    "read table: 6 comes before another start",
    "read table: a row that skips one is told at the end",
    "read table: 2 comes before 1",
    "read table: 7 comes before 1 and 2",
    "read table: 7 at the count's own bytes",
    "read table: 3 comes before the file's faults",
    "read table: 3 is at 2",
    "read table: a longer table is refused",
    "read table: rows are stored as they are judged",
    "read table: the table is written before the last record is judged",
    "read table: the column count is dropped",
    "read table: a refusal still answers the settings",
    "read table: the last row is not stored",
    "read table: cells lose their third byte",
    "read table: one cell past the table is written",
    "read table: the rest of the table is cleared",
    "read table: the file is written",
    "write table: the last row is not written",
    "write table: the column count is dropped",
    "write table: a start's sign is lost",
    "write table: rows begin at 1",
    "write table: the end tells one row less",
    "write table: a row's length is that of its cells alone",
    "write table: thicknesses fall",
    "write table: cells lose their third byte",
    "write table: the end is not in the length",
    "write table: the rest of the output is cleared",
    "write table: one byte past the file is written",
    "write table: a cell is written",
    "write table: cells past the table are looked at",
    "write table: a longer table is refused",
    "write table: 6 against the count times t",
    "write table: a cell of a thickness that is not allowed is let through",
    "write table: 6 at the highest such cell",
    "write table: 6 at the row's record",
    "write table: 7 comes before 3 for the table",
    "write table: 6 comes before 7",
    "write table: 3 for the output comes before 6",
    "write table: 3 for the output is at 3",
    "write table: a byte is written though 6 is answered",
    "write table: the opening is written though 3 is answered",
    "add: the carried count is not reset at a new start",
    "add: the count is carried past tmax into the next row",
    "add: a boundary at the layer's end is counted in",
    "add: the flip comes after the voxel is counted",
    "add: of two boundaries 1 apart the second is passed over",
    "add: the 64th boundary is passed over",
    "add: the rows near a boundary begin one row late",
    "add: the rows near the last boundary are left out",
    "add: starts below 0 are left out",
    "add: layers that end above N are left out",
    "add: 6 is asked of thicknesses that are not allowed",
    "add: 6 at the highest such cell",
    "add: 6 at the highest such cell of the lowest row",
    "add: 6 against the count times t",
    "add: 6 against the count with the column",
    "add: the cells before are written though 6 is answered",
    "add: a cell of share 0 is brought into bounds",
    "write orders: heights above 0 instead of the first boundary",
    "write orders: a lift by the layer's thickness alone",
    "write orders: a lift to the layer's lower height",
    "write orders: heights lose their last eighths",
    "write orders: cure by eighths",
    "write orders: the cure entry of the next thickness",
    "write orders: the time of the layer before",
    "write orders: a float's bytes are turned round",
    "write orders: lifts and cures change places",
    "write orders: the finish tells one layer less",
    "write orders: the finish has one byte of the layer count",
    "write orders: the finish is not in the length",
    "write orders: the last layer is not written",
    "write orders: a lift past 543 units is 15",
    "write orders: 14 for the greatest step",
    "write orders: 14 comes before 2",
    "write orders: 3 for the list comes before 14",
    "write orders: 3 for the list is at 2",
    "write orders: the list may be as short as T has members",
    "write orders: a longer list is refused",
    "write orders: 13 comes before 3 for the list",
    "write orders: z1 may be 0",
    "write orders: the last boundary but one may be N",
    "write orders: only the lower rule",
    "write orders: the last boundary may be below N",
    "write orders: 18 comes before 13",
    "write orders: 18 comes before 13 at a later layer",
    "write orders: 18 at the last such layer",
    "write orders: 18 from 0",
    "write orders: 18 at the thickness",
    "write orders: 18 for an allowed thickness that no layer has",
    "write orders: 18 for a thickness that is not allowed",
    "write orders: a cure time 0 is let through",
    "write orders: 3 for the output comes before 13",
    "write orders: 3 for the output comes before 18",
    "write orders: 3 for the output is at 1",
    "write orders: the layers before are written though 18 is answered",
    "write orders: the first lift is written though 3 is answered",
    "write orders: the rest of the output is cleared",
    "write orders: one byte past the file is written",
    "write orders: the sequence is written",
    "write orders: the cure list is written",
    "read order: the cure record is not compared",
    "read order: a cure is held to the list's times, of whatever thickness",
    "read order: a lift's lowest byte is not compared",
    "read order: a lift's sign is not compared",
    "read order: a lift is compared by distance",
    "read order: a lift may be by a thickness that is not allowed",
    "read order: a lift may be of two layers at once",
    "read order: a cure time 0 is found at the cure",
    "read order: a cure time 0 is let through",
    "read order: some allowed thickness of cure time 0 is 21 at 0",
    "read order: a layer that begins at N from the lowest start is let through",
    "read order: layers are held to a first boundary of 0",
    "read order: layers are held to the lowest start of all",
    "read order: a layer too many is told at the finish",
    "read order: the finish is held to the lowest start",
    "read order: a finish just at N is refused",
    "read order: a finish below N is let through",
    "read order: a finish below N is told at the last lift",
    "read order: the finish's number is not compared",
    "read order: the high byte of the finish's number is not compared",
    "read order: a finish of no layers is let through",
    "read order: a cure may be missing",
    "read order: a kind's high byte is not looked at",
    "read order: a length is not looked at",
    "read order: remarks are skipped",
    "read order: the finish's body may be cut off",
    "read order: bytes after the finish are let through",
    "read order: fewer than 4 bytes after the finish are let through",
    "read order: bytes after the finish are told at the finish",
    "read order: what is behind the order asked for is not judged",
    "read order: a file cut behind the order asked for is read",
    "read order: a record that is cut off is told at the end of the input",
    "read order: a fault of the file is told at the layer's lift",
    "read order: a fault of the file is told at the body",
    "read order: 2 comes before 1",
    "read order: 14 comes before 2",
    "read order: 14 is asked after the file",
    "read order: 14 for the greatest step",
    "read order: 3 for the list comes before 14",
    "read order: the file's faults come before 3 for the list",
    "read order: 3 for the list is at 2",
    "read order: the list may be as short as T has members",
    "read order: a longer list is refused",
    "read order: the cure comes before the lift",
    "read order: orders are numbered from 1",
    "read order: numbers have 16 bits",
    "read order: past the finish is 10",
    "read order: past the finish is the last cure",
    "read order: the finish tells one layer less",
    "read order: a lift tells the layer's thickness",
    "read order: a cure tells 64ths",
    "read order: the finish has an amount too",
    "read order: a lift has its layer as count",
    "read order: a refusal has a kind",
    "read order: an order done has its place",
    "read order: the file is written",
    "read order: the cure list is written",
    "read job: a kind that is not known is 16",
    "read job: a known kind out of place is 21",
    "read job: the kind is judged after the length",
    "read job: the kind is judged after the body",
    "read job: the length is judged after the body",
    "read job: a body that is cut off is 20",
    "read job: a head that is cut off is 20",
    "read job: contents that disagree are 16",
    "read job: fewer than 4 bytes after the end are 16",
    "read job: a kind not known after the end is 19",
    "read job: a length wrong for its kind after the end is 20",
    "read job: a record cut off after the end is 16",
    "read job: a second settings record is 21",
    "read job: another end count is 20",
    "read table: a kind that is not known is 16",
    "read table: a known kind out of place is 21",
    "read table: the kind is judged after the length",
    "read table: the kind is judged after the body",
    "read table: the length is judged after the body",
    "read table: a body that is cut off is 20",
    "read table: a head that is cut off is 20",
    "read table: contents that disagree are 16",
    "read table: fewer than 4 bytes after the end are 16",
    "read table: a kind not known after the end is 19",
    "read table: a length wrong for its kind after the end is 20",
    "read table: a record cut off after the end is 16",
    "read table: an end straight after the opening is 21",
    "read table: a row too many is 19",
    "read table: rows missing are 19",
    "read order: a kind that is not known is 16",
    "read order: a known kind out of place is 21",
    "read order: the kind is judged after the length",
    "read order: the kind is judged after the body",
    "read order: the length is judged after the body",
    "read order: a body that is cut off is 20",
    "read order: a head that is cut off is 20",
    "read order: contents that disagree are 16",
    "read order: fewer than 4 bytes after the end are 16",
    "read order: a kind not known after the end is 19",
    "read order: a length wrong for its kind after the end is 20",
    "read order: a record cut off after the end is 16",
    "read order: a finish first of all is 21",
    "read order: a layer too many is 19",
    "read order: a finish below N is 19",
    "picture: the difference is outside minus inside",
    "picture: the difference is what is outside",
    "picture: a difference below 0 is told as 0",
    "picture: the difference is told without its sign",
    "picture: the share is the greater count",
    "picture: a refusal tells a difference",
];

fn fault() -> usize {
    static FAULT: OnceLock<usize> = OnceLock::new();
    *FAULT.get_or_init(|| std::env::var("STANDIN_FAULT").ok().and_then(|text| text.parse().ok()).unwrap_or(0))
}

fn is(text: &str) -> bool {
    fault() != 0 && FAULTS[fault()] == text
}

/// What a call holds layers to in place of document 02's b): the least z1, and the greatest last boundary but one.
#[derive(Clone, Copy)]
struct Rule {
    least: i64,
    most: i64,
}

const NO_RULE: Rule = Rule { least: i64::MIN, most: i64::MAX };

/// The wrong rule of a call, where one is planted.
fn wrong_rule(call: &str, plate: Plate) -> Option<Rule> {
    let right = Rule { least: 1, most: plate.height - 1 };
    let planted = |fault: &str| is(&format!("{call}: {fault}"));
    if planted("z1 may be 0") {
        Some(Rule { least: 0, ..right })
    } else if planted("the last boundary but one may be N") {
        Some(Rule { most: plate.height, ..right })
    } else if planted("only the lower rule") {
        Some(Rule { most: i64::MAX, ..right })
    } else {
        None
    }
}

/// M before document 02's b).
fn counts_before(plate: Plate) -> i64 {
    (plate.height + 2 * plate.tmax - 2) / plate.tmin
}

unsafe fn lent<'a, T>(start: *const T, length: usize) -> &'a [T] {
    from_raw_parts(start, length)
}

unsafe fn lent_mut<'a, T>(start: *mut T, length: usize) -> &'a mut [T] {
    from_raw_parts_mut(start, length)
}

#[no_mangle]
unsafe extern "C" fn shagorent_clear_table(table: *mut u32, n: usize, height: u32, set: u32) -> Tabled {
    let cells = lent_mut(table, n);
    let answer = plain::clear_table(cells, height, set);
    if answer.is_ok() && is("clear: the last cell keeps what it held") {
        cells[Plate::new(height, set).unwrap().cells() - 1] = 77;
    }
    if answer.is_ok() && is("clear: one cell too many is cleared") {
        *table.add(Plate::new(height, set).unwrap().cells()) = 0;
    }
    as_tabled(answer)
}

#[no_mangle]
unsafe extern "C" fn shagorent_add_column(
    table: *mut u32,
    n: usize,
    head: Head,
    column: *const u16,
    boundaries: usize,
) -> Tabled {
    let (table, column) = (lent_mut(table, n), lent(column, boundaries));
    let before = table.to_vec();
    let mut answer = plain::add_column(table, head, column);
    if answer.err().is_none_or(|refusal| refusal.number == 6) {
        table.copy_from_slice(&before);
        answer = add_carrying(table, head, column);
    }
    if answer.is_ok() && is("add: twice the share") {
        table.iter_mut().zip(&before).for_each(|(cell, before)| *cell += *cell - before);
    }
    if answer.is_ok() && head.columns == 1 && is("add: the second column is counted and not tabulated") {
        table.copy_from_slice(&before);
    }
    if answer.is_ok() && is("add: every cell is looked at for 6") {
        let plate = head.plate().unwrap();
        if let Some(cell) = (0..plate.cells()).find(|&i| before[i] > plate.limit(i, head.columns)) {
            table.copy_from_slice(&before);
            answer = Err(Refusal { number: 6, place: cell as u64 });
        }
    }
    if answer.err().is_some_and(|r| r.number == 7) && boundaries % 2 == 1 && is("add: 4 comes before 7") {
        answer = Err(Refusal { number: 4, place: boundaries as u64 });
    }
    let mut tabled = as_tabled(answer);
    if answer.is_err() && is("add: a refusal still answers a column count") {
        tabled.head.columns = head.columns;
    }
    tabled
}

/// Adding, where nothing before 6 refuses it, with the inside count carried along: without a fault it does what the plain one does.
fn add_carrying(table: &mut [u32], head: Head, column: &[u16]) -> Answer<Head> {
    let plate = head.plate()?;
    let shares = carried(plate, column);
    let allowed = |cell: usize| plate.allows(plate.layer(cell).1);
    let place = cell_over(plate, table, head.columns, &shares);
    let adds = place.is_none() || is("add: the cells before are written though 6 is answered");
    for cell in (0..place.unwrap_or(plate.cells())).filter(|&cell| adds && allowed(cell)) {
        table[cell] = table[cell].wrapping_add(shares[cell]);
        if shares[cell] == 0 && is("add: a cell of share 0 is brought into bounds") {
            table[cell] = table[cell].min(plate.limit(cell, head.columns));
        }
    }
    match place {
        Some(cell) => Err(Refusal { number: 6, place: cell as u64 }),
        None => Ok(plate.head(head.columns + 1)),
    }
}

/// The share of each layer near a boundary, allowed or not.
fn carried(plate: Plate, column: &[u16]) -> Vec<u32> {
    let column = boundaries_seen(column);
    let (ahead, behind) =
        (is("add: a boundary at the layer's end is counted in"), is("add: the flip comes after the voxel is counted"));
    let past = i64::from(is("add: the count is carried past tmax into the next row"));
    let is_reset = !is("add: the carried count is not reset at a new start");
    let mut shares = vec![0; plate.cells()];
    let mut inside = 0;
    for start in rows_near(plate, &column) {
        inside = if is_reset { 0 } else { inside };
        for thickness in 1..=plate.tmax + past {
            let voxel = start + thickness - 1;
            let judged = if thickness == 1 { voxel } else { voxel + i64::from(ahead) - i64::from(behind) };
            inside += (column.partition_point(|&boundary| boundary <= judged) % 2) as i64;
            let share = inside.min((thickness - inside).abs());
            let is_left_out = voxel >= plate.height && is("add: layers that end above N are left out");
            if let Some(held) = shares.get_mut(plate.cell(start, thickness)).filter(|_| !is_left_out) {
                *held = share as u32;
            }
        }
    }
    shares
}

/// The boundaries that adding takes note of.
fn boundaries_seen(column: &[u16]) -> Vec<i64> {
    let mut seen: Vec<i64> = column.iter().map(|&boundary| i64::from(boundary)).collect();
    if is("add: the 64th boundary is passed over") {
        seen.truncate(63);
    }
    if is("add: of two boundaries 1 apart the second is passed over") {
        seen.dedup_by(|boundary, before| *boundary == *before + 1);
    }
    seen
}

/// The starts, rising, of which a layer can have a boundary strictly between its ends.
fn rows_near(plate: Plate, column: &[i64]) -> Vec<i64> {
    let (late, short) = (
        i64::from(is("add: the rows near a boundary begin one row late")),
        usize::from(is("add: the rows near the last boundary are left out")),
    );
    let least = if is("add: starts below 0 are left out") { 0 } else { plate.lowest() };
    let near = &column[..column.len().saturating_sub(short)];
    let is_near = |start: &i64| near.iter().any(|b| (b - plate.tmax + 1 + late..*b).contains(start));
    (least..=plate.last_start()).filter(is_near).collect()
}

/// The cell that 6 is answered at.
fn cell_over(plate: Plate, table: &[u32], columns: u32, shares: &[u32]) -> Option<usize> {
    let any = is("add: 6 is asked of thicknesses that are not allowed");
    let counted = columns + u32::from(is("add: 6 against the count with the column"));
    let is_asked = |cell: usize| shares[cell] > 0 && (any || plate.allows(plate.layer(cell).1));
    let passes =
        |cell: usize| wrong_limit("add", plate, cell, columns).is_some_and(|limit| u64::from(table[cell]) <= limit);
    let is_over = |&cell: &usize| is_asked(cell) && table[cell] > plate.limit(cell, counted) && !passes(cell);
    let over: Vec<usize> = (0..plate.cells()).filter(is_over).collect();
    let row = |cell: usize| cell / plate.tmax as usize;
    if is("add: 6 at the highest such cell") {
        return over.last().copied();
    }
    if is("add: 6 at the highest such cell of the lowest row") {
        return over.iter().rev().find(|&&cell| row(cell) == row(over[0])).copied();
    }
    over.first().copied()
}

#[no_mangle]
unsafe extern "C" fn shagorent_join_tables(
    table: *mut u32,
    n: usize,
    head: Head,
    other: *const u32,
    m: usize,
    other_head: Head,
) -> Tabled {
    let second = lent(other, m);
    let mut answer = plain::join_tables(lent_mut(table, n), head, second, other_head);
    if answer.err().is_some_and(|r| r.number == 7) && is("join: the sum of the counts is not judged") {
        answer = Ok(Head { columns: head.columns.wrapping_add(other_head.columns), ..head });
    }
    if answer.err().is_some_and(|r| r.number == 6) && is("join: the second table is looked at first for 6") {
        let plate = head.plate().unwrap();
        let bad = |&i: &usize| second[i] > plate.limit(i, other_head.columns);
        if let Some(cell) = (0..plate.cells()).find(bad) {
            answer = Err(Refusal { number: 6, place: cell as u64 });
        }
    }
    if answer.is_ok() && is("join: the second table is written") {
        *other.cast_mut() += 1;
    }
    if is("join: another height is answered") {
        answer = answer.map(|head| Head { height: head.height + 1, ..head });
    }
    as_tabled(answer)
}

#[no_mangle]
unsafe extern "C" fn shagorent_take_off(
    table: *mut u32,
    n: usize,
    head: Head,
    other: *const u32,
    m: usize,
    other_head: Head,
) -> Tabled {
    let (table, second) = (lent_mut(table, n), lent(other, m));
    let mut answer = plain::take_off(table, head, second, other_head);
    let refused_9 = answer.err().is_some_and(|r| r.number == 9);
    let greater = other_head.columns > head.columns;
    if refused_9 && greater && is("take off: a greater second count is 9 at 1") {
        answer = Err(Refusal { number: 9, place: 1 });
    }
    if refused_9 && !greater && is("take off: what is left is not held to its limit") {
        let cells = head.plate().unwrap().cells();
        if (0..cells).all(|i| table[i] >= second[i]) {
            (0..cells).for_each(|i| table[i] -= second[i]);
            answer = Ok(Head { columns: head.columns - other_head.columns, ..head });
        }
    }
    let mut tabled = as_tabled(answer);
    if refused_9 && is("take off: a refusal still answers the settings") {
        tabled.head = Head { columns: 0, ..head };
    }
    tabled
}

#[no_mangle]
unsafe extern "C" fn shagorent_plan(
    table: *const u32,
    n: usize,
    head: Head,
    bound: u32,
    errors: *mut u64,
    e: usize,
    thicknesses: *mut u8,
    t: usize,
    list: *mut u64,
    l: usize,
) -> Reply {
    let (table, errors, thicknesses) = (lent(table, n), lent_mut(errors, e), lent_mut(thicknesses, t));
    let sheets = Sheets { errors, thicknesses, list: lent_mut(list, l) };
    let left_out = bound < u32::MAX && is("plan: a layer at the bound is left out");
    let used = if left_out { bound.saturating_sub(1) } else { bound };
    let mut answer = plain::plan(table, head, used, sheets);
    if answer.is_ok() && is("plan: among equals the thickest layer") {
        thickest(head.plate().unwrap(), table, bound, errors, thicknesses);
    }
    if answer.is_ok() && is("plan: one entry past the list is written") {
        *list.add(head.plate().unwrap().counts()) = 0;
    }
    if let Ok(plate) = answer.and(head.plate()) {
        if let Some(rule) = wrong_rule("plan", plate) {
            plan_by(rule, plate, table, bound, Sheets { errors, thicknesses, list: lent_mut(list, l) });
        }
        if is("plan: the entry of count 1 at height 0 is 0") {
            errors[plate.entry(0, 1)] = 0;
        }
    }
    let short = answer.err().is_some_and(|r| r.number == 3);
    if short && head.columns > plain::MOST_COLUMNS && is("plan: 7 comes before 3") {
        answer = Err(Refusal { number: 7, place: 0 });
    }
    as_reply(answer)
}

fn thickest(plate: Plate, table: &[u32], bound: u32, errors: &[u64], thicknesses: &mut [u8]) {
    for height in plate.lowest()..=plate.highest() {
        for count in 1..=plate.counts() {
            let entry = plate.entry(height, count);
            for t in plate.thicknesses().filter(|t| (plate.lowest()..plate.height).contains(&(height - t))) {
                let before = errors[plate.entry(height - t, count - 1)];
                let error = table[plate.cell(height - t, t)];
                if before < plain::NONE && error <= bound && before + u64::from(error) == errors[entry] {
                    thicknesses[entry] = t as u8;
                }
            }
        }
    }
}

/// Both sheets and the list by another rule.
fn plan_by(rule: Rule, plate: Plate, table: &[u32], bound: u32, sheets: Sheets) {
    sheets.list[..plate.counts()].fill(plain::NONE);
    for height in plate.lowest()..=plate.highest() {
        for count in 1..=plate.counts() {
            let mut best = (plain::NONE, 0);
            for t in plate.thicknesses().filter(|t| height - t >= plate.lowest()) {
                let (before, error) = (plate.entry(height - t, count - 1), table[plate.cell(height - t, t)]);
                let sum = sheets.errors[before].saturating_add(u64::from(error));
                let fits = (count > 1 || height >= rule.least) && height - t <= rule.most;
                if fits && error <= bound && sum < best.0 {
                    best = (sum, t);
                }
            }
            let entry = plate.entry(height, count);
            (sheets.errors[entry], sheets.thicknesses[entry]) = (best.0, best.1 as u8);
            if height >= plate.height {
                sheets.list[count - 1] = sheets.list[count - 1].min(best.0);
            }
        }
    }
}

#[no_mangle]
unsafe extern "C" fn shagorent_read_back(
    height: u32,
    set: u32,
    errors: *const u64,
    e: usize,
    thicknesses: *const u8,
    t: usize,
    count: u32,
    out: *mut i32,
    o: usize,
) -> Reply {
    let sheets = Filled { errors: lent(errors, e), thicknesses: lent(thicknesses, t) };
    let out = lent_mut(out, o);
    let mut answer = plain::read_back(height, set, sheets, count, out);
    let refused = answer.err().map_or(0, |r| r.number);
    if refused == 12 && is("read back: the output is written though 12 is answered") {
        out[count as usize] = height as i32;
    }
    if refused == 10 && o <= count as usize && is("read back: 3 for the output comes before 10") {
        answer = Err(Refusal { number: 3, place: 3 });
    }
    if answer == Err(Refusal { number: 12, place: 0 }) && is("read back: an end above 0 is let through") {
        answer = Ok(0);
    }
    if refused == 0 || refused == 12 {
        answer = read_wrongly(Plate::new(height, set).unwrap(), sheets, count as usize, answer, out);
    }
    if refused == 10 && is("read back: 10 by document 01's M") {
        let let_through = 1..=counts_before(Plate::new(height, set).unwrap());
        answer = if let_through.contains(&i64::from(count)) { Err(Refusal { number: 11, place: 0 }) } else { answer };
    }
    if refused == 0 && is("read back: among equal ends the highest") {
        let plate = Plate::new(height, set).unwrap();
        let entry = |h: &i64| sheets.errors[plate.entry(*h, count as usize)];
        let ends = plate.height..=plate.highest();
        out[count as usize] = ends.rev().min_by_key(entry).unwrap() as i32;
    }
    as_reply(answer)
}

/// The answer by a wrong rule, where nothing before 12 refuses it.
fn read_wrongly(plate: Plate, sheets: Filled, count: usize, answer: Answer<u64>, out: &mut [i32]) -> Answer<u64> {
    let heights = followed(plate, sheets, count);
    if let Some(rule) = wrong_rule("read back", plate) {
        if let Some(layer) = first_fault(rule, &heights, count) {
            return refused(12, layer);
        }
        out.iter_mut().zip(heights.iter().rev()).for_each(|(boundary, &z)| *boundary = z as i32);
        return Ok(sheets.errors[plate.entry(heights[0], count)]);
    }
    let place = answer.err().map_or(u64::MAX, |r| r.place);
    if is("read back: the first layer met that ends at or under 0 is 12") {
        let under = heights.iter().take(count).position(|&z| z <= 0).map(|met| count - met);
        return under.filter(|&layer| layer as u64 > place).map_or(answer, |layer| refused(12, layer));
    }
    if is("read back: of two faults the lowest layer's") {
        let lower = first_fault(Rule { least: 1, ..NO_RULE }, &heights, count);
        return lower.map_or(answer, |layer| refused(12, layer));
    }
    answer
}

/// The heights that sheets name for a count, from the end down, as far as its layers' thicknesses lead.
fn followed(plate: Plate, sheets: Filled, count: usize) -> Vec<i64> {
    let ends = plate.height..=plate.highest();
    let mut heights = vec![ends.min_by_key(|&z| sheets.errors[plate.entry(z, count)]).unwrap()];
    for layer in (1..=count).rev() {
        let height = heights[count - layer];
        let thickness = i64::from(sheets.thicknesses[plate.entry(height, layer)]);
        if !plate.allows(thickness) || height - thickness < plate.lowest() {
            break;
        }
        heights.push(height - thickness);
    }
    heights
}

/// The layer at fault by another rule that is met first on the way down these heights; 0 for an end above 0.
fn first_fault(rule: Rule, heights: &[i64], count: usize) -> Option<usize> {
    let z = |index: usize| heights.get(count - index);
    if z(count - 1).is_some_and(|&z| z > rule.most) {
        return Some(count);
    }
    if heights.len() <= count {
        return Some(count + 1 - heights.len());
    }
    if z(1).is_some_and(|&z| z < rule.least) {
        return Some(1);
    }
    z(0).is_some_and(|&z| z > 0).then_some(0)
}

#[no_mangle]
unsafe extern "C" fn shagorent_recount(
    table: *const u32,
    n: usize,
    head: Head,
    bound: u32,
    sequence: *const i32,
    s: usize,
) -> Reply {
    let (table, sequence) = (lent(table, n), lent(sequence, s));
    let mut answer = plain::recount(table, head, bound, sequence);
    let refused_at = answer.err().filter(|r| r.number == 13).map(|r| r.place as usize);
    if let Some(i) = refused_at.filter(|&i| i > 0) {
        let plate = head.plate().unwrap();
        let thickness = i64::from(sequence[i]) - i64::from(sequence[i - 1]);
        let wrapped = i64::from(sequence[i].wrapping_sub(sequence[i - 1]) & 31);
        if !plate.allows(thickness) && plate.allows(wrapped) && is("recount: a difference of two boundaries wraps") {
            answer = Err(Refusal { number: 13, place: i as u64 + 1 });
        }
        let last = i == s - 1 && plate.allows(thickness) && i64::from(sequence[i]) < plate.height;
        if last && is("recount: the last boundary may be below N") {
            answer = Ok(0);
        }
    }
    if answer.is_ok() || refused_at.is_some_and(|i| i > 0) {
        answer = recount_wrongly(head.plate().unwrap(), table, bound, sequence, answer);
    }
    as_reply(answer)
}

/// The answer by a wrong rule, where nothing before 13 at a layer refuses it.
fn recount_wrongly(plate: Plate, table: &[u32], bound: u32, sequence: &[i32], answer: Answer<u64>) -> Answer<u64> {
    if let Some(rule) = wrong_rule("recount", plate) {
        return recount_by(rule, plate, table, bound, sequence);
    }
    if is("recount: the first layer over the plate is 13") {
        let over = sequence[..sequence.len() - 1].iter().position(|&z| i64::from(z) >= plate.height);
        let place = answer.err().map_or(0, |r| r.place as usize);
        return over.filter(|start| start + 1 < place).map_or(answer, |start| refused(13, start + 1));
    }
    if is("recount: the two rules come after the layers") {
        return recount_by(NO_RULE, plate, table, bound, sequence).and(answer);
    }
    answer
}

fn recount_by(rule: Rule, plate: Plate, table: &[u32], bound: u32, sequence: &[i32]) -> Answer<u64> {
    let last = sequence.len() - 1;
    let mut error = 0;
    for (i, pair) in (1..).zip(sequence.windows(2)) {
        let (start, end) = (i64::from(pair[0]), i64::from(pair[1]));
        if !plate.allows(end - start) || end > plate.highest() {
            return refused(13, i);
        }
        let layer = table[plate.cell(start, end - start)];
        let first_fits = i > 1 || end >= rule.least;
        let last_fits = i < last || start <= rule.most && end >= plate.height;
        if layer > bound || !first_fits || !last_fits {
            return refused(13, i);
        }
        error += u64::from(layer);
    }
    Ok(error)
}

#[no_mangle]
unsafe extern "C" fn shagorent_picture(
    height: u32,
    set: u32,
    column: *const u16,
    boundaries: usize,
    start: i32,
    thickness: u32,
) -> Pictured {
    let mut answer = plain::picture(height, set, lent(column, boundaries), start, thickness);
    if let Ok(picture) = &mut answer {
        let tie = picture.share * 2 == thickness;
        picture.filled |= tie && is("picture: a tie is filled");
        let outside = (thickness as i32 - picture.difference) / 2;
        if is("picture: the difference is outside minus inside") {
            picture.difference = -picture.difference;
        }
        if is("picture: the difference is what is outside") {
            picture.difference = outside;
        }
        if picture.difference < 0 && is("picture: a difference below 0 is told as 0") {
            picture.difference = 0;
        }
        if is("picture: the difference is told without its sign") {
            picture.difference = picture.difference.abs();
        }
        if is("picture: the share is the greater count") {
            picture.share = thickness - picture.share;
        }
    }
    let nothing_on_it = i64::from(start) + i64::from(thickness) <= 0 || i64::from(start) >= i64::from(height);
    if answer.is_ok() && nothing_on_it && is("picture: a layer wholly under or over the plate is 13") {
        answer = Err(Refusal { number: 13, place: 0 });
    }
    let mut pictured = as_pictured(answer);
    if pictured.number == 13 && is("picture: a refusal tells a difference") {
        pictured.difference = -(thickness as i32);
    }
    pictured
}

#[no_mangle]
extern "C" fn shagorent_motor_height(step: u32, boundary: i32) -> Lifted {
    let mut lifted = as_lifted(plain::motor_height(step, boundary));
    if lifted.number == 0 && boundary == 0 && is("motor height: 0 has a sign") {
        lifted.height = -0.0;
    }
    lifted
}

/// The kinds of a file: the first one, the others in their order, the end last, and the lengths that they have where they have one.
type Kinds = [(u16, Option<usize>)];

const JOB: [(u16, Option<usize>); 3] = [(1, Some(10)), (2, None), (3, Some(4))];
const TABLE: [(u16, Option<usize>); 3] = [(16, Some(10)), (17, None), (18, Some(2))];
const ORDERS: [(u16, Option<usize>); 3] = [(48, Some(4)), (49, Some(4)), (50, Some(2))];

/// A fault of a file told by another number than document 02's f) gives it. Where the file up to there is read, what is left stands after the end.
fn split_wrongly(call: &str, kinds: &Kinds, file: &[u8], refusal: Refusal, is_read: impl Fn(&[u8]) -> bool) -> Refusal {
    if fault() == 0 || !matches!(refusal.number, 16 | 19..=21) {
        return refusal;
    }
    let left = &file[refusal.place as usize..];
    let number = match refusal.number == 21 && is_read(&file[..refusal.place as usize]) {
        true => after_wrongly(call, kinds, left),
        false => record_wrongly(call, kinds, left, refusal),
    };
    Refusal { number: number.unwrap_or(refusal.number), ..refusal }
}

/// The length and the kind of a record, and whether the kind is known, the length one that it has, and the body cut off.
struct Frame {
    kind: u16,
    is_known: bool,
    is_length_right: bool,
    is_cut: bool,
}

impl Frame {
    fn of(kinds: &Kinds, left: &[u8]) -> Option<Frame> {
        let (head, body) = left.split_at_checked(4)?;
        let [length, kind] = [[head[0], head[1]], [head[2], head[3]]].map(u16::from_le_bytes);
        let known = kinds.iter().find(|known| known.0 == kind);
        let is_length_right = known.is_none_or(|known| known.1.is_none_or(|due| due == usize::from(length)));
        Some(Frame { kind, is_known: known.is_some(), is_length_right, is_cut: body.len() < usize::from(length) })
    }
}

/// The wrong number for bytes after the end, where one is planted.
fn after_wrongly(call: &str, kinds: &Kinds, left: &[u8]) -> Option<u32> {
    let planted = |fault: &str| is(&format!("{call}: {fault}"));
    let Some(frame) = Frame::of(kinds, left) else {
        return planted("fewer than 4 bytes after the end are 16").then_some(16);
    };
    let number = match frame {
        _ if !frame.is_known && planted("a kind not known after the end is 19") => 19,
        _ if !frame.is_length_right && planted("a length wrong for its kind after the end is 20") => 20,
        _ if frame.is_cut && planted("a record cut off after the end is 16") => 16,
        _ => return None,
    };
    Some(number)
}

/// The wrong number for a record at fault before the end, where one is planted.
fn record_wrongly(call: &str, kinds: &Kinds, left: &[u8], refusal: Refusal) -> Option<u32> {
    let planted = |fault: &str| is(&format!("{call}: {fault}"));
    let Some(Frame { kind, is_known, is_length_right, is_cut }) = Frame::of(kinds, left) else {
        return planted("a head that is cut off is 20").then_some(20);
    };
    let (first, end) = (kinds[0].0, kinds[2].0);
    let number = match refusal.number {
        19 if !is_known && planted("a kind that is not known is 16") => 16,
        19 if is_known && planted("a known kind out of place is 21") => 21,
        19 if !is_length_right && planted("the kind is judged after the length") => 20,
        19 if is_cut && planted("the kind is judged after the body") => 16,
        19 if kind == first && planted("a second settings record is 21") => 21,
        19 if kind == end && refusal.place == 14 && planted("an end straight after the opening is 21") => 21,
        19 if kind == end && refusal.place == 0 && planted("a finish first of all is 21") => 21,
        20 if is_cut && planted("the length is judged after the body") => 16,
        16 if is_cut && planted("a body that is cut off is 20") => 20,
        21 if planted("contents that disagree are 16") => 16,
        21 if kind == end && planted("another end count is 20") => 20,
        _ => return None,
    };
    Some(number)
}

#[no_mangle]
unsafe extern "C" fn shagorent_read_job(
    input: *const u8,
    n: usize,
    most: usize,
    table: *mut u32,
    t: usize,
) -> JobLoaded {
    let (input, table) = (lent(input, n), lent_mut(table, t));
    let mut answer = plain::read_job(input, most, table);
    let refused = answer.err().map_or(0, |r| r.number);
    if refused == 21 && is("read job: bytes after the end are let through") {
        let cut = answer.err().map_or(0, |r| r.place as usize);
        answer = plain::read_job(&input[..cut], most, table).or(answer);
    }
    if refused == 17 && is("read job: 17 comes after faults of later records") {
        let later = plain::read_job(input, usize::MAX, &mut vec![0; 20_000]);
        answer = Err(later.err().or(answer.err()).unwrap());
    }
    if refused == 5 && is("read job: the table is cleared and then the job refused") {
        table.fill(0);
    }
    if refused == 0 && is("read job: the remarks begin one kind later") && input[2..4] == [0, 128] {
        answer = Err(Refusal { number: 19, place: 0 });
    }
    if is("read job: 17 by document 01's M") {
        if let Ok(plate) = answer.and_then(|loaded| loaded.head.plate()) {
            let entries = (plate.height + 2 * plate.tmax - 1) * (counts_before(plate) + 1);
            answer = if entries as usize > most { Err(Refusal { number: 17, place: 0 }) } else { answer };
        }
    }
    let is_read = |file: &[u8]| plain::read_job(file, usize::MAX, &mut vec![0; 20_000]).is_ok();
    let mut loaded = as_loaded(answer.map_err(|refusal| split_wrongly("read job", &JOB, input, refusal, is_read)));
    if is("read job: the set and the column count are swapped") {
        swap(&mut loaded.head.set, &mut loaded.head.columns);
    }
    loaded
}

fn refused(number: u32, place: usize) -> Answer<u64> {
    Err(Refusal { number, place: place as u64 })
}

#[no_mangle]
unsafe extern "C" fn shagorent_job_size(counts: *const u16, c: usize) -> Reply {
    let counts = lent(counts, c);
    let mut answer = plain::job_size(counts);
    if is("job size: the record heads of columns are left out") {
        answer = answer.map(|size| size - 4 * c as u64);
    }
    if answer == refused(7, 0) && is("job size: 4 comes before 7") {
        answer = counts.iter().position(|count| count % 2 == 1).map_or(answer, |column| refused(4, column));
    }
    as_reply(answer)
}

#[no_mangle]
unsafe extern "C" fn shagorent_write_job(
    height: u32,
    set: u32,
    bound: u32,
    boundaries: *const u16,
    b: usize,
    counts: *const u16,
    c: usize,
    out: *mut u8,
    o: usize,
) -> Reply {
    let columns = Columns { boundaries: lent(boundaries, b), counts: lent(counts, c) };
    let room = lent_mut(out, o);
    let before = room.to_vec();
    let answer = plain::write_job(height, set, bound, columns, room);
    let Ok(size) = answer else {
        if o > 0
            && answer.err().is_some_and(|r| r.number == 5)
            && is("write job: a byte is written though 5 is answered")
        {
            room[0] ^= 1;
        }
        return as_reply(refused_wrongly(columns, o, answer));
    };
    let file = size as usize;
    write_wrongly(columns, &mut room[..file]);
    if is("write job: the bound is not written") {
        room[10..14].copy_from_slice(&before[10..14]);
    }
    if is("write job: the rest of the output is cleared") {
        room[file..].fill(0);
    }
    if is("write job: one byte past the file is written") {
        *out.add(file) = 0;
    }
    let told = done_wrongly(columns, answer);
    if c > 0 && is("write job: a count is written") {
        *counts.cast_mut() += 2;
    }
    as_reply(told)
}

/// The bytes of the file.
fn write_wrongly(columns: Columns, file: &mut [u8]) {
    if is("write job: the end has two bytes of the column count") {
        let size = file.len();
        file[size - 2..].fill(0);
    }
    let mut at = 14;
    for &count in columns.counts {
        let (head, body) = file[at..at + 4 + 2 * usize::from(count)].split_at_mut(4);
        if is("write job: a column's length is that of its boundaries, not bytes") {
            head[0] = count as u8;
        }
        if is("write job: boundaries lose their high byte") {
            body.chunks_mut(2).for_each(|two| two[1] = 0);
        }
        at += 4 + body.len();
    }
}

/// The answer where the file is written.
fn done_wrongly(columns: Columns, answer: Answer<u64>) -> Answer<u64> {
    let each = columns.each();
    if columns.boundaries.len() > each.concat().len() && is("write job: a run longer than the counts say is refused") {
        return refused(3, 1);
    }
    if is("write job: a first boundary is held to the column before") {
        let is_held =
            |pair: &[&[u16]]| !pair[0].is_empty() && !pair[1].is_empty() && pair[1][0] <= *pair[0].last().unwrap();
        return each.windows(2).position(is_held).map_or(answer, |before| refused(5, before + 1));
    }
    answer
}

/// The answer where the file is refused.
fn refused_wrongly(columns: Columns, room: usize, answer: Answer<u64>) -> Answer<u64> {
    let Columns { boundaries, counts } = columns;
    let Refusal { number, place } = answer.expect_err("it is refused");
    let column = place as usize;
    let first = counts.first().map_or(0, |&count| usize::from(count)).min(boundaries.len());
    let falls = boundaries[..first].windows(2).any(|pair| pair[1] <= pair[0]);
    match (number, place) {
        (4, _) if is("write job: 4 has the count as its place") => refused(4, counts[column].into()),
        (4, _) if counts[column] == 66 && is("write job: 66 boundaries are let through") => Ok(0),
        (4, 1..) if falls && is("write job: 4 and 5 are judged column by column") => refused(5, 0),
        (3, 1) if falls && is("write job: 5 comes before 3 for the run") => refused(5, 0),
        (3, 2) if is("write job: 3 for the output is at 3") => refused(3, 3),
        (5, _) if is("write job: 5 has the boundary's place in the run") => {
            refused(5, counts[..column].iter().map(|&count| usize::from(count)).sum())
        }
        (5, _)
            if columns.each()[column].is_sorted_by(|a, b| a < b)
                && is("write job: a boundary above N is let through") =>
        {
            Ok(0)
        }
        (5, _)
            if (room as u64) < plain::job_size(counts).unwrap() && is("write job: 3 for the output comes before 5") =>
        {
            refused(3, 2)
        }
        _ => answer,
    }
}

// ---- Table files ----

/// Where the records of a table file stand by what its first bytes say, whatever stands there.
#[derive(Clone, Copy)]
struct Laid {
    head: Head,
    plate: Plate,
}

impl Laid {
    fn of(file: &[u8]) -> Option<Laid> {
        let head = told(file)?;
        head.plate().ok().map(|plate| Laid { head, plate })
    }

    fn stride(self) -> usize {
        6 + 4 * self.plate.tmax as usize
    }

    fn end(self) -> usize {
        self.plate.file_bytes() - 6
    }

    /// The rows' places, so far as the file has the whole of them.
    fn rows(self, file: &[u8]) -> Vec<usize> {
        let places = (14..self.end()).step_by(self.stride());
        places.take_while(|place| place + self.stride() <= file.len()).collect()
    }

    fn start(self, place: usize) -> [u8; 2] {
        let row = (place - 14) / self.stride();
        ((self.plate.lowest() + row as i64) as i16).to_le_bytes()
    }

    /// The cells of the row at the place.
    fn cells(self, file: &[u8], place: usize) -> Vec<u32> {
        file[place + 6..place + self.stride()].chunks(4).map(four).collect()
    }

    /// The cells of the row at the place that are out of bounds.
    fn over(self, file: &[u8], place: usize) -> Vec<usize> {
        let columns = self.head.columns.min(plain::MOST_COLUMNS);
        let cells = self.cells(file, place);
        (0..cells.len()).filter(|&cell| cells[cell] > self.plate.limit(cell, columns)).collect()
    }
}

fn four(bytes: &[u8]) -> u32 {
    u32::from_le_bytes([bytes[0], bytes[1], bytes[2], bytes[3]])
}

/// What an opening's bytes say, of a file that has them.
fn told(file: &[u8]) -> Option<Head> {
    let opening = file.get(..14)?;
    let height = u16::from_le_bytes([opening[4], opening[5]]);
    Some(Head { height: height.into(), set: four(&opening[6..]), columns: four(&opening[10..]) })
}

/// The most that a cell may hold, where a limit is planted that is none.
fn wrong_limit(call: &str, plate: Plate, cell: usize, columns: u32) -> Option<u64> {
    let (_, thickness) = plate.layer(cell);
    let (allowed, planted) = (plate.allows(thickness), |fault: &str| is(&format!("{call}: {fault}")));
    if planted("6 against the count times t") && allowed {
        Some(u64::from(columns) * thickness as u64)
    } else if planted("a cell of a thickness that is not allowed is let through") && !allowed {
        Some(u64::MAX)
    } else {
        None
    }
}

/// The file as a reader takes it that lets the planted fault through: mended there.
fn mended(file: &[u8]) -> Vec<u8> {
    let mut mended = file.to_vec();
    if is("read table: remarks are skipped") {
        drop_remarks(&mut mended);
    }
    if is("read table: 7 is not asked") && told(file).is_some_and(|head| head.columns > plain::MOST_COLUMNS) {
        mended[10..14].copy_from_slice(&plain::MOST_COLUMNS.to_le_bytes());
    }
    if let Some(laid) = Laid::of(&mended) {
        mend_rows(laid, &mut mended);
        mend_end(laid, &mut mended);
    }
    mended
}

fn drop_remarks(file: &mut Vec<u8>) {
    let mut at = 0;
    while at + 4 <= file.len() {
        let next = at + 4 + usize::from(u16::from_le_bytes([file[at], file[at + 1]]));
        if file[at + 3] >= 128 && next <= file.len() {
            file.drain(at..next);
        } else {
            at = next;
        }
    }
}

fn mend_rows(laid: Laid, file: &mut [u8]) {
    for place in laid.rows(file) {
        if is("read table: a row's start is not compared") {
            file[place + 4..place + 6].copy_from_slice(&laid.start(place));
        }
        if is("read table: a start's high byte is not compared") {
            file[place + 5] = laid.start(place)[1];
        }
        if is("read table: a kind's high byte is not looked at") {
            file[place + 3] = 0;
        }
        if is("read table: a row's length may be other than its cells'") {
            file[place..place + 2].copy_from_slice(&(laid.stride() as u16 - 4).to_le_bytes());
        }
        for cell in laid.over(file, place) {
            let at = place + 6 + 4 * cell;
            let limit = wrong_limit("read table", laid.plate, cell, laid.head.columns);
            if limit.is_some_and(|limit| u64::from(four(&file[at..])) <= limit) {
                file[at..at + 4].fill(0);
            }
        }
    }
}

fn mend_end(laid: Laid, file: &mut Vec<u8>) {
    let (end, size) = (laid.end(), laid.plate.file_bytes());
    let rows = (laid.plate.rows() as u16).to_le_bytes();
    if file.len() >= size && is("read table: the end's number of rows is not compared") {
        file[size - 2..size].copy_from_slice(&rows);
    }
    if file.len() < size && file[..].get(end..end + 4).is_some() && is("read table: the end's body may be cut off") {
        file.truncate(end + 4);
        file.extend(rows);
    }
    if file.len() > size && is("read table: bytes after the end are let through") {
        file.truncate(size);
    }
    if (size..size + 4).contains(&file.len()) && is("read table: fewer than 4 bytes after the end are let through") {
        file.truncate(size);
    }
    let next = (laid.plate.last_start() + 1).to_le_bytes();
    let is_row = |record: &[u8]| record[2..4] == [17, 0] && record[4..6] == next[..2];
    if file.get(end..end + laid.stride()).is_some_and(is_row) && is("read table: a row too many is let through") {
        file.drain(end..end + laid.stride());
    }
    let came = file.len().saturating_sub(20) / laid.stride();
    let ends_early = came > 0 && file.len() < size && file.ends_with(&[2, 0, 18, 0, came as u8, 0]);
    if ends_early && is("read table: rows missing are let through if those are told that came") {
        file.truncate(file.len() - 6);
        for place in (14 + came * laid.stride()..end).step_by(laid.stride()) {
            file.truncate(place);
            file.extend([laid.stride() as u8 - 4, 0, 17, 0]);
            file.extend(laid.start(place));
            file.resize(place + laid.stride(), 0);
        }
        file.extend([2, 0, 18, 0, rows[0], rows[1]]);
    }
}

#[no_mangle]
unsafe extern "C" fn shagorent_read_table(input: *const u8, n: usize, table: *mut u32, t: usize) -> Tabled {
    let (file, lent) = (lent(input, n), lent_mut(table, t));
    let before = lent.to_vec();
    let is_read = |file: &[u8]| plain::receive(file).is_ok();
    let split = |refusal: Refusal| split_wrongly("read table", &TABLE, file, refusal, is_read);
    let answer = plain::read_table(&mended(file), lent).map_err(split);
    match (answer, Laid::of(file)) {
        (Ok(head), laid) => {
            let answer = received_wrongly(file, head, &before, lent);
            if is("read table: one cell past the table is written") {
                *table.add(head.plate().unwrap().cells()) = 0;
            }
            if laid.is_some() && is("read table: the file is written") {
                *input.cast_mut() ^= 1;
            }
            as_tabled(answer)
        }
        (Err(refusal), laid) => {
            let answer = not_received_wrongly(file, refusal, laid, lent);
            let mut tabled = as_tabled(answer);
            if is("read table: a refusal still answers the settings") {
                tabled.head = told(file).unwrap_or(tabled.head);
            }
            tabled
        }
    }
}

/// The answer where the file was read, and what the table then holds.
fn received_wrongly(file: &[u8], head: Head, before: &[u32], table: &mut [u32]) -> Answer<Head> {
    let plate = head.plate().unwrap();
    let (cells, width) = (plate.cells(), plate.tmax as usize);
    if table.len() > cells && is("read table: a longer table is refused") {
        table.copy_from_slice(before);
        return Err(Refusal { number: 3, place: 1 });
    }
    if is("read table: the last row is not stored") {
        table[cells - width..cells].copy_from_slice(&before[cells - width..cells]);
    }
    if is("read table: cells lose their third byte") {
        table[..cells].iter_mut().for_each(|cell| *cell &= 0xFFFF);
    }
    if is("read table: the rest of the table is cleared") {
        table[cells..].fill(0);
    }
    let columns = if is("read table: the column count is dropped") { 0 } else { told(file).unwrap_or(head).columns };
    Ok(Head { columns, ..head })
}

/// The answer where the file was refused, and what the table then holds.
fn not_received_wrongly(file: &[u8], refusal: Refusal, laid: Option<Laid>, table: &mut [u32]) -> Answer<Head> {
    let Refusal { number, place } = refusal;
    let at = |number: u32, place: usize| Err(Refusal { number, place: place as u64 });
    let too_many = told(file).is_some_and(|head| head.columns > plain::MOST_COLUMNS);
    match number {
        1 if told(file).unwrap().set == 0 && is("read table: 2 comes before 1") => return at(2, 0),
        1 | 2 if too_many && is("read table: 7 comes before 1 and 2") => return at(7, 0),
        7 if is("read table: 7 at the count's own bytes") => return at(7, 10),
        3 if is("read table: 3 is at 2") => return at(3, 2),
        _ => {}
    }
    let Some(laid) = laid.filter(|_| number != 7) else { return Err(refusal) };
    if table.len() < laid.plate.cells() && is("read table: 3 comes before the file's faults") {
        return at(3, 1);
    }
    let (place, rows) = (place as usize, laid.rows(file));
    if number == 21 && place <= laid.end() {
        let is_end = file[place..].starts_with(&[2, 0, 18, 0]);
        if is_end && place < laid.end() && is("read table: rows missing are 19")
            || !is_end && place == laid.end() && is("read table: a row too many is 19")
        {
            return at(19, place);
        }
    }
    if place > laid.end() || place == laid.end() && rows.len() as i64 == laid.plate.rows() {
        if is("read table: the table is written before the last record is judged") {
            store(laid, file, &rows, table);
        }
    } else if rows.contains(&place) {
        let row = (place - 14) / laid.stride();
        let over = laid.over(file, place);
        if is("read table: rows are stored as they are judged") {
            store(laid, file, &rows[..row], table);
        }
        if number == 6 && is("read table: 6 at the cell's index") {
            return at(6, row * laid.plate.tmax as usize + over[0]);
        }
        let is_row = file[place..place + 4] == [laid.stride() as u8 - 4, 0, 17, 0];
        if number == 21 && is_row && !over.is_empty() && is("read table: 6 comes before another start") {
            return at(6, place);
        }
        let skips = is_row && file[place + 4..place + 6] == laid.start(place + laid.stride());
        if number == 21 && skips && is("read table: a row that skips one is told at the end") {
            return at(21, file.len() - 6);
        }
    }
    Err(refusal)
}

/// The cells of these rows, so far as there is room.
fn store(laid: Laid, file: &[u8], rows: &[usize], table: &mut [u32]) {
    let cells = rows.iter().flat_map(|&place| laid.cells(file, place));
    table.iter_mut().zip(cells).for_each(|(held, cell)| *held = cell);
}

#[no_mangle]
unsafe extern "C" fn shagorent_write_table(table: *const u32, n: usize, head: Head, out: *mut u8, o: usize) -> Reply {
    let (cells, room) = (lent(table, n), lent_mut(out, o));
    let before = room.to_vec();
    let answer = plain::write_table(cells, head, room);
    let Ok(size) = answer else {
        return as_reply(not_sent_wrongly(cells, head, answer, room));
    };
    let (plate, size) = (head.plate().unwrap(), size as usize);
    send_wrongly(Laid { head, plate }, &before, &mut room[..size]);
    if is("write table: the rest of the output is cleared") {
        room[size..].fill(0);
    }
    if is("write table: one byte past the file is written") {
        *out.add(size) = 0;
    }
    let told = sent_wrongly(cells, head, plate, answer);
    if is("write table: a cell is written") {
        *table.cast_mut() += 1;
    }
    as_reply(told)
}

/// The bytes of the file.
fn send_wrongly(laid: Laid, before: &[u8], file: &mut [u8]) {
    let size = file.len();
    if is("write table: the column count is dropped") {
        file[10..14].fill(0);
    }
    if is("write table: the end tells one row less") {
        file[size - 2..].copy_from_slice(&(laid.plate.rows() as u16 - 1).to_le_bytes());
    }
    for (row, place) in laid.rows(file).into_iter().enumerate() {
        let record = &mut file[place..place + laid.stride()];
        let start = laid.plate.lowest() as i16 + row as i16;
        if is("write table: the last row is not written") && place + laid.stride() == laid.end() {
            record.copy_from_slice(&before[place..place + laid.stride()]);
        }
        if is("write table: a start's sign is lost") {
            record[4..6].copy_from_slice(&start.abs().to_le_bytes());
        }
        if is("write table: rows begin at 1") {
            record[4..6].copy_from_slice(&(row as u16 + 1).to_le_bytes());
        }
        if is("write table: a row's length is that of its cells alone") {
            record[0] -= 2;
        }
        if is("write table: thicknesses fall") {
            let cells: Vec<u8> = record[6..].chunks(4).rev().flatten().copied().collect();
            record[6..].copy_from_slice(&cells);
        }
        if is("write table: cells lose their third byte") {
            record[6..].chunks_mut(4).for_each(|cell| cell[2] = 0);
        }
    }
}

/// The answer where the table was written.
fn sent_wrongly(cells: &[u32], head: Head, plate: Plate, answer: Answer<u64>) -> Answer<u64> {
    let past = &cells[plate.cells()..];
    if !past.is_empty() && is("write table: a longer table is refused") {
        return refused(3, 1);
    }
    if is("write table: cells past the table are looked at") {
        let over = |&cell: &usize| cells[cell] > plate.limit(cell, head.columns);
        return (plate.cells()..cells.len()).find(over).map_or(answer, |cell| refused(6, cell));
    }
    if is("write table: the end is not in the length") {
        return answer.map(|size| size - 6);
    }
    answer
}

/// The answer where the table was refused, and what the output then holds.
fn not_sent_wrongly(cells: &[u32], head: Head, answer: Answer<u64>, out: &mut [u8]) -> Answer<u64> {
    let Refusal { number, place } = answer.expect_err("it is refused");
    let Ok(plate) = head.plate() else { return answer };
    let columns = head.columns.min(plain::MOST_COLUMNS);
    let over = |&cell: &usize| cells[cell] > plate.limit(cell, columns);
    let mut faults = (0..plate.cells().min(cells.len())).filter(over);
    if number == 6 && !out.is_empty() && is("write table: a byte is written though 6 is answered") {
        out[0] ^= 1;
    }
    if (number, place) == (3, 2) && out.len() >= 14 && is("write table: the opening is written though 3 is answered") {
        out[..4].copy_from_slice(&[10, 0, 16, 0]);
    }
    let passes = |cell: usize| {
        wrong_limit("write table", plate, cell, columns).is_some_and(|limit| u64::from(cells[cell]) <= limit)
    };
    let is_short = out.len() < plate.file_bytes();
    match (number, place) {
        (3, 1) if head.columns > columns && is("write table: 7 comes before 3 for the table") => refused(7, 0),
        (3, 2) if is("write table: 3 for the output is at 3") => refused(3, 3),
        (7, _) if is("write table: 6 comes before 7") => faults.next().map_or(answer, |cell| refused(6, cell)),
        (6, _) if is_short && is("write table: 3 for the output comes before 6") => refused(3, 2),
        (6, _) if is("write table: 6 at the highest such cell") => refused(6, faults.next_back().unwrap()),
        (6, _) if is("write table: 6 at the row's record") => {
            refused(6, 14 + place as usize / plate.tmax as usize * Laid { head, plate }.stride())
        }
        (6, _) => faults.find(|&cell| !passes(cell)).map_or(Ok(plate.file_bytes() as u64), |cell| refused(6, cell)),
        _ => answer,
    }
}

// ---- Orders: both calls written here once more, the reader record by record, so that without a fault the rule itself is tried ----

/// Settings, step and list that both calls' first refusals let through.
#[derive(Clone, Copy)]
struct Printer<'a> {
    plate: Plate,
    step: u32,
    cure: &'a [u16],
}

impl Printer<'_> {
    /// The list's entry, 0 where it has none.
    fn entry(self, thickness: i64) -> u16 {
        usize::try_from(thickness - 1).ok().and_then(|i| self.cure.get(i)).copied().unwrap_or(0)
    }

    fn micrometres(self, units: i64) -> f32 {
        (units * i64::from(self.step)) as f32 / 8.0
    }

    fn seconds(self, thickness: i64) -> f32 {
        f32::from(self.entry(thickness)) / 64.0
    }
}

/// 1, 2, 14 and 3 for the list, of whichever call.
fn printer<'a>(call: &str, printing: Printing<'a>) -> Answer<Printer<'a>> {
    let planted = |fault: &str| is(&format!("{call}: {fault}"));
    let Printing { height, set, step, cure } = printing;
    let bad_step =
        step == 0 || step > plain::MOST_STEP || step == plain::MOST_STEP && planted("14 for the greatest step");
    let refuse = |number: u32, place: u64| Err(Refusal { number, place });
    let plate = match Plate::new(height, set) {
        Err(refusal) if refusal.number == 1 && set == 0 && planted("2 comes before 1") => return refuse(2, 0),
        Err(refusal) if refusal.number == 2 && bad_step && planted("14 comes before 2") => return refuse(14, 0),
        plate => plate?,
    };
    let members = plate.thicknesses().count();
    let stated = if planted("the list may be as short as T has members") { members } else { plate.tmax as usize };
    let is_short = cure.len() < stated || cure.len() > stated && planted("a longer list is refused");
    if is_short && planted("3 for the list comes before 14") {
        return refuse(3, 1);
    }
    if bad_step && !planted("14 is asked after the file") {
        return refuse(14, 0);
    }
    if is_short {
        return refuse(3, if planted("3 for the list is at 2") { 2 } else { 1 });
    }
    Ok(Printer { plate, step, cure })
}

#[no_mangle]
unsafe extern "C" fn shagorent_write_orders(
    height: u32,
    set: u32,
    step: u32,
    cure: *const u16,
    c: usize,
    sequence: *const i32,
    s: usize,
    out: *mut u8,
    o: usize,
) -> Reply {
    let (list, boundaries, room) = (lent(cure, c), lent(sequence, s), lent_mut(out, o));
    let printing = Printing { height, set, step, cure: list };
    let answer = written_orders(printing, boundaries, room);
    if let Ok(size) = answer {
        if is("write orders: the rest of the output is cleared") {
            room[size as usize..].fill(0);
        }
        if is("write orders: one byte past the file is written") {
            *out.add(size as usize) = 0;
        }
        if is("write orders: the sequence is written") {
            *sequence.cast_mut() -= 1;
        }
        if is("write orders: the cure list is written") {
            *cure.cast_mut() ^= 1;
        }
    }
    as_reply(answer)
}

fn written_orders(printing: Printing, sequence: &[i32], out: &mut [u8]) -> Answer<u64> {
    let printer = match printer("write orders", printing) {
        Err(Refusal { number: 3, .. }) if is("write orders: 13 comes before 3 for the list") => {
            check_boundaries(Plate::new(printing.height, printing.set)?, sequence)?;
            return refused(3, 1);
        }
        printer => printer?,
    };
    let heights: Vec<i64> = sequence.iter().map(|&z| i64::from(z)).collect();
    let uncured = uncured(printer, &heights);
    let is_short = out.len() < 16 * heights.len().saturating_sub(1) + 6;
    match check_boundaries(printer.plate, sequence) {
        Err(_) if is_short && is("write orders: 3 for the output comes before 13") => return refused(3, 2),
        Err(refusal)
            if uncured
                .is_some_and(|layer| layer <= refusal.place as usize && is("write orders: 18 comes before 13")) =>
        {
            return refused(18, uncured.unwrap());
        }
        Err(_) if uncured.is_some() && is("write orders: 18 comes before 13 at a later layer") => {
            return refused(18, uncured.unwrap());
        }
        checked => checked?,
    }
    if let Some(layer) = uncured.filter(|_| !is("write orders: a cure time 0 is let through")) {
        if is_short && is("write orders: 3 for the output comes before 18") {
            return refused(3, 2);
        }
        if is("write orders: the layers before are written though 18 is answered") {
            put_orders(printer, &heights[..layer], out);
        }
        let from = usize::from(is("write orders: 18 from 0"));
        let thickness = (heights[layer] - heights[layer - 1]) as usize;
        return refused(18, if is("write orders: 18 at the thickness") { thickness } else { layer - from });
    }
    let rise = heights[heights.len() - 1] - heights[0];
    if rise > 543 && is("write orders: a lift past 543 units is 15") {
        return refused(15, 0);
    }
    if is_short {
        if is("write orders: the first lift is written though 3 is answered") {
            put_orders(printer, &heights, out);
        }
        return refused(3, if is("write orders: 3 for the output is at 1") { 1 } else { 2 });
    }
    put_orders(printer, &heights, out);
    let finish = if is("write orders: the finish is not in the length") { 0 } else { 6 };
    Ok(16 * (heights.len() as u64 - 1) + finish)
}

/// 13, without a bound.
fn check_boundaries(plate: Plate, sequence: &[i32]) -> Answer<()> {
    let no_columns = vec![0; plate.cells()];
    let answer = plain::recount(&no_columns, plate.head(0), u32::MAX, sequence);
    let Some(place) = answer.err().map_or(Some(sequence.len()), |r| (r.place > 0).then_some(r.place as usize)) else {
        return answer.map(|_| ());
    };
    if let Some(rule) = wrong_rule("write orders", plate) {
        return recount_by(rule, plate, &no_columns, u32::MAX, sequence).map(|_| ());
    }
    let is_last = place == sequence.len() - 1;
    let is_step = is_last && plate.allows(i64::from(sequence[place]) - i64::from(sequence[place - 1]));
    if is_step && i64::from(sequence[place]) < plate.height && is("write orders: the last boundary may be below N") {
        return Ok(());
    }
    answer.map(|_| ())
}

/// The layer from 1 that 18 is answered at.
fn uncured(printer: Printer, heights: &[i64]) -> Option<usize> {
    let thicknesses: Vec<i64> = heights.windows(2).map(|pair| pair[1] - pair[0]).collect();
    let is_uncured = |t: &i64| printer.plate.allows(*t) && printer.entry(*t) == 0;
    let plate = printer.plate;
    if (1..=plate.tmax).any(|t| {
        let is_zero = printer.entry(t) == 0;
        is_zero && plate.allows(t) && is("write orders: 18 for an allowed thickness that no layer has")
            || is_zero && !plate.allows(t) && is("write orders: 18 for a thickness that is not allowed")
    }) {
        return Some(1).filter(|_| !thicknesses.is_empty());
    }
    if is("write orders: 18 at the last such layer") {
        return thicknesses.iter().rposition(is_uncured).map(|before| before + 1);
    }
    thicknesses.iter().position(is_uncured).map(|before| before + 1)
}

/// The orders of these layers and a finish, so far as there is room.
fn put_orders(printer: Printer, heights: &[i64], out: &mut [u8]) {
    let mut file = Vec::new();
    let layers = heights.len().saturating_sub(1);
    let skipped = usize::from(is("write orders: the last layer is not written"));
    for k in 1..=layers {
        let (lift, cure) = (printer.micrometres(units(heights, k)), timed(printer, heights, k));
        let whole = is("write orders: heights lose their last eighths");
        let mut records = [(48, if whole { lift.floor() } else { lift }), (49, cure)];
        if is("write orders: lifts and cures change places") {
            records.reverse();
        }
        for (kind, amount) in records {
            let mut four = amount.to_le_bytes();
            if is("write orders: a float's bytes are turned round") {
                four.reverse();
            }
            file.extend([4, 0, kind, 0]);
            file.extend(four);
        }
    }
    let told = layers - usize::from(is("write orders: the finish tells one layer less") && layers > 0);
    let high = if is("write orders: the finish has one byte of the layer count") { 0 } else { (told / 256) as u8 };
    file.extend([2, 0, 50, 0, (told % 256) as u8, high]);
    let is_kept = |place: usize| skipped == 1 && (16 * (layers - 1)..16 * layers).contains(&place);
    for (place, byte) in file.into_iter().enumerate().filter(|&(place, _)| !is_kept(place)) {
        if let Some(held) = out.get_mut(place) {
            *held = byte;
        }
    }
}

/// What a layer from 1 is lifted to.
fn units(heights: &[i64], k: usize) -> i64 {
    if is("write orders: heights above 0 instead of the first boundary") {
        heights[k]
    } else if is("write orders: a lift by the layer's thickness alone") {
        heights[k] - heights[k - 1]
    } else if is("write orders: a lift to the layer's lower height") {
        heights[k - 1] - heights[0]
    } else {
        heights[k] - heights[0]
    }
}

/// What a layer from 1 is cured for.
fn timed(printer: Printer, heights: &[i64], k: usize) -> f32 {
    let thickness = heights[k] - heights[k - 1];
    if is("write orders: cure by eighths") {
        printer.seconds(thickness) * 8.0
    } else if is("write orders: the cure entry of the next thickness") {
        printer.seconds(thickness + 1)
    } else if k > 1 && is("write orders: the time of the layer before") {
        printer.seconds(heights[k - 1] - heights[k - 2])
    } else {
        printer.seconds(thickness)
    }
}

#[no_mangle]
unsafe extern "C" fn shagorent_read_order(
    height: u32,
    set: u32,
    step: u32,
    cure: *const u16,
    c: usize,
    file: *const u8,
    f: usize,
    number: u32,
) -> Ordered {
    let (list, input) = (lent(cure, c), lent(file, f));
    let printing = Printing { height, set, step, cure: list };
    let answer = order_of(printing, input, number);
    let mut ordered = as_ordered(answer);
    tell_wrongly(&mut ordered, printing, input, number);
    if ordered.number == 0 && is("read order: the file is written") {
        *file.cast_mut() ^= 1;
    }
    if ordered.number == 0 && is("read order: the cure list is written") {
        *cure.cast_mut() ^= 1;
    }
    ordered
}

/// The fields of the answer.
fn tell_wrongly(ordered: &mut Ordered, printing: Printing, file: &[u8], number: u32) {
    if ordered.number != 0 {
        ordered.kind = if is("read order: a refusal has a kind") { 48 } else { 0 };
        return;
    }
    if ordered.kind == 48 && is("read order: a lift tells the layer's thickness") && number >= 2 {
        ordered.amount -= amount_at(file, 8 * (number as usize - 2));
    }
    if ordered.kind == 48 && is("read order: a lift has its layer as count") {
        ordered.count = number / 2 + 1;
    }
    if ordered.kind == 49 && is("read order: a cure tells 64ths") {
        ordered.amount *= 64.0;
    }
    if ordered.kind == 50 && is("read order: the finish has an amount too") {
        ordered.amount = printing.step as f32;
    }
    if is("read order: an order done has its place") {
        ordered.place = 8 * u64::from(number.min(1_024));
    }
}

fn amount_at(file: &[u8], place: usize) -> f32 {
    f32::from_bits(four(&file[place + 4..]))
}

fn order_of(printing: Printing, file: &[u8], number: u32) -> Answer<Order> {
    let printer = match printer("read order", printing) {
        Err(Refusal { number: 3, place }) if is("read order: the file's faults come before 3 for the list") => {
            let plate = Plate::new(printing.height, printing.set)?;
            orders_judged(Printer { plate, step: printing.step, cure: printing.cure }, file, number)?;
            return Err(Refusal { number: 3, place });
        }
        printer => printer?,
    };
    let is_read = |file: &[u8]| plain::read_order(printing, file, 0).is_ok();
    let split = |refusal: Refusal| split_wrongly("read order", &ORDERS, file, refusal, is_read);
    let layers = orders_judged(printer, file, number).map_err(split)?;
    if printing.step == 0 || printing.step > plain::MOST_STEP {
        return Err(Refusal { number: 14, place: 0 });
    }
    let number = if is("read order: numbers have 16 bits") { number % 65_536 } else { number };
    let number = if is("read order: orders are numbered from 1") { number.saturating_sub(1) } else { number } as usize;
    let behind = number.saturating_sub(2 * layers);
    if behind > 0 && is("read order: past the finish is 10") {
        return Err(Refusal { number: 10, place: 0 });
    }
    let number = if behind > 0 && is("read order: past the finish is the last cure") { 2 * layers - 1 } else { number };
    if number >= 2 * layers {
        return Ok(Order::Finish(layers as u32 - u32::from(is("read order: the finish tells one layer less"))));
    }
    let number = number ^ usize::from(is("read order: the cure comes before the lift"));
    let amount = amount_at(file, 8 * number);
    Ok(if number % 2 == 0 { Order::Lift(amount) } else { Order::Cure(amount) })
}

/// What is known of an order file after its records so far, and where the next one begins.
#[derive(Clone, Copy, Default)]
struct Reading {
    layers: usize,
    first: i64,
    rise: i64,
    /// Of a layer lifted and not cured yet; 0 for none.
    thickness: i64,
    at: usize,
    finished: bool,
}

/// The layers of an order file, or what is wrong at the record at fault.
fn orders_judged(printer: Printer, file: &[u8], number: u32) -> Answer<usize> {
    let kept = is("read order: remarks are skipped").then(|| {
        let mut kept = file.to_vec();
        drop_remarks(&mut kept);
        kept
    });
    let file = kept.as_deref().unwrap_or(file);
    let uncured = printer.plate.thicknesses().any(|t| printer.entry(t) == 0);
    if uncured && is("read order: some allowed thickness of cure time 0 is 21 at 0") {
        return refused(21, 0).map(|_| 0);
    }
    let mut reading = Reading::default();
    while !reading.finished {
        let before = reading;
        if !judge_order(printer, file, &mut reading) {
            return let_through(printer, file, number, before);
        }
    }
    let after = file.len() - reading.at;
    let passes = is("read order: bytes after the finish are let through")
        || after < 4 && is("read order: fewer than 4 bytes after the finish are let through")
        || (number as usize) < 2 * reading.layers && is("read order: what is behind the order asked for is not judged");
    if after > 0 && !passes {
        let back = if is("read order: bytes after the finish are told at the finish") { 6 } else { 0 };
        return refused(21, reading.at - back).map(|_| 0);
    }
    Ok(reading.layers)
}

/// A record at fault, where the reading stood before it: where it is told, or the layers if it is let through.
fn let_through(printer: Printer, file: &[u8], number: u32, reading: Reading) -> Answer<usize> {
    let Reading { at, layers, .. } = reading;
    let left = file.len() - at;
    let broken = plain::order_broken(&file[at..], 2 * layers + usize::from(reading.thickness > 0));
    let is_asked_before = (number as usize) < at / 8;
    let is_cut = left < 8 && (left < 4 || left < 4 + usize::from(file[at]));
    if is_asked_before && is("read order: what is behind the order asked for is not judged") {
        return Ok(layers + 1);
    }
    if is_asked_before && is_cut && is("read order: a file cut behind the order asked for is read") {
        return Ok(layers + 1);
    }
    if is_cut && is("read order: a record that is cut off is told at the end of the input") {
        return refused(broken, file.len()).map(|_| 0);
    }
    if at % 16 == 8 && is("read order: a fault of the file is told at the layer's lift") {
        return refused(broken, at - 8).map(|_| 0);
    }
    if left >= 4 && is("read order: a fault of the file is told at the body") {
        return refused(broken, at + 4).map(|_| 0);
    }
    let is_finish = file[at..].starts_with(&[2, 0, 50, 0]);
    let is_low = layers > 0 && is_finish && reading.rise < printer.plate.height;
    let is_full = layers > 0 && reading.rise >= printer.plate.height + reading.first - 1;
    if broken == 21
        && (is_low && is("read order: a finish below N is 19")
            || is_full && !is_finish && is("read order: a layer too many is 19"))
    {
        return refused(19, at).map(|_| 0);
    }
    if is_low && is("read order: a finish below N is told at the last lift") {
        return refused(broken, at - 16).map(|_| 0);
    }
    refused(broken, at).map(|_| 0)
}

/// Whether the next record passes; the reading goes on behind it.
fn judge_order(printer: Printer, file: &[u8], reading: &mut Reading) -> bool {
    let left = &file[reading.at..];
    if left.len() < 4 {
        return false;
    }
    let mut kind = u16::from_le_bytes([left[2], left[3]]);
    if is("read order: a kind's high byte is not looked at") {
        kind %= 256;
    }
    let no_layers = is("read order: a finish of no layers is let through");
    let no_cure = is("read order: a cure may be missing");
    let due = match kind {
        48 if reading.thickness == 0 || no_cure => 4,
        49 if reading.thickness > 0 => 4,
        50 if reading.thickness == 0 && (reading.layers > 0 || no_layers) => 2,
        _ => return false,
    };
    if u16::from_le_bytes([left[0], left[1]]) != due && !is("read order: a length is not looked at") {
        return false;
    }
    let body = match left[4..].get(..usize::from(due)) {
        Some(body) => body,
        None if kind == 50 && is("read order: the finish's body may be cut off") => {
            (reading.at, reading.finished) = (file.len(), true);
            return reading.rise >= printer.plate.height;
        }
        None => return false,
    };
    reading.at += 4 + body.len();
    match kind {
        48 => judge_lift(printer, body, reading),
        49 => judge_cure(printer, body, reading),
        _ => judge_finish(printer, body, reading),
    }
}

fn judge_lift(printer: Printer, body: &[u8], reading: &mut Reading) -> bool {
    if reading.thickness > 0 {
        reading.layers += 1;
    }
    let Some(thickness) = (1..=2 * printer.plate.tmax).find(|&t| is_lift(printer, reading.rise, t, body)) else {
        return false;
    };
    let top = if is("read order: layers are held to a first boundary of 0") {
        printer.plate.height
    } else if is("read order: layers are held to the lowest start of all") {
        printer.plate.height + printer.plate.tmax - 1
    } else {
        printer.plate.height + reading.first - 1
    };
    let beyond = i64::from(is("read order: a layer that begins at N from the lowest start is let through"));
    let is_over = reading.layers > 0 && reading.rise >= top + beyond;
    if is_over && !is("read order: a layer too many is told at the finish") {
        return false;
    }
    if is_over {
        reading.first = i64::MIN / 2;
    }
    if reading.layers == 0 {
        reading.first = thickness;
    }
    (reading.rise, reading.thickness) = (reading.rise + thickness, thickness);
    true
}

/// Whether these are a lift's bytes by the thickness, and it may be that.
fn is_lift(printer: Printer, rise: i64, thickness: i64, body: &[u8]) -> bool {
    let plate = printer.plate;
    let any = is("read order: a lift may be by a thickness that is not allowed") && thickness <= plate.tmax;
    let two = is("read order: a lift may be of two layers at once");
    let is_two = || plate.thicknesses().any(|t| plate.allows(thickness - t) && printer.entry(t) > 0);
    let is_allowed = plate.allows(thickness) || any || two && is_two();
    let is_late =
        is("read order: a cure time 0 is found at the cure") || is("read order: a cure time 0 is let through");
    let is_cured = printer.entry(thickness) > 0 || is_late || two && !plate.allows(thickness);
    let (due, told) = (printer.micrometres(rise + thickness).to_bits(), four(body));
    let is_same = if is("read order: a lift's lowest byte is not compared") {
        due >> 8 == told >> 8
    } else if is("read order: a lift's sign is not compared") {
        due << 1 == told << 1
    } else if is("read order: a lift is compared by distance") {
        (f32::from_bits(due) - f32::from_bits(told)).abs() < 0.01
    } else {
        due == told
    };
    is_allowed && is_cured && is_same
}

fn judge_cure(printer: Printer, body: &[u8], reading: &mut Reading) -> bool {
    let due = printer.seconds(reading.thickness).to_bits();
    let is_a_time = || printer.plate.thicknesses().any(|t| printer.seconds(t).to_bits() == four(body));
    let is_same = due == four(body)
        || is("read order: the cure record is not compared")
        || is("read order: a cure is held to the list's times, of whatever thickness") && is_a_time();
    let is_zero = due == 0 && is("read order: a cure time 0 is found at the cure");
    (reading.layers, reading.thickness) = (reading.layers + 1, 0);
    is_same && !is_zero
}

fn judge_finish(printer: Printer, body: &[u8], reading: &mut Reading) -> bool {
    let told = usize::from(u16::from_le_bytes([body[0], body[1]]));
    let is_low = is("read order: the high byte of the finish's number is not compared");
    let is_same = told == reading.layers
        || is_low && told % 256 == reading.layers % 256
        || is("read order: the finish's number is not compared");
    let top = printer.plate.height;
    let is_whole = if is("read order: the finish is held to the lowest start") {
        reading.rise >= top + reading.first - 1
    } else if is("read order: a finish just at N is refused") {
        reading.rise > top
    } else {
        reading.rise >= top || is("read order: a finish below N is let through")
    };
    let is_none = reading.layers == 0 && is("read order: a finish of no layers is let through");
    reading.finished = true;
    is_same && (is_whole || is_none) && reading.first >= 0
}

#[no_mangle]
extern "C" fn shagorent_cells(height: u32, set: u32) -> Reply {
    as_reply(plain::cells(height, set))
}

#[no_mangle]
extern "C" fn shagorent_entries(height: u32, set: u32) -> Reply {
    let less = u64::from(is("sizes: a sheet has no count 0"));
    as_reply(plain::entries(height, set).map(|entries| entries - less))
}

#[no_mangle]
extern "C" fn shagorent_counts(height: u32, set: u32) -> Reply {
    let less = u64::from(height > 1 && is("sizes: M has one count less where N is above 1"));
    let more = u64::from(height == 1 && is("sizes: M is 2 for N = 1"));
    as_reply(plain::counts(height, set).map(|counts| counts - less + more))
}
