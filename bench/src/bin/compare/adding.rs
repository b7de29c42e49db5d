// Adding as it is run every time, each cell compared after each column: boundaries at the plate's ends, side by side, about 32 apart and as many
// as may be, over sets from one thickness to all; random columns over random settings; and for 6 cells that the column changes set to 1, one or two
// at once, and all that it leaves set to the greatest number.

use crate::cases::{added, Outcome};
use crate::lent::Lent;
use bench::make::{self, Size};
use bench::plain::{Head, Plate};
use bench::random::Random;

const ONLY_1: u32 = 1;
const ONLY_32: u32 = 1 << 31;
const TWO_AND_THREE: u32 = 6;
const FOUR_TO_SIXTEEN: u32 = 0xFFF8;

const HEIGHTS: [u32; 9] = [1, 2, 4, 31, 32, 33, 64, 130, 512];
const SETS: [u32; 7] = [ONLY_1, ONLY_32, ONLY_1 | ONLY_32, TWO_AND_THREE, FOUR_TO_SIXTEEN, 0x5555_5555, u32::MAX];

pub fn adding(random: &mut Random, note: &mut impl FnMut(Outcome) -> Result<(), String>) -> Result<(), String> {
    for height in HEIGHTS {
        for set in SETS {
            let plate = Plate::new(height, set).expect("allowed");
            add_each(random, note, plate, &edge_columns(height as u16))?;
        }
    }
    for size in [Size::Tiny, Size::Small, Size::Middle, Size::Full] {
        for _ in 0..50 {
            let plate = make::plate(random, size);
            let columns = make::columns(random, plate, 20);
            add_each(random, note, plate, &columns)?;
        }
    }
    cells_of_small_plates(random, note)?;
    cells_of_high_plates(random, note)
}

/// One after the other into a cleared table.
fn add_each(
    random: &mut Random,
    note: &mut impl FnMut(Outcome) -> Result<(), String>,
    plate: Plate,
    columns: &[Vec<u16>],
) -> Result<(), String> {
    let mut expected = Lent::given(random, &vec![0; plate.cells()]);
    let (mut actual, mut head) = (expected.clone(), plate.head(0));
    for column in columns {
        let column = Lent::given(random, column);
        note(answering(0, added(&mut actual, &mut expected, &mut head, &column)))?;
    }
    Ok(())
}

/// The case gave this answer, by both.
fn answering(number: u32, outcome: Outcome) -> Outcome {
    match outcome? {
        given if given == number => Ok(given),
        given => Err(format!("both answer {given} where {number} is due")),
    }
}

/// Those of the kinds above that a height has room for.
fn edge_columns(top: u16) -> Vec<Vec<u16>> {
    let mut columns = vec![vec![], vec![0, top], vec![1, 4], vec![0, 3], vec![1, 2]];
    columns.extend((0..top).step_by(1 + usize::from(top) / 32).map(|below| vec![below, below + 1]));
    columns.push(vec![top - 1, top]);
    columns
        .extend((30..=34).flat_map(|apart| [vec![0, apart], vec![5, 5 + apart], vec![top.saturating_sub(apart), top]]));
    columns.extend([1, 2, 8].map(|apart| (0..64).map(|k| k * apart).collect()));
    columns.push((top.saturating_sub(63)..=top).collect());
    columns.push((0..=top).take(usize::from(top + 1).min(64) & !1).collect());
    columns.retain(|column| column.len() % 2 == 0 && column.last().is_none_or(|&last| last <= top));
    columns
}

/// The cells that the column changes in a cleared table, and those that it leaves.
fn changed_and_left(plate: Plate, column: &[u16]) -> (Vec<usize>, Vec<usize>) {
    let table = make::tabulate(plate, &[column.to_vec()]);
    (0..plate.cells()).partition(|&cell| table.cells[cell] > 0)
}

/// A table's cells: 0 but for these.
fn cells_with(plate: Plate, set: &[usize], value: u32) -> Vec<u32> {
    let mut cells = vec![0; plate.cells()];
    set.iter().for_each(|&cell| cells[cell] = value);
    cells
}

/// Adds the column to a table of these cells and so many columns; the answer must be this.
fn add_to(random: &mut Random, head: Head, cells: &[u32], column: &[u16], number: u32) -> Outcome {
    let (mut table, column) = (Lent::given(random, cells), Lent::given(random, column));
    answering(number, added(&mut table.clone(), &mut table, &mut head.clone(), &column))
}

fn cells_of_small_plates(
    random: &mut Random,
    note: &mut impl FnMut(Outcome) -> Result<(), String>,
) -> Result<(), String> {
    for (height, set) in [(4, TWO_AND_THREE), (5, 0b1011), (4, 0b1_0001), (6, ONLY_1), (4, 0b1_1000)] {
        let plate = Plate::new(height, set).expect("allowed");
        for column in [vec![1, 4], vec![0, 3], vec![1, 2], vec![0, height as u16], vec![0, 1, 2, 3], vec![]] {
            every_cell(random, note, plate, &column)?;
            limits(random, note, plate, &column)?;
        }
    }
    Ok(())
}

/// Each cell that the column changes, and each two of them, set to 1; each that it leaves, and all of them, set to the greatest number.
fn every_cell(
    random: &mut Random,
    note: &mut impl FnMut(Outcome) -> Result<(), String>,
    plate: Plate,
    column: &[u16],
) -> Result<(), String> {
    let (changed, left) = changed_and_left(plate, column);
    for &cell in &changed {
        for &other in &changed {
            note(add_to(random, plate.head(0), &cells_with(plate, &[cell, other], 1), column, 6))?;
        }
    }
    for &cell in &left {
        note(add_to(random, plate.head(0), &cells_with(plate, &[cell], u32::MAX), column, 0))?;
    }
    note(add_to(random, plate.head(0), &cells_with(plate, &left, u32::MAX), column, 0))
}

/// All cells at their limits, and each that the column changes one above.
fn limits(
    random: &mut Random,
    note: &mut impl FnMut(Outcome) -> Result<(), String>,
    plate: Plate,
    column: &[u16],
) -> Result<(), String> {
    for columns in [1, 3, 999_999] {
        let mut cells: Vec<u32> = (0..plate.cells()).map(|cell| plate.limit(cell, columns)).collect();
        note(add_to(random, plate.head(columns), &cells, column, 0))?;
        for cell in changed_and_left(plate, column).0 {
            cells[cell] += 1;
            note(add_to(random, plate.head(columns), &cells, column, 6))?;
            cells[cell] -= 1;
        }
    }
    Ok(())
}

/// Some cells that the column changes set to 1, alone and with another, and all that it leaves to the greatest number.
fn cells_of_high_plates(
    random: &mut Random,
    note: &mut impl FnMut(Outcome) -> Result<(), String>,
) -> Result<(), String> {
    for set in SETS {
        let plate = Plate::new(512, set).expect("allowed");
        for column in [vec![256, 300], vec![0, 512], vec![100, 101], (0..64).map(|k| k * 8).collect()] {
            let (changed, left) = changed_and_left(plate, &column);
            for &cell in changed.iter().step_by(1 + changed.len() / 20) {
                let other = changed[random.index(changed.len())];
                for cells in [vec![cell], vec![cell, other]] {
                    note(add_to(random, plate.head(0), &cells_with(plate, &cells, 1), &column, 6))?;
                }
            }
            note(add_to(random, plate.head(0), &cells_with(plate, &left, u32::MAX), &column, 0))?;
        }
    }
    Ok(())
}
