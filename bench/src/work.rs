// The work of adding a column, counted and not timed: how many voxels one pass over a table looks at, in four ways. Each way walks and works out
// what the column adds, so that what is counted is work that does it; tests/work.rs holds the ways to plain.rs, and the counts to figures got
// by hand.

use crate::plain::Plate;

/// How the inside counts of a row's layers are found.
#[derive(Clone, Copy, Debug, PartialEq, Eq)]
pub enum Way {
    /// Every row, and in it each layer from its first voxel.
    EachLayer,
    /// Every row, the count carried from one thickness to the next at the same start.
    Carried,
    /// The same in the rows near a boundary only: in others every share is 0.
    NearRows,
    /// The same from the first boundary above the start on: the voxels below it are alike, so their count is known without a look.
    FromTheBoundary,
}

pub const WAYS: [Way; 4] = [Way::EachLayer, Way::Carried, Way::NearRows, Way::FromTheBoundary];

/// The columns that the work is told of, for N = 512, and what they are called.
pub fn told_columns() -> [(&'static str, Vec<u16>); 4] {
    let spaced = |by: u16| (0..64).map(|k| k * by).collect();
    [
        ("256 300", vec![256, 300]),
        ("0 512", vec![0, 512]),
        ("64 boundaries, 0 2 .. 126", spaced(2)),
        ("64 boundaries, 0 8 .. 504", spaced(8)),
    ]
}

/// What one pass did, and what it found that the column adds to each cell.
pub struct Work {
    pub rows: u64,
    pub looks: u64,
    pub shares: Vec<u32>,
}

pub fn work(way: Way, plate: Plate, column: &[u16]) -> Work {
    let mut voxels = Voxels { column, looks: 0 };
    let mut work = Work { rows: 0, looks: 0, shares: vec![0; plate.cells()] };
    for start in plate.lowest()..=plate.last_start() {
        let is_skipped = matches!(way, Way::NearRows | Way::FromTheBoundary) && !is_near(plate, column, start);
        if is_skipped {
            continue;
        }
        work.rows += 1;
        let insides = match way {
            Way::EachLayer => voxels.each_layer(start, plate.tmax),
            Way::Carried | Way::NearRows => voxels.carried(start, start, 0, plate.tmax),
            Way::FromTheBoundary => voxels.carried_from_boundary(start, plate.tmax),
        };
        for (thickness, inside) in (1..).zip(insides).filter(|&(thickness, _)| plate.allows(thickness)) {
            work.shares[plate.cell(start, thickness)] = inside.min(thickness - inside) as u32;
        }
    }
    work.looks = voxels.looks;
    work
}

/// Whether a layer of the start can have a boundary strictly between its ends: one from b−tmax+1 to b−1 for some b.
fn is_near(plate: Plate, column: &[u16], start: i64) -> bool {
    column.iter().map(|&boundary| i64::from(boundary)).any(|b| (b - plate.tmax + 1..b).contains(&start))
}

/// A column whose voxels are looked at one by one.
struct Voxels<'a> {
    column: &'a [u16],
    looks: u64,
}

impl Voxels<'_> {
    /// How many boundaries are at or below the voxel.
    fn passed(&self, z: i64) -> usize {
        self.column.iter().filter(|&&boundary| i64::from(boundary) <= z).count()
    }

    /// A look: 1 for a voxel inside, 0 for one outside.
    fn look(&mut self, z: i64) -> i64 {
        self.looks += 1;
        (self.passed(z) % 2) as i64
    }

    /// The inside counts of the layers from a start, thickness by thickness.
    fn each_layer(&mut self, start: i64, tmax: i64) -> Vec<i64> {
        (1..=tmax).map(|thickness| (start..start + thickness).map(|z| self.look(z)).sum()).collect()
    }

    /// The inside counts of the layers from a start that hold the voxel `from`; `inside` is the count of the voxels below that.
    fn carried(&mut self, start: i64, from: i64, mut inside: i64, tmax: i64) -> Vec<i64> {
        let mut insides = Vec::new();
        for z in from..start + tmax {
            inside += self.look(z);
            insides.push(inside);
        }
        insides
    }

    /// The same for each layer from a start that has a boundary near: those that end below it are inside whole or not at all, which the number
    /// of boundaries passed tells.
    fn carried_from_boundary(&mut self, start: i64, tmax: i64) -> Vec<i64> {
        let passed = self.passed(start);
        let boundary = i64::from(self.column[passed]);
        let state = (passed % 2) as i64;
        let mut insides: Vec<i64> = (1..=boundary - start).map(|thickness| state * thickness).collect();
        insides.extend(self.carried(start, boundary, state * (boundary - start), tmax));
        insides
    }
}
