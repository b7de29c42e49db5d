// The work of adding a column as it is counted: each way finds what the plain implementation adds, and looks at as many voxels as were got by
// hand for N = 512 and all 32 thicknesses.

use bench::make;
use bench::plain::{self, Plate};
use bench::random::Random;
use bench::work::{told_columns, work, Way, WAYS};

const SEED: u64 = 4;
const CASES: u64 = 1_000;

/// The rows near a boundary, and the looks of each way, of the columns 256 300, 0 512, 0 2 .. 126 and 0 8 .. 504.
///
/// There are 512 + 62 = 574 rows. Each layer from its first voxel, a row has 1 + 2 + .. + 32 = 528 looks; carried, it has 32.
/// Near are the 31 rows below a boundary: 62 of two that are far apart, of the lists of 64 the starts −31 to 125 and −31 to 503.
/// From the boundary on, a start d below the first boundary above it has 32 − d looks, so:
/// - 256 300 and 0 512: two boundaries, each with d from 31 down to 1: 2 · (1 + 2 + .. + 31) = 2 · 496 = 992.
/// - 0 2 .. 126: 496 below the boundary 0; then the starts 0 to 125, in turn 2 and 1 below the next: 63 · (30 + 31) = 3,843.
/// - 0 8 .. 504: 496 below the boundary 0; then the starts 0 to 503, in turn 8, 7, .. 1 below the next: 63 · (24 + .. + 31) = 13,860.
const BY_HAND: [(u64, [u64; 4]); 4] = [
    (62, [303_072, 18_368, 1_984, 992]),
    (62, [303_072, 18_368, 1_984, 992]),
    (157, [303_072, 18_368, 5_024, 4_339]),
    (535, [303_072, 18_368, 17_120, 14_356]),
];

#[test]
fn looks_are_those_got_by_hand() {
    let plate = Plate::new(512, u32::MAX).unwrap();
    for ((name, column), (near, looks)) in told_columns().into_iter().zip(BY_HAND) {
        let done = WAYS.map(|way| work(way, plate, &column));
        assert_eq!(done.each_ref().map(|work| work.looks), looks, "column {name}");
        assert_eq!(done.map(|work| work.rows), [574, 574, near, near], "column {name}");
    }
}

/// tmax is 4: a boundary has 3 rows near, with 1, 2 and 3 looks; where another is less than 3 below it, only those from that one up.
#[test]
fn rows_near_a_boundary() {
    let plate = Plate::new(20, 0b1001).unwrap();
    let near = |column: &[u16]| {
        let work = work(Way::FromTheBoundary, plate, column);
        (work.rows, work.looks)
    };
    assert_eq!(near(&[]), (0, 0));
    assert_eq!(near(&[5, 15]), (6, 2 * (1 + 2 + 3)));
    assert_eq!(near(&[0, 20]), (6, 2 * (1 + 2 + 3)));
    assert_eq!(near(&[5, 7]), (5, 1 + 2 + 3 + 2 + 3));
    assert_eq!(near(&[5, 6]), (4, 1 + 2 + 3 + 3));
}

#[test]
fn every_way_finds_what_is_added() {
    for case in 0..CASES {
        let mut random = Random::new(SEED, case);
        let size = make::size(&mut random);
        let plate = make::plate(&mut random, size);
        let column = make::column(&mut random, plate.height);
        let mut expected = vec![0; plate.cells()];
        plain::add_column(&mut expected, plate.head(0), &column).expect("the column is good");
        for way in WAYS {
            assert!(work(way, plate, &column).shares == expected, "case {case}, {way:?}");
        }
    }
}
