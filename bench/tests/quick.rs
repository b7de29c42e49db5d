// The quick Rust that is timed beside the library gives the plain implementation's answers and cells, on good and damaged input. Order files are
// read there by the rule record by record, and by plain from every first boundary at once.

use bench::make;
use bench::plain::{self, Columns, Filled, Head, Order, Plate, Printing, Sheets};
use bench::quick::{self, Reach, Rising};
use bench::random::Random;

const SEED: u64 = 2;
const CASES: u64 = 3_000;

#[test]
fn planners_agree() {
    for case in 0..CASES {
        let mut random = Random::new(SEED, case);
        let size = make::size(&mut random);
        let plate = make::plate(&mut random, size);
        let mut table = make::table(&mut random, plate, size);
        let bound = make::bound(&mut random, &table);
        make::damage_table(&mut random, plate, &mut table);
        let head = make::named_head(&mut random, plate, table.head);
        let lengths = [plate.entries(), plate.entries(), plate.counts()].map(|n| make::length(&mut random, n));
        let run = |reach: Option<Reach>| {
            let (mut errors, mut thicknesses) = (vec![3; lengths[0]], vec![3; lengths[1]]);
            let mut list = vec![3; lengths[2]];
            let sheets = Sheets { errors: &mut errors, thicknesses: &mut thicknesses, list: &mut list };
            let cells = &table.cells;
            let answer = match reach {
                None => plain::plan(cells, head, bound, sheets),
                Some(reach) => quick::plan(reach, cells, head, bound, sheets),
            };
            (answer, errors, thicknesses, list)
        };
        let expected = run(None);
        for reach in [Reach::Every, Reach::UpToGreatest, Reach::PossibleOnly] {
            assert!(run(Some(reach)) == expected, "case {case}, {reach:?}, {:?}", expected.0);
        }
        let (answer, errors, thicknesses, list) = expected;
        let mut sheets = make::Sheets { errors, thicknesses, list };
        compare_reading(case, &mut random, plate, &sheets);
        if answer.is_ok() {
            sheets.errors.truncate(plate.entries());
            sheets.thicknesses.truncate(plate.entries());
            make::damage_sheets(&mut random, plate, &mut sheets);
            compare_reading(case, &mut random, plate, &sheets);
        }
    }
}

fn compare_reading(case: u64, random: &mut Random, plate: Plate, sheets: &make::Sheets) {
    let (height, set) = (plate.height as u32, plate.set);
    let filled = Filled { errors: &sheets.errors, thicknesses: &sheets.thicknesses };
    for _ in 0..5 {
        let count = make::count(random, plate);
        let mut out = vec![5; make::length(random, plate.counts() + 1)];
        let mut expected = out.clone();
        let answer = plain::read_back(height, set, filled, count, &mut expected);
        assert_eq!(quick::read_back(height, set, filled, count, &mut out), answer, "case {case}");
        assert_eq!(out, expected, "case {case}");
    }
}

#[test]
fn adding_agrees() {
    for case in 0..CASES {
        let mut random = Random::new(SEED, case);
        let size = make::size(&mut random);
        let plate = make::plate(&mut random, size);
        let mut table = make::table(&mut random, plate, size);
        make::damage_table(&mut random, plate, &mut table);
        let column = make::handed_column(&mut random, plate);
        let head = make::named_head(&mut random, plate, table.head);
        let mut expected = table.cells.clone();
        let answer = plain::add_column(&mut expected, head, &column);
        for add in [quick::add_by_algorithm_1, quick::add_carrying] {
            let mut cells = table.cells.clone();
            assert_eq!(add(&mut cells, head, &column), answer, "case {case}");
            assert!(cells == expected, "case {case}");
        }
    }
}

#[test]
fn groups_agree() {
    for case in 0..CASES {
        let mut random = Random::new(SEED, case);
        let size = make::size(&mut random);
        let plate = make::plate(&mut random, size);
        let mut table = make::table(&mut random, plate, size);
        let mut other = make::table(&mut random, plate, size);
        if let Ok(both) = plain::join_tables(&mut table.cells, table.head, &other.cells, other.head) {
            table.head = both;
        }
        make::damage_table(&mut random, plate, &mut table);
        make::damage_table(&mut random, plate, &mut other);
        let other_head = make::named_head(&mut random, plate, other.head);
        let run = |call: fn(&mut [u32], Head, &[u32], Head) -> plain::Answer<Head>| {
            let mut cells = table.cells.clone();
            (call(&mut cells, table.head, &other.cells, other_head), cells)
        };
        assert!(run(plain::join_tables) == run(quick::join_tables), "case {case}");
        assert!(run(plain::take_off) == run(quick::take_off), "case {case}");
    }
}

#[test]
fn writing_agrees() {
    for case in 0..CASES {
        let mut random = Random::new(SEED, case);
        let size = make::size(&mut random);
        let plate = make::plate(&mut random, size);
        let (height, set) = make::named(&mut random, plate);
        let run = make::run(&mut random, plate);
        let room = plain::job_size(&run.counts).unwrap_or(100) as usize;
        let (length, room) = (make::length(&mut random, run.boundaries.len()), make::length(&mut random, room));
        let mut boundaries = run.boundaries;
        boundaries.resize(length, 7);
        let columns = Columns { boundaries: &boundaries, counts: &run.counts };
        let mut expected = vec![9; room];
        let answer = plain::write_job(height, set, 5, columns, &mut expected);
        for rising in [Rising::PairByPair, Rising::AllPairs] {
            let mut out = vec![9; room];
            assert_eq!(quick::write_job(rising, height, set, 5, columns, &mut out), answer, "case {case}");
            assert!(out == expected, "case {case}");
        }
    }
}

#[test]
fn sending_agrees() {
    for case in 0..CASES {
        let mut random = Random::new(SEED, case);
        let size = make::size(&mut random);
        let plate = make::plate(&mut random, size);
        let mut table = make::table(&mut random, plate, size);
        make::damage_table(&mut random, plate, &mut table);
        let head = make::handed_head(&mut random, plate, table.head);
        let (length, room) = (make::length(&mut random, plate.cells()), make::length(&mut random, plate.file_bytes()));
        table.cells.resize(length, u32::MAX);
        let run = |call: fn(&[u32], Head, &mut [u8]) -> plain::Answer<u64>| {
            let mut out = vec![9; room];
            (call(&table.cells, head, &mut out), out)
        };
        assert!(run(quick::write_table) == run(plain::write_table), "case {case}");
    }
}

#[test]
fn receiving_agrees() {
    for case in 0..4 * CASES {
        let mut random = Random::new(SEED, case);
        let size = make::size(&mut random);
        let plate = make::plate(&mut random, size);
        let file = make::handed_table_file(&mut random, plate, size);
        let length = make::length(&mut random, plate.cells());
        let run = |call: fn(&[u8], &mut [u32]) -> plain::Answer<Head>| {
            let mut table = vec![9; length];
            (call(&file, &mut table), table)
        };
        let expected = run(plain::read_table);
        assert!(run(quick::read_table) == expected, "case {case}, {:?}", expected.0);
    }
}

#[test]
fn orders_written_agree() {
    for case in 0..2 * CASES {
        let mut random = Random::new(SEED, case);
        let size = make::size(&mut random);
        let plate = make::plate(&mut random, size);
        let (height, set) = make::named(&mut random, plate);
        let (step, mut cure) = (make::step(&mut random), make::cure(&mut random, plate));
        let sequence = make::printed_sequence(&mut random, plate, &cure);
        cure.resize(make::length(&mut random, cure.len()), 0);
        let room = make::length(&mut random, 16 * sequence.len().saturating_sub(1) + 6);
        let printing = Printing { height, set, step, cure: &cure };
        let run = |call: fn(Printing, &[i32], &mut [u8]) -> plain::Answer<u64>| {
            let mut out = vec![9; room];
            (call(printing, &sequence, &mut out), out)
        };
        assert!(run(quick::write_orders) == run(plain::write_orders), "case {case}");
    }
}

#[test]
fn orders_read_agree() {
    for case in 0..4 * CASES {
        let mut random = Random::new(SEED, case);
        let size = make::size(&mut random);
        let plate = make::plate(&mut random, size);
        let (height, set) = make::named(&mut random, plate);
        let (step, mut cure) = (make::step(&mut random), make::cure(&mut random, plate));
        let file = make::handed_order_file(&mut random, plate, step, &cure);
        let number = make::order_number(&mut random, &file);
        cure.resize(make::length(&mut random, cure.len()), 0);
        let printing = Printing { height, set, step, cure: &cure };
        let run = |call: fn(Printing, &[u8], u32) -> plain::Answer<Order>| {
            call(printing, &file, number).map(|order| match order {
                Order::Lift(micrometres) => (48, micrometres.to_bits()),
                Order::Cure(seconds) => (49, seconds.to_bits()),
                Order::Finish(layers) => (50, layers),
            })
        };
        assert_eq!(run(quick::read_order), run(plain::read_order), "case {case}");
    }
}
