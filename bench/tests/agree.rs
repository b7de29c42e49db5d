// The plain implementation against the listing of every sequence, on many small random plates and bounds: the table, both sheets, the
// list, every sequence read back, sheets that hold anything, recounts of good and bad sequences, pictures, tables joined and taken off, job
// files, read and saved, tables sent, and orders written and read; and which faults of a file wait for more bytes.

use bench::brute;
use bench::make;
use bench::plain::*;
use bench::quick;
use bench::random::Random;

const SEED: u64 = 1;
const PLATES: u64 = 4_000;

struct Sample {
    head: Head,
    table: Vec<u32>,
    listed: brute::Plate,
}

fn random_column(random: &mut Random, height: i64) -> Vec<u16> {
    let mut column: Vec<u16> = (0..=height as u16).filter(|_| random.one_in(3)).collect();
    if column.len() % 2 == 1 {
        column.remove(random.index(column.len()));
    }
    column
}

fn sample(case: u64) -> (Sample, Random) {
    let mut random = Random::new(SEED, case);
    let height = random.within(1, 8);
    let tmax = random.within(1, 5);
    let set: Vec<i64> = (1..=tmax).filter(|&t| t == tmax || random.one_in(2)).collect();
    let columns = (0..random.below(6)).map(|_| random_column(&mut random, height)).collect();
    let small = random.below(5) as u32;
    let bound = random.pick(&[u32::MAX, 0, 1, small]);
    let bits = set.iter().map(|t| 1 << (t - 1)).sum();
    let listed = brute::Plate { height, set, columns, bound };
    let (table, head) = tabulate(height as u32, bits, &listed.columns);
    (Sample { head, table, listed }, random)
}

/// The table of some columns, and what goes with it.
fn tabulate(height: u32, set: u32, columns: &[Vec<u16>]) -> (Vec<u32>, Head) {
    let mut table = vec![99; cells(height, set).unwrap() as usize];
    let mut head = clear_table(&mut table, height, set).unwrap();
    for column in columns {
        head = add_column(&mut table, head, column).unwrap();
    }
    assert_eq!(head, Head { height, set, columns: columns.len() as u32 });
    (table, head)
}

#[test]
fn tables_agree() {
    for case in 0..PLATES {
        let (sample, _) = sample(case);
        assert_eq!(sample.table, sample.listed.table(), "case {case}");
    }
}

#[test]
fn plans_agree() {
    for case in 0..PLATES {
        let (sample, _) = sample(case);
        compare_plan(case, &sample);
    }
}

fn compare_plan(case: u64, sample: &Sample) {
    let Head { height, set, .. } = sample.head;
    let plate = Plate::new(height, set).unwrap();
    assert_eq!(plate.counts(), sample.listed.greatest_count());
    let (mut errors, mut thicknesses) = (vec![7; plate.entries()], vec![7; plate.entries()]);
    let mut list = vec![7; plate.counts()];
    let sheets = Sheets { errors: &mut errors, thicknesses: &mut thicknesses, list: &mut list };
    let answer = plan(&sample.table, sample.head, sample.listed.bound, sheets);
    assert_eq!(answer, Ok(plate.counts() as u64));

    let chosen = brute::choose(&sample.listed, &sample.listed.every_sequence());
    assert!(chosen.ending.keys().all(|&(_, count)| count <= plate.counts()), "case {case}");
    if sample.listed.bound == u32::MAX {
        assert!(chosen.whole.contains_key(&plate.counts()), "case {case}: M itself can be built");
    }
    for z in plate.lowest()..=plate.highest() {
        for count in 1..=plate.counts() {
            let held = chosen.ending.get(&(z, count));
            let expected = held.map_or((NONE, 0), |s| (s.error, s.thicknesses()[0]));
            let i = plate.entry(z, count);
            assert_eq!((errors[i], i64::from(thicknesses[i])), expected, "case {case}, {z}, {count}");
        }
        let start = plate.entry(z, 0);
        let expected = if z <= 0 { 0 } else { NONE };
        assert_eq!((errors[start], thicknesses[start]), (expected, 0), "case {case}, {z}");
    }
    for count in 1..=plate.counts() {
        let held = chosen.whole.get(&count);
        assert_eq!(list[count - 1], held.map_or(NONE, |s| s.error), "case {case}, {count}");
        let mut out = vec![0; count + 1];
        let filled = Filled { errors: &errors, thicknesses: &thicknesses };
        let answer = read_back(height, set, filled, count as u32, &mut out);
        match held {
            Some(s) => {
                assert_eq!(answer, Ok(s.error), "case {case}, {count}");
                let boundaries: Vec<i64> = out.iter().map(|&z| i64::from(z)).collect();
                assert_eq!(boundaries, s.boundaries, "case {case}, {count}");
            }
            None => assert_eq!(answer, Err(Refusal { number: 11, place: 0 }), "case {case}, {count}"),
        }
    }
}

#[test]
fn recounts_agree() {
    for case in 0..PLATES {
        let (sample, mut random) = sample(case);
        let every = sample.listed.every_sequence();
        for _ in 0..20 {
            let from_list = !every.is_empty() && !random.one_in(4);
            let mut boundaries = if from_list { every[random.index(every.len())].boundaries.clone() } else { vec![] };
            if random.one_in(2) {
                spoil(&mut random, &mut boundaries);
            }
            compare_recount(case, &sample, &boundaries);
        }
    }
}

fn spoil(random: &mut Random, boundaries: &mut Vec<i64>) {
    let place = random.index(boundaries.len() + 1);
    match random.below(3) {
        0 => boundaries.insert(place, random.within(-6, 14)),
        1 if place < boundaries.len() => boundaries[place] += random.within(-2, 2),
        _ => boundaries.truncate(place),
    }
}

fn compare_recount(case: u64, sample: &Sample, boundaries: &[i64]) {
    let sequence: Vec<i32> = boundaries.iter().map(|&z| z as i32).collect();
    let answer = recount(&sample.table, sample.head, sample.listed.bound, &sequence);
    let layer = |pair: &[i64]| u64::from(brute::layer_error(&sample.listed.columns, pair[0], pair[1] - pair[0]));
    let expected = match sample.listed.first_fault(boundaries) {
        None => Ok(boundaries.windows(2).map(layer).sum()),
        Some(index) => Err(Refusal { number: 13, place: index as u64 }),
    };
    assert_eq!(answer, expected, "case {case}, {boundaries:?}");
    assert_eq!(answer.is_ok(), sample.listed.is_admissible(boundaries), "case {case}, {boundaries:?}");
}

/// Sheets that hold anything: what is read back is admissible, the bound aside, and else the fault met first on the way down decides.
#[test]
fn any_sheets_agree() {
    for case in 0..PLATES {
        let (mut sample, mut random) = sample(case);
        sample.listed.bound = u32::MAX;
        let Head { height, set, .. } = sample.head;
        let plate = Plate::new(height, set).unwrap();
        let mut sheets = make::sheets(plate, &make::Table { cells: sample.table.clone(), head: sample.head }, u32::MAX);
        make::damage_sheets(&mut random, plate, &mut sheets);
        for count in 1..=plate.counts() {
            compare_followed(case, &sample, plate, &sheets, count);
        }
    }
}

fn compare_followed(case: u64, sample: &Sample, plate: Plate, sheets: &make::Sheets, count: usize) {
    let Head { height, set, .. } = sample.head;
    let entries = (plate.height..=plate.highest()).map(|z| (sheets.errors[plate.entry(z, count)], z));
    let (least, end) = entries.min().unwrap();
    let mut named = sample.listed.named(end, count, |z, layer| i64::from(sheets.thicknesses[plate.entry(z, layer)]));
    let expected = match sample.listed.fault_met(&named, count) {
        _ if least == NONE => Err(Refusal { number: 11, place: 0 }),
        Some(layer) => Err(Refusal { number: 12, place: layer as u64 }),
        None => Ok(least),
    };
    let mut out = vec![0; count + 1];
    let filled = Filled { errors: &sheets.errors, thicknesses: &sheets.thicknesses };
    let answer = read_back(height, set, filled, count as u32, &mut out);
    assert_eq!(answer, expected, "case {case}, {count}");
    if answer.is_ok() {
        named.reverse();
        assert!(out.iter().map(|&z| i64::from(z)).eq(named.iter().copied()), "case {case}, {count}");
        assert!(sample.listed.is_admissible(&named), "case {case}, {count}");
    }
}

#[test]
fn pictures_agree() {
    for case in 0..PLATES {
        let (sample, _) = sample(case);
        let Head { height, set, .. } = sample.head;
        let plate = Plate::new(height, set).unwrap();
        for column in &sample.listed.columns {
            for start in plate.lowest()..=plate.last_start() {
                for thickness in plate.thicknesses() {
                    let (inside, outside) = brute::inside_outside(column, start, thickness);
                    let expected = Picture {
                        filled: inside > outside,
                        share: inside.min(outside),
                        difference: inside as i32 - outside as i32,
                    };
                    let answer = picture(height, set, column, start as i32, thickness as u32);
                    assert_eq!(answer, Ok(expected), "case {case}");
                }
            }
        }
    }
}

#[test]
fn groups_agree() {
    for case in 0..PLATES {
        let (sample, mut random) = sample(case);
        let Head { height, set, .. } = sample.head;
        let split = random.index(sample.listed.columns.len() + 1);
        let (first, second) = sample.listed.columns.split_at(split);
        let (part, head) = tabulate(height, set, first);
        let (other, other_head) = tabulate(height, set, second);
        let mut table = part.clone();
        assert_eq!(join_tables(&mut table, head, &other, other_head), Ok(sample.head), "case {case}");
        assert_eq!(table, sample.listed.table(), "case {case}");
        assert_eq!(take_off(&mut table, sample.head, &other, other_head), Ok(head), "case {case}");
        assert_eq!(table, part, "case {case}");
    }
}

#[test]
fn files_agree() {
    for case in 0..PLATES {
        let (sample, mut random) = sample(case);
        let file = file_of(&sample, |file| remark(file, &mut random));
        let mut table = vec![99; sample.table.len()];
        let expected = Loaded { head: sample.head, bound: sample.listed.bound };
        assert_eq!(read_job(&file, 4_096, &mut table), Ok(expected), "case {case}");
        assert_eq!(table, sample.listed.table(), "case {case}");
        for length in 0..file.len() {
            let answer = read_job(&file[..length], 4_096, &mut table);
            assert_eq!(answer.err().map(|r| r.number), Some(16), "case {case}, {length}");
        }
    }
}

/// What is saved is the file of these columns without remarks, and nothing past it.
#[test]
fn saved_files_agree() {
    for case in 0..PLATES {
        let (sample, _) = sample(case);
        let Head { height, set, .. } = sample.head;
        let mut file = file_of(&sample, |_| ());
        let boundaries = sample.listed.columns.concat();
        let counts: Vec<u16> = sample.listed.columns.iter().map(|column| column.len() as u16).collect();
        let columns = Columns { boundaries: &boundaries, counts: &counts };
        let mut out = vec![99; file.len() + 5];
        let size = Ok(file.len() as u64);
        assert_eq!(job_size(&counts), size, "case {case}");
        assert_eq!(write_job(height, set, sample.listed.bound, columns, &mut out), size, "case {case}");
        file.extend([99; 5]);
        assert_eq!(out, file, "case {case}");
    }
}

/// What is sent is the file of these cells, and is read as they are; cut anywhere, it is refused at the record that is cut.
#[test]
fn sent_tables_agree() {
    for case in 0..PLATES {
        let (sample, _) = sample(case);
        let (file, places) = table_file_of(&sample);
        let mut out = vec![99; file.len() + 5];
        let size = file.len() as u64;
        assert_eq!(write_table(&sample.table, sample.head, &mut out), Ok(size), "case {case}");
        assert_eq!(out, [&file[..], &[99; 5]].concat(), "case {case}");
        let mut table = vec![99; sample.table.len() + 3];
        assert_eq!(read_table(&file, &mut table), Ok(sample.head), "case {case}");
        assert_eq!(table, [&sample.listed.table()[..], &[99; 3]].concat(), "case {case}");
        for length in 0..file.len() {
            let place = *places.iter().filter(|&&place| place <= length).max().unwrap();
            let refusal = Refusal { number: 16, place: place as u64 };
            assert_eq!(read_table(&file[..length], &mut table), Err(refusal), "case {case}, {length}");
        }
    }
}

/// Files good and damaged, read record by record and by the places of their bytes; those that are read are written again as they were.
#[test]
fn table_files_agree() {
    for case in 0..5 * PLATES {
        let mut random = Random::new(SEED, case);
        let size = make::size(&mut random);
        let plate = make::plate(&mut random, size);
        let file = make::handed_table_file(&mut random, plate, size);
        let mut table = vec![99; MOST_CELLS];
        let answer = read_table(&file, &mut table);
        match brute::cells_of_file(&file) {
            Err((number, place)) => {
                assert_eq!(answer, Err(Refusal { number, place: place as u64 }), "case {case}");
                assert_eq!(table, [99; MOST_CELLS], "case {case}");
            }
            Ok(cells) => {
                let head = answer.unwrap_or_else(|refusal| panic!("case {case}: {refusal:?}"));
                assert_eq!(table[..cells.len()], cells, "case {case}");
                assert!(table[cells.len()..].iter().all(|&cell| cell == 99), "case {case}");
                let mut out = vec![99; file.len()];
                assert_eq!(write_table(&cells, head, &mut out), Ok(file.len() as u64), "case {case}");
                assert!(out == file, "case {case}");
            }
        }
    }
}

const MOST_CELLS: usize = 18_368;

/// What document 02's f) is for: a file at fault by 16 alone can go on so that there is no 16 at that place; any other fault stays, whatever bytes
/// follow; and nothing may follow a good file.
#[test]
fn only_16_waits_for_more() {
    let mut seen = [0; 4];
    for case in 0..PLATES {
        let mut random = Random::new(SEED, case);
        let size = make::size(&mut random);
        let plate = make::plate(&mut random, size);
        let (height, set, cure) = (plate.height as u32, plate.set, make::cure(&mut random, plate));
        let printing = Printing { height, set, step: 15, cure: &cure };
        let files = [
            make::file(&mut random, plate),
            make::handed_table_file(&mut random, plate, size),
            make::handed_order_file(&mut random, plate, 15, &cure),
        ];
        let readers: [&dyn Fn(&[u8]) -> Option<Refusal>; 3] = [
            &|file| read_job(file, usize::MAX, &mut vec![0; MOST_CELLS]).err(),
            &|file| read_table(file, &mut vec![0; MOST_CELLS]).err(),
            &|file| read_order(printing, file, 0).err(),
        ];
        for (file, read) in files.iter().zip(readers) {
            let more: Vec<u8> = (0..random.within(1, 9)).map(|_| random.word() as u8).collect();
            compare_longer(case, file, &more, read);
            let number = read(file).map_or(0, |refusal| refusal.number);
            if let Some(one) = [16, 19, 20, 21].iter().position(|&one| one == number) {
                seen[one] += 1;
            }
        }
    }
    assert!(seen.iter().all(|&times| times > PLATES / 20), "{seen:?}");
}

fn compare_longer(case: u64, file: &[u8], more: &[u8], read: &dyn Fn(&[u8]) -> Option<Refusal>) {
    match read(file) {
        None => {
            let after = Refusal { number: 21, place: file.len() as u64 };
            assert_eq!(read(&[file, more].concat()), Some(after), "case {case}");
        }
        Some(refusal) if refusal.number == 16 => {
            let filled_up = [file, &vec![0; 65_540]].concat();
            assert_ne!(read(&filled_up), Some(refusal), "case {case}");
        }
        refusal => assert_eq!(read(&[file, more].concat()), refusal, "case {case}"),
    }
}

/// The bits of an order's float, or its layers, behind its kind.
fn shown(order: Order) -> (u16, u32) {
    match order {
        Order::Lift(micrometres) => (48, micrometres.to_bits()),
        Order::Cure(seconds) => (49, seconds.to_bits()),
        Order::Finish(layers) => (50, layers),
    }
}

/// What the records of a good file say, each by its kind and its body.
fn orders_of_file(file: &[u8]) -> Vec<(u16, u32)> {
    let number = |bytes: &[u8]| bytes.iter().rev().fold(0, |sum, &byte| sum << 8 | u32::from(byte));
    file.chunks(8).map(|record| (number(&record[2..4]) as u16, number(&record[4..]))).collect()
}

/// Order files of small plates against a list of all that there are: what is written of every sequence, admissible or not; and files good and
/// damaged, read by trying every first boundary and by the rule record by record, which is refused where no file of the list goes on.
#[test]
fn order_files_agree() {
    let mut seen = [0; 2];
    for case in 0..PLATES {
        let (sample, mut random) = sample(case);
        let Head { height, set, .. } = sample.head;
        let plate = Plate::new(height, set).unwrap();
        let (step, cure) = (random.within(1, 8_192) as u32, make::cure(&mut random, plate));
        let printing = Printing { height, set, step, cure: &cure };
        let printable = sample.listed.printable(&cure);
        let files: Vec<Vec<u8>> = printable.iter().map(|z| brute::order_file(step, &cure, z)).collect();
        for _ in 0..20 {
            compare_written(case, printing, &sample.listed, &make::printed_sequence(&mut random, plate, &cure));
            let file = make::handed_order_file(&mut random, plate, step, &cure);
            let is_read = compare_orders(case, &mut random, printing, &files, &file);
            seen[usize::from(is_read)] += 1;
        }
        compare_orders(case, &mut random, printing, &files, &[]);
        if !files.is_empty() {
            let one = random.index(files.len());
            compare_written(
                case,
                printing,
                &sample.listed,
                &printable[one].iter().map(|&z| z as i32).collect::<Vec<_>>(),
            );
            assert!(compare_orders(case, &mut random, printing, &files, &files[one]), "case {case}");
            for length in 0..files[one].len() {
                compare_orders(case, &mut random, printing, &files, &files[one][..length]);
            }
        }
    }
    assert!(seen.iter().all(|&times| times > 5 * PLATES), "{seen:?}");
}

fn compare_written(case: u64, printing: Printing, listed: &brute::Plate, sequence: &[i32]) {
    let unbound = brute::Plate { height: listed.height, set: listed.set.clone(), columns: vec![], bound: u32::MAX };
    let boundaries: Vec<i64> = sequence.iter().map(|&z| i64::from(z)).collect();
    let uncured = |pair: &[i64]| printing.cure[(pair[1] - pair[0]) as usize - 1] == 0;
    let expected = match unbound.first_fault(&boundaries) {
        Some(index) => Err(Refusal { number: 13, place: index as u64 }),
        None => match boundaries.windows(2).position(uncured) {
            Some(before) => Err(Refusal { number: 18, place: before as u64 + 1 }),
            None => Ok(brute::order_file(printing.step, printing.cure, &boundaries)),
        },
    };
    let mut out = vec![99; 16 * sequence.len() + 6];
    let kept = expected.as_ref().map_or(0, |file| file.len());
    for write in [write_orders, quick::write_orders] {
        out.fill(99);
        let answer = write(printing, sequence, &mut out);
        let told = expected.as_ref().map(|file| file.len() as u64).map_err(|&refusal| refusal);
        assert_eq!(answer, told, "case {case}, {sequence:?}");
        assert_eq!(&out[..kept], expected.as_deref().unwrap_or(&[]), "case {case}, {sequence:?}");
        assert!(out[kept..].iter().all(|&byte| byte == 99), "case {case}");
    }
}

/// Whether it is read.
fn compare_orders(case: u64, random: &mut Random, printing: Printing, files: &[Vec<u8>], file: &[u8]) -> bool {
    let fault = brute::order_fault(files, file);
    let number = make::order_number(random, file);
    let expected = match fault {
        Some((number, place)) => Err(Refusal { number, place: place as u64 }),
        None => {
            let orders = orders_of_file(file);
            Ok(orders[orders.len().min(number as usize + 1) - 1])
        }
    };
    for read in [read_order, quick::read_order] {
        assert_eq!(read(printing, file, number).map(shown), expected, "case {case}, {printing:?}, {number}, {file:x?}");
    }
    fault.is_none()
}

/// The sample's table as a file, and where its records begin.
fn table_file_of(sample: &Sample) -> (Vec<u8>, Vec<usize>) {
    let (mut file, mut places) = (Vec::new(), vec![0]);
    let (height, tmax) = (sample.listed.height, sample.listed.tmax());
    let mut head = (height as u16).to_le_bytes().to_vec();
    head.extend(sample.head.set.to_le_bytes());
    head.extend((sample.listed.columns.len() as u32).to_le_bytes());
    record(&mut file, 16, &head);
    let mut rows: u16 = 0;
    for start in 1 - tmax..=height + tmax - 2 {
        places.push(file.len());
        let mut row = (start as i16).to_le_bytes().to_vec();
        for thickness in 1..=tmax {
            let allowed = sample.listed.set.contains(&thickness);
            let error = if allowed { brute::layer_error(&sample.listed.columns, start, thickness) } else { 0 };
            row.extend(error.to_le_bytes());
        }
        record(&mut file, 17, &row);
        rows += 1;
    }
    places.push(file.len());
    record(&mut file, 18, &rows.to_le_bytes());
    (file, places)
}

fn record(file: &mut Vec<u8>, kind: u16, body: &[u8]) {
    file.extend((body.len() as u16).to_le_bytes());
    file.extend(kind.to_le_bytes());
    file.extend(body);
}

/// The sample's file, with what `remark` puts before each record.
fn file_of(sample: &Sample, mut remark: impl FnMut(&mut Vec<u8>)) -> Vec<u8> {
    let mut file = Vec::new();
    let mut settings = (sample.head.height as u16).to_le_bytes().to_vec();
    settings.extend(sample.head.set.to_le_bytes());
    settings.extend(sample.listed.bound.to_le_bytes());
    remark(&mut file);
    record(&mut file, 1, &settings);
    for column in &sample.listed.columns {
        remark(&mut file);
        let body: Vec<u8> = column.iter().flat_map(|b| b.to_le_bytes()).collect();
        record(&mut file, 2, &body);
    }
    remark(&mut file);
    record(&mut file, 3, &(sample.listed.columns.len() as u32).to_le_bytes());
    file
}

fn remark(file: &mut Vec<u8>, random: &mut Random) {
    if random.one_in(3) {
        let body: Vec<u8> = (0..random.below(9)).map(|_| random.word() as u8).collect();
        record(file, random.pick(&[32_768, 65_535, 40_000]), &body);
    }
}
