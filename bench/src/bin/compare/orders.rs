// Orders as they are written and read every time: every sequence of small plates, under cure lists with and without 0; the files of every run of
// lifts, with too few layers and too many; the worked files cut, changed and with records moved; every step, every time and every rise; the refusals
// that hold together, in their order.

use crate::cases::{given, order_read, ordered, orders_bytes, LentPrinting, Outcome};
use crate::lent::Lent;
use bench::make;
use bench::plain::Plate;
use bench::random::Random;

pub fn orders(random: &mut Random, note: &mut impl FnMut(Outcome) -> Result<(), String>) -> Result<(), String> {
    limits(random, note)?;
    refusals(random, note)?;
    file_bytes(random, note)?;
    file_records(random, note)?;
    sequences(random, note)?;
    lifts(random, note)?;
    amounts(random, note)
}

fn allowed(height: u32, set: u32) -> Plate {
    Plate::new(height, set).expect("allowed")
}

/// Written into so many bytes.
fn write(random: &mut Random, printing: &LentPrinting, sequence: &[i32], room: usize) -> Outcome {
    let (sequence, out) = (Lent::given(random, sequence), Lent::random(random, room));
    ordered(printing, &sequence, &out).map(|(reply, _)| reply.number)
}

/// Read at the orders that are told apart the most: the first lift, a cure, the last before the finish, the finish, and past it.
fn read(
    random: &mut Random,
    note: &mut impl FnMut(Outcome) -> Result<(), String>,
    printing: &LentPrinting,
    file: &[u8],
) -> Result<(), String> {
    let file = Lent::given(random, file);
    let last = (file.part().len() / 8) as u32;
    for number in [0, 1, last.saturating_sub(1), last, u32::MAX] {
        note(order_read(printing, &file, number))?;
    }
    Ok(())
}

/// The plate: N 4, T {2, 3}, step 15, no time for thickness 1.
const WORKED: (u32, u32, u32, [u16; 3]) = (4, 6, 15, [0, 128, 160]);

fn worked(random: &mut Random) -> LentPrinting {
    let (height, set, step, cure) = WORKED;
    LentPrinting::given(random, allowed(height, set), step, &cure)
}

/// Files of the worked plate, of one layer of the smallest, and of thicknesses 1 and 5.
fn worked_files(random: &mut Random) -> Vec<(LentPrinting, Vec<u8>)> {
    let (_, _, step, cure) = WORKED;
    let plate = worked(random);
    let smallest = LentPrinting::given(random, allowed(1, 1), 8_192, &[1]);
    let wide = LentPrinting::given(random, allowed(7, 17), 3, &[65_535, 0, 0, 0, 64]);
    vec![
        (plate.clone(), make::order_file(step, &cure, &[0, 2, 4])),
        (plate.clone(), make::order_file(step, &cure, &[-1, 1, 4])),
        (plate, make::order_file(step, &cure, &[-1, 1, 3, 5])),
        (smallest, make::order_file(8_192, &[1], &[0, 1])),
        (wide, make::order_file(3, &[65_535, 0, 0, 0, 64], &[-4, 1, 2, 7])),
    ]
}

/// Settings, steps and lengths on both sides of their limits.
fn limits(random: &mut Random, note: &mut impl FnMut(Outcome) -> Result<(), String>) -> Result<(), String> {
    let (plate, file) = worked_files(random).swap_remove(0);
    for height in [0, 1, 2, 3, 4, 5, 6, 512, 513, 65_536, 65_540, u32::MAX] {
        for set in [0, 1, 2, 4, 6, 7, 1 << 31, u32::MAX] {
            for step in [0, 1, 15, 8_191, 8_192, 8_193, 65_551, 1 << 31, u32::MAX] {
                let printing = LentPrinting { height, set, step, cure: plate.cure.clone() };
                note(write(random, &printing, &[0, 2, 4], 38))?;
                read(random, note, &printing, &file)?;
            }
        }
    }
    for length in 0..=6 {
        let cure = Lent::new(random, &WORKED.3, length);
        let printing = LentPrinting { cure, ..plate.clone() };
        for room in 0..60 {
            note(write(random, &printing, &[0, 2, 4], room))?;
            note(write(random, &printing, &[-1, 1, 3, 5], room))?;
        }
        read(random, note, &printing, &file)?;
    }
    Ok(())
}

/// Every set of the writer's seven refusals that hold together, so that each pair of them is seen in its order, 13 and 18 at the first layer and
/// later; and so for the reader.
fn refusals(random: &mut Random, note: &mut impl FnMut(Outcome) -> Result<(), String>) -> Result<(), String> {
    let sequences = [[0, 2, 4], [-1, 2, 4], [-2, 0, 2], [0, 2, 3], [1, 3, 5], [0, 3, 6], [-1, 1, 3], [0, 2, 7]];
    for held in 0..1 << 6 {
        let holds = |refusal: u32| held >> refusal & 1 == 1;
        let (height, set) = (if holds(0) { 513 } else { 4 }, if holds(1) { 0 } else { 6 });
        let step = if holds(2) { 8_193 } else { 15 };
        let length = if holds(3) { 2 } else { 3 };
        for cure in [[0, 128, 160], [9, 0, 160], [9, 128, 0], [9, 0, 0]] {
            let cure = Lent::new(random, &cure, length);
            let printing = LentPrinting { height, set, step, cure };
            for sequence in sequences {
                note(write(random, &printing, &sequence, if holds(4) { 37 } else { 40 }))?;
                let file = make::order_file(15, &WORKED.3, &sequence);
                let cut = if holds(5) { 30 } else { file.len() };
                read(random, note, &printing, &file[..cut])?;
            }
        }
    }
    Ok(())
}

/// Each file cut at every length and followed by more; each byte changed to every other; each two bytes raised and lowered at once.
fn file_bytes(random: &mut Random, note: &mut impl FnMut(Outcome) -> Result<(), String>) -> Result<(), String> {
    for (printing, file) in worked_files(random) {
        for length in 0..=file.len() {
            read(random, note, &printing, &file[..length])?;
        }
        for number in 0..20 {
            note(order_read(&printing, &Lent::given(random, &file), number))?;
            note(order_read(&printing, &Lent::given(random, &file), 65_536 * (number + 1) + number))?;
        }
        let finish = &file[file.len() - 6..];
        for more in [&[0][..], &[0; 2], &[0; 3], &[0; 4], &[0, 0, 0, 128], finish, &file[..8], &file] {
            read(random, note, &printing, &[&file, more].concat())?;
        }
        for place in 0..file.len() {
            for step in 1..=255 {
                let mut changed = file.clone();
                changed[place] = changed[place].wrapping_add(step);
                note(order_read(&printing, &Lent::given(random, &changed), 0))?;
            }
            for other in 0..place {
                let mut changed = file.clone();
                changed[place] = changed[place].wrapping_add(1);
                changed[other] = changed[other].wrapping_sub(1);
                note(order_read(&printing, &Lent::given(random, &changed), 3))?;
            }
        }
    }
    Ok(())
}

/// Records swapped, twice and taken out; and in each one's place, and before it, those of other kinds, lengths, heights, times and numbers.
fn file_records(random: &mut Random, note: &mut impl FnMut(Outcome) -> Result<(), String>) -> Result<(), String> {
    for (printing, file) in worked_files(random) {
        let records: Vec<Vec<u8>> = file.chunks(8).map(<[u8]>::to_vec).collect();
        for one in 0..records.len() {
            for other in 0..records.len() {
                let mut swapped = records.clone();
                swapped.swap(one, other);
                read(random, note, &printing, &swapped.concat())?;
                let mut twice = records.clone();
                twice.insert(other, records[one].clone());
                read(random, note, &printing, &twice.concat())?;
                let mut without = records.clone();
                without.drain(one.min(other)..=one.max(other));
                read(random, note, &printing, &without.concat())?;
            }
        }
        for (place, record) in records.iter().enumerate() {
            for other in others(&printing, record) {
                let mut more = records.clone();
                more.insert(place, other);
                note(order_read(&printing, &Lent::given(random, &more.concat()), 0))?;
                more.remove(place + 1);
                note(order_read(&printing, &Lent::given(random, &more.concat()), 0))?;
            }
        }
    }
    Ok(())
}

/// What might stand in a record's place.
fn others(printing: &LentPrinting, record: &[u8]) -> Vec<Vec<u8>> {
    let mut others = Vec::new();
    let mut put = |write: &dyn Fn(&mut Vec<u8>)| {
        let mut record = Vec::new();
        write(&mut record);
        others.push(record);
    };
    for kind in (0..=60).chain([255, 304, 305, 306, 0x3000, 0x3100, 0x3200, 32_767, 32_768, 65_535]) {
        put(&|file| make::record(file, kind, &record[4..]));
    }
    for length in (0..=16).chain([254, 256, 258, 260, 300]) {
        let mut body = record[4..].to_vec();
        body.resize(length, 0);
        put(&|file| make::record(file, u16::from_le_bytes([record[2], record[3]]), &body));
    }
    for rise in -10..=40 {
        put(&|file| make::lift_record(file, printing.step, rise));
        put(&|file| make::lift_record(file, printing.step + 1, rise));
    }
    let near = printing.cure.part().iter().flat_map(|&entry| [entry.wrapping_sub(1), entry, entry.wrapping_add(1)]);
    for entry in near.chain([0, 1, 127, 129, 1_024, 65_535]) {
        put(&|file| make::cure_record(file, entry));
    }
    for bits in [0, 1 << 31, 1, 0x7F80_0000, 0xFF80_0000, 0x7FC0_0000, 0x7FC0_0001, u32::MAX, 0x3F80_0000] {
        put(&|file| make::record(file, 48, &bits.to_le_bytes()));
        put(&|file| make::record(file, 49, &bits.to_le_bytes()));
    }
    for layers in (0..=10).chain([255, 256, 257, 258, 259, 65_535]) {
        put(&|file| make::finish_record(file, layers));
    }
    others
}

/// Small plates; T {2, 5} leaves heights that no layer ends at.
const SMALL: [(u32, u32); 7] = [(1, 1), (1, 7), (2, 3), (3, 6), (4, 6), (4, 18), (5, 11)];

/// A time for every thickness, none for one of them, and for one alone; those of a time are all different.
fn cure_lists(plate: Plate) -> Vec<Vec<u16>> {
    let all: Vec<u16> = (1..=plate.tmax as u16).map(|t| 32 * t + 1).collect();
    let mut lists = vec![vec![0; all.len()], vec![64; all.len()], all.clone()];
    for entry in 0..all.len() {
        let (mut without, mut alone) = (all.clone(), vec![0; all.len()]);
        (without[entry], alone[entry]) = (0, all[entry]);
        lists.extend([without, alone]);
    }
    lists
}

/// Every sequence from one below the lowest start to one above the highest that rises by allowed thicknesses, one step past N+tmax−1 at most:
/// with z1 and the last boundary but one on both sides of their limits. What is written is read.
fn sequences(random: &mut Random, note: &mut impl FnMut(Outcome) -> Result<(), String>) -> Result<(), String> {
    for (height, set) in SMALL {
        let plate = allowed(height, set);
        for cure in cure_lists(plate) {
            let printing = LentPrinting::given(random, plate, 15, &cure);
            let mut every: Vec<Vec<i32>> = (plate.lowest() - 1..=1).map(|z0| vec![z0 as i32]).collect();
            while let Some(sequence) = every.pop() {
                note(given(random, &printing, &sequence))?;
                let end = sequence[sequence.len() - 1];
                if i64::from(end) <= plate.highest() {
                    every.extend(plate.thicknesses().map(|t| [&sequence[..], &[end + t as i32]].concat()));
                }
            }
        }
    }
    let printing = worked(random);
    for sequence in [&[][..], &[0], &[0, 0, 4], &[0, 4, 2], &[4, 2, 0], &[0, 2, 2], &[i32::MIN, 2, 4], &[0, i32::MAX]] {
        note(write(random, &printing, sequence, 60))?;
    }
    for far in [i32::MIN, i32::MAX, 1 << 16, -(1 << 16), i32::MAX - 30] {
        for sequence in [[0, far, 4], [0, 2, far], [0, far, far.wrapping_add(2)]] {
            note(write(random, &printing, &sequence, 60))?;
        }
    }
    Ok(())
}

/// Every run of lifts by thicknesses up to one above tmax, allowed or not, to some layers past the last that a start leaves room for: the file with
/// its finish, read at its first order. Whether some first boundary makes it admissible is what this is about.
fn lifts(random: &mut Random, note: &mut impl FnMut(Outcome) -> Result<(), String>) -> Result<(), String> {
    for (height, set) in SMALL {
        let plate = allowed(height, set);
        for cure in cure_lists(plate) {
            let printing = LentPrinting::given(random, plate, 7, &cure);
            let told = [&cure[..], &[5]].concat();
            let mut every: Vec<Vec<i32>> = vec![vec![0]];
            while let Some(rises) = every.pop() {
                let file = make::order_file(7, &told, &rises);
                note(order_read(&printing, &Lent::given(random, &file), 0))?;
                let end = rises[rises.len() - 1];
                let is_good = rises.windows(2).all(|pair| plate.allows(i64::from(pair[1] - pair[0])));
                if is_good && i64::from(end) < plate.height + 2 * plate.tmax {
                    every.extend((1..=plate.tmax as i32 + 1).map(|t| [&rises[..], &[end + t]].concat()));
                }
            }
        }
    }
    Ok(())
}

/// Every step with the highest lifts that there are, every time, and every rise with some steps; the longest file.
fn amounts(random: &mut Random, note: &mut impl FnMut(Outcome) -> Result<(), String>) -> Result<(), String> {
    let high = allowed(512, u32::MAX);
    let cure: Vec<u16> = (0..32).map(|t| 1 + 2_000 * t).collect();
    let up: Vec<i32> = (0..17).map(|k| -31 + 32 * k).chain([511, 543]).collect();
    for step in 1..=8_192 {
        let printing = LentPrinting::given(random, high, step, &cure);
        note(write(random, &printing, &up, orders_bytes(&up)))?;
        if step % 64 == 0 || step < 64 {
            read(random, note, &printing, &make::order_file(step, &cure, &up))?;
        }
    }
    for entry in 0..=65_535 {
        let printing = LentPrinting::given(random, allowed(1, 1), 8, &[entry]);
        note(write(random, &printing, &[0, 1], 22))?;
        note(order_read(&printing, &Lent::given(random, &make::order_file(8, &[entry], &[0, 1])), 1))?;
    }
    let each: Vec<i32> = [-31].into_iter().chain(1..512).chain([543]).collect();
    let longest: Vec<i32> = (0..=512).collect();
    for step in [1, 2, 3, 5, 7, 15, 4_095, 4_096, 8_191, 8_192] {
        let (all, thin) =
            (LentPrinting::given(random, high, step, &cure), LentPrinting::given(random, allowed(512, 1), step, &[64]));
        for (printing, sequence) in [(&all, &each), (&thin, &longest)] {
            let file = make::order_file(step, printing.cure.part(), sequence);
            read(random, note, printing, &file)?;
            for room in [file.len() - 1, file.len(), file.len() + 1] {
                note(write(random, printing, sequence, room))?;
            }
        }
    }
    Ok(())
}
