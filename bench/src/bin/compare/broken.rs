// Files broken in each way that document 02's f) tells apart. The worked job file cut at every length, with each byte changed and each two, and
// at each place where a record begins, the end of the file among them, a record of other kinds and lengths of which more or fewer bytes are there; so
// too the worked table and order files.

use crate::cases::{loaded, order_read, received, LentPrinting, Outcome};
use crate::lent::Lent;
use bench::make;
use bench::plain::Plate;
use bench::random::Random;

const CURE: [u16; 3] = [0, 128, 160];

pub fn broken(random: &mut Random, note: &mut impl FnMut(Outcome) -> Result<(), String>) -> Result<(), String> {
    let plate = Plate::new(4, 6).expect("allowed");
    let job = worked_job();
    job_file_bytes(random, note, &job)?;
    for file in with_other_records(&job, &[0, 14, 22, 30, 38], &[1, 2, 3]) {
        note(load(random, &file))?;
    }
    let table = make::tabulate(plate, &[vec![1, 4], vec![0, 3]]);
    let table = make::table_file(plate, table.head, &table.cells);
    for file in with_other_records(&table, &[0, 14, 32, 140, 158, 164], &[16, 17, 18]) {
        let (file, cells) = (Lent::given(random, &file), Lent::random(random, plate.cells()));
        note(received(&file, &cells).map(|(reply, _)| reply.number))?;
    }
    let orders = make::order_file(15, &CURE, &[0, 2, 4]);
    for file in with_other_records(&orders, &[0, 8, 16, 24, 32, 38], &[48, 49, 50]) {
        let (printing, file) = (LentPrinting::given(random, plate, 15, &CURE), Lent::given(random, &file));
        note(order_read(&printing, &file, 0))?;
    }
    Ok(())
}

fn worked_job() -> Vec<u8> {
    let mut file = Vec::new();
    make::settings_record(&mut file, 4, 6, u32::MAX);
    make::column_record(&mut file, &[1, 4]);
    make::column_record(&mut file, &[0, 3]);
    make::end_record(&mut file, 2);
    file
}

fn load(random: &mut Random, file: &[u8]) -> Outcome {
    let (file, table) = (Lent::given(random, file), Lent::random(random, 100));
    loaded(&file, usize::MAX, &table)
}

fn job_file_bytes(
    random: &mut Random,
    note: &mut impl FnMut(Outcome) -> Result<(), String>,
    file: &[u8],
) -> Result<(), String> {
    for place in 0..file.len() {
        note(load(random, &file[..place]))?;
        for step in 1..=255 {
            let mut changed = file.to_vec();
            changed[place] = changed[place].wrapping_add(step);
            note(load(random, &changed))?;
        }
        for other in 0..place {
            let mut changed = file.to_vec();
            changed[place] = changed[place].wrapping_add(1);
            changed[other] = changed[other].wrapping_sub(255);
            note(load(random, &changed))?;
        }
    }
    Ok(())
}

/// The file up to each of the places, and then a head of each kind about the file's own and of each length, or a part of it, and so many bytes; alone,
/// and with the rest of the file behind it.
fn with_other_records(file: &[u8], places: &[usize], kinds: &[u16]) -> Vec<Vec<u8>> {
    let others = [0, kinds[0] - 1, kinds[2] + 1, kinds[0] + 256, 32_767, 32_768, 65_535];
    let mut files = Vec::new();
    for &place in places {
        for &kind in kinds.iter().chain(&others) {
            for length in [0, 1, 2, 3, 4, 5, 9, 10, 11, 12, 13, 14, 15, 256 + 4, 65_535] {
                let head = [u16::to_le_bytes(length), kind.to_le_bytes()].concat();
                for left in (1..=9).chain([13, 14, 15, 17, 18, 19]) {
                    let mut cut = [&file[..place], &head].concat();
                    cut.resize(place + left.max(head.len()), 0);
                    cut.truncate(place + left);
                    files.push([&cut, &file[place..]].concat());
                    files.push(cut);
                }
            }
        }
    }
    files
}
