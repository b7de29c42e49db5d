// A caller's whole session over buffers that go on from call to call: two groups of columns tabulated, one of them sent by a file, joined, the
// plate sent too, planned within a bound, every count read back and recounted and its orders written and read, and the group that was sent taken
// off again.

use crate::cases::{added, given, head_text, planned, read, read_as_it_was, recounted, told};
use crate::cases::{Joining, LentPrinting, LentSheets, Outcome};
use crate::lent::{same, Lent};
use bench::library;
use bench::make::{self, Size};
use bench::plain::{self, Head, Plate};
use bench::random::Random;

/// A table in both hands, and what goes with it.
struct Group {
    expected: Lent<u32>,
    actual: Lent<u32>,
    head: Head,
}

pub fn session(random: &mut Random, full: bool) -> Outcome {
    let size = if full { Size::Full } else { random.pick(&[Size::Tiny, Size::Small, Size::Middle]) };
    let plate = make::plate(random, size);
    let most = if full { 300 } else { 40 };
    let mut first = group(random, plate, most)?;
    let mut second = group(random, plate, most)?;
    send(random, plate, &mut second)?;
    together(&mut first, &second, (plain::join_tables, library::join_tables))?;
    send(random, plate, &mut first)?;
    plan_and_read(random, plate, &first)?;
    together(&mut first, &second, (plain::take_off, library::take_off))?;
    plan_and_read(random, plate, &first)
}

fn group(random: &mut Random, plate: Plate, most: u64) -> Result<Group, String> {
    let Head { height, set, .. } = plate.head(0);
    let mut expected = Lent::random(random, plate.cells());
    let mut actual = expected.clone();
    let answer = library::as_tabled(plain::clear_table(expected.part_mut(), height, set));
    let library = library::clear_table(actual.part_mut(), height, set);
    told(same(answer, library), 0, || format!("height {height}, set {set:#x}"))?;
    let mut group = Group { expected, actual, head: library.head };
    for _ in 0..random.below(most + 1) {
        let column = make::column(random, plate.height);
        let column = Lent::given(random, &column);
        added(&mut group.actual, &mut group.expected, &mut group.head, &column)?;
    }
    Ok(group)
}

/// The group's table as it came by a file, once or twice, in place of the one that it was.
fn send(random: &mut Random, plate: Plate, group: &mut Group) -> Result<(), String> {
    for _ in 0..random.pick(&[1, 2]) {
        group.actual = read_as_it_was(random, plate, &group.actual, group.head)?;
    }
    group.expected = group.actual.clone();
    Ok(())
}

fn together(first: &mut Group, second: &Group, calls: Joining) -> Outcome {
    let (head, other_head) = (first.head, second.head);
    let answer = calls.0(first.expected.part_mut(), head, second.expected.part(), other_head);
    let library = calls.1(first.actual.part_mut(), head, second.actual.part(), other_head);
    let difference = same(library::as_tabled(answer), library)
        .and_then(|()| first.actual.agrees("first table", &first.expected))
        .and_then(|()| second.actual.agrees("second table", &second.expected));
    answer.map_err(|refusal| format!("a good session met {refusal:?}"))?;
    first.head = library.head;
    told(difference, 0, || format!("{}; {}", head_text(head), head_text(other_head)))
}

fn plan_and_read(random: &mut Random, plate: Plate, group: &Group) -> Outcome {
    let head = group.head;
    let bound = make::bound(random, &make::Table { cells: group.expected.part().to_vec(), head });
    let mut expected = LentSheets::random(random, [plate.entries(), plate.entries(), plate.counts()]);
    let mut actual = expected.clone();
    planned(&mut actual, &mut expected, &group.actual, head, bound)?;
    for count in 1..=plate.counts() {
        if plate.counts() < 100 || random.one_in(8) {
            let mut out = Lent::random(random, count + 1);
            let number = read(&actual, &expected, &out, head.height, head.set, count as u32)?;
            if number == 0 {
                library::read_back(head.height, head.set, actual.filled(), count as u32, out.part_mut());
                recounted(&group.actual, head, bound, &out)?;
                print_plan(random, plate, out.part())?;
            }
        }
    }
    Ok(0)
}

/// The orders of a plan, with a time for every thickness: they are never refused.
fn print_plan(random: &mut Random, plate: Plate, sequence: &[i32]) -> Outcome {
    let cure: Vec<u16> = (0..plate.tmax).map(|_| (random.word() as u16).max(1)).collect();
    let step = random.within(1, 8_192) as u32;
    let printing = LentPrinting::given(random, plate, step, &cure);
    let number = given(random, &printing, sequence)?;
    told(same(0, number), 0, || format!("{}, sequence {sequence:?}", head_text(plate.head(0))))
}
