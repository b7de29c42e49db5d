// Plans document 01's plate through the library, and prints what the planning program prints for it. Then saves the plate, and reads it again;
// sends its table, and receives it again; and writes the orders of the plan of two layers, and reads them one by one.
#[repr(C)]
#[derive(Clone, Copy, Debug, PartialEq)]
struct Head {
    height: u32,
    set: u32,
    columns: u32,
}

#[repr(C)]
struct TableReply {
    number: u32,
    head: Head,
    place: u64,
}

#[repr(C)]
struct Reply {
    number: u32,
    value: u64,
}

#[repr(C)]
struct JobReply {
    number: u32,
    head: Head,
    bound: u32,
    place: u64,
}

#[repr(C)]
struct OrderReply {
    number: u32,
    kind: u32,
    amount: f32,
    count: u32,
    place: u64,
}

#[rustfmt::skip]
#[link(name = "shagorent", kind = "static")]
extern "C" {
    fn shagorent_version() -> u32;
    fn shagorent_clear_table(table: *mut u32, cells: usize, height: u32, set: u32) -> TableReply;
    fn shagorent_add_column(table: *mut u32, cells: usize, head: Head, column: *const u16, boundaries: usize) -> TableReply;
    fn shagorent_plan(table: *const u32, cells: usize, head: Head, bound: u32, errors: *mut u64, error_entries: usize,
        thicknesses: *mut u8, thickness_entries: usize, list: *mut u64, counts: usize) -> Reply;
    fn shagorent_read_back(height: u32, set: u32, errors: *const u64, error_entries: usize,
        thicknesses: *const u8, thickness_entries: usize, count: u32, out: *mut i32, room: usize) -> Reply;
    fn shagorent_job_size(counts: *const u16, columns: usize) -> Reply;
    fn shagorent_write_job(height: u32, set: u32, bound: u32, boundaries: *const u16, length: usize,
        counts: *const u16, columns: usize, out: *mut u8, room: usize) -> Reply;
    fn shagorent_read_job(input: *const u8, length: usize, most: usize, table: *mut u32, cells: usize) -> JobReply;
    fn shagorent_write_table(table: *const u32, cells: usize, head: Head, out: *mut u8, room: usize) -> Reply;
    fn shagorent_read_table(input: *const u8, length: usize, table: *mut u32, cells: usize) -> TableReply;
    fn shagorent_write_orders(height: u32, set: u32, step: u32, cure: *const u16, thicknesses: usize,
        sequence: *const i32, boundaries: usize, out: *mut u8, room: usize) -> Reply;
    fn shagorent_read_order(height: u32, set: u32, step: u32, cure: *const u16, thicknesses: usize,
        file: *const u8, length: usize, number: u32) -> OrderReply;
}

// The version of the header that these declarations follow.
const VERSION: u32 = 50000;
const NO_SEQUENCE: u32 = 11;
const TABLE_FILE_MAX: usize = 76936;
const ORDER_FILE_MAX: usize = 8198;
const LIFT: u32 = 48;
const CURE: u32 = 49;
const FINISH: u32 = 50;
// Of the motor, in eighths of a micrometre; and cure times of the thicknesses 1 to 3 in 64ths of a second, of which 1 is not allowed.
const STEP: u32 = 15;
const CURE_TIMES: [u16; 3] = [0, 128, 160];
const COLUMNS: [[u16; 2]; 2] = [[1, 4], [0, 3]];

fn main() {
    assert_eq!(unsafe { shagorent_version() }, VERSION);
    let (mut table, mut errors, mut thicknesses) = ([0u32; 24], [0u64; 36], [0u8; 36]);
    let (mut list, mut sequence) = ([0u64; 3], [0i32; 4]);
    let mut made = unsafe { shagorent_clear_table(table.as_mut_ptr(), table.len(), 4, 6) };
    for column in COLUMNS {
        assert_eq!((made.number, made.place), (0, 0));
        made = unsafe { shagorent_add_column(table.as_mut_ptr(), table.len(), made.head, column.as_ptr(), column.len()) };
    }
    assert_eq!((made.number, made.place), (0, 0));
    let Head { height, set, columns } = made.head;
    let plan = unsafe {
        shagorent_plan(table.as_ptr(), table.len(), made.head, u32::MAX, errors.as_mut_ptr(), errors.len(),
            thicknesses.as_mut_ptr(), thicknesses.len(), list.as_mut_ptr(), list.len())
    };
    assert_eq!(plan.number, 0);
    println!("height {height} columns {columns} counts {}", plan.value);
    for n in 1..=plan.value as u32 {
        let read = unsafe {
            shagorent_read_back(height, set, errors.as_ptr(), errors.len(), thicknesses.as_ptr(), thicknesses.len(), n, sequence.as_mut_ptr(), sequence.len())
        };
        match read.number {
            0 => println!("{n} {} {}", read.value, sequence[..=n as usize].iter().map(i32::to_string).collect::<Vec<_>>().join(" ")),
            NO_SEQUENCE => println!("{n} none"),
            number => panic!("refused {number} at {}", read.value),
        }
    }
    save(&table, made.head);
    send(&table, made.head);
    let two = unsafe {
        shagorent_read_back(height, set, errors.as_ptr(), errors.len(), thicknesses.as_ptr(), thicknesses.len(), 2, sequence.as_mut_ptr(), sequence.len())
    };
    assert_eq!(two.number, 0);
    order(&sequence[..3], made.head);
}

// The bytes saved must be those of document 01's file, and what is read from them the table and the head that they were saved from.
fn save(table: &[u32], head: Head) {
    let (boundaries, counts) = (COLUMNS.concat(), COLUMNS.map(|column| column.len() as u16));
    let size = unsafe { shagorent_job_size(counts.as_ptr(), counts.len()) };
    assert_eq!(size.number, 0);
    let mut file = vec![0; size.value as usize];
    let saved = unsafe {
        shagorent_write_job(head.height, head.set, u32::MAX, boundaries.as_ptr(), boundaries.len(),
            counts.as_ptr(), counts.len(), file.as_mut_ptr(), file.len())
    };
    assert_eq!((saved.number, saved.value), (0, size.value));
    assert_eq!(file, include_bytes!("plate.job"));

    let mut again = vec![0; table.len()];
    let read = unsafe { shagorent_read_job(file.as_ptr(), file.len(), usize::MAX, again.as_mut_ptr(), again.len()) };
    assert_eq!((read.number, read.place, read.head, read.bound), (0, 0, head, u32::MAX));
    assert_eq!(again, table);
}

// The bytes sent must be those of document 02's table file, and what is received from them the table and the head that they were sent from.
fn send(table: &[u32], head: Head) {
    let mut file = vec![0; TABLE_FILE_MAX];
    let sent = unsafe { shagorent_write_table(table.as_ptr(), table.len(), head, file.as_mut_ptr(), file.len()) };
    assert_eq!(sent.number, 0);
    file.truncate(sent.value as usize);
    assert_eq!(file, include_bytes!("plate.table"));

    let mut again = vec![0; table.len()];
    let received = unsafe { shagorent_read_table(file.as_ptr(), file.len(), again.as_mut_ptr(), again.len()) };
    assert_eq!((received.number, received.place, received.head), (0, 0, head));
    assert_eq!(again, table);
}

// The bytes written must be those of document 02's order file, and the orders read from them the sequence's lifts and cures and the finish.
fn order(sequence: &[i32], head: Head) {
    let mut file = vec![0; ORDER_FILE_MAX];
    let written = unsafe {
        shagorent_write_orders(head.height, head.set, STEP, CURE_TIMES.as_ptr(), CURE_TIMES.len(), sequence.as_ptr(), sequence.len(),
            file.as_mut_ptr(), file.len())
    };
    assert_eq!(written.number, 0);
    file.truncate(written.value as usize);
    assert_eq!(file, include_bytes!("plate.orders"));

    let read = |number: u32| unsafe {
        shagorent_read_order(head.height, head.set, STEP, CURE_TIMES.as_ptr(), CURE_TIMES.len(), file.as_ptr(), file.len(), number)
    };
    let mut number = 0;
    for layer in sequence.windows(2) {
        let (rise, entry) = ((layer[1] - sequence[0]) as f32, CURE_TIMES[(layer[1] - layer[0]) as usize - 1]);
        for expected in [(LIFT, rise * STEP as f32 / 8.0), (CURE, f32::from(entry) / 64.0)] {
            let order = read(number);
            assert_eq!((order.number, order.place, (order.kind, order.amount)), (0, 0, expected));
            number += 1;
        }
    }
    for past in [number, u32::MAX] {
        let order = read(past);
        assert_eq!((order.number, order.place, order.kind, order.count), (0, 0, FINISH, sequence.len() as u32 - 1));
    }
}
