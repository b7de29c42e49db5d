// The proved library's C interface as the caller sees it: the structs and functions of libshagorent.a, and a safe call around each.
// The answers are kept as they come, so that the fields that should be 0 are compared too.

use crate::plain::{Answer, Columns, Filled, Head, Loaded, Order, Picture, Printing, Sheets};

#[repr(C)]
#[derive(Clone, Copy, Debug, PartialEq, Eq)]
pub struct Reply {
    pub number: u32,
    pub value: u64,
}

#[repr(C)]
#[derive(Clone, Copy, Debug, PartialEq, Eq)]
pub struct Tabled {
    pub number: u32,
    pub head: Head,
    pub place: u64,
}

#[repr(C)]
#[derive(Clone, Copy, Debug, PartialEq, Eq)]
pub struct Pictured {
    pub number: u32,
    pub filled: u32,
    pub value: u64,
    pub difference: i32,
}

#[repr(C)]
#[derive(Clone, Copy, Debug)]
pub struct Lifted {
    pub number: u32,
    pub height: f32,
    pub place: u64,
}

/// The same bits, so that −0 is not 0.
impl PartialEq for Lifted {
    fn eq(&self, other: &Lifted) -> bool {
        let bits = |l: &Lifted| (l.number, l.height.to_bits(), l.place);
        bits(self) == bits(other)
    }
}

#[repr(C)]
#[derive(Clone, Copy, Debug, PartialEq, Eq)]
pub struct JobLoaded {
    pub number: u32,
    pub head: Head,
    pub bound: u32,
    pub place: u64,
}

#[repr(C)]
#[derive(Clone, Copy, Debug)]
pub struct Ordered {
    pub number: u32,
    pub kind: u32,
    pub amount: f32,
    pub count: u32,
    pub place: u64,
}

/// The same bits, so that −0 is not 0.
impl PartialEq for Ordered {
    fn eq(&self, other: &Ordered) -> bool {
        let bits = |o: &Ordered| (o.number, o.kind, o.amount.to_bits(), o.count, o.place);
        bits(self) == bits(other)
    }
}

extern "C" {
    fn shagorent_version() -> u32;
    fn shagorent_clear_table(table: *mut u32, n: usize, height: u32, set: u32) -> Tabled;
    fn shagorent_add_column(table: *mut u32, n: usize, head: Head, column: *const u16, boundaries: usize) -> Tabled;
    fn shagorent_join_tables(
        table: *mut u32,
        n: usize,
        head: Head,
        other: *const u32,
        m: usize,
        other_head: Head,
    ) -> Tabled;
    fn shagorent_take_off(
        table: *mut u32,
        n: usize,
        head: Head,
        other: *const u32,
        m: usize,
        other_head: Head,
    ) -> Tabled;
    fn shagorent_plan(
        table: *const u32,
        n: usize,
        head: Head,
        bound: u32,
        errors: *mut u64,
        e: usize,
        thicknesses: *mut u8,
        t: usize,
        list: *mut u64,
        l: usize,
    ) -> Reply;
    fn shagorent_read_back(
        height: u32,
        set: u32,
        errors: *const u64,
        e: usize,
        thicknesses: *const u8,
        t: usize,
        count: u32,
        out: *mut i32,
        o: usize,
    ) -> Reply;
    fn shagorent_recount(table: *const u32, n: usize, head: Head, bound: u32, sequence: *const i32, s: usize) -> Reply;
    fn shagorent_picture(
        height: u32,
        set: u32,
        column: *const u16,
        boundaries: usize,
        start: i32,
        thickness: u32,
    ) -> Pictured;
    fn shagorent_motor_height(step: u32, boundary: i32) -> Lifted;
    fn shagorent_read_job(input: *const u8, n: usize, most: usize, table: *mut u32, t: usize) -> JobLoaded;
    fn shagorent_job_size(counts: *const u16, c: usize) -> Reply;
    fn shagorent_write_job(
        height: u32,
        set: u32,
        bound: u32,
        boundaries: *const u16,
        b: usize,
        counts: *const u16,
        c: usize,
        out: *mut u8,
        o: usize,
    ) -> Reply;
    fn shagorent_write_table(table: *const u32, n: usize, head: Head, out: *mut u8, o: usize) -> Reply;
    fn shagorent_read_table(input: *const u8, n: usize, table: *mut u32, t: usize) -> Tabled;
    fn shagorent_write_orders(
        height: u32,
        set: u32,
        step: u32,
        cure: *const u16,
        c: usize,
        sequence: *const i32,
        s: usize,
        out: *mut u8,
        o: usize,
    ) -> Reply;
    fn shagorent_read_order(
        height: u32,
        set: u32,
        step: u32,
        cure: *const u16,
        c: usize,
        file: *const u8,
        f: usize,
        number: u32,
    ) -> Ordered;
    fn shagorent_cells(height: u32, set: u32) -> Reply;
    fn shagorent_entries(height: u32, set: u32) -> Reply;
    fn shagorent_counts(height: u32, set: u32) -> Reply;
}

// ---- What the plain implementation's answers look like across the interface ----

pub fn as_reply(answer: Answer<u64>) -> Reply {
    match answer {
        Ok(value) => Reply { number: 0, value },
        Err(r) => Reply { number: r.number, value: r.place },
    }
}

/// The head of a refusal.
const NO_HEAD: Head = Head { height: 0, set: 0, columns: 0 };

pub fn as_tabled(answer: Answer<Head>) -> Tabled {
    match answer {
        Ok(head) => Tabled { number: 0, head, place: 0 },
        Err(r) => Tabled { number: r.number, head: NO_HEAD, place: r.place },
    }
}

pub fn as_pictured(answer: Answer<Picture>) -> Pictured {
    match answer {
        Ok(p) => {
            Pictured { number: 0, filled: u32::from(p.filled), value: u64::from(p.share), difference: p.difference }
        }
        Err(r) => Pictured { number: r.number, filled: 0, value: r.place, difference: 0 },
    }
}

pub fn as_lifted(answer: Answer<f32>) -> Lifted {
    match answer {
        Ok(height) => Lifted { number: 0, height, place: 0 },
        Err(r) => Lifted { number: r.number, height: 0.0, place: r.place },
    }
}

pub fn as_loaded(answer: Answer<Loaded>) -> JobLoaded {
    match answer {
        Ok(Loaded { head, bound }) => JobLoaded { number: 0, head, bound, place: 0 },
        Err(r) => JobLoaded { number: r.number, head: NO_HEAD, bound: 0, place: r.place },
    }
}

pub fn as_ordered(answer: Answer<Order>) -> Ordered {
    let none = Ordered { number: 0, kind: 0, amount: 0.0, count: 0, place: 0 };
    match answer {
        Ok(Order::Lift(amount)) => Ordered { kind: 48, amount, ..none },
        Ok(Order::Cure(amount)) => Ordered { kind: 49, amount, ..none },
        Ok(Order::Finish(count)) => Ordered { kind: 50, count, ..none },
        Err(r) => Ordered { number: r.number, place: r.place, ..none },
    }
}

// ---- The calls ----

pub fn version() -> u32 {
    unsafe { shagorent_version() }
}

pub fn clear_table(table: &mut [u32], height: u32, set: u32) -> Tabled {
    unsafe { shagorent_clear_table(table.as_mut_ptr(), table.len(), height, set) }
}

pub fn add_column(table: &mut [u32], head: Head, column: &[u16]) -> Tabled {
    unsafe { shagorent_add_column(table.as_mut_ptr(), table.len(), head, column.as_ptr(), column.len()) }
}

pub fn join_tables(table: &mut [u32], head: Head, other: &[u32], other_head: Head) -> Tabled {
    unsafe { shagorent_join_tables(table.as_mut_ptr(), table.len(), head, other.as_ptr(), other.len(), other_head) }
}

pub fn take_off(table: &mut [u32], head: Head, other: &[u32], other_head: Head) -> Tabled {
    unsafe { shagorent_take_off(table.as_mut_ptr(), table.len(), head, other.as_ptr(), other.len(), other_head) }
}

pub fn plan(table: &[u32], head: Head, bound: u32, sheets: Sheets) -> Reply {
    unsafe {
        shagorent_plan(
            table.as_ptr(),
            table.len(),
            head,
            bound,
            sheets.errors.as_mut_ptr(),
            sheets.errors.len(),
            sheets.thicknesses.as_mut_ptr(),
            sheets.thicknesses.len(),
            sheets.list.as_mut_ptr(),
            sheets.list.len(),
        )
    }
}

pub fn read_back(height: u32, set: u32, sheets: Filled, count: u32, out: &mut [i32]) -> Reply {
    unsafe {
        shagorent_read_back(
            height,
            set,
            sheets.errors.as_ptr(),
            sheets.errors.len(),
            sheets.thicknesses.as_ptr(),
            sheets.thicknesses.len(),
            count,
            out.as_mut_ptr(),
            out.len(),
        )
    }
}

pub fn recount(table: &[u32], head: Head, bound: u32, sequence: &[i32]) -> Reply {
    unsafe { shagorent_recount(table.as_ptr(), table.len(), head, bound, sequence.as_ptr(), sequence.len()) }
}

pub fn picture(height: u32, set: u32, column: &[u16], start: i32, thickness: u32) -> Pictured {
    unsafe { shagorent_picture(height, set, column.as_ptr(), column.len(), start, thickness) }
}

pub fn motor_height(step: u32, boundary: i32) -> Lifted {
    unsafe { shagorent_motor_height(step, boundary) }
}

pub fn read_job(input: &[u8], most: usize, table: &mut [u32]) -> JobLoaded {
    unsafe { shagorent_read_job(input.as_ptr(), input.len(), most, table.as_mut_ptr(), table.len()) }
}

pub fn job_size(counts: &[u16]) -> Reply {
    unsafe { shagorent_job_size(counts.as_ptr(), counts.len()) }
}

pub fn write_job(height: u32, set: u32, bound: u32, columns: Columns, out: &mut [u8]) -> Reply {
    let Columns { boundaries, counts } = columns;
    unsafe {
        shagorent_write_job(
            height,
            set,
            bound,
            boundaries.as_ptr(),
            boundaries.len(),
            counts.as_ptr(),
            counts.len(),
            out.as_mut_ptr(),
            out.len(),
        )
    }
}

pub fn write_table(table: &[u32], head: Head, out: &mut [u8]) -> Reply {
    unsafe { shagorent_write_table(table.as_ptr(), table.len(), head, out.as_mut_ptr(), out.len()) }
}

pub fn read_table(input: &[u8], table: &mut [u32]) -> Tabled {
    unsafe { shagorent_read_table(input.as_ptr(), input.len(), table.as_mut_ptr(), table.len()) }
}

pub fn write_orders(printing: Printing, sequence: &[i32], out: &mut [u8]) -> Reply {
    let Printing { height, set, step, cure } = printing;
    unsafe {
        shagorent_write_orders(
            height,
            set,
            step,
            cure.as_ptr(),
            cure.len(),
            sequence.as_ptr(),
            sequence.len(),
            out.as_mut_ptr(),
            out.len(),
        )
    }
}

pub fn read_order(printing: Printing, file: &[u8], number: u32) -> Ordered {
    let Printing { height, set, step, cure } = printing;
    unsafe { shagorent_read_order(height, set, step, cure.as_ptr(), cure.len(), file.as_ptr(), file.len(), number) }
}

pub fn cells(height: u32, set: u32) -> Reply {
    unsafe { shagorent_cells(height, set) }
}

pub fn entries(height: u32, set: u32) -> Reply {
    unsafe { shagorent_entries(height, set) }
}

pub fn counts(height: u32, set: u32) -> Reply {
    unsafe { shagorent_counts(height, set) }
}

#[cfg(test)]
mod tests {
    const HEADER: &str = include_str!("../../include/shagorent.h");

    /// The number that the header gives to a part of its version.
    fn stated(part: &str) -> u32 {
        let (_, after) =
            HEADER.split_once(&format!("#define SHAGORENT_VERSION_{part} ")).expect("the header states it");
        after.split_once("u\n").expect("the number is unsigned").0.parse().expect("it is a number")
    }

    #[test]
    fn the_library_is_of_the_headers_version() {
        assert_eq!(super::version(), stated("MAJOR") * 10000 + stated("MINOR") * 100 + stated("PATCH"));
    }
}
