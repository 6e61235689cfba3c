//! The library's functions as they are linked; `include/jorvimest.h` says what each is given, answers and leaves.
//! A slice is a pointer and a length. The pointer is not null, also where the length is 0, as those of Rust's slices are not.

extern "C" {
    pub fn jorvimest_compile(
        pattern: *const u8,
        length: usize,
        cells: *mut u16,
        cell_count: usize,
        marks: *mut u8,
        mark_count: usize,
        sets: *mut u64,
        word_count: usize,
        rows: *mut u16,
        head: *mut u16,
        place: *mut u32,
    ) -> u32;
    pub fn jorvimest_well_formed(
        rows: u16,
        head: u16,
        cells: *const u16,
        cell_count: usize,
        marks: *const u8,
        mark_count: usize,
    ) -> bool;
    pub fn jorvimest_whole(
        rows: u16,
        head: u16,
        cells: *const u16,
        cell_count: usize,
        marks: *const u8,
        mark_count: usize,
        text: *const u8,
        length: usize,
    ) -> u32;
    pub fn jorvimest_longest(
        rows: u16,
        head: u16,
        cells: *const u16,
        cell_count: usize,
        marks: *const u8,
        mark_count: usize,
        text: *const u8,
        length: usize,
        start: u32,
        end: *mut u32,
    ) -> u32;
    pub fn jorvimest_first(
        rows: u16,
        head: u16,
        cells: *const u16,
        cell_count: usize,
        marks: *const u8,
        mark_count: usize,
        text: *const u8,
        length: usize,
        start: *mut u32,
        end: *mut u32,
    ) -> u32;
    pub fn jorvimest_starts(
        rows: u16,
        head: u16,
        cells: *const u16,
        cell_count: usize,
        marks: *const u8,
        mark_count: usize,
        text: *const u8,
        length: usize,
        list: *mut u32,
        places: usize,
        count: *mut u32,
    ) -> u32;
    pub fn jorvimest_listing(
        rows: u16,
        head: u16,
        cells: *const u16,
        cell_count: usize,
        marks: *const u8,
        mark_count: usize,
        out: *mut u8,
        room: usize,
        length: *mut u32,
    ) -> u32;
    pub fn jorvimest_refusal(number: u32, place: u32, out: *mut u8, room: usize, length: *mut u32) -> u32;
}
