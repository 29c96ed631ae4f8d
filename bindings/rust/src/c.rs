//! The library's own calls, as `include/esfenruk.h` has them. A fixed array passes as a pointer to it.

unsafe extern "C" {
    pub fn esfenruk_open(
        store: *mut u8,
        store_length: usize,
        year: u32,
        month: u32,
        day: u32,
        stations: *const u32,
        stations_length: usize,
        rows: *const u16,
        rows_length: usize,
    ) -> u32;
    pub fn esfenruk_file(
        store: *mut u8,
        store_length: usize,
        text: *const u8,
        text_length: usize,
        rank: u32,
    ) -> u32;
    pub fn esfenruk_bulletin(
        store: *mut u8,
        store_length: usize,
        text: *const u8,
        text_length: usize,
        rank: u32,
        counts: *mut [u32; 2],
    ) -> u32;
    pub fn esfenruk_settle(store: *mut u8, store_length: usize, station: u32) -> u32;
    pub fn esfenruk_begin(store: *mut u8, store_length: usize, station: u32) -> u32;
    pub fn esfenruk_step(store: *mut u8, store_length: usize, station: u32) -> u32;
    pub fn esfenruk_cell(
        store: *const u8,
        store_length: usize,
        station: u32,
        element: u32,
        slot: u32,
        out: *mut [i32; 3],
    ) -> u32;
    pub fn esfenruk_day(
        store: *const u8,
        store_length: usize,
        station: u32,
        means: *mut [f64; 6],
        numbers: *mut [i32; 14],
    ) -> u32;
    pub fn esfenruk_vapour_table(entries: *mut u16, entries_length: usize) -> u32;
}
