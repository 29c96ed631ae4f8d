//! Calls on memory that ends where the buffer ends: a read or a write beyond it stops the program.

use crate::calls::Calls;
use std::cell::RefCell;
use std::ffi::c_void;

extern "C" {
    fn mmap(at: *mut c_void, len: usize, protection: i32, flags: i32, file: i32, offset: i64) -> *mut c_void;
    fn mprotect(at: *mut c_void, len: usize, protection: i32) -> i32;
}

const PAGE: usize = 4096;
/// Room for the longest store, the longest text and the longest slice of a comparison.
const ROOM: usize = 8 * PAGE;

/// Pages that may be used, before one that may not; they are kept to the end of the program.
struct Field(*mut u8);

impl Field {
    fn new() -> Field {
        // x86-64 Linux: PROT_READ | PROT_WRITE is 3, PROT_NONE 0, MAP_PRIVATE | MAP_ANONYMOUS 0x22.
        unsafe {
            let at = mmap(std::ptr::null_mut(), ROOM + PAGE, 3, 0x22, -1, 0) as *mut u8;
            assert!(at as isize != -1, "no memory");
            assert_eq!(mprotect(at.add(ROOM).cast(), PAGE, 0), 0);
            Field(at)
        }
    }

    /// The bytes or numbers, copied to the end of the room.
    fn hold<A: Copy>(&mut self, items: &[A]) -> &mut [A] {
        let bytes = std::mem::size_of_val(items);
        assert!(bytes <= ROOM);
        // The room is ours alone, and lent for as long as `self` is. It ends where a page does, so that whole items
        // up to its end are aligned.
        unsafe {
            let at = self.0.add(ROOM - bytes).cast::<A>();
            at.copy_from_nonoverlapping(items.as_ptr(), items.len());
            std::slice::from_raw_parts_mut(at, items.len())
        }
    }
}

/// An engine whose stores, texts and slices stand at a fence.
pub struct Fenced<'a> {
    engine: &'a dyn Calls,
    fields: RefCell<[Field; 2]>,
}

impl<'a> Fenced<'a> {
    pub fn new(engine: &'a dyn Calls) -> Fenced<'a> {
        Fenced { engine, fields: RefCell::new([Field::new(), Field::new()]) }
    }

    /// A call on copies of a store and a text, which it may not write to; the store comes back.
    fn write(&self, store: &mut [u8], text: &[u8], call: impl FnOnce(&mut [u8], &[u8]) -> u32) -> u32 {
        let [first, second] = &mut *self.fields.borrow_mut();
        let (held, held_text) = (first.hold(store), second.hold(text));
        let number = call(held, held_text);
        assert!(held_text == text, "a text was written to");
        store.copy_from_slice(held);
        number
    }

    /// A call on a copy of a store, which it may not write to.
    fn read(&self, store: &[u8], call: impl FnOnce(&[u8]) -> u32) -> u32 {
        let [field, _] = &mut *self.fields.borrow_mut();
        let held = field.hold(store);
        let number = call(held);
        assert!(held == store, "a store was written to by a call that reads");
        number
    }
}

impl Calls for Fenced<'_> {
    fn open(&self, store: &mut [u8], year: u32, month: u32, day: u32, stations: &[u32], rows: &[u16]) -> u32 {
        self.write(store, &[], |store, _| self.engine.open(store, year, month, day, stations, rows))
    }

    fn file(&self, store: &mut [u8], text: &[u8], rank: u32) -> u32 {
        self.write(store, text, |store, text| self.engine.file(store, text, rank))
    }

    fn settle(&self, store: &mut [u8], station: u32) -> u32 {
        self.write(store, &[], |store, _| self.engine.settle(store, station))
    }

    fn begin(&self, store: &mut [u8], station: u32) -> u32 {
        self.write(store, &[], |store, _| self.engine.begin(store, station))
    }

    fn step(&self, store: &mut [u8], station: u32) -> u32 {
        self.write(store, &[], |store, _| self.engine.step(store, station))
    }

    fn cell(&self, store: &[u8], station: u32, element: u32, slot: u32, out: &mut [i32; 3]) -> u32 {
        self.read(store, |store| self.engine.cell(store, station, element, slot, out))
    }

    fn day(&self, store: &[u8], station: u32, means: &mut [f64; 6], numbers: &mut [i32; 14]) -> u32 {
        self.read(store, |store| self.engine.day(store, station, means, numbers))
    }

    fn bulletin(&self, store: &mut [u8], text: &[u8], rank: u32, counts: &mut [u32; 2]) -> u32 {
        self.write(store, text, |store, text| self.engine.bulletin(store, text, rank, counts))
    }

    fn vapour_table(&self, entries: &mut [u16]) -> u32 {
        let [field, _] = &mut *self.fields.borrow_mut();
        let held = field.hold(entries);
        let number = self.engine.vapour_table(held);
        entries.copy_from_slice(held);
        number
    }
}
