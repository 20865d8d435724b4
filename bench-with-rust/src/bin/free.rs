//! The rows of coding and decoding once more, with an allocator that costs nothing: what of the Rust's time is not the allocator's. Memory is
//! taken from the front of one area and never given back; after each call the area is as it was before. Only calls that keep nothing from one
//! to the next may be timed so.

#[path = "../inputs.rs"]
#[allow(dead_code)]
mod inputs;
#[path = "../receivers.rs"]
#[allow(dead_code)]
mod receivers;
#[path = "../reports.rs"]
#[allow(dead_code)]
mod reports;
#[path = "../rows.rs"]
#[allow(dead_code)]
mod rows;
#[path = "../table.rs"]
#[allow(dead_code)]
mod table;
#[allow(dead_code)]
#[path = "../../../compare-with-rust/src/xara.rs"]
mod xara;

use std::process::ExitCode;
use table::Table;

/// One area, from which memory is taken in turn.
mod area {
    use std::alloc::{GlobalAlloc, Layout, System};
    use std::sync::atomic::{AtomicUsize, Ordering::Relaxed};

    const SIZE: usize = 1 << 28;
    const ALIGN: usize = 64;

    struct Area;

    static START: AtomicUsize = AtomicUsize::new(0);
    static TAKEN: AtomicUsize = AtomicUsize::new(0);

    #[global_allocator]
    static AREA: Area = Area;

    // The program has one thread.
    unsafe impl GlobalAlloc for Area {
        unsafe fn alloc(&self, layout: Layout) -> *mut u8 {
            if START.load(Relaxed) == 0 {
                let whole = Layout::from_size_align(SIZE, ALIGN).expect("the layout is one");
                START.store(unsafe { System.alloc(whole) } as usize, Relaxed);
            }
            let at = TAKEN.load(Relaxed).next_multiple_of(layout.align());
            if layout.size() > SIZE - at {
                return std::ptr::null_mut();
            }
            TAKEN.store(at + layout.size(), Relaxed);
            (START.load(Relaxed) + at) as *mut u8
        }

        unsafe fn dealloc(&self, _: *mut u8, _: Layout) {}

        unsafe fn realloc(&self, from: *mut u8, layout: Layout, size: usize) -> *mut u8 {
            let at = from as usize - START.load(Relaxed);
            if at + layout.size() == TAKEN.load(Relaxed) && size <= SIZE - at {
                TAKEN.store(at + size, Relaxed);
                return from;
            }
            let to = unsafe { self.alloc(Layout::from_size_align_unchecked(size, layout.align())) };
            if !to.is_null() {
                unsafe { std::ptr::copy_nonoverlapping(from, to, layout.size().min(size)) };
            }
            to
        }
    }

    /// How much is taken.
    pub fn mark() -> usize {
        TAKEN.load(Relaxed)
    }

    /// All that was taken since is free again.
    pub fn release(mark: usize) {
        TAKEN.store(mark, Relaxed);
    }
}

fn main() -> ExitCode {
    let mut table = Table::new(std::env::args().nth(1).unwrap_or_default());
    rows::codings(&mut table);
    reports::bodies(&mut table);
    reports::paths(&mut table);
    reports::example(&mut table);
    if !table.is_empty() {
        table.run();
        println!("with an allocator that costs nothing:");
        table.print_rows();
    }
    ExitCode::SUCCESS
}
