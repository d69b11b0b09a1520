//! No call makes a buffer beyond the largest accepted book, whatever it is given. The allocator counts, so that
//! this file has one test: others would count in it.

use market_risk::{dearest_book, joined, net_and_offset_book, netted, offset_book, options_book};
use market_risk::{shortest_file, Book, Position, Refusal, Row, MOST_BYTES};
use std::alloc::{GlobalAlloc, Layout, System};
use std::iter::{repeat, repeat_n};
use std::sync::atomic::{AtomicUsize, Ordering::Relaxed};

/// The system's allocator, with the largest request that it was made.
struct Counting {
    largest: AtomicUsize,
}

// SAFETY: every request goes to the system's allocator as it is.
unsafe impl GlobalAlloc for Counting {
    unsafe fn alloc(&self, layout: Layout) -> *mut u8 {
        self.largest.fetch_max(layout.size(), Relaxed);
        // SAFETY: the caller keeps the conditions of `alloc`.
        unsafe { System.alloc(layout) }
    }

    unsafe fn dealloc(&self, memory: *mut u8, layout: Layout) {
        // SAFETY: the memory is of `alloc` above, with this layout.
        unsafe { System.dealloc(memory, layout) }
    }
}

#[global_allocator]
static ALLOCATOR: Counting = Counting {
    largest: AtomicUsize::new(0),
};

/// The largest request that a call makes.
fn largest<T>(call: impl FnOnce() -> T) -> (T, usize) {
    ALLOCATOR.largest.store(0, Relaxed);
    let answer = call();
    (answer, ALLOCATOR.largest.load(Relaxed))
}

/// The number of a refusal.
fn number<T>(answer: Result<T, Refusal>) -> u64 {
    answer.map_or_else(|refusal| refusal.number, |_| 0)
}

/// A row of a commodity.
const ROW: Row = Row::Commodity {
    commodity: 5,
    days: 30,
    issue: 0,
    position: Position::Long(1),
};

/// A book of so many rows.
fn rows(count: usize) -> Book {
    Book::of(repeat_n(ROW, count)).unwrap()
}

/// A call on long files, and the number that it is refused with, or 0.
type Case<'a> = (&'a str, u64, &'a dyn Fn() -> u64);

/// Calls that take files of a megabyte or counts without end.
fn each_call(long: &[u8], full: &[u8]) {
    let cases: [Case; 12] = [
        ("joined, the first long", 3, &|| number(joined(long, full))),
        ("joined, the second long", 3, &|| number(joined(full, long))),
        ("joined, both long", 3, &|| number(joined(long, long))),
        ("joined, too many rows", 11, &|| number(joined(full, full))),
        ("netted", 3, &|| number(netted(long))),
        ("offset_book", 3, &|| number(offset_book(long))),
        ("net_and_offset_book", 3, &|| {
            number(net_and_offset_book(long))
        }),
        ("options_book", 16, &|| number(options_book(long))),
        ("dearest_book", 22, &|| number(dearest_book(usize::MAX, 1))),
        ("dearest_book, all rows", 0, &|| {
            number(dearest_book(4_000, 1))
        }),
        ("shortest_file", 0, &|| shortest_file(long).map_or(1, |_| 0)),
        ("Book", 2, &|| number(Book::of(repeat(ROW)))),
    ];
    for (name, expected, call) in cases {
        let (number, bytes) = largest(call);
        assert_eq!(number, expected, "{name}");
        assert!(bytes <= MOST_BYTES, "{name}: {bytes}");
    }
}

/// Catches a buffer that is sized by what is given before that is checked, a builder whose memory doubles past
/// the limit, and a buffer that is too small for the largest book.
#[test]
fn no_buffer_is_beyond_the_largest_book() {
    let full = rows(4_000);
    let full = full.bytes().unwrap();
    let (_, bytes) = largest(|| vec![0u8; MOST_BYTES + 1]);
    assert_eq!(bytes, MOST_BYTES + 1, "the allocator does not count");
    each_call(&vec![0; 1 << 20], full);
    let half = rows(2_000);
    let half = half.bytes().unwrap();
    assert_eq!(joined(half, half).as_deref(), Ok(full));
    for call in [netted, offset_book, net_and_offset_book] {
        assert_eq!(call(full).as_deref(), Ok(full));
    }
}
