//! An open session takes no memory: not for a question, and not when it is put to another store or sheet.

use std::alloc::{GlobalAlloc, Layout, System};
use std::sync::atomic::{AtomicUsize, Ordering};

use sofretu::{Session, Sheet, Stop, Store, Value, MOST_STEPS};

/// The system's memory, with the bytes that were taken of it.
struct Counted;

static TAKEN: AtomicUsize = AtomicUsize::new(0);

#[global_allocator]
static MEMORY: Counted = Counted;

// SAFETY: all is done by the system's own.
unsafe impl GlobalAlloc for Counted {
    unsafe fn alloc(&self, layout: Layout) -> *mut u8 {
        TAKEN.fetch_add(layout.size(), Ordering::Relaxed);
        unsafe { System.alloc(layout) }
    }

    unsafe fn dealloc(&self, memory: *mut u8, layout: Layout) {
        unsafe { System.dealloc(memory, layout) }
    }
}

/// What is taken while something is done. One test runs in this program, so nobody else takes memory meanwhile.
fn taken<T>(done: impl FnOnce() -> T) -> (T, usize) {
    let before = TAKEN.load(Ordering::Relaxed);
    let done = done();
    (done, TAKEN.load(Ordering::Relaxed) - before)
}

#[test]
fn an_open_session_takes_no_memory() {
    // One Int attribute on one node, whose figure is 7 or 8.
    let of = |figure| [0x41, 2, 0, 0x4E, 0, 0x56, 0, 0, 0, figure, 0, 0, 0, 0x5A];
    let question = [0x22, 0, 0x13, 0, 0, 0x10];
    let (first, check) = taken(|| Sheet::load(of(7)).expect("an accepted sheet"));
    let second = Sheet::load(of(8)).expect("an accepted sheet");
    // A sheet takes its index and its notes, a session its links and the memory of a run.
    assert!((130_000..140_000).contains(&check), "{check}");
    let mut other = Store::with_capacity(3);
    let store = Store::default();
    let (session, open) = taken(|| Session::open(&first, store).expect("an empty store"));
    assert!((99_000..101_000).contains(&open), "{open}");
    let mut session = session;
    for _ in 0..3 {
        let (value, memory) = taken(|| session.ask(&question, MOST_STEPS).value);
        assert_eq!((value, memory), (Ok(Value::Int(7)), 0));
        let ((), memory) = taken(|| session.clear());
        assert_eq!(memory, 0);
        let ((), memory) = taken(|| session.reload(&second));
        assert_eq!(memory, 0);
        let (value, memory) = taken(|| session.ask(&question, MOST_STEPS).value);
        assert_eq!((value, memory), (Ok(Value::Int(8)), 0));
        let (switched, memory) = taken(|| session.switch(&first, other));
        assert_eq!(memory, 0);
        other = switched.expect("a store that passes");
        other.clear();
    }
    let wrong = Store::with_capacity(5_000);
    let (refused, memory) = taken(|| session.switch(&first, wrong));
    assert_eq!(memory, 0);
    assert_eq!(refused.unwrap_err().refusal, Stop::StoreShape.at(0));
    let (_, memory) = taken(|| (first.clone(), session.into_store()));
    assert_eq!(memory, 0);
}
