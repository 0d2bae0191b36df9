//! What calls do if there is no memory: those that say so answer an error, and go through with as much as they ask for; and the
//! others ask for none.

use lembokuj::{
    Area, Barrier, Bytes, ChunkTable, OwnedTable, Part, Table, TocBuilder, WordTable, queue, select_timeout, table_pages,
};
use std::alloc::{GlobalAlloc, Layout, System};
use std::cell::Cell;
use std::hint::black_box;
use std::time::Duration;

/// What a thread may have of memory, if it is under a limit.
#[derive(Clone, Copy)]
struct Heap {
    /// The bytes that it has.
    live: usize,
    /// The most that it may have.
    limit: usize,
    /// How many bytes it would have had with the least request that was refused.
    wanted: usize,
}

thread_local! {
    static HEAP: Cell<Option<Heap>> = const { Cell::new(None) };
}

struct Limited;

/// Counts a request of this thread, if it is under a limit, and says whether it is granted.
fn granted(freed: usize, bytes: usize) -> bool {
    let Some(mut heap) = HEAP.get() else { return true };
    let live = heap.live.saturating_sub(freed) + bytes;
    let fits = live <= heap.limit;
    if fits {
        heap.live = live;
    } else {
        heap.wanted = heap.wanted.min(live);
    }
    HEAP.set(Some(heap));
    fits
}

// SAFETY: each request goes to the system as it came, or is refused; what is given back came from there.
unsafe impl GlobalAlloc for Limited {
    unsafe fn alloc(&self, layout: Layout) -> *mut u8 {
        // SAFETY: the caller's layout.
        if granted(0, layout.size()) { unsafe { System.alloc(layout) } } else { std::ptr::null_mut() }
    }

    unsafe fn realloc(&self, at: *mut u8, layout: Layout, bytes: usize) -> *mut u8 {
        // SAFETY: the caller's place and layout.
        if granted(layout.size(), bytes) { unsafe { System.realloc(at, layout, bytes) } } else { std::ptr::null_mut() }
    }

    unsafe fn dealloc(&self, at: *mut u8, layout: Layout) {
        granted(layout.size(), 0);
        // SAFETY: the caller's place and layout.
        unsafe { System.dealloc(at, layout) }
    }
}

#[global_allocator]
static ALLOCATOR: Limited = Limited;

/// Makes a call while this thread may have so many bytes more. What it answers, and the least that a refused request wanted.
fn limited<T>(limit: usize, call: impl FnOnce() -> T) -> (T, Option<usize>) {
    HEAP.set(Some(Heap {
        live: 0,
        limit,
        wanted: usize::MAX,
    }));
    let answer = call();
    let heap = HEAP.take().unwrap();
    (answer, Some(heap.wanted).filter(|wanted| *wanted < usize::MAX))
}

/// Refuses, one after the other, each request by which the call comes to have more than before; in the end it goes through. The call
/// is of something that is made anew each time, under no limit.
fn each_refused_of<S, T, E>(what: &str, make: impl Fn() -> S, mut call: impl FnMut(S) -> Result<T, E>) {
    let (mut limit, mut refused) = (0, 0);
    loop {
        let subject = make();
        let (answer, wanted) = limited(limit, || call(subject).is_ok());
        let Some(wanted) = wanted else {
            assert!(answer, "{what}: refused for another reason");
            break;
        };
        assert!(!answer && wanted > limit, "{what}, with {limit} bytes");
        (limit, refused) = (wanted, refused + 1);
    }
    assert!(refused > 0, "{what} asks for nothing");
}

fn each_refused<T, E>(what: &str, mut call: impl FnMut() -> Result<T, E>) {
    each_refused_of(what, || (), |()| call());
}

fn asks_for_none<T>(what: &str, call: impl FnOnce() -> T) -> T {
    let (answer, wanted) = limited(0, call);
    assert_eq!(wanted, None, "{what}");
    answer
}

#[test]
fn what_makes_something_answers_an_error() {
    each_refused("queue", || queue(64, 1000));
    each_refused("Area::new", || Area::new(16, 3));
    each_refused("Area::open", || Area::open(16, 3));
    each_refused("Barrier::new", || Barrier::new(3));
    each_refused("Barrier::open", || Barrier::open(3));
    each_refused("Table::open", || Table::<u64, u64>::open(1, 3));
    each_refused("Table::for_keys", || Table::<u64, Bytes<3>>::for_keys(1, 3));
    each_refused("WordTable::open", || WordTable::open(WordTable::pages(1, 2, 5), 3, 2, 5));
    each_refused("OwnedTable::open", || OwnedTable::<u64, String>::open(5, 3));
    each_refused("TocBuilder::new", || TocBuilder::new(1000));
    each_refused("Part::of_new_region", || Part::of_new_region(1000));
    let words = WordTable::open(WordTable::pages(1, 2, 5), 3, 2, 5).unwrap();
    each_refused("WordTable::handle", || words.handle());
}

#[test]
fn what_lists_entries_answers_an_error() {
    let mut table = Table::<u64, u64>::open(1000, 1).unwrap();
    (0..1000).for_each(|key| assert_eq!(table.insert(&key, key), Ok(None)));
    each_refused("entries", || table.entries().map(drop));
    each_refused("for_each", || table.for_each(|_, _| ()));
    each_refused("partition", || table.partition(0).map(drop));
    each_refused("retain", || table.retain(|_, _| true));
    each_refused("take_any", || table.take_any());
    each_refused("clear", || table.clear());
    let mut owned = ChunkTable::<u64>::open(10, 1).unwrap();
    let mut area = Area::open(16, 1).unwrap();
    assert!((0..10).all(|key| owned.insert(&key, area.alloc(8).unwrap()).is_ok()));
    each_refused("OwnedTable::take_any", || owned.take_any());
    let mut words = WordTable::open(WordTable::pages(1, 2, 5), 1, 2, 5).unwrap();
    assert!(words.put(&[1, 2], &[3; 5], &mut [0; 5]).is_ok());
    each_refused("WordTable::for_each", || words.for_each(|_, _| ()));
}

#[test]
fn what_keeps_lists_answers_an_error() {
    let part = || Part::of_new_region(100).unwrap();
    each_refused_of("Part::split", part, |mut part| part.split(3..6));
    each_refused_of("Part::freeze", part, Part::freeze);
    let with_many_ranges = || {
        let mut part = part();
        let mut other = part.split(50..100).unwrap();
        (50..90).step_by(4).for_each(|at| drop(other.split(at + 1..at + 2).unwrap()));
        (part, other)
    };
    each_refused_of("Part::join", with_many_ranges, |(mut part, other)| part.join(other));
    let builder = || TocBuilder::new(1000).unwrap();
    each_refused_of("TocBuilder::freeze", builder, TocBuilder::freeze);
    let with_chunk = || {
        let mut builder = builder();
        let chunk = builder.allocate(32).unwrap();
        (builder, chunk)
    };
    each_refused_of("TocBuilder::keep", with_chunk, |(mut builder, chunk)| builder.keep(1, chunk));
}

#[test]
fn all_else_asks_for_none() {
    let (mut tx, mut rx) = queue(64, 1000).unwrap();
    asks_for_none("a queue", || {
        assert!(tx.try_send(b"one").is_ok() && tx.send_slices(&[b"t", b"wo"]).is_ok() && tx.try_send_later(b"three").is_ok());
        tx.flush();
        assert!((0..3).all(|_| rx.receive().is_ok()) && rx.try_receive().is_err());
        assert!(rx.receive_timeout(Duration::from_millis(5)).is_err());
        assert!(tx.try_send_part(&[7; 1000]).is_err() && tx.send_timeout(&[7; 1000], Duration::from_millis(5)).is_err());
        assert_eq!(select_timeout(&mut [&mut rx], Duration::from_millis(5)), None);
    });
    let mut barriers = Barrier::new(2).unwrap();
    asks_for_none("a barrier", || {
        assert_eq!(barriers[0].wait_timeout(Duration::from_millis(5)), Ok(None));
        assert!(barriers[1].wait().is_ok() && barriers[0].look().is_ok() && barriers[1].detach().is_ok());
    });
    let mut table = Table::<u64, u64>::open_pages(table_pages(1000, 1, 1), 2).unwrap();
    asks_for_none("a table", || {
        for key in 0..1000 {
            assert_eq!(table.insert(&key, key), Ok(None));
            assert_eq!(table.get(&key), Some(key));
            assert!(table.update(&key, |old| old.map(|old| old + 1)).is_ok());
            assert!(table.compare_and_put(&key, Some(&(key + 1)), Some(&1)).is_ok());
        }
        assert_eq!(table.count(), 1000);
        assert_eq!(table.remove(&5), Some(1));
        assert!(table.handle().is_some());
    });
    let mut area = Area::open(64, 2).unwrap();
    asks_for_none("an area", || {
        for bytes in [1, 24, 600, 9000] {
            let mut chunk = area.alloc_zeroed(bytes).unwrap();
            assert!(chunk.write(0, &[1]).is_ok());
            area.free(black_box(chunk));
        }
        assert!(area.handle().is_some());
    });
    asks_for_none("what goes", || drop((tx, rx, barriers, table, area)));
}
