//! What a table of so many pages holds, and each refusal.

use lembokuj::{Area, AreaError, Barrier, BarrierError, Busy, NoSpace, NoWord, Part, QueueError, Table, TableError, TocBuilder, TocError};
use lembokuj::{Bytes, OwnedError, OwnedTable, PartError, ReceiveError, RegionError, SendError, Words, queue, table_pages};
use std::panic::{AssertUnwindSafe, catch_unwind};

/// Whether a table of the pages that are said takes so many keys.
fn holds<V: Words + Copy>(keys: u64, value: V, factor: u64) -> bool {
    let mut table = Table::<u64, V>::for_keys(keys, 1).unwrap().pop().unwrap();
    (0..keys).all(|key| table.insert(&key.wrapping_mul(factor), value).is_ok())
}

#[test]
fn a_table_holds_the_keys_that_it_was_made_for() {
    for keys in [1, 10, 100, 300, 1000, 3000, 10_000, 30_000, 100_000] {
        for factor in [1, 7919, 0x9E37_79B9_7F4A_7C15] {
            assert!(holds(keys, 1u64, factor), "{keys} keys, one word, {factor}");
            assert!(holds(keys.min(10_000), [1u64; 16], factor), "{keys} keys, 16 words, {factor}");
            assert!(holds(keys.min(1_000), [1u64; 1200], factor), "{keys} keys, 1200 words, {factor}");
        }
    }
}

#[test]
fn an_area_says_what_is_lacking() {
    assert_eq!(Area::new(65_537, 1).unwrap_err(), AreaError::Pages);
    assert_eq!(Area::new(1, 0).unwrap_err(), AreaError::Callers);
    let mut area = Area::new(4, 1).unwrap().pop().unwrap();
    assert_eq!(area.alloc(8).unwrap_err(), NoSpace { pages: 16, largest: 4 });
    let chunk = area.alloc(4 * 4096).unwrap();
    assert_eq!(chunk.words(), 2048);
    assert_eq!(area.alloc(8193).unwrap_err(), NoSpace { pages: 3, largest: 0 });
    drop(chunk);
    for too_many in [(1 << 30) + 1, 1 << 40, u64::MAX] {
        let refused = area.alloc(too_many).unwrap_err();
        assert_eq!((refused.pages, refused.largest), (u32::try_from(too_many.div_ceil(4096)).unwrap_or(u32::MAX), 4));
    }
    assert_eq!(area.alloc(1 << 30).unwrap_err(), NoSpace { pages: 1 << 18, largest: 4 });
    assert_eq!(area.alloc(8193).unwrap().words(), 3 * 512);
}

#[test]
fn chunks_are_read_and_written_as_slices() {
    let mut area = Area::open(64, 1).unwrap();
    let mut chunk = area.alloc(40).unwrap();
    let words = chunk.words();
    chunk.write(0, &[u64::MAX; 5]).unwrap();
    let numbers: Vec<u8> = (1..=20).collect();
    chunk.write_bytes(3, &numbers).unwrap();
    let mut bytes = [0; 24];
    chunk.read_bytes(1, &mut bytes).unwrap();
    assert_eq!((&bytes[..2], &bytes[2..22], &bytes[22..]), (&[255; 2][..], &numbers[..], &[255; 2][..]));
    let mut few = [0; 2];
    chunk.read(1, &mut few).unwrap();
    assert_eq!(few[0], u64::from_le_bytes([6, 7, 8, 9, 10, 11, 12, 13]));
    assert_eq!(chunk.write(words - 1, &[1, 2]), Err(NoWord));
    assert_eq!(chunk.read(u64::MAX, &mut few), Err(NoWord));
    assert_eq!(chunk.write_bytes(8 * words - 1, &[1, 2]), Err(NoWord));
    assert_eq!(chunk.read_bytes(u64::MAX - 1, &mut bytes), Err(NoWord));
    assert!(chunk.write_bytes(8 * words, &[]).is_ok() && chunk.store(words, 1) == Err(NoWord));
    // As slices: all of its words, where the calls above find them, and nothing else.
    let last = words as usize - 1;
    chunk.as_words_mut()[last] = 42;
    chunk.as_bytes_mut()[..2].copy_from_slice(&[254, 253]);
    assert_eq!((chunk.as_words().len() as u64, chunk.as_bytes().len() as u64), (words, 8 * words));
    assert_eq!((chunk.load(words - 1), chunk.as_words()[1]), (Some(42), few[0]));
    chunk.read_bytes(0, &mut bytes[..2]).unwrap();
    assert_eq!(bytes[..2], [254, 253]);
    // Several threads may read one at once.
    std::thread::scope(|scope| (0..2).for_each(|_| drop(scope.spawn(|| assert_eq!(chunk.load(words - 1), Some(42))))));
    drop(chunk);
    // The words are whatever lay there, unless they are asked for as 0.
    assert_eq!(area.alloc(40).unwrap().load(1), Some(few[0]));
    let cleared = area.alloc_zeroed(40).unwrap();
    assert!((0..cleared.words()).all(|at| cleared.load(at) == Some(0)));
    let text = area.alloc_bytes(b"nine bytes").unwrap();
    let mut back = [0; 10];
    text.read_bytes(0, &mut back).unwrap();
    assert_eq!(&back, b"nine bytes");
}

/// Of each object: a handle that is dropped makes room for another, and no more are out than it was made for.
#[test]
fn handles_are_made_on_demand() {
    let area = Area::open(16, 2).unwrap();
    let table = Table::<u64, u64>::open(10, 2).unwrap();
    let mut barrier = Barrier::open(2).unwrap();
    for _ in 0..100 {
        let mut second = (area.handle().unwrap(), table.handle().unwrap(), barrier.handle().unwrap());
        assert!(area.handle().is_none() && table.handle().is_none() && barrier.handle().is_none());
        assert_eq!(second.2.arrive(), Ok(None));
        let phase = barrier.wait().unwrap().phase;
        assert_eq!(second.2.look().unwrap().unwrap().phase, phase);
    }
    // The handles that are gone take no part.
    assert!(barrier.wait().is_ok());
}

/// Chunks that are dropped go back, so a few pages serve many: 16 for each of the 36 size classes, and those of the chunk.
#[test]
fn chunks_go_back() {
    let mut handles = Area::new(36 * 16 + 64, 2).unwrap();
    let (mut one, mut two) = (handles.pop().unwrap(), handles.pop().unwrap());
    for n in 0..10_000u64 {
        let mut chunk = one.alloc(1 + n % 20_000).unwrap();
        assert!(chunk.store(0, n).is_ok() && chunk.load(0) == Some(n));
        two.free(chunk);
    }
    let mut other = Area::new(64, 1).unwrap().pop().unwrap();
    let chunk = one.alloc(200_000).unwrap();
    assert!(!other.is_home_of(&chunk));
    other.free(chunk);
    assert!(one.alloc(200_000).is_ok());
}

#[test]
fn a_table_that_is_full_says_so_and_stays() {
    assert_eq!(Table::<u64, u64>::with_pages(0, 1).unwrap_err(), TableError::NoSpace);
    let mut table = Table::<u64, u64>::with_pages(64, 1).unwrap().pop().unwrap();
    let refused = (0..100_000).find(|key| table.insert(key, 2 * key).is_err()).unwrap();
    assert_eq!(table.count(), refused);
    assert!((0..refused).all(|key| table.get(&key) == Some(2 * key)));
    assert_eq!(table.get(&refused), None);
    assert_eq!(table.remove(&0), Some(0));
    assert_eq!(table.count(), refused - 1);
    assert_eq!(table.insert(&0, 1), Ok(None));
    assert_eq!(table.entries().unwrap().len() as u64, refused);
    assert!(table_pages(refused, 1, 1) >= 64);
}

/// Keys that differ in their last word alone, of each number of words at which another buffer is taken.
fn keys_of<const N: usize>() {
    let mut table = Table::<[u64; N], u64>::for_keys(100, 1).unwrap().pop().unwrap();
    let key = |n: u64| std::array::from_fn(|at| if at == N - 1 { n } else { 7 });
    assert!((0..100).all(|n| table.insert(&key(n), n) == Ok(None)));
    assert!((0..100).all(|n| table.get(&key(n)) == Some(n)));
    assert_eq!((table.get(&key(100)), table.remove(&key(42)), table.count()), (None, Some(42), 99));
    assert!(table.entries().unwrap().iter().all(|entry| entry.0 == key(entry.1)));
}

#[test]
fn keys_have_up_to_64_words() {
    keys_of::<1>();
    keys_of::<4>();
    keys_of::<5>();
    keys_of::<16>();
    keys_of::<17>();
    keys_of::<64>();
}

/// A value whose conversions panic if they are told to.
#[derive(Clone, Copy, Debug, PartialEq)]
struct Moody(u64);

const PANICS_AT_STORE: u64 = 100;
const PANICS_AT_LOAD: u64 = 200;

impl Words for Moody {
    type Raw = u64;

    fn store(&self) -> u64 {
        assert_ne!(self.0, PANICS_AT_STORE, "store, on purpose");
        self.0
    }

    fn load(raw: &u64) -> Moody {
        assert_ne!(*raw, PANICS_AT_LOAD, "load, on purpose");
        Moody(*raw)
    }
}

/// What a call panicked with.
fn panicked<R>(call: impl FnOnce() -> R) -> String {
    let Err(why) = catch_unwind(AssertUnwindSafe(call)) else { panic!("it did not panic") };
    why.downcast_ref::<String>().cloned().or_else(|| why.downcast_ref::<&str>().map(ToString::to_string)).unwrap()
}

/// Wherever a caller's own code panics, the table goes on, for this handle and for others.
#[test]
fn a_panic_leaves_the_table_usable() {
    let mut table = Table::<u64, Moody>::open(10, 2).unwrap();
    table.insert(&1, Moody(5)).unwrap();
    assert_eq!(panicked(|| table.update(&1, |_| panic!("a step"))), "a step");
    assert_eq!(panicked(|| table.update_with(&1, Moody(0), |_, _| panic!("under the lock"))), "under the lock");
    assert!(panicked(|| table.insert(&1, Moody(PANICS_AT_STORE))).contains("store, on purpose"));
    assert!(panicked(|| table.update(&1, |_| Some(Moody(PANICS_AT_STORE)))).contains("store, on purpose"));
    let stores = |_: Option<&Moody>, _: &Moody| Some(Moody(PANICS_AT_STORE));
    assert!(panicked(|| table.update_with(&1, Moody(0), stores)).contains("store, on purpose"));
    assert_eq!(table.get(&1), Some(Moody(5)));
    table.insert(&2, Moody(PANICS_AT_LOAD)).unwrap();
    assert!(panicked(|| table.get(&2)).contains("load, on purpose"));
    assert!(panicked(|| table.update_with(&2, Moody(0), |old, _| old.copied())).contains("load, on purpose"));
    assert!(panicked(|| table.entries()).contains("load, on purpose"));
    assert!(panicked(|| table.remove(&2)).contains("load, on purpose"));
    let mut other = table.handle().unwrap();
    let (found, count) = std::thread::spawn(move || (other.insert(&1, Moody(6)), other.count())).join().unwrap();
    assert_eq!((found, count, table.get(&1)), (Ok(Some(Moody(5))), 1, Some(Moody(6))));
}

#[test]
fn values_are_of_many_kinds() {
    lembokuj::words! {
        #[derive(Clone, Copy, Debug, PartialEq)]
        struct Mixed { small: u8, flag: bool, letter: char, wide: i128, pair: [f32; 2], name: Bytes<2>, nothing: () }
    }
    let mixed = |small: u8| Mixed {
        small,
        flag: small % 2 == 1,
        letter: char::from(b'a' + small),
        wide: -i128::from(small) << 70,
        pair: [0.5, f32::from(small)],
        name: Bytes::new(&[small; 14]).unwrap(),
        nothing: (),
    };
    assert_eq!(Mixed::WORDS, 1 + 1 + 1 + 2 + 2 + 2);
    let mut table = Table::<(i32, Bytes<3>, char), Mixed>::open(100, 1).unwrap();
    let key = |n: u8| (-i32::from(n), Bytes::new(&[n; 5]).unwrap(), char::from(b'A' + n));
    assert!((0..20).all(|n| table.insert(&key(n), mixed(n)) == Ok(None)));
    assert!((0..20).all(|n| table.get(&key(n)) == Some(mixed(n))));
    let mut set = Table::<u32, ()>::open(10, 1).unwrap();
    assert_eq!((set.insert(&7, ()), set.insert(&7, ())), (Ok(None), Ok(Some(()))));
    assert_eq!((set.contains(&7), set.contains(&8), set.remove(&7), set.count()), (true, false, Some(()), 0));
    assert_eq!(Bytes::<1>::new(b"7 bytes"), None);
    assert_eq!(Bytes::<40>::new(&[1; 300]).unwrap().as_bytes(), [1; 300]);
}

#[test]
fn a_table_has_calls_for_each_want() {
    let mut table = Table::<u64, u64>::open(1000, 1).unwrap();
    assert_eq!((table.replace(&1, 5), table.count()), (None, 0));
    assert_eq!(table.get_or_insert_with(&1, || 5), Ok(5));
    assert_eq!(table.get_or_insert_with(&1, || panic!("it is there")), Ok(5));
    assert_eq!((table.replace(&1, 6), table.try_get(&1), table.try_replace(&1, 7)), (Some(5), Ok(Some(6)), Ok(Some(6))));
    assert_eq!((table.try_replace(&2, 7), table.try_remove(&2), table.try_get(&2)), (Ok(None), Ok(None), Ok(None)));
    assert_eq!(table.try_remove(&1), Ok(Some(7)));
    assert_eq!(table.compare_and_put(&1, Some(&7), Some(&8)), Ok(Err(None)));
    assert_eq!(table.compare_and_put(&1, None, Some(&8)), Ok(Ok(())));
    assert_eq!(table.compare_and_put(&1, None, Some(&9)), Ok(Err(Some(8))));
    assert_eq!(table.compare_and_put(&1, Some(&8), None), Ok(Ok(())));
    assert_eq!((table.count(), table.take_any()), (0, Ok(None)));
    for n in 0..500 {
        assert_eq!(table.update(&n, |old| Some(old.map_or(n, |old| old + 1))), Ok(None));
    }
    assert_eq!(table.update(&3, |_| None), Ok(Some(3)));
    let mut seen = 0;
    table.for_each(|key, value| seen += u64::from(key == value)).unwrap();
    assert_eq!(seen, 499);
    let parts: usize = (0..=Table::<u64, u64>::PARTITIONS).map(|number| table.partition(number).unwrap().len()).sum();
    assert_eq!(parts, 499);
    assert_eq!(table.retain(|key, _| key % 2 == 0), Ok(249));
    assert_eq!((table.count(), table.get(&4), table.get(&5)), (250, Some(4), None));
    let (key, value) = table.take_any().unwrap().unwrap();
    assert_eq!((key, table.get(&key), table.count()), (value, None, 249));
    assert_eq!((table.clear(), table.count()), (Ok(249), 0));
}

/// While one caller is in a step under the lock, another one's try says so.
#[test]
fn a_try_does_not_wait() {
    use std::sync::atomic::{AtomicBool, Ordering::SeqCst};
    static IS_IN: AtomicBool = AtomicBool::new(false);
    static MAY_GO: AtomicBool = AtomicBool::new(false);
    let mut table = Table::<u64, u64>::open(10, 2).unwrap();
    table.insert(&1, 5).unwrap();
    let mut other = table.handle().unwrap();
    let busy = std::thread::spawn(move || {
        other.update_with(&1, 1, |old, more| {
            IS_IN.store(true, SeqCst);
            while !MAY_GO.load(SeqCst) {
                std::thread::yield_now();
            }
            old.map(|old| old + more)
        })
    });
    while !IS_IN.load(SeqCst) {
        std::thread::yield_now();
    }
    assert_eq!((table.try_get(&1), table.try_replace(&1, 0), table.try_remove(&1)), (Err(Busy), Err(Busy), Err(Busy)));
    MAY_GO.store(true, SeqCst);
    assert_eq!((busy.join().unwrap(), table.try_get(&1)), (Ok(Some(5)), Ok(Some(6))));
}

#[test]
fn values_may_be_owned() {
    let mut table = OwnedTable::<u64, String>::open(3, 1).unwrap();
    let text = |n: u64| n.to_string();
    assert_eq!(table.insert(&1, text(1)), Ok(None));
    assert_eq!(table.insert(&1, text(2)), Ok(Some(text(1))));
    assert_eq!((table.insert(&2, text(3)), table.insert(&3, text(4))), (Ok(None), Ok(None)));
    assert_eq!(table.insert(&3, text(5)), Ok(Some(text(4))));
    // Room for a fourth is there as long as no value takes another's place; for a fifth never.
    assert_eq!(table.insert(&4, text(6)), Ok(None));
    assert_eq!(table.insert(&5, text(7)), Err((OwnedError::Full, text(7))));
    assert_eq!(table.with(&1, |value| value.push('!')), Some(()));
    assert_eq!(panicked(|| table.with(&1, |_| panic!("in hand"))), "in hand");
    assert_eq!((table.with(&1, |value| value.clone()), table.with(&9, |_| ())), (Some("2!".into()), None));
    assert_eq!((table.contains(&1), table.remove(&1), table.remove(&1)), (true, Some("2!".into()), None));
    assert_eq!(table.count(), 3);
    let mut left: Vec<_> = std::iter::from_fn(|| table.take_any().unwrap()).collect();
    left.sort();
    assert_eq!(left, [(2, text(3)), (3, text(5)), (4, text(6))]);
}

#[test]
fn an_owned_value_is_taken_out_if_it_is_judged_so() {
    let mut table = OwnedTable::<u64, u64>::open(3, 2).unwrap();
    assert_eq!(table.insert(&1, 10), Ok(None));
    assert_eq!((table.remove_if(&2, |_| true), table.remove_if(&1, |value| *value != 10)), (None, None));
    assert_eq!(panicked(|| table.remove_if(&1, |_| panic!("as judge"))), "as judge");
    // Another caller puts in a value while the first one is judged. Whichever call comes first, the new value stays.
    let mut other = table.handle().unwrap();
    let came = std::sync::Barrier::new(2);
    let (before, judged) = std::thread::scope(|scope| {
        let putter = scope.spawn(|| {
            came.wait();
            other.insert(&1, 11).unwrap()
        });
        let judged = table.remove_if(&1, |value| {
            came.wait();
            std::thread::sleep(std::time::Duration::from_millis(300));
            *value == 10
        });
        (putter.join().unwrap(), judged)
    });
    assert_eq!(before.or(judged), Some(10));
    assert!(before.is_none() || judged.is_none());
    assert_eq!((table.remove_if(&1, |value| *value == 10), table.remove_if(&1, |value| *value == 11)), (None, Some(11)));
    // Its slot is free again.
    for key in 0..5 {
        assert_eq!(table.insert(&key, key), Ok(None));
    }
    assert_eq!((table.insert(&5, 5), table.count()), (Err((OwnedError::Full, 5)), 5));
}

#[test]
fn a_queue_says_what_is_wrong() {
    assert_eq!(queue(1000, 8).unwrap_err(), QueueError::RingSize);
    assert_eq!(queue(1024, (1 << 20) + 1).unwrap_err(), QueueError::MessageSize);
    let (mut tx, mut rx) = queue(8, 64).unwrap();
    assert_eq!(tx.try_send(&[0; 65]), Err(SendError::TooLong));
    assert_eq!(rx.try_receive(), Err(ReceiveError::WouldBlock));
    assert_eq!(tx.try_send(&[1; 64]), Err(SendError::TooLong));
    assert_eq!(tx.try_send_part(&[1; 64]), Err(SendError::Begun));
    assert_eq!(tx.try_send_part(&[2; 64]), Err(SendError::OtherMessage));
    assert_eq!(tx.try_send_slices(&[&[2; 64]]), Err(SendError::OtherMessage));
    assert_eq!(tx.try_send(&[1; 64]), Err(SendError::Begun));
    assert_eq!(rx.try_receive(), Err(ReceiveError::WouldBlock));
    assert_eq!(tx.try_send_slices(&[&[1; 60], &[], &[1; 4]]), Ok(()));
    assert_eq!(rx.receive(), Ok(&[1; 64][..]));
    assert_eq!(tx.send_later(b"last"), Ok(()));
    tx.close();
    assert_eq!(rx.receive(), Ok(&b"last"[..]));
    assert_eq!(rx.message(), b"last");
    assert_eq!(rx.receive(), Err(ReceiveError::Detached));
    let (mut tx, rx) = queue(8, 64).unwrap();
    tx.send(&[0; 40]).unwrap();
    rx.close();
    assert_eq!(tx.try_send(&[0; 40]), Err(SendError::Detached));
    assert_eq!(tx.send(b"to nobody"), Err(SendError::Detached));
    assert_eq!(tx.send_slices(&[b"to nobody ", b"else"]), Err(SendError::Detached));
}

/// A try that answers `WouldBlock` has stored nothing: any other message may come next. And one that answers `Ok` has stored all.
#[test]
fn a_try_sends_all_or_nothing() {
    for ring in [4u64, 8, 16, 64] {
        let (mut tx, mut rx) = queue(ring, 512).unwrap();
        let (mut sent, mut received, mut refused) = (0u64, 0u64, 0);
        for round in 0..20_000u64 {
            let most = (ring - 1) * 8;
            let message = vec![round as u8; (round * 7919 % (most + 1)) as usize];
            let answer = if round % 3 == 0 { tx.try_send_later(&message) } else { tx.try_send(&message) };
            match answer {
                Ok(()) => sent += message.iter().map(|byte| u64::from(*byte)).sum::<u64>() + 1,
                Err(why) => {
                    assert_eq!(why, SendError::WouldBlock);
                    refused += 1;
                }
            }
            if round % 2 == 0 || answer.is_err() {
                while let Ok(bytes) = rx.try_receive() {
                    received += bytes.iter().map(|byte| u64::from(*byte)).sum::<u64>() + 1;
                }
            }
        }
        tx.close();
        while let Ok(bytes) = rx.receive() {
            received += bytes.iter().map(|byte| u64::from(*byte)).sum::<u64>() + 1;
        }
        assert_eq!((sent, refused > 100), (received, true), "ring of {ring}");
    }
}

#[test]
fn a_barrier_says_what_is_wrong() {
    assert_eq!(Barrier::new(0).unwrap_err(), BarrierError::Callers);
    let mut handles = Barrier::new(2).unwrap();
    let (mut one, mut two) = (handles.pop().unwrap(), handles.pop().unwrap());
    assert_eq!(one.attach(), Err(BarrierError::AlreadyIn));
    assert_eq!(one.arrive(), Ok(None));
    assert_eq!(one.arrive(), Err(BarrierError::Twice));
    assert_eq!(two.detach(), Ok(false));
    assert!(one.look().unwrap().unwrap().is_elected);
    assert_eq!(two.wait(), Err(BarrierError::NotIn));
}

#[test]
fn a_table_of_contents_says_what_is_wrong() {
    assert_eq!(TocBuilder::new(0).unwrap_err(), TocError::Size);
    let mut builder = TocBuilder::new(128).unwrap();
    let chunk = builder.allocate(32).unwrap();
    builder.keep(1, chunk).unwrap();
    let chunk = builder.allocate(32).unwrap();
    assert_eq!(builder.keep(1, chunk).unwrap_err(), TocError::KeyThere);
    assert_eq!(builder.allocate(32).unwrap_err(), TocError::Full);
    let mut other = TocBuilder::new(128).unwrap();
    let chunk = other.allocate(8).unwrap();
    assert_eq!(builder.keep(2, chunk).unwrap_err(), TocError::OtherTable);
    let mut toc = builder.freeze().unwrap();
    assert_eq!((toc.words(1), toc.words(2), toc.load(1, 4)), (Some(4), None, None));
    assert!(toc.load(1, 3).is_some());
}

#[test]
fn a_part_owns_what_it_owns() {
    assert_eq!(Part::of_new_region(0).unwrap_err(), RegionError::Words);
    let mut part = Part::of_new_region(10).unwrap();
    let mut middle = part.split(3..6).unwrap();
    assert!(part.split(2..4).is_err() && part.load(4) == Err(PartError::NotHere) && part.store(3, 1).is_err());
    assert!(middle.store(5, 9).is_ok() && middle.load(6).is_err());
    assert!(part.join(Part::of_new_region(10).unwrap()).is_err());
    part.join(middle).unwrap();
    assert_eq!(part.load(5), Ok(9));
    assert!(part.load(10).is_err());
}
