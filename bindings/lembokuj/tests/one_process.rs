//! What one process sees of a region: keys, handles, wrong use.

use lembokuj::processes::{AttachError, BuildError, Reaped, Region, TakeError, Ticket};
use lembokuj::{AreaError, BarrierError, ReceiveError, SendError, queue, select, select_timeout};

#[test]
fn what_can_t_be_laid_out_is_refused_by_name() {
    assert_eq!(Region::create(63).err(), Some(BuildError::Words));
    assert_eq!(Region::create(1 << 26).err(), Some(BuildError::Words));
    assert_eq!(Region::create_named("a/b", 64).err(), Some(BuildError::System));
    let mut builder = Region::create(1 << 16).unwrap();
    assert_eq!(builder.queue(1, 63, 8), Err(BuildError::RingSize));
    assert_eq!(builder.queue(1, 64, 1 << 27), Err(BuildError::MessageSize));
    assert_eq!(builder.queue(1, 1 << 17, 8), Err(BuildError::Full));
    assert_eq!(builder.area(1, 0, 1), Err(BuildError::Pages));
    assert_eq!(builder.area(1, 1, 0), Err(BuildError::Callers));
    assert_eq!(builder.area(1, 1, 4097), Err(BuildError::Callers));
    assert_eq!(builder.table(1, 1, 1), Err(BuildError::NoSpace));
    assert_eq!(builder.barrier(1, 64), Err(BuildError::Callers));
    assert_eq!(builder.words(1, &[]), Err(BuildError::Words));
    builder.words(1, &[42]).unwrap();
    for again in [builder.words(1, &[1]), builder.queue(1, 64, 8), builder.area(1, 1, 1), builder.table(1, 20, 1), builder.barrier(1, 2)] {
        assert_eq!(again, Err(BuildError::KeyThere));
    }
    let region = builder.open();
    assert_eq!(region.load(1, 0), Ok(Some(42)));
    assert_eq!(region.load(2, 0), Err(TakeError::NoKey));
}

#[test]
fn nobody_attaches_before_a_region_is_open() {
    let name = format!("lk.half.{}.{:?}", std::process::id(), std::time::UNIX_EPOCH.elapsed().unwrap());
    let mut builder = Region::create_named(&name, 1 << 12).unwrap();
    assert_eq!(Region::create_named(&name, 1 << 12).err(), Some(BuildError::System));
    builder.words(1, &[5]).unwrap();
    assert_eq!(Region::attach_named(&name).err(), Some(AttachError::NotOpen));
    let region = builder.open();
    let other = Region::attach_named(&name).unwrap();
    assert_ne!(region.address(), other.address());
    assert_eq!(other.load(1, 0), Ok(Some(5)));
    Region::unlink(&name).unwrap();
    assert_eq!(Region::attach_named(&name).err(), Some(AttachError::System));
    assert_eq!(other.load(1, 0), Ok(Some(5)));
}

#[test]
fn a_handle_is_taken_once() {
    let mut builder = Region::create(1 << 16).unwrap();
    builder.queue(1, 64, 100).unwrap();
    builder.table(2, 20, 2).unwrap();
    builder.barrier(3, 2).unwrap();
    let region = builder.open();
    let other = Region::attach(&region).unwrap();
    assert_eq!(region.sender(2).err(), Some(TakeError::NoKey));
    assert_eq!(region.table(9).err(), Some(TakeError::NoKey));
    let mut tx = region.sender(1).unwrap();
    assert_eq!(other.sender(1).err(), Some(TakeError::Taken));
    // What was sent before the receiver came is there, and so is the end.
    tx.send(b"one").unwrap();
    tx.send(&[7; 100]).unwrap();
    assert_eq!(tx.send(&[0; 101]), Err(SendError::TooLong));
    drop(tx);
    assert_eq!(other.sender(1).err(), Some(TakeError::Taken));
    let mut rx = other.receiver(1).unwrap();
    assert_eq!(rx.receive(), Ok(&b"one"[..]));
    assert_eq!(rx.try_receive(), Ok(&[7; 100][..]));
    assert_eq!(rx.receive(), Err(ReceiveError::Detached));
    let (one, two) = (region.table(2).unwrap(), other.table(2).unwrap());
    assert_eq!(region.table(2).err(), Some(TakeError::Taken));
    drop(one);
    assert!(other.table(2).is_ok());
    drop(two);
    // A caller of a barrier that leaves does not hinder the other, and its place is not given again.
    let (mut one, two) = (region.barrier(3).unwrap(), other.barrier(3).unwrap());
    assert_eq!(one.arrive(), Ok(None));
    assert_eq!(one.arrive(), Err(BarrierError::Twice));
    assert_eq!(one.look(), Ok(None));
    drop(two);
    assert_eq!(one.look().unwrap().map(|arrival| arrival.phase), Some(1));
    assert_eq!(region.barrier(3).err(), Some(TakeError::Taken));
    assert_eq!(region.reap(), Reaped::default());
}

#[test]
fn tables_and_areas_keep_what_they_are_given() {
    let mut builder = Region::create(1 << 19).unwrap();
    builder.table(1, 400, 2).unwrap();
    builder.area(2, 100, 2).unwrap();
    builder.area(3, 40, 1).unwrap();
    builder.queue(4, 16, 4000).unwrap();
    builder.barrier(5, 2).unwrap();
    let region = builder.open();
    let (mut table, mut other) = (region.table(1).unwrap(), region.table(1).unwrap());
    for key in 0..5000 {
        assert_eq!(table.add(key, key), Ok(None));
        assert_eq!(other.add(key, 1), Ok(Some(key)));
    }
    assert_eq!(table.insert(5, 50), Ok(Some(6)));
    assert_eq!(other.remove(5), Ok(Some(50)));
    assert_eq!(table.get(5), Ok(None));
    assert_eq!(table.count(), Ok(4999));
    let mut entries = other.entries().unwrap();
    entries.sort_unstable();
    assert!(entries.iter().copied().eq((0..5000).filter(|key| *key != 5).map(|key| (key, key + 1))));
    // A chunk by ticket: once, and only of its own area.
    let (mut area, mut stranger) = (region.area(2).unwrap(), region.area(3).unwrap());
    for bytes in [1, 8, 100, 8184, 8185, 40_000] {
        let mut chunk = area.alloc(bytes).unwrap();
        assert!(chunk.words() >= bytes.div_ceil(8));
        assert_eq!(chunk.load(chunk.words()), None);
        assert!(chunk.store(chunk.words(), 0).is_err());
        let last = chunk.words() - 1;
        chunk.store(last, bytes).unwrap();
        let ticket = chunk.post();
        assert_eq!(stranger.fetch(ticket).err(), Some(AreaError::Stranger));
        assert_eq!(area.fetch(Ticket { bytes: 1 << 40, ..ticket }).err(), Some(AreaError::Stranger));
        assert_eq!(area.fetch(Ticket { number: ticket.number + 1, ..ticket }).err(), Some(AreaError::Stranger));
        let chunk = area.fetch(Ticket::from_bytes(&ticket.to_bytes()).unwrap()).unwrap();
        assert_eq!(area.fetch(ticket).err(), Some(AreaError::Stranger));
        assert_eq!(chunk.load(last), Some(bytes));
        area.free(chunk).unwrap();
    }
    assert_eq!(area.alloc(1 << 20).err(), Some(AreaError::NoSpace));
    assert_eq!(area.alloc(u64::MAX).err(), Some(AreaError::NoSpace));
    assert_eq!(area.alloc(0).map(|chunk| chunk.words() >= 1), Ok(true));
    let chunk = stranger.alloc(8).unwrap();
    assert_eq!(area.free(chunk), Err(AreaError::Stranger));
    // A wait has an end.
    let soon = std::time::Duration::from_millis(5);
    let mut barrier = region.barrier(5).unwrap();
    assert_eq!(barrier.wait_timeout(soon), Ok(None));
    assert_eq!(region.barrier(5).unwrap().arrive().map(|arrival| arrival.map(|it| it.phase)), Ok(Some(1)));
    assert_eq!(barrier.look().unwrap().map(|arrival| arrival.phase), Some(1));
    // A message longer than the ring goes by parts.
    let (mut tx, mut rx) = (region.sender(4).unwrap(), region.receiver(4).unwrap());
    assert_eq!(tx.try_send(&[1; 4000]), Err(SendError::TooLong));
    assert_eq!(rx.receive_timeout(soon), Err(ReceiveError::WouldBlock));
    assert_eq!(tx.send_timeout(&[1; 100], soon), Ok(()));
    assert_eq!(tx.send_timeout(&[1; 100], soon), Err(SendError::WouldBlock));
    let mut asked = 0;
    assert_eq!(tx.send_while(&[1; 100], || { asked += 1; asked < 3 }), Err(SendError::WouldBlock));
    assert_eq!((asked, rx.receive_while(|| false)), (3, Ok(&[1; 100][..])));
    assert_eq!(tx.send_timeout(&[9; 4000], soon), Err(SendError::Begun));
    assert_eq!(tx.try_send(&[1]), Err(SendError::OtherMessage));
    let sender = std::thread::spawn(move || tx.send(&[9; 4000]));
    assert_eq!(rx.receive(), Ok(&[9; 4000][..]));
    assert_eq!(sender.join().unwrap(), Ok(()));
}

/// A queue and a barrier of a region have the calls of those between threads, and a wait for several receivers takes both.
#[test]
fn ends_and_callers_are_those_of_threads() {
    let mut builder = Region::create(1 << 16).unwrap();
    builder.queue(1, 16, 200).unwrap();
    builder.barrier(2, 2).unwrap();
    let region = builder.open();
    let (mut tx, mut rx) = (region.sender(1).unwrap(), region.receiver(1).unwrap());
    assert_eq!(tx.send_slices(&[b"one", b"", b" two"]), Ok(()));
    assert_eq!(tx.try_send_slices(&[b"three", &[4; 200]]), Err(SendError::TooLong));
    assert_eq!(tx.try_send_slices(&[b"three", &[4; 90]]), Ok(()));
    assert_eq!(tx.try_send_slices(&[b"no", b"room"]), Err(SendError::WouldBlock));
    assert_eq!(rx.receive(), Ok(&b"one two"[..]));
    let mut three = b"three".to_vec();
    three.extend([4; 90]);
    assert_eq!(rx.receive(), Ok(&three[..]));
    // What is sent later is seen after a flush.
    assert_eq!((tx.send_later(b"a"), tx.try_send_later(b"b")), (Ok(()), Ok(())));
    assert_eq!(rx.try_receive(), Err(ReceiveError::WouldBlock));
    tx.flush();
    assert_eq!((rx.receive().map(<[u8]>::to_vec), rx.message()), (Ok(b"a".to_vec()), &b"a"[..]));
    assert_eq!(rx.receive(), Ok(&b"b"[..]));
    // By parts: the message belongs to the queue until it is through.
    assert_eq!(tx.try_send_part(&[7; 200]), Err(SendError::Begun));
    assert_eq!(tx.try_send(b"other"), Err(SendError::OtherMessage));
    assert_eq!(rx.try_receive(), Err(ReceiveError::WouldBlock));
    while tx.try_send_part(&[7; 200]) == Err(SendError::Begun) {
        assert_eq!(rx.try_receive(), Err(ReceiveError::WouldBlock));
    }
    assert_eq!(rx.receive(), Ok(&[7; 200][..]));
    let (mut near, mut inbox) = queue(64, 8).unwrap();
    near.send(b"near").unwrap();
    assert_eq!(select(&mut [&mut rx, &mut inbox]), 1);
    assert_eq!(inbox.receive(), Ok(&b"near"[..]));
    let later = std::thread::spawn(move || {
        std::thread::sleep(std::time::Duration::from_millis(20));
        tx.send(b"far").unwrap();
        tx
    });
    assert_eq!(select(&mut [&mut rx, &mut inbox]), 0);
    assert_eq!(rx.receive(), Ok(&b"far"[..]));
    assert_eq!(select_timeout(&mut [&mut rx], std::time::Duration::from_millis(5)), None);
    later.join().unwrap().close();
    assert_eq!(select(&mut [&mut rx]), 0);
    assert_eq!(rx.receive(), Err(ReceiveError::Detached));
    rx.close();

    let mut barrier = region.barrier(2).unwrap();
    let mut other = barrier.handle().unwrap();
    assert!(barrier.handle().is_none());
    assert_eq!(other.attach(), Err(BarrierError::AlreadyIn));
    assert_eq!(other.detach(), Ok(false));
    assert_eq!(other.arrive(), Err(BarrierError::NotIn));
    assert_eq!(barrier.wait().map(|arrival| (arrival.phase, arrival.is_elected)), Ok((1, true)));
    assert_eq!(other.attach(), Ok(1));
    assert_eq!(barrier.wait_while(|| false), Ok(None));
    assert_eq!(other.wait().map(|arrival| arrival.phase), Ok(2));
}

#[test]
fn handles_for_the_same_process() {
    let mut builder = Region::create(1 << 18).unwrap();
    builder.area(1, 40, 2).unwrap();
    builder.table(2, 40, 2).unwrap();
    builder.area(3, 20, 1).unwrap();
    let region = builder.open();
    let (mut area, stranger) = (region.area(1).unwrap(), region.area(3).unwrap());
    let mut second = area.handle().unwrap();
    assert!(area.handle().is_none());
    let mut chunk = area.alloc(100).unwrap();
    chunk.as_words_mut().fill(7);
    assert!(second.is_home_of(&chunk) && !stranger.is_home_of(&chunk));
    second.free(chunk).unwrap();
    assert!(second.alloc_zeroed(100).unwrap().as_words().iter().all(|word| *word == 0));
    let mut table = region.table(2).unwrap();
    let mut other = table.handle().unwrap();
    assert!(table.handle().is_none());
    assert_eq!((table.insert(1, 2), other.get(1)), (Ok(None), Ok(Some(2))));
}
