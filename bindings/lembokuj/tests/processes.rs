//! Processes at the objects of one region, each a program of its own that attached by name; and what is left when one of them
//! is killed, at a moment of its full work or while it has a lock. `KILLS=n` kills n processes at each object, else 9.

use lembokuj::processes::{Region, Ticket};
use lembokuj::{AreaError, BarrierError, ReceiveError, SendError, TableError, select, select_timeout};
use std::collections::BTreeMap;
use std::process::{Child, Command, exit};
use std::sync::Arc;
use std::sync::atomic::{AtomicU32, AtomicU64, Ordering::SeqCst};
use std::thread;
use std::time::{Duration, Instant};

const TABLE: u64 = 1;
const QUEUE: u64 = 2;
const AREA: u64 = 3;
const BARRIER: u64 = 4;
/// The queues by which four processes report, and from there on.
const REPORTS: u64 = 10;
const KEYS: u64 = 1000;
const ADDS: u64 = 4000;
const STOP: u64 = u64::MAX;
const CHUNKS: u64 = 500;
const PHASES: u64 = 300;
const LOST: u64 = u64::MAX;
const WORKERS: u64 = 4;
/// How a process ends that was told of another's end.
const PEER_CODE: i32 = 3;
const LOST_CODE: i32 = 4;

fn main() {
    let words: Vec<String> = std::env::args().collect();
    if let [_, role, name, number] = &words[..]
        && role.starts_with("role-")
    {
        return play(role, name, number.parse().unwrap());
    }
    // The names of tests that cargo may pass are not for here: all run.
    together();
    forked_copies_do_nothing();
    let kills: u32 = std::env::var("KILLS").ok().and_then(|text| text.parse().ok()).unwrap_or(9);
    let begun = Instant::now();
    kill_at_table(kills, false);
    kill_at_table(kills, true);
    kill_at_queue(kills);
    kill_at_barrier(kills, false);
    kill_at_barrier(kills, true);
    kill_with_chunks(kills);
    // Two at the table, the two ends of the queue, two at the barrier, and one with chunks.
    println!("processes: {} kills in {:.1} s", 7 * kills, begun.elapsed().as_secs_f32());
}

/// A region under a name that goes when this is dropped.
struct Named {
    name: String,
    region: Region,
}

impl Named {
    fn new() -> Named {
        static COUNT: AtomicU32 = AtomicU32::new(0);
        // A program with the same id may have left its file.
        let name = format!("lk.test.{}.{}.{:x}", std::process::id(), COUNT.fetch_add(1, SeqCst), random(u64::MAX));
        let mut builder = Region::create_named(&name, 1 << 19).unwrap();
        builder.table(TABLE, 400, 6).unwrap();
        builder.queue(QUEUE, 256, 64).unwrap();
        builder.area(AREA, 120, 4).unwrap();
        builder.barrier(BARRIER, WORKERS as u32).unwrap();
        for number in 0..WORKERS {
            builder.queue(REPORTS + number, 1024, 16).unwrap();
        }
        let region = builder.open();
        Named { name, region }
    }

    fn start(&self, role: &str, number: u64) -> Child {
        let me = std::env::current_exe().unwrap();
        Command::new(me).args([role, &self.name, &number.to_string()]).spawn().unwrap()
    }
}

impl Drop for Named {
    fn drop(&mut self) {
        let _gone = Region::unlink(&self.name);
    }
}

fn play(role: &str, name: &str, number: u64) {
    let region = Region::attach_named(name).unwrap();
    match role {
        "role-add" => add(&region, number, false),
        "role-add-on" => add(&region, number, true),
        "role-send" => {
            let mut tx = region.sender(QUEUE).unwrap();
            for n in 0u64.. {
                match tx.send(&n.to_le_bytes()) {
                    Ok(()) if n + 1 == number => return,
                    Ok(()) => {}
                    Err(SendError::PeerDied) => exit(PEER_CODE),
                    Err(why) => panic!("{why}"),
                }
            }
        }
        "role-receive" => {
            let mut rx = region.receiver(QUEUE).unwrap();
            let mut ready = region.sender(REPORTS).unwrap();
            ready.send(b"here").unwrap();
            drop(ready);
            while rx.receive().is_ok() {}
        }
        "role-fetch" => {
            let (mut area, mut rx) = (region.area(AREA).unwrap(), region.receiver(QUEUE).unwrap());
            let mut sum = 0;
            while let Ok(bytes) = rx.receive() {
                let ticket = Ticket::from_bytes(bytes).unwrap();
                let chunk = area.fetch(ticket).unwrap();
                assert!(area.fetch(ticket).is_err());
                sum += chunk.load(0).unwrap();
                area.free(chunk).unwrap();
            }
            assert_eq!(sum, CHUNKS * (CHUNKS - 1) / 2);
        }
        "role-hold" => hold(&region, number),
        "role-wait-on" => {
            let mut barrier = region.barrier(BARRIER).unwrap();
            let mut tx = region.sender(REPORTS + number).unwrap();
            for phase in 1u64.. {
                match barrier.wait() {
                    Err(BarrierError::OwnerDied) => exit(LOST_CODE),
                    arrival => assert_eq!(arrival.unwrap().phase, phase),
                }
                if phase == 1 {
                    tx.send(&[0; 16]).unwrap();
                }
            }
        }
        "role-wait" => {
            let mut barrier = region.barrier(BARRIER).unwrap();
            let mut tx = region.sender(REPORTS + number).unwrap();
            for phase in 1..=PHASES {
                let arrival = match barrier.wait() {
                    Err(BarrierError::OwnerDied) => exit(LOST_CODE),
                    arrival => arrival.unwrap(),
                };
                assert_eq!(arrival.phase, phase);
                let told = [phase.to_le_bytes(), u64::from(arrival.is_elected).to_le_bytes()].concat();
                tx.send(&told).unwrap();
            }
        }
        other => panic!("no role {other}"),
    }
}

/// Adds 1 to keys in turn, and reports each addition after it was made, or the key that is lost: `ADDS` times, or on and on until
/// the number of the key `STOP` is no longer 0, or is lost.
fn add(region: &Region, number: u64, on: bool) {
    let mut tx = region.sender(REPORTS + number).unwrap();
    let mut table = region.table(TABLE).unwrap();
    for n in 0u64.. {
        if !on && n == ADDS || on && n % 64 == 0 && table.get(STOP) != Ok(Some(0)) {
            return;
        }
        let key = n % KEYS;
        let told = match table.add(key, 1) {
            Ok(_) => [key.to_le_bytes(), 0u64.to_le_bytes()],
            Err(TableError::OwnerDied) => [key.to_le_bytes(), LOST.to_le_bytes()],
            Err(why) => panic!("{why}"),
        };
        tx.send(&told.concat()).unwrap();
    }
}

/// Fills the area with chunks, reports how many they are, and then gives one back and asks for as much, on and on.
fn hold(region: &Region, number: u64) {
    const SIZES: [u64; 4] = [24, 600, 5000, 20_000];
    let mut area = region.area(AREA).unwrap();
    let mut tx = region.sender(REPORTS + number).unwrap();
    let mut chunks = Vec::new();
    for size in SIZES.into_iter().cycle() {
        match area.alloc(size) {
            Ok(mut chunk) => {
                chunk.as_words_mut().fill(size);
                chunks.push((size, chunk));
            }
            Err(AreaError::NoSpace) => break,
            Err(why) => panic!("{why}"),
        }
    }
    tx.send(&(chunks.len() as u64).to_le_bytes()).unwrap();
    loop {
        let at = random(chunks.len() as u64) as usize;
        let (size, chunk) = chunks.swap_remove(at);
        assert!(chunk.as_words().iter().all(|word| *word == size));
        area.free(chunk).unwrap();
        let mut chunk = area.alloc(size).unwrap();
        chunk.as_words_mut().fill(size);
        chunks.push((size, chunk));
    }
}

/// What a process reported, and how its queue ended.
struct Report {
    told: Vec<(u64, u64)>,
    end: ReceiveError,
}

/// A thread that collects what a process reports, and how much it was told so far.
struct Collector {
    thread: thread::JoinHandle<Report>,
    came: Arc<AtomicU64>,
}

impl Collector {
    fn join(self) -> Report {
        self.thread.join().unwrap()
    }

    /// Waits for the first report: the process has its handles then.
    fn await_first(&self) {
        while self.came.load(SeqCst) == 0 {
            thread::yield_now();
        }
    }
}

/// Collects the reports of all workers.
fn collect(region: &Region) -> Vec<Collector> {
    let collect = |mut rx: lembokuj::Rx, came: Arc<AtomicU64>| {
        let mut told = Vec::new();
        loop {
            match rx.receive() {
                Ok(bytes) => {
                    came.fetch_add(1, SeqCst);
                    let word = |at: usize| u64::from_le_bytes(std::array::from_fn(|i| bytes[8 * at + i]));
                    told.push((word(0), word(1)));
                }
                Err(end) => return Report { told, end },
            }
        }
    };
    let start = |number| {
        let rx = region.receiver(REPORTS + number).unwrap();
        let came = Arc::new(AtomicU64::new(0));
        let told = Arc::clone(&came);
        Collector {
            thread: thread::spawn(move || collect(rx, told)),
            came,
        }
    };
    (0..WORKERS).map(start).collect()
}

fn joined(children: impl IntoIterator<Item = Child>) {
    for mut child in children {
        assert!(child.wait().unwrap().success());
    }
}

/// All objects, by processes that end as they should.
fn together() {
    let made = Named::new();
    let region = &made.region;
    let reports = collect(region);
    joined((0..WORKERS).map(|number| made.start("role-add", number)).collect::<Vec<_>>());
    for report in reports {
        let report = report.join();
        assert_eq!((report.told.len() as u64, report.end), (ADDS, ReceiveError::Detached));
    }
    let mut table = region.table(TABLE).unwrap();
    let mut entries = table.entries().unwrap();
    entries.sort_unstable();
    assert!(entries.into_iter().eq((0..KEYS).map(|key| (key, WORKERS * ADDS / KEYS))));

    let mut area = region.area(AREA).unwrap();
    let mut tx = region.sender(QUEUE).unwrap();
    let fetching = made.start("role-fetch", 0);
    for n in 0..CHUNKS {
        let mut chunk = loop {
            match area.alloc(8 * (1 + n % 6)) {
                Ok(chunk) => break chunk,
                Err(_) => thread::yield_now(),
            }
        };
        chunk.store(0, n).unwrap();
        tx.send(&chunk.post().to_bytes()).unwrap();
    }
    drop(tx);
    joined([fetching]);

    let made = Named::new();
    let mut rx = made.region.receiver(QUEUE).unwrap();
    let sending = made.start("role-send", 20_000);
    for n in 0..20_000u64 {
        assert_eq!(rx.receive(), Ok(&n.to_le_bytes()[..]));
    }
    assert_eq!(rx.receive(), Err(ReceiveError::Detached));
    joined([sending]);
    let reports = collect(&made.region);
    joined((0..WORKERS).map(|number| made.start("role-wait", number)).collect::<Vec<_>>());
    let mut elected = BTreeMap::new();
    for report in reports {
        let report = report.join();
        assert_eq!(report.told.len() as u64, PHASES);
        for (phase, is_elected) in report.told {
            *elected.entry(phase).or_insert(0) += is_elected;
        }
    }
    assert!(elected.values().all(|count| *count == 1), "each phase elects one");
    println!("processes: a table, a queue, an area and a barrier by processes that attached by name");
}

unsafe extern "C" {
    fn fork() -> i32;
    fn kill(pid: i32, signal: i32) -> i32;
    fn ptrace(request: u32, ...) -> std::ffi::c_long;
    fn waitpid(pid: i32, status: *mut i32, options: i32) -> i32;
    fn _exit(code: i32) -> !;
}

const PTRACE_SINGLESTEP: u32 = 9;
const PTRACE_SEIZE: u32 = 0x4206;
const PTRACE_INTERRUPT: u32 = 0x4207;
const SIGCONT: i32 = 18;
const SIGSTOP: i32 = 19;
const WUNTRACED: i32 = 2;
const __WALL: i32 = 0x4000_0000;

/// A child by fork drops its copies of its parent's handles: the parent's work as before.
fn forked_copies_do_nothing() {
    let made = Named::new();
    let (mut tx, mut rx) = (made.region.sender(QUEUE).unwrap(), made.region.receiver(QUEUE).unwrap());
    let table = made.region.table(TABLE).unwrap();
    // SAFETY: the child only drops what it has, and ends.
    let child = unsafe { fork() };
    if child == 0 {
        drop((tx, rx, table));
        // SAFETY: it ends without what the parent's program does at its end.
        unsafe { _exit(0) }
    }
    // SAFETY: numbers only; as long as it is there, it has not been waited for.
    while unsafe { kill(child, 0) } == 0 && !std::fs::read_to_string(format!("/proc/{child}/stat")).unwrap().contains(") Z ") {
        thread::yield_now();
    }
    tx.send(b"still here").unwrap();
    assert_eq!(rx.receive(), Ok(&b"still here"[..]));
    let others: Vec<_> = std::iter::from_fn(|| made.region.table(TABLE).ok()).collect();
    assert_eq!(others.len(), 5, "one of six handles is the parent's still");
}

/// A number that differs from run to run.
fn random(below: u64) -> u64 {
    use std::hash::{BuildHasher, Hasher};
    std::collections::hash_map::RandomState::new().build_hasher().finish() % below
}

fn nap() {
    thread::sleep(Duration::from_micros(10_000 + random(20_000)));
}

/// Stops a process while it has a lock of the object. False if it has ended before.
fn stop_with_lock(region: &Region, object: u64, child: &Child) -> bool {
    let has_lock = || region.lock_holders(object).unwrap().contains(&child.id());
    let pid = child.id() as i32;
    // SAFETY: numbers only.
    if unsafe { ptrace(PTRACE_SEIZE, pid, 0usize, 0usize) } == 0 { step_to_lock(pid, has_lock) } else { halt_at_lock(pid, has_lock) }
}

/// Waits until a process is stopped. False if it has ended.
fn is_stopped(pid: i32) -> bool {
    let mut status = 0;
    // SAFETY: numbers, and the place of the status.
    assert_eq!(unsafe { waitpid(pid, &raw mut status, __WALL | WUNTRACED) }, pid);
    status & 0xff == 0x7f
}

/// Lets a process that is traced go on instruction by instruction, as a debugger does, until it has a lock, and then some more,
/// within the lock.
fn step_to_lock(pid: i32, has_lock: impl Fn() -> bool) -> bool {
    // SAFETY: numbers only, here and below.
    assert_eq!(unsafe { ptrace(PTRACE_INTERRUPT, pid, 0usize, 0usize) }, 0);
    let mut inside = 0;
    let wanted = 1 + random(40);
    while is_stopped(pid) {
        inside = if has_lock() { inside + 1 } else { 0 };
        if inside == wanted || inside > 0 && random(64) == 0 {
            return true;
        }
        unsafe { ptrace(PTRACE_SINGLESTEP, pid, 0usize, 0usize) };
    }
    false
}

/// Where the system lets nobody trace: stops a process again and again, until it has a lock then.
fn halt_at_lock(pid: i32, has_lock: impl Fn() -> bool) -> bool {
    // SAFETY: numbers only, here and below.
    unsafe { kill(pid, SIGSTOP) };
    while is_stopped(pid) {
        if has_lock() {
            return true;
        }
        unsafe { kill(pid, SIGCONT) };
        thread::sleep(Duration::from_micros(random(3000)));
        unsafe { kill(pid, SIGSTOP) };
    }
    false
}

/// Four processes add, and one is killed. Each key has what they reported, and the victim's last call perhaps; the keys of a
/// partition that is lost answer that, to everybody.
fn kill_at_table(kills: u32, with_lock: bool) {
    let (mut lost, mut silent) = (0, 0);
    for _ in 0..kills {
        let made = Named::new();
        let region = &made.region;
        let reports = collect(region);
        let role = if with_lock { "role-add-on" } else { "role-add" };
        region.table(TABLE).unwrap().insert(STOP, 0).unwrap();
        let mut children: Vec<Child> = (0..WORKERS).map(|number| made.start(role, number)).collect();
        let children_ids: Vec<u32> = children.iter().map(Child::id).collect();
        let victim = random(WORKERS) as usize;
        reports[victim].await_first();
        let held = with_lock && stop_with_lock(region, TABLE, &children[victim]);
        if !with_lock {
            nap();
        }
        children[victim].kill().unwrap();
        children[victim].wait().unwrap();
        // It is there, so this asks nothing of the pages; the partition may be the one that is lost.
        let stopped = region.table(TABLE).unwrap().insert(STOP, 1);
        assert!(matches!(stopped, Ok(Some(0)) | Err(TableError::OwnerDied)), "{stopped:?}");
        for (number, mut child) in children.into_iter().enumerate() {
            assert!(number == victim || child.wait().unwrap().success(), "a process that was not killed failed");
        }
        let reports: Vec<Report> = reports.into_iter().map(Collector::join).collect();
        for (number, report) in reports.iter().enumerate() {
            let has_ended = !with_lock && report.told.len() as u64 == ADDS;
            assert!(if number == victim { has_ended || report.end == ReceiveError::PeerDied } else { report.end == ReceiveError::Detached });
        }
        let refused = sums_are_right(region, &reports);
        // Nobody takes the lock from the dead, until its handle is found lost.
        let has_lock = region.lock_holders(TABLE).unwrap().contains(&children_ids[victim]);
        let reaped = region.reap();
        assert!(!with_lock || held && has_lock, "a process that had a lock was killed");
        assert_eq!(reaped.lost, u64::from(has_lock), "{reaped:?}");
        // The lock is a partition's, or one of the table's pages: then new keys are refused, unless they need none of that size.
        let refused = refused || new_keys_are_refused(region);
        assert!(has_lock || !refused);
        lost += u32::from(has_lock);
        silent += u32::from(has_lock && !refused);
    }
    let which = if with_lock { "that had a lock" } else { "at any moment" };
    println!("table    {kills} processes {which} were killed: {lost} left something locked, of which no call needed {silent}; every key had its sum");
}

/// Whether each key has as much as was reported, or is refused; whether some are.
fn sums_are_right(region: &Region, reports: &[Report]) -> bool {
    let mut sums = vec![0; KEYS as usize];
    for (key, state) in reports.iter().flat_map(|report| &report.told) {
        sums[*key as usize] += u64::from(*state != LOST);
    }
    let mut table = region.table(TABLE).unwrap();
    let (mut refused, mut more) = (false, 0);
    for (key, sum) in (0..).zip(sums) {
        match table.get(key) {
            Ok(found) => {
                let found = found.unwrap_or(0);
                assert!(found == sum || found == sum + 1, "key {key}: {found}, not {sum}");
                more += found - sum;
            }
            Err(TableError::OwnerDied) => {
                refused = true;
                // Only the first answer of a lost partition takes the time of a sleep, 10 ms.
                let began = Instant::now();
                assert!((0..1000).all(|_| table.get(key) == Err(TableError::OwnerDied)));
                assert!(began.elapsed() < Duration::from_secs(5), "{:?}", began.elapsed());
            }
            Err(why) => panic!("{why}"),
        }
    }
    assert!(more <= 1, "one call at most was made and not reported");
    refused
}

fn new_keys_are_refused(region: &Region) -> bool {
    let mut table = region.table(TABLE).unwrap();
    (0..3000).any(|n| match table.insert(KEYS + n, n) {
        Ok(_) => false,
        Err(TableError::OwnerDied) => true,
        Err(why) => panic!("{why}"),
    })
}

/// A sender is killed, and then a receiver: the other side is told, after all whole messages.
fn kill_at_queue(kills: u32) {
    let mut came = 0u64;
    for round in 0..kills {
        let made = Named::new();
        let mut rx = made.region.receiver(QUEUE).unwrap();
        let mut sender = made.start("role-send", 0);
        let came_one = Arc::new(AtomicU64::new(0));
        let seen = Arc::clone(&came_one);
        let killer = thread::spawn(move || {
            while seen.load(SeqCst) == 0 {
                thread::yield_now();
            }
            nap();
            sender.kill().unwrap();
            sender.wait().unwrap();
        });
        let mut next = 0u64;
        let end = loop {
            // A wait for several receivers learns it too.
            if round % 3 == 0 {
                assert_eq!(select(&mut [&mut rx]), 0);
            }
            // So does one that lasts for a short time only, again and again.
            if round % 3 == 1 {
                let began = Instant::now();
                while select_timeout(&mut [&mut rx], Duration::from_millis(2)).is_none() {
                    assert!(began.elapsed() < Duration::from_secs(60), "no short wait learned it");
                }
            }
            match rx.receive() {
                Ok(bytes) => {
                    assert_eq!(bytes, next.to_le_bytes());
                    next += 1;
                    came_one.store(next, SeqCst);
                }
                Err(end) => break end,
            }
        };
        assert_eq!(end, ReceiveError::PeerDied);
        killer.join().unwrap();
        came += next;
        // It stays so.
        assert_eq!(rx.try_receive(), Err(ReceiveError::PeerDied));

        let made = Named::new();
        let mut receiver = made.start("role-receive", 0);
        let mut sender = made.start("role-send", 0);
        // It has its end once it says so.
        made.region.receiver(REPORTS).unwrap().receive().unwrap();
        nap();
        receiver.kill().unwrap();
        receiver.wait().unwrap();
        assert_eq!(sender.wait().unwrap().code(), Some(PEER_CODE), "the sender was told");
    }
    println!("queue    {kills} senders were killed: {came} messages came, in order; {kills} receivers: each sender was told");
}

/// One of four is killed: the others go on, and each phase elects one; or, if it had the barrier's lock, each that still calls is
/// told that.
fn kill_at_barrier(kills: u32, with_lock: bool) {
    let (mut slowest, mut lost) = (Duration::ZERO, 0);
    for _ in 0..kills {
        let made = Named::new();
        let reports = collect(&made.region);
        let role = if with_lock { "role-wait-on" } else { "role-wait" };
        let mut children: Vec<Child> = (0..WORKERS).map(|number| made.start(role, number)).collect();
        reports[0].await_first();
        if with_lock {
            assert!(stop_with_lock(&made.region, BARRIER, &children[0]), "it waits until it is told");
        } else {
            thread::sleep(Duration::from_micros(random(20_000)));
        }
        children[0].kill().unwrap();
        children[0].wait().unwrap();
        let begun = Instant::now();
        let codes: Vec<_> = children.into_iter().skip(1).map(|mut child| child.wait().unwrap().code()).collect();
        slowest = slowest.max(begun.elapsed());
        // All of them, so that no end of their queues is left for `reap`.
        let reports: Vec<Report> = reports.into_iter().map(Collector::join).collect();
        let told: Vec<u64> = reports[1..].iter().map(|report| report.told.len() as u64).collect();
        assert!(codes.iter().all(|code| matches!(code, Some(0 | LOST_CODE))), "{codes:?}");
        if codes.contains(&Some(LOST_CODE)) {
            lost += 1;
            // Whoever had seen the last phase end before that needs the barrier no more; the others were waiting for its end.
            let has_ended = codes.contains(&Some(0));
            assert!(!with_lock || !has_ended, "{codes:?}");
            for (code, count) in codes.iter().zip(&told) {
                assert!(if *code == Some(0) { *count == PHASES } else { !has_ended || *count == PHASES - 1 }, "{codes:?} {count}");
            }
            // Nobody is two phases ahead of another.
            let (least, most) = (told.iter().min().unwrap(), told.iter().max().unwrap());
            assert!(most - least <= 1, "{codes:?} {told:?}");
            // Those that had ended before another one looked are marked already.
            let reaped = made.region.reap();
            assert!(reaped.lost <= WORKERS && reaped.detached == 0, "a barrier that is lost is lost to all: {reaped:?}");
            assert_eq!(made.region.reap().lost, 0);
        } else {
            assert!(!with_lock && told.iter().all(|count| *count == PHASES), "{told:?}");
        }
    }
    let which = if with_lock { "that had the lock" } else { "of four at any moment" };
    println!("barrier  {kills} processes {which} were killed: {lost} lost it to all, else the others went on, within {} ms", slowest.as_millis());
}

/// A process that has the whole area in chunks is killed, and then three others after it: all but the chunk that each was
/// asking for or giving back go back to the area, so that the next one gets as much. If one had a lock, that region is over.
fn kill_with_chunks(kills: u32) {
    let (mut swept, mut stay, mut locked, mut done) = (0, 0, 0, 0);
    while done < kills {
        let made = Named::new();
        let (mut first, mut lost) = (0, 0);
        for number in 0..WORKERS.min(u64::from(kills - done)) {
            let mut rx = made.region.receiver(REPORTS + number).unwrap();
            let mut child = made.start("role-hold", number);
            let filled = u64::from_le_bytes(rx.receive().unwrap().try_into().unwrap());
            first = first.max(filled);
            // A chunk that stays may take the room of five pages of small ones.
            assert!(filled + 300 * lost >= first, "{filled} chunks, and {first} at first");
            nap();
            child.kill().unwrap();
            child.wait().unwrap();
            done += 1;
            let reaped = made.region.reap();
            swept += reaped.chunks;
            if reaped.lost > 0 {
                locked += 1;
                break;
            }
            let stays = filled - reaped.chunks;
            assert!(stays <= 1, "{stays} of {filled} chunks stay");
            lost += stays;
            assert_eq!(made.region.reap().chunks, 0, "each goes back once");
        }
        stay += lost;
    }
    println!("area     {kills} processes with chunks were killed: {swept} went back, {stay} stay, {locked} processes had a lock");
}
