//! What a message and a call of a table cost between processes, beside threads of one process and what the system has: a pipe,
//! a Unix socket and a POSIX message queue. Each message has 8 bytes, and is shown at once. Then what a wait for another process
//! uses, and how long its message takes to wake the receiver.
//!
//!     cargo bench -p lembokuj --features processes --bench processes [-- COUNT]        COUNT messages or calls each, else 1,000,000

use lembokuj::processes::Region;
use std::ffi::{CString, c_char, c_int, c_long, c_uint};
use std::io::{Read, Write};
use std::os::unix::net::UnixStream;
use std::process::{Child, Command, Stdio};
use std::thread;
use std::time::{Duration, Instant, SystemTime};

const QUEUE: u64 = 1;
const TABLE: u64 = 2;
const BARRIER: u64 = 3;
const KEYS: u64 = 1000;
const BYTES: usize = 8;

unsafe extern "C" {
    fn mq_open(name: *const c_char, flags: c_int, mode: c_uint, attributes: *const MqAttributes) -> c_int;
    fn mq_send(queue: c_int, bytes: *const u8, len: usize, priority: c_uint) -> c_int;
    fn mq_receive(queue: c_int, bytes: *mut u8, room: usize, priority: *mut c_uint) -> isize;
    fn mq_unlink(name: *const c_char) -> c_int;
}

#[repr(C)]
struct MqAttributes {
    flags: c_long,
    most_messages: c_long,
    message_bytes: c_long,
    rest: [c_long; 5],
}

const O_RDWR_CREAT: c_int = 2 | 0o100;

fn main() {
    let words: Vec<String> = std::env::args().skip(1).filter(|word| word != "--bench").collect();
    if let [role, name, count] = &words[..] {
        return play(role, name, count.parse().unwrap());
    }
    let count: u64 = words.first().and_then(|word| word.parse().ok()).unwrap_or(1_000_000);
    messages(count);
    calls(count);
    waits();
}

fn child(role: &str, name: &str, count: u64) -> Command {
    let mut command = Command::new(std::env::current_exe().unwrap());
    command.args([role, name, &count.to_string()]);
    command
}

fn ended(mut child: Child) {
    assert!(child.wait().unwrap().success());
}

fn told(what: &str, count: u64, begun: Instant) {
    let nanos = begun.elapsed().as_nanos() as f64;
    println!("{what:44} {:>8.0} ns, {:>5.2} million a second", nanos / count as f64, 1e3 * count as f64 / nanos);
}

fn region(name: &str) -> Region {
    let mut builder = Region::create_named(name, 1 << 19).unwrap();
    builder.queue(QUEUE, 1024, 64).unwrap();
    builder.table(TABLE, 400, 8).unwrap();
    builder.barrier(BARRIER, 5).unwrap();
    builder.open()
}

fn play(role: &str, name: &str, count: u64) {
    match role {
        "send" => {
            let mut tx = Region::attach_named(name).unwrap().sender(QUEUE).unwrap();
            (0..count).for_each(|n| tx.send(&n.to_le_bytes()).unwrap());
        }
        "wake" => {
            let mut tx = Region::attach_named(name).unwrap().sender(QUEUE).unwrap();
            for _ in 0..count {
                thread::sleep(Duration::from_millis(5));
                tx.send(&now().to_le_bytes()).unwrap();
            }
        }
        "write" => {
            let mut out = std::io::stdout().into_raw();
            (0..count).for_each(|n| out.write_all(&n.to_le_bytes()).unwrap());
        }
        "mq" => {
            let queue = opened(name);
            for n in 0..count {
                // SAFETY: the bytes are there.
                assert_eq!(unsafe { mq_send(queue, n.to_le_bytes().as_ptr(), BYTES, 0) }, 0);
            }
        }
        "add" => {
            let region = Region::attach_named(name).unwrap();
            let (mut table, mut barrier) = (region.table(TABLE).unwrap(), region.barrier(BARRIER).unwrap());
            barrier.wait().unwrap();
            (0..count).for_each(|n| assert!(table.add(n % KEYS, 1).is_ok()));
            barrier.wait().unwrap();
        }
        other => panic!("no role {other}"),
    }
}

/// Standard output with no buffer of its own.
trait IntoRaw {
    fn into_raw(self) -> std::fs::File;
}

impl IntoRaw for std::io::Stdout {
    fn into_raw(self) -> std::fs::File {
        use std::os::fd::AsFd;
        self.as_fd().try_clone_to_owned().unwrap().into()
    }
}

fn opened(name: &str) -> c_int {
    let attributes = MqAttributes {
        flags: 0,
        most_messages: 10,
        message_bytes: BYTES as c_long,
        rest: [0; 5],
    };
    let name = CString::new(format!("/{name}")).unwrap();
    // SAFETY: the name ends with a zero, and the attributes are there.
    unsafe { mq_open(name.as_ptr(), O_RDWR_CREAT, 0o600, &raw const attributes) }
}

fn read_all(mut from: impl Read, count: u64) {
    let mut bytes = [0; BYTES];
    for n in 0..count {
        from.read_exact(&mut bytes).unwrap();
        assert_eq!(bytes, n.to_le_bytes());
    }
}

fn messages(count: u64) {
    let name = format!("lk.bench.{}", std::process::id());
    let made = region(&name);
    let mut rx = made.receiver(QUEUE).unwrap();
    let begun = Instant::now();
    let sender = child("send", &name, count).spawn().unwrap();
    (0..count).for_each(|n| assert_eq!(rx.receive().unwrap(), n.to_le_bytes()));
    told("a message, between two processes", count, begun);
    ended(sender);
    Region::unlink(&name).unwrap();

    let made = region(&name);
    let (mut tx, mut rx) = (made.sender(QUEUE).unwrap(), made.receiver(QUEUE).unwrap());
    let begun = Instant::now();
    let sender = thread::spawn(move || (0..count).for_each(|n| tx.send(&n.to_le_bytes()).unwrap()));
    (0..count).for_each(|n| assert_eq!(rx.receive().unwrap(), n.to_le_bytes()));
    told("the same between two threads", count, begun);
    sender.join().unwrap();
    Region::unlink(&name).unwrap();

    let begun = Instant::now();
    let mut sender = child("write", &name, count).stdout(Stdio::piped()).spawn().unwrap();
    read_all(sender.stdout.take().unwrap(), count);
    told("a pipe, a write and a read each", count, begun);
    ended(sender);

    let (ours, theirs) = UnixStream::pair().unwrap();
    let begun = Instant::now();
    let sender = child("write", &name, count).stdout(std::os::fd::OwnedFd::from(theirs)).spawn().unwrap();
    read_all(ours, count);
    told("a Unix socket, a write and a read each", count, begun);
    ended(sender);

    let queue = opened(&name);
    if queue < 0 {
        println!("POSIX message queues: the system has none");
        return;
    }
    let begun = Instant::now();
    let sender = child("mq", &name, count).spawn().unwrap();
    let mut bytes = [0; BYTES];
    for n in 0..count {
        // SAFETY: there is room for a message.
        assert_eq!(unsafe { mq_receive(queue, bytes.as_mut_ptr(), BYTES, std::ptr::null_mut()) }, BYTES as isize);
        assert_eq!(bytes, n.to_le_bytes());
    }
    told("a POSIX message queue of 10", count, begun);
    ended(sender);
    let name = CString::new(format!("/{name}")).unwrap();
    // SAFETY: the name ends with a zero.
    unsafe { mq_unlink(name.as_ptr()) };
}

fn calls(count: u64) {
    let name = format!("lk.bench.{}", std::process::id());
    for callers in [1, 4] {
        let made = region(&name);
        let mut barrier = made.barrier(BARRIER).unwrap();
        // Places that nobody has are waited for: those that are not needed leave.
        drop((callers..4).map(|_| made.barrier(BARRIER).unwrap()).collect::<Vec<_>>());
        let adders: Vec<Child> = (0..callers).map(|_| child("add", &name, count).spawn().unwrap()).collect();
        barrier.wait().unwrap();
        let begun = Instant::now();
        barrier.wait().unwrap();
        told(&format!("an addition in a table, {callers} processes"), callers * count, begun);
        adders.into_iter().for_each(ended);
        Region::unlink(&name).unwrap();

        let made = region(&name);
        let begun = Instant::now();
        thread::scope(|scope| {
            for _ in 0..callers {
                let mut table = made.table(TABLE).unwrap();
                scope.spawn(move || (0..count).for_each(|n| assert!(table.add(n % KEYS, 1).is_ok())));
            }
        });
        told(&format!("the same, {callers} threads"), callers * count, begun);
        Region::unlink(&name).unwrap();
    }
}

/// The system's clock, which processes share, in nanoseconds.
fn now() -> u64 {
    SystemTime::now().duration_since(SystemTime::UNIX_EPOCH).unwrap().as_nanos() as u64
}

/// The processor time of this thread so far, in milliseconds, as the system counts it.
fn used() -> f64 {
    let stat = std::fs::read_to_string("/proc/thread-self/schedstat").unwrap_or_default();
    stat.split_whitespace().next().and_then(|time| time.parse::<f64>().ok()).unwrap_or(f64::NAN) / 1e6
}

fn waits() {
    let name = format!("lk.bench.{}", std::process::id());
    let made = region(&name);
    let mut rx = made.receiver(QUEUE).unwrap();
    let before = used();
    assert!(rx.receive_timeout(Duration::from_secs(2)).is_err());
    println!("a receiver that waits 2 s for another process uses {:.2} ms", used() - before);
    let sender = child("wake", &name, 200).spawn().unwrap();
    let mut times = Vec::new();
    while let Ok(bytes) = rx.receive() {
        times.push(now().saturating_sub(u64::from_le_bytes(bytes.try_into().unwrap())) as f64 / 1e3);
    }
    ended(sender);
    Region::unlink(&name).unwrap();
    times.sort_by(f64::total_cmp);
    let (middle, most) = (times[times.len() / 2], times[times.len() - 1]);
    println!("a receiver that sleeps has another process's message after {middle:.0} us in the middle, {most:.0} us at most");
}
