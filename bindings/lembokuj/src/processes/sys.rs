//! What is asked of the system: files to map, and which process this is and whether another one has ended.

use std::ffi::{CStr, c_char, c_int, c_long, c_short, c_uint, c_ulong};
use std::fs::{File, OpenOptions};
use std::hash::Hasher;
use std::io;
use std::os::fd::{AsRawFd, FromRawFd, OwnedFd};
use std::os::unix::fs::OpenOptionsExt;
use std::path::PathBuf;

unsafe extern "C" {
    fn memfd_create(name: *const c_char, flags: c_uint) -> c_int;
    fn fcntl(fd: c_int, command: c_int, ...) -> c_int;
    fn syscall(number: c_long, ...) -> c_long;
    fn poll(fds: *mut PollFd, count: c_ulong, timeout: c_int) -> c_int;
}

#[repr(C)]
struct PollFd {
    fd: c_int,
    events: c_short,
    revents: c_short,
}

const MFD_ALLOW_SEALING: c_uint = 2;
const F_ADD_SEALS: c_int = 1033;
/// Nobody makes the file shorter or longer, nor takes these seals off.
const SEALS: c_int = 1 | 2 | 4;
const POLLIN: c_short = 1;
const SYS_PIDFD_OPEN: c_long = 434;
const ESRCH: i32 = 3;

/// A file of zeros without a name, which a program that this process starts inherits. Its size never changes.
pub fn nameless_file(name: &CStr, bytes: u64) -> io::Result<File> {
    // SAFETY: the name ends with a zero.
    let fd = unsafe { memfd_create(name.as_ptr(), MFD_ALLOW_SEALING) };
    if fd < 0 {
        return Err(io::Error::last_os_error());
    }
    // SAFETY: the descriptor is new, and nobody else has it.
    let file = File::from(unsafe { OwnedFd::from_raw_fd(fd) });
    file.set_len(bytes)?;
    // SAFETY: numbers only.
    if unsafe { fcntl(file.as_raw_fd(), F_ADD_SEALS, SEALS) } != 0 {
        return Err(io::Error::last_os_error());
    }
    Ok(file)
}

/// Where a shared name lies: as `shm_open` has it. None if the name has a slash or is empty.
fn path_of(name: &str) -> Option<PathBuf> {
    let plain = !name.is_empty() && name.len() < 200 && !name.contains(['/', '\0']) && !name.starts_with('.');
    plain.then(|| PathBuf::from("/dev/shm").join(name))
}

/// A new file of zeros under a name that nobody has, for this user's processes.
pub fn new_named_file(name: &str, bytes: u64) -> io::Result<File> {
    let path = path_of(name).ok_or(io::ErrorKind::InvalidInput)?;
    let file = OpenOptions::new().read(true).write(true).create_new(true).mode(0o600).open(path)?;
    file.set_len(bytes)?;
    Ok(file)
}

/// The file under a name.
pub fn named_file(name: &str) -> io::Result<File> {
    let path = path_of(name).ok_or(io::ErrorKind::InvalidInput)?;
    OpenOptions::new().read(true).write(true).open(path)
}

/// Takes the name away; who has the file keeps it.
pub fn remove_name(name: &str) -> io::Result<()> {
    std::fs::remove_file(path_of(name).ok_or(io::ErrorKind::InvalidInput)?)
}

/// A process of this system since it was started, as one number that is never 0: its id in the low bits, and when it began,
/// in the system's ticks, above. No two processes have the same one, since an id is not given again within a tick.
#[derive(Clone, Copy, Debug, PartialEq, Eq)]
pub struct Process(u64);

/// The bits of a process's id: the system gives none above 2^22.
const ID_BITS: u32 = 22;

/// The bits of the whole number. Those above are for marks.
pub const PROCESS_BITS: u32 = 60;

impl Process {
    /// This one.
    pub fn current() -> Process {
        let id = std::process::id();
        let began = stat_of(u64::from(id)).map_or(0, |stat| stat.began);
        Process((began << ID_BITS | u64::from(id)) & ((1 << PROCESS_BITS) - 1))
    }

    /// As the number.
    pub fn number(self) -> u64 {
        self.0
    }

    /// Of such a number.
    pub fn of(number: u64) -> Process {
        Process(number)
    }

    fn id(self) -> u64 {
        self.0 & ((1 << ID_BITS) - 1)
    }

    /// The system's number of it.
    pub fn process_id(self) -> u32 {
        self.id() as u32
    }

    /// Whether it is the one with this id.
    pub fn is(self, id: u32) -> bool {
        self.id() == u64::from(id)
    }

    /// Whether it has ended, as the system says: all of its threads, so that no store of it is still to come. A process
    /// that can't be asked for, by whatever cause, has not.
    pub fn has_ended(self) -> bool {
        // SAFETY: numbers only.
        let fd = unsafe { syscall(SYS_PIDFD_OPEN, self.id() as c_long, 0 as c_long) };
        let unknown = fd < 0 && io::Error::last_os_error().raw_os_error() == Some(ESRCH);
        // SAFETY: the descriptor is new, and nobody else has it.
        let handle = (fd >= 0).then(|| unsafe { OwnedFd::from_raw_fd(fd as c_int) });
        let stat = stat_of(self.id());
        let began = self.0 >> ID_BITS;
        if unknown || began != 0 && stat.as_ref().is_some_and(|stat| stat.began != began) {
            return true;
        }
        match handle {
            Some(handle) => is_readable(&handle),
            // An older system: a remnant of a process, of which no thread is left.
            None => stat.is_some_and(|stat| stat.is_remnant && stat.threads <= 1),
        }
    }
}

/// Whether a descriptor is readable now: one of a process is once all its threads have ended.
fn is_readable(fd: &OwnedFd) -> bool {
    let mut one = PollFd {
        fd: fd.as_raw_fd(),
        events: POLLIN,
        revents: 0,
    };
    // SAFETY: one item, which lives until the call returns.
    unsafe { poll(&raw mut one, 1, 0) == 1 && one.revents & POLLIN != 0 }
}

/// What the system says of a process.
struct Stat {
    began: u64,
    is_remnant: bool,
    threads: u64,
}

/// None if there is no such process, or the system does not say.
fn stat_of(id: u64) -> Option<Stat> {
    let text = std::fs::read_to_string(format!("/proc/{id}/stat")).ok()?;
    // The name, in brackets, may have any sign in it.
    let words: Vec<&str> = text[text.rfind(')')? + 1..].split_ascii_whitespace().collect();
    Some(Stat {
        is_remnant: matches!(*words.first()?, "Z" | "X"),
        threads: words.get(17)?.parse().ok()?,
        began: words.get(19)?.parse().ok()?,
    })
}

/// A number for this start of the system and this space of process ids: processes of another one can't be asked after.
pub fn system_number() -> u64 {
    let boot = std::fs::read_to_string("/proc/sys/kernel/random/boot_id").unwrap_or_default();
    let space = std::fs::read_link("/proc/self/ns/pid").unwrap_or_default();
    let mut sum = Sum::default();
    sum.write(boot.as_bytes());
    sum.write(space.as_os_str().as_encoded_bytes());
    sum.finish()
}

/// The sum of some bytes or words (FNV-1a), the same in every program.
pub struct Sum(u64);

impl Default for Sum {
    fn default() -> Sum {
        Sum(0xcbf2_9ce4_8422_2325)
    }
}

impl Hasher for Sum {
    fn write(&mut self, bytes: &[u8]) {
        for byte in bytes {
            self.0 = (self.0 ^ u64::from(*byte)).wrapping_mul(0x0100_0000_01b3);
        }
    }

    fn write_u64(&mut self, word: u64) {
        self.write(&word.to_le_bytes());
    }

    fn finish(&self) -> u64 {
        self.0
    }
}

#[cfg(test)]
mod tests {
    use super::*;

    #[test]
    fn a_process_lives_until_it_has_ended() {
        assert!(!Process::current().has_ended());
        let mut child = std::process::Command::new("sleep").arg("3600").spawn().unwrap();
        let began = stat_of(u64::from(child.id())).unwrap().began;
        let process = Process(began << ID_BITS | u64::from(child.id()));
        assert!(!process.has_ended());
        child.kill().unwrap();
        while !process.has_ended() {
            std::thread::yield_now();
        }
        // A remnant until it is waited for, and nothing afterwards.
        child.wait().unwrap();
        assert!(process.has_ended());
        // The same id at another time is another process.
        let earlier = Process(Process::current().0 - (1 << ID_BITS));
        assert!(earlier.has_ended());
    }

    #[test]
    fn names_are_plain() {
        for name in ["", "a/b", ".hidden", "a\0b"] {
            assert!(path_of(name).is_none(), "{name:?}");
        }
        assert_eq!(path_of("lk.one"), Some(PathBuf::from("/dev/shm/lk.one")));
    }
}
