//! Files that are no regions, or whose head or directory is not as it was written: each is refused by name, and whatever else
//! of a file is damaged, a process that attaches to it and takes its handles does not fall.

use lembokuj::processes::{AttachError, Region, TakeError};
use lembokuj::{ReceiveError, SendError};
use std::collections::BTreeMap;
use std::fs::{File, OpenOptions};
use std::os::unix::fs::FileExt;

const FILES: u32 = 12_000;
const WORDS: u64 = 1 << 16;
const QUEUE: u64 = 1;
const TABLE: u64 = 2;
const AREA: u64 = 3;
const BARRIER: u64 = 4;
const LIST: u64 = 5;
/// The head's words that the maker writes, and its state.
const HEAD: std::ops::Range<u64> = 0..8;
const STATE: u64 = 7;
/// Where the region's words begin in the file.
const REGION: u64 = 512;
const ENTRY_WORDS: u64 = 24;

/// Numbers that look like chance and are the same in each run.
struct Numbers(u64);

impl Numbers {
    fn below(&mut self, end: u64) -> u64 {
        self.0 = self.0.wrapping_mul(6_364_136_223_846_793_005).wrapping_add(1_442_695_040_888_963_407);
        (self.0 >> 20) % end
    }

    /// A number as damage may leave it: any, small, or large.
    fn word(&mut self) -> u64 {
        match self.below(4) {
            0 => self.below(64),
            1 => u64::MAX - self.below(64),
            2 => 1 << self.below(64),
            _ => self.below(1 << 44) << self.below(20),
        }
    }
}

/// A region with an object of each kind, closed again, and its file.
fn made(name: &str) -> File {
    let mut builder = Region::create_named(name, WORDS).unwrap();
    builder.queue(QUEUE, 64, 100).unwrap();
    builder.table(TABLE, 40, 2).unwrap();
    builder.area(AREA, 20, 2).unwrap();
    builder.barrier(BARRIER, 3).unwrap();
    builder.words(LIST, &[3, 1, 4]).unwrap();
    let region = builder.open();
    region.table(TABLE).unwrap().insert(7, 70).unwrap();
    drop(region);
    OpenOptions::new().read(true).write(true).open(format!("/dev/shm/{name}")).unwrap()
}

fn word(file: &File, at: u64) -> u64 {
    let mut bytes = [0; 8];
    file.read_exact_at(&mut bytes, 8 * at).unwrap();
    u64::from_le_bytes(bytes)
}

fn set(file: &File, at: u64, value: u64) {
    file.write_all_at(&value.to_le_bytes(), 8 * at).unwrap();
}

/// The words of the directory that say something: the magic number and the count, the keys and places, and the entries.
fn directory_words(file: &File) -> Vec<u64> {
    let count = word(file, REGION + 3);
    assert_eq!(count, 5);
    let mut words = vec![REGION, REGION + 3];
    for at in 0..count {
        words.extend([REGION + 4 + 2 * at, REGION + 5 + 2 * at]);
        let place = REGION + word(file, REGION + 5 + 2 * at);
        words.extend(place..place + ENTRY_WORDS);
    }
    words
}

/// Takes handles, and makes the calls that need no lock: what a lock guards is taken as it is.
fn use_it(region: &Region) {
    let free = |taken: Option<TakeError>| assert!(matches!(taken, None | Some(TakeError::Taken)));
    let mut tx = region.sender(QUEUE);
    if let Ok(tx) = &mut tx {
        let sent = tx.try_send(b"0123456789");
        assert!(matches!(sent, Ok(()) | Err(SendError::WouldBlock | SendError::Detached | SendError::Damaged)), "{sent:?}");
    }
    let mut rx = region.receiver(QUEUE);
    if let Ok(rx) = &mut rx {
        for _ in 0..3 {
            let got = rx.try_receive();
            assert!(matches!(got, Ok(_) | Err(ReceiveError::WouldBlock | ReceiveError::Detached | ReceiveError::Damaged)), "{got:?}");
        }
    }
    free(tx.err());
    free(rx.err());
    free(region.table(TABLE).err());
    free(region.area(AREA).err());
    assert!(region.load(LIST, 0).unwrap().is_some());
    assert_eq!(region.load(LIST, 3), Ok(None));
    assert_eq!(region.load(QUEUE, 0), Err(TakeError::NoKey));
}

#[test]
fn damaged_files_are_refused_by_name_and_hurt_nobody() {
    let name = format!("lk.damage.{}.{:?}", std::process::id(), std::time::UNIX_EPOCH.elapsed().unwrap());
    let file = made(&name);
    let length = file.metadata().unwrap().len();
    // All that was stored to, and as much again.
    let used = 8 * (REGION + 2 * WORDS + 16_384);
    let mut whole = vec![0; used as usize];
    file.read_exact_at(&mut whole, 0).unwrap();
    let directory = directory_words(&file);
    // What the objects' code finds is an answer; only what this test finds is told.
    std::panic::set_hook(Box::new(|found| {
        if found.location().is_some_and(|at| at.file().ends_with("damage.rs")) {
            eprintln!("{found}");
        }
    }));
    let mut chance = Numbers(1);
    let mut answers = BTreeMap::new();
    for number in 0..FILES {
        // What must be refused is; the rest may be.
        let refused = match number % 8 {
            0 => {
                let at = 8 * HEAD.start + chance.below(8 * HEAD.end);
                file.write_all_at(&[whole[at as usize] ^ (1 << chance.below(8))], at).unwrap();
                true
            }
            1 => {
                let at = chance.below(HEAD.end);
                let (old, new) = (word(&file, at), chance.word());
                set(&file, at, new);
                old != new
            }
            2 | 3 => {
                let at = directory[chance.below(directory.len() as u64) as usize];
                let (old, new) = (word(&file, at), chance.word());
                set(&file, at, new);
                old != new
            }
            4 => {
                file.set_len(chance.below(length)).unwrap();
                true
            }
            5 if number % 16 == 5 => {
                file.set_len(length + 1 + chance.below(100_000)).unwrap();
                true
            }
            5 => {
                set(&file, STATE, 0);
                true
            }
            6 => {
                let filled = vec![chance.below(256) as u8; 8 * (1 + chance.below(512) as usize)];
                file.write_all_at(&filled, 8 * chance.below(used / 8 - 512)).unwrap();
                false
            }
            _ => {
                for _ in 0..=chance.below(64) {
                    // Not words of locks: whether their holders live is asked of the processes that they name.
                    set(&file, REGION + chance.below(2 * WORDS), chance.word());
                }
                false
            }
        };
        match Region::attach(&file) {
            Ok(region) => {
                assert!(!refused, "file {number} was attached to");
                *answers.entry("attached to".to_string()).or_insert(0) += 1;
                use_it(&region);
            }
            Err(why) => *answers.entry(why.to_string()).or_insert(0) += 1,
        }
        file.set_len(length).unwrap();
        file.write_all_at(&whole, 0).unwrap();
    }
    let _hook = std::panic::take_hook();
    // As it was, it is attached to.
    let region = Region::attach(&file).unwrap();
    assert_eq!(region.table(TABLE).unwrap().get(7), Ok(Some(70)));
    Region::unlink(&name).unwrap();
    println!("{answers:?}");
    for why in [
        AttachError::NotRegion,
        AttachError::Version,
        AttachError::Layout,
        AttachError::Size,
        AttachError::Damaged,
        AttachError::NotOpen,
        AttachError::OtherSystem,
    ] {
        assert!(answers.contains_key(&why.to_string()), "{why:?} never came");
    }
    assert!(answers["attached to"] > 500);
}

#[test]
fn other_files_are_no_regions() {
    assert_eq!(Region::attach_named("lk.nobody.has.this").err(), Some(AttachError::System));
    assert_eq!(Region::attach_named("../etc/passwd").err(), Some(AttachError::System));
    let empty = File::open("/dev/null").unwrap();
    assert_eq!(Region::attach(&empty).err(), Some(AttachError::NotRegion));
    let source = File::open(concat!(env!("CARGO_MANIFEST_DIR"), "/src/processes/region.rs")).unwrap();
    // It can't be written, so the system refuses to share it.
    assert_eq!(Region::attach(&source).err(), Some(AttachError::System));
    let (reader, _writer) = std::io::pipe().unwrap();
    assert_eq!(Region::attach(&reader).err(), Some(AttachError::NotRegion));
}
