//! A cache of byte strings that four threads share: the bytes lie in chunks of an area under their keys, and if there is no room
//! for a new one, others go.

use lembokuj::{Area, Bytes, ChunkTable, OwnedError};
use std::error::Error;
use std::thread;

/// A key of up to 30 bytes.
type Key = Bytes<4>;

/// What a value takes in its chunk before its bytes: its length, in a word.
const HEAD: u64 = 8;

/// One thread's handle of the cache.
struct Cache {
    area: Area,
    values: ChunkTable<Key>,
}

impl Cache {
    /// A cache in so many pages, for so many entries and threads.
    fn open(pages: u32, entries: u32, threads: u32) -> Result<Cache, Box<dyn Error>> {
        Ok(Cache {
            area: Area::open(pages, threads)?,
            values: ChunkTable::open(entries, threads)?,
        })
    }

    /// A handle for another thread.
    fn handle(&self) -> Option<Cache> {
        Some(Cache {
            area: self.area.handle()?,
            values: self.values.handle()?,
        })
    }

    /// The value of a key, copied out under its lock.
    fn get(&mut self, key: &Key) -> Option<Vec<u8>> {
        self.values.with(key, |chunk| {
            let mut bytes = vec![0; usize::try_from(chunk.load(0)?).ok()?];
            chunk.read_bytes(HEAD, &mut bytes).ok()?;
            Some(bytes)
        })?
    }

    /// Puts a value under a key. If the pages or the entries are used up, any entry goes, and it is tried again.
    fn put(&mut self, key: &Key, value: &[u8]) -> Result<(), Box<dyn Error>> {
        let mut chunk = loop {
            match self.area.alloc(HEAD + value.len() as u64) {
                Ok(chunk) => break chunk,
                Err(why) => self.evict(why)?,
            }
        };
        chunk.store(0, value.len() as u64)?;
        chunk.write_bytes(HEAD, value)?;
        loop {
            match self.values.insert(key, chunk) {
                // A chunk that was there before goes back to the area here.
                Ok(_before) => return Ok(()),
                Err((why @ (OwnedError::Full | OwnedError::NoSpace(_)), back)) => {
                    chunk = back;
                    self.evict(why)?;
                }
                Err((why, _)) => return Err(why.into()),
            }
        }
    }

    /// Lets an entry go; the cause comes back if there is none.
    fn evict(&mut self, why: impl Error + 'static) -> Result<(), Box<dyn Error>> {
        match self.values.take_any()? {
            Some((_key, _chunk)) => Ok(()),
            None => Err(why.into()),
        }
    }
}

/// The value that the program keeps under a number: so many bytes, all alike.
fn value_of(number: u64) -> Vec<u8> {
    vec![number as u8; (number % 3000) as usize]
}

/// What one thread does. How often it found what it looked for.
fn work(mut cache: Cache, id: u64, calls: u64) -> Result<u64, String> {
    let mut hits = 0;
    for n in 0..calls {
        let number = (n * 7919 + id * 104_729) % 2000;
        let key = Key::new(format!("number {number}").as_bytes()).ok_or("a long key")?;
        match cache.get(&key) {
            Some(value) if value == value_of(number) => hits += 1,
            Some(_) => return Err(format!("number {number} has another's value")),
            None => cache.put(&key, &value_of(number)).map_err(|why| why.to_string())?,
        }
    }
    Ok(hits)
}

fn main() -> Result<(), Box<dyn Error>> {
    let calls = std::env::args().nth(1).map_or(Ok(20_000), |word| word.parse())?;
    let mut first = Cache::open(1024, 800, 5)?;
    let handles: Vec<Cache> = (0..4).filter_map(|_| first.handle()).collect();
    let threads: Vec<_> = (0..).zip(handles).map(|(id, cache)| thread::spawn(move || work(cache, id, calls))).collect();
    let mut hits = 0;
    for thread in threads {
        hits += thread.join().map_err(|_| "a thread panicked")??;
    }
    let left = first.values.count();
    assert!(hits > calls / 10 && (1..=805).contains(&left), "{hits} hits, {left} entries");
    println!("cache: {} gets, each right", 4 * calls);
    Ok(())
}
