//! A cache of pages of 8,192 bytes under calls of several threads: `cache FORM KIND THREADS CALLS` makes one, lets
//! THREADS threads make CALLS calls each, and prints a line that no schedule changes.
//!
//! FORM is `proved`, the crate page_cache with its contracts erased; `one`, a map with the order of use behind a mutex;
//! or `many`, 128 such maps, each behind its own. KIND is `gets`, in which every page is there and gets are all calls, or
//! `mixed`, in which half of the names have no page at a time and every tenth call puts one. `bench/cache.py` builds and
//! times it.
#[allow(dead_code)]
mod cache;
#[allow(dead_code)]
mod calls;
mod page;

use crate::page::{Page, PAGE_WORDS};
use rattle_std::HostRuntime;
use std::collections::HashMap;
use std::hint::black_box;
use std::sync::Mutex;
use std::thread;

/// The pages that the cache may have, and the pages of 4 KiB of the area in which they lie.
const ENTRIES: u64 = 4096;
const AREA_PAGES: u32 = 16384;
const SPREAD: u64 = 0x9E37_79B9_7F4A_7C15;
const NONE: usize = usize::MAX;

type Name = [u64; 2];

/// A cache, as one thread calls it.
trait Cache {
    fn put(&mut self, name: Name, page: &Page);
    fn get(&mut self, name: Name) -> Option<Page>;
}

struct Proved<'a> {
    rt: HostRuntime,
    cache: &'a cache::Cache,
    seat: cache::Seat,
}

impl Cache for Proved<'_> {
    fn put(&mut self, name: Name, page: &Page) {
        let put = calls::put(&self.rt, self.rt.alloc(), self.cache, &mut self.seat, &name, page);
        assert!(put.is_ok(), "a page was refused");
    }

    fn get(&mut self, name: Name) -> Option<Page> {
        calls::get(&self.rt, self.cache, &mut self.seat, &name)
    }
}

/// A page with its neighbours in the order of use.
struct Node {
    name: Name,
    page: Page,
    newer: usize,
    older: usize,
}

/// A map of pages that drops the one that was used longest ago to make room.
struct Lru {
    places: HashMap<Name, usize>,
    nodes: Vec<Node>,
    most: usize,
    newest: usize,
    oldest: usize,
}

impl Lru {
    fn new(most: usize) -> Lru {
        Lru { places: HashMap::with_capacity(most), nodes: Vec::with_capacity(most), most, newest: NONE, oldest: NONE }
    }

    fn unlink(&mut self, at: usize) {
        let (newer, older) = (self.nodes[at].newer, self.nodes[at].older);
        match newer {
            NONE => self.newest = older,
            one => self.nodes[one].older = older,
        }
        match older {
            NONE => self.oldest = newer,
            one => self.nodes[one].newer = newer,
        }
    }

    fn link_newest(&mut self, at: usize) {
        (self.nodes[at].newer, self.nodes[at].older) = (NONE, self.newest);
        match self.newest {
            NONE => self.oldest = at,
            one => self.nodes[one].newer = at,
        }
        self.newest = at;
    }

    fn use_again(&mut self, at: usize) {
        if self.newest != at {
            self.unlink(at);
            self.link_newest(at);
        }
    }

    fn get(&mut self, name: Name) -> Option<Page> {
        let at = *self.places.get(&name)?;
        self.use_again(at);
        Some(Page { words: self.nodes[at].page.words })
    }

    fn put(&mut self, name: Name, page: &Page) {
        if let Some(&at) = self.places.get(&name) {
            self.nodes[at].page.words = page.words;
            return self.use_again(at);
        }
        let at = if self.nodes.len() < self.most {
            self.nodes.push(Node { name, page: Page { words: page.words }, newer: NONE, older: NONE });
            self.nodes.len() - 1
        } else {
            let at = self.oldest;
            self.unlink(at);
            self.places.remove(&self.nodes[at].name);
            self.nodes[at].name = name;
            self.nodes[at].page.words = page.words;
            at
        };
        self.places.insert(name, at);
        self.link_newest(at);
    }
}

struct Locked<'a>(&'a [Mutex<Lru>]);

impl Locked<'_> {
    fn part(&self, name: Name) -> &Mutex<Lru> {
        &self.0[((name[0] << 32 ^ name[1]).wrapping_mul(SPREAD) >> 57) as usize % self.0.len()]
    }
}

impl Cache for Locked<'_> {
    fn put(&mut self, name: Name, page: &Page) {
        self.part(name).lock().unwrap().put(name, page);
    }

    fn get(&mut self, name: Name) -> Option<Page> {
        self.part(name).lock().unwrap().get(name)
    }
}

/// What a load is: the names of each thread, and which of its calls put a page.
#[derive(Clone, Copy)]
struct Load {
    threads: u64,
    calls: u64,
    names: u64,
    puts: bool,
}

/// A thread puts all of its pages once and then makes its calls. A page that is got has to be the one that was put.
fn work(load: Load, thread: u64, mut cache: impl Cache) -> u64 {
    let page = |number: u64| Page { words: [number; PAGE_WORDS] };
    for number in 0..load.names {
        cache.put([thread, number], &page(number));
    }
    let mut got = 0;
    for call in 0..load.calls {
        let number = (call ^ thread << 32).wrapping_mul(SPREAD) % load.names;
        if load.puts && call % 10 == 0 {
            cache.put([thread, number], &page(number));
        } else if let Some(found) = cache.get([thread, number]) {
            assert!(black_box(&found).words[PAGE_WORDS - 1] == number, "another page was got");
            got += 1;
        }
    }
    got
}

fn main() {
    let words: Vec<String> = std::env::args().skip(1).collect();
    let number = |at: usize| words[at].parse::<u64>().unwrap();
    let (form, kind, threads, calls) = (words[0].as_str(), words[1].as_str(), number(2), number(3));
    let puts = kind == "mixed";
    let names = if puts { 2 * ENTRIES } else { ENTRIES / 2 } / threads;
    let load = Load { threads, calls, names, puts };
    let got: u64 = if form == "proved" {
        let rt = HostRuntime::new();
        let (cache, seats) = cache::open(rt.alloc(), AREA_PAGES, threads as u32, ENTRIES / threads).ok().expect("no memory");
        let cache = &cache;
        thread::scope(|scope| {
            let started: Vec<_> = seats
                .into_iter()
                .enumerate()
                .map(|(at, seat)| scope.spawn(move || work(load, at as u64, Proved { rt, cache, seat })))
                .collect();
            started.into_iter().map(|one| one.join().unwrap()).sum()
        })
    } else {
        let parts = if form == "many" { 128 } else { 1 };
        // Some names fall into one part more often than into another.
        let most = if parts == 1 || puts { ENTRIES } else { 2 * ENTRIES } / parts;
        let maps: Vec<Mutex<Lru>> = (0..parts).map(|_| Mutex::new(Lru::new(most as usize))).collect();
        let maps = &maps[..];
        thread::scope(|scope| {
            let started: Vec<_> = (0..threads).map(|at| scope.spawn(move || work(load, at, Locked(maps)))).collect();
            started.into_iter().map(|one| one.join().unwrap()).sum()
        })
    };
    if !puts {
        assert_eq!(got, threads * calls, "a page was not there");
    }
    println!("{kind}: {} threads, {} calls", load.threads, load.threads * calls);
}
