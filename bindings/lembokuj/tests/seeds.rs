//! Keys with one hash: a table with a seed spreads them, and answers as one without.

use lembokuj::{OwnedTable, Table, WordTable};

/// Two words that FNV-1a takes from its first value back to it, so all keys that are made of them have one hash.
const WORDS: [u64; 2] = [0x776c_716f_756c_6165, 0x656e_7377_6b75_6e69];

const KEYS: u64 = 1000;

/// For keys of one partition, which let all partitions grow, a table needs more than `table_pages` says.
const PAGES: u32 = 2048;

fn key_of(number: u64) -> [u64; 10] {
    std::array::from_fn(|place| WORDS[(number >> place) as usize % 2])
}

/// The values of the keys, in the order in which a table lists them.
fn listed(seed: u64) -> Vec<u64> {
    let mut table = Table::<[u64; 10], u64>::open_pages_with_seed(PAGES, 1, seed).unwrap();
    for number in 0..KEYS {
        assert_eq!(table.insert(&key_of(number), number), Ok(None));
    }
    for number in 0..KEYS {
        assert_eq!(table.get(&key_of(number)), Some(number));
    }
    let entries = table.entries().unwrap();
    assert!(entries.iter().all(|(key, number)| *key == key_of(*number)));
    entries.into_iter().map(|(_, number)| number).collect()
}

#[test]
fn a_seed_parts_keys_of_one_hash() {
    let plain = listed(0);
    for seed in [1, 0x100, 1 << 63, 0x5eed_f00d_5eed_f00d] {
        let mut spread = listed(seed);
        // Chain by chain, of which there is one without a seed.
        assert_ne!(spread, plain);
        spread.sort_unstable();
        assert!(spread.iter().copied().eq(0..KEYS));
    }
}

#[test]
fn other_tables_have_seeds() {
    let mut words = WordTable::open_with_seed(PAGES, 1, 10, 1, 7).unwrap();
    let mut names = OwnedTable::<u64, String>::open_with_seed(10, 1, 7).unwrap();
    for number in 0..10 {
        assert_eq!(words.put(&key_of(number), &[number], &mut [0]), Ok(false));
        assert!(names.insert(&number, number.to_string()).unwrap().is_none());
    }
    let mut found = [0];
    assert!(words.get(&key_of(3), &mut found) && found == [3]);
    assert_eq!(names.remove(&4).as_deref(), Some("4"));
}
