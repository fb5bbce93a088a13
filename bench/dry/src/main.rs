//! The capacity report of `sccache dry CAP..`, over the Rust crate `lru`: it reads lines `get KEY` and `put KEY SIZE` from standard
//! input, and prints a line for each capacity of its words. A key is taken as its token stands there, which tells keys apart as well.
use lru::LruCache;
use std::io::{Read, Write};
use std::str;

enum Use<'a> {
    Get(&'a [u8]),
    Put(&'a [u8], u64),
}

/// Pairs of a key and its number of bytes, of which the sum is at most the capacity.
struct Sizes<'a> {
    pairs: LruCache<&'a [u8], u64>,
    sum: u64,
    capacity: u64,
}

impl<'a> Sizes<'a> {
    fn new(capacity: u64) -> Sizes<'a> {
        Sizes {
            pairs: LruCache::unbounded(),
            sum: 0,
            capacity,
        }
    }

    /// Puts a value of at most the capacity, and answers how many pairs it pushed out.
    fn put(&mut self, key: &'a [u8], bytes: u64) -> u64 {
        if let Some(old) = self.pairs.pop(&key) {
            self.sum -= old;
        }
        let mut evicted = 0;
        while self.sum > self.capacity - bytes {
            let Some((_, old)) = self.pairs.pop_lru() else {
                break;
            };
            self.sum -= old;
            evicted += 1;
        }
        self.pairs.put(key, bytes);
        self.sum += bytes;
        evicted
    }
}

/// The use that a line is; nothing where it is none.
fn use_of(line: &[u8]) -> Option<Use<'_>> {
    let mut words = line.split(|byte| *byte == b' ');
    let first = words.next()?;
    let key = words.next()?;
    let found = match first {
        b"get" => Use::Get(key),
        b"put" => Use::Put(key, str::from_utf8(words.next()?).ok()?.parse().ok()?),
        _ => return None,
    };
    match words.next() {
        None => Some(found),
        Some(_) => None,
    }
}

fn report(uses: &[Use<'_>], capacity: u64) -> String {
    let mut sizes = Sizes::new(capacity);
    let (mut hits, mut misses, mut evicted, mut too_large) = (0, 0, 0, 0);
    for one in uses {
        match one {
            Use::Get(key) => match sizes.pairs.get(key) {
                Some(_) => hits += 1,
                None => misses += 1,
            },
            Use::Put(_, bytes) if *bytes > capacity => too_large += 1,
            Use::Put(key, bytes) => evicted += sizes.put(key, *bytes),
        }
    }
    format!("{capacity} hits {hits} misses {misses} evicted {evicted} too-large {too_large}\n")
}

fn main() {
    let capacities: Vec<u64> = std::env::args()
        .skip(1)
        .map(|word| word.parse().expect("a capacity"))
        .collect();
    let mut text = Vec::new();
    std::io::stdin().read_to_end(&mut text).expect("standard input");
    let lines = text.strip_suffix(b"\n").map(|rest| rest.split(|byte| *byte == b'\n'));
    let uses: Vec<Use> = lines
        .into_iter()
        .flatten()
        .map(|line| use_of(line).expect("a use"))
        .collect();
    let printed: String = capacities.iter().map(|capacity| report(&uses, *capacity)).collect();
    std::io::stdout().write_all(printed.as_bytes()).expect("standard output");
}
