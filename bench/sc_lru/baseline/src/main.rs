//! The Rust crates `lru`, `hashlink` and `lru-cache`, and a hand-made baseline: boxed nodes in a doubly linked list, found by a
//! `HashMap` whose keys point into them. It prints the lines that the Rattle program prints: what, name, key, pairs, tenths of a
//! nanosecond a call.
use std::collections::hash_map::RandomState;
use std::collections::HashMap;
use std::hash::{BuildHasher, BuildHasherDefault, Hash, Hasher};
use std::ptr;
use std::time::Instant;

/// Folds each word in by one multiplication of 128 bits, as fast hashers for trusted keys do.
#[derive(Default)]
struct FoldHasher(u64);

impl FoldHasher {
    fn fold(&mut self, word: u64) {
        let product = u128::from(self.0 ^ word) * 0x9E37_79B9_7F4A_7C15_F39C_C060_5CED_C835;
        self.0 = (product as u64) ^ ((product >> 64) as u64);
    }
}

impl Hasher for FoldHasher {
    fn write(&mut self, bytes: &[u8]) {
        for chunk in bytes.chunks(8) {
            let mut word = [0u8; 8];
            word[..chunk.len()].copy_from_slice(chunk);
            self.fold(u64::from_le_bytes(word));
        }
    }

    fn write_u8(&mut self, byte: u8) {
        self.fold(u64::from(byte));
    }

    fn write_u64(&mut self, word: u64) {
        self.fold(word);
    }

    fn finish(&self) -> u64 {
        self.0
    }
}

struct Node<K, V> {
    key: K,
    value: V,
    before: *mut Node<K, V>,
    after: *mut Node<K, V>,
}

/// A key inside a node, which stays in its box.
struct KeyRef<K>(*const K);

impl<K: Hash> Hash for KeyRef<K> {
    fn hash<H: Hasher>(&self, state: &mut H) {
        unsafe { (*self.0).hash(state) }
    }
}

impl<K: Eq> PartialEq for KeyRef<K> {
    fn eq(&self, other: &Self) -> bool {
        unsafe { *self.0 == *other.0 }
    }
}

impl<K: Eq> Eq for KeyRef<K> {}

struct Baseline<K, V, S> {
    map: HashMap<KeyRef<K>, Box<Node<K, V>>, S>,
    first: *mut Node<K, V>,
    last: *mut Node<K, V>,
    capacity: usize,
}

impl<K: Eq + Hash, V, S: BuildHasher + Default> Baseline<K, V, S> {
    fn new(capacity: usize) -> Self {
        Baseline {
            map: HashMap::with_hasher(S::default()),
            first: ptr::null_mut(),
            last: ptr::null_mut(),
            capacity,
        }
    }

    fn unlink(&mut self, node: *mut Node<K, V>) {
        unsafe {
            let (before, after) = ((*node).before, (*node).after);
            if before.is_null() {
                self.first = after;
            } else {
                (*before).after = after;
            }
            if after.is_null() {
                self.last = before;
            } else {
                (*after).before = before;
            }
        }
    }

    fn link_last(&mut self, node: *mut Node<K, V>) {
        unsafe {
            (*node).before = self.last;
            (*node).after = ptr::null_mut();
            if self.last.is_null() {
                self.first = node;
            } else {
                (*self.last).after = node;
            }
        }
        self.last = node;
    }

    fn get(&mut self, key: &K) -> Option<&V> {
        let node: *mut Node<K, V> = &mut **self.map.get_mut(&KeyRef(key))?;
        if node != self.last {
            self.unlink(node);
            self.link_last(node);
        }
        unsafe { Some(&(*node).value) }
    }

    /// Puts a key that isn't there, in the box of the pair that it pushes out if there is one.
    fn insert_new(&mut self, key: K, value: V) {
        let mut node = if self.map.len() == self.capacity {
            let first = self.first;
            self.unlink(first);
            let mut node = unsafe { self.map.remove(&KeyRef(&(*first).key)).unwrap() };
            node.key = key;
            node.value = value;
            node
        } else {
            Box::new(Node {
                key,
                value,
                before: ptr::null_mut(),
                after: ptr::null_mut(),
            })
        };
        let at: *mut Node<K, V> = &mut *node;
        self.map.insert(KeyRef(unsafe { &(*at).key }), node);
        self.link_last(at);
    }

    fn insert(&mut self, key: K, value: V) -> Option<V> {
        if let Some(node) = self.map.get_mut(&KeyRef(&key)) {
            let at: *mut Node<K, V> = &mut **node;
            let old = std::mem::replace(unsafe { &mut (*at).value }, value);
            self.unlink(at);
            self.link_last(at);
            return Some(old);
        }
        self.insert_new(key, value);
        None
    }
}

/// What is timed of each cache.
trait Cache<K> {
    fn new(capacity: usize) -> Self;
    fn get(&mut self, key: &K) -> Option<&u64>;
    fn insert(&mut self, key: K, value: u64);
    fn len(&self) -> usize;
}

impl<K: Eq + Hash, S: BuildHasher + Default> Cache<K> for Baseline<K, u64, S> {
    fn new(capacity: usize) -> Self {
        Baseline::new(capacity)
    }

    fn get(&mut self, key: &K) -> Option<&u64> {
        Baseline::get(self, key)
    }

    fn insert(&mut self, key: K, value: u64) {
        Baseline::insert(self, key, value);
    }

    fn len(&self) -> usize {
        self.map.len()
    }
}

impl<K: Eq + Hash> Cache<K> for lru::LruCache<K, u64> {
    fn new(capacity: usize) -> Self {
        lru::LruCache::new(capacity)
    }

    fn get(&mut self, key: &K) -> Option<&u64> {
        lru::LruCache::get(self, key)
    }

    fn insert(&mut self, key: K, value: u64) {
        self.put(key, value);
    }

    fn len(&self) -> usize {
        lru::LruCache::len(self)
    }
}

impl<K: Eq + Hash> Cache<K> for hashlink::LruCache<K, u64> {
    fn new(capacity: usize) -> Self {
        hashlink::LruCache::new(capacity)
    }

    fn get(&mut self, key: &K) -> Option<&u64> {
        hashlink::LruCache::get(self, key)
    }

    fn insert(&mut self, key: K, value: u64) {
        hashlink::LruCache::insert(self, key, value);
    }

    fn len(&self) -> usize {
        hashlink::LruCache::len(self)
    }
}

impl<K: Eq + Hash> Cache<K> for lru_cache::LruCache<K, u64> {
    fn new(capacity: usize) -> Self {
        lru_cache::LruCache::new(capacity)
    }

    fn get(&mut self, key: &K) -> Option<&u64> {
        self.get_mut(key).map(|value| &*value)
    }

    fn insert(&mut self, key: K, value: u64) {
        lru_cache::LruCache::insert(self, key, value);
    }

    fn len(&self) -> usize {
        lru_cache::LruCache::len(self)
    }
}

fn key(i: u64) -> u64 {
    i.wrapping_mul(0x9E37_79B9_7F4A_7C15)
}

fn numbers(from: u64, n: u64) -> Vec<u64> {
    (from..from + n).map(key).collect()
}

fn texts(from: u64, n: u64) -> Vec<String> {
    (from..from + n).map(|i| format!("{:020}{:020}", key(i), i)).collect()
}

fn draw(state: &mut u64, n: u64) -> usize {
    *state = state.wrapping_mul(6364136223846793005).wrapping_add(1442695040888963407);
    ((*state >> 33) % n) as usize
}

fn report(what: &str, name: &str, kind: &str, n: usize, start: Instant, calls: u64) {
    let tenths = start.elapsed().as_nanos() * 10 / u128::from(calls);
    println!("{what} {name} {kind} {n} {tenths}");
}

fn run<K, C: Cache<K>>(name: &str, kind: &str, stored: Vec<K>, looked: Vec<K>, fresh: Vec<K>) {
    let n = looked.len();
    let calls = 2_000_000;
    let mut cache = C::new(n);
    for key in stored {
        cache.insert(key, 1);
    }
    let start = Instant::now();
    let mut state = 1;
    let mut sum = 0;
    for _ in 0..calls {
        if let Some(value) = cache.get(&looked[draw(&mut state, n as u64)]) {
            sum += value;
        }
    }
    report("get-hit", name, kind, n, start, calls);
    assert_eq!(sum, calls);
    let made = fresh.len() as u64;
    let start = Instant::now();
    for key in fresh {
        cache.insert(key, 2);
    }
    report("insert-evict", name, kind, n, start, made);
    assert_eq!(cache.len(), n);
}

fn run_all<K, C: Cache<K>>(name: &str, kind: &str, keys: fn(u64, u64) -> Vec<K>) {
    for n in [1_000, 100_000, 1_000_000] {
        run::<K, C>(name, kind, keys(0, n), keys(0, n), keys(n, 1_000_000));
    }
}

fn run_kinds<C: Cache<u64>, D: Cache<String>>(name: &str) {
    run_all::<u64, C>(name, "u64", numbers);
    run_all::<String, D>(name, "40-byte", texts);
}

fn main() {
    match std::env::args().nth(1).as_deref() {
        Some("lru") => run_kinds::<lru::LruCache<u64, u64>, lru::LruCache<String, u64>>("lru"),
        Some("hashlink") => run_kinds::<hashlink::LruCache<u64, u64>, hashlink::LruCache<String, u64>>("hashlink"),
        Some("lru-cache") => run_kinds::<lru_cache::LruCache<u64, u64>, lru_cache::LruCache<String, u64>>("lru-cache"),
        Some("fold-map") => run_kinds::<Baseline<u64, u64, BuildHasherDefault<FoldHasher>>, Baseline<String, u64, BuildHasherDefault<FoldHasher>>>("fold-map"),
        Some("std-map") => run_kinds::<Baseline<u64, u64, RandomState>, Baseline<String, u64, RandomState>>("std-map"),
        _ => eprintln!("usage: lru-baseline lru|hashlink|lru-cache|fold-map|std-map"),
    }
}
