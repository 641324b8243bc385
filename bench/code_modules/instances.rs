// A program for bench/code_modules.sh, whose collections, sorting and printing are instances at 64 pairs of types.
use std::collections::{BTreeMap, BTreeSet, BinaryHeap, HashMap, VecDeque};
use std::fmt::{Debug, Write};
use std::hash::Hash;

trait Made: Clone + Debug + Ord + Hash {
    fn made(seed: u32) -> Self;
}
macro_rules! numbers { ($($t:ty),*) => { $(impl Made for $t { fn made(seed: u32) -> $t { seed as $t } })* } }
numbers!(u8, i16, u32, i64, u128);
impl Made for bool {
    fn made(seed: u32) -> bool {
        seed & 1 != 0
    }
}
impl Made for char {
    fn made(seed: u32) -> char {
        char::from_u32(seed & 0xffff).unwrap_or('x')
    }
}
impl Made for String {
    fn made(seed: u32) -> String {
        format!("{seed:x}")
    }
}
impl<A: Made> Made for Option<A> {
    fn made(seed: u32) -> Self {
        if seed % 3 == 0 {
            None
        } else {
            Some(A::made(seed / 3))
        }
    }
}
impl<A: Made> Made for Vec<A> {
    fn made(seed: u32) -> Self {
        (0..seed % 5).map(A::made).collect()
    }
}
impl<A: Made, B: Made> Made for (A, B) {
    fn made(seed: u32) -> Self {
        (A::made(seed), B::made(seed >> 3))
    }
}
impl<A: Made> Made for Box<[A]> {
    fn made(seed: u32) -> Self {
        Vec::made(seed).into_boxed_slice()
    }
}

fn tried<K: Made, V: Made>(seed: u32) -> u32 {
    let mut text = String::new();
    let pairs: Vec<(K, V)> = (seed..seed + 100)
        .map(|i| (K::made(i), V::made(i ^ seed)))
        .collect();
    let mut tree: BTreeMap<K, V> = pairs.iter().cloned().collect();
    let mut map: HashMap<K, Vec<V>> = HashMap::new();
    for (k, v) in &pairs {
        map.entry(k.clone()).or_default().push(v.clone());
    }
    tree.retain(|k, _| map.contains_key(k));
    tree.remove(&K::made(seed));
    for (k, v) in tree.range(K::made(3)..) {
        let _ = write!(text, "{k:?} {v:#?}");
    }
    let set: BTreeSet<&V> = pairs.iter().map(|(_, v)| v).collect();
    let mut heap: BinaryHeap<(V, K)> = pairs.iter().map(|(k, v)| (v.clone(), k.clone())).collect();
    let mut queue: VecDeque<(V, K)> = VecDeque::new();
    while let Some(it) = heap.pop() {
        if it.0 > V::made(seed) {
            queue.push_front(it)
        } else {
            queue.push_back(it)
        }
    }
    let mut sorted = pairs.clone();
    sorted.sort();
    sorted.dedup_by(|a, b| a.0 == b.0);
    let mut other = pairs.clone();
    other.sort_unstable_by(|a, b| b.1.cmp(&a.1));
    let place = sorted
        .binary_search_by(|it| it.1.cmp(&V::made(7)))
        .unwrap_or_else(|at| at);
    (text.len()
        + set.len()
        + queue.len()
        + place
        + other.chunks(7).map(|c| c.len()).max().unwrap_or(0)) as u32
}

macro_rules! all { ($($k:ty),*) => { fn all(seed: u32) -> u32 { 0 $(+ with::<$k>(seed))* } } }
macro_rules! values { ($($v:ty),*) => { fn with<K: Made>(seed: u32) -> u32 { 0 $(+ tried::<K, $v>(seed))* } } }
all!(u8, u32, i64, char, String, (String, u32), Option<i16>, Box<[String]>);
values!(
    i16,
    u128,
    String,
    Vec<i64>,
    Vec<char>,
    (u8, i64),
    (char, String),
    Option<(u8, Vec<String>)>
);

#[no_mangle]
pub extern "C" fn run(seed: u32) -> u32 {
    all(seed)
}
