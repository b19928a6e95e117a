//! The same runs and ranges as `crates/storage_bench`, in Rust: by a `BTreeMap`, and by sorted vectors.
use std::collections::BTreeMap;
use std::hint::black_box;
use std::time::{Duration, Instant};

const RUN_SECTORS: u64 = 64;
const RUNS: u64 = 96;
const ROOM: usize = 6144;
const HALF: usize = 3072;
const PATCHES: u64 = 4;
const TURNS: u64 = 10;
const READS: u64 = 200;
const SECTORS: u64 = 100_000;

#[derive(Clone, Copy)]
struct Fact {
    key: u128,
    number: u64,
    value: [u64; 2],
}

struct Draws(u64);

impl Draws {
    fn next(&mut self) -> u64 {
        self.0 = self.0.wrapping_mul(6364136223846793005).wrapping_add(1442695040888963407);
        self.0 >> 33
    }

    fn key(&mut self) -> u128 {
        let medium = 1 + self.next() % 8;
        let sector = self.next() % SECTORS;
        (u128::from(medium) << 64) + u128::from(sector)
    }
}

fn made_run(key: u128, first: u64) -> Vec<Fact> {
    (0..RUN_SECTORS).map(|i| Fact { key: key + u128::from(i), number: first + i, value: [1, 2] }).collect()
}

fn is_before(a: &Fact, b: &Fact) -> bool {
    (a.key, a.number) < (b.key, b.number)
}

/// Merges a run from behind into a sorted vector with room.
fn merge_back(facts: &mut Vec<Fact>, run: &[Fact]) {
    let mut i = facts.len();
    let mut j = run.len();
    facts.extend_from_slice(run);
    while j > 0 {
        let last = run[j - 1];
        if i > 0 && is_before(&last, &facts[i - 1]) {
            facts[i + j - 1] = facts[i - 1];
            i -= 1;
        } else {
            facts[i + j - 1] = last;
            j -= 1;
        }
    }
}

/// The last fact of each key.
fn newest_of_each(facts: &[Fact]) -> Vec<Fact> {
    (0..facts.len()).filter(|&i| i + 1 == facts.len() || facts[i].key != facts[i + 1].key).map(|i| facts[i]).collect()
}

/// How many sectors a range finds in a map of all facts.
fn in_map(map: &BTreeMap<u128, (u64, [u64; 2])>, from: u128) -> u64 {
    let found: Vec<_> = map.range(from..=from + u128::from(RUN_SECTORS - 1)).collect();
    black_box(&found);
    found.len() as u64
}

/// How many sectors a range finds in sorted vectors, the newest last: by a search and a walk each.
fn in_vectors(layers: &[Vec<Fact>], from: u128) -> u64 {
    let mut found = [None; RUN_SECTORS as usize];
    for facts in layers {
        let mut i = facts.partition_point(|fact| fact.key < from);
        while i < facts.len() && facts[i].key < from + u128::from(RUN_SECTORS) {
            found[(facts[i].key - from) as usize] = Some(facts[i]);
            i += 1;
        }
    }
    black_box(&found);
    found.iter().flatten().map(|fact| fact.value[0]).sum()
}

fn main() {
    let mut draws = Draws(1);
    let mut map = BTreeMap::new();
    let mut layers = Vec::new();
    let (mut by_map, mut by_merge) = (u128::MAX, u128::MAX);
    for batch in 0..=PATCHES {
        let mut unflushed: Vec<Fact> = Vec::with_capacity(ROOM);
        let mut newest = BTreeMap::new();
        let (mut map_time, mut merge_time, mut timed) = (Duration::ZERO, Duration::ZERO, 0);
        for i in 0..RUNS {
            let run = made_run(draws.key(), 1 + batch * ROOM as u64 + i * RUN_SECTORS);
            let is_timed = HALF <= unflushed.len();
            let start = Instant::now();
            for fact in &run {
                newest.insert(fact.key, (fact.number, fact.value));
            }
            let one = start.elapsed();
            let start = Instant::now();
            merge_back(&mut unflushed, &run);
            let other = start.elapsed();
            if is_timed {
                map_time += one;
                merge_time += other;
                timed += 1;
            }
        }
        by_map = by_map.min(map_time.as_nanos() / timed);
        by_merge = by_merge.min(merge_time.as_nanos() / timed);
        map.append(&mut newest);
        layers.push(if batch < PATCHES { newest_of_each(&unflushed) } else { unflushed });
    }
    let (mut found, mut map_read, mut vector_read) = (0, u128::MAX, u128::MAX);
    for _ in 0..TURNS {
        let starts: Vec<u128> = (0..READS).map(|_| draws.key()).collect();
        let start = Instant::now();
        let more: u64 = starts.iter().map(|&from| in_map(&map, from)).sum();
        map_read = map_read.min(start.elapsed().as_nanos() / u128::from(READS));
        let start = Instant::now();
        let same: u64 = starts.iter().map(|&from| in_vectors(&layers, from)).sum();
        vector_read = vector_read.min(start.elapsed().as_nanos() / u128::from(READS));
        assert_eq!(more, same);
        found += more;
    }
    println!("Rust: {found} sectors found");
    println!("Rust, BTreeMap: 64 insertions into 3072 to 6144, ns: {by_map}");
    println!("Rust, sorted vector: the same as one run, ns: {by_merge}");
    println!("Rust, BTreeMap: a range of 64 in one map of all, ns: {map_read}");
    println!("Rust, sorted vectors: a range of 64 over 6144 and 4 patches, ns: {vector_read}");
}
