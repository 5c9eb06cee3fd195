//! Times look-ups and updates of keyed shards, by the program of crates/bench_parts, beside std's `HashMap` (and for the order of uses a
//! plain list), in turns.

use std::collections::HashMap;
use std::hint::black_box;
use std::process::Command;
use std::time::Instant;

/// How many look-ups are timed at a time, as crates/bench_parts has it, and how often.
const LOOKUPS: usize = 2_097_152;
const TIMES: usize = 3;

/// What is timed: look-ups of a hash shard that find their key or not, a look-up of an LRU shard that finds its key and so uses it, and an
/// update of a new key in a full LRU shard.
const ROWS: [&str; 4] = ["found", "absent", "use", "update"];

type Key = [u8; 16];

/// The keys of crates/bench_parts.
fn key(number: u64, kind: u64) -> Key {
    let x = number.wrapping_mul(0xbf58_476d_1ce4_e5b9);
    let second = x.wrapping_mul(0x94d0_49bb_1331_11eb) ^ kind;
    let mut key = [0; 16];
    key[..8].copy_from_slice(&(x ^ (x >> 29)).to_le_bytes());
    key[8..].copy_from_slice(&second.to_le_bytes());
    key
}

fn keys(count: u32, kind: u64) -> Vec<Key> {
    (0..count).map(|i| key(u64::from(i.wrapping_mul(40503) & (count - 1)), kind)).collect()
}

fn time_of(times: usize, mut work: impl FnMut()) -> f64 {
    let start = Instant::now();
    work();
    start.elapsed().as_nanos() as f64 / times as f64
}

/// What stands where no node does.
const NOBODY: u32 = u32::MAX;

/// A key with its place in the order of uses.
struct Node {
    key: Key,
    id: u64,
    newer: u32,
    older: u32,
}

/// A map that evicts the key used longest ago: std's `HashMap` and a list by indices.
struct PlainLru {
    nodes: Vec<Node>,
    of_key: HashMap<Key, u32>,
    newest: u32,
    oldest: u32,
    capacity: usize,
}

impl PlainLru {
    fn new(capacity: usize) -> Self {
        PlainLru {
            nodes: Vec::with_capacity(capacity),
            of_key: HashMap::with_capacity(capacity),
            newest: NOBODY,
            oldest: NOBODY,
            capacity,
        }
    }

    fn take_out(&mut self, number: u32) {
        let Node { newer, older, .. } = self.nodes[number as usize];
        match newer {
            NOBODY => self.newest = older,
            _ => self.nodes[newer as usize].older = older,
        }
        match older {
            NOBODY => self.oldest = newer,
            _ => self.nodes[older as usize].newer = newer,
        }
    }

    fn put_first(&mut self, number: u32) {
        let newest = self.newest;
        self.nodes[number as usize].newer = NOBODY;
        self.nodes[number as usize].older = newest;
        match newest {
            NOBODY => self.oldest = number,
            _ => self.nodes[newest as usize].newer = number,
        }
        self.newest = number;
    }

    /// A use of the key, or a new key in the place of the one used longest ago.
    fn update(&mut self, key: &Key, id: u64) -> u64 {
        if let Some(&number) = self.of_key.get(key) {
            self.take_out(number);
            self.put_first(number);
            return self.nodes[number as usize].id;
        }
        let (key, newer, older) = (*key, NOBODY, NOBODY);
        if self.nodes.len() < self.capacity {
            let number = self.nodes.len() as u32;
            self.nodes.push(Node { key, id, newer, older });
            self.of_key.insert(key, number);
            self.put_first(number);
            return 0;
        }
        let number = self.oldest;
        let gone = self.nodes[number as usize].id;
        self.take_out(number);
        self.of_key.remove(&self.nodes[number as usize].key);
        self.nodes[number as usize] = Node { key, id, newer, older };
        self.of_key.insert(key, number);
        self.put_first(number);
        gone
    }
}

/// Nanoseconds of a found look-up, an absent one, one that finds and uses its key, and an update that replaces the oldest key.
fn through_std(count: u32) -> [f64; 4] {
    let (there, absent) = (keys(count, 0), keys(count, 1));
    let mut map: HashMap<Key, u64> = HashMap::with_capacity(count as usize);
    let mut lru = PlainLru::new(count as usize);
    for key in &there {
        map.insert(*key, 1);
        lru.update(key, 1);
    }
    let rounds = LOOKUPS / count as usize;
    let look = |keys: &[Key]| {
        for _ in 0..rounds {
            for key in keys {
                black_box(map.get(black_box(key)));
            }
        }
    };
    let found = time_of(rounds * count as usize, || look(&there));
    let missed = time_of(rounds * count as usize, || look(&absent));
    let mut updates = |keys: &[Key]| {
        time_of(count as usize, || {
            for key in keys {
                black_box(lru.update(black_box(key), 1));
            }
        })
    };
    let used = updates(&there);
    [found, missed, used, updates(&absent)]
}

/// The rows that the program prints, in nanoseconds.
fn through_shards(program: &str) -> HashMap<String, f64> {
    let output = Command::new(program).arg("maps").output().expect("the program starts");
    let text = String::from_utf8(output.stdout).expect("it prints text");
    let mut rows = HashMap::new();
    for line in text.lines() {
        let mut words = line.split(' ');
        let name = words.next().expect("a name").to_string();
        let tenths: f64 = words.next().expect("a number").parse().expect("a number");
        rows.insert(name, tenths / 10.0);
    }
    rows
}

/// Prints the table, where `bench/run` built the program.
pub fn print() {
    let Ok(program) = std::env::var("BENCH_PARTS") else { return };
    let mut shards: HashMap<String, f64> = HashMap::new();
    let mut plain: HashMap<String, f64> = HashMap::new();
    let least = |rows: &mut HashMap<String, f64>, name: String, time: f64| {
        let best = rows.entry(name).or_insert(f64::INFINITY);
        *best = best.min(time);
    };
    for _ in 0..TIMES {
        for (name, time) in through_shards(&program) {
            least(&mut shards, name, time);
        }
        for count in [64, 4096, 131_072] {
            for (name, time) in ROWS.iter().zip(through_std(count)) {
                least(&mut plain, format!("any-{name}-{count}"), time);
            }
        }
    }
    println!("\n| nanoseconds for keys of 16 bytes | proved | std's HashMap | ratio |");
    println!("|---|---|---|---|");
    for kind in ["any", "chosen"] {
        for name in ROWS {
            for count in [64, 4096, 131_072] {
                let row = format!("{kind}-{name}-{count}");
                let Some(time) = shards.get(&row) else { continue };
                match plain.get(&row) {
                    Some(std) => println!("| {name}, {count} keys | {time:.1} | {std:.1} | {:.2} |", time / std),
                    None => println!("| {name}, {count} keys chosen to collide | {time:.1} | | |"),
                }
            }
        }
    }
}
