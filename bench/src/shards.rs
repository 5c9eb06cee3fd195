//! Times calls of one shard on one thread, by the program of crates/bench_parts, beside plain Rust with the same maps and a journal of
//! rows as large, in turns.

use std::collections::HashMap;
use std::hint::black_box;
use std::process::Command;
use std::time::Instant;

/// How many look-ups are timed at a time, as crates/bench_parts has it, and how often.
const LOOKUPS: u32 = 16_384;
const TIMES: usize = 5;

/// How often a plain shard is made in a turn, as crates/bench_parts does.
const MADE: usize = 100;

/// An entry of the journal: 40 bytes, of which the key's stand beside, as in the shards' journals.
#[allow(dead_code)]
enum Row {
    Found { who: u8, at: u64, cell: u64 },
    Loaded { who: u8, width: u8, offset: u16, cell: u64, value: u64 },
    Changed { who: u8, width: u8, op: u8, offset: u16, cell: u64, value: u64, old: u64 },
}

/// Where a key's cell is.
enum Keys {
    Array,
    Hash(HashMap<[u8; 4], u64>),
}

struct Plain {
    keys: Keys,
    values: Vec<u64>,
    rows: Vec<Row>,
    bytes: Vec<u8>,
}

impl Plain {
    fn new(is_hash: bool, count: u32) -> Plain {
        let keys = if is_hash {
            Keys::Hash((0..count).map(|key| (key.to_le_bytes(), u64::from(key))).collect())
        } else {
            Keys::Array
        };
        let room = 3 * LOOKUPS as usize + 8192;
        Plain { keys, values: vec![0; count as usize], rows: Vec::with_capacity(room), bytes: Vec::with_capacity(4 * room) }
    }

    fn lookup(&mut self, key: &[u8; 4]) -> Option<u64> {
        let cell = match &self.keys {
            Keys::Array => Some(u64::from(u32::from_le_bytes(*key))).filter(|cell| *cell < self.values.len() as u64),
            Keys::Hash(keys) => keys.get(key).copied(),
        }?;
        self.rows.push(Row::Found { who: 0, at: self.bytes.len() as u64, cell });
        self.bytes.extend_from_slice(key);
        Some(cell)
    }

    fn load(&mut self, cell: u64) -> u64 {
        let value = self.values[cell as usize];
        self.rows.push(Row::Loaded { who: 0, width: 8, offset: 0, cell, value });
        value
    }

    fn add(&mut self, cell: u64) {
        let old = self.values[cell as usize];
        self.values[cell as usize] = old.wrapping_add(1);
        self.rows.push(Row::Changed { who: 0, width: 8, op: 1, offset: 0, cell, value: 1, old });
    }
}

fn plain(is_hash: bool, count: u32, adds: bool) -> f64 {
    let mut shard = Plain::new(is_hash, count);
    let start = Instant::now();
    let mut sum = 0u64;
    for _ in 0..LOOKUPS / count {
        for number in 0..count {
            let key = number.wrapping_mul(40503) & (count - 1);
            let Some(cell) = shard.lookup(black_box(&key.to_le_bytes())) else { continue };
            if adds {
                shard.add(cell);
            }
            sum = sum.wrapping_add(shard.load(cell));
        }
    }
    black_box(sum);
    start.elapsed().as_nanos() as f64 / f64::from(LOOKUPS)
}

/// The rows that the program prints, in nanoseconds.
fn proved(program: &str) -> HashMap<String, f64> {
    let output = Command::new(program).arg("shards").output().expect("the program starts");
    let text = String::from_utf8(output.stdout).expect("it prints text");
    let mut rows = HashMap::new();
    for line in text.lines() {
        let mut words = line.split(' ');
        let name = words.next().expect("a name").to_string();
        let tenths: f64 = words.next().expect("a number").parse().expect("a number");
        rows.insert(name, tenths / 10.0);
    }
    rows
}

/// Prints the table, where `bench/run` built the program.
pub fn print() {
    let Ok(program) = std::env::var("BENCH_PARTS") else { return };
    let mut times: HashMap<String, f64> = HashMap::new();
    let mut least = |name: String, time: f64| {
        let best = times.entry(name).or_insert(f64::INFINITY);
        *best = best.min(time);
    };
    for _ in 0..TIMES {
        for (name, time) in proved(&program) {
            least(name, time);
        }
        for (kind, is_hash) in [("array", false), ("hash", true)] {
            for count in [64, 4096] {
                for (calls, adds) in [("look-load", false), ("look-add-load", true)] {
                    for _ in 0..MADE {
                        least(format!("plain-{kind}-{calls}-{count}"), plain(is_hash, count, adds));
                    }
                }
            }
        }
    }
    println!("\n| nanoseconds on one shard, one thread | proved | plain Rust with a journal | ratio |");
    println!("|---|---|---|---|");
    for kind in ["array", "hash", "lru"] {
        for count in [64, 4096] {
            let of = |of: &str, calls: &str| times.get(&format!("{of}{kind}-{calls}-{count}")).copied();
            let (pair, triple) = (of("", "look-load"), of("", "look-add-load"));
            let (plain_pair, plain_triple) = (of("plain-", "look-load"), of("plain-", "look-add-load"));
            let row = |name: &str, time: Option<f64>, peer: Option<f64>| match (time, peer) {
                (Some(time), Some(peer)) => println!("| {name}, {kind} of {count} | {time:.1} | {peer:.1} | {:.2} |", time / peer),
                (Some(time), None) => println!("| {name}, {kind} of {count} | {time:.1} | | |"),
                _ => {}
            };
            let less = |a: Option<f64>, b: Option<f64>| Some(a? - b?);
            row("a lookup and a load", pair, plain_pair);
            row("an atomic add", less(triple, pair), less(plain_triple, plain_pair));
        }
    }
}
