//! Times calls of shards that threads share, by the program of crates/bench_parts, beside plain Rust with the same map and a journal of
//! rows as large behind `std::sync::Mutex`, in turns.

use std::collections::HashMap;
use std::hint::black_box;
use std::process::Command;
use std::sync::Mutex;
use std::thread;
use std::time::Instant;

/// How many threads there are, how many keys a map has, and how many lookups a thread makes, as crates/bench_parts has it.
const THREADS: usize = 4;
const KEYS: u32 = 64;
const LOOKUPS: u32 = 100_000;

/// How often the program is run, and how often plain Rust is timed for each of its runs.
const TIMES: usize = 5;
const PLAIN_TIMES: usize = 20;

/// What the program's memory is taken from, so that it is given again for each turn with its pages there, as plain Rust's is.
const KEPT_PAGES: [(&str, &str); 2] = [("MALLOC_MMAP_MAX_", "0"), ("MALLOC_TRIM_THRESHOLD_", "17179869184")];

/// An entry of the journal: 40 bytes, of which the key's stand beside, as in the shards' journals.
#[allow(dead_code)]
enum Row {
    Found { who: u8, at: u64, cell: u64 },
    Loaded { who: u8, width: u8, offset: u16, cell: u64, value: u64 },
}

/// An array with a journal.
struct Shard {
    values: Vec<u64>,
    rows: Vec<Row>,
    bytes: Vec<u8>,
}

impl Shard {
    fn new() -> Shard {
        let room = 2 * THREADS * LOOKUPS as usize;
        Shard { values: vec![0; KEYS as usize], rows: Vec::with_capacity(room), bytes: Vec::with_capacity(4 * room) }
    }

    fn clear(&mut self) {
        self.rows.clear();
        self.bytes.clear();
    }

    fn lookup(&mut self, who: u8, key: &[u8; 4]) -> Option<u64> {
        let cell = Some(u64::from(u32::from_le_bytes(*key))).filter(|cell| *cell < self.values.len() as u64)?;
        self.rows.push(Row::Found { who, at: self.bytes.len() as u64, cell });
        self.bytes.extend_from_slice(key);
        Some(cell)
    }

    fn load(&mut self, who: u8, cell: u64) -> u64 {
        let value = self.values[cell as usize];
        self.rows.push(Row::Loaded { who, width: 8, offset: 0, cell, value });
        value
    }
}

/// A shard behind a lock, on cache lines of its own.
#[repr(align(128))]
struct Shared(Mutex<Shard>);

impl Shared {
    fn lookup(&self, who: u8, key: &[u8; 4]) -> Option<u64> {
        self.0.lock().expect("no thread panics").lookup(who, key)
    }

    fn load(&self, who: u8, cell: u64) -> u64 {
        self.0.lock().expect("no thread panics").load(who, cell)
    }
}

fn key(number: u32) -> [u8; 4] {
    (number.wrapping_mul(40503) & (KEYS - 1)).to_le_bytes()
}

/// A thread's calls on a shard of its own, without a lock.
fn work_alone(shard: &mut Shard) {
    let mut sum = 0u64;
    for number in 0..LOOKUPS {
        let Some(cell) = shard.lookup(0, black_box(&key(number))) else { continue };
        sum = sum.wrapping_add(shard.load(0, cell));
    }
    black_box(sum);
}

/// A thread's calls on a shard behind a lock.
fn work(who: u8, shard: &Shared) {
    let mut sum = 0u64;
    for number in 0..LOOKUPS {
        let Some(cell) = shard.lookup(who, black_box(&key(number))) else { continue };
        sum = sum.wrapping_add(shard.load(who, cell));
    }
    black_box(sum);
}

/// Nanoseconds for each lookup of a thread.
fn timed(work: impl FnOnce()) -> f64 {
    let start = Instant::now();
    work();
    start.elapsed().as_nanos() as f64 / f64::from(LOOKUPS)
}

/// Four threads' calls, on the shards that they are given.
fn work_of_four(shards: [&Shared; THREADS]) {
    thread::scope(|scope| {
        for (who, shard) in shards.into_iter().enumerate() {
            scope.spawn(move || work(who as u8, shard));
        }
    });
}

/// The rows of plain Rust, as the program names them.
fn plain(alone: &mut Shard, shared: &[Shared; THREADS]) -> [(&'static str, f64); 4] {
    let clear = || shared.iter().for_each(|shard| shard.0.lock().expect("no thread panics").clear());
    alone.clear();
    let core = timed(|| work_alone(alone));
    clear();
    let one = timed(|| work(0, &shared[0]));
    clear();
    let apart = timed(|| work_of_four(std::array::from_fn(|number| &shared[number])));
    clear();
    let together = timed(|| work_of_four([&shared[0]; THREADS]));
    [("core", core), ("one", one), ("apart", apart), ("together", together)]
}

/// The rows that the program prints, in nanoseconds.
fn proved(program: &str) -> Vec<(String, f64)> {
    let output = Command::new(program).arg("threads").envs(KEPT_PAGES).output().expect("the program starts");
    let text = String::from_utf8(output.stdout).expect("it prints text");
    let row = |line: &str| {
        let (name, tenths) = line.split_once(' ').expect("a name and a number");
        (name.to_string(), tenths.parse::<f64>().expect("a number") / 10.0)
    };
    text.lines().map(row).collect()
}

/// Notes a time where it is the least of its name.
fn least(times: &mut HashMap<String, f64>, name: &str, time: f64) {
    let best = times.entry(name.to_string()).or_insert(f64::INFINITY);
    *best = best.min(time);
}

/// Prints the table, where `bench/run` built the program.
pub fn print() {
    let Ok(program) = std::env::var("BENCH_PARTS") else { return };
    let (mut ours, mut peers) = (HashMap::new(), HashMap::new());
    let mut alone = Shard::new();
    let shared: [Shared; THREADS] = std::array::from_fn(|_| Shared(Mutex::new(Shard::new())));
    for _ in 0..TIMES {
        proved(&program).iter().for_each(|(name, time)| least(&mut ours, name, *time));
        for _ in 0..PLAIN_TIMES {
            plain(&mut alone, &shared).iter().for_each(|(name, time)| least(&mut peers, name, *time));
        }
    }
    println!("\n| a lookup and a load, array of {KEYS} | proved | plain Rust with Mutex |");
    println!("|---|---|---|");
    let row = |name: &str, of: &dyn Fn(&HashMap<String, f64>) -> f64| println!("| {name} | {:.2} | {:.2} |", of(&ours), of(&peers));
    let threads = THREADS as f64;
    row("ns, a single caller", &|times| times["core"]);
    row("ns, one thread on shared shards", &|times| times["one"]);
    row("ns more for a call, of two", &|times| (times["one"] - times["core"]) / 2.0);
    row("calls of four threads on four shards, beside one thread's", &|times| threads * times["one"] / times["apart"]);
    row("calls of four threads on one shard, beside one thread's", &|times| threads * times["one"] / times["together"]);
}
