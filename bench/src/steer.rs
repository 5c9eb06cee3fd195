//! Times the shipped program on one worker and one thread, by the program of crates/bench_parts.

use std::collections::HashMap;
use std::process::Command;

/// How often the program is run.
const TIMES: usize = 5;

/// What a row measures, as crates/bench_parts names it, and how many calls on the maps its frames make.
const ROWS: [(&str, &str, u32); 8] = [
    ("passed-no-flow", "passed, no flow", 4),
    ("passed-no-service", "passed, no service", 7),
    ("dropped-no-life", "dropped, no time to live", 8),
    ("dropped-no-backend", "dropped, no backend is up", 25),
    ("sent-tracked", "sent to the noted backend", 22),
    ("sent-untracked", "sent, without tracking", 22),
    ("sent-new-flow", "sent, a new flow", 26),
    ("sent-dead-backend", "sent, the noted backend is not up", 29),
];

/// The rows that the program prints: nanoseconds of a frame, and of making it.
fn rows(program: &str) -> Vec<(String, [f64; 2])> {
    let output = Command::new(program).arg("steer").output().expect("the program starts");
    let text = String::from_utf8(output.stdout).expect("it prints text");
    let row = |line: &str| {
        let mut words = line.split(' ');
        let name = words.next().expect("a name").to_string();
        let mut tenths = || words.next().expect("a number").parse::<f64>().expect("a number") / 10.0;
        (name, [tenths(), tenths()])
    };
    text.lines().map(row).collect()
}

/// Prints the table, where `bench/run` built the program.
pub fn print() {
    let Ok(program) = std::env::var("BENCH_PARTS") else { return };
    let mut least: HashMap<String, [f64; 2]> = HashMap::new();
    for _ in 0..TIMES {
        for (name, times) in rows(&program) {
            let best = least.entry(name).or_insert([f64::INFINITY; 2]);
            *best = [best[0].min(times[0]), best[1].min(times[1])];
        }
    }
    println!("\n| nanoseconds for a frame, one thread | run | of which the frame is made | calls on the maps |");
    println!("|---|---|---|---|");
    for (name, words, calls) in ROWS {
        if let Some([whole, made]) = least.get(name) {
            println!("| {words} | {whole:.0} | {made:.0} | {calls} |");
        }
    }
}
