//! Times the reading and the audit of a journal, by the program of crates/bench_parts.

use std::process::Command;

/// How often.
const TIMES: usize = 3;

/// The rows of the program: rounds, microseconds of reading, microseconds of the audit.
fn rows(program: &str) -> Vec<[f64; 3]> {
    let output = Command::new(program).arg("audit").output().expect("the program starts");
    let text = String::from_utf8(output.stdout).expect("it prints text");
    let row = |line: &str| {
        let words: Vec<&str> = line.split(' ').collect();
        assert_eq!(words[3], "legal", "the journal is a legal one");
        [0, 1, 2].map(|place| words[place].parse().expect("it prints numbers"))
    };
    text.lines().map(row).collect()
}

/// Prints the table, where `bench/run` built the program.
pub fn print() {
    let Ok(program) = std::env::var("BENCH_PARTS") else { return };
    let mut least = rows(&program);
    for _ in 1..TIMES {
        for (row, other) in least.iter_mut().zip(rows(&program)) {
            row[1] = row[1].min(other[1]);
            row[2] = row[2].min(other[2]);
        }
    }
    println!("\n| entries of a journal | read, ms | audited, ms | ns an entry |");
    println!("|---|---|---|---|");
    for [rounds, read, audited] in least {
        let entries = 3.0 * rounds + 1.0;
        println!("| {entries:.0} | {:.0} | {:.0} | {:.0} |", read / 1e3, audited / 1e3, (read + audited) * 1e3 / entries);
    }
}
