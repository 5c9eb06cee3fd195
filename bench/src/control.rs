//! Times commands of the controller, by the program of crates/bench_parts.

use std::process::Command;

/// How often the program is run.
const TIMES: usize = 5;

/// The numbers of each line that the program prints.
fn rows(program: &str) -> Vec<Vec<u64>> {
    let output = Command::new(program).arg("control").output().expect("the program starts");
    let text = String::from_utf8(output.stdout).expect("it prints text");
    text.lines().map(|line| line.split(' ').map(|word| word.parse().expect("a number")).collect()).collect()
}

/// Prints the table, where `bench/run` built the program.
pub fn print() {
    let Ok(program) = std::env::var("BENCH_PARTS") else { return };
    let mut best = rows(&program);
    for _ in 1..TIMES {
        for (least, row) in best.iter_mut().zip(rows(&program)) {
            for (time, other) in least.iter_mut().zip(row) {
                *time = (*time).min(other);
            }
        }
    }
    println!("\n| backends, of a table of 65537 slots | down, ms | up again, ms | slots that change hands | of 65537 / backends |");
    println!("|---|---|---|---|---|");
    for row in best {
        let share = 65537.0 / row[0] as f64;
        println!("| {} | {:.1} | {:.1} | {} | {:.2} |", row[0], row[1] as f64 / 1000.0, row[2] as f64 / 1000.0, row[3], row[3] as f64 / share);
    }
}
