//! Times a job that goes from one thread to another: through a receive queue, by the program of crates/bench_parts, and through
//! std's bounded channel, in turns.

use std::process::Command;
use std::sync::mpsc::sync_channel;
use std::thread;
use std::time::Instant;

/// How many jobs go through at a time, as crates/bench_parts has it, and how often.
const JOBS: u64 = 2_000_000;
const TIMES: usize = 10;

/// How many jobs a queue holds.
const CAPACITY: usize = 64;

/// Nanoseconds a job, as the program prints them.
fn through_queue(program: &str) -> f64 {
    let output = Command::new(program).arg("queues").output().expect("the program starts");
    let text = String::from_utf8(output.stdout).expect("it prints text");
    text.trim().parse().expect("it prints a number")
}

/// Nanoseconds a job through `std::sync::mpsc::sync_channel`.
fn through_channel() -> f64 {
    let (put, take) = sync_channel::<Option<u64>>(CAPACITY);
    let start = Instant::now();
    let taker = thread::spawn(move || take.iter().take_while(Option::is_some).count());
    for job in 0..JOBS {
        put.send(Some(job)).expect("the taker waits for the end");
    }
    put.send(None).expect("the taker waits for the end");
    assert_eq!(taker.join().expect("it counts"), JOBS as usize);
    start.elapsed().as_nanos() as f64 / JOBS as f64
}

/// Prints the table, where `bench/run` built the program.
pub fn print() {
    let Ok(program) = std::env::var("BENCH_PARTS") else { return };
    let (mut queue, mut channel) = (f64::INFINITY, f64::INFINITY);
    for _ in 0..TIMES {
        queue = queue.min(through_queue(&program));
        channel = channel.min(through_channel());
    }
    println!("\n| nanoseconds for | receive queue | std's sync_channel | ratio |");
    println!("|---|---|---|---|");
    println!("| a put and take between two threads | {queue:.0} | {channel:.0} | {:.2} |", queue / channel);
}
