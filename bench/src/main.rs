//! Prints how fast the verifier and the machine are, beside a plain Rust interpreter that does the same in the same run.

mod assemble;
mod audits;
mod control;
mod decode;
mod flat;
mod library;
mod maps;
mod measure;
mod plain;
mod programs;
mod queues;
mod shards;
mod steer;
mod threads;

use assemble::Program;
use flat::{Flat, flatten};
use library::{Outcome, Plan};
use measure::{PASSES, lesser};
use plain::{Entry, Machine, Values};

/// How many instructions a timing takes, about.
const INSTRUCTIONS: u64 = 1_500_000;

/// How many slots a timing of the verifier takes, at least.
const SLOTS: usize = 4096;

/// How many bytes the frame has that programs run on.
const FRAME_SIZE: usize = 128;

/// How many lookups a run has where they are timed, and the room of its journal: two entries for each, and two for the run.
const LOOKUPS: u32 = 400;
const JOURNAL: u32 = 2 * LOOKUPS + 2;

fn frame() -> Vec<u8> {
    (0..FRAME_SIZE).map(|place| (place * 37 + 11) as u8).collect()
}

fn fnv1a64(bytes: &[u8]) -> u64 {
    bytes
        .iter()
        .fold(0xcbf2_9ce4_8422_2325, |hash, byte| (hash ^ u64::from(*byte)).wrapping_mul(0x100_0000_01b3))
}

/// What the plain interpreter works on.
struct Plain {
    program: Vec<plain::Instruction>,
    flat: Vec<Flat>,
    maps: Vec<Values>,
    journal: Option<Vec<Entry>>,
    frame: Vec<u8>,
}

impl Plain {
    /// A journal is kept where it has room.
    fn of(program: &Program, journal: Option<u32>) -> Plain {
        let maps = program.maps.iter().map(|map| Values {
            value_size: map.value_size as usize,
            bytes: vec![0; (map.value_size * map.max_entries) as usize],
        });
        let decoded = decode::decode(&program.slots).expect("the program is one that the plain interpreter takes");
        Plain {
            flat: flatten(&decoded),
            program: decoded,
            maps: maps.collect(),
            journal: journal.map(|room| Vec::with_capacity(room as usize)),
            frame: frame(),
        }
    }

    fn once(&mut self, is_flat: bool) -> plain::Exit {
        if let Some(journal) = &mut self.journal {
            journal.clear();
        }
        let mut machine = Machine {
            program: &self.program,
            maps: &mut self.maps,
            journal: self.journal.as_mut(),
            frame: &mut self.frame,
            now: 0,
        };
        let ended = if is_flat { machine.run_flat(&self.flat) } else { machine.run() };
        ended.unwrap_or_else(|trap| panic!("the plain interpreter stopped: {trap:?}"))
    }

    fn run(&mut self, runs: u32, is_flat: bool) -> Outcome {
        let mut last = plain::Exit { verdict: 0, steps: 0 };
        for _ in 0..runs {
            last = std::hint::black_box(self.once(is_flat));
        }
        Outcome { verdict: last.verdict.into(), steps: last.steps, hash: fnv1a64(&self.frame) }
    }
}

fn refused<T>(fault: u8) -> T {
    panic!("the library stopped with fault {fault}")
}

/// A program that is timed.
struct Row {
    name: &'static str,
    program: Program,
    /// How many parts a run has, if not its instructions.
    parts: Option<u64>,
    journal: u32,
    plain_journal: bool,
}

impl Row {
    fn of_instructions(name: &'static str, program: Program) -> Row {
        Row { name, program, parts: None, journal: 16, plain_journal: false }
    }

    fn of_lookups(name: &'static str, plain_journal: bool) -> Row {
        let program = programs::map_loads(LOOKUPS as usize);
        Row { name, program, parts: Some(LOOKUPS.into()), journal: JOURNAL, plain_journal }
    }

    fn once(&self) -> Plan {
        Plan { runs: 1, journal: self.journal }
    }

    fn plain(&self) -> Plain {
        Plain::of(&self.program, self.plain_journal.then_some(self.journal))
    }

    /// What a run comes to. The three interpreters have to agree on it.
    fn outcome(&self) -> Outcome {
        let outcome = library::run(&self.program.image(), &frame(), self.once()).unwrap_or_else(refused);
        assert_eq!(outcome, self.plain().run(1, false), "{}: the interpreters differ", self.name);
        assert_eq!(outcome, self.plain().run(1, true), "{}: the flat interpreter differs", self.name);
        outcome
    }

    fn runs(&self, outcome: Outcome) -> u32 {
        (INSTRUCTIONS / outcome.steps) as u32
    }

    /// What so many runs take: in the library, in its calls without the runs, and in the plain interpreters.
    fn pass(&self, runs: u32) -> [f64; 4] {
        let (image, frame, plan) = (self.program.image(), frame(), Plan { runs, ..self.once() });
        let (mut plain, mut flat) = (self.plain(), self.plain());
        measure::least([
            &mut || _ = library::run(&image, &frame, plan).unwrap_or_else(refused),
            &mut || library::prepare(&image, &frame, plan).unwrap_or_else(refused),
            &mut || _ = plain.run(runs, false),
            &mut || _ = flat.run(runs, true),
        ])
    }

    fn print(&self, outcome: Outcome, times: [f64; 4]) {
        let parts = (u64::from(self.runs(outcome)) * self.parts.unwrap_or(outcome.steps)) as f64;
        let [whole, around, plain, flat] = times.map(|time| time / parts);
        let (steps, library) = (outcome.steps, whole - around);
        println!(
            "| {} | {steps} | {library:.2} | {plain:.2} | {:.2} | {flat:.2} | {:.2} |",
            self.name,
            library / plain,
            library / flat,
        );
    }
}

/// What images take to be decoded, and to be decoded and verified, in nanoseconds.
struct Verifying {
    image: Vec<u8>,
    slots: usize,
    times: [f64; 2],
}

impl Verifying {
    fn of(program: &Program) -> Verifying {
        Verifying { image: program.image(), slots: program.slots.len(), times: [f64::INFINITY; 2] }
    }

    fn pass(&mut self) {
        let count = SLOTS.div_ceil(self.slots) as u32;
        let times = measure::least([
            &mut || library::decode(&self.image, count).unwrap_or_else(refused),
            &mut || library::verify(&self.image, count).unwrap_or_else(refused),
        ]);
        self.times = measure::lesser(self.times, times.map(|time| time / f64::from(count)));
    }

    fn print(&self) {
        let [decoded, verified] = self.times;
        let slots = self.slots as f64;
        println!(
            "| {} | {:.0} | {:.1} | {:.0} | {:.0} |",
            self.slots,
            1e9 / verified,
            verified / 1e3,
            verified / slots,
            decoded / slots,
        );
    }
}

fn rows() -> Vec<Row> {
    vec![
        Row::of_instructions("an instruction of straight arithmetic (4000)", programs::straight(4000)),
        Row::of_instructions("an instruction of random arithmetic (200)", programs::random(200)),
        Row::of_instructions("an instruction of branches (500 jumps)", programs::branches(500)),
        Row::of_instructions("an instruction of packet loads (1000)", programs::packet_loads(1000)),
        Row::of_instructions("an instruction of stack stores and loads (1000)", programs::stack_words(1000)),
        Row::of_lookups("a map lookup and load (400)", false),
        Row::of_lookups("the same lookup, plain Rust with a journal too", true),
    ]
}

fn print_running(word: &str) {
    let mut timed: Vec<(Row, Outcome, [f64; 4])> = rows()
        .into_iter()
        .filter(|row| row.name.contains(word))
        .map(|row| (row.outcome(), row))
        .map(|(outcome, row)| (row, outcome, [f64::INFINITY; 4]))
        .collect();
    for _ in 0..PASSES {
        for (row, outcome, times) in &mut timed {
            *times = lesser(*times, row.pass(row.runs(*outcome)));
        }
    }
    println!("| nanoseconds for | instructions a run | machine | plain Rust | ratio | flat plain Rust | ratio |");
    println!("|---|---|---|---|---|---|---|");
    timed.iter().for_each(|(row, outcome, times)| row.print(*outcome, *times));
}

fn print_verifying() {
    let programs = [programs::small(), programs::mixed(250), programs::mixed(4096)];
    let mut timed: Vec<Verifying> = programs.iter().map(Verifying::of).collect();
    for _ in 0..PASSES {
        timed.iter_mut().for_each(Verifying::pass);
    }
    println!("\n| slots | images decoded and verified a second | µs an image | ns a slot | of these to decode it |");
    println!("|---|---|---|---|---|");
    timed.iter().for_each(Verifying::print);
}

fn main() {
    let word = std::env::args().nth(1).unwrap_or_default();
    print_running(&word);
    if "verify".contains(&word) {
        print_verifying();
    }
    if "queues".contains(&word) {
        queues::print();
    }
    if "maps".contains(&word) {
        maps::print();
    }
    if "audit".contains(&word) {
        audits::print();
    }
    if "shards".contains(&word) {
        shards::print();
    }
    if "threads".contains(&word) {
        threads::print();
    }
    if "control".contains(&word) {
        control::print();
    }
    if "steer".contains(&word) {
        steer::print();
    }
}
