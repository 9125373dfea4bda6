//! How long the same work takes the proved library, plain Rust, and a copy of the same bytes.
//!
//!     speed [RUNS [WORD]]    the fastest of RUNS runs (9 if left out), in rows whose name has WORD
//!
//! A scenario makes its parts and does its work in one call. So each is timed twice, with few rounds of the work and
//! with more, and what the second takes longer is the time of the rounds between. The runs of the proved library, of
//! plain Rust and of the copy take turns in one process. Before a row is timed both must answer the same sum.

use std::hint::black_box;
use std::process::ExitCode;
use std::time::{Duration, Instant};

use plain::{proved, twins};

/// The most that a journal takes.
const MEMORY_LIMIT: usize = 16_777_216;
const RING: usize = 65_536;

#[derive(Clone, Copy)]
enum Side {
    Proved,
    Plain,
}

#[derive(Clone, Copy)]
enum Work {
    Packets,
    Ring,
    Append,
    Read,
    Open,
    Copies,
    Level,
    Paced(usize),
    Live { held: usize },
}

impl Work {
    fn run(self, side: Side, memory: usize, length: usize, times: u64) -> u64 {
        let sum = match side {
            Side::Proved => match self {
                Work::Packets => proved::packets(length, times),
                Work::Ring => proved::through_ring(RING, length, times),
                Work::Append => proved::appends(memory, length, times),
                Work::Read => proved::reads(memory, length, times),
                Work::Open => proved::opens(memory, length, times),
                Work::Copies => proved::copies(memory, length, times),
                Work::Level => proved::levels(memory, length, times),
                Work::Paced(pace) => proved::levels_paced(pace, memory, length, times),
                Work::Live { held } => proved::lives(memory, length, held, times),
            },
            Side::Plain => match self {
                Work::Packets => twins::packets(length, times),
                Work::Ring => twins::through_ring(RING, length, times),
                Work::Append => twins::appends(memory, length, times),
                Work::Read => twins::reads(memory, length, times),
                Work::Open => twins::opens(memory, length, times),
                Work::Copies => twins::copies(memory, length, times),
                Work::Level => twins::levels(memory, length, times),
                Work::Paced(pace) => twins::levels_paced(pace, memory, length, times),
                Work::Live { held } => twins::lives(memory, length, held, times),
            }
            .map_err(|refusal| refusal.number()),
        };
        sum.unwrap_or_else(|number| panic!("refused by {number}"))
    }

    fn timed(self, side: Side, memory: usize, length: usize, times: u64) -> Duration {
        let start = Instant::now();
        black_box(self.run(side, memory, length, times));
        start.elapsed()
    }
}

struct Row {
    name: String,
    work: Work,
    /// What is done in `work` and is not to be timed.
    less: Option<Work>,
    memory: usize,
    length: usize,
    /// How many messages, packets or pieces a round of the work has.
    count: u64,
    /// How many rounds are done before those that are timed, so that all memory was touched.
    before: u64,
    /// How many rounds are timed.
    rounds: u64,
}

/// What a row's units took, in nanoseconds each.
struct Times {
    proved: f64,
    plain: f64,
    copy: f64,
}

impl Row {
    fn agrees(&self) -> bool {
        [self.before, self.before + self.rounds]
            .iter()
            .all(|&times| {
                let sum = |side| self.work.run(side, self.memory, self.length, times);
                sum(Side::Proved) == sum(Side::Plain)
            })
    }

    fn measure(&self, runs: u32) -> Times {
        let mut proved = Fastest::new();
        let mut plain = Fastest::new();
        let mut copy = Duration::MAX;
        let mut copier = Copier::new(self.length, self.count);
        for run in 0..runs {
            if run % 2 == 0 {
                proved.note(self, Side::Proved);
                plain.note(self, Side::Plain);
            } else {
                plain.note(self, Side::Plain);
                proved.note(self, Side::Proved);
            }
            copy = copy.min(copier.timed(self.rounds));
        }
        let units = (self.count * self.rounds) as f64;
        Times {
            proved: proved.nanoseconds() / units,
            plain: plain.nanoseconds() / units,
            copy: copy.as_nanos() as f64 / units,
        }
    }
}

/// The fastest of several runs: with few rounds and with more, of the work and of what is not to be timed.
struct Fastest {
    few: [Duration; 2],
    more: [Duration; 2],
}

impl Fastest {
    fn new() -> Fastest {
        Fastest {
            few: [Duration::MAX; 2],
            more: [Duration::MAX; 2],
        }
    }

    fn note(&mut self, row: &Row, side: Side) {
        for (place, work) in [Some(row.work), row.less].into_iter().enumerate() {
            match work {
                Some(work) => {
                    let timed = |times| work.timed(side, row.memory, row.length, times);
                    self.few[place] = self.few[place].min(timed(row.before));
                    self.more[place] = self.more[place].min(timed(row.before + row.rounds));
                }
                None => {
                    self.few[place] = Duration::ZERO;
                    self.more[place] = Duration::ZERO;
                }
            }
        }
    }

    fn nanoseconds(&self) -> f64 {
        let taken =
            |place: usize| self.more[place].as_nanos() as f64 - self.few[place].as_nanos() as f64;
        taken(0) - taken(1)
    }
}

/// So far the run of bytes that is copied to lies behind a multiple of a page, other than the one that is copied from.
const APART: usize = 1_088;

/// Copies as many bytes, message by message, from one run of bytes to another: those of a journal one behind the
/// other, and those of a packet or a piece in the same place.
struct Copier {
    length: usize,
    from: Vec<u8>,
    to: Vec<u8>,
}

impl Copier {
    fn new(length: usize, count: u64) -> Copier {
        let bytes = length * count as usize;
        Copier {
            length,
            from: vec![7; bytes],
            to: vec![9; bytes + APART],
        }
    }

    fn timed(&mut self, rounds: u64) -> Duration {
        let start = Instant::now();
        for _ in 0..rounds {
            let from = self.from.chunks_exact(self.length);
            for (to, from) in self.to[APART..].chunks_exact_mut(self.length).zip(from) {
                black_box(to).copy_from_slice(black_box(from));
            }
        }
        start.elapsed()
    }
}

fn rows() -> Vec<Row> {
    let mut rows = Vec::new();
    let each = |work, name: &str, length, rounds| Row {
        name: format!("{name}, {length} bytes"),
        work,
        less: None,
        memory: 0,
        length,
        count: 1,
        before: 0,
        rounds,
    };
    for (length, rounds) in [(12, 3_000_000), (64, 3_000_000), (4_096, 300_000)] {
        rows.push(each(
            Work::Packets,
            "packet written and read",
            length,
            rounds,
        ));
    }
    for (length, rounds) in [(64, 5_000_000), (4_096, 500_000)] {
        rows.push(each(
            Work::Ring,
            "piece put on a ring and taken",
            length,
            rounds,
        ));
    }
    let many = |work, less, name: &str, count: usize, length: usize, rounds| Row {
        name: format!("{name}, {count} x {length}"),
        work,
        less,
        memory: 5 + count * (4 + length),
        length,
        count: count as u64,
        before: 1,
        rounds,
    };
    let sizes = [(1_000_000, 12), (240_000, 64)];
    for (count, length) in sizes {
        rows.push(many(
            Work::Append,
            None,
            "journal: append",
            count,
            length,
            8,
        ));
    }
    for (count, length) in sizes {
        rows.push(many(Work::Read, None, "journal: read", count, length, 8));
    }
    for (count, length) in sizes {
        rows.push(many(
            Work::Open,
            Some(Work::Copies),
            "journal: open",
            count,
            length,
            4,
        ));
    }
    for (count, length, rounds) in [
        (1_000_000, 12, 2),
        (240_000, 64, 4),
        (4_000, 4_096, 20),
        (1_000, 12, 1_000),
        (10_000, 12, 100),
        (100_000, 12, 10),
    ] {
        rows.push(many(Work::Level, None, "catch-up", count, length, rounds));
    }
    for (count, length, rounds) in [(20_000, 12, 10), (5_000, 64, 10)] {
        rows.push(many(
            Work::Paced(1),
            None,
            "catch-up paced 1",
            count,
            length,
            rounds,
        ));
    }
    for held in [1_000, 1_000_000] {
        rows.push(Row {
            name: format!("publish and a round, {held} held, 8 bytes"),
            work: Work::Live { held },
            less: None,
            memory: MEMORY_LIMIT,
            length: 8,
            count: 1,
            before: 0,
            rounds: 390_000,
        });
    }
    rows
}

/// Lets the allocator keep what it has, so that no run pays for pages that are new to the process.
fn keep_memory() {
    const TRIM_THRESHOLD: i32 = -1;
    const MMAP_THRESHOLD: i32 = -3;
    extern "C" {
        fn mallopt(parameter: i32, value: i32) -> i32;
    }
    // SAFETY: it takes two numbers, and no other thread runs yet.
    unsafe {
        mallopt(MMAP_THRESHOLD, 32 * 1024 * 1024);
        mallopt(TRIM_THRESHOLD, i32::MAX);
    }
}

fn main() -> ExitCode {
    let mut words = std::env::args().skip(1);
    let runs = words.next().map_or(Some(9), |word| word.parse().ok());
    let Some(runs @ 1..) = runs else {
        eprintln!("speed [RUNS [WORD]]");
        return ExitCode::FAILURE;
    };
    let wanted = words.next().unwrap_or_default();
    keep_memory();
    println!("| nanoseconds for each | proved | plain | copy | proved / plain | proved / copy |");
    println!("|---|---|---|---|---|---|");
    for row in rows().iter().filter(|row| row.name.contains(&wanted)) {
        if !row.agrees() {
            println!("| {} | the sums are different |", row.name);
            return ExitCode::FAILURE;
        }
        let Times {
            proved,
            plain,
            copy,
        } = row.measure(runs);
        println!(
            "| {} | {proved:.2} | {plain:.2} | {copy:.2} | {:.2} | {:.2} |",
            row.name,
            proved / plain,
            proved / copy
        );
    }
    ExitCode::SUCCESS
}
