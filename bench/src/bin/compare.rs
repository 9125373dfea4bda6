//! Rehearses random histories by the proved library and by plain Rust, and compares the traces line by line.
//!
//!     compare [N [FIRST]] [open]    the histories of N seeds from FIRST on (100,000 from 0 if left out)
//!
//! Each history is rehearsed as it was written, and then damaged: characters of bytes that are written in hexadecimal
//! digits flipped, lines cut short, repeated, moved, swapped, characters put in and taken out; with `open`, also such
//! as people seldom type. Of the proved library's traces the words in round brackets and the last line are left out. It
//! prints the first differences, each with a script that was shortened as long as it
//! stayed different, and how many there were.

use std::process::ExitCode;
use std::sync::atomic::{AtomicU64, Ordering};
use std::sync::Mutex;
use std::thread;
use std::time::Instant;

use plain::proved;

/// So many differences are printed.
const PRINTED: usize = 10;
/// So many characters of a line are printed.
const WIDTH: usize = 160;

/// A generator of random numbers (splitmix64).
struct Random(u64);

impl Random {
    fn next(&mut self) -> u64 {
        self.0 = self.0.wrapping_add(0x9e37_79b9_7f4a_7c15);
        let mut z = self.0;
        z = (z ^ (z >> 30)).wrapping_mul(0xbf58_476d_1ce4_e5b9);
        z = (z ^ (z >> 27)).wrapping_mul(0x94d0_49bb_1331_11eb);
        z ^ (z >> 31)
    }

    fn below(&mut self, n: usize) -> usize {
        (self.next() % n as u64) as usize
    }
}

/// The lines of a text, without the empty one behind the last.
fn lines(text: &[u8]) -> Vec<Vec<u8>> {
    let text = text.strip_suffix(b"\n").unwrap_or(text);
    text.split(|&byte| byte == b'\n')
        .map(<[u8]>::to_vec)
        .collect()
}

fn joined(lines: &[Vec<u8>]) -> Vec<u8> {
    let mut text = lines.join(&b'\n');
    text.push(b'\n');
    text
}

/// Damages a script in one to eight places.
fn damage(script: &[u8], characters: &[&str], random: &mut Random) -> Vec<u8> {
    let mut lines = lines(script);
    for _ in 0..=random.below(8) {
        let at = random.below(lines.len());
        let place = random.below(lines[at].len() + 1);
        match random.below(10) {
            0..=3 => flip(&mut lines, random),
            4 => lines[at].truncate(place),
            5 => {
                let line = lines[at].clone();
                lines.insert(random.below(lines.len() + 1), line);
            }
            6 => {
                let line = lines.remove(at);
                lines.insert(random.below(lines.len() + 1), line);
            }
            7 => {
                let other = random.below(lines.len());
                lines.swap(at, other);
            }
            8 => {
                let character = characters[random.below(characters.len())].bytes();
                lines[at].splice(place..place, character);
            }
            _ => {
                if place < lines[at].len() {
                    lines[at].remove(place);
                }
            }
        }
    }
    joined(&lines)
}

/// What is put into lines: digits, signs, white space, what a trace has, what is no ASCII.
const CHARACTERS: [&str; 19] = [
    "0", "1", "9", "a", "F", "-", "_", ".", " ", "  ", "\t", "\r", "\u{c}", "#", "(", " (", " -> ",
    "\0", "\u{e9}",
];

/// What people seldom type: a sign before a number, and white space that is not all of ASCII's.
const OPEN: [&str; 5] = ["+", "\u{b}", "\u{85}", "\u{a0}", "\u{2003}"];

/// Flips a bit of a character of one of the lines that have bytes in hexadecimal digits.
fn flip(lines: &mut [Vec<u8>], random: &mut Random) {
    const VERBS: [&[u8]; 5] = [b"publish ", b"tell ", b"say ", b"put-up ", b"put-down "];
    let place = |line: &[u8]| {
        VERBS
            .iter()
            .find(|verb| line.starts_with(verb))
            .map(|verb| verb.len())
    };
    let mut places: Vec<(usize, usize)> = Vec::new();
    for (at, line) in lines.iter().enumerate() {
        if let Some(place) = place(line).filter(|&place| place < line.len()) {
            places.push((at, place));
        }
    }
    if places.is_empty() {
        return;
    }
    let (at, place) = places[random.below(places.len())];
    let digits = &mut lines[at][place..];
    let digit = random.below(digits.len().min(64));
    // Mostly to another digit, so that the bytes stay bytes.
    digits[digit] = match random.below(8) {
        0 => digits[digit] ^ 1 << random.below(8),
        _ => b"0123456789abcdefABCDEF"[random.below(22)],
    };
}

/// The proved library's trace without words for people and without its last line.
fn bare(trace: &[u8]) -> Vec<Vec<u8>> {
    let mut lines = lines(trace);
    if lines.last().is_some_and(|line| line.starts_with(b"#")) {
        lines.pop();
    }
    lines.into_iter().map(without_words).collect()
}

fn without_words(mut line: Vec<u8>) -> Vec<u8> {
    let answer = line
        .windows(4)
        .rposition(|four| four == b" -> ")
        .map_or(0, |at| at + 4);
    if let Some(words) = line[answer..].windows(2).position(|two| two == b" (") {
        line.truncate(answer + words);
    }
    line
}

/// Plain Rust's trace. Bytes of a command that are no text are replaced, as the proved library does.
fn plain_trace(script: &[u8]) -> Vec<Vec<u8>> {
    let trace = plain::rehearse(script);
    if trace.is_empty() {
        return Vec::new();
    }
    lines(&trace)
        .iter()
        .map(|line| String::from_utf8_lossy(line).into_owned().into_bytes())
        .collect()
}

/// The first line in which the traces are different, by the proved library and by plain Rust.
fn difference(script: &[u8]) -> Option<(String, String)> {
    let proved = match proved::rehearse(script) {
        Ok(trace) => bare(&trace),
        Err(number) => return Some((format!("refused by {number}"), String::new())),
    };
    let plain = plain_trace(script);
    if proved == plain {
        return None;
    }
    let at = proved
        .iter()
        .zip(&plain)
        .position(|(one, other)| one != other)
        .unwrap_or(proved.len().min(plain.len()));
    let line = |trace: &[Vec<u8>]| {
        trace.get(at).map_or("(no line)".to_string(), |line| {
            String::from_utf8_lossy(line).chars().take(WIDTH).collect()
        })
    };
    Some((line(&proved), line(&plain)))
}

/// A script that leads to a difference still, with as few lines as leaving out runs of them gives.
fn shortened(script: &[u8]) -> Vec<u8> {
    let mut lines = lines(script);
    let mut run = lines.len() / 2;
    while run > 0 {
        let mut at = 0;
        while at + run <= lines.len() {
            let mut fewer = lines.clone();
            fewer.drain(at..at + run);
            if !fewer.is_empty() && difference(&joined(&fewer)).is_some() {
                lines = fewer;
            } else {
                at += run;
            }
        }
        run /= 2;
    }
    joined(&lines)
}

#[derive(Default)]
struct Found {
    characters: Vec<&'static str>,
    written: AtomicU64,
    damaged: AtomicU64,
    lines: AtomicU64,
    differences: AtomicU64,
    printed: Mutex<usize>,
}

impl Found {
    fn compare(&self, seed: u64, kind: &str, script: &[u8]) {
        let Some(_) = difference(script) else {
            return;
        };
        self.differences.fetch_add(1, Ordering::Relaxed);
        let mut printed = self
            .printed
            .lock()
            .expect("no thread panics while it prints");
        if *printed == PRINTED {
            return;
        }
        *printed += 1;
        let script = shortened(script);
        if let Some((proved, plain)) = difference(&script) {
            println!("seed {seed}, {kind}:");
            println!("  proved  {proved}");
            println!("  plain   {plain}");
            for line in lines(&script) {
                let line: String = String::from_utf8_lossy(&line).chars().take(WIDTH).collect();
                println!("    {}", line.escape_debug());
            }
        }
    }

    fn history(&self, seed: u64) {
        let script = plain::script(seed);
        self.lines
            .fetch_add(lines(&script).len() as u64, Ordering::Relaxed);
        self.compare(seed, "as written", &script);
        self.written.fetch_add(1, Ordering::Relaxed);
        let damaged = damage(
            &script,
            &self.characters,
            &mut Random(seed ^ 0x6461_6d61_6765_6421),
        );
        self.compare(seed, "damaged", &damaged);
        self.damaged.fetch_add(1, Ordering::Relaxed);
    }
}

fn main() -> ExitCode {
    let words: Vec<String> = std::env::args().skip(1).collect();
    let (numbers, characters) = match words.as_slice() {
        [numbers @ .., word] if word == "open" => (numbers, [&CHARACTERS[..], &OPEN].concat()),
        numbers => (numbers, CHARACTERS.to_vec()),
    };
    let numbers: Option<Vec<u64>> = numbers.iter().map(|word| word.parse().ok()).collect();
    let (count, first) = match numbers.as_deref() {
        Some([]) => (100_000, 0),
        Some([count]) => (*count, 0),
        Some([count, first]) => (*count, *first),
        _ => {
            eprintln!("compare [N [FIRST]] [open]");
            return ExitCode::FAILURE;
        }
    };
    let found = Found {
        characters,
        ..Found::default()
    };
    let next = AtomicU64::new(first);
    let start = Instant::now();
    let threads = thread::available_parallelism().map_or(1, usize::from);
    thread::scope(|scope| {
        for _ in 0..threads {
            scope.spawn(|| loop {
                let seed = next.fetch_add(1, Ordering::Relaxed);
                if seed >= first + count {
                    break;
                }
                found.history(seed);
            });
        }
    });
    let differences = found.differences.load(Ordering::Relaxed);
    println!(
        "{} histories as written with {} lines, {} damaged: {differences} different, in {} s on {threads} threads",
        found.written.load(Ordering::Relaxed),
        found.lines.load(Ordering::Relaxed),
        found.damaged.load(Ordering::Relaxed),
        start.elapsed().as_secs(),
    );
    if differences == 0 {
        ExitCode::SUCCESS
    } else {
        ExitCode::FAILURE
    }
}
