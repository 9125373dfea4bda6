//! Prints random scripts, or counts what they lead to.
//!
//!     histories SEED                 the script of a seed
//!     histories SEED FOLDER COUNT    COUNT scripts from that seed on, and their traces, as files in FOLDER
//!     histories --coverage N         how often each kind of answer comes in the scripts of the seeds 0 to N - 1

use std::io::{self, Write};
use std::path::Path;
use std::process::ExitCode;

use plain::histories::Coverage;

const USAGE: &str = "histories SEED | histories SEED FOLDER COUNT | histories --coverage N";

fn main() -> io::Result<ExitCode> {
    let words: Vec<String> = std::env::args().skip(1).collect();
    let words: Vec<&str> = words.iter().map(String::as_str).collect();
    match words.as_slice() {
        ["--coverage", count] => {
            if let Ok(count) = count.parse() {
                coverage(count)?;
                return Ok(ExitCode::SUCCESS);
            }
        }
        [seed] => {
            if let Ok(seed) = seed.parse() {
                io::stdout().lock().write_all(&plain::script(seed))?;
                return Ok(ExitCode::SUCCESS);
            }
        }
        [seed, folder, count] => {
            if let (Ok(seed), Ok(count)) = (seed.parse::<u64>(), count.parse::<u64>()) {
                for seed in seed..seed + count {
                    let script = plain::script(seed);
                    let name = Path::new(folder).join(format!("history-{seed:06}"));
                    std::fs::write(name.with_extension("script"), &script)?;
                    std::fs::write(name.with_extension("trace"), plain::rehearse(&script))?;
                }
                return Ok(ExitCode::SUCCESS);
            }
        }
        _ => {}
    }
    eprintln!("{USAGE}");
    Ok(ExitCode::FAILURE)
}

fn coverage(count: u64) -> io::Result<()> {
    let mut coverage = Coverage::default();
    for seed in 0..count {
        coverage.add(&plain::script(seed));
    }
    let mut out = io::stdout().lock();
    writeln!(
        out,
        "{} scripts, {} commands, {} bytes",
        coverage.scripts, coverage.commands, coverage.bytes
    )?;
    writeln!(out, "{:>8} {:>8}  kind", "times", "scripts")?;
    for (kind, (times, scripts)) in &coverage.kinds {
        writeln!(out, "{times:>8} {scripts:>8}  {kind}")?;
    }
    Ok(())
}
