//! Rehearses a fair: random juries of one shape, 64 at a time, by several threads. `tools/fair --help` says how.

mod draw;
mod options;
mod rehearse;
mod report;

use jugyvaros::{GateList, JuryRefusal};
use options::Options;
use rehearse::{seconds, Clock, Fair, Outcome};
use std::io::{IsTerminal, Write};
use std::process::ExitCode;
use std::time::{Duration, Instant};

/// A seed's number: FNV-1a over its bytes.
fn seed_number(seed: &str) -> u64 {
    seed.bytes().fold(0xCBF2_9CE4_8422_2325, |hash, byte| (hash ^ u64::from(byte)).wrapping_mul(0x100_0000_01B3))
}

/// Runs the fair on several threads, with a progress bar on a terminal.
fn rehearsed(fair: &Fair, jobs: usize) -> Result<Outcome, JuryRefusal> {
    let began = Instant::now();
    let looked_at = std::io::stderr().is_terminal();
    std::thread::scope(|scope| {
        let workers: Vec<_> = (0..jobs).map(|_| scope.spawn(|| fair.work())).collect();
        while looked_at && !workers.iter().all(|worker| worker.is_finished()) {
            eprint!("\r{}\x1b[K", report::bar(fair.counted(), fair.blocks, began.elapsed().as_secs_f64()));
            std::thread::sleep(Duration::from_millis(100));
        }
        if looked_at {
            eprint!("\r\x1b[K");
        }
        let mut outcome = Outcome::of(fair.draw.shape.candidates);
        for worker in workers {
            outcome.add(&worker.join().expect("no thread panics")?);
        }
        Ok(outcome)
    })
}

fn run(options: &Options) -> Result<(), Box<dyn std::error::Error>> {
    let list = GateList::own(options.draw.shape)?;
    let seed = &options.seed;
    let fair = Fair::new(&list, options.draw, seed_number(seed), options.batches);
    let outcome = rehearsed(&fair, options.jobs)?;
    let text = report::lines(&options.draw, seed, &outcome, seconds(Clock::Process));
    std::io::stdout().write_all(text.as_bytes())?;
    if let Some(file) = &options.svg {
        std::fs::write(file, report::picture(&options.draw, seed, &outcome))
            .map_err(|why| format!("{}: {why}", file.display()))?;
    }
    Ok(())
}

fn main() -> ExitCode {
    let Some(options) = options::read(std::env::args().skip(1)) else {
        eprintln!("fair: tools/fair calls this; tools/fair --help says how");
        return ExitCode::from(2);
    };
    match run(&options) {
        Ok(()) => ExitCode::SUCCESS,
        Err(why) => {
            eprintln!("tools/fair: {why}");
            ExitCode::from(1)
        }
    }
}
