//! Compares the proved library with a plain one and times both.
mod compare;
mod files;
mod inputs;
mod plain;
mod timing;

use compare::{Tables, Tally};
use inputs::Layout;
use std::env;
use std::process::ExitCode;

const USAGE: &str = "usage: bench compare [SURVEYS] | bench time [SCALE] | bench feed proved|plain random|grid SITES";

fn main() -> ExitCode {
    let words: Vec<String> = env::args().skip(1).collect();
    let words: Vec<&str> = words.iter().map(String::as_str).collect();
    let number = |word: Option<&&str>, default| word.map_or(Some(default), |word| word.parse().ok());
    let done = match words.as_slice() {
        ["compare", rest @ ..] => number(rest.first(), 3_000).map(compare),
        ["time", rest @ ..] => number(rest.first(), 10).map(timing::run),
        ["feed", library, layout, sites] => feed(library, layout, sites),
        _ => None,
    };
    match done {
        Some(()) => ExitCode::SUCCESS,
        None => {
            eprintln!("{USAGE}");
            ExitCode::from(2)
        }
    }
}

/// Compares surveys and files, and prints how often each outcome was met.
fn compare(count: usize) {
    let mut tally = Tally::default();
    compare::surveys(count, &mut tally);
    files::files(2 * count, &mut tally);
    for ((call, outcome), times) in &tally.calls {
        let outcome = if *outcome == 0 { "accepted".to_string() } else { format!("refused {outcome}") };
        println!("{call:<7} {outcome:<11} {times:>8}");
    }
    println!("{} calls, all the same", tally.total());
}

/// Feeds one survey to one library, for a profiler.
fn feed(library: &str, layout: &str, sites: &str) -> Option<()> {
    let layout = [Layout::Random, Layout::Grid].into_iter().find(|known| known.name() == layout)?;
    let sites = timing::timed_sites(layout, sites.parse().ok()?);
    let mut tables = Tables::new(1_024, 16_384);
    let counts = match library {
        "proved" => timing::feed_proved(&mut tables, &sites),
        "plain" => timing::feed_plain(&mut tables, &sites),
        _ => return None,
    };
    println!("{counts:?}");
    Some(())
}
